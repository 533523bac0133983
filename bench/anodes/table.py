"""Counts the blocks that calls on anodes and directories read and write, and the pages that they put."""
import subprocess
import sys

PROGRAM = sys.argv[1]
BLOCKS = "counts 6835200 18446744073709551615"
NAMES = ["n%02d" % i for i in range(64)]
DIRECTORY = ["create 4 dir"] + ["add 4 %s %d 1" % (name, i + 1) for i, name in enumerate(NAMES)]
FILE = ["create 4 file", "fill 4 64 7"]
WORK = [
    ("`find` in a directory of 64 names", DIRECTORY, "find 4 n63"),
    ("`add` at the end of one of 63 names", DIRECTORY[:-1], "add 4 n63 64 1"),
    ("`add` at the front of one of 63 names", DIRECTORY[:-1], "add 4 a 64 1"),
    ("`drop_name` at the front of one of 64 names", DIRECTORY, "drop 4 n00"),
    ("`clone_of` a file of 64 KiB", FILE, "copy 5 4"),
    ("one byte written into a file of 64 KiB", FILE, "write 4 0 x"),
    ("one byte written into a file of 64 KiB that is shared", FILE + ["copy 5 4"], "write 4 0 x"),
    ("`save` of an access list", ["create 4 dir"], "save 4 0 user_obj:63,group_obj:5,other_obj:4"),
]


def said(row, lines):
    """What the program answers to a row, which stands among the lines that it prints."""
    return next(line[len(row) + 2:].rsplit(", and not ", 1)[0] for line in lines if line.startswith(row + ": "))


print("| Work | Blocks read | Blocks written | Pages put |")
print("|---|---|---|---|")
for name, before, act in WORK:
    done = act + "; free"
    rows = ["aggregate"] + before + [done + " = ?", BLOCKS + " = ?"]
    answer = subprocess.run([PROGRAM], input="\n".join(rows), capture_output=True, text=True, check=True).stdout
    lines = answer.split("\n")
    reads, writes, _syncs = said(BLOCKS, lines).split()
    entries = 2048 - int(said(done, lines).split("; ")[-1])
    print("| %s | %s | %s | %d |" % (name, reads, writes, max(entries - 1, 0)), flush=True)
