"""Runs scripts over a disk that is a file, in memory (/dev/shm, where a sync waits for nothing) and in a folder on a real disk, and
without one. Prints the best seconds of each, the processor seconds of the first, and how often the file was synced, as strace counts."""
import os
import re
import resource
import subprocess
import sys
import tempfile
import time

sys.path.insert(0, os.path.join(os.path.dirname(os.path.abspath(__file__)), ".."))
from scripts import full_files, generated  # noqa: E402

PROGRAM = sys.argv[1]
RUNS = 3
HEAD = b"servers 1\nuser u g\n"


def looks():
    """A script that changes nothing on a disk that has the fileset."""
    return HEAD + b"host c1 u\nfileset work s1 64 u\nbegin\nc1 read /work/shared 0 64\n"


def run(script, names, command=()):
    """One run in the present folder: its seconds, its processor seconds."""
    before, began = resource.getrusage(resource.RUSAGE_CHILDREN), time.monotonic()
    done = subprocess.run([*command, PROGRAM, "run", "--json", *names], input=script, stdout=subprocess.DEVNULL)
    spent, after = time.monotonic() - began, resource.getrusage(resource.RUSAGE_CHILDREN)
    if done.returncode != 0:
        sys.exit("the program ended with %d" % done.returncode)
    return spent, after.ru_utime + after.ru_stime - before.ru_utime - before.ru_stime


def best(script, folder, first):
    """The best seconds and processor seconds of a script over a disk in this folder, new each time or, where there is a script
    that comes first, left by that."""
    times = []
    with tempfile.TemporaryDirectory(dir=folder) as room:
        disk = room + "/d1"
        for _ in range(RUNS):
            if os.path.exists(disk):
                os.remove(disk)
            if first:
                run(first, [disk])
            times.append(run(script, [disk]))
    return [min(column) for column in zip(*times)]


def syncs(script, first):
    """How often the file of a disk is synced, how often it is written and read."""
    with tempfile.TemporaryDirectory(dir="/dev/shm") as room:
        disk, seen = room + "/d1", room + "/seen"
        if first:
            run(first, [disk])
        run(script, [disk], ("strace", "-f", "-e", "trace=pread64,pwrite64,fsync,fdatasync", "-o", seen))
        with open(seen) as lines:
            calls = [found.group(1) for found in (re.match(r"\d+ +(\w+)\(", line) for line in lines) if found]
    return [sum(call in names for call in calls) for names in (("fsync", "fdatasync"), ("pwrite64",), ("pread64",))]


GEN = b"".join(generated(7, 16, 400))
ROWS = [
    ("an empty fileset, on a new disk", HEAD + b"host c1 u\nfileset home s1 64 u\nbegin\n", None),
    ("what `gen 7 16 400` makes, as a script (6,400 calls)", GEN, None),
    ("one read, on the disk that this left", looks(), GEN),
    ("62 files of 64 KiB", b"".join(full_files()), None),
]


def main():
    """Prints the table."""
    print("| Script | Without a disk, s | File in memory, s | of them processor | File on a disk, s | Syncs | Writes | Reads |")
    print("|---|---|---|---|---|---|---|---|")
    for name, script, first in ROWS:
        plain = min(run(script, [])[0] for _ in range(RUNS))
        memory, real = best(script, "/dev/shm", first), best(script, None, first)
        cells = ["%.3f" % plain, "%.3f" % memory[0], "%.3f" % memory[1], "%.3f" % real[0]]
        print("| " + " | ".join([name, *cells, *("{:,}".format(n) for n in syncs(script, first))]) + " |", flush=True)


main()
