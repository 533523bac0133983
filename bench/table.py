"""Runs the program, and a second one where its path is given, on each input five times in turn. Prints the best time of the
first, its ratio to another row's, to the second program's and to that of `sha256sum` on the same input, and the greatest memory."""
import os
import subprocess
import sys
import tempfile
import time

from scripts import escapes_and_paths, full_files, long_lines, reversed_clones, writes_and_reads

PROGRAM = sys.argv[1]
OTHER = sys.argv[2] if len(sys.argv) > 2 else None
RUNS = 5


def seconds(command, source, wanted):
    """The time of one run, and the memory that it held in MB."""
    source.seek(0)
    began = time.monotonic()
    child = subprocess.Popen(command, stdin=source, stdout=subprocess.DEVNULL)
    _, status, usage = os.wait4(child.pid, 0)
    spent = time.monotonic() - began
    if wanted and status != 0:
        sys.exit("%s ended with %d" % (" ".join(command), status))
    return spent, usage.ru_maxrss / 1024


def measure(words, script):
    """The best times of the program, of the other one and of `sha256sum`, all in turn, the program's greatest memory and the
    length of the script in MB. A run counts at least the memory of this process, so the script is written line by line."""
    best = {}
    memory = 0
    commands = {"own": [PROGRAM] + words, "sum": ["sha256sum"]}
    if OTHER:
        commands["other"] = [OTHER] + words
    with tempfile.TemporaryFile() as source:
        source.writelines(script)
        source.flush()
        length = source.tell() / 1e6
        for _ in range(RUNS):
            for name, command in commands.items():
                spent, held = seconds(command, source, name == "own")
                best[name] = min(best.get(name, spent), spent)
                if name == "own":
                    memory = max(memory, held)
    return best, memory, length


ROWS = [
    ("`gen 7 8 100`", ["gen", "7", "8", "100"], lambda: [], None),
    ("`gen 7 8 400`", ["gen", "7", "8", "400"], lambda: [], "`gen 7 8 100`"),
    ("`gen 7 16 400` (6,400 calls)", ["gen", "7", "16", "400"], lambda: [], None),
    ("1,000 lines of writes and reads", ["run"], lambda: writes_and_reads(1000), None),
    ("10,000 lines of writes and reads", ["run"], lambda: writes_and_reads(10000), "1,000 lines of writes and reads"),
    ("9,990 clone lines in reverse", ["run"], reversed_clones, None),
    ("10,000 lines, 80 MB of spaces", ["run"], long_lines, None),
    ("10,000 lines, 80 MB of escapes and deep paths", ["run"], escapes_and_paths, None),
    ("62 files of 64 KiB, written and dumped", ["run"], full_files, None),
]


def main():
    """Prints the table."""
    times = {}
    print("| Input | Script, MB | Seconds | Ratio |" + (" To the other program |" if OTHER else "") + " To `sha256sum` | Peak memory, MB |")
    print("|---|---|---|---|" + ("---|" if OTHER else "") + "---|---|")
    for name, words, script, base in ROWS:
        best, memory, length = measure(words, script())
        times[name] = best["own"]
        ratio = "%.1f to %s" % (best["own"] / times[base], base) if base else ""
        cells = [name, "%.1f" % length, "%.3f" % best["own"], ratio]
        if OTHER:
            cells.append("%.2f" % (best["own"] / best["other"]))
        cells += ["%.2f" % (best["own"] / best["sum"]) if length > 1 else "", "%.0f" % memory]
        print("| " + " | ".join(cells) + " |", flush=True)


if __name__ == "__main__":
    main()
