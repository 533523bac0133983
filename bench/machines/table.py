"""Runs the benches of both machines under callgrind and prints what they take beside their parts, in instructions.

Instructions, and not time: they are the same on a busy machine. Each number is the difference of two runs, of which the
second makes more rounds, so that what comes before the rounds isn't in it.
"""
import re
import subprocess
import sys
import tempfile

PROGRAM = sys.argv[1]


def told(row, tool):
    words = ["valgrind"] + tool + [PROGRAM]
    done = subprocess.run(words, input=row + "\n", capture_output=True, text=True, check=True)
    return done.stdout, done.stderr


def instructions(row):
    out = told(row, ["--tool=callgrind", "--callgrind-out-file=/dev/null"])[1]
    return int(re.search(r"Collected : ([0-9]+)", out).group(1))


def allocations(row):
    """How often memory is asked for."""
    with tempfile.NamedTemporaryFile(mode="r") as out:
        told(row, ["--tool=callgrind", "--compress-strings=no", "--callgrind-out-file=" + out.name])
        found = re.findall(r"^cfn=(?:malloc|calloc|realloc).*\ncalls=([0-9]+)", out.read(), re.MULTILINE)
    return sum(int(count) for count in found)


def each(count, row, fewer=1000, more=2000):
    """What one more round takes."""
    return (count(row % more) - count(row % fewer)) / (more - fewer)


def told_end(files, size):
    """What the end takes beyond the writes."""
    return instructions("end %d %d" % (files, size)) - instructions("written %d %d" % (files, size))


cache = each(instructions, "cache %d")
print("A Read of 64 bytes of the cache alone: %d instructions" % cache)
for name, row in (("a Read at once", "at_once"), ("of two files in turn", "in_turn"), ("a Read", "read"),
                  ("a Write", "write")):
    few, many, most = (each(instructions, "%s %d %%d" % (row, files)) for files in (6, 63, 630))
    taken = each(allocations, row + " 6 %d", 100, 200)
    print("Covered, of 64 bytes, %s: %d instructions (%.1f times the cache's), with 63 and 630 files %d and %d; %.1f "
          "allocations" % (name, few, few / cache, many, most, taken))
for files, size in (225, 1024), (450, 1024), (900, 1024), (900, 64):
    print("The end of %d files with %d dirty bytes, server and host: %.1f million instructions" % (
        files, size, told_end(files, size) / 1e6))
for files in 10, 900:
    print(told("exporter 16 %d 1000" % files, ["--tool=none"])[0].strip())
print(told("table 1562 1000", ["--tool=none"])[0].strip())
