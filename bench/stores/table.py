"""Times rows of the stores' tests over large and small files, and prints processor microseconds a row; what the rows
that make the files take is taken off."""
import resource
import subprocess
import sys

PROGRAM = sys.argv[1]
FILES = 63
RUNS = 7
ROWS = 20_000
LENGTHS = [65_536, 1_024]
TEXT = "x" * 1_024
NONE = "." * 1_024
KINDS = [
    ("`apply` of a give-back of 1 KiB", lambda i: f's1 acts give c1 {i + 64} s1.1 {i % FILES + 2} 1 - 0 "{TEXT}" = ok'),
    ("`bytes` of 1 KiB", lambda i: f's1 bytes s1.1 {i % FILES + 2} 1 0 1024 = "{NONE}"'),
    ("`walk`", lambda i: f"s1 walk ann /home/f{i % FILES} = s1.1:{i % FILES + 2}:1"),
    ("`would` of `truncate`", lambda i: f"s1 would c1 truncate /home/f{i % FILES} 0 = ok"),
]


def rows(length, count, row):
    yield "s1 acts do c0 1 fileset s1 home 64 ann = ok"
    for file in range(FILES):
        yield f"s1 acts do c1 {file + 1} create /home/f{file} = ok"
        yield f"s1 acts give c1 {file + 1} s1.1 {file + 2} 1 {length} = ok"
    yield from map(row, range(count))


def spent():
    used = resource.getrusage(resource.RUSAGE_CHILDREN)
    return used.ru_utime + used.ru_stime


def seconds(length, count, row):
    """The least processor time of a table with so many rows of a kind; every row has to get what it wants."""
    table = ("\n".join(rows(length, count, row)) + "\n").encode()
    best = None
    for _ in range(RUNS):
        start = spent()
        done = subprocess.run([PROGRAM], input=table, check=True, stdout=subprocess.PIPE)
        took = spent() - start
        assert done.stdout == f"{1 + 2 * FILES + count} rows\n".encode(), done.stdout[:200]
        best = took if best is None else min(best, took)
    return best


print("| Row | 64 KiB files, us | 1 KiB files, us |")
print("|---|---|---|")
for name, row in KINDS:
    each = [(seconds(length, ROWS, row) - seconds(length, 0, row)) / ROWS * 1e6 for length in LENGTHS]
    print("| %s | %.1f | %.1f |" % (name, *each), flush=True)
