"""Decodes each message many times, cut by its last byte so that it is read to its end and nothing else is done with it,
and takes off the processor time of as many rows of the same bytes that stop at the first one. Memory is all that
a decoding asks for, what it frees meanwhile too, as `valgrind` counts it for one row of each kind."""
import os
import re
import subprocess
import sys
import tempfile

PROGRAM = sys.argv[1]
FID = "000100010000000200000003"
TOKEN = "01" + "0000000000000001" * 2 + "01" + FID + "0201"


def grant(tokens, pieces):
    """The groups of a Grant with so many tokens and these counts of pieces of so many bytes, without its last byte."""
    groups = ["03010101" + "0000000000000001" * 2, FID, "0000000000000009", "00", "%016x" % tokens]
    groups += ["%d*%s" % (tokens, TOKEN)] if tokens else []
    count, size = pieces
    groups += ["%04x" % count]
    if size <= 64:
        groups += ["%d*%08x%08x%s" % (count, 0, size, "61" * size)]
    else:
        for _ in range(count):
            groups += ["%08x%08x" % (0, size), "%d*61" % size]
    return groups + ["0000", "000000"]


def size(groups):
    """How many bytes the groups are."""
    total = 0
    for group in groups:
        count, _, digits = group.rpartition("*")
        total += int(count or 1) * len(digits) // 2
    return total


def rows(groups, stop, count):
    """So many rows of a table."""
    return ("x | %s | bad %d\n" % (" ".join(groups), stop)) * count


def measure(text, count):
    """The least processor time of seven runs, in seconds."""
    best = None
    with tempfile.TemporaryFile() as source:
        source.write(text.encode())
        for _ in range(7):
            source.seek(0)
            child = subprocess.Popen([PROGRAM], stdin=source, stdout=subprocess.PIPE)
            told = child.stdout.read().decode()
            _, status, usage = os.wait4(child.pid, 0)
            spent = usage.ru_utime + usage.ru_stime
            if status != 0 or told != "%d rows\n" % count:
                sys.exit("status %d: %s" % (status, told[:200]))
            best = spent if best is None else min(best, spent)
    return best


def asked(text):
    """How many bytes of memory a run asks for."""
    ran = subprocess.run(["valgrind", PROGRAM], input=text.encode(), capture_output=True, check=True)
    told = re.search(r"([0-9,]+) bytes allocated", ran.stderr.decode())
    return int(told.group(1).replace(",", ""))


ROWS = [
    ("Grant, 1 piece of 65,536 bytes", grant(0, (1, 65536)), 400),
    ("Grant, 64 pieces of 1,024 bytes", grant(0, (64, 1024)), 400),
    ("Grant, 1,024 pieces of 64 bytes", grant(0, (1024, 64)), 400),
    ("Grant, 65,535 pieces of 1 byte", grant(0, (65535, 1)), 40),
    ("Grant, 65,535 pieces of 0 bytes", grant(0, (65535, 0)), 40),
    ("Grant, 1,000 tokens", grant(1000, (0, 0)), 400),
    ("Grant, 2,000 tokens", grant(2000, (0, 0)), 400),
    ("Grant, 20,000 tokens", grant(20000, (0, 0)), 40),
]

print("| Message | Bytes | Processor milliseconds | Memory to bytes |")
print("|---|---|---|---|")
for name, groups, count in ROWS:
    bytes_of = size(groups)
    refused = ["00" + groups[0][2:]] + groups[1:]
    read = measure(rows(groups, bytes_of, count), count)
    idle = measure(rows(refused, 0, count), count)
    memory = asked(rows(groups, bytes_of, 1)) - asked(rows(refused, 0, 1))
    cells = (name, bytes_of, (read - idle) / count * 1000, memory / bytes_of)
    print("| %s | %d | %.3f | %.1f |" % cells, flush=True)
