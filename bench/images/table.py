"""Times the checks of a disk whose 16 slots are full: a directory with 63 files in each, with lists of access and a block of
bytes each. The disk is built by puts on a formatted one; a row puts nothing more. Prints the seconds of one call, from runs
with 1 row and with 11, best of three, and the memory that the calls add to that of the disk."""
import os
import subprocess
import sys
import tempfile
import time

PROGRAM = sys.argv[1]
BLOCKS = 8192
LIST = "03013f03070504"


def page(p):
    return 6292992 + 512 * p


def block(b):
    return page(1058 + (BLOCKS + 255) // 256) + 1024 * b


def name(text):
    return "%02x%s" % (len(text), text.encode().hex())


def anode(slot, i, kind, length, lists, direct):
    at = page(4 + 66 * slot + i)
    fields = "%02x000000%08x%08x" % (kind, 1, length)
    pointers = (lists + [0, 0, 0])[:3] + (direct + [0] * 12)[:12] + [0]
    return [(at, fields + "".join("%08x" % p for p in pointers)), (at + 76, name("ann")), (at + 137, name("dev"))]


def slot_puts(slot, counts):
    """A clone with a directory of 63 files."""
    head = page(2 + 66 * slot)
    puts = [(head, "02000000%08x%08x%s" % (65537 + slot, 64, name("home%d" % slot)))]

    def taken(text):
        counts.append(1)
        puts.append((block(len(counts) - 1), text))
        return len(counts)

    lists = [taken(LIST) for _ in range(3)]
    files = ["f%02d" % k for k in range(63)]
    entries = "".join((name(f) + "00" * 64)[:128] + "%08x%08x" % (k + 2, 1) for k, f in enumerate(files))
    direct = [taken(entries[at : at + 2048]) for at in range(0, len(entries), 2048)]
    puts += anode(slot, 0, 1, 63, lists, direct)
    for k in range(63):
        puts += anode(slot, k + 1, 2, 1024, [taken(LIST)], [taken("61" * 1024)])
    return puts


def full_disk():
    counts = []
    puts = [(page(0) + 8, "%08x" % 17)]
    for slot in range(16):
        puts += slot_puts(slot, counts)
    for p in range(0, len(counts), 256):
        puts.append((page(1058 + p // 256), "0001" * len(counts[p : p + 256])))
    return "disk %d | %s\n" % (BLOCKS, " ".join("%d=%s" % put for put in puts))


def run(text):
    """The best of three times, and the greatest memory in kilobytes."""
    best, most = None, 0
    for _ in range(3):
        with tempfile.TemporaryFile() as given:
            given.write(text.encode())
            given.seek(0)
            start = time.monotonic()
            child = subprocess.Popen([PROGRAM], stdin=given, stdout=subprocess.PIPE)
            out = child.stdout.read()
            _, status, used = os.wait4(child.pid, 0)
            took = time.monotonic() - start
        assert status == 0 and len(out.splitlines()) == 1, out
        best = took if best is None else min(best, took)
        most = max(most, used.ru_maxrss)
    return best, most


DISK = full_disk()
ROW = "full | | ok\n"
alone, memory = run(DISK)
print("| Call | Seconds | Megabytes over the disk's |\n|---|---|---|")
for calls in ("check", "first", "shared"):
    once, most = run(DISK + "calls %s\n" % calls + ROW)
    often, _ = run(DISK + "calls %s\n" % calls + ROW * 11)
    name = {"check": "check", "first": "check_first", "shared": "check_shared"}[calls]
    print("| `%s` | %.3f | %.1f |" % (name, (often - once) / 10, (most - memory) / 1024))
