"""Counts what acts cost on a disk: calls of a disk in memory by the program's own count, and of a file by strace. Times the
mount of full disks in memory. The rows' answers are what the program prints, as nothing is wanted of them."""
import re
import resource
import subprocess
import sys
import tempfile

PROGRAM = sys.argv[1]
RUNS = 3
BLOCKS = {816: 6838784, 65536: 6292992 + 512 * (1058 + 260)}
TEXT = [chr(ord("a") + i) * 1024 for i in range(8)]
START = "do c0 1 fileset s1 home 8 ann | " + " ; ".join(f"do c1 {i + 1} create /home/f{i}" for i in range(7))
GIVES = [f'give c1 {i + 1} s1.1 {i % 7 + 2} 1 8192 {1024 * (i // 7)} "{TEXT[i]}"' for i in range(8)]


def ran(table, command=()):
    done = subprocess.run([*command, PROGRAM], input=table.encode(), check=True, stdout=subprocess.PIPE, cwd=FOLDER)
    return done.stdout.decode().splitlines()


def answers(rows, capacity=816):
    """What rows over a disk with 7 files are answered, which want nothing."""
    table = f"\none disk\nnew {capacity}\nbase {START}\n" + "".join(f"{row} = ?\n" for row in rows)
    lines = ran(table)
    assert len(lines) == len(rows) + 1, lines
    return [re.search(r": (.*), and not \?$", line).group(1) for line in lines[:-1]]


def on_file(batches):
    """The calls of a file that batches need: reads, writes and syncs. A row before them and one behind them that don't get
    what is wanted are printed, the last two by stores on files, so that the trace has the place."""
    mark = "s1 find none = mark\n"
    rows = [f"s1 acts {batch} = {', '.join(['ok'] * len(batch.split(';')))}\n" for batch in batches]
    start = [f"s1 acts {batch} = {', '.join(['ok'] * len(batch.split(';')))}\n" for batch in START.split(" | ")]
    table = "".join([*start, "s1 reopen = ok\n", mark, *rows, mark])
    with tempfile.NamedTemporaryFile("r") as seen:
        ran(table, ("strace", "-f", "-e", "trace=write,pread64,pwrite64,fsync,fdatasync", "-o", seen.name))
        calls = re.findall(r"(write\(1,|pread64\(|pwrite64\(|fsync\(|fdatasync\()", seen.read())
    places = [at for at, call in enumerate(calls) if call == "write(1,"]
    assert len(places) == 7, places
    names = calls[places[-3] : places[-2]]
    return [names.count("pread64("), names.count("pwrite64("), names.count("fsync(") + names.count("fdatasync(")]


def seconds(rows):
    """The least processor time of a table."""
    best = None
    for _ in range(RUNS):
        before = resource.getrusage(resource.RUSAGE_CHILDREN)
        ran(rows)
        after = resource.getrusage(resource.RUSAGE_CHILDREN)
        took = after.ru_utime + after.ru_stime - before.ru_utime - before.ru_stime
        best = took if best is None else min(best, took)
    return best


def full(capacity, filesets, files, clones):
    """A disk with so many filesets of files of 8 bytes, and clones."""
    batches = []
    for i in range(filesets):
        batches.append(f"do c0 {i + 1} fileset s1 h{i} {files + 1} ann")
        acts = [f"do c1 {k + 1} create /h{i}/f{k}" for k in range(files)]
        acts += [f'give c1 {k + 1} s1.{i + 1} {k + 2} 1 8 0 "contents"' for k in range(files)]
        batches += [" ; ".join(acts[at : at + 8]) for at in range(0, len(acts), 8)]
    batches += [f"do c1 {i + 1} clone s1 h{i} k{i}" for i in range(clones)]
    return f"\none disk\nnew {capacity}\nbase {' | '.join(batches)}\n"


with tempfile.TemporaryDirectory() as FOLDER:
    together, apart = " ; ".join(GIVES), " | ".join(GIVES)
    print("| Acts | Calls, in memory | Reads, on a file | Writes | Syncs |\n|---|---|---|---|---|")
    for capacity in BLOCKS:
        memory = [int(answer.split()[0]) for answer in answers([f"calls {together}", f"calls {apart}"], capacity)]
        print("| 8 Gives of 1 KiB in a batch, capacity %d | %d | | | |" % (capacity, memory[0]))
        print("| the same in 8 batches | %d | | | |" % memory[1])
        print("| ratio | %.3f | | | |" % (memory[0] / memory[1]), flush=True)
    one, eight = on_file([together]), on_file(GIVES)
    print("| 8 Gives of 1 KiB in a batch, capacity 65536 | | %d | %d | %d |" % tuple(one))
    print("| the same in 8 batches | | %d | %d | %d |" % tuple(eight))
    print("| ratio | | %.3f | %.3f | %.3f |" % tuple(a / b for a, b in zip(one, eight)), flush=True)
    print("\n| Act | Blocks that are changed |\n|---|---|")
    for at in (0, 512, 12288 - 512, 30000):
        act = f'give c1 1 s1.1 2 1 40960 {at} "{TEXT[0]}"'
        print("| a Give of 1 KiB at byte %d | %s |" % (at, answers([f"blocks {BLOCKS[816]} {act}"])[0]))
    print("\n| Mount, in memory | Seconds |\n|---|---|")
    for capacity, filesets, files, clones in ((816, 1, 11, 0), (65536, 13, 63, 3)):
        disk = full(capacity, filesets, files, clones)
        took = (seconds(disk + "again 22\n") - seconds(disk + "again 2\n")) / 20
        print("| %d objects, capacity %d | %.4f |" % ((filesets + clones) * (files + 1), capacity, took), flush=True)
