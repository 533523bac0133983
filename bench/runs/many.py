#!/usr/bin/env python3
"""Judges many random scripts by `runs.py`, in several processes at once, and sums up.

    bench/runs/many.py PROGRAM A..B [--sizes SIZE,..] [--processes P] [--minutes M] [--keep FOLDER]

For each size and seed from A up to B a script is run by one worker and by four with stores in memory, and by one and by
four over disks, where it is three scripts. A process does ten seeds of one size and kind; after M minutes none begins.
It prints a line for each bad run, one for each size and kind, and the sum. Status 1 where a run is bad, or judged none.
"""
import argparse
import os
import re
import subprocess
import sys
import time
from collections import defaultdict

RUNS = os.path.dirname(os.path.abspath(__file__)) + "/runs.py"
SIZES = "two_small,two_net,three,restart,restart2,stops,hot2,hot4r,storm,storm1,plans,big"
KINDS = ([], ["--workers", "4"], ["--disks"], ["--workers", "4", "--disks"])
SUM = re.compile(r"(\d+) scripts, (\d+) runs, (\d+) steps, (\d+) bad")


def jobs_of(sizes, lo, hi):
    """(size, kind, first seed, last seed and one), so that each size and kind has its turn early."""
    return [(size, kind, at, min(at + 10, hi)) for at in range(lo, hi, 10) for kind in KINDS for size in sizes]


def begin(a, job):
    size, kind, first, last = job
    words = [RUNS, a.program, size, "%d..%d" % (first, last), "--seconds", "600", *kind]
    words += ["--keep", a.keep] if a.keep else []
    return subprocess.Popen([sys.executable, *words], stdout=subprocess.PIPE, stderr=subprocess.STDOUT, text=True)


def told(job, output, sums):
    """Adds what a process wrote to the sums, and prints what isn't its sum."""
    found = SUM.search(output)
    if found:
        name = " ".join((job[0], *(word.lstrip("-") for word in job[1])))
        sums[name] = [x + int(y) for x, y in zip(sums[name], found.groups())]
    if not found or int(found[4]):
        print(output, flush=True)


def campaign(a, jobs):
    """Runs the jobs, and gives the scripts, runs, steps and bad runs of each size and kind."""
    sums, at_work, end = defaultdict(lambda: [0, 0, 0, 0]), [], time.time() + 60 * a.minutes
    while jobs or at_work:
        while jobs and len(at_work) < a.processes and time.time() < end:
            job = jobs.pop(0)
            at_work.append((job, begin(a, job)))
        if not at_work:
            return sums
        job, process = at_work.pop(0)
        told(job, process.communicate()[0], sums)
    return sums


def main():
    p = argparse.ArgumentParser(description=__doc__.split("\n")[0])
    p.add_argument("program", type=os.path.abspath)
    p.add_argument("seeds")
    p.add_argument("--sizes", default=SIZES)
    p.add_argument("--processes", type=int, default=4)
    p.add_argument("--minutes", type=float, default=40)
    p.add_argument("--keep", metavar="FOLDER")
    a = p.parse_args()
    began = time.time()
    sums = campaign(a, jobs_of(a.sizes.split(","), *map(int, a.seeds.split(".."))))
    for name, row in sorted(sums.items()):
        print("%-30s %6d scripts %6d runs %8d steps %4d bad" % (name, *row))
    row = [sum(column) for column in zip(*sums.values())] or [0, 0, 0, 0]
    print("%-30s %6d scripts %6d runs %8d steps %4d bad, %.1f minutes" % ("all", *row, (time.time() - began) / 60))
    return 1 if row[3] or not row[0] else 0


if __name__ == "__main__":
    sys.exit(main())
