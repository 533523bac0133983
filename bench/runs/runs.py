#!/usr/bin/env python3
"""Random scripts through the program, each run judged by the rules and the laws of runs.

    bench/runs/runs.py PROGRAM SIZE,.. A..B [--workers W] [--disks] [--keep FOLDER] [--stop N] [--rules FOLDER]
    bench/runs/runs.py PROGRAM --script FILE ..      judges the runs of these scripts
    bench/runs/runs.py PROGRAM --gen "7 16 400"      judges the run of a generated script
    bench/runs/runs.py PROGRAM --rows FILE           judges the runs of rows of `random`

PROGRAM is built by `bench/build.py PROGRAM bench/runs`. The rules as a program are those of a folder, else those of
`tools/runs`, whose `drive` draws scripts, too; a size is one of `drive.SIZES`. Of each seed hosts first make files and
then do what is drawn, with losses, repeats, delays, restarts and stops as the size has them; with `--disks` a first
script makes the files, a second one does what is drawn over the same disks, and a third one looks at what it left. A
run is good where it ends, breaks no rule and no law, prints what the rules say, and starts from what the one before it
left. Scripts of bad runs and their output are kept in a folder. Status 1 where a run is bad.
"""
import argparse
import os
import re
import subprocess
import sys
import tempfile
import time
from collections import Counter, namedtuple

TOP = os.path.dirname(os.path.abspath(__file__)) + "/../.."
RULES = argparse.ArgumentParser(add_help=False)
RULES.add_argument("--rules", metavar="FOLDER", default=TOP + "/tools/runs", help="the rules as a program")
sys.path.insert(1, os.path.abspath(RULES.parse_known_args()[0].rules))
import drawing                                                                      # noqa: E402
import drive                                                                        # noqa: E402
import judging                                                                      # noqa: E402

# A bad run, or the last one, of a seed; how many runs and steps there were.
Seed = namedtuple("Seed", "faults text output runs steps")


def seed_of(a, size, seed):
    """The runs of a seed, up to the first bad one."""
    words = ("run",) + (("--workers", str(a.workers)) if a.workers else ())
    if a.disks:
        words += tuple("d%d" % k for k in range(1, drive.SIZES[size].servers + 1))
    runs, steps, tree = 0, 0, None
    with tempfile.TemporaryDirectory(dir="/dev/shm" if a.disks else None) as folder:
        for text in drawing.parts_of(seed, size, a.disks):
            done = judging.ran(a.program, text, words, folder, tree, not a.shallow, a.seconds)
            runs, steps, tree = runs + 1, steps + done.steps, done.tree
            if done.faults:
                break
    return Seed(done.faults, text, done.output, runs, steps)


def tell(name, faults, most=4):
    print(name)
    for where, rule, why in faults[:most]:
        print("   ", where, rule, str(why)[:600])


def keep(folder, name, text, output):
    if folder:
        os.makedirs(folder, exist_ok=True)
        for end, data in ((".script", text.encode("latin-1")), (".out", output)):
            with open(os.path.join(folder, name + end), "wb") as out:
                out.write(data)


def campaign(a, size, lo, hi):
    """The runs of seeds from lo to hi; how many are bad."""
    began, bad, seen, scripts, runs, steps = time.time(), 0, Counter(), 0, 0, 0
    for seed in range(lo, hi):
        done = seed_of(a, size, seed)
        scripts, runs, steps = scripts + 1, runs + done.runs, steps + done.steps
        if done.faults:
            bad += 1
            seen[done.faults[0][1]] += 1
            keep(a.keep, "%s_%d_w%d%s" % (size, seed, a.workers, "_disks" * a.disks), done.text, done.output)
            if seen[done.faults[0][1]] <= 2:
                tell("%s seed %d" % (size, seed), done.faults)
        if bad >= a.stop:
            break
    kind = size + (" workers %d" % a.workers if a.workers else "") + " disks" * a.disks
    print("%s %d..%d: %d scripts, %d runs, %d steps, %d bad, %.1f s %s" % (
        kind, lo, lo + scripts, scripts, runs, steps, bad, time.time() - began, dict(seen) or ""), flush=True)
    return bad


def given(a):
    """Judges scripts of files, and a generated one; how many runs are bad."""
    texts = [(path, ("run",), open(path, encoding="latin-1").read()) for path in a.script]
    if a.gen:
        texts.append(("gen " + a.gen, ("gen", *a.gen.split()), ""))
    bad = 0
    for name, words, text in texts:
        words += ("--workers", str(a.workers)) if a.workers else ()
        done = judging.ran(a.program, text, words, deep=not a.shallow, seconds=a.seconds)
        if done.faults:
            bad += 1
            tell(name, done.faults, 10)
            keep(a.keep, os.path.basename(name).replace(" ", "_"), text, done.output)
        print("%s: %d steps, %s" % (name, done.steps, "bad" if done.faults else "good"), flush=True)
    return bad


def rows(a):
    """Judges the runs of rows that the program draws scripts from; how many are bad."""
    lines = open(a.rows, "rb").read()
    output = subprocess.run([a.program, "random", "shows"], input=lines, stdout=subprocess.PIPE, check=True).stdout
    bad = 0
    for part in re.split(rb"(?m)^row ", output)[1:]:
        row, _, rest = part.partition(b"\n")
        body, _, lines = rest.partition(b"\n----\n")
        faults, _, _ = judging.judge([x for x in lines.decode("latin-1").split("\n") if x.startswith("{")], body)
        if faults:
            bad += 1
            tell("row " + row.decode(), faults)
    return bad


def main():
    p = argparse.ArgumentParser(parents=[RULES], description=__doc__.split("\n")[0])
    p.add_argument("program", type=os.path.abspath)
    p.add_argument("sizes", nargs="?", default="")
    p.add_argument("seeds", nargs="?", default="0..10")
    p.add_argument("--script", nargs="+", default=[])
    p.add_argument("--gen")
    p.add_argument("--rows")
    p.add_argument("--keep", metavar="FOLDER")
    p.add_argument("--stop", type=int, default=10, help="after so many bad ones")
    p.add_argument("--workers", type=int, default=0, help="on so many threads")
    p.add_argument("--disks", action="store_true", help="over disks that are files in memory")
    p.add_argument("--seconds", type=int, default=300, help="after which a run has no end")
    p.add_argument("--shallow", action="store_true", help="without the laws that take longest")
    a = p.parse_args()
    bad = given(a) + (rows(a) if a.rows else 0)
    lo, hi = map(int, a.seeds.split(".."))
    for size in a.sizes.split(",") if a.sizes else ():
        bad += campaign(a, size, lo, hi)
    return 1 if bad else 0


if __name__ == "__main__":
    sys.exit(main())
