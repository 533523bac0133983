"""Random runs of the machines through the rules and the laws.

    python3 campaign.py SIZE|all hub|wild|all eager|lazy|all A..B [--stop N]

A setting is a size of drive.SIZES, how copies come (the earliest that may, or any), and whether the servers' disks are
written at once or later.  A..B are seeds.  Status 1 where a run doesn't end, or breaks a rule or a law.
"""
import argparse
import sys
import time
import traceback

import drive
from laws import Laws
from rules import Checker, half

MODES, STORES = ("hub", "wild"), ("eager", "lazy")


def judge(journal, ended=True, deep=True):
    """(breaks of rules, breaks of laws), each (step, name, why)."""
    c = Checker(journal.script, journal.start, journal.epochs)
    laws = Laws(c, deep)
    rules = [(0, r, w) for r, w in c.begin_faults()]
    broken = []
    for i, s in enumerate(journal.steps, 1):
        rules += [(i, r, w) for r, w in c.step(s)]
        broken += [(i, r, w) for r, w in laws.step()]
        if len(rules) + len(broken) > 20:
            return rules, broken
    if ended:
        rules += [(len(journal.steps) + 1, r, w) for r, w in c.ended()]
    return rules, broken


def faults_of(out):
    """What is wrong with a run: (kind, name, why)."""
    faults = [] if out.ended else [("no end", out.why, "")]
    try:
        rules, laws = judge(out.journal, out.ended)
    except Exception:
        return faults + [("checker", "FAILED", traceback.format_exc())]
    faults += [("%s, step %d" % (half(r), i), r, w) for i, r, w in rules]
    return faults + [("law, step %d" % i, r, w) for i, r, w in laws]


def setting(size, mode, store, lo, hi, stop):
    """Runs of one setting; how many are bad."""
    began, bad, steps, seen = time.time(), 0, 0, {}
    for seed in range(lo, hi):
        out = drive.trial(seed, drive.SIZES[size], mode, store == "lazy")
        steps += len(out.journal.steps)
        faults = faults_of(out)
        if faults:
            key = faults[0][0].partition(",")[0] + " " + faults[0][1]
            seen[key] = seen.get(key, 0) + 1
            bad += 1
            if seen[key] <= 2:
                print("seed", seed, "steps", len(out.journal.steps))
                for f in faults[:4]:
                    print("   ", f[0], f[1], str(f[2])[:700])
            if bad >= stop:
                break
    print("%s %s %s: %d runs, %d steps, %d bad, %.1f s %s" % (
        size, mode, store, seed - lo + 1, steps, bad, time.time() - began, seen or ""), flush=True)
    return bad


def main():
    p = argparse.ArgumentParser()
    p.add_argument("size")
    p.add_argument("mode")
    p.add_argument("store")
    p.add_argument("seeds")
    p.add_argument("--stop", type=int, default=6)
    a = p.parse_args()
    lo, hi = map(int, a.seeds.split(".."))
    bad = 0
    for size in drive.SIZES if a.size == "all" else (a.size,):
        for mode in MODES if a.mode == "all" else (a.mode,):
            for store in STORES if a.store == "all" else (a.store,):
                bad += setting(size, mode, store, lo, hi, a.stop)
    return 1 if bad else 0


if __name__ == "__main__":
    sys.exit(main())
