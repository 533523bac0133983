"""The repository's scenarios, run by the machines on many schedules: what they print, and do rules and laws take it?

    python3 scenarios.py [NAME ..] [--seeds N]

Left out are those that are refused, move filesets, or have disks, command words of their own, or scenarios before them;
and those of PLAIN, which show what hosts without caches do.  A scenario whose output no schedule gives, or whose run
breaks a rule, may show a rule that is too strong.
"""
import argparse
import os
import types

import drive
import words as w
from dfs_oracle import printing
from laws import Laws
from rules import Checker
from script_text import Refused, read_script

PLAIN = ("stop_keeps_writes",)
WHERE = os.path.join(os.path.dirname(os.path.abspath(__file__)), "..", "..", "scenarios")


def printed(journal, tree, losses):
    """The output of a journal: replies of call lines, losses, the tree."""
    script = journal.script
    lines = {h: [x for x in w.lines_of(script, ("c", h)) if isinstance(x.deed, w.MakesCall)]
             for h in w.hosts_of(script.roster)}
    replies = {h: {} for h in lines}
    for s in journal.steps:
        for a in s.answers:
            replies[a.host][a.k] = a.reply
        for x in s.applied:
            a = x.answer if isinstance(x, (w.Written, w.EndsCall)) else None
            if a is not None:
                replies[a.host][a.k] = a.reply
    run = types.SimpleNamespace(
        replies={h: [replies[h].get(k, ("refused", "MISSING")) for k in range(1, len(lines[h]) + 1)] for h in lines},
        losses=sorted(losses), tree=tree)
    return printing.as_text(run)


def source_of(name):
    """(script, output) of a scenario that the machines can run, or None."""
    path = os.path.join(WHERE, name)

    def data(file):
        full = os.path.join(path, file)
        return open(full, "rb").read() if os.path.isfile(full) else None
    if name in PLAIN or data("script") is None or data("before") is not None:
        return None
    if os.path.exists(os.path.join(path, "disks")):
        return None
    if data("status").strip() != b"0" or (data("args") or b"run").split() != [b"run"]:
        return None
    try:
        return read_script(data("script")), data("stdout")
    except Refused:         # filesets don't move so far
        return None


def runs(script, seeds):
    """(how often each output came, faults) on some schedules."""
    outputs, faults = {}, []
    for seed in range(seeds):
        for mode in ("hub", "wild"):
            out = drive.Run(script, seed, mode, seed % 2 == 1).go()
            if not out.ended:
                faults.append(("no end", out.why))
                continue
            c = Checker(out.journal.script, out.journal.start, out.journal.epochs)
            laws = Laws(c)
            for i, s in enumerate(out.journal.steps, 1):
                faults += [(i, r, str(x)[:300]) for r, x in c.step(s)]
                faults += [(i, "law " + r, str(x)[:300]) for r, x in laws.step()]
            faults += c.ended()
            text = printed(out.journal, laws.tree, laws.losses)
            outputs[text] = outputs.get(text, 0) + 1
    return outputs, faults


def main():
    p = argparse.ArgumentParser()
    p.add_argument("names", nargs="*")
    p.add_argument("--seeds", type=int, default=12)
    a = p.parse_args()
    good, skipped, bad = 0, [], 0
    for name in a.names or sorted(os.listdir(WHERE)):
        found = source_of(name)
        if found is None:
            skipped.append(name)
            continue
        script, expected = found
        outputs, faults = runs(script, a.seeds)
        if set(outputs) == {expected} and not faults:
            good += 1
            continue
        bad += 1
        print("%s: %d outputs, the expected one %d times; faults %s" % (
            name, len(outputs), outputs.get(expected, 0), faults[:2]))
        for text in list(outputs)[:2]:
            if text != expected:
                mine, theirs = text.split(b"\n"), expected.split(b"\n")
                print("   got     ", [x for x in mine if x not in theirs][:4])
                print("   expected", [x for x in theirs if x not in mine][:4])
    print("%d scenarios give exactly what is expected on all schedules, %d do not, %d are left out" % (
        good, bad, len(skipped)))
    return 1 if bad else 0


if __name__ == "__main__":
    raise SystemExit(main())
