"""The smallest scripts that earlier forms of the rules left without an end, or without a step; by the rules of now each
run of them ends.

    python3 minimal.py [-v]         each script on many schedules, by the rules of now, and by the rule of before
"""
import sys

import before
import drive
import words as w
from campaign import judge
from progress import start_of

P = w.Place(1, b"f0", (b"a",))


def make(hosts, deeds, plan=()):
    users = ((b"u", (b"g",)),)
    roster = w.Roster(users, tuple((0, 64) for _ in range(hosts)), (16384,))
    lines = []
    for n, (node, deed) in enumerate(deeds, 2):
        if isinstance(deed, str):
            what, _, flag = deed.partition(" ")
            if flag:
                deed = {"raise": w.Raise, "await": w.Await}[what](flag.encode())
            else:
                deed = {"stop": w.Stop, "restart": w.Restart}[what]()
        else:
            deed = w.MakesCall(deed)
        lines.append(w.Line(n, (node[0], int(node[1:])), deed))
    setup = (w.Line(1, ("c", 0), w.MakesCall(w.NewFileset(1, b"f0", 8, users[0]))),)
    return w.Script(1, roster, setup, tuple(plan), None, tuple(lines))


def plan(deed, source, to, kind, n, flag=None):
    return w.PlanLine(deed, (source[0], int(source[1:])), (to[0], int(to[1:])), w.KINDS[kind], n, flag)


SCRIPTS = {
    # the Revoke of c1's status is lost; what it was for is refused meanwhile; at the lapse nothing is wanted
    "lost Revoke": ("revoked_once", lambda: make(3, [
        ("c1", w.Stat(P)), ("c1", "raise A"),
        ("c3", "await A"), ("c3", w.OpenFile(b"L", P, "executing")), ("c3", "raise B"), ("c3", "await C"),
        ("c2", "await B"), ("c2", w.Remove(P)), ("c2", w.Truncate(P, 0)), ("c2", "raise C"), ("c1", "await C")],
        [plan("drop", "s1", "c1", "Revoke", 2)])),
    # two writers over one end of a block, nothing lost
    "two writers": ("asks_lacking", lambda: make(2, [
        (h, w.Write(P, at, b"12345678"))
        for h, at in (("c1", 0), ("c1", 1030), ("c1", 1020), ("c2", 1030), ("c2", 1020))])),
    # a label is taken twice under one token, with another one between: at the end each was taken before the other
    "label twice": ("taken_once", lambda: make(1, [
        ("c1", w.OpenFile(b"M", P, "reading")), ("c1", w.Lock(b"L", P, True, 0, 10)), ("c1", w.CloseFile(b"M")),
        ("c1", w.OpenFile(b"M", P, "reading"))])),
    # a Change that came in the grace period can be decided once the last host has claimed; nothing else happens then
    "late claim": (None, lambda: make(2, [
        ("c1", w.Stat(P)), ("c1", "raise A"), ("c2", w.Stat(P)), ("c2", "raise B"),
        ("s1", "await A"), ("s1", "await B"), ("s1", "restart"), ("s1", "raise C"),
        ("c1", "await C"), ("c1", "raise E"), ("c1", w.CloneFileset(1, b"f0", b"k")), ("c1", "raise D"),
        ("c2", "await D")], [plan("hold", "s1", "c2", "Restarted", 1, b"E")])),
}


def runs(script):
    """What became of the runs on some schedules: {what: how many}, and the shortest that isn't as it should be."""
    found, worst = {}, None
    for mode, seeds in (("rr", 1), ("hub", 40), ("wild", 40)):
        for seed in range(seeds):
            run = drive.Run(script, seed, mode, False, start_of(script), None, 600)
            out = run.go()
            rules, laws = judge(out.journal, out.ended)
            what = "ended" if out.ended else "no end"
            if rules or laws:
                what = "breaks " + (rules + laws)[0][1]
            found[what] = found.get(what, 0) + 1
            if what != "ended" and (worst is None or len(run.steps) < len(worst.steps)):
                worst = run
    return found, worst


def main():
    bad = 0
    for name, (rule, make_it) in SCRIPTS.items():
        script = make_it()
        now, worst = runs(script)
        print("%-12s now %s" % (name, now))
        bad += set(now) != {"ended"}
        if worst is not None and "-v" in sys.argv:
            for i, s in list(enumerate(worst.steps, 1))[:140]:
                print(drive.show(s, i)[:600])
        if rule is not None:
            before.BEFORE.add(rule)
            then, _ = runs(script)
            before.BEFORE.remove(rule)
            print("%-12s %s %s" % ("", rule, then))
            bad += set(then) == {"ended"}
    return 1 if bad else 0


if __name__ == "__main__":
    raise SystemExit(main())
