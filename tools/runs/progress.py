"""Progress: scripts in which hosts want the same; do their runs end, and with how many messages?

    python3 progress.py A..B            kinds of scripts, 2 to 8 hosts, nodes in turn and by the hub; all steps judged
    python3 progress.py A..B lacking    the same where a Fetch asks only for what lacks, as rules once said; not judged
"""
import collections
import random
import sys

import before
import tree as trees
import words as w
from drive import Run

F, D = w.Place(1, b"f0", (b"a",)), w.Place(1, b"f0", (b"d",))
EIGHT = b"12345678"
ACCESS = (("user_obj", None, 63), ("group_obj", None, 5), ("other_obj", None, 5))


def in_d(name):
    return w.Place(1, b"f0", (b"d", name))


def gen(h, i, hosts, r):
    """As the generated workload: a file of one's own, and one that all share."""
    v, own, mark = r.randrange(1 << 30), w.Place(1, b"f0", (b"h%d" % h,)), b"%d-%d" % (h, i)
    return (w.Write(own, v % 60000, mark), w.Write(own, v % 60000, mark), w.Read(own, v % 60000, 64),
            w.Write(F, 512 * (h - 1) + v % 480, mark))[r.randrange(4)]


def names(h, i, hosts, r):
    return w.Create(w.Place(1, b"f0", (b"n%d.%d" % (h, i),))) if h == 1 and i % 2 == 0 else w.Stat(F)


def walks(h, i, hosts, r):
    """Names and walks in two directories."""
    x, y = in_d(b"n%d" % r.randrange(3)), in_d(b"n%d" % r.randrange(3))
    return r.choice((
        w.Create(x), w.Remove(x), w.Stat(x), w.Read(x, 0, 9), w.Write(x, r.choice((0, 1020)), EIGHT), w.Rename(x, y),
        w.List(D), w.MakeDir(x), w.Lock(b"L%d" % i, x, True, 0, 9), w.OpenFile(b"O%d" % i, x, "reading"),
        w.Unlock(b"L%d" % (i - 1)), w.CloseFile(b"O%d" % (i - 1)), w.Truncate(x, 1500), w.SetAcl(D, "files", ACCESS)))


def mix(h, i, hosts, r):
    return r.choice((
        w.Write(F, 1020, EIGHT), w.Read(F, 0, 2000), w.Lock(b"L%d" % i, F, r.random() < .5, 0, 10),
        w.Unlock(b"L%d" % (i - 1)), w.Sync(F), w.Truncate(F, 2500), w.Stat(F)))


# a kind of script: the call of a host's line, by host, place among its lines, number of hosts, random words
CALLS = {
    "block": lambda h, i, hosts, r: w.Write(F, 10 * h, b"x"),
    "two blocks": lambda h, i, hosts, r: w.Write(F, 1020, EIGHT),
    "one or both": lambda h, i, hosts, r: w.Write(F, r.choice((0, 1020, 1020, 1030)), EIGHT),
    "ends": lambda h, i, hosts, r: w.Write(F, 1024 * r.randrange(1, 4) - 4 * r.randrange(3), EIGHT),
    "gen": gen,
    "readers": lambda h, i, hosts, r: w.Write(F, 1020, EIGHT) if h % 2 else w.Read(F, 0, 2000),
    "append": lambda h, i, hosts, r: w.Write(F, 2500 + i * hosts * 10 + h, b"x"),
    "own blocks": lambda h, i, hosts, r: w.Write(F, 4096 * (h - 1), b"x"),
    "names": names,
    "locks": lambda h, i, hosts, r: (w.Lock(b"L", F, True, 0, 10), w.Write(F, 0, b"x"), w.Unlock(b"L"))[i % 3],
    "creates": lambda h, i, hosts, r: (w.Create if i % 2 == 0 else w.Remove)(in_d(b"n%d" % h)),
    "walks": walks,
    "mix": mix,
}
LINES = {"gen": 20, "mix": 10}


def script(kind, hosts, lines, r):
    users = ((b"u", (b"g",)),)
    roster = w.Roster(users, tuple((0, 64) for _ in range(hosts)), (16384,))
    setup = (w.Line(1, ("c", 0), w.MakesCall(w.NewFileset(1, b"f0", 8, users[0]))),)
    all_lines = [(("c", h), CALLS[kind](h, i, hosts, r)) for h in range(1, hosts + 1) for i in range(lines)]
    return w.Script(1, roster, setup, (), None, tuple(
        w.Line(n, node, w.MakesCall(call)) for n, (node, call) in enumerate(all_lines, 2)))


def start_of(s):
    tree = trees.new_tree(s.roster)
    trees.oracle.Tree.answer(tree, 0, w.NewFileset(1, b"f0", 64, s.roster.users[0]))
    for path in ((b"a",), (b"d",), *((b"h%d" % h,) for h in range(1, 9))):
        trees.oracle.Tree.answer(tree, 1, (w.MakeDir if path == (b"d",) else w.Create)(w.Place(1, b"f0", path)))
    for fs in tree.at[1].values():
        for o in fs.objects.values():
            if not o.is_dir:
                o.kept = bytearray(b"A" * 2500)
    return tree


def one(kind, hosts, lines, seed, mode, most=20000):
    s = script(kind, hosts, lines, random.Random(seed))
    run = Run(s, seed, mode, seed % 2 == 1, start_of(s), None, most)
    return run, run.go()


def main():
    from campaign import judge
    lo, hi = map(int, sys.argv[1].split(".."))
    judged = "lacking" not in sys.argv
    if not judged:
        before.BEFORE.add("asks_lacking")
    bad = 0
    for kind in CALLS:
        for mode in ("rr", "hub"):
            for hosts in (2, 3, 5, 8):
                c = collections.Counter()
                for seed in range(lo, hi):
                    run, out = one(kind, hosts, LINES.get(kind, 8), seed, mode, 60000 if judged else 4000)
                    c["ended" if out.ended else out.why] += 1
                    if judged:
                        rules, laws = judge(out.journal, out.ended)
                        c["rules broken"] += bool(rules)
                        c["laws broken"] += bool(laws)
                        bad += bool(rules or laws or not out.ended)
                    if out.ended:
                        c["messages"] += out.figures["messages"]
                        c["calls"] += out.figures["calls"]
                print("%-11s %d hosts %-3s %s" % (kind, hosts, mode, dict(c)), flush=True)
    return 1 if bad else 0


if __name__ == "__main__":
    raise SystemExit(main())
