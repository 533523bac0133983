"""Mutations of single steps: which changed steps do the rules still admit after the same past?

    python3 mutate.py [JOURNAL ..]      without a journal: the worked run and random runs

Each step of a journal that meets all rules is changed in one place (an element dropped, repeated or moved; a field of
an element changed; an element of another step added), and judged on the same past.  What is admitted is printed by
kind, for a person to judge: either it is a choice that nodes have, or a hole.
"""
import dataclasses
import random
import sys
from dataclasses import fields, is_dataclass

import words as w
from host_rules import Look
from rules import Checker
from server_rules import Turn
from sound import unsound

LISTS = ("taken", "answers", "begun", "made", "dropped", "applied", "admitted", "sent", "reserved")


def judge(c, s):
    """The rules that a step would break after the checker's steps, which stay as they are."""
    kind, number = s.node
    if kind == "c":
        out = Look(c.script, number, c.hosts[number], s).host_meets()
    else:
        out = Turn(c.script, number, c.servers[number], c.gone[number], c.kept[number], s).server_meets()[0]
    for x in s.sent:
        way, mine = ("to_server", x.host) if kind == "c" else ("to_host", x.server)
        if x.direction != way or number != mine:
            out.append(("IsFrom", ""))
        if unsound(c.roster, x):
            out.append(("IsSound", unsound(c.roster, x)))
    return out


def values(value, name, pool):
    """(what, another value)"""
    if isinstance(value, tuple) and name in ("lists", "list", "owner"):
        return                  # what is changed in these is easily no value of its type
    if isinstance(value, bool):
        yield "flip", not value
    elif isinstance(value, int):
        yield "+1", value + 1
        if value > 0:
            yield "-1", value - 1
    elif isinstance(value, bytes):
        yield "other bytes", value + b"x"
        if value:
            yield "first byte", bytes([value[0] ^ 1]) + value[1:]
    elif isinstance(value, str):
        for x in {"why": (w.REVOKED, w.EVICTED, w.ASKED, w.ENDED, w.STOPPED), "kind": ("reading", "exclusive")}.get(
                name, ()):
            if x != value:
                yield "=" + x, x
    elif is_dataclass(value):
        for f in fields(value):
            name = "size" if isinstance(value, w.StatusOf) and f.name == "length" else f.name    # that is always there
            for what, x in values(getattr(value, f.name), name, pool):
                yield "%s.%s%s" % (type(value).__name__, f.name, " " + what if " " in what or what[0] in "+-=f" else
                                   "/" + what), dataclasses.replace(value, **{f.name: x})
    elif isinstance(value, tuple) and hasattr(value, "_fields"):
        for f in value._fields:
            for what, x in values(getattr(value, f), f, pool):
                yield "%s.%s %s" % (type(value).__name__, f, what), value._replace(**{f: x})
    elif isinstance(value, tuple) and name != "reply":
        for i, v in enumerate(value):
            yield "drop", value[:i] + value[i + 1:]
            yield "double", value[:i] + (v,) + value[i:]
            for what, x in values(v, name, pool):
                yield what, value[:i] + (x,) + value[i + 1:]
        if len(value) > 1:
            yield "swap", (value[1], value[0]) + value[2:]
        for x in pool.get(name, ()):
            if x not in value:
                yield "add", value + (x,)
    elif name == "reply":
        for x in (("ok",), w.refused("locked"), w.refused("no-entry"), w.refused("in-use")):
            if x != value:
                yield "reply", x
    elif value is None:
        for x in pool.get(name, ())[:2]:
            yield "some", x
    if value is not None and name in ("length", "ends", "status", "asked", "wrote"):
        yield "none", None


def mutations(s, pool):
    for f in ("asked", "wrote") + LISTS:
        v = getattr(s, f)
        if f in LISTS:
            for i, x in enumerate(v):
                name = type(x.body).__name__ if isinstance(x, w.Message) else type(x).__name__
                yield "%s: drop %s" % (f, name), w.change(s, **{f: v[:i] + v[i + 1:]})
                yield "%s: double %s" % (f, name), w.change(s, **{f: v[:i] + (x,) + v[i:]})
                if i:
                    yield "%s: swap %s" % (f, name), w.change(s, **{f: v[:i - 1] + (x, v[i - 1]) + v[i + 1:]})
                for what, y in values(x, f, pool):
                    yield "%s: %s" % (f, what), w.change(s, **{f: v[:i] + (y,) + v[i + 1:]})
            for x in pool.get(f, ()):
                if x not in v:
                    name = type(x.body).__name__ if isinstance(x, w.Message) else type(x).__name__
                    yield "%s: add %s" % (f, name), w.change(s, **{f: v + (x,)})
        else:
            for what, y in values(v, f, pool):
                yield "%s: %s" % (f, what), w.change(s, **{f: y})


def pools(journal):
    """Elements that occur in a journal, by node and field: material to add."""
    out = {}
    for s in journal.steps:
        mine = out.setdefault(s.node, {f: [] for f in LISTS + ("asked", "wrote", "tokens", "ids", "needs",
                                                               "applied_nos")})
        for f in LISTS:
            mine[f] += [x for x in getattr(s, f) if x not in mine[f]]
        for f in ("asked", "wrote"):
            if getattr(s, f) is not None and getattr(s, f) not in mine[f]:
                mine[f].append(getattr(s, f))
        tokens = list(s.taken) + [t for m in s.sent for t in (getattr(getattr(m.body, "bring", None), "tokens", ()))]
        mine["tokens"] += [t for t in tokens if t not in mine["tokens"]]
        mine["ids"] += [t.id for t in tokens if t.id not in mine["ids"]]
    return out


def cause_name(s):
    return type(s.cause.message.body).__name__ if isinstance(s.cause, w.Came) else type(s.cause).__name__


def survivors(journal, most=400, seed=0):
    """(node kind, cause, mutation) -> [(step number, changed step)], and how many were tried."""
    r = random.Random(seed)
    c = Checker(journal.script, journal.start, journal.epochs)
    pool = pools(journal)
    out, tried = {}, 0
    for i, s in enumerate(journal.steps, 1):
        mine = {k: r.sample(v, min(6, len(v))) for k, v in pool[s.node].items()}
        todo = [(what, t) for what, t in mutations(s, mine) if t != s]
        if len(todo) > most:
            todo = r.sample(todo, most)
        for what, t in todo:
            tried += 1
            try:
                broken = judge(c, t)
            except (KeyError, AssertionError, IndexError, ValueError, TypeError, AttributeError) as why:
                broken = [("nonsense", why)]
            if not broken:
                out.setdefault((s.node[0], cause_name(s), what), []).append((i, t))
        assert not c.step(s), i
    return out, tried


def main():
    import drive
    from worked import journal as worked
    journals = [w.read_journal(p) for p in sys.argv[1:]]
    if not journals:
        journals = [worked()]
        for size in ("two_small", "restart2", "stops"):
            for seed in range(3):
                out = drive.trial(seed, drive.SIZES[size], "wild", False)
                if out.ended:
                    journals.append(out.journal)
    total, tried = {}, 0
    for n, j in enumerate(journals):
        found, k = survivors(j, seed=n)
        tried += k
        for key, v in found.items():
            total.setdefault(key, []).extend((n, i) for i, _ in v)
    print("%d journals, %d mutations, %d admitted" % (len(journals), tried, sum(len(v) for v in total.values())))
    for key in sorted(total):
        print("%-70s %5d  e.g. journal %d step %d" % (" ".join(key), len(total[key]), *total[key][0]))


if __name__ == "__main__":
    main()
