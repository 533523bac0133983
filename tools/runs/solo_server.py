"""A server alone with hosts that say anything sound: can it always make a step that its rules admit?

    python3 solo_server.py A..B [--steps N] [--tame] [--one] [--show]

At the end stands how often what no honest host says came.
"""
import argparse
import collections
import random
import traceback

import words as w
import drive
import tree as trees
from machines import Server
from server_rules import ServerPast, Turn, is_meant_so
from sound import unsound
from tree import kept_first


class Hosts:
    def __init__(self, r, script, start, tame):
        self.r, self.script, self.start, self.tame = r, script, start, tame
        self.numbers = {}
        self.k = 0
        self.seen = []
        self.last = {}

    def fid(self):
        r = self.r
        return w.Fid(r.choice((65537, 65537, 65537, 65538)), r.choice((1, 2, 2, 3, 4, 5)), r.choice((1, 1, 1, 1, 2)))

    def span(self):
        a = self.r.choice((0, 0, 1024, 5))
        return w.span_between(a, a + self.r.choice((1, 1024, 2048)))

    def kind(self, fetched):
        r = self.r
        kinds = [w.Status(False), w.Status(True), w.Bytes(False, self.span()), w.Bytes(True, self.span()),
                 w.Bytes(False, w.WHOLE)]
        if not fetched:
            kinds += [w.LockTok(True, self.span()), w.Opening("reading")]
        return r.choice(kinds)

    def number(self, host, what):
        key = (host,) + what
        n = self.numbers.get(key, 0)
        if self.r.random() < 0.85:
            n += 1
            self.numbers[key] = n
        return max(n, 1)

    def message(self, p):
        r = self.r
        h = r.randrange(0, len(self.script.roster.hosts) + 1)
        v = p.server
        e = p.epoch if r.random() < 0.92 else max(0, p.epoch + r.choice((-1, 1)))
        granted = [t for t in p.granted if t.host == h]
        others = list(p.granted)
        what = r.random()
        if self.seen and r.random() < 0.12:
            m = r.choice(self.seen)
            if self.one and isinstance(m.body, w.Change) and m.body.number != self.last.get((m.host, m.body.fileset)):
                return None
            return w.change(m, epoch=p.epoch) if r.random() < 0.7 else m
        if what < 0.1:
            body = w.Hello()
        elif what < 0.3:
            fid = self.fid()
            needs = tuple(w.Need(fid, self.kind(True)) for _ in range(r.choice((0, 1, 1, 2))))
            body = w.Fetch(self.number(h, ("f", fid.fileset)), fid, needs)
        elif what < 0.55:
            size = drive.Size(names=2)
            call = drive.random_call(r, size, [(1, b"f0"), (1, b"f1")])
            if r.random() < 0.05:
                call = w.NewFileset(1, r.choice((b"n", b"f0")), 4, (b"u", (b"g",)))
            if r.random() < 0.03 and not self.tame:
                call = w.MoveFileset(1, b"f0", 1)
            fs = r.choice((65537, 65537, 65537, 0, 65538))
            enter = r.random() < 0.15
            fid = r.choice((w.NO_FID, self.fid(), self.fid()))
            if self.tame:
                if isinstance(call, (w.Lock, w.OpenFile)) and not enter:
                    fid = fid if fid != w.NO_FID else self.fid()
                    fs = fid.fileset
                if isinstance(call, (w.NewFileset, w.CloneFileset, w.Unlock, w.CloseFile)):
                    enter = False
                if enter:
                    fs = 0
            self.k += 1
            old = [x.request for x in p.waiting if x.host == h and isinstance(x.request, w.Change)
                   and x.request.fileset == fs]
            number = self.number(h, ("c", fs))
            if self.one:
                number = self.numbers[h, "c", fs] = self.last.get((h, fs), 0) + 1
                self.last[h, fs] = number
            body = w.Change(number, fs, fid, enter, self.k, call)
            if self.one and old:
                self.last[h, fs] -= 1
                body = old[0]
        elif what < 0.68:
            pool = granted or others
            ids = tuple(t.id for t in pool if r.random() < 0.5)
            fid = r.choice(pool).fid if pool else self.fid()
            body = r.choice((w.Returned, w.Returned, w.Kept))(fid, ids)
        elif what < 0.82:
            fid = r.choice(granted).fid if granted and r.random() < 0.8 else self.fid()
            ids = tuple(t.id for t in (granted or others) if (t.fid == fid or r.random() < 0.1) and r.random() < 0.7)
            places = sorted(r.sample((0, 9, 1020), r.randrange(3)))
            pieces = tuple(w.Piece(at, bytes(r.randrange(1, 9))) for at in places)
            ends = w.Ends(self.k, r.choice((w.Unlock(b"L"), w.CloseFile(b"L")))) if r.random() < 0.2 else None
            body = w.GiveBack(w.Give(self.number(h, ("g", fid.fileset)), fid, ids, pieces,
                                     r.choice((None, 0, 5, 3000)), ends))
        elif what < 0.93:
            old = [t for t in self.issued if t.host == h and t.id.epoch < e]
            tokens = tuple(t for t in old if r.random() < 0.6)
            numbers = {t.fid.fileset for t in tokens} | ({65537} if r.random() < 0.3 else set())
            body = w.Reclaim(tokens, tuple(w.Outstanding(f, 0, r.choice((0, 0, self.numbers.get((h, "g", f), 0))), 0)
                                           for f in sorted(numbers)))
        elif what < 0.95:
            body = w.Down()
        elif what < 0.97:
            body = w.Bye()
        else:
            return None
        return w.to_server(h, v, e, body, 1 if r.random() < 0.02 else 0)

    issued = ()
    one = False


def odd(past, m):
    """What no honest host says: names of it, for a count."""
    b, live = m.body, past.is_live(m.host) and m.epoch == past.epoch
    mine = {t.id for t in past.granted if t.host == m.host}
    ids = b.ids if isinstance(b, (w.Returned, w.Kept)) else b.give.ids if isinstance(b, w.GiveBack) else ()
    if m.moves:
        yield "message of another stay"
    if live and not mine.issuperset(ids):
        yield "%s of tokens that aren't granted to it" % type(b).__name__
    if isinstance(b, w.GiveBack) and live and b.give.number > past.applied.get((m.host, b.give.fid.fileset), 0) + 1:
        yield "give-back that leaves a number out"
    if isinstance(b, w.Change) and live:
        if not is_meant_so(b):
            yield "Change that can't be answered"
        if not past.none_waits(m.host, b):
            yield "Change beside one that waits"
        if past.is_old(m.host, b):
            yield "Change that is old"
        if isinstance(b.call, w.MoveFileset):
            yield "move"
    if isinstance(b, w.Fetch) and live and (b.fid.fileset not in (65537, 65538) or len(set(b.needs)) < len(b.needs)):
        yield "Fetch of a fileset that isn't there, or that names a need twice"
    if isinstance(b, w.Reclaim) and live:
        yield "claim of a host that has reclaimed" if m.host in past.reclaimed else "claim of tokens of its choice"


def run(seed, most, tame, one, count):
    r = random.Random(seed)
    size = drive.Size(hosts=2, servers=1, filesets=2, lines=3, flags=0)
    script = drive.random_script(r, size)
    script = w.change(script, lines=tuple(w.Line(100 + i, ("s", 1), w.Restart()) for i in range(3)))
    start = drive.start_tree(r, script.roster, [(1, b"f0"), (1, b"f1")])
    kept = trees.kept_first(start, 1).twin([(1, n) for n in start.at[1]])
    server = Server(script, 1, 1, kept, seed % 2 == 1)
    past, tree, gone = ServerPast(1, 1), kept_first(start, 1), 0
    hosts = Hosts(r, script, start, tame)
    hosts.one = one
    steps, issued = [], []
    for n in range(most):
        hosts.issued = issued
        options = []
        if r.random() < 0.02 and server.at < len(server.lines):
            options.append(server.line)
        if server.wants_flush() and r.random() < 0.3:
            options.append(server.flush)
        if r.random() < 0.05:
            options.append(server.lapse)
        m = hosts.message(past)
        if m is not None and not unsound(script.roster, m):
            options.append(lambda m=m: server.message(m))
        if not options:
            continue
        try:
            s = r.choice(options)()
        except Exception as why:
            return [(n, "MACHINE FAILS %s" % type(why).__name__, (m, traceback.format_exc()[-400:]))], steps
        if isinstance(s.cause, w.Came):
            count.update(odd(past, s.cause.message))
        turn = Turn(script, 1, past, gone, tree, s)
        broken, past, tree = turn.server_meets()
        gone += type(s.cause).__name__ in ("LineOf", "RestartAt")
        for x in s.sent:
            if unsound(script.roster, x):
                broken.append(("IsSound", unsound(script.roster, x)))
            issued += [t for t in getattr(getattr(x.body, "bring", None), "tokens", ()) if t not in issued]
        if isinstance(s.cause, w.Came):
            hosts.seen.append(s.cause.message)
        steps.append(s)
        if broken:
            return [(n, rule, why) for rule, why in broken], steps
    return [], steps


def main():
    p = argparse.ArgumentParser()
    p.add_argument("seeds")
    p.add_argument("--steps", type=int, default=150)
    p.add_argument("--tame", action="store_true")
    p.add_argument("--one", action="store_true", help="a host has one Change of a fileset outstanding, as honest ones")
    p.add_argument("--show", action="store_true")
    p.add_argument("--most", type=int, default=2)
    a = p.parse_args()
    lo, hi = map(int, a.seeds.split(".."))
    kinds, total, bad, count = {}, 0, 0, collections.Counter()
    for seed in range(lo, hi):
        broken, steps = run(seed, a.steps, a.tame, a.one, count)
        total += len(steps)
        if broken:
            bad += 1
            key = broken[0][1]
            kinds.setdefault(key, []).append(seed)
            if len(kinds[key]) <= a.most:
                print("seed", seed, "step", len(steps), [b[1] for b in broken])
                print("    ", str(broken[0][2])[:600])
                if steps and a.show:
                    for i, s in list(enumerate(steps))[-2:]:
                        print(drive.show(s, i)[:1200])
    print("%d runs, %d steps, %d bad; %s" % (hi - lo, total, bad, {k: len(v) for k, v in kinds.items()}))
    for what, n in count.most_common():
        print("%7d %s" % (n, what))
    return 1 if bad else 0


if __name__ == "__main__":
    raise SystemExit(main())
