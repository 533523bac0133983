"""A host alone with servers that say anything sound: can it always make a step that its rules admit?

    python3 solo.py A..B [--steps N] [--wild 0..3] [--show]

The servers aren't honest: what they answer is made up, though sound, of the right host and, but for the wildest, mostly
plausible.  All breaks are of the host's own rules (Look.host_meets), so each is the machine's fault, or a state in
which the rules leave no step.  At the end stands how often what no honest server says came.
"""
import argparse
import collections
import random
import traceback

import words as w
import drive
from host_rules import HostPast, Look
from machines import Host
from mutate import values
from sound import unsound

ACCESS = (("user_obj", None, 63), ("group_obj", None, 63), ("other_obj", None, 63))


class World:
    """Servers that make things up."""

    def __init__(self, r, script, wild):
        self.r, self.script, self.wild = r, script, wild
        self.epochs = {v: 1 for v in w.servers_of(script.roster)}
        self.seq = 0
        self.stamps = {}
        self.past = HostPast(1)

    def token(self, host, fid, kind, server):
        self.seq += 1
        number = w.TokenId(server, self.epochs[server], self.seq)
        back = [i for g in self.past.made if not self.past.is_known(g) for i in g.ids]
        old = [t.id for t in self.past.ever if t.id.server == server and t.id.epoch == self.epochs[server]]
        old = [i for i in old if i in back] or old
        if self.wild >= 2 and old and self.r.random() < 0.15:
            number = self.r.choice(old)             # it has had that number before
        return w.Token(number, host, fid, kind)

    def stamp(self, fid):
        self.stamps[fid] = self.stamps.get(fid, 0) + 1
        return self.stamps[fid] if self.r.random() < 0.95 else max(0, self.stamps[fid] - 2)

    def status(self, fid):
        r = self.r
        is_dir = fid.anode == 1 or fid.anode == 3
        length = 2 if is_dir else r.choice((0, 3, 1000, 1024, 3000))
        lists = (ACCESS,) * (3 if is_dir else 1)
        return w.StatusOf(is_dir, r.random() < 0.05, length, b"u", b"g", lists)

    def entries(self, fid):
        if fid.anode not in (1, 3):
            return ()
        names = [(b"a", 2), (b"b", 4), (b"d", 3)] if fid.anode == 1 else [(b"a", 5)]
        return tuple(w.DirEntry(n, a, self.r.choice((1, 1, 1, 2))) for n, a in names if self.r.random() < 0.95)

    def kinds(self, needs):
        out = []
        for n in needs:
            if self.r.random() < 0.95 or not self.wild:
                out.append(n.kind)
            if self.wild >= 2 and self.r.random() < 0.3:
                out.append(w.Bytes(True, w.span_between(0, 4096)))
            if self.r.random() < 0.1:
                out.append(self.r.choice((w.Status(True), w.Status(False), w.Bytes(True, w.span_between(0, 2048)),
                                          w.Bytes(False, w.WHOLE), w.LockTok(True, w.span_between(0, 5)),
                                          w.Opening("reading"))))
        return out

    def answer(self, m):
        """What a server may say to a message, or nothing."""
        r, v, h = self.r, m.server, m.host
        e = self.epochs[v] if r.random() < 0.97 else self.epochs[v] + r.choice((-1, 1))
        b = m.body

        def say(body, moves=0):
            return w.to_host(h, v, max(1, e), body, moves)
        if isinstance(b, w.Hello):
            return [say(w.Reclaimed())]
        if isinstance(b, w.Fetch):
            tokens = tuple(self.token(h, b.fid, k, v) for k in self.kinds(b.needs))
            status = self.status(b.fid)
            pieces = ()
            if r.random() < 0.5 and not status.dir:
                pieces = (w.Piece(r.choice((0, 5, 1020)), bytes(r.randrange(256) for _ in range(r.randrange(20)))),)
            if r.random() < 0.05:
                tokens, status, pieces = (), None, ()
            number = b.number if r.random() < 0.97 else b.number + 1
            return [say(w.Grant(w.Bring(number, b.fid, self.stamp(b.fid), tokens), status, pieces,
                                self.entries(b.fid) if status is not None else ()))]
        if isinstance(b, w.Change):
            none = w.Bring(b.number, w.NO_FID, 0, ())
            if b.enter:
                fs = {b"f0": 65537, b"f1": 131073, b"k0": 65538, b"k1": 65539}
                place = b.call.source if isinstance(b.call, w.Rename) else getattr(b.call, "place", None)
                known = fs.get(place.fileset if place else b"f0", 65537)
                if known // 65536 != v:
                    known = v * 65536 + 1
                if r.random() < 0.1:
                    return [say(w.Done(b.fileset, r.choice((w.Again(), w.HasReply(w.refused("no-fileset")))), none))]
                return [say(w.Done(b.fileset, w.Known(known), none))]
            if isinstance(b.call, (w.Lock, w.OpenFile)) and r.random() < 0.8:
                kind = (w.LockTok(b.call.writing, w.span_between(b.call.start, b.call.start + b.call.len))
                        if isinstance(b.call, w.Lock) else w.Opening(b.call.kind))
                fid = b.fid
                tokens = (self.token(h, fid, kind, v),)
                return [say(w.Done(b.fileset, w.Granted(), w.Bring(b.number, fid, self.stamp(fid), tokens)))]
            outcome = r.choice((w.HasReply(w.OK), w.HasReply(w.OK), w.HasReply(w.refused("locked")), w.Again()))
            if self.wild >= 2 and r.random() < 0.1:
                fid = w.Fid(b.fileset or v * 65536 + 1, 2, 1)
                none = w.Bring(b.number, fid, self.stamp(fid), (self.token(h, fid, w.Status(True), v),))
            return [say(w.Done(b.fileset, outcome, none))]
        if isinstance(b, w.GiveBack):
            return [say(w.Gone(w.number_of(b.give)))] if not self.wild or r.random() < 0.7 else []
        if isinstance(b, w.Reclaim):
            applied = tuple(w.GiveNo(o.fileset, o.give) for o in b.numbers if o.give and r.random() < 0.6)
            return [say(w.Reclaimed(applied, ()))]
        if isinstance(b, w.Bye):
            return [say(w.Bye())]
        return []

    def sudden(self, past):
        """What a server may say unasked."""
        r = self.r
        v = r.choice(list(self.epochs))
        held = [t for t in past.held if t.id.server == v] or [t for t in past.ever if t.id.server == v]
        what = r.random()
        if what < 0.12:
            if v not in past.greeted and self.wild < 2:
                return None
            self.epochs[v] += 1
            return w.to_host(past.host, v, self.epochs[v], w.Restarted())
        if what < 0.85 and held:
            t = r.choice(held)
            ids = tuple(u.id for u in held if u.fid == t.fid and r.random() < 0.6) or (t.id,)
            if r.random() < 0.1:
                ids += (w.TokenId(v, self.epochs[v], self.seq + 50),)
            if self.wild >= 2 and r.random() < 0.1:
                ids += (r.choice(held).id,)
            return w.to_host(past.host, v, self.epochs[v], w.Revoke(t.fid, self.stamp(t.fid), ids))
        if what < 0.93 and past.made:
            return w.to_host(past.host, v, self.epochs[v], w.Gone(w.number_of(r.choice(past.made))))
        if self.wild and (v in past.greeted or self.wild >= 2):
            return w.to_host(past.host, v, self.epochs[v], r.choice((w.Reclaimed(), w.Bye(), w.Restarted())))
        return None


def odd(look):
    """What no honest server says: names of it, for a count."""
    past, m = look.past, look.message
    body = None if m is None else m.body
    mine = {t.id: t.fid for t in past.held}
    open_ids = {i for g in past.made if not past.is_known(g) for i in g.ids}
    made = {w.number_of(g) for g in past.made}
    if isinstance(body, w.Revoke):
        if any(mine.get(i, body.fid) != body.fid for i in body.ids):
            yield "Revoke of another file's token"
        if len(set(body.ids)) < len(body.ids):
            yield "Revoke that names a token twice"
    if any(t.id in open_ids for t in look.s.taken):
        yield "token of a number that is on its way back"
    if any(t.id in past.left for t in look.s.taken):
        yield "token of a number that left before"
    dirty = {(fid, at) for fid, found in past.dirty.items() for at in found}
    if isinstance(body, w.Grant) and any((t.fid, at) in dirty for t in look.s.taken if isinstance(t.kind, w.Bytes)
                                         for at in range(*t.kind.span) if at < 4096):
        yield "Grant over dirty bytes"
    if isinstance(body, w.Gone) and body.applied not in made or (
            isinstance(body, w.Reclaimed) and not set(body.applied) <= made):
        yield "give-back known that wasn't made"
    if isinstance(body, w.Done) and body.fileset == 0 and m.moves:
        yield "Done without a fileset, with moves"
    if isinstance(body, w.Done) and body.bring.tokens and not isinstance(body.outcome, w.Granted):
        yield "Done that brings a token beside an answer"
    if isinstance(body, (w.Restarted, w.Reclaimed)) and m.server not in past.greeted:
        yield "%s of a server that wasn't greeted" % type(body).__name__
    if isinstance(body, w.Bye) and m.server not in past.said_bye:
        yield "Bye before the host's"
    if m is not None and m.moves:
        yield "message of another stay"


def run(seed, most, wild, show, count):
    r = random.Random(seed)
    size = drive.Size(hosts=1, servers=r.choice((1, 1, 2)), filesets=2, lines=40 if wild >= 2 else 14,
                      limit=r.choice((4, 6, 64)), stops=0.2, names=3, flags=0)
    script = drive.random_script(r, size)
    host, past = Host(script, 1), HostPast(1)
    world = World(r, script, wild)
    steps, came, waiting = [], [], []
    for n in range(most):
        options = []
        if host.stopped:
            break
        if host.may_line() and host.at < len(host.lines):
            options.append(("line", host.line))
        if host.may_evict():
            options.append(("evict", host.evict))
        if host.may_end():
            options.append(("end", host.end))
        if waiting:
            i = r.randrange(len(waiting))
            m = waiting.pop(i) if r.random() < 0.8 else waiting[i]
            options.append(("message", lambda m=m: host.message(m)))
        if came and r.random() < 0.1:
            m = r.choice(came)
            options.append(("message", lambda m=m: host.message(m)))
        if r.random() < 0.35:
            m = world.sudden(past)
            if m is not None and not unsound(script.roster, m):
                options.append(("message", lambda m=m: host.message(m)))
        if r.random() < 0.1:
            options.append(("lapse", host.lapse))
        if not options:
            continue
        what, do = r.choice(options)
        try:
            s = do()
        except Exception as why:
            return [(n, "MACHINE FAILS " + type(why).__name__, traceback.format_exc()[-700:])], steps, past
        if isinstance(s.cause, w.Came):
            came.append(s.cause.message)
            if wild == 3 and r.random() < 0.5:
                m = s.cause.message
                pool = {"ids": [t.id for t in list(past.ever)[:8]], "tokens": list(past.ever)[:8],
                        "applied": [w.number_of(g) for g in past.made[:5]]}
                todo = [b for _, b in values(m.body, "body", pool)]
                if todo:
                    m = w.change(m, body=r.choice(todo), epoch=past.epoch_at(m.server))
                if r.random() < 0.1:
                    m = w.change(m, moves=1)
                if not unsound(script.roster, m):
                    waiting.append(m)
        look = Look(script, 1, past, s)
        broken = look.host_meets()
        count.update(odd(look))
        for m in s.sent:
            if unsound(script.roster, m):
                broken.append(("IsSound", unsound(script.roster, m)))
        steps.append(s)
        if broken:
            return [(n, rule, why) for rule, why in broken], steps, past
        past = world.past = look.after
        for m in s.sent:
            if r.random() < 0.9:
                waiting += [x for x in world.answer(m) if not unsound(script.roster, x)]
    return [], steps, past


def main():
    p = argparse.ArgumentParser()
    p.add_argument("seeds")
    p.add_argument("--steps", type=int, default=200)
    p.add_argument("--wild", type=int, default=0)
    p.add_argument("--show", action="store_true")
    p.add_argument("--most", type=int, default=2)
    a = p.parse_args()
    lo, hi = map(int, a.seeds.split(".."))
    kinds, total, bad, count = {}, 0, 0, collections.Counter()
    for seed in range(lo, hi):
        broken, steps, past = run(seed, a.steps, a.wild, a.show, count)
        total += len(steps)
        if broken:
            bad += 1
            key = broken[0][1]
            kinds.setdefault(key, []).append(seed)
            if len(kinds[key]) <= a.most:
                print("seed", seed, "step", len(steps), [b[1] for b in broken])
                print("    ", str(broken[0][2])[:700])
                if a.show:
                    for i, s in list(enumerate(steps))[-4:]:
                        print(drive.show(s, i)[:1500])
    print("%d runs, %d steps, %d bad; %s" % (hi - lo, total, bad, {k: len(v) for k, v in kinds.items()}))
    for what, n in count.most_common():
        print("%7d %s" % (n, what))
    return 1 if bad else 0


if __name__ == "__main__":
    raise SystemExit(main())
