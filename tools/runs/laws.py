"""What must hold in every run that meets the rules (proved in Rattle).  A journal that meets all rules and breaks a law
shows an error of this translation (or a false theorem).

    laws_broken(journal)    [(step, law, why)]
    Laws(checker).step()    the same for the step that the checker has just judged

legal                   each entry of the history is what the tree says (every_past_is_legal)
never_in_conflict       hosts that haven't stopped hold no conflicting tokens (NeverInConflict)
grants_apart, granted_here, held_granted, none_refused, given_ended, none_passed, gives_once, changes_once,
reserved_apart          TokensAreSafe
cached.covered, cached.first, cached.quiet      CachedExactly
sees                    what a host sees under tokens that it holds is there (runs_are_coherent)
unsaved, dirty          what is unsaved in the tree is dirty at its host or in a give-back that isn't applied, and back
lost                    what a Down loses is what its host had unsaved
kept                    each server keeps its part of the tree (servers_keep)
labels                  a host without an open call has just its labels of the tree; labels in use have tokens
"""
import re

from words import Bytes, Came, EndsCall, GiveBack, IsDown, LockTok, Reclaimed, Status, Stored, Written, home, number_of
from needs import call_look, conflict, covers, kinds_conflict, reply_now
from host_rules import view_of
from tree import (ENTRIES, SIZE, TRAITS, answer_to, byte_of, cell, down_tree, kept_part, may_store, object_of,
                  stored_tree, tree_view)


UNSAVED = re.compile(rb"[^\0]+")
SIZE_MAX = 65536


def entries_of(step):
    """[entries_of]: ("call", answer), ("stored", ..), ("down", host, server)"""
    out = [("call", a) for a in step.answers]
    if step.node[0] == "s":
        for x in step.applied:
            if isinstance(x, Stored):
                out.append(("stored", x))
            elif isinstance(x, EndsCall):
                out.append(("call", x.answer))
            elif isinstance(x, IsDown):
                out.append(("down", x.host, step.node[1]))
            elif isinstance(x, Written):
                out.append(("call", x.answer))
    return out


class Laws:
    def __init__(self, checker, deep=True):
        self.c = checker
        self.tree = checker.start
        self.deep = deep
        self.broken = []
        self.history = []
        self.losses = []
        self.applied_gives = set()      # (server, host, number)
        self.written_numbers = set()
        self.is_down = set()            # (host, server)
        self.seen = {}                  # what was judged, by law and node: it holds still where nothing of it changed

    def bad(self, law, *why):
        self.broken.append((law, " ".join(str(w)[:400] for w in why)))

    def is_new(self, law, node, *values):
        """Whether one of the values that a law speaks of isn't the one that it was judged on."""
        old = self.seen.get((law, node))
        self.seen[law, node] = values
        return old is None or any(a is not b for a, b in zip(old, values))

    def step(self):
        """The laws that the checker's last step breaks."""
        c, s, look = self.c, self.c.steps[-1], self.c.looks[-1]
        self.broken = []
        before = self.tree
        if look is not None:
            self.cached(before, s, look)
        for entry in entries_of(s):
            self.entry(entry)
        self.tokens(s)
        self.kept()
        self.contents()
        self.labels()
        return self.broken

    def entry(self, entry):
        self.history.append(entry)
        if entry[0] == "call":
            a = entry[1]
            reply, tree = answer_to(self.tree, a.host, a.call)
            if reply != a.reply:
                self.bad("legal", a, "but the tree says", reply)
            self.tree = tree
        elif entry[0] == "stored":
            x = entry[1]
            if not may_store(self.tree, x.host, x.fid, x.spans, x.length):
                self.bad("legal", x)
            else:
                self.tree = stored_tree(self.tree, x.host, x.fid, x.spans, x.length)
        else:
            _, host, server = entry
            losses, self.tree = down_tree(self.tree, host, server)
            self.is_down.add((host, server))
            self.losses += losses

    def cached(self, tree, s, look):
        """[CachedAt]"""
        view = tree_view(tree)

        def covered(call):
            needs, verdict = call_look(look.own, look.host, look.user, call, view)
            return all(covers(look.at_hand, n) for n in needs) and reply_now(verdict) is not None
        for k, call in look.begins():
            if covered(call) and not any(a.k == k and a.first for a in s.answers):
                self.bad("cached.covered", k, call)
        for a in s.answers:
            if a.first:
                if not covered(a.call):
                    self.bad("cached.first", a)
                if s.sent or s.taken or s.dropped:
                    self.bad("cached.quiet", a)

    def tokens(self, s):
        # all are laws of pairs of nodes: those hold still that this step's node is none of
        c = self.c
        live = [p for p in c.hosts.values() if not p.stopped]
        mine = [p for p in live if ("c", p.host) == s.node]
        for p in mine:
            for other in live:
                for t in p.held if other is not p else ():
                    for u in other.held:
                        if t.fid == u.fid and kinds_conflict(t.kind, u.kind):
                            self.bad("never_in_conflict", t, u)
        servers = c.servers.items() if s.node[0] == "c" else ((s.node[1], c.servers[s.node[1]]),)
        if s.node[0] == "s":
            self.granted(*servers[0])
        for v, p in servers:
            for h in live if s.node[0] == "s" else mine:
                for t in h.held:
                    if t.id.server == v and h.host in p.reclaimed and t not in p.granted:
                        self.bad("held_granted", t)
                for g in h.made:
                    if home(g.fid.fileset) == v and p.is_applied(h.host, number_of(g)):
                        for t in p.granted:
                            if t.host == h.host and t.id in g.ids:
                                self.bad("given_ended", g, t)
                        if (h.host, g.fid.fileset, GiveBack(g)) not in p.took_ever:
                            self.bad("none_passed", g)
            for h, e, n, b in p.sent:
                if isinstance(b, Reclaimed) and b.left_out:     # of whatever host
                    for t in c.hosts[h].held:
                        if t.id in b.left_out:
                            self.bad("none_refused", t)
        if s.node[0] == "s":
            for x in s.applied:
                if isinstance(x, Written):
                    key = (s.node[1], x.answer.host, x.fileset, x.number)
                    if key in self.written_numbers:
                        self.bad("changes_once", x)
                    self.written_numbers.add(key)
            if isinstance(s.cause, Came) and isinstance(s.cause.message.body, GiveBack) and any(
                    isinstance(x, (Stored, EndsCall)) for x in s.applied):
                m = s.cause.message
                key = (s.node[1], m.host, number_of(m.body.give))
                if key in self.applied_gives:
                    self.bad("gives_once", m.body.give)
                self.applied_gives.add(key)

    def granted(self, v, p):
        by_fid = {}
        for t in p.granted:
            by_fid.setdefault(t.fid, []).append(t)
            if home(t.fid.fileset) != v:
                self.bad("granted_here", t)
        for found in by_fid.values():
            for i, t in enumerate(found):
                for u in found[i + 1:]:
                    if t.host != u.host and kinds_conflict(t.kind, u.kind):
                        self.bad("grants_apart", t, u)
        for r in p.reserved:
            for t in p.granted:
                if conflict(r, t):
                    self.bad("reserved_apart", r, t)

    def kept(self):
        for v, tree in self.c.kept.items():
            if self.is_new("kept", v, tree, self.tree) and kept_part(tree, v) != kept_part(self.tree, v):
                self.bad("kept", v)

    def contents(self):
        c, tree = self.c, self.tree
        for p in c.hosts.values():
            if p.stopped or not self.is_new("sees", p.host, p, tree):
                continue
            if self.deep:
                self.sees(p)
            for fid, dirty in p.dirty.items():
                self.dirty(p, fid, dirty)
        for server in tree.at.values():
            for f in server.values():
                for anode, thing in f.objects.items():
                    if thing.is_dir or (not thing.who and thing.tall is None):
                        continue
                    fid = (f.id, anode, f.unique[anode])
                    self.unsaved(fid, thing, f.server)
                    if thing.tall is not None:
                        host = thing.tall[1]
                        p, v = c.hosts[host], c.servers[f.server]
                        waits = any(tuple(g.fid) == fid and g.length == thing.tall[0]
                                    and not v.is_applied(host, number_of(g)) for g in p.made)
                        mine = any(tuple(t.fid) == fid and t.kind == Status(True) for t in p.owned)
                        if not waits and not mine:
                            self.bad("unsaved", host, fid, "length")

    def dirty(self, p, fid, dirty):
        """What is dirty at a host under a token of its own is unsaved in the tree."""
        found = object_of(self.tree, fid)
        who, new = (b"", b"") if found is None or found[1].is_dir else (found[1].who, found[1].new)
        mine = p.seen[fid].bytes if fid in p.seen else bytes(SIZE_MAX)
        for a, b in [t.kind.span for t in p.owned if t.fid == fid and isinstance(t.kind, Bytes) and t.kind.update]:
            for at in dirty:
                if a <= at < b and not (at < len(who) and who[at] == p.host + 1 and new[at] == mine[at]):
                    self.bad("dirty", p.host, fid, at)
                    return

    def unsaved(self, fid, thing, server):
        """What is unsaved in the tree is dirty at its host, or in a give-back that isn't applied."""
        hosts, who, new = self.c.hosts, thing.who, thing.new
        dirty = {h: p.dirty.get(fid, ()) if fid in p.seen else () for h, p in hosts.items()}
        mine = {h: p.seen[fid].bytes if fid in p.seen else b"" for h, p in hosts.items()}
        gives = {}
        for run in UNSAVED.finditer(who):
            for at in range(*run.span()):
                host = who[at] - 1
                if at in dirty[host] and mine[host][at] == new[at]:
                    continue
                if host not in gives:
                    gives[host] = self.given(host, fid, server)
                if not any(byte_of(g.pieces, at) == new[at] for g in gives[host]):
                    self.bad("unsaved", host, fid, at)
                    return

    def given(self, host, fid, server):
        """What a host gave back of a file that its server hasn't applied."""
        p, v = self.c.hosts[host], self.c.servers[server]
        return [g for g in p.made if tuple(g.fid) == fid and not v.is_applied(host, number_of(g))]

    def sees(self, p):
        view, real = view_of(p.seen), tree_view(self.tree)
        for t in p.held:
            if isinstance(t.kind, Status):
                for part in (SIZE, TRAITS):
                    if view(t.fid, part) != real(t.fid, part):
                        self.bad("sees", p.host, t, part, view(t.fid, part), real(t.fid, part))
            elif isinstance(t.kind, Bytes):
                a, b = t.kind.span
                if a <= 0 < b and view(t.fid, ENTRIES) != real(t.fid, ENTRIES):
                    self.bad("sees", p.host, t, "entries")
                found = object_of(self.tree, t.fid)
                thing = None if found is None or found[1].is_dir else found[1]
                mine = p.seen[t.fid].bytes if t.fid in p.seen else None
                is_zero = thing is None or (len(thing.kept) <= a and len(thing.who) <= a)
                if mine is None:
                    mine = bytes(65536)
                theirs = bytes(b - a) if is_zero else thing.present(a, b)
                if mine[a:b] != theirs:
                    self.bad("sees", p.host, t, "bytes")

    def labels(self):
        c = self.c
        for p in c.hosts.values():
            if p.stopped or any((p.host, v) in self.is_down for v in c.servers):
                continue
            if not p.open:
                mine = set()
                for u in p.in_use:
                    k = u.token.kind
                    use = ("lock", k.writing, k.span[0], k.span[1]) if isinstance(k, LockTok) else ("open", k.kind)
                    mine.add((u.label, u.token.fid.fileset, u.token.fid.anode) + use)
                theirs = {(label, x[0], x[1], "lock", x[2], x[3], x[4])
                          for (h, label), x in self.tree.locks.items() if h == p.host}
                theirs |= {(label, x[0], x[1], "open", x[2])
                           for (h, label), x in self.tree.opens.items() if h == p.host}
                if mine != theirs:
                    self.bad("labels", p.host, mine ^ theirs)
            for u in p.in_use:
                v = c.servers[u.token.id.server]
                if u.token not in p.owned:
                    self.bad("labels", "not owned", u)
                if p.host in v.reclaimed and u.token not in v.granted:
                    self.bad("labels", "not granted", u)


def laws_broken(journal, planned=True):
    from rules import Checker
    c = Checker(journal.script, journal.start, journal.epochs, planned)
    laws = Laws(c)
    out = []
    for i, s in enumerate(journal.steps, 1):
        c.step(s)
        out += [(i, law, why) for law, why in laws.step()]
    return out
