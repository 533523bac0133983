"""The rules of a host, from the text of run_rules.

HostPast is what the definitions say of a host's own earlier steps (`past`); `past.after(look)` is that of the past
with the step.  Look is one step on that past: the stance, the view, and all rules as methods named as their records.
A comment `[Name]` names the definition that a line says.
"""
from words import (ASKED, Asked, Await, Bye, Bytes, Came, Change, CloseFile, Done, Down, ENDED, EVICTED, End, Evict,
                   Fetch, Flushed, GiveBack, GiveNo, Gone, Grant, HasReply, Hello, Kept, Known, Lapse, LineOf, Lock,
                   LockTok, MakesCall, NO_FID, Need, OK, OpenFile, Opening, REVOKED, Raise, Reclaim, Reclaimed,
                   RestartAt, Restarted, Returned, Revoke, STOPPED, Status, Stop, Sync, TOKEN_BYTES, Unlock, WHOLE,
                   Write, bare, home, limit_of, lines_of, number_of, root_of, servers_of, user_of)
from needs import (Asks, Gives, LockUse, Locks, OpenUse, Opens, Own, Writes, call_look, covers, fileset_of, finds_file,
                   has_byte, helps_cover, numbered_under, reply_now, uncovered)
from before import BEFORE
from tree import ENTRIES, Nature, SIZE, TRAITS, byte_of

USE_KINDS = (LockTok, Opening)


def place(fileset):
    """[Messages.stay_of] (server, moves): so far where it was made."""
    return home(fileset), 0


def end_of(usage):
    """[Tokens.end_of]"""
    return CloseFile(usage.label) if isinstance(usage.token.kind, Opening) else Unlock(usage.label)


def gives_use(give, usage):
    """[Tokens.GivesUse]"""
    return give.ends is not None and give.ends.call == end_of(usage) and usage.token.id in give.ids


def rise(pieces):
    """[Soundness.AreFileBytes]: each piece begins at or behind the end of the one before"""
    return all(a.start + len(a.bytes) <= b.start for a, b in zip(pieces, pieces[1:]))


class Seen:
    """What is seen of one object: size, traits, entries, bytes (those that are shown; else zero)."""
    __slots__ = ("size", "traits", "entries", "bytes")

    def __init__(self, old=None):
        self.size, self.traits, self.entries = (0, None, ()) if old is None else (old.size, old.traits, old.entries)
        self.bytes = bytearray(65536) if old is None else bytearray(old.bytes)


def view_of(seen):
    def view(fid, part):
        one = seen.get(fid)
        if one is None:
            return {SIZE: 0, TRAITS: None, ENTRIES: ()}.get(part, 0)
        if part == SIZE:
            return one.size
        if part == TRAITS:
            return one.traits
        if part == ENTRIES:
            return one.entries
        return one.bytes[part[1]] if part[1] < 65536 else 0
    return view


def brings_uses(bring):
    """[BringsUses]"""
    return all(isinstance(t.kind, USE_KINDS) for t in bring.tokens)


class HostPast:
    def __init__(self, host):
        self.host = host
        self.length = 0
        self.held = {}              # [Held] token: None, in the order of taking
        self.ever = set()           # [EverHeld]
        self.owned = set()          # [Owns]
        self.left = set()           # [HasLeftHost] ids
        self.fetched = set()        # [HasFetched] Fetch
        self.changed = set()        # [HasChanged] (server, Change)
        self.epochs = {}            # [epoch_at]
        self.asking = set()         # [Asking] (fileset, number)
        self.changing = set()       # [Changing] (server, or 0 where the fileset isn't 0, fileset, number)
        self.greeted = set()        # [HasGreeted]
        self.said_bye = set()       # [HasSaid .. Bye]
        self.stopped = False        # [HasStopped]
        self.made = []              # [Made]
        self.known = set()          # [IsKnownNumber]
        self.floors = {}            # [AboveFloor]: above this
        self.welcome = set()        # [IsWelcome]
        self.has_bye = set()        # [HasBye]
        self.kept_ids = set()       # [HasKeptToken]
        self.in_use = {}            # [LabelInUse] usage: None
        self.ended = {}             # [HasEndedUse] usage: give-backs that ended its use
        self.before = set()         # [TakenBefore] pairs
        self.open = ()              # [IsOpen] Asked
        self.lost = frozenset()     # [HasLost] fids
        self.calls_begun = 0
        self.lines_gone = 0
        self.claimed = set()        # [AwaitsReclaimed]
        self.entered = {}           # [Entered] (server, name): set of ids
        self.last_used = {}         # [LastUsed] token: n
        self.dirty = {}             # [is_dirty] fid: frozenset of positions
        self.last_length = {}       # [IsLastLength] fid: gives
        self.seen = {}              # [view] fid: Seen

    # words on the past
    def epoch_at(self, server):
        return self.epochs.get(server, 0)

    def is_changing(self, server, fileset, number):
        """[Changing]"""
        return (server if fileset == 0 else 0, fileset, number) in self.changing

    def has_changed(self, server, change):
        """[HasChanged]"""
        return any(c == change and (c.fileset != 0 or v == server) for v, c in self.changed)

    def is_known(self, give):
        return number_of(give) in self.known

    def give_open(self, fid):
        """[GiveOpen]"""
        return any(g.fid == fid and not self.is_known(g) for g in self.made)

    def waits(self, give):
        """[Tokens.WaitsBehind]"""
        return any(f.fid.fileset == give.fid.fileset and f.number < give.number and not self.is_known(f)
                   for f in self.made)

    def is_outstanding(self, give):
        return give in self.made and not self.is_known(give) and not self.waits(give)

    def holds_id(self, id):
        return any(t.id == id for t in self.held)

    def is_used(self, id):
        """[TokenInUse]"""
        return any(u.token.id == id for u in self.in_use)

    def is_last_use(self, usage):
        return usage in self.in_use and all(o == usage for o in self.in_use if o.token.id == usage.token.id)

    def frees_pinned(self, usage):
        return self.is_last_use(usage) and usage.token.id in self.kept_ids

    def floor(self, fid):
        return self.floors.get(fid, 0)

    def idle(self):
        return [t for t in self.held if not self.is_used(t.id)]

    def may_evict(self, limit):
        """[MayEvict]"""
        return not self.open and len(self.idle()) >= limit + 1

    def is_oldest(self, token):
        """[IsOldest]"""
        n = self.last_used.get(token)
        if n is None:
            return True
        return all(self.last_used.get(u) is None or n <= self.last_used[u] for u in self.idle())

    def outstanding(self):
        """[IsUnanswered]: (server, moves, body) of all."""
        out = [(v, 0, Hello()) for v in self.greeted if v not in self.welcome]
        out += [(home(f.fid.fileset), 0, f) for f in self.fetched if (f.fid.fileset, f.number) in self.asking]
        for v, c in self.changed:
            if c.fileset == 0:
                if self.is_changing(v, 0, c.number):
                    out.append((v, 0, c))
            elif self.is_changing(0, c.fileset, c.number):
                out.append((home(c.fileset), 0, c))
        out += [(home(g.fid.fileset), 0, GiveBack(g)) for g in self.made if self.is_outstanding(g)]
        out += [(v, 0, Bye()) for v in self.said_bye if v not in self.has_bye]
        return list(dict.fromkeys(out))

    def updates_byte(self, token, fid, at):
        return (token.fid == fid and isinstance(token.kind, Bytes) and token.kind.update
                and has_byte(token.kind.span, at))

    def owns_update(self, fid, at):
        """[OwnsUpdate]"""
        return any(self.updates_byte(t, fid, at) for t in self.owned)


class Look:
    """A step of a host on its past."""

    def __init__(self, script, host, past, step):
        self.script, self.roster, self.host, self.past, self.s = script, script.roster, host, past, step
        self.broken = []
        self.message = step.cause.message if isinstance(step.cause, Came) else None
        self.at_hand = dict.fromkeys([*past.held, *step.taken])     # [AtHand]
        self.sees_map = self._shown()
        self.sees = view_of(self.sees_map)                          # [sees]
        self._needs = {}
        self.learnt = self._learns()                                # [Learns]
        self.used = self._uses()                                    # [Uses]
        self.known = past.known | self.learnt                       # [Known (s :: past)]
        self.user = user_of(self.roster, host)
        self.own = self._own()
        self.after = self._after()

    def bad(self, rule, *why):
        self.broken.append((rule, " ".join(str(w) for w in why)))

    # what comes
    def comes_in(self, server, epoch, moves):
        """[ComesIn], but for the body"""
        m = self.message
        return m is not None and m.server == server and m.epoch == epoch and m.moves == moves

    def about(self, fileset):
        """[About], but for the body"""
        server, moves = place(fileset)
        return self.comes_in(server, self.past.epoch_at(server), moves)

    def body(self, kind):
        return self.message.body if self.message is not None and isinstance(self.message.body, kind) else None

    def settles(self):
        """[DoneComes]: (server or 0, done), or None; where the fileset isn't 0 it is so of each server."""
        done = self.body(Done)
        if done is None:
            return None
        m = self.message
        if done.fileset == 0:
            return (m.server, done) if m.moves == 0 and m.epoch == self.past.epoch_at(m.server) else None
        return (0, done) if self.about(done.fileset) else None

    def counts(self):
        """[DoneCounts]"""
        found = self.settles()
        if found is None:
            return None
        server, done = found
        return found if self.past.is_changing(server, done.fileset, done.bring.number) else None

    def comes_reclaimed(self):
        """[Comes .. (Reclaimed ..)]: (server, answer), or None"""
        answer = self.body(Reclaimed)
        m = self.message
        if answer is not None and self.comes_in(m.server, self.past.epoch_at(m.server), 0):
            return m.server, answer
        return None

    def _learns(self):
        out = set()
        gone = self.body(Gone)
        if gone is not None and self.about(gone.applied.fileset):
            out.add(gone.applied)
        found = self.comes_reclaimed()
        if found is not None:
            out |= set(found[1].applied)
        return out & {number_of(g) for g in self.past.made}

    def answered(self):
        """[AnswersRequest]: the Bring that answers the outstanding request, or None"""
        grant, done = self.body(Grant), self.body(Done)
        if grant is not None:
            b = grant.bring
            if self.about(b.fid.fileset) and (b.fid.fileset, b.number) in self.past.asking:
                return b
        if done is not None:
            b = done.bring
            if self.about(b.fid.fileset) and self.past.is_changing(place(b.fid.fileset)[0], done.fileset, b.number) \
                    and brings_uses(b):
                return b
        return None

    def _uses(self):
        b = self.answered()
        if b is not None and b.stamp > self.past.floor(b.fid) and not self.past.give_open(b.fid):
            return b
        return None

    def revoke(self):
        """the Revoke that comes [About .. (Revoke r)], or None"""
        r = self.body(Revoke)
        return r if r is not None and self.about(r.fid.fileset) else None

    def raises(self, server):
        return self.past.epoch_at(server) < self.after.epoch_at(server)

    def learns_restart(self, server):
        """[LearnsRestart]"""
        return (server in self.past.greeted and self.raises(server) and self.body(Restarted) is not None
                and self.message.server == server)

    # the view
    def _shown(self):
        """[shown_by]"""
        grant = self.body(Grant)
        seen = dict(self.past.seen)
        if grant is None:
            return seen
        for fid in dict.fromkeys(t.fid for t in self.s.taken):
            one = Seen(seen.get(fid))
            for t in self.s.taken:
                if t.fid != fid:
                    continue
                if isinstance(t.kind, Status):
                    one.size = 0 if grant.status is None else grant.status.length
                    one.traits = None if grant.status is None else Nature(
                        grant.status.dir, grant.status.read_only, grant.status.owner, grant.status.group,
                        tuple(grant.status.lists))
                elif isinstance(t.kind, Bytes):
                    a, b = t.kind.span
                    one.bytes[a:b] = bytes(b - a)
                    for p in reversed(grant.pieces):
                        x, y = max(a, p.start), min(b, p.start + len(p.bytes))
                        if x < y:
                            one.bytes[x:y] = p.bytes[x - p.start:y - p.start]
                    if a <= 0 < b:
                        one.entries = tuple(grant.entries)
            seen[fid] = one
        return seen

    # what is dirty
    def takes_status(self, fid):
        return any(t.fid == fid and t.kind == Status(True) for t in self.s.taken)

    def length_is_clean(self, fid):
        """[LengthIsClean]"""
        if self.takes_status(fid):
            return False
        return any(g.length == self.sees(fid, SIZE) and number_of(g) in self.known
                   for g in self.past.last_length.get(fid, ()))

    def length_is_dirty(self, token):
        """[LengthIsDirty]"""
        return token.kind == Status(True) and not self.length_is_clean(token.fid)

    def dirty_bytes(self, token):
        """[ByteIsDirty]: the positions"""
        if not (isinstance(token.kind, Bytes) and token.kind.update):
            return []
        return [at for at in self.past.dirty.get(token.fid, ()) if has_byte(token.kind.span, at)]

    def is_dirty_under(self, token):
        return bool(self.dirty_bytes(token)) or self.length_is_dirty(token)

    def has_dirty(self, token):
        """[HasDirty]"""
        return (any(not self.after.owns_update(token.fid, at) for at in self.dirty_bytes(token))
                or self.length_is_dirty(token))

    def dirty_length(self, fid):
        """[DirtyLength]"""
        return any(t.fid == fid and self.length_is_dirty(t) for t in self.at_hand)

    def is_clean(self, fid):
        """[IsClean]"""
        return (not any(t.fid == fid and self.is_dirty_under(t) for t in self.at_hand)
                and all(number_of(g) in self.known for g in self.past.made if g.fid == fid))

    # the stance
    def is_ending(self, usage):
        """[IsEnding]"""
        return any(number_of(g) not in self.known for g in self.past.ended.get(usage, ()))

    def labels(self):
        """[HasLabel]"""
        return [u for u in {**self.past.in_use, **self.past.ended} if u in self.past.in_use or self.is_ending(u)]

    def needs_server(self, usage):
        return self.past.frees_pinned(usage) or self.is_ending(usage)

    def _entered_after(self):
        """[Entered (s :: past)]"""
        found = self.counts()
        entered = dict(self.past.entered)
        if found is None or not isinstance(found[1].outcome, Known):
            return entered
        server, done = found
        for v, c in self.past.changed:
            if (c.enter and c.number == done.bring.number and c.fileset == done.fileset
                    and (done.fileset != 0 or v == server)):
                where = fileset_of(c.call)
                # Enters says the Change to the very server that its call names
                if where is not None and where[0] == v:
                    entered[where] = entered.get(where, frozenset()) | {done.outcome.fileset}
        return entered

    def _own(self):
        mine = self.labels()
        locks = [LockUse(self.host, u.label, u.token.fid, u.token.kind.writing, u.token.kind.span)
                 for u in mine if isinstance(u.token.kind, LockTok)]
        opens = [OpenUse(self.host, u.label, u.token.fid, u.token.kind.kind)
                 for u in mine if isinstance(u.token.kind, Opening)]
        self.entered = self._entered_after()

        def gives(kind):
            # [Knows.gives_lock], [Knows.gives_open]: a label whose use the server has to take
            return lambda label: any(u.label == label and isinstance(u.token.kind, kind) and self.needs_server(u)
                                     for u in mine)

        def seen(server, name):
            ids = self.entered.get((server, name), ())
            return next(iter(ids)) if len(ids) == 1 else (min(ids) if ids else None)
        return Own(list(dict.fromkeys(locks)), list(dict.fromkeys(opens)), gives(LockTok), gives(Opening),
                   self.is_clean, seen)

    def look(self, call):
        """(needs_in, verdict_in)"""
        found = self._needs.get(call)
        if found is None:
            found = self._needs[call] = call_look(self.own, self.host, self.user, call, self.sees)
        return found

    def is_covered(self, call):
        """[IsCoveredIn]"""
        return all(covers(self.at_hand, n) for n in self.look(call)[0])

    def finds_file(self, place):
        """[FindsFile]: the file, or None"""
        found = finds_file(self.own, self.user, place, self.sees)
        if found is None or not all(covers(self.at_hand, n) for n in found[0]):
            return None
        return found[1]

    def can_answer(self, call):
        """[CanAnswer]: the reply, or None"""
        return reply_now(self.look(call)[1]) if self.is_covered(call) else None

    # calls
    def learns_end(self, call):
        """[LearnsEnd]"""
        return any(g.ends is not None and g.ends.k == call.k and number_of(g) in self.learnt
                   and number_of(g) not in self.past.known for g in self.past.made)

    def is_ended(self, call):
        """[Tokens.CauseEnds]"""
        found = self.counts()
        return (found is not None and isinstance(found[1].outcome, HasReply)) or self.learns_end(call)

    def begins(self):
        """[BeginsCall]: (k, call)"""
        out = [] if self.s.asked is None else [(self.s.asked.k, self.s.asked.call)]
        return out + [(a.k, a.call) for a in self.s.answers if a.first]

    def goes_on(self):
        """[CallGoesOn]"""
        return [(c.k, c.call) for c in self.past.open if not self.is_ended(c)]

    def turns(self):
        """[HasCall]"""
        return list(dict.fromkeys(self.begins() + self.goes_on()))

    # the past with the step
    def _after(self):
        p, s = self.past, self.s
        n = HostPast(self.host)
        n.length = p.length + 1
        returned = {i for m in s.sent if isinstance(m.body, Returned) for i in m.body.ids}
        made_ids = {i for g in s.made for i in g.ids}
        self.returned, self.made_ids = returned, made_ids
        self.kept_now = {i for m in s.sent if isinstance(m.body, Kept) for i in m.body.ids}
        leaves = returned | made_ids
        self.leaves_ids = leaves                                    # [LeavesHost]
        dropped = {x.token for x in s.dropped}                      # [Drops]
        n.held = dict.fromkeys(t for t in self.at_hand if t not in dropped)
        n.ever = p.ever | set(s.taken)
        n.owned = {t for t in p.owned | set(s.taken) if t.id not in leaves}
        n.left = p.left | leaves
        n.fetched = p.fetched | {m.body for m in s.sent if isinstance(m.body, Fetch)}
        n.changed = p.changed | {(m.server, m.body) for m in s.sent if isinstance(m.body, Change)}
        n.epochs = dict(p.epochs)
        m = self.message
        if m is not None:
            now = p.epoch_at(m.server)
            if isinstance(m.body, Restarted) and now < m.epoch:
                n.epochs[m.server] = m.epoch
            elif isinstance(m.body, Reclaimed) and now == 0:
                n.epochs[m.server] = m.epoch
        n.asking = p.asking | {(m.body.fid.fileset, m.body.number) for m in s.sent if isinstance(m.body, Fetch)}
        grant = self.body(Grant)
        if grant is not None and self.about(grant.bring.fid.fileset):
            n.asking = n.asking - {(grant.bring.fid.fileset, grant.bring.number)}
        n.changing = p.changing | {(m.server if m.body.fileset == 0 else 0, m.body.fileset, m.body.number)
                                   for m in s.sent if isinstance(m.body, Change)}
        settled = self.settles()
        if settled is not None:
            n.changing = n.changing - {(settled[0], settled[1].fileset, settled[1].bring.number)}
        n.greeted = p.greeted | {m.server for m in s.sent if isinstance(m.body, Hello)}
        n.said_bye = p.said_bye | {m.server for m in s.sent if isinstance(m.body, Bye)}
        self.stops = any(isinstance(m.body, Down) for m in s.sent)  # [Stops]
        n.stopped = p.stopped or self.stops
        n.made = p.made + list(s.made)
        n.known = self.known
        n.floors = p.floors
        m = self.message
        if m is not None:
            server = m.server
            if n.epoch_at(server) > p.epoch_at(server):             # [Renews]
                n.floors = {f: x for f, x in p.floors.items() if home(f.fileset) != server}
            else:
                r = self.revoke()
                raise_to = {}
                if r is not None:
                    raise_to[r.fid] = r.stamp
                if self.used is not None:
                    raise_to[self.used.fid] = max(raise_to.get(self.used.fid, 0), self.used.stamp)
                for fid, stamp in raise_to.items():
                    if stamp > n.floors.get(fid, 0):
                        n.floors = {**n.floors, fid: stamp}
        n.welcome, n.has_bye = p.welcome, p.has_bye
        if (self.body(Reclaimed) is not None and m.moves == 0 and m.epoch == n.epoch_at(m.server)
                and m.server in p.greeted):
            n.welcome = p.welcome | {m.server}
        if self.body(Bye) is not None:
            n.has_bye = p.has_bye | {m.server}
        n.kept_ids = (p.kept_ids - {t.id for t in s.taken}) | self.kept_now
        n.ended = dict(p.ended)
        for u in p.in_use:
            for g in s.made:
                if gives_use(g, u):
                    n.ended[u] = n.ended.get(u, ()) + (g,)
        n.in_use = {}
        for u in p.in_use:
            ends = any(a.call == end_of(u) and a.reply == OK for a in s.answers)    # [EndsUse]
            if not ends and not any(gives_use(g, u) for g in s.made):
                n.in_use[u] = None
        for u in s.begun:
            n.in_use[u] = None
        n.before = p.before
        if "taken_once" not in BEFORE:
            n.before = {(u, o) for u, o in p.before if u not in s.begun}
        n.before = n.before | {(u, o) for o in s.begun for u in p.in_use}
        opened = [c for c in p.open if not self.is_ended(c) and not any(a.k == c.k for a in s.answers)]
        n.open = tuple(dict.fromkeys(opened + ([] if s.asked is None else [s.asked])))
        n.lost = frozenset() if self.begins() else p.lost | self.loses_status(n)
        n.calls_begun = p.calls_begun + (1 if s.asked is not None else sum(1 for a in s.answers if a.first))
        n.lines_gone = p.lines_gone + isinstance(s.cause, (LineOf, RestartAt))
        n.claimed = {v for v in p.claimed if not n.epoch_at(v) > p.epoch_at(v)}
        n.claimed |= {m.server for m in s.sent if isinstance(m.body, Reclaim)}
        found = self.comes_reclaimed()
        if found is not None:
            n.claimed = n.claimed - {found[0]}
        n.entered = self.entered
        n.last_used = {t: x for t, x in p.last_used.items() if t in n.held}
        used = set(s.taken)
        for a in s.answers:
            for need in self.look(a.call)[0]:
                used |= {t for t in self.at_hand if helps_cover(t, need)}
        n.last_used.update({t: n.length for t in used if t in n.held})
        self._dirt(n)
        n.seen = self.sees_map
        if s.wrote is not None:                                     # [written_by]
            writes = [a.call for a in s.answers if isinstance(a.call, Write)]
            one = Seen(n.seen.get(s.wrote))
            for c in writes:
                end = c.start + len(c.bytes)
                one.size = max(one.size, end)
                one.bytes[c.start:min(end, 65536)] = c.bytes[:max(0, 65536 - c.start)]
            n.seen = {**n.seen, s.wrote: one}
        return n

    def loses_status(self, n):
        """[LosesStatus]: fids"""
        lost = {x.token.fid for x in self.s.dropped if x.why == REVOKED and isinstance(x.token.kind, Status)}
        return lost - {t.fid for t in n.held if isinstance(t.kind, Status)}

    def _dirt(self, n):
        p, s = self.past, self.s
        n.dirty = dict(p.dirty)
        if s.wrote is not None:
            at = set(n.dirty.get(s.wrote, ()))
            for a in s.answers:
                if isinstance(a.call, Write):
                    at |= set(range(a.call.start, a.call.start + len(a.call.bytes)))
            n.dirty[s.wrote] = frozenset(at)
        for g in s.made:
            if g.fid in n.dirty:
                n.dirty[g.fid] = frozenset(at for at in n.dirty[g.fid] if byte_of(g.pieces, at) is None)
        n.last_length = dict(p.last_length)
        for fid in {t.fid for t in s.taken if t.kind == Status(True)}:
            n.last_length.pop(fid, None)
        for fid in {g.fid for g in s.made if g.length is not None}:
            n.last_length[fid] = tuple(g for g in s.made if g.fid == fid and g.length is not None)

    # what it sends
    def sent(self, kind):
        return [m for m in self.s.sent if isinstance(m.body, kind)]

    def sends(self, server, epoch, moves, body):
        """[Sends]"""
        return any(m.server == server and m.epoch == epoch and m.moves == moves and m.body == body
                   for m in self.s.sent)

    def sends_to(self, where, body):
        """[SendsTo]"""
        return any((m.server, m.moves) == where and m.body == body for m in self.s.sent)

    # ---- the rules ----
    def host_tokens(self):
        p, s, n, bad = self.past, self.s, self.after, self.bad
        if p.stopped:
            bad("HostTokens.live")
        if self.stops and any(not isinstance(m.body, Down) for m in s.sent):
            bad("HostTokens.stops_alone")
        for m in s.sent:
            if m.epoch != n.epoch_at(m.server):
                bad("HostTokens.epochs", m)
        for t in s.taken:
            b = self.used
            if b is None or t not in b.tokens or t.fid != b.fid or p.holds_id(t.id):
                bad("HostTokens.takes", t)
        dropped = {x.token for x in s.dropped}
        for t in self.at_hand:
            if t.id in self.leaves_ids and t not in dropped:
                bad("HostTokens.drops", t)
        for t in dropped:
            if t.id not in self.leaves_ids and not self.stops:
                bad("HostTokens.drops_only", t)
        ids = {t.id for t in self.at_hand}
        r = self.revoke()
        for i in self.returned:
            if i not in ids and not (r is not None and i in r.ids):
                bad("HostTokens.returns", i)
        for g in n.made:
            for i in g.ids:
                if i in self.returned and number_of(g) not in n.known:
                    bad("HostTokens.returns_free", i, g)
        for m in self.sent((Returned, Kept)):
            if (m.server, m.moves) != place(m.body.fid.fileset):
                bad("HostTokens.answers", m)
            for t in self.at_hand:
                if t.id in m.body.ids and t.fid != m.body.fid:
                    bad("HostTokens.answers_file", m, t)
        for g in s.made:
            if not g.ids:
                bad("HostGives.names", g)
            for i in g.ids:
                if not any(t.id == i and t.fid == g.fid for t in self.at_hand):
                    bad("HostTokens.makes", g, i)
            if not 0 < g.number:
                bad("HostTokens.makes_from", g)
            for k in s.made:
                if g != k and set(g.ids) & set(k.ids):
                    bad("HostTokens.makes_once", g, k)
                if g != k and number_of(g) == number_of(k):
                    bad("HostTokens.makes_apart", g, k)
            for k in p.made:
                if k.fid.fileset == g.fid.fileset and not k.number < g.number:
                    bad("HostTokens.makes_new", g, k)
        for m in self.sent(GiveBack):
            g = m.body.give
            if g not in n.made or (m.server, m.moves) != place(g.fid.fileset):
                bad("HostTokens.gives", g)
            for k in n.made:
                if k.fid.fileset == g.fid.fileset and k.number < g.number and not n.is_known(k):
                    bad("HostTokens.gives_first", g, k)
        for m in self.sent(Fetch):
            if (m.server, m.moves) != place(m.body.fid.fileset) or p.said_bye:
                bad("HostTokens.fetches", m)
        for m in self.sent(Change):
            fs = m.body.fileset
            if not ((fs == 0 and m.moves == 0) or (m.server, m.moves) == place(fs)) or p.said_bye:
                bad("HostTokens.changes", m)
        for m in self.sent(Reclaim):
            self.claims(m.server, m.body)
        if self.sent(Bye):
            if n.owned:
                bad("HostTokens.bye_held", sorted(t.id for t in n.owned))
            if any(not n.is_known(g) for g in n.made):
                bad("HostTokens.bye_gives")
            if n.asking:
                bad("HostTokens.bye_asking", n.asking)
            if n.changing:
                bad("HostTokens.bye_changing", n.changing)

    def claims(self, server, claim):
        """[Claims (s :: past)]"""
        n, bad = self.after, self.bad

        def is_claimed(i):
            return i.server == server and i.epoch < n.epoch_at(server)
        names = "HostTokens.claims/"
        for t in n.held:
            if is_claimed(t.id) and t not in claim.tokens:
                bad(names + "held", t)
        for g in n.made:
            for i in g.ids:
                if is_claimed(i) and not n.is_known(g) and not any(t.id == i for t in claim.tokens):
                    bad(names + "given", g, i)
        for t in claim.tokens:
            in_give = any(g.fid == t.fid and t.id in g.ids
                          and (any(o.fileset == g.fid.fileset and o.give == g.number for o in claim.numbers)
                               or n.waits(g)) for g in n.made)
            if t not in n.ever or not is_claimed(t.id) or not (t in n.held or in_give):
                bad(names + "only", t)
            if not any(o.fileset == t.fid.fileset for o in claim.numbers):
                bad(names + "numbers", t)
        for o in claim.numbers:
            if o.moves != place(o.fileset)[1]:
                bad(names + "moves", o)
            if 0 < o.give and not any(number_of(g) == GiveNo(o.fileset, o.give) and n.is_outstanding(g)
                                      for g in n.made):
                bad(names + "gives", o)
            for g in n.made:
                if g.fid.fileset == o.fileset and n.is_outstanding(g) and o.give != g.number:
                    bad(names + "gives_all", o, g)
            if 0 < o.change and not n.is_changing(server, o.fileset, o.change):
                bad(names + "changes", o)
            for v, fs, k in n.changing:
                if fs == o.fileset and (fs != 0 or v == server) and o.change != k:
                    bad(names + "changes_all", o, k)

    def host_takes(self):
        b = self.used
        if b is not None:
            for t in b.tokens:
                if not self.past.holds_id(t.id) and not any(u.id == t.id for u in self.s.taken):
                    self.bad("HostTakes.all", t)
        for t in self.s.taken:
            for u in self.s.taken:
                if t.id == u.id and t != u:
                    self.bad("HostTakes.once", t, u)

    def stance(self):
        if self.user is None:
            self.bad("Stance.acts_for")
        for where, ids in self.entered.items():
            if len(ids) > 1:
                self.bad("Stance.knows/seen", where, ids)

    def host_answers(self):
        p, s, n, bad = self.past, self.s, self.after, self.bad
        turns = self.turns()
        going = self.goes_on()
        for a in s.answers:
            if a.host != self.host or (a.k, a.call) not in turns or self.can_answer(a.call) != a.reply:
                bad("HostAnswers.answers", a.k, a.call, a.reply, "can", self.can_answer(a.call))
        for k, call in turns:
            if self.can_answer(call) is not None and not any(a.k == k for a in s.answers):
                bad("HostAnswers.answers_all", k, call, self.can_answer(call))
        for a in s.answers:
            if not a.first and (a.k, a.call) not in going:
                bad("HostAnswers.first", a)
            if s.asked is not None:
                bad("HostAnswers.asked", a)
            if n.asking:
                bad("HostAnswers.answers_alone", a)
            if n.changing:
                bad("HostAnswers.answers_settled", a)
            if s.dropped or s.made:
                bad("HostAnswers.keeps", a)
            if a.first and s.sent:
                bad("HostAnswers.quiet", a)
            verdict = self.look(a.call)[1]
            if isinstance(verdict, Writes) and s.wrote != verdict.fid:
                bad("HostAnswers.writes", a)
            if isinstance(verdict, Locks) and not any(
                    self.is_exact(a.call, u) and u.token.fid == verdict.fid
                    and u.token.kind == LockTok(verdict.writing, verdict.span) for u in s.begun):
                bad("HostAnswers.locks", a)
            if isinstance(verdict, Opens) and not any(
                    self.is_exact(a.call, u) and u.token.fid == verdict.fid for u in s.begun):
                bad("HostAnswers.opens", a)
        if len(s.answers) > 1:
            bad("HostAnswers.answers_one")
        if s.wrote is not None and not any(
                isinstance(self.look(a.call)[1], Writes) and self.look(a.call)[1].fid == s.wrote for a in s.answers):
            bad("HostAnswers.writes_only", s.wrote)
        for u in s.begun:
            if not any(a.reply == OK and self.is_exact(a.call, u) for a in s.answers) or u.token not in self.at_hand:
                bad("HostAnswers.begins", u)
            if any(u != w for w in s.begun):
                bad("HostAnswers.begins_one", u)

    @staticmethod
    def is_exact(call, usage):
        """[IsExact]"""
        if isinstance(call, Lock):
            return (usage.label == call.label and isinstance(usage.token.kind, LockTok)
                    and usage.token.kind.writing == call.writing)
        if isinstance(call, OpenFile):
            return usage.label == call.label and usage.token.kind == Opening(call.kind)
        return False

    # asking
    def first_lack(self, call):
        """[FirstLack]"""
        for need in self.look(call)[0]:
            if not covers(self.after.held, need):
                return need
        return None

    def asks_server(self, call):
        """[AsksServer]: (question, fid)"""
        needs, verdict = self.look(call)
        out = []
        lack = self.first_lack(call)
        if isinstance(verdict, Asks) and lack is None:
            out.append((verdict.question, NO_FID))
        if lack is not None and isinstance(lack.kind, USE_KINDS):
            out.append((("in", lack.fid.fileset), lack.fid))
        return out

    @staticmethod
    def stay_asked(question):
        return place(question[1]) if question[0] == "in" else (question[1], 0)

    def is_next(self, numbers, n):
        """[IsNextNumber]"""
        return all(m < n for m in numbers) and (n == 1 or n - 1 in numbers)

    def is_directory(self, fid):
        """[IsDirectory]"""
        if fid == root_of(fid.fileset):
            return True
        nature = self.sees(fid, TRAITS)
        return covers(self.after.held, Need(fid, Status(False))) and nature is not None and nature.dir

    def fetch_needs(self, needs, fid, asked):
        """[FetchNeeds]"""
        held = self.after.held
        if self.is_directory(fid):
            return asked == (Need(fid, Status(False)), Need(fid, Bytes(False, WHOLE)))
        if not covers(held, Need(fid, Status(False))):
            return asked == (Need(fid, Status(False)),)
        if "asks_lacking" in BEFORE:
            return self.lacking_needs(needs, fid, asked)
        return self.file_needs(needs, fid, asked)

    def file_needs(self, needs, fid, asked):
        """[FileNeeds]: all bytes that the call needs, held or not, but for blocks with a dirty one; of the status what
        lacks, and it once more where this call has lost it"""
        n = self.after
        if any(m.fid != fid or isinstance(m.kind, USE_KINDS) for m in asked):
            return False
        blocks = {at // TOKEN_BYTES for at in n.dirty.get(fid, ())}

        def named(of, update):
            return {at for m in of if m.fid == fid and isinstance(m.kind, Bytes) and m.kind.update == update
                    for at in range(m.kind.span.start, m.kind.span.to)}
        for update in (False, True):
            if named(asked, update) != {at for at in named(needs, update) if at // TOKEN_BYTES not in blocks}:
                return False
        due = set()
        if not covers(n.held, Need(fid, Status(True))):
            if Need(fid, Status(True)) in needs:
                due = {True}
            elif fid in n.lost:
                due = {False}
        return {m.kind.update for m in asked if isinstance(m.kind, Status)} == due

    def lacking_needs(self, needs, fid, asked):
        """What a Fetch asked for before [FileNeeds]: what the call needs and lacks (`before.py`)."""
        held = self.after.held
        lacked = [n for n in needs if n.fid == fid and not covers(held, n)]
        for n in asked:
            if n.fid != fid:
                return False
            if not isinstance(n.kind, Bytes):
                if n not in lacked:
                    return False
                continue
            a, b = n.kind.span
            if a >= b:
                continue
            gaps = uncovered(held, fid, n.kind.update, n.kind.span)
            if sum(g.to - g.start for g in gaps) != b - a:
                return False            # some of it isn't missing
            at = a
            for x, y in sorted(m.kind.span for m in lacked
                               if isinstance(m.kind, Bytes) and m.kind.update == n.kind.update):
                if x <= at < y:
                    at = y
            if at < b:
                return False            # some of it lies in no need that is lacked
        for n in lacked:
            if not isinstance(n.kind, Bytes):
                least = [m for m in asked if (isinstance(n.kind, Status) and isinstance(m.kind, Status)
                                              and (m.kind.update or not n.kind.update)) or m.kind == n.kind]
                if not least:
                    return False
                continue
            for gap in uncovered(held, fid, n.kind.update, n.kind.span):
                at = gap.start
                for x, y in sorted(m.kind.span for m in asked if isinstance(m.kind, Bytes)
                                   and (m.kind.update or not n.kind.update)):
                    if x <= at < y:
                        at = y
                if at < gap.to:
                    return False
        return True

    def is_new_fetch(self, f):
        """[IsNewFetch]: the first field that fails, or None"""
        p, n = self.past, self.after
        if not self.is_next({x.number for x in p.fetched if x.fid.fileset == f.fid.fileset}, f.number):
            return "next"
        if n.give_open(f.fid):
            return "no_give"
        if not n.open:
            return "is_open"
        for call in n.open:
            need = self.first_lack(call.call)
            if need is None:
                return "first"
            if isinstance(need.kind, USE_KINDS):
                return "fetched"
            if need.fid != f.fid:
                return "file"
            if not self.fetch_needs(self.look(call.call)[0], f.fid, f.needs):
                return "needs"
            return None

    def is_new_change(self, v, moves, c):
        """[IsNewChange]"""
        p, n = self.past, self.after
        numbers = {x.number for w, x in p.changed if x.fileset == c.fileset and (c.fileset != 0 or w == v)}
        if not self.is_next(numbers, c.number):
            return "next"
        if Asked(c.k, c.call) not in n.open:
            return "is_open"
        why = "asks"
        for question, fid in self.asks_server(c.call):
            if fid != c.fid:
                why = "asks"
            elif c.enter != (question[0] == "enter"):
                why = "enters"
            elif c.fileset != numbered_under(question):
                why = "numbered"
            elif self.stay_asked(question) != (v, moves):
                why = "goes"
            else:
                return None
        return why

    def awaits_gone(self, call):
        """[AwaitsGone]"""
        n = self.after
        need = self.first_lack(call)
        if need is not None and n.give_open(need.fid):
            return True
        return isinstance(self.look(call)[1], Gives) and any(not n.is_known(g) for g in n.made)

    def goes_to(self, call):
        """[GoesTo]: servers"""
        out = []
        need = self.first_lack(call)
        if need is not None:
            out.append(place(need.fid.fileset)[0])
        out += [self.stay_asked(q)[0] for q, _ in self.asks_server(call)]
        return out

    def host_asks(self):
        p, s, n, bad = self.past, self.s, self.after, self.bad
        for m in self.sent(Fetch):
            f = m.body
            if not (f in p.fetched and (f.fid.fileset, f.number) in p.asking):
                why = self.is_new_fetch(f)
                if why:
                    bad("HostAsks.fetches/" + why, f)
            if m.server not in n.welcome:
                bad("HostAsks.fetches_welcome", m)
        for m in self.sent(Change):
            c = m.body
            if not (p.has_changed(m.server, c) and p.is_changing(m.server, c.fileset, c.number)):
                why = self.is_new_change(m.server, m.moves, c)
                if why:
                    bad("HostAsks.changes/" + why, c)
            if m.server not in n.welcome:
                bad("HostAsks.changes_welcome", m)
        if len(n.asking) > 1:
            bad("HostAsks.one_fetch", n.asking)
        if len({(fs, k) for _, fs, k in n.changing}) > 1:
            bad("HostAsks.one_change", n.changing)
        if n.asking and n.changing:
            bad("HostAsks.one_of_both")
        if not n.stopped:
            for c in n.open:
                waits = any(v in n.greeted and v not in n.welcome for v in self.goes_to(c.call))
                if not (n.asking or n.changing or self.awaits_gone(c.call) or waits):
                    bad("HostAsks.asks", c)

    def host_gives(self):
        p, s, n, bad = self.past, self.s, self.after, self.bad
        for g in s.made:
            if any(g != k and g.fid == k.fid for k in s.made):
                bad("HostGives.one_a_file", g)
            if g.number != 1 and not any(k.fid.fileset == g.fid.fileset and k.number + 1 == g.number for k in n.made):
                bad("HostGives.next", g)
            wrong = []
            if not rise(g.pieces):
                bad("HostGives.rise", g)
            for piece in g.pieces:
                for i, x in enumerate(piece.bytes):
                    at = piece.start + i
                    named = any(t.id in g.ids and t.fid == g.fid and p.updates_byte(t, g.fid, at)
                                for t in self.at_hand)
                    if not (named and at in p.dirty.get(g.fid, ()) and self.sees(g.fid, ("byte", at)) == x
                            and not n.owns_update(g.fid, at)):
                        wrong.append(at)
            if wrong:
                bad("HostGives.bytes", g.number, g.fid, wrong[:5])
            if g.length is not None and not (self.dirty_length(g.fid) and self.sees(g.fid, SIZE) == g.length):
                bad("HostGives.length", g)
            if self.dirty_length(g.fid) and g.length != self.sees(g.fid, SIZE):
                bad("HostGives.length_too", g)
            if g.ends is not None:
                if not (any(p.frees_pinned(u) and g.ends.call == end_of(u) and u.token.id in g.ids for u in p.in_use)
                        and Asked(g.ends.k, g.ends.call) in n.open):
                    bad("HostGives.ends", g)
            for u in p.in_use:
                if u.token.id in g.ids and not gives_use(g, u):
                    bad("HostGives.ends_used", g, u)
        left = [t for t in p.owned if t not in n.owned]
        for fid, dirty in p.dirty.items():
            gone = [t for t in left if t.fid == fid]
            wrong = [at for at in dirty if any(p.updates_byte(t, fid, at) for t in gone)
                     and not n.owns_update(fid, at)
                     and not any(g.fid == fid and byte_of(g.pieces, at) is not None for g in s.made)] if gone else ()
            if wrong:
                bad("HostGives.bytes_saved", fid, wrong[:5])
        for t in p.owned:
            if self.length_is_dirty(t) and t not in n.owned and not any(
                    g.fid == t.fid and g.length == self.sees(t.fid, SIZE) and t.id in g.ids for g in s.made):
                bad("HostGives.length_saved", t)
        if not n.stopped:
            for g in n.made:
                if n.is_outstanding(g) and not p.is_outstanding(g) and not self.sends_to(place(g.fid.fileset),
                                                                                          GiveBack(g)):
                    bad("HostGives.sends", g)

    def host_revoked(self):
        p, s, n, bad = self.past, self.s, self.after, self.bad
        r = self.revoke()
        for i in self.kept_now:
            if not (n.holds_id(i) and n.is_used(i) and r is not None and i in r.ids):
                bad("HostRevoked.keeps", i)
        for i in self.returned:
            if p.is_used(i):
                bad("HostRevoked.returns_idle", i)

    def calls_due(self):
        p, s, n, bad = self.past, self.s, self.after, self.bad
        for k, call in self.turns():
            if isinstance(call, Sync):
                fid = self.finds_file(call.place)
                if fid is not None:
                    for t in self.at_hand:
                        if t.fid == fid and self.is_dirty_under(t) and t.id not in self.made_ids:
                            bad("CallsDue.syncs", t)
            for u in p.in_use:
                if end_of(u) == call and p.frees_pinned(u) and not any(gives_use(g, u) for g in s.made):
                    bad("CallsDue.frees", u)
        for m in self.sent(Hello):
            v = m.server
            again = isinstance(s.cause, Lapse) and v in p.greeted
            first = v not in p.greeted and any(v in self.goes_to(c.call) for c in n.open)
            if v in n.welcome or not (again or first):
                bad("CallsDue.greets", m)

    def revoke_due(self):
        p, r, bad = self.past, self.revoke(), self.bad
        for i in () if r is None else r.ids:
            held = [t for t in p.held if t.id == i]
            dirty = [t for t in held if self.has_dirty(t)]
            if held and p.is_used(i) and i not in self.kept_now:
                bad("RevokeDue.keeps", i)
            if dirty and i not in self.made_ids:
                bad("RevokeDue.gives", i)
            for g in p.made:
                if i in g.ids and p.is_outstanding(g) and not self.sends_to(place(g.fid.fileset), GiveBack(g)):
                    bad("RevokeDue.gives_again", i, g)
            if not p.is_used(i) and not dirty and all(p.is_known(g) for g in p.made if i in g.ids):
                # [AnswersOf]: under its own file where it is held, else under the Revoke's
                for fid in {t.fid for t in held} or {r.fid}:
                    if not any(i in m.body.ids and m.body.fid == fid for m in self.sent(Returned)):
                        bad("RevokeDue.returns", i)

    def sends_again(self, m):
        """[SendsAgain]: what is outstanding may be sent again, beside at a lapse"""
        if isinstance(m.body, GiveBack):
            r = self.revoke()
            return self.learns_restart(m.server) or (r is not None and not set(r.ids).isdisjoint(m.body.give.ids))
        found = self.comes_reclaimed()
        return found is not None and found[0] == m.server

    def host_resends(self):
        for m in self.sent(Reclaim):
            again = isinstance(self.s.cause, Lapse) and m.server in self.past.claimed
            if not (self.learns_restart(m.server) or again):
                self.bad("HostResends.claims_only", m.server)

    def repeats_due(self):
        p, s, n, bad = self.past, self.s, self.after, self.bad
        claims_at = {m.server for m in self.sent(Reclaim)}
        out = p.outstanding()
        for m in s.sent:
            if (m.server, m.moves, m.body) in out and not isinstance(s.cause, Lapse) and not self.sends_again(m):
                bad("RepeatsDue.again_only", m)
        for m in self.sent(Bye):
            if m.server in p.said_bye and m.server in p.has_bye:
                bad("RepeatsDue.bye_again", m)
        for m in self.sent(GiveBack):
            if not n.is_outstanding(m.body.give):
                bad("RepeatsDue.gives_only", m)
        if isinstance(s.cause, Lapse):
            for v, moves, b in out:
                if not self.sends(v, p.epoch_at(v), moves, b):
                    bad("RepeatsDue.lapse_all", v, b)
            for v in p.claimed:
                if v not in claims_at:
                    bad("RepeatsDue.lapse_claims", v)
            for m in s.sent:
                if (m.server, m.moves, m.body) not in out and not (m.server in p.claimed
                                                                   and isinstance(m.body, Reclaim)):
                    bad("RepeatsDue.lapse_only", m)
            if s.asked is not None or s.answers or s.taken or s.dropped or s.made:
                bad("RepeatsDue.lapse_quiet")
        for v in p.greeted:
            if self.learns_restart(v):
                for w, moves, b in out:
                    if w == v and isinstance(b, GiveBack) and not self.sends(v, n.epoch_at(v), moves, b):
                        bad("RepeatsDue.restarted_gives", v, b)
                if v not in claims_at:
                    bad("RepeatsDue.restarted_claims", v)
        found = self.comes_reclaimed()
        if found is not None:
            v = found[0]
            still = n.outstanding()
            for w, moves, b in out:
                if (w == v and not isinstance(b, GiveBack) and (w, moves, b) in still
                        and not self.sends(v, n.epoch_at(v), moves, b)):
                    bad("RepeatsDue.reclaimed_all", v, b)

    def may_leave(self, why, t, limit):
        """[MayLeave]"""
        p, s = self.past, self.s
        if why == REVOKED:
            r = self.revoke()
            return r is not None and t.id in r.ids and not p.is_used(t.id)
        if why == EVICTED:
            return (isinstance(s.cause, Evict) and p.may_evict(limit) and t in p.held and not p.is_used(t.id)
                    and p.is_oldest(t))
        if why == ASKED:
            for k, call in self.turns():
                if isinstance(call, Sync) and self.finds_file(call.place) == t.fid and self.is_dirty_under(t):
                    return True
                if any(end_of(u) == call and p.frees_pinned(u) and u.token == t for u in p.in_use):
                    return True
            return False
        if why == ENDED:
            return isinstance(s.cause, End) and not p.in_use
        return why == STOPPED and self.stops

    def host_leaves(self):
        limit = limit_of(self.roster, self.host)
        for x in self.s.dropped:
            if not self.may_leave(x.why, x.token, limit):
                self.bad("HostLeaves.leaves", x)

    def leaves_due(self):
        p, s, bad = self.past, self.s, self.bad
        for x in s.dropped:
            if x.token not in self.at_hand:
                bad("LeavesDue.held", x)
        if isinstance(s.cause, Evict) and (
                len(s.dropped) != 1 or not p.may_evict(limit_of(self.roster, self.host))):
            bad("LeavesDue.evicts")
        if isinstance(s.cause, End):
            if not self.begins() and not s.dropped and not self.sent(Bye):
                bad("LeavesDue.ends")
            for x in s.dropped:
                if x.why == ENDED and (p.in_use or not set(p.held) <= {y.token for y in s.dropped}):
                    bad("LeavesDue.ends_all", x)

    def next_line(self, number):
        """[IsNextLine]"""
        lines = lines_of(self.script, ("c", self.host))
        at = self.past.lines_gone
        return lines[at] if at < len(lines) and lines[at].number == number else None

    def host_lines(self):
        p, s, bad = self.past, self.s, self.bad
        limit = limit_of(self.roster, self.host)
        if isinstance(s.cause, LineOf):
            line = self.next_line(s.cause.number)
            if line is None:
                bad("HostLines.next", "no such line")
            elif isinstance(line.deed, MakesCall):
                if (p.calls_begun + 1, line.deed.call) not in self.begins():
                    bad("HostLines.next", "call")
            elif isinstance(line.deed, (Raise, Await)):
                if s != bare(s.node, s.cause):
                    bad("HostLines.next", "bare")
            elif isinstance(line.deed, Stop):
                says = {m.server for m in self.sent(Down)}
                dropped = {x.token for x in s.dropped}
                if (not set(servers_of(self.roster)) <= says or not set(p.held) <= dropped or s.asked is not None
                        or s.answers or s.made):
                    bad("HostLines.next", "stop")
            else:
                bad("HostLines.next", "restart")
            if p.open or p.may_evict(limit):
                bad("HostLines.free")
        if self.begins() and not isinstance(s.cause, (LineOf, End)):
            bad("HostLines.begins")
        if self.stops:
            line = self.next_line(s.cause.number) if isinstance(s.cause, LineOf) else None
            if line is None or not isinstance(line.deed, Stop):
                bad("HostLines.stops")
        if isinstance(s.cause, (RestartAt, Flushed)):
            bad("HostLines.no_server")
        if s.applied or s.admitted or s.reserved:
            bad("HostLines.applies_none")

    def host_ends(self):
        p, s, n, bad = self.past, self.s, self.after, self.bad
        limit = limit_of(self.roster, self.host)
        lines = lines_of(self.script, ("c", self.host))
        if isinstance(s.cause, End):
            if p.lines_gone != len(lines) or p.open or p.may_evict(limit):
                bad("HostEnds.after")
            for k, call in self.begins():
                if k != p.calls_begun + 1 or not any(
                        call == end_of(u) and not any((o, u) in p.before for o in p.in_use) for u in p.in_use):
                    bad("HostEnds.implied", k, call)
        for m in self.sent(Bye):
            if m.server not in p.greeted or n.held or not (isinstance(s.cause, End) or m.server in p.said_bye):
                bad("HostEnds.bye", m)

    def host_may(self):
        """[HostMay]"""
        self.host_tokens()
        self.host_takes()
        self.stance()
        if self.user is not None:
            self.host_answers()
            self.host_asks()
        self.host_gives()
        self.host_revoked()
        self.host_resends()
        self.host_leaves()
        self.host_lines()
        self.host_ends()

    def host_due(self):
        """[HostDue]"""
        if self.user is not None:
            self.calls_due()
        self.revoke_due()
        self.repeats_due()
        self.leaves_due()
        dropped = tuple(x.token for x in self.s.dropped)
        for name, found in (("once", self.s.sent), ("once_taken", self.s.taken), ("once_dropped", dropped),
                            ("once_made", self.s.made)):
            for i, x in enumerate(found):
                if x in found[:i]:
                    self.bad("HostDue." + name, x)

    def host_meets(self):
        """Both halves: (rule, why) of each rule that the step breaks"""
        self.host_may()
        self.host_due()
        return self.broken
