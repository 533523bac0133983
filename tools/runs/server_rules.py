"""The rules of a server, from the text of run_rules.

ServerPast is what the definitions say of a server's doings (`past : List Act`); `apply(act)` is the next doing.
Turn is one step of a server on them, with all rules as methods named as their records.
"""
from typing import NamedTuple

from words import (Again, Answer, Bye, Bytes, Came, Change, Done, Down, EXPORTER, End, EndsCall, Evict, Fetch, Flushed,
                   GiveBack, Gone, Grant, Granted, HasReply, Hello, IsDown, Kept, Known, Lapse, LineOf, Lock, LockTok,
                   MoveFileset, OK, OpenFile, Opening, Reclaim, Reclaimed, Restart, RestartAt, Restarted, Returned,
                   Revoke, Status, Stored, Wanted, Written, bare, home, is_refusal, lines_of, need_of, number_of,
                   refused, span_between, user_of)
from needs import blocks, conflict, fileset_of, want, wants_conflict
from before import BEFORE
from tree import ENTRIES, Nature, SIZE, TRAITS, answer_to, cell, object_of, takes_gifts, tree_given

USE_KINDS = (LockTok, Opening)


# [Doings.Doing]
class Begins(NamedTuple):
    epoch: int


class Took(NamedTuple):
    host: int
    epoch: int
    moves: int
    body: object


class Flushes(NamedTuple):
    pass


class Wants(NamedTuple):
    wanted: Wanted


class Writes(NamedTuple):
    written: Written


class Admits(NamedTuple):
    host: int
    tokens: tuple


class Sent(NamedTuple):
    host: int
    epoch: int
    moves: int
    body: object


class Reserves(NamedTuple):
    tokens: tuple


def here(server, fileset, moves):
    """[Doings.Here]: so far where it was made"""
    return home(fileset) == server and moves == 0


def is_here(server, fileset, moves):
    """[ServerDecides.IsDecidedHere]"""
    return (fileset == 0 and moves == 0) or here(server, fileset, moves)


def is_use(call):
    return isinstance(call, (Lock, OpenFile))


def locks_nothing(call):
    return isinstance(call, Lock) and not call.len


def is_move(call):
    return isinstance(call, MoveFileset)


def has_effect(c):
    return not c.enter and not is_use(c.call) and not is_move(c.call)


def asker(w):
    """[Wants.asker]"""
    return w.host if isinstance(w.request, Fetch) or is_use(w.request.call) else EXPORTER


def is_meant_so(c):
    """[ServerDecides.IsMeantSo]"""
    if c.enter and fileset_of(c.call) is None or locks_nothing(c.call):
        return False
    return not is_use(c.call) or c.fid.fileset == c.fileset


def same_number(a, b):
    """[Wants.CannotBothWait]"""
    if isinstance(a, Fetch) and isinstance(b, Fetch):
        return a.fid.fileset == b.fid.fileset and a.number == b.number
    return isinstance(a, Change) and isinstance(b, Change) and a.fileset == b.fileset


def row_needs(tree, host, c):
    user = user_of(tree.roster, host)
    return () if c.enter or user is None else want(tree, user, c.call)


def needs_for(tree, host, request):
    return request.needs if isinstance(request, Fetch) else row_needs(tree, host, request)


def decides(a, host, request):
    """[Wants.Decides]"""
    if isinstance(request, Fetch):
        return (isinstance(a, Sent) and a.host == host and isinstance(a.body, Grant)
                and a.body.bring.fid.fileset == request.fid.fileset and a.body.bring.number == request.number)
    if isinstance(a, Writes):
        w = a.written
        return (w.answer.host == host and w.fileset == request.fileset and w.number == request.number)
    return (isinstance(a, Sent) and a.host == host and isinstance(a.body, Done)
            and a.body.fileset == request.fileset and a.body.bring.number == request.number)


def blocks_want(w, t):
    """[Wants.IsInWay]"""
    return blocks(asker(w), w.needs, t)


class ServerPast:
    """After `Begins first`."""

    def __init__(self, server, first):
        self.server = server
        self.epoch = first          # [epoch]
        self.listed = set()         # [Listed]
        self.down = set()           # [HasGoneDown]
        self.away = set()           # [HasGoneAway]
        self.listed_now = set()     # [ListedNow]
        self.reclaimed = set()      # [HasReclaimed]
        self.granted = {}           # [Granted] token: None
        self.pinned = set()         # [Pinned]
        self.reserved = set()       # [Reserved]
        self.issued = {}            # epoch: the highest seq that was issued; [Issued]
        self.told = {}              # fid: the highest stamp of this epoch; [HasUsedStamp]
        self.applied = {}           # (host, fileset): the highest give-back that was taken; [IsApplied]
        self.given_up = set()       # [GivenUp] (host, id)
        self.took_now = set()       # [TookNow] (host, moves, body)
        self.took_of = set()        # [TookOf] (host, fileset, body), where it was here
        self.took_ever = set()      # [TookEver]
        self.written = []           # [WasWritten], [HasWritten]
        self.durable = {}           # (host, fileset): the highest number; [IsDurable]
        self.sent = set()           # [SentTo] (host, epoch, moves, body)
        self.dones = {}             # (host, fileset): [(epoch, moves, done)]
        self.revoked = set()        # [HasRevoked] (host, id) of this epoch
        self.waiting = []           # [IsQueued]
        self.order = set()          # [IsQueuedBefore] pairs
        self._free = {}

    def copy(self):
        twin = ServerPast.__new__(ServerPast)
        for k, v in self.__dict__.items():
            twin.__dict__[k] = v.copy() if isinstance(v, (set, dict, list)) else v
        twin.dones = {k: list(v) for k, v in self.dones.items()}
        twin._free = {}
        return twin

    def is_live(self, host):
        return host in self.listed and host not in self.away

    def no_grace(self):
        """[NoGrace]"""
        return all(h in self.reclaimed for h in self.listed if self.is_live(h))

    def takes(self, a):
        """[TakesFrom]"""
        return isinstance(a, Took) and a.epoch == self.epoch and self.is_live(a.host)

    def goes_away(self, a):
        """[GoesAway]: the host, or None"""
        if not isinstance(a, Took):
            return None
        if isinstance(a.body, Down):
            return a.host
        if isinstance(a.body, Bye) and a.epoch == self.epoch and a.host in self.listed and a.host not in self.down:
            return a.host
        return None

    def is_granted_id(self, id):
        return any(t.id == id for t in self.granted)

    def sent_to(self, host, epoch, moves, body):
        return (host, epoch, moves, body) in self.sent

    def is_durable(self, host, fileset, number):
        return number <= self.durable.get((host, fileset), -1)

    def is_applied(self, host, number):
        """[IsApplied]"""
        return (host, number.fileset) in self.applied and number.number <= self.applied[host, number.fileset]

    def is_old(self, host, request):
        """[IsOld]"""
        if isinstance(request, Fetch):
            return False
        return self.is_durable(host, request.fileset, request.number) or any(
            request.number <= d.bring.number if e == self.epoch else request.number < d.bring.number
            for e, _, d in self.dones.get((host, request.fileset), ()))

    def none_waits(self, host, request):
        """[NoneQueued]"""
        return not any(w.host == host and same_number(w.request, request) for w in self.waiting)

    def is_behind(self, w):
        """[IsBehind]"""
        return any(x == w and wants_conflict(asker(w), w.needs, asker(v), v.needs) for v, x in self.order)

    def can_grant(self, w):
        """[CanGrant]"""
        return (self.no_grace() and not any(blocks_want(w, t) for t in self.granted)
                and not any(blocks_want(w, t) for t in self.reserved) and not self.is_behind(w))

    def can_refuse(self, w):
        """[CanRefuse]"""
        return self.no_grace() and any(blocks_want(w, t) for t in self.pinned) and not self.is_behind(w)

    def is_ready(self, w):
        return self.can_grant(w) or self.can_refuse(w)

    def is_last(self, host, fileset, number):
        """[IsLast]"""
        return all(d.bring.number <= number for _, _, d in self.dones.get((host, fileset), ()))

    def owed(self):
        """[IsOwed]: granted, not pinned, Revoked"""
        return [t for t in self.granted if t not in self.pinned and (t.host, t.id) in self.revoked]

    def asked_back(self):
        """[IsAskedBack]"""
        if not self.no_grace():
            return []
        return [t for t in self.granted if t not in self.pinned and any(blocks_want(w, t) for w in self.waiting)]

    def has_all(self, host, claim):
        """[HasTakenGives]"""
        for o in claim.numbers:
            if 0 < o.give and here(self.server, o.fileset, o.moves):
                if not any(h == host and fs == o.fileset and isinstance(b, GiveBack)
                           and b.give.fid.fileset == o.fileset and b.give.number == o.give
                           for h, fs, b in self.took_of):
                    return False
        return True

    def claims(self, host):
        """the claims of a host that were taken in this epoch"""
        return [b for h, _, b in self.took_now if h == host and isinstance(b, Reclaim)]

    def brings(self, a):
        """[Brings]: the Bring, or None"""
        return a.body.bring if isinstance(a, Sent) and isinstance(a.body, (Grant, Done)) else None

    def apply(self, a):
        """The next doing; all of it is judged on the doings before it."""
        server = self.server
        begin = isinstance(a, Begins)
        away = self.goes_away(a)
        takes = self.takes(a)
        bring = self.brings(a)
        # wants [Unwants, IsQueued, IsQueuedBefore]
        gone = {w for w in self.waiting
                if begin or w.host == away or decides(a, w.host, w.request)
                or (isinstance(a, Wants) and a.wanted.host == w.host and same_number(a.wanted.request, w.request))}
        pairs = set(self.order)
        if isinstance(a, Wants):
            pairs |= {(w, a.wanted) for w in self.waiting}
        waiting = [w for w in self.waiting if w not in gone]
        if isinstance(a, Wants):
            waiting.append(a.wanted)
        self.waiting = waiting
        still = set(waiting)
        self.order = {(w, v) for w, v in pairs if w in still and v in still}
        # tokens [Granted, Pinned, Reserved]
        named = None
        if takes and isinstance(a.body, Returned) and here(server, a.body.fid.fileset, a.moves):
            named = a.body.ids
        if takes and isinstance(a.body, GiveBack) and here(server, a.body.give.fid.fileset, a.moves):
            named = a.body.give.ids
        pins = set()
        if takes and isinstance(a.body, Kept) and here(server, a.body.fid.fileset, a.moves):
            pins = {t for t in self.granted
                    if t.host == a.host and t.id in a.body.ids and isinstance(t.kind, USE_KINDS)}
        granted = {} if begin else {t: None for t in self.granted
                                    if not (named is not None and t.host == a.host and t.id in named)
                                    and t.host != away}
        if bring is not None:
            granted.update(dict.fromkeys(bring.tokens))
        if isinstance(a, Admits):
            granted.update(dict.fromkeys(t for t in a.tokens if t.host == a.host))
        self.granted = granted
        self.pinned = {t for t in self.pinned | pins if t in granted}
        if begin or isinstance(a, Flushes):
            self.reserved = set()
        if isinstance(a, Reserves):
            self.reserved = self.reserved | set(a.tokens)
        if bring is not None:
            for t in bring.tokens:
                self.issued[t.id.epoch] = max(self.issued.get(t.id.epoch, -1), t.id.seq)
        # what was told [HasUsedStamp], sent, revoked
        if begin:
            self.told, self.revoked = {}, set()
        if bring is not None:
            self.told[bring.fid] = max(self.told.get(bring.fid, -1), bring.stamp)
        if isinstance(a, Sent):
            self.sent.add(tuple(a))
            if isinstance(a.body, Revoke):
                self.told[a.body.fid] = max(self.told.get(a.body.fid, -1), a.body.stamp)
                self.revoked |= {(a.host, i) for i in a.body.ids}
            if isinstance(a.body, Done):
                self.dones.setdefault((a.host, a.body.fileset), []).append((a.epoch, a.moves, a.body))
        # what was taken
        if begin:
            self.given_up, self.took_now, self.took_of = set(), set(), set()
        if takes:
            self.took_now.add((a.host, a.moves, a.body))
            fileset = None
            if isinstance(a.body, (Returned, Kept, Revoke)):
                fileset = a.body.fid.fileset
            if isinstance(a.body, GiveBack):
                fileset = a.body.give.fid.fileset
            if fileset is not None and here(server, fileset, a.moves):
                self.took_of.add((a.host, fileset, a.body))
                self.took_ever.add((a.host, fileset, a.body))
                if isinstance(a.body, GiveBack):
                    key = (a.host, fileset)
                    self.applied[key] = max(self.applied.get(key, 0), a.body.give.number)
            if named is not None:
                self.given_up |= {(a.host, i) for i in named}
        if isinstance(a, Writes):
            w = a.written
            self.written.append(w)
            key = (w.answer.host, w.fileset)
            self.durable[key] = max(self.durable.get(key, -1), w.number)
        # hosts [Listed, HasGoneDown, HasGoneAway, HasReclaimed]
        if begin:
            self.reclaimed, self.listed_now = set(), set()
        if isinstance(a, Took) and isinstance(a.body, Hello) and a.host not in self.listed and a.host not in self.down:
            self.listed.add(a.host)
            self.listed_now.add(a.host)
            self.reclaimed.add(a.host)
        if isinstance(a, Admits):
            self.reclaimed.add(a.host)
        if isinstance(a, Took) and isinstance(a.body, Down):
            self.down.add(a.host)
        if away is not None:
            self.away.add(away)
        if begin:
            self.epoch = a.epoch
        return self


# taking a step apart [Doings]
def after_cause(cause, past):
    """The doings of the cause, after some."""
    if isinstance(cause, Came):
        m = cause.message
        return [Took(m.host, m.epoch, m.moves, m.body)]
    if isinstance(cause, RestartAt):
        return [Begins(past.epoch + 1)]
    return [Flushes()] if isinstance(cause, Flushed) else []


def decision(x):
    """[decisions_of]"""
    if isinstance(x, Wanted):
        return [Wants(x)]
    return [Writes(x)] if isinstance(x, Written) else []


# kept filesets [Kept]
def kept_after(cause, tree, x):
    if isinstance(x, Written):
        return tree if is_refusal(x.answer.reply) else answer_to(tree, x.answer.host, x.answer.call)[1]
    if isinstance(x, Stored):
        body = cause.message.body if isinstance(cause, Came) else None
        pieces = body.give.pieces if isinstance(body, GiveBack) else ()
        return tree_given(tree, x.fid, pieces, x.length)
    return tree


def kept_through(cause, applied, tree):
    for x in applied:
        tree = kept_after(cause, tree, x)
    return tree


def is_decision(x):
    return isinstance(x, (Wanted, Written))


def by_cause(applied):
    out = []
    for x in applied:
        if is_decision(x):
            break
        out.append(x)
    return tuple(out)


def decisions(applied):
    return applied[len(by_cause(applied)):]


TELLS_NOT = ("too-many", "no-room")


def refusal_on(tree, host, c):
    """[RefusedOn]: the refusal, or None"""
    reply = answer_to(tree, host, c.call)[0]
    if not is_refusal(reply):
        return None
    if c.enter and reply[1] != "no-fileset":
        return None
    if is_move(c.call) and reply[1] in TELLS_NOT:
        return None
    return reply


def is_of_row(tree, w, c):
    """[IsOfRow]"""
    return w.needs == row_needs(tree, w.host, c) and (
        not is_use(c.call) or all(n.fid == c.fid for n in w.needs))


def refusal_of(call):
    return {"Lock": "locked", "OpenFile": "open-conflict"}.get(type(call).__name__, "in-use")


class Turn:
    """A step of a server on its past; `tree` are the kept filesets before it."""

    def __init__(self, script, server, past, lines_gone, tree, step):
        self.script, self.server, self.before, self.s = script, server, past, step
        self.lines_gone, self.tree = lines_gone, tree
        self.broken = []
        self.message = step.cause.message if isinstance(step.cause, Came) else None
        self.caused = past.copy()
        for a in after_cause(step.cause, past):
            self.caused.apply(a)

    def bad(self, rule, *why):
        self.broken.append((rule, " ".join(str(w) for w in why)))

    def sent_now(self, host, body):
        """[SentNow]"""
        return any(m.host == host and m.body == body for m in self.s.sent)

    def heard_now(self, host, kind):
        return self.message is not None and self.message.host == host and isinstance(self.message.body, kind)

    def taken_now(self, kind):
        """[TakenNow]: the message, or None"""
        m = self.message
        if m is not None and isinstance(m.body, kind) and m.epoch == self.before.epoch and self.before.is_live(m.host):
            return m
        return None

    def is_new_request(self, past, host, moves, request):
        """[IsNewRequest]"""
        m = self.taken_now(type(request))
        if m is None or m.host != host or m.moves != moves or m.body != request:
            return False
        if isinstance(request, Fetch):
            if not here(self.server, request.fid.fileset, moves):
                return False
        elif not is_here(self.server, request.fileset, moves) or not is_meant_so(request):
            return False
        return not past.is_old(host, request) and past.none_waits(host, request)

    # ---- the rules ----
    def may_bring(self, past, host, moves, b, rule):
        """[MayBring]"""
        bad = self.bad
        if not past.no_grace():
            bad(rule + "over")
        if not past.is_live(host):
            bad(rule + "live")
        if not here(self.server, b.fid.fileset, moves):
            bad(rule + "home")
        if not past.told.get(b.fid, 0) < b.stamp:
            bad(rule + "stamp", b)
        for t in b.tokens:
            if t.host != host:
                bad(rule + "host_is", t)
            if t.fid != b.fid:
                bad(rule + "file", t)
            if t.id.server != self.server:
                bad(rule + "id", t)
            if t.id.epoch != past.epoch:
                bad(rule + "now", t)
            if not past.issued.get(past.epoch, -1) < t.id.seq:
                bad(rule + "new", t)
            if any(u.id == t.id and u != t for u in b.tokens):
                bad(rule + "apart", t)
            for u in [*past.granted, *past.reserved]:
                if conflict(t, u):
                    bad(rule + "free", t, u)

    def asked_fetch(self, past, host, moves, g):
        """[AskedFetch]"""
        return any(h == host and n == moves and isinstance(b, Fetch) and b.number == g.bring.number
                   and b.fid == g.bring.fid for h, n, b in past.took_now)

    def asked_change(self, past, host, moves, d):
        """[AskedChange]"""
        return any(h == host and n == moves and isinstance(b, Change) and b.number == d.bring.number
                   and b.fileset == d.fileset for h, n, b in past.took_now) and d.fileset == d.bring.fid.fileset

    def server_tokens(self, past, a):
        """[ServerTokens]"""
        bad = self.bad
        if isinstance(a, Sent):
            body = a.body
            if a.epoch != past.epoch:
                bad("ServerTokens.epochs", a)
            if isinstance(body, Grant):
                self.may_bring(past, a.host, a.moves, body.bring, "ServerTokens.grants/MayBring.")
                if not self.asked_fetch(past, a.host, a.moves, body):
                    bad("ServerTokens.grants/AskedFetch", body)
            if isinstance(body, Done) and body.bring.tokens:
                repeat = past.sent_to(*a) and all(t in past.granted for t in body.bring.tokens)
                if not repeat:
                    self.may_bring(past, a.host, a.moves, body.bring, "ServerTokens.dones/MayBring.")
                    if not self.asked_change(past, a.host, a.moves, body):
                        bad("ServerTokens.dones/AskedChange", body)
            if isinstance(body, Revoke):
                for i in body.ids:
                    if not any(t.id == i and t.host == a.host and t.fid == body.fid for t in past.granted):
                        bad("ServerTokens.revokes", i)
                if not here(self.server, body.fid.fileset, a.moves):
                    bad("ServerTokens.revokes_here")
                if not past.told.get(body.fid, -1) < body.stamp:
                    bad("ServerTokens.stamps", body)
            if isinstance(body, Gone):
                if not here(self.server, body.applied.fileset, a.moves) or not past.is_applied(a.host, body.applied):
                    bad("ServerTokens.gones", body)
            if isinstance(body, Reclaimed):
                for g in body.applied:
                    if not past.is_applied(a.host, g):
                        bad("ServerTokens.reclaimed", g)
                for i in body.left_out:
                    if (a.host, i) not in past.given_up:
                        bad("ServerTokens.left_out", i)
        if isinstance(a, Admits):
            self.may_admit(past, a.host, a.tokens)
        if isinstance(a, Writes):
            w = a.written
            if not any(h == w.answer.host and isinstance(b, Change) and b.fileset == w.fileset
                       and b.number == w.number and b.k == w.answer.k and b.call == w.answer.call
                       for h, _, b in past.took_now):
                bad("ServerTokens.writes", w)
            if past.is_durable(w.answer.host, w.fileset, w.number):
                bad("ServerTokens.writes_once", w)
        if isinstance(a, Reserves):
            for t in a.tokens:
                if not past.no_grace() or any(conflict(t, u) for u in past.granted):
                    bad("ServerTokens.reserves", t)

    def may_admit(self, past, host, tokens):
        """[MayAdmit]"""
        bad = self.bad
        names = "ServerTokens.admits/MayAdmit."
        if host in past.reclaimed:
            bad(names + "first")
        if not past.is_live(host):
            bad(names + "live")

        def here_in(claim, t):
            """[ClaimsHere]"""
            return any(o.fileset == t.fid.fileset and here(self.server, o.fileset, o.moves) for o in claim.numbers)

        def faults(claim):
            out = []
            if not past.has_all(host, claim):
                out.append("waited")
            for t in tokens:
                if (t not in claim.tokens or t.host != host or not here_in(claim, t)
                        or (host, t.id) in past.given_up or past.is_granted_id(t.id)):
                    out.append("sound")
            for t in claim.tokens:
                if (here_in(claim, t) and (host, t.id) not in past.given_up and not past.is_granted_id(t.id)
                        and not any(u.id == t.id for u in tokens)):
                    out.append("whole")
            return out
        found = [faults(c) for c in past.claims(host)]
        if not found:
            bad(names + "took")
        elif all(found):
            for f in dict.fromkeys(found[0]):
                bad(names + f)
        for t in tokens:
            if any(u.id == t.id and u != t for u in tokens):
                bad(names + "apart", t)

    def server_lines(self):
        s, bad = self.s, self.bad
        lines = lines_of(self.script, ("s", self.server))

        def next_line(n):
            at = self.lines_gone
            return lines[at] if at < len(lines) and lines[at].number == n else None
        if isinstance(s.cause, LineOf):
            line = next_line(s.cause.number)
            if s != bare(s.node, s.cause) or line is None or isinstance(line.deed, Restart):
                bad("ServerLines.bare")
        if isinstance(s.cause, RestartAt):
            line = next_line(s.cause.number)
            if line is None or not isinstance(line.deed, Restart):
                bad("ServerLines.restarts")
        if isinstance(s.cause, (Evict, End)):
            bad("NoHostStep.causes")
        if s.asked is not None or s.taken or s.answers or s.wrote is not None or s.begun or s.made or s.dropped:
            bad("NoHostStep.does_none")

    def hears_of_restart(self, h):
        """[HearsOfRestart]"""
        p, cause, m = self.before, self.s.cause, self.message
        if m is not None and m.host == h:
            return h not in p.listed_now if isinstance(m.body, Hello) else m.epoch != p.epoch and m.body != Down()
        return isinstance(cause, RestartAt) or (isinstance(cause, Lapse) and h not in p.reclaimed)

    def server_answers(self):
        p, s, bad, m = self.before, self.s, self.bad, self.message
        c = self.caused
        if m is not None:
            h = m.host
            live, down = p.is_live(h), h in p.down
            if isinstance(m.body, Hello):
                if live and h not in p.listed_now and not self.sent_now(h, Restarted()):
                    bad("ServerAnswers.hello_old")
                if not down and (not live or h in p.listed_now) and not self.sent_now(h, Reclaimed()):
                    bad("ServerAnswers.hello")
            if isinstance(m.body, Bye):
                if not down and (not live or self.taken_now(Bye)) and not self.sent_now(h, Bye()):
                    bad("ServerAnswers.bye")
            if live and m.epoch != p.epoch and not isinstance(m.body, (Hello, Down)):
                if not self.sent_now(h, Restarted()):
                    bad("ServerAnswers.late")
            give = self.taken_now(GiveBack)
            if give is not None and here(self.server, m.body.give.fid.fileset, m.moves):
                if not self.sent_now(h, Gone(number_of(m.body.give))):
                    bad("ServerAnswers.gone")
            claim = self.taken_now(Reclaim)
            if claim is not None and h in p.reclaimed:
                if not any(x.host == h and isinstance(x.body, Reclaimed)
                           and any(y[0] == h and y[1] == p.epoch and y[3] == x.body for y in p.sent) for x in s.sent):
                    bad("ServerAnswers.claim_again")
        for x in s.sent:
            h = x.host
            if isinstance(x.body, Bye) and not (self.heard_now(h, Bye) and h not in p.down):
                bad("OnlyAnswers.bye_only", x)
            if isinstance(x.body, Restarted):
                if not p.is_live(h) or not self.hears_of_restart(h):
                    bad("ServerAnswers.restarted_only", x)
            if isinstance(x.body, Reclaimed):
                again = self.taken_now(Reclaim)
                if not ((self.heard_now(h, Hello) and h not in p.down) or any(y.host == h for y in s.admitted)
                        or (again is not None and again.host == h and h in p.reclaimed)):
                    bad("OnlyAnswers.reclaimed_only", x)
            if isinstance(x.body, Gone):
                give = self.taken_now(GiveBack)
                if give is None or give.host != h or number_of(give.body.give) != x.body.applied:
                    bad("ServerAnswers.gone_only", x)
        for h in sorted(p.listed):
            if p.is_live(h):
                if isinstance(s.cause, RestartAt) and not self.sent_now(h, Restarted()):
                    bad("ServerAnswers.restarted", h)
                if isinstance(s.cause, Lapse) and h not in p.reclaimed and not self.sent_now(h, Restarted()):
                    bad("ServerAnswers.restarted_again", h)
        for h, _, claim in c.took_now:
            if isinstance(claim, Reclaim) and h not in p.reclaimed and c.is_live(h) and c.has_all(h, claim):
                if not any(x.host == h for x in s.admitted) or not any(
                        x.host == h and isinstance(x.body, Reclaimed) and self.answers_claim(c, h, claim, x.body)
                        for x in s.sent):
                    bad("ServerAnswers.claim_now", h)

    @staticmethod
    def answers_claim(past, host, claim, answer):
        """[AnswersClaim]"""
        taken = {number_of(b.give) for h, _, b in past.took_of if h == host and isinstance(b, GiveBack)
                 and any(o.fileset == b.give.fid.fileset and o.give == b.give.number for o in claim.numbers)}
        return (set(answer.applied) == taken
                and all(t.id in answer.left_out for t in claim.tokens if (host, t.id) in past.given_up))

    def first_given(self):
        """[FirstGiven]: (host, give), or None"""
        m = self.taken_now(GiveBack)
        if m is None or not here(self.server, m.body.give.fid.fileset, m.moves):
            return None
        return None if self.before.is_applied(m.host, number_of(m.body.give)) else (m.host, m.body.give)

    def first_down(self):
        """[FirstDown]"""
        m = self.message
        return m.host if m is not None and isinstance(m.body, Down) and m.host not in self.before.down else None

    @staticmethod
    def stored_of(tree, host, give):
        if takes_gifts(tree, give.fid) and (give.pieces or give.length is not None):
            spans = tuple(span_between(p.start, p.start + len(p.bytes)) for p in give.pieces)
            return (Stored(host, give.fid, spans, give.length),)
        return ()

    @staticmethod
    def ended_by(host, give):
        if give.ends is None:
            return ()
        return (EndsCall(Answer(host, give.ends.k, give.ends.call, OK, False)),)

    def server_applies(self):
        s, bad = self.s, self.bad
        caused = by_cause(s.applied)
        given, down = self.first_given(), self.first_down()
        if given is not None and caused != self.stored_of(self.tree, *given) + self.ended_by(*given):
            bad("ServerApplies.given", caused)
        if down is not None and caused != (IsDown(down),):
            bad("ServerApplies.down", caused)
        if given is None and down is None and caused:
            bad("ServerApplies.else_none", caused)
        if not all(is_decision(x) for x in decisions(s.applied)):
            bad("ServerApplies.decided")
        for t in s.reserved:
            if t.host != EXPORTER or not self.for_written(t):
                bad("ServerApplies.reserves", t)

    def for_written(self, t):
        """[IsForWritten], on the doings before the step"""
        wants = [*self.before.waiting, *[x for x in self.s.applied if isinstance(x, Wanted)]]
        return any(isinstance(x, Written) and decides(Writes(x), w.host, w.request) and need_of(t) in w.needs
                   for x in self.s.applied for w in wants)

    # deciding
    def decided_so(self, tree, past, w, c, reply):
        """[DecidedSo]"""
        refusal = refusal_on(tree, w.host, c)
        if refusal is not None:
            return reply == refusal
        if not is_of_row(tree, w, c):
            return False
        if reply == refused(refusal_of(c.call)) and past.can_refuse(w):
            return True
        return has_effect(c) and past.can_grant(w) and reply == answer_to(tree, w.host, c.call)[0]

    def is_written_so(self, tree, past, x):
        """[IsWrittenSo]"""
        return any(isinstance(w.request, Change) and x.answer.host == w.host and x.fileset == w.request.fileset
                   and x.number == w.request.number and x.answer.k == w.request.k and x.answer.call == w.request.call
                   and not x.answer.first and self.decided_so(tree, past, w, w.request, x.answer.reply)
                   for w in past.waiting)

    def is_anew(self, tree, past, old, new):
        """[IsAnew]"""
        c = old.request
        return (isinstance(c, Change) and (new.host, new.request, new.moves) == (old.host, old.request, old.moves)
                and has_effect(c) and past.is_ready(old) and refusal_on(tree, old.host, c) is None
                and old.needs != new.needs)

    def may_decide(self, tree, past, x):
        """[MayDecide]"""
        if isinstance(x, Written):
            if not self.is_written_so(tree, past, x):
                self.bad("ServerWorks.decides/IsWrittenSo", x)
        elif isinstance(x, Wanted):
            if x.needs != needs_for(tree, x.host, x.request):
                self.bad("ServerWorks.decides/needs", x)
            if not (self.is_new_request(past, x.host, x.moves, x.request)
                    or any(self.is_anew(tree, past, old, x) for old in past.waiting)):
                self.bad("ServerWorks.decides/IsNewRequest", x)
        else:
            self.bad("ServerWorks.decides", x)

    def has_decided(self, tree, past):
        """[HasDecided]"""
        s, bad = self.s, self.bad
        m = self.taken_now((Fetch, Change))
        if m is not None and self.is_new_request(self.caused, m.host, m.moves, m.body):
            if not any(isinstance(x, Wanted) and x.host == m.host and x.request == m.body for x in s.applied):
                bad("HasDecided.news", m.body)
        for w in past.waiting:
            c = w.request
            if not isinstance(c, Change):
                continue
            ready = past.is_ready(w)
            refusal = refusal_on(tree, w.host, c)
            if refusal is not None:
                if ready or (past.no_grace() and self.is_new_request(self.caused, w.host, w.moves, c)):
                    bad("HasDecided.refused", w, refusal)
                continue
            if has_effect(c) and ready:
                bad("HasDecided.effects", w)
            if is_of_row(tree, w, c) and past.can_refuse(w):
                bad("HasDecided.pinned", w)

    # sending
    def tells_kept(self, tree, g):
        """[TellsKept]"""
        fid = g.bring.fid
        found = object_of(tree, fid)
        for t in g.bring.tokens:
            if isinstance(t.kind, Status):
                size = 0 if g.status is None else g.status.length
                traits = None if g.status is None else Nature(g.status.dir, g.status.read_only, g.status.owner,
                                                              g.status.group, tuple(g.status.lists))
                if size != cell(tree, fid, SIZE)[0] or traits != cell(tree, fid, TRAITS)[0]:
                    return "status"
            elif isinstance(t.kind, Bytes):
                a, b = t.kind.span
                told = bytearray(b - a)
                for p in reversed(g.pieces):
                    x, y = max(a, p.start), min(b, p.start + len(p.bytes))
                    if x < y:
                        told[x - a:y - a] = p.bytes[x - p.start:y - p.start]
                kept = bytearray(b - a)
                if found is not None and not found[1].is_dir:
                    part = found[1].kept[a:b]
                    kept[:len(part)] = part
                if told != kept:
                    return "bytes"
                if a <= 0 < b and tuple(g.entries) != cell(tree, fid, ENTRIES)[0]:
                    return "entries"
        return None

    @staticmethod
    def are_needs(needs, tokens):
        """[AreNeeds]: a token for each need, in their order"""
        return [need_of(t) for t in tokens] == list(needs)

    def grants_so(self, tree, past, host, moves, g):
        """[GrantsSo]: the field that fails, or None"""
        b = g.bring
        there = cell(tree, b.fid, TRAITS)[0] is not None
        why = "waits"
        for w in past.waiting:
            f = w.request
            if not isinstance(f, Fetch) or w.host != host or w.moves != moves or f.number != b.number or f.fid != b.fid:
                continue
            if not past.can_grant(w):
                why = "free"
            elif there and not self.are_needs(f.needs, b.tokens):
                why = "brings"
            elif not there and (b.tokens or g.status is not None or g.pieces or g.entries):
                why = "brings/IsEmptyGrant"
            else:
                told = self.tells_kept(tree, g)
                return "tells " + told if told else None
        return why

    def settles_so(self, tree, past, host, moves, d):
        """[AnswersSo]"""
        for w in past.waiting:
            c = w.request
            if (not isinstance(c, Change) or w.host != host or w.moves != moves or d.fileset != c.fileset
                    or d.bring.number != c.number):
                continue
            if is_use(c.call) and refusal_on(tree, host, c) is None:
                row = is_of_row(tree, w, c)
                if (row and past.can_grant(w) and isinstance(d.outcome, Granted)
                        and self.are_needs(w.needs, d.bring.tokens)):
                    return True
                if not row and past.is_ready(w) and isinstance(d.outcome, Again) and not d.bring.tokens:
                    return True
            where = fileset_of(c.call)
            if c.enter and where is not None and isinstance(d.outcome, Known) and not d.bring.tokens:
                found = tree.at[where[0]].get(where[1])
                if found is not None and found.id == d.outcome.fileset:
                    return True
        return False

    def done_for(self, tree, past, host, moves, d):
        """[DoneFor]"""
        number = d.bring.number

        last = past.is_last(host, d.fileset, number)
        if last and not d.bring.tokens and isinstance(d.outcome, HasReply) and any(
                w.answer.host == host and w.fileset == d.fileset and w.number == number
                and w.answer.reply == d.outcome.reply for w in past.written):
            return True
        if self.settles_so(tree, past, host, moves, d):
            return True
        if last and past.sent_to(host, past.epoch, moves, d):
            return True
        if last and isinstance(d.outcome, Again) and not d.bring.tokens:
            return any(e == past.epoch and isinstance(o.outcome, Granted) and o.bring.number == number
                       and not any(t in past.granted for t in o.bring.tokens)
                       for e, _, o in past.dones.get((host, d.fileset), ()))
        return False

    def may_send(self, tree, past, a):
        """[MaySend]"""
        bad = self.bad
        if isinstance(a.body, Grant):
            why = self.grants_so(tree, past, a.host, a.moves, a.body)
            if why:
                bad("MaySend.grant_for/" + why, a.body)
        if isinstance(a.body, Done):
            if not past.is_live(a.host):
                bad("MaySend.done_for/IsLive", a.body)
            if not is_here(self.server, a.body.fileset, a.moves):
                bad("MaySend.done_for/IsDecidedHere", a.body)
            if not self.done_for(tree, past, a.host, a.moves, a.body):
                bad("MaySend.done_for/DoneFor", a.body)
        if isinstance(a.body, Revoke):
            lapse = isinstance(self.s.cause, Lapse)
            may = [t for t in past.asked_back() if (t.host, t.id) not in past.revoked]
            if lapse:
                may += past.asked_back() if "revoked_once" in BEFORE else past.owed()
            for i in a.body.ids:
                if not any(t.id == i and t.host == a.host for t in may):
                    bad("MaySend.revoke_for", i)

    def is_for_change(self, host, d):
        """[HasSent.dones_only]: of a Change that the step takes, or that waited"""
        m = self.taken_now(Change)
        changes = [] if m is None else [(m.host, m.body)]
        changes += [(w.host, w.request) for w in self.before.waiting if isinstance(w.request, Change)]
        return any(h == host and c.fileset == d.fileset and c.number == d.bring.number for h, c in changes)

    def has_sent(self, tree, past):
        """[HasSent]"""
        s, p, bad = self.s, self.before, self.bad
        named = []
        for i, x in enumerate(s.sent):
            if x in s.sent[:i]:
                bad("HasSent.once", x)
            if isinstance(x.body, Revoke):
                if any((x.host, i) in named for i in x.body.ids):
                    bad("HasSent.revokes_once", x)
                named += [(x.host, i) for i in x.body.ids]
            if isinstance(x.body, Done) and not self.is_for_change(x.host, x.body):
                bad("HasSent.dones_only", x)
        for x in s.applied:
            if isinstance(x, Written) and not any(
                    m.host == x.answer.host and isinstance(m.body, Done) and m.body.outcome == HasReply(x.answer.reply)
                    and m.body.fileset == x.fileset and m.body.bring.number == x.number for m in s.sent):
                bad("HasSent.written", x)
        m = self.taken_now(Change)
        if m is not None and is_here(self.server, m.body.fileset, m.moves):
            h, fs, k = m.host, m.body.fileset, m.body.number
            was = any(w.answer.host == h and w.fileset == fs and w.number == k for w in p.written) or any(
                e == p.epoch and d.bring.number == k for e, _, d in p.dones.get((h, fs), ()))
            if p.is_last(h, fs, k) and was and not any(
                    x.host == h and isinstance(x.body, Done) and x.body.fileset == fs and x.body.bring.number == k
                    for x in s.sent):
                bad("HasSent.repeats", m.body)
        for w in past.waiting:
            c = w.request
            if isinstance(c, Fetch):
                if past.can_grant(w):
                    bad("HasSent.grants", w)
                continue
            if refusal_on(tree, w.host, c) is not None:
                continue
            if is_use(c.call) and past.can_grant(w):
                bad("HasSent.uses", w)
            if is_use(c.call) and not is_of_row(tree, w, c) and past.is_ready(w):
                bad("HasSent.others", w)
            if c.enter and past.can_grant(w):
                bad("HasSent.enters", w)
        for t in past.asked_back():
            if (t.host, t.id) not in past.revoked:
                bad("HasSent.revokes", t)
        if isinstance(s.cause, Lapse):
            for t in past.asked_back() if "revoked_once" in BEFORE else past.owed():
                if not any(x.host == t.host and isinstance(x.body, Revoke) and t.id in x.body.ids for x in s.sent):
                    bad("HasSent.revokes_again", t)

    def server_meets(self):
        """[ServerMeets]: (rules broken, past after the step, kept filesets after it)"""
        s = self.s
        self.server_lines()
        self.server_answers()
        self.server_applies()
        past = self.caused.copy()
        tree = kept_through(s.cause, by_cause(s.applied), self.tree)

        for x in decisions(s.applied):
            self.may_decide(tree, past, x)
            for a in decision(x):
                self.server_tokens(past, a)
                past.apply(a)
            tree = kept_after(s.cause, tree, x)
        for x in by_cause(s.applied):
            assert not decision(x)
        self.has_decided(tree, past)
        for x in s.admitted:
            a = Admits(x.host, x.tokens)
            self.server_tokens(past, a)
            past.apply(a)
        for m in s.sent:
            a = Sent(m.host, m.epoch, m.moves, m.body)
            self.server_tokens(past, a)
            self.may_send(tree, past, a)
            past.apply(a)
        a = Reserves(s.reserved)
        self.server_tokens(past, a)
        past.apply(a)
        self.has_sent(tree, past)
        return self.broken, past, tree
