"""Hosts and file servers as machines that try to meet every rule of docs/RULES.md (Python, a blueprint).

A machine is a set of TABLES and one function per kind of cause.  Each public function makes one step of its node and
answers it as `words.Step`, with all its fields.  A host's step goes: learn, go on, give, drop, send; a server's: take
the cause, decide, admit, send, keep.  Beside each table stands how it is indexed.

    Host(script, host):   line() message(m) lapse() evict() end()      may_line, may_evict, may_end, is_done
    Server(script, server, lazy): line() restart() message(m) lapse() flush()    wants_flush
"""
import words as w
from words import (NO_FID, WHOLE, Admission, Again, Answer, Asked, Bring, Bye, Came, Change, DirEntry, Done, Down, End,
                   Ends, EndsCall, Evict, Fetch, Fid, Flushed, Give, GiveBack, GiveNo, Gone, Granted, HasReply, Hello,
                   IsDown, Kept, Known, Labelled, Lapse, Leave, LineOf, LockTok, Need, Opening, Outstanding, Piece,
                   Reclaim, Reclaimed, Restarted, RestartAt, Returned, Revoke, Span, Status, StatusOf, Step, Stored,
                   Token, TokenId, Wanted, Written, home, number_of, root_of, span_between, to_host, to_server)
from dfs_oracle import base as ob
from dfs_oracle import tree as ot
from before import BEFORE

BLOCK = w.TOKEN_BYTES


def rounded(start, to):
    return span_between(start // BLOCK * BLOCK, (to + BLOCK - 1) // BLOCK * BLOCK)


def overlap(a, b):
    return max(a.start, b.start) < min(a.to, b.to)


def kinds_conflict(a, b):
    if type(a) is not type(b):
        return False
    if isinstance(a, w.Bytes):
        return (a.update or b.update) and overlap(a.span, b.span)
    if isinstance(a, Status):
        return a.update or b.update
    if isinstance(a, LockTok):
        return (a.writing or b.writing) and overlap(a.span, b.span)
    return ob.OPEN_CONFLICT[a.kind, b.kind]


def is_use_kind(kind):
    return isinstance(kind, (LockTok, Opening))


def alone(have, need):
    """A token of one kind alone covers a need that isn't of bytes."""
    if type(have) is not type(need):
        return False
    if isinstance(have, Status):
        return have.update or not need.update
    return have == need


def together(spans):
    """The same positions in spans that rise and don't meet."""
    out = []
    for a, b in sorted(spans):
        if out and a <= out[-1][1]:
            out[-1][1] = max(b, out[-1][1])
        elif a < b:
            out.append([a, b])
    return out


def missing_of(span, update, kinds):
    """The spans of a need of bytes that tokens of these kinds leave uncovered."""
    left = [(span.start, span.to)]
    for k in kinds:
        if isinstance(k, w.Bytes) and (k.update or not update):
            new = []
            for a, b in left:
                if k.span.to <= a or b <= k.span.start:
                    new.append((a, b))
                    continue
                if a < k.span.start:
                    new.append((a, k.span.start))
                if k.span.to < b:
                    new.append((k.span.to, b))
            left = new
    return left


def covered(kinds, kind):
    if isinstance(kind, w.Bytes):
        return not missing_of(kind.span, kind.update, kinds)
    return any(alone(k, kind) for k in kinds)


def helps(have, need):
    if isinstance(have, w.Bytes) and isinstance(need, w.Bytes):
        return (have.update or not need.update) and overlap(have.span, need.span)
    return alone(have, need)


class Draft:
    """A step in the making."""

    def __init__(self, node, cause):
        self.node, self.cause = node, cause
        self.asked = self.wrote = None
        self.taken, self.answers, self.begun, self.made, self.dropped = [], [], [], [], []
        self.applied, self.admitted, self.sent, self.reserved = [], [], [], []

    def step(self):
        return Step(self.node, self.cause, self.asked, tuple(self.taken), tuple(self.answers), self.wrote,
                    tuple(self.begun), tuple(self.made), tuple(self.dropped), tuple(self.applied),
                    tuple(self.admitted), tuple(self.sent), (), tuple(self.reserved))


# ------------------------------------------------------------------------------------------------ looks (need_host)
class Refuse(Exception):
    pass


def no(text):
    raise Refuse(text)


class Seeing:
    """What a call looks at, with the needs of it in order."""

    def __init__(self, view):
        self.view, self.needs = view, []

    def need(self, fid, kind):
        n = Need(fid, kind)
        if not self.needs or self.needs[-1] != n:
            self.needs.append(n)

    def nature(self, fid):
        self.need(fid, Status(False))
        return self.view(fid).status or no("no-entry")

    def size(self, fid):
        self.need(fid, Status(False))
        return self.view(fid).size

    def entries(self, fid):
        self.need(fid, w.Bytes(False, WHOLE))
        return self.view(fid).entries

    def bytes(self, fid, start, to):
        for at in range(start // BLOCK, (to + BLOCK - 1) // BLOCK):
            self.need(fid, w.Bytes(False, Span(at * BLOCK, (at + 1) * BLOCK)))
        return self.view(fid).read(start, to)


def rights(nature, user):
    return ob.rights_of(nature.lists[0], nature.owner, nature.group, user)


def permitted(nature, user, right):
    if not rights(nature, user) & right:
        no("denied " + chr(ob.LETTERS[right.bit_length() - 1]))


def target(see, user, root, path):
    fid = root
    for name in path:
        nature = see.nature(fid)
        if not nature.dir:
            no("not-dir")
        permitted(nature, user, ob.X)
        for e in see.entries(fid):
            if e.name == name:
                fid = Fid(root.fileset, e.anode, e.unique)
                break
        else:
            no("no-entry")
    return fid, see.nature(fid)


def a_file(see, user, root, path):
    fid, nature = target(see, user, root, path)
    if nature.dir:
        no("is-dir")
    return fid, nature


def a_use(see, user, root, path, changing, right):
    fid, nature = a_file(see, user, root, path)
    if changing and nature.read_only:
        no("read-only")
    permitted(nature, user, right)
    return fid


OPEN_RIGHT = {"reading": ob.R, "shared": ob.R, "executing": ob.X, "writing": ob.W, "exclusive": ob.W}


def look(own, user, call, see):
    """The verdict of a call: ("replies", reply), ("writes", fid, start, bytes), ("locks", fid, kind),
    ("opens", fid, kind), ("frees",), ("gives",), ("asks", question).  Questions: ("enter", server), ("in", fileset),
    ("at", server)."""
    try:
        return _look(own, user, call, see)
    except Refuse as why:
        return ("replies", w.refused(why.args[0]))


def _look(own, user, call, see):
    if isinstance(call, (w.NewFileset, w.CloneFileset)):
        return ("asks", ("at", call.server))
    if isinstance(call, (w.Unlock, w.CloseFile)):
        label = own.label(type(call) is w.Unlock, call.label)
        if label is None:
            no("not-locked" if type(call) is w.Unlock else "not-opened")
        return ("gives",) if own.needs_server(label) else ("frees",)
    lock = isinstance(call, w.Lock)
    if lock or isinstance(call, w.OpenFile):
        if own.label(lock, call.label) is not None:
            no("already-locked" if lock else "already-opened")
        if own.label_count(lock) >= w.LABELS_MAX:
            no("too-many")
    place = call.source if isinstance(call, w.Rename) else call.place
    fileset = own.entered.get((place.server, place.fileset))
    if fileset is None:
        return ("asks", ("enter", place.server))
    root = root_of(fileset)
    if isinstance(call, (w.Create, w.MakeDir, w.Remove, w.Rename, w.Truncate, w.SetAcl)):
        return ("asks", ("in", fileset))
    if isinstance(call, w.Read):
        fid, nature = a_file(see, user, root, place.path)
        permitted(nature, user, ob.R)
        size = see.size(fid)
        n = min(call.len, max(0, size - call.start))
        return ("replies", ("bytes", see.bytes(fid, call.start, call.start + n) if n else b""))
    if isinstance(call, w.Write):
        if see.nature(root).read_only:
            no("read-only")
        fid, nature = a_file(see, user, root, place.path)
        permitted(nature, user, ob.W)
        to = call.start + len(call.bytes)
        if to > w.FILE_BYTES_MAX:
            no("too-big")
        if not call.bytes:
            return ("replies", w.OK)
        size = see.size(fid)
        if size < to:
            see.need(fid, Status(True))
            see.need(fid, w.Bytes(True, rounded(min(call.start, size), to)))
        else:
            see.need(fid, w.Bytes(True, rounded(call.start, to)))
        return ("writes", fid, call.start, call.bytes)
    if isinstance(call, w.List):
        fid, nature = target(see, user, root, place.path)
        if not nature.dir:
            no("not-dir")
        permitted(nature, user, ob.R)
        return ("replies", ("names", tuple(sorted(e.name for e in see.entries(fid)))))
    if isinstance(call, w.Stat):
        fid, nature = target(see, user, root, place.path)
        return ("replies", ("facts", nature.dir, see.size(fid), nature.owner, rights(nature, user)))
    if isinstance(call, w.GetAcl):
        fid, nature = target(see, user, root, place.path)
        at = ob.WHICH.index(call.which)
        if at >= len(nature.lists):
            no("not-dir")
        return ("replies", ("access", nature.lists[at]))
    if isinstance(call, w.Sync):
        fid, nature = a_file(see, user, root, place.path)
        own.found = fid
        return ("replies", w.OK) if own.is_clean(fid) else ("gives",)
    if lock:
        fid = a_use(see, user, root, place.path, call.writing, ob.W if call.writing else ob.R)
        to = call.start + call.len
        if to > w.FILE_BYTES_MAX:
            no("too-big")
        span = span_between(call.start, to)
        if own.is_own_locked(fid, span):
            no("already-locked")
        kind = LockTok(call.writing, span)
        see.need(fid, kind)
        return ("locks", fid, kind)
    fid = a_use(see, user, root, place.path, call.kind in ("writing", "exclusive"), OPEN_RIGHT[call.kind])
    kind = Opening(call.kind)
    see.need(fid, kind)
    return ("opens", fid, kind)


# ------------------------------------------------------------------------------------------------ the host
class Seen:
    """What is seen of one object (host_cache)."""

    def __init__(self):
        self.status, self.size, self.entries, self.data = None, 0, (), bytearray()

    def read(self, start, to):
        out = self.data[start:to]
        return bytes(out) + bytes(to - start - len(out))

    def put(self, start, piece):
        if len(self.data) < start + len(piece):
            self.data.extend(bytes(start + len(piece) - len(self.data)))
        self.data[start:start + len(piece)] = piece


EMPTY = Seen()


class Label:
    def __init__(self, label, token):
        self.label, self.token = label, token
        self.ending = None          # the GiveNo that ends it, once that is made


class Giving:
    """A give-back that isn't known as applied (host_gives)."""

    def __init__(self, give, tokens):
        self.give, self.tokens, self.sent = give, tokens, False


class Own:
    """What the host knows of itself, as calls look at it."""

    def __init__(self, host):
        self.host, self.entered, self.found = host, host.entered, None

    def label(self, lock, label):
        return self.host.labels.get((lock, label))

    def label_count(self, lock):
        return sum(1 for is_lock, _ in self.host.labels if is_lock == lock)

    def needs_server(self, label):
        return label.ending is not None or self.host.frees_pinned(label)

    def is_own_locked(self, fid, span):
        return any(x.token.fid == fid and overlap(x.token.kind.span, span)
                   for (lock, _), x in self.host.labels.items() if lock)

    def is_clean(self, fid):
        return self.host.is_clean(fid)


class Host:
    def __init__(self, script, host):
        self.script, self.host, self.node = script, host, ("c", host)
        self.user = w.user_of(script.roster, host)
        self.limit = w.limit_of(script.roster, host)
        self.lines = w.lines_of(script, self.node)
        self.at = 0                 # lines gone
        self.steps = 0
        self.calls = 0              # calls begun
        self.call = None            # the open call: Asked
        self.lost = set()           # files whose status Revokes took since the last call began
        self.stopped = False
        # servers, by server
        self.epoch = {}             # present epoch, 0 at first
        self.greeted, self.welcome, self.claimed, self.said_bye, self.has_bye = set(), set(), set(), set(), set()
        # tokens: by id; by file
        self.held = {}              # id -> Token
        self.by_file = {}           # fid -> {id: Token}
        self.last_used = {}         # id -> number of the step (an lru list in the machine)
        self.view = {}              # fid -> Seen
        self.floor = {}             # fid -> stamp
        # labels, in the order of taking: (is lock, label) -> Label; uses by token id; ids that a Kept named
        self.labels = {}
        self.uses = {}              # token id -> how many labels in use
        self.kept = set()
        # dirty bytes by file; the last give-back with a length since an update of the status was taken
        self.dirty = {}             # fid -> set of positions
        self.length_given = {}      # fid -> (length, GiveNo)
        # give-backs: fileset -> [Giving] not known, in order; last numbers
        self.gives = {}
        self.give_no = {}
        # requests: the outstanding one, and last numbers
        self.request = None         # (server, Fetch or Change)
        self.fetch_no, self.change_no = {}, {}
        self.entered = {}           # (server, name) -> fileset
        self.own = Own(self)
        self.count = {}             # figures

    # -- reading the tables
    def may_line(self):
        return self.at < len(self.lines) and self.call is None and not self.may_evict()

    def idle_count(self):
        return len(self.held) - len(self.uses)

    def may_evict(self):
        return not self.stopped and self.call is None and self.idle_count() > self.limit

    def may_end(self):
        if self.stopped or self.at < len(self.lines) or self.call is not None or self.may_evict():
            return False
        if self.labels or self.held:
            return True
        return not any(self.gives.values()) and bool(self.greeted - self.said_bye)

    def is_done(self):
        return self.at == len(self.lines) and (self.stopped or self.greeted <= self.has_bye)

    def files(self, fid):
        return self.by_file.get(fid, {})

    def kinds(self, fid):
        return [t.kind for t in self.files(fid).values()]

    def seen(self, fid):
        return self.view.get(fid, EMPTY)

    def give_open(self, fid):
        return any(g.give.fid == fid for g in self.gives.get(fid.fileset, ()))

    def is_given(self, id):
        return any(id in g.give.ids for found in self.gives.values() for g in found)

    def frees_pinned(self, label):
        return self.uses.get(label.token.id) == 1 and label.token.id in self.kept

    def length_dirty(self, fid):
        """There is an update of the status at hand, and the length is dirty under it."""
        if not any(t.kind == Status(True) for t in self.files(fid).values()):
            return False
        given = self.length_given.get(fid)
        if given is None or given[0] != self.seen(fid).size:
            return True
        return any(number_of(g.give) == given[1] for g in self.gives.get(fid.fileset, ()))

    def dirty_under(self, token):
        if isinstance(token.kind, w.Bytes) and token.kind.update:
            return any(token.kind.span.start <= at < token.kind.span.to for at in self.dirty.get(token.fid, ()))
        return token.kind == Status(True) and self.length_dirty(token.fid)

    def is_clean(self, fid):
        return not self.give_open(fid) and not any(self.dirty_under(t) for t in self.files(fid).values())

    def has_dirty(self, token, leaving):
        """Something is dirty under the token that no token for update covers which stays."""
        if isinstance(token.kind, w.Bytes) and token.kind.update:
            span = token.kind.span
            stay = [t.kind.span for t in self.files(token.fid).values()
                    if isinstance(t.kind, w.Bytes) and t.kind.update and t.id not in leaving]
            return any(span.start <= at < span.to and not any(s.start <= at < s.to for s in stay)
                       for at in self.dirty.get(token.fid, ()))
        return token.kind == Status(True) and self.length_dirty(token.fid)

    # -- writing the tables
    def begin(self, cause):
        self.steps += 1
        return Draft(self.node, cause)

    def say(self, d, server, body, moves=0):
        d.sent.append(to_server(self.host, server, self.epoch.get(server, 0), body, moves))

    def take(self, d, bring, grant):
        """A Grant, or a Done that brings a token, is used, where it may be."""
        fid = bring.fid
        if not bring.stamp > self.floor.get(fid, 0) or self.give_open(fid):
            return False
        self.floor[fid] = bring.stamp
        for t in bring.tokens:
            if t.id in self.held:
                continue
            self.held[t.id] = t
            self.by_file.setdefault(fid, {})[t.id] = t
            self.last_used[t.id] = self.steps
            d.taken.append(t)
            if t.kind == Status(True):
                self.length_given.pop(fid, None)
            if grant is not None:
                self.show(fid, t.kind, grant)
        return True

    def show(self, fid, kind, grant):
        seen = self.view.setdefault(fid, Seen())
        if isinstance(kind, Status):
            seen.status = grant.status
            seen.size = grant.status.length if grant.status else 0
        elif isinstance(kind, w.Bytes):
            span = kind.span
            if span.start == 0 and span.to > 0:
                seen.entries = grant.entries
            seen.put(span.start, bytes(min(span.to, max(len(seen.data), span.start)) - span.start))
            for p in grant.pieces:
                a, b = max(p.start, span.start), min(p.start + len(p.bytes), span.to)
                if a < b:
                    seen.put(a, p.bytes[a - p.start:b - p.start])

    def drop(self, d, token, why):
        del self.held[token.id]
        del self.by_file[token.fid][token.id]
        self.last_used.pop(token.id, None)
        self.kept.discard(token.id)
        d.dropped.append(Leave(token, why))

    def leave(self, d, fid, tokens, why, returned=(), ends=None, all_in=False):
        """Tokens of a file leave: those under which something is dirty in one give-back, the others in a Returned,
        which also names ids that aren't held."""
        leaving = {t.id for t in tokens}
        giving = [t for t in tokens if all_in or self.has_dirty(t, leaving) or self.is_given(t.id)]
        idle = tuple(t.id for t in tokens if t not in giving) + tuple(returned)
        if giving:
            self.give(d, fid, giving, leaving, ends)
        for t in tokens:
            self.drop(d, t, why)
        if idle:
            self.say(d, home(fid.fileset), Returned(fid, idle))

    def give(self, d, fid, giving, leaving, ends):
        stay = [t.kind.span for t in self.files(fid).values()
                if isinstance(t.kind, w.Bytes) and t.kind.update and t.id not in leaving]
        dirty = self.dirty.get(fid, set())
        out = sorted(at for at in dirty
                     if any(isinstance(t.kind, w.Bytes) and t.kind.update and t.kind.span.start <= at < t.kind.span.to
                            for t in giving) and not any(s.start <= at < s.to for s in stay))
        pieces, seen = [], self.seen(fid)
        for at in out:
            if pieces and pieces[-1][1] == at:
                pieces[-1][1] = at + 1
            else:
                pieces.append([at, at + 1])
        length = seen.size if self.length_dirty(fid) else None
        number = self.give_no.get(fid.fileset, 0) + 1
        self.give_no[fid.fileset] = number
        g = Give(number, fid, tuple(t.id for t in giving),
                 tuple(Piece(a, seen.read(a, b)) for a, b in pieces), length, ends)
        dirty.difference_update(out)
        if length is not None:
            self.length_given[fid] = (length, number_of(g))
        self.gives.setdefault(fid.fileset, []).append(Giving(g, tuple(giving)))
        d.made.append(g)

    def learn_given(self, d, applied):
        """The give-back of this number is known as applied."""
        for g in self.gives.get(applied.fileset, ()):
            if g.give.number == applied.number:
                self.gives[applied.fileset].remove(g)
                if g.give.ends is not None:
                    for key, x in list(self.labels.items()):
                        if x.ending == applied:
                            del self.labels[key]
                    if self.call is not None and self.call.k == g.give.ends.k:
                        self.call = None
                return

    def use_ends(self, label):
        left = self.uses[label.token.id] - 1
        if left:
            self.uses[label.token.id] = left
        else:
            del self.uses[label.token.id]

    def finish(self, d):
        """What became outstanding is sent."""
        for fs in {g.fid.fileset for g in d.made} | ({d.cause.message.body.applied.fileset}
                   if isinstance(d.cause, Came) and isinstance(d.cause.message.body, Gone) else set()) | (
                   {a.fileset for a in d.cause.message.body.applied}
                   if isinstance(d.cause, Came) and isinstance(d.cause.message.body, Reclaimed) else set()):
            waiting = self.gives.get(fs)
            if waiting and not waiting[0].sent:
                waiting[0].sent = True
                self.say(d, home(fs), GiveBack(waiting[0].give))
        return d.step()

    # -- going on with the open call
    def go_on(self, d, first=False):
        if self.call is None or self.request is not None:
            return                      # whoever has a request outstanding lacks a token, or asks a server
        call = self.call.call
        see = Seeing(self.seen)
        self.own.found = None
        verdict = look(self.own, self.user, call, see)
        lack = next((n for n in see.needs if not covered(self.kinds(n.fid), n.kind)), None)
        if lack is None and verdict[0] not in ("gives", "asks"):
            return self.answer(d, verdict, see.needs, first)
        if lack is None and verdict[0] == "gives":
            return self.give_for(d, call)
        if lack is None:
            question = verdict[1]
            if question[0] == "in":
                server, fileset = home(question[1]), question[1]
            else:
                server, fileset = question[1], 0
            return self.ask(d, server, lambda: self.new_change(server, fileset, NO_FID, question[0] == "enter"))
        server = home(lack.fid.fileset)
        if is_use_kind(lack.kind):
            return self.ask(d, server, lambda: self.new_change(server, lack.fid.fileset, lack.fid, False))
        if self.give_open(lack.fid):
            return
        self.ask(d, server, lambda: self.new_fetch(lack.fid, see.needs))

    def ask(self, d, server, make):
        if server not in self.greeted:
            self.greeted.add(server)
            self.say(d, server, Hello())
        elif server in self.welcome:
            body = make()
            self.request = (server, body)
            self.say(d, server, body)

    def new_change(self, server, fileset, fid, enter):
        key = (server if fileset == 0 else 0, fileset)
        self.change_no[key] = self.change_no.get(key, 0) + 1
        return Change(self.change_no[key], fileset, fid, enter, self.call.k, self.call.call)

    def new_fetch(self, fid, needs):
        kinds = self.kinds(fid)
        known = covered(kinds, Status(False))
        if fid == root_of(fid.fileset) or (known and self.seen(fid).status and self.seen(fid).status.dir):
            asked = [Status(False), w.Bytes(False, WHOLE)]
        elif not known:
            asked = [Status(False)]
        else:
            asked, spans = [], {}
            if "asks_lacking" not in BEFORE:        # of bytes all that the call needs, but for blocks with a dirty one
                dirty = {at // BLOCK for at in self.dirty.get(fid, ())}
                kinds = [k for k in kinds if isinstance(k, Status) and (k.update or fid not in self.lost)] + [
                    w.Bytes(True, Span(b * BLOCK, (b + 1) * BLOCK)) for b in dirty]
            for n in needs:
                if n.fid != fid or covered(kinds, n.kind):
                    continue
                if isinstance(n.kind, w.Bytes):
                    spans.setdefault(n.kind.update, []).extend(missing_of(n.kind.span, n.kind.update, kinds))
                elif n.kind not in asked:
                    asked.append(n.kind)
            if Status(True) in asked and Status(False) in asked:
                asked.remove(Status(False))
            for update, found in spans.items():
                asked.extend(w.Bytes(update, Span(a, b)) for a, b in together(found))
        self.fetch_no[fid.fileset] = self.fetch_no.get(fid.fileset, 0) + 1
        return Fetch(self.fetch_no[fid.fileset], fid, tuple(Need(fid, k) for k in asked))

    def answer(self, d, verdict, needs, first):
        call, what = self.call, verdict[0]
        reply = verdict[1] if what == "replies" else w.OK
        d.answers.append(Answer(self.host, call.k, call.call, reply, first))
        for n in needs:
            for t in self.files(n.fid).values():
                if helps(t.kind, n.kind):
                    self.last_used[t.id] = self.steps
        if what == "writes":
            _, fid, start, data = verdict
            seen = self.view.setdefault(fid, Seen())
            seen.put(start, data)
            seen.size = max(seen.size, start + len(data))
            self.dirty.setdefault(fid, set()).update(range(start, start + len(data)))
            d.wrote = fid
        elif what in ("locks", "opens"):
            _, fid, kind = verdict
            token = next(t for t in self.files(fid).values() if t.kind == kind)
            self.labels[what == "locks", call.call.label] = Label(call.call.label, token)
            self.uses[token.id] = self.uses.get(token.id, 0) + 1
            d.begun.append(Labelled(call.call.label, token))
        elif what == "frees":
            key = (isinstance(call.call, w.Unlock), call.call.label)
            self.use_ends(self.labels.pop(key))
        self.call = None

    def give_for(self, d, call):
        if isinstance(call, w.Sync):
            fid = self.own.found
            tokens = [t for t in self.files(fid).values() if self.dirty_under(t)]
            if tokens:
                self.leave(d, fid, tokens, w.ASKED, all_in=True)
            return
        label = self.labels[isinstance(call, w.Unlock), call.label]
        if label.ending is None:
            self.use_ends(label)
            self.leave(d, label.token.fid, [label.token], w.ASKED, ends=Ends(self.call.k, call), all_in=True)
            label.ending = number_of(d.made[-1])

    def begin_call(self, d, call):
        self.calls += 1
        self.call = Asked(self.calls, call)
        self.lost.clear()
        self.go_on(d, True)
        if self.call is not None:
            d.asked = self.call

    # -- the causes
    def line(self):
        line = self.lines[self.at]
        d = self.begin(LineOf(line.number))
        self.at += 1
        if isinstance(line.deed, w.MakesCall):
            self.begin_call(d, line.deed.call)
        elif isinstance(line.deed, w.Stop):
            self.stopped = True
            for t in list(self.held.values()):
                self.drop(d, t, w.STOPPED)
            for server in w.servers_of(self.script.roster):
                self.say(d, server, Down())
            return d.step()
        return self.finish(d)

    def lapse(self):
        d = self.begin(Lapse())
        for server in sorted(self.greeted - self.welcome):
            self.say(d, server, Hello())
        for fs in sorted(self.gives):
            if self.gives[fs]:
                self.say(d, home(fs), GiveBack(self.gives[fs][0].give))
        for server in sorted(self.claimed):
            self.say(d, server, self.claim(server))
        if self.request is not None:
            self.say(d, *self.request)
        for server in sorted(self.said_bye - self.has_bye):
            self.say(d, server, Bye())
        return d.step()

    def evict(self):
        d = self.begin(Evict())
        token = min((t for t in self.held.values() if t.id not in self.uses), key=lambda t: self.last_used[t.id])
        self.leave(d, token.fid, [token], w.EVICTED)
        return self.finish(d)

    def end(self):
        d = self.begin(End())
        used = next((x for x in self.labels.items() if x[1].ending is None), None)
        if used is not None:
            (lock, label), _ = used
            self.begin_call(d, w.Unlock(label) if lock else w.CloseFile(label))
        elif self.held:
            for fid, tokens in list(self.by_file.items()):
                if tokens:
                    self.leave(d, fid, list(tokens.values()), w.ENDED)
        else:
            for server in sorted(self.greeted - self.said_bye):
                self.say(d, server, Bye())
                self.said_bye.add(server)
        return self.finish(d)

    def claim(self, server):
        now = self.epoch[server]
        tokens = [t for t in self.held.values() if t.id.server == server and t.id.epoch < now]
        for waiting in self.gives.values():
            for g in waiting:
                tokens.extend(t for t in g.tokens if t.id.server == server and t.id.epoch < now)
        numbers = []
        for fs in sorted({t.fid.fileset for t in tokens}):
            waiting = self.gives.get(fs)
            change = 0
            if self.request is not None and isinstance(self.request[1], Change) and self.request[1].fileset == fs:
                change = self.request[1].number
            numbers.append(Outstanding(fs, 0, waiting[0].give.number if waiting else 0, change))
        return Reclaim(tuple(tokens), tuple(numbers))

    def message(self, m):
        d = self.begin(Came(m))
        now = self.epoch.get(m.server, 0)
        body = m.body
        if isinstance(body, Bye):
            self.has_bye.add(m.server)
        elif isinstance(body, Restarted):
            if m.epoch > now:
                self.restarted(d, m.server, m.epoch)
        elif isinstance(body, Reclaimed):
            if now == 0:
                self.renew(m.server, m.epoch)
            if m.epoch == self.epoch[m.server]:
                if m.server in self.greeted:
                    self.welcome.add(m.server)
                if m.epoch == now:
                    self.reclaimed(d, m.server, body)
                self.go_on(d)
        elif m.epoch == now and m.moves == 0:
            getattr(self, "on_" + type(body).__name__.lower())(d, m.server, body)
        return self.finish(d)

    def renew(self, server, epoch):
        self.epoch[server] = epoch
        for fid in [f for f in self.floor if home(f.fileset) == server]:
            del self.floor[fid]

    def restarted(self, d, server, epoch):
        self.renew(server, epoch)
        if server not in self.greeted:
            return
        for fs in sorted(self.gives):
            if self.gives[fs] and home(fs) == server:
                self.say(d, server, GiveBack(self.gives[fs][0].give))
        self.claimed.add(server)
        self.say(d, server, self.claim(server))

    def reclaimed(self, d, server, answer):
        self.claimed.discard(server)
        for a in answer.applied:
            self.learn_given(d, a)
        if self.request is not None and self.request[0] == server:
            self.say(d, *self.request)
        if server in self.said_bye and server not in self.has_bye:
            self.say(d, server, Bye())

    def on_gone(self, d, server, body):
        self.learn_given(d, body.applied)
        self.go_on(d)

    def on_grant(self, d, server, grant):
        r = self.request
        if r is None or not isinstance(r[1], Fetch) or r[1].number != grant.bring.number \
                or r[1].fid.fileset != grant.bring.fid.fileset:
            return
        self.request = None
        self.take(d, grant.bring, grant)
        self.go_on(d)

    def on_done(self, d, server, done):
        r = self.request
        if r is None or not isinstance(r[1], Change) or r[0] != server or r[1].number != done.bring.number \
                or r[1].fileset != done.fileset:
            return
        self.request = None
        if isinstance(done.outcome, HasReply):
            self.call = None
        elif isinstance(done.outcome, Known) and r[1].enter:
            self.entered[fileset_of(r[1].call)] = done.outcome.fileset
        if all(is_use_kind(t.kind) for t in done.bring.tokens):
            self.take(d, done.bring, None)
        self.go_on(d)

    def on_revoke(self, d, server, revoke):
        fid = revoke.fid
        self.floor[fid] = max(self.floor.get(fid, 0), revoke.stamp)
        keep, leaving, back, again = {}, {fid: []}, [], []
        for i in dict.fromkeys(revoke.ids):
            token = self.held.get(i)
            giving = [g for found in self.gives.values() for g in found if i in g.give.ids]
            again += [g for g in giving if g is self.gives[g.give.fid.fileset][0] and g not in again]
            if i in self.uses:
                keep.setdefault(token.fid, []).append(i)
            elif token is not None:
                leaving.setdefault(token.fid, []).append(token)
            elif token is None and not giving:
                back.append(i)
        for g in again:
            self.say(d, home(g.give.fid.fileset), GiveBack(g.give))
        for kept, ids in keep.items():
            self.kept.update(ids)
            self.say(d, home(kept.fileset), Kept(kept, tuple(ids)))
        for left, tokens in leaving.items():
            self.leave(d, left, tokens, w.REVOKED, back if left == fid else ())
            if any(isinstance(t.kind, Status) for t in tokens) and not covered(self.kinds(left), Status(False)):
                self.lost.add(left)
        self.go_on(d)


# ------------------------------------------------------------------------------------------------ the kept filesets
def dry_tree(tree, server, name):
    """A tree in which one fileset may be changed, or filesets added, without harm to the first."""
    twin = type(tree).__new__(type(tree))
    twin.__dict__.update(tree.__dict__)
    twin.next, twin.locks, twin.opens = dict(tree.next), {}, {}
    twin.at = {s: dict(f) for s, f in tree.at.items()}
    if name is not None and name in twin.at.get(server, ()):
        old = twin.at[server][name]
        new = ot.Fileset(old.server, old.id, old.name, old.read_only, old.limit)
        new.unique = list(old.unique)
        new.objects = {a: t.copy_present() for a, t in old.objects.items()}
        twin.at[server][name] = new
    return twin


def fileset_of(call):
    if isinstance(call, (w.NewFileset, w.CloneFileset, w.Unlock, w.CloseFile)):
        return None
    if isinstance(call, w.MoveFileset):
        return call.server, call.fileset
    place = call.source if isinstance(call, w.Rename) else call.place
    return place.server, place.fileset


def kept_reply(tree, host, call):
    place = fileset_of(call)
    return dry_tree(tree, *(place or (0, None))).answer(host, call)


def fid_at(fileset, anode):
    return Fid(fileset.id, anode, fileset.unique[anode])


def all_of(update, fid):
    return [Need(fid, Status(update)), Need(fid, w.Bytes(update, WHOLE))]


def every_use_of(fid):
    return [Need(fid, LockTok(True, WHOLE)), Need(fid, Opening("exclusive"))]


def row_needs(tree, host, call):
    """What a Change wants on the kept filesets (need_server)."""
    user = tree.user(host)
    if isinstance(call, w.CloneFileset):
        fs = tree.at[call.server].get(call.fileset)
        if fs is None or fs.read_only or not ot.can(fs.objects[1], user) & ob.C:
            return ()
        return tuple(n for a in range(1, fs.limit + 1) if a in fs.objects and not fs.objects[a].is_dir
                     for n in all_of(False, fid_at(fs, a)))
    place = fileset_of(call)
    if place is None:
        return ()
    fs = tree.at[place[0]].get(place[1])
    if fs is None:
        return ()
    try:
        return tuple(_row(tree, fs, user, call))
    except ot.Refusal:
        return ()


def _row(tree, fs, user, call):
    if isinstance(call, (w.Create, w.MakeDir)):
        if kept_reply(tree, [h for h in range(len(tree.hosts) + 1) if tree.user(h) == user][0], call)[0] == "refused":
            return ()
        return all_of(True, fid_at(fs, fs.walk_parent(user, call.place.path)))
    if isinstance(call, w.Remove):
        if kept_reply(tree, [h for h in range(len(tree.hosts) + 1) if tree.user(h) == user][0], call)[0] == "refused":
            return ()
        parent = fs.walk_parent(user, call.place.path)
        anode = fs.objects[parent].entries[call.place.path[-1]]
        return all_of(True, fid_at(fs, parent)) + all_of(True, fid_at(fs, anode)) + every_use_of(fid_at(fs, anode))
    if isinstance(call, w.Rename):
        if (call.source.server, call.source.fileset) != (call.to.server, call.to.fileset) or kept_reply(
                tree, [h for h in range(len(tree.hosts) + 1) if tree.user(h) == user][0], call)[0] == "refused":
            return ()
        return all_of(True, fid_at(fs, fs.walk_parent(user, call.source.path))) + all_of(
            True, fid_at(fs, fs.walk_parent(user, call.to.path)))
    if isinstance(call, w.MoveFileset):
        if fs.read_only or not ot.can(fs.objects[1], user) & ob.C:
            return ()
        return [n for a in sorted(fs.objects) for n in all_of(True, fid_at(fs, a)) + every_use_of(fid_at(fs, a))]
    if isinstance(call, (w.Truncate, w.SetAcl)):
        if kept_reply(tree, [h for h in range(len(tree.hosts) + 1) if tree.user(h) == user][0], call)[0] == "refused":
            return ()
        fid = fid_at(fs, fs.walk(user, call.place.path))
        return all_of(True, fid) if isinstance(call, w.Truncate) else [Need(fid, Status(True))]
    if isinstance(call, w.Lock):
        fid = tree.use(user, call.place, call.writing, ob.W if call.writing else ob.R, "")
        to = call.start + call.len
        if to > w.FILE_BYTES_MAX:
            return ()
        return [Need(fid_at(fs, fid[1]), LockTok(call.writing, span_between(call.start, to)))]
    if isinstance(call, w.OpenFile):
        fid = tree.use(user, call.place, call.kind in ("writing", "exclusive"), OPEN_RIGHT[call.kind], "")
        return [Need(fid_at(fs, fid[1]), Opening(call.kind))]
    return ()


# ------------------------------------------------------------------------------------------------ the server
class Member:
    """What a server knows of a host."""

    def __init__(self):
        self.listed = None          # the epoch in which it came on the list
        self.down = self.ended = False
        self.reclaimed = None       # the last epoch in which it reclaimed
        self.answer = None          # the Reclaimed that it was last sent, with its epoch

    def live(self):
        return self.listed is not None and not self.down and not self.ended


class Held:
    """A granted token, with its notes (token_table)."""

    def __init__(self, token):
        self.token, self.pinned, self.revoked = token, False, False


class Want:
    def __init__(self, wanted, place):
        self.wanted, self.place = wanted, place     # place: its number in the queue
        r = wanted.request
        self.host, self.request, self.needs = wanted.host, r, wanted.needs
        self.fetch = isinstance(r, Fetch)
        self.use = not self.fetch and not r.enter and isinstance(r.call, (w.Lock, w.OpenFile))
        # the asker is told by the call alone, also where it enters (Wants.asker_of)
        own = self.fetch or isinstance(r.call, (w.Lock, w.OpenFile))
        self.asker = wanted.host if own else w.EXPORTER
        self.move = not self.fetch and not r.enter and isinstance(r.call, w.MoveFileset)
        self.effect = not self.fetch and not r.enter and not self.use and not self.move
        self.key = key_of(wanted.host, r)

    def is_own(self, held):
        return held.token.host == self.asker


def key_of(host, request):
    """By which a want is known: Fetches by their number; of a host and a fileset one Change waits."""
    if isinstance(request, Fetch):
        return (host, "fetch", request.fid.fileset, request.number)
    return (host, "change", request.fileset)


class Last:
    """The last Change of a host and fileset that was answered."""

    def __init__(self, number, done, epoch, written):
        self.number, self.done, self.epoch, self.written = number, done, epoch, written


def is_meant_so(change):
    """It can be answered: one that enters a fileset names one; a lock or open is numbered under its file's fileset, and a
    lock is of one byte at least."""
    if change.enter and fileset_of(change.call) is None:
        return False
    if isinstance(change.call, w.Lock) and not change.call.len:
        return False
    return not isinstance(change.call, (w.Lock, w.OpenFile)) or change.fid.fileset == change.fileset


def refusal_of(call):
    return "locked" if isinstance(call, w.Lock) else "open-conflict" if isinstance(call, w.OpenFile) else "in-use"


class Server:
    def __init__(self, script, server, epoch, tree, lazy=False):
        self.script, self.server, self.node = script, server, ("s", server)
        self.lines = w.lines_of(script, self.node)
        self.at = 0
        self.epoch = epoch
        self.lazy = lazy            # whether the store is flushed later
        self.tree = tree            # the kept filesets
        self.hosts = {}             # host -> Member
        self.tokens = {}            # id -> Held
        self.by_file = {}           # fid -> {id: Held}
        self.by_host = {}           # host -> ids
        self.owed = {}              # id -> Held: asked back, granted still, and not pinned
        self.reserved = []          # the exporter's tokens
        self.places = 0
        self.waiting = {}           # key -> Want, in the order of the queue (at most one a host, but for late copies)
        self.on_file = {}           # fid -> {place: Want}: the wants that need something of the file
        self.touched = set()        # files at which a token or a want changed since wants were looked at
        self.fresh = []             # wants that are new, or all when a grace period has ended
        self.unclaimed = set()      # live hosts that haven't reclaimed in this epoch
        self.last_done = {}         # (host, fileset) -> Last
        self.durable = {}           # (host, fileset) -> number written down
        self.last_give = {}         # (host, fileset) -> highest number that was taken
        # until a host has reclaimed, in this epoch:
        self.gave_now = set()       # (host, fileset, number) of give-backs that were taken
        self.given_up = {}          # host -> ids that give-backs and Returneds named
        self.claims = {}            # host -> claims that wait
        self.stamp = self.seq = 0
        self.again = False          # a Change could be decided: another step is needed

    # -- reading
    def member(self, host):
        return self.hosts.setdefault(host, Member())

    def has_reclaimed(self, m):
        return m.reclaimed == self.epoch or m.listed == self.epoch

    def no_grace(self):
        return not self.unclaimed

    def claimed(self, host):
        """One host less to wait for; when it was the last one all wants are looked at."""
        if host in self.unclaimed:
            self.unclaimed.remove(host)
            if not self.unclaimed:
                self.fresh = list(self.waiting.values())

    def concerned(self):
        """The wants that may have become ready: those on files that were touched, and fresh ones; in their order."""
        found = {x.place: x for x in self.fresh if self.waiting.get(x.key) is x}
        for fid in self.touched:
            found.update(self.on_file.get(fid, {}))
        return [found[p] for p in sorted(found)]

    def in_way(self, want):
        """The tokens of others, and the exporter's, that are in a want's way."""
        for n in want.needs:
            for held in self.by_file.get(n.fid, {}).values():
                if held.token.host != want.asker and kinds_conflict(held.token.kind, n.kind):
                    yield held
        if want.asker != w.EXPORTER:
            for t in self.reserved:
                if any(n.fid == t.fid and kinds_conflict(t.kind, n.kind) for n in want.needs):
                    yield None

    def is_behind(self, want):
        for other in {p: x for n in want.needs for p, x in self.on_file.get(n.fid, {}).items()}.values():
            if other.place >= want.place:
                continue
            if other.asker != want.asker and any(
                    a.fid == b.fid and kinds_conflict(a.kind, b.kind) for a in want.needs for b in other.needs):
                return True
        return False

    def ready(self, want):
        """"grant", "refuse" or None."""
        if not self.no_grace() or self.is_behind(want):
            return None
        found = list(self.in_way(want))
        if not found:
            return "grant"
        return "refuse" if any(h is not None and h.pinned for h in found) else None

    def refused_on(self, want):
        reply = kept_reply(self.tree, want.host, want.request.call)
        if reply[0] != "refused" or (want.request.enter and reply[1] != "no-fileset"):
            return None
        # whether the other server has room, or a number, for a fileset that moves this one can't tell
        return None if isinstance(want.request.call, w.MoveFileset) and reply[1] in ("too-many", "no-room") else reply

    def row(self, want):
        r = want.request
        return () if r.enter else row_needs(self.tree, want.host, r.call)

    def of_row(self, want):
        return want.needs == self.row(want) and (not want.use or all(n.fid == want.request.fid for n in want.needs))

    # -- tables
    def say(self, d, host, body, moves=0):
        d.sent.append(to_host(host, self.server, self.epoch, body, moves))

    def free(self, host, ids):
        for i in ids:
            held = self.tokens.get(i)
            if held is not None and held.token.host == host:
                del self.tokens[i]
                del self.by_file[held.token.fid][i]
                self.by_host[host].discard(i)
                self.owed.pop(i, None)
                self.touched.add(held.token.fid)

    def hold(self, token):
        held = Held(token)
        self.tokens[token.id] = held
        self.by_host.setdefault(token.host, set()).add(token.id)
        self.touched.add(token.fid)
        self.by_file.setdefault(token.fid, {})[token.id] = held

    def unqueue(self, want):
        del self.waiting[want.key]
        for n in want.needs:
            self.on_file[n.fid].pop(want.place, None)
            self.touched.add(n.fid)

    def enqueue(self, d, wanted):
        self.places += 1
        want = Want(wanted, self.places)
        self.waiting[want.key] = want
        self.fresh.append(want)
        for n in want.needs:
            self.on_file.setdefault(n.fid, {})[want.place] = want
        d.applied.append(wanted)
        return want

    def goes_away(self, host):
        self.free(host, list(self.by_host.get(host, ())))
        for want in [x for x in self.waiting.values() if x.host == host]:
            self.unqueue(want)
        self.claimed(host)
        self.claims.pop(host, None)
        self.given_up.pop(host, None)

    def new_tokens(self, host, fid, needs):
        out = []
        for n in needs:
            self.seq += 1
            out.append(Token(TokenId(self.server, self.epoch, self.seq), host, fid, n.kind))
        return tuple(out)

    # -- deciding (the first part of a step): Changes are written down
    def write(self, d, want, reply):
        r = want.request
        self.unqueue(want)
        d.applied.append(Written(r.fileset, r.number, Answer(want.host, r.k, r.call, reply, False)))
        self.durable[want.host, r.fileset] = r.number
        done = Done(r.fileset, HasReply(reply), Bring(r.number, NO_FID, 0, ()))
        self.last_done[want.host, r.fileset] = Last(r.number, done, self.epoch, True)
        self.say(d, want.host, done)

    def decide(self, d, new):
        """Each Change that could be decided is: refused, written down, or its want is made anew."""
        if not self.no_grace():
            return
        todo = self.concerned()
        seen = {x.place for x in todo}
        while todo:
            want = todo.pop(0)
            if self.waiting.get(want.key) is want:
                before = len(self.waiting), self.places
                self.decide_one(d, want, want is new)
                if before != (len(self.waiting), self.places):      # what it was in the way of may be ready now
                    more = [x for x in self.concerned() if x.place not in seen]
                    seen.update(x.place for x in more)
                    todo = sorted(todo + more, key=lambda x: x.place)

    def decide_one(self, d, want, fresh):
        if want.fetch:
            return
        how = self.ready(want)
        if how is None and not fresh:
            return
        refused = self.refused_on(want)
        if refused is not None:
            return self.write(d, want, refused)
        if how is None or want.request.enter:
            return
        row = self.row(want)
        if want.effect and row != want.needs:
            self.unqueue(want)
            again = self.enqueue(d, w.change(want.wanted, needs=row))
            return self.decide_one(d, again, False)
        if not self.of_row(want):
            return          # a use that names another file: the sends settle it; a move waits, since none moves so far
        if how == "refuse":
            return self.write(d, want, w.refused(refusal_of(want.request.call)))
        if want.effect:
            reply = self.tree.answer(want.host, want.request.call)
            self.tree.locks.clear()
            self.tree.opens.clear()
            if self.lazy:
                for n in want.needs:
                    self.seq += 1
                    t = Token(TokenId(self.server, self.epoch, self.seq), w.EXPORTER, n.fid, n.kind)
                    d.reserved.append(t)
            self.write(d, want, reply)

    # -- granting (in the sends)
    def grant_all(self, d):
        if not self.no_grace():
            return
        for want in self.concerned():
            if want.effect or want.move:
                continue
            how = self.ready(want)
            if how is None:
                continue
            if want.fetch:
                if how == "grant":
                    self.grant(d, want)
                continue
            if self.refused_on(want) is not None:
                self.again = True
            elif want.request.enter:
                if how == "grant":
                    self.settle(d, want, Known(self.tree.at[self.server][fileset_of(want.request.call)[1]].id))
            elif not self.of_row(want):
                self.settle(d, want, Again())
            elif how == "grant":
                self.settle(d, want, Granted(), want.needs[0].fid if want.needs else NO_FID)
            else:
                self.again = True

    def settle(self, d, want, outcome, fid=NO_FID):
        r = want.request
        self.unqueue(want)
        tokens, stamp = (), 0
        if isinstance(outcome, Granted):
            self.stamp += 1
            stamp = self.stamp
            tokens = self.new_tokens(want.host, fid, want.needs)
            for t in tokens:
                self.hold(t)
        done = Done(r.fileset, outcome, Bring(r.number, fid, stamp, tokens))
        self.last_done[want.host, r.fileset] = Last(r.number, done, self.epoch, False)
        self.say(d, want.host, done)

    def object(self, fid):
        for fs in self.tree.at[self.server].values():
            if fs.id == fid.fileset and fid.anode in fs.objects and fs.unique[fid.anode] == fid.unique:
                return fs, fs.objects[fid.anode]
        return None, None

    def grant(self, d, want):
        f = want.request
        self.unqueue(want)
        fs, thing = self.object(f.fid)
        self.stamp += 1
        if thing is None:
            return self.say(d, want.host, Grant_(f, self.stamp, ()))
        tokens = self.new_tokens(want.host, f.fid, f.needs)
        entries, shown = (), []
        for t in tokens:
            self.hold(t)
            if isinstance(t.kind, w.Bytes):
                span = t.kind.span
                if not thing.is_dir:
                    shown.append((span.start, min(span.to, len(thing.kept))))
                elif span.start == 0:
                    entries = tuple(DirEntry(n, a, fs.unique[a]) for n, a in sorted(thing.entries.items()))
        pieces = [Piece(a, bytes(thing.kept[a:b])) for a, b in together(shown)]
        status = StatusOf(thing.is_dir, fs.read_only, thing.length(), thing.owner, thing.group, tuple(thing.lists))
        self.say(d, want.host, Grant_(f, self.stamp, tokens, status, tuple(pieces), entries))

    def revoke_all(self, d, lapse):
        if not self.no_grace():
            return
        groups = {}
        if lapse:
            for held in self.owed.values():
                if "revoked_once" not in BEFORE or any(not x.is_own(held) and any(
                        n.fid == held.token.fid and kinds_conflict(held.token.kind, n.kind) for n in x.needs)
                        for x in self.on_file.get(held.token.fid, {}).values()):
                    groups.setdefault((held.token.host, held.token.fid), {})[held.token.id] = held
        for want in self.concerned():
            for held in self.in_way(want):
                if held is not None and not held.pinned and not held.revoked:
                    groups.setdefault((held.token.host, held.token.fid), {})[held.token.id] = held
        for (host, fid), found in groups.items():
            self.stamp += 1
            for held in found.values():
                held.revoked = True
                self.owed[held.token.id] = held
            self.say(d, host, Revoke(fid, self.stamp, tuple(found)))

    # -- claims
    def has_all(self, host, claim):
        return all((host, o.fileset, o.give) in self.gave_now for o in claim.numbers
                   if o.give > 0 and home(o.fileset) == self.server and o.moves == 0)

    def admit_all(self, d):
        for host in list(self.claims):
            ripe = [c for c in self.claims[host] if self.has_all(host, c)]
            if not ripe:
                continue
            del self.claims[host]
            gone = self.given_up.get(host, set())
            tokens, ids = [], set()
            here = {o.fileset for o in ripe[0].numbers if home(o.fileset) == self.server and o.moves == 0}
            for t in ripe[0].tokens:
                if t.fid.fileset in here and t.id not in gone and t.id not in self.tokens and t.id not in ids \
                        and t.host == host:
                    ids.add(t.id)
                    tokens.append(t)
            d.admitted.append(Admission(host, tuple(tokens)))
            for t in tokens:
                self.hold(t)
            member = self.hosts[host]
            member.reclaimed = self.epoch
            self.claimed(host)
            for c in ripe:
                applied = tuple(GiveNo(o.fileset, o.give) for o in c.numbers
                                if (host, o.fileset, o.give) in self.gave_now)
                body = Reclaimed(applied, tuple(t.id for t in c.tokens if t.id in gone))
                if body != member.answer:
                    member.answer = body
                    self.say(d, host, body)
            self.given_up.pop(host, None)
            self.gave_now = {x for x in self.gave_now if x[0] != host}

    # -- the causes
    def finish(self, d, new=None):
        early, d.sent = d.sent, []
        self.decide(d, new)
        self.reserved.extend(d.reserved)            # what a step keeps doesn't count in its own decisions
        self.touched.update(x.fid for x in d.reserved)
        self.fresh = [x for x in self.fresh if self.waiting.get(x.key) is x]
        self.admit_all(d)
        d.sent = early + d.sent
        self.grant_all(d)
        self.revoke_all(d, isinstance(d.cause, Lapse))
        # what became ready by the sends, or by the end of a grace period, is decided in a step of its own
        self.again = self.no_grace() and any(self.is_due(x) for x in self.concerned())
        if self.no_grace() and not self.again:
            self.touched.clear()
            self.fresh.clear()
        return d.step()

    def is_due(self, want):
        """A Change that could be decided, in a step to come."""
        if want.fetch:
            return False
        how = self.ready(want)
        return how is not None and (want.effect or self.refused_on(want) is not None
                                    or (how == "refuse" and not want.request.enter and self.of_row(want)))

    def wants_flush(self):
        return self.again or bool(self.reserved)

    def line(self):
        line = self.lines[self.at]
        self.at += 1
        if isinstance(line.deed, w.Restart):
            return self.restart(line.number)
        return Draft(self.node, LineOf(line.number)).step()

    def restart(self, number):
        d = Draft(self.node, RestartAt(number))
        self.epoch += 1
        self.tokens, self.by_file, self.by_host, self.owed, self.reserved = {}, {}, {}, {}, []
        self.waiting, self.on_file, self.touched, self.fresh = {}, {}, set(), []
        self.unclaimed = {h for h, m in self.hosts.items() if m.live()}
        self.gave_now, self.given_up, self.claims = set(), {}, {}
        self.stamp = self.seq = 0
        self.again = False
        for host, m in self.hosts.items():
            m.answer = None
            if m.live():
                self.say(d, host, Restarted())
        return self.finish(d)

    def flush(self):
        d = Draft(self.node, Flushed())
        self.touched.update(t.fid for t in self.reserved)
        self.reserved = []
        return self.finish(d)

    def lapse(self):
        d = Draft(self.node, Lapse())
        for host, m in self.hosts.items():
            if m.live() and not self.has_reclaimed(m):
                self.say(d, host, Restarted())
        return self.finish(d)

    def message(self, m):
        d = Draft(self.node, Came(m))
        member, body, host = self.member(m.host), m.body, m.host
        new = None
        if isinstance(body, Down):
            if not member.down:
                d.applied.append(IsDown(host))
                member.down = True
                self.goes_away(host)
        elif member.down:
            pass
        elif isinstance(body, Hello):
            if member.live() and member.listed != self.epoch:
                self.say(d, host, Restarted())
            else:
                if member.listed is None:
                    member.listed = self.epoch
                    member.answer = Reclaimed()
                self.say(d, host, Reclaimed())
        elif isinstance(body, Bye):
            if not member.live():
                self.say(d, host, Bye())
            elif m.epoch == self.epoch:
                member.ended = True
                self.goes_away(host)
                self.say(d, host, Bye())
            else:
                self.say(d, host, Restarted())
        elif not member.live():
            pass
        elif m.epoch != self.epoch:
            self.say(d, host, Restarted())
        elif m.moves == 0:
            new = getattr(self, "on_" + type(body).__name__.lower())(d, host, member, body)
        return self.finish(d, new)

    def on_fetch(self, d, host, member, fetch):
        if home(fetch.fid.fileset) != self.server or key_of(host, fetch) in self.waiting:
            return None
        return self.enqueue(d, Wanted(host, fetch, 0, fetch.needs))

    def on_change(self, d, host, member, c):
        if c.fileset != 0 and home(c.fileset) != self.server:
            return None
        last = self.last_done.get((host, c.fileset))
        old = self.durable.get((host, c.fileset), 0) >= c.number or (
            last is not None and (last.number > c.number or last.epoch == self.epoch and last.number == c.number))
        if old:
            if last is not None and last.number == c.number:
                done = last.done
                if done.bring.tokens and not all(t.id in self.tokens for t in done.bring.tokens):
                    done = Done(c.fileset, Again(), Bring(c.number, NO_FID, 0, ()))
                self.say(d, host, done)
            return None
        if key_of(host, c) in self.waiting or not is_meant_so(c):
            return None
        needs = () if c.enter else row_needs(self.tree, host, c.call)
        return self.enqueue(d, Wanted(host, c, 0, needs))

    def names(self, host, member, ids):
        self.free(host, ids)
        if not self.has_reclaimed(member):
            self.given_up.setdefault(host, set()).update(ids)

    def on_returned(self, d, host, member, named):
        if home(named.fid.fileset) == self.server:
            self.names(host, member, named.ids)

    def on_kept(self, d, host, member, named):
        for i in named.ids:
            held = self.tokens.get(i)
            if held is not None and held.token.host == host and is_use_kind(held.token.kind):
                held.pinned = True
                self.owed.pop(i, None)
                self.touched.add(held.token.fid)

    def on_giveback(self, d, host, member, body):
        g = body.give
        fs = g.fid.fileset
        if home(fs) != self.server:
            return
        if self.last_give.get((host, fs), 0) < g.number:
            self.last_give[host, fs] = g.number
            fileset, thing = self.object(g.fid)
            if thing is not None and not thing.is_dir and not fileset.read_only and (g.pieces or g.length is not None):
                d.applied.append(Stored(host, g.fid, tuple(
                    span_between(p.start, p.start + len(p.bytes)) for p in g.pieces), g.length))
                if g.length is not None and g.length > len(thing.kept):
                    thing.kept.extend(bytes(g.length - len(thing.kept)))
                for p in g.pieces:
                    to = min(p.start + len(p.bytes), len(thing.kept))
                    if p.start < to:
                        thing.kept[p.start:to] = p.bytes[:to - p.start]
            if g.ends is not None:
                d.applied.append(EndsCall(Answer(host, g.ends.k, g.ends.call, w.OK, False)))
        if not self.has_reclaimed(member):
            self.gave_now.add((host, fs, g.number))
        self.names(host, member, g.ids)
        self.say(d, host, Gone(number_of(g)))

    def on_reclaim(self, d, host, member, claim):
        if self.has_reclaimed(member):
            self.say(d, host, member.answer)
            return
        waiting = self.claims.setdefault(host, [])
        if claim not in waiting:
            waiting.append(claim)


def Grant_(fetch, stamp, tokens, status=None, pieces=(), entries=()):
    return w.Grant(Bring(fetch.number, fetch.fid, stamp, tokens), status, pieces, entries)
