"""What calls look at and need, what hosts make of them (need_host), what servers want (need_server), and what tokens
cover and conflict with (token_types)."""
from typing import NamedTuple

from words import (Bytes, CloneFileset, Create, FILE_BYTES_MAX, Fid, GetAcl, LABELS_MAX, List, Lock, LockTok, MakeDir,
                   MoveFileset, Need, NewFileset, OK, OpenFile, Opening, Read, Remove, Rename, SetAcl, Span, Stat,
                   Status, Sync, TOKEN_BYTES, Truncate, Unlock, WHOLE, Write, refused, root_of, span_between, word)
from dfs_oracle import base
from dfs_oracle.base import OPEN_CONFLICT, rights_of
from dfs_oracle.tree import Refusal, can, no
from tree import ENTRIES, SIZE, TRAITS, byte_at


# token_types, Conflicts
def overlap(a, b):
    return max(a.start, b.start) < min(a.to, b.to)


def has_byte(span, at):
    return span.start <= at < span.to


def kinds_conflict(a, b):
    if type(a) is not type(b):
        return False
    if isinstance(a, Bytes):
        return (a.update or b.update) and overlap(a.span, b.span)
    if isinstance(a, Status):
        return a.update or b.update
    if isinstance(a, LockTok):
        return (a.writing or b.writing) and overlap(a.span, b.span)
    return OPEN_CONFLICT[a.kind, b.kind]


def needs_conflict(a, b):
    """Of needs, or of tokens."""
    return a.fid == b.fid and kinds_conflict(a.kind, b.kind)


def conflict(a, b):
    return a.host != b.host and needs_conflict(a, b)


def wants_conflict(host, needs, other, others):
    return host != other and any(needs_conflict(a, b) for a in needs for b in others)


def blocks(host, needs, token):
    return token.host != host and any(needs_conflict(token, n) for n in needs)


# token_types, Covers
def does_for(update, needed):
    return update or not needed


def kind_covers(kind, needed):
    if isinstance(kind, Status) and isinstance(needed, Status):
        return does_for(kind.update, needed.update)
    if isinstance(kind, (LockTok, Opening)):
        return kind == needed
    return False


def uncovered(held, fid, needed, span):
    """The parts of a span that the tokens don't cover, for update or for reading."""
    spans = sorted(t.kind.span for t in held if t.fid == fid and isinstance(t.kind, Bytes)
                   and does_for(t.kind.update, needed))
    at, gaps = span.start, []
    for a, b in spans:
        if at >= span.to:
            break
        if a > at:
            gaps.append(Span(at, min(a, span.to)))
        at = max(at, b)
    if at < span.to:
        gaps.append(Span(at, span.to))
    return gaps


def covers(held, need):
    if isinstance(need.kind, Bytes):
        return not uncovered(held, need.fid, need.kind.update, need.kind.span)
    return any(t.fid == need.fid and kind_covers(t.kind, need.kind) for t in held)


def helps_cover(token, need):
    """run_rules, HostLeaves"""
    if token.fid != need.fid:
        return False
    a, b = token.kind, need.kind
    if isinstance(a, Bytes) and isinstance(b, Bytes):
        return does_for(a.update, b.update) and overlap(a.span, b.span)
    return kind_covers(a, b)


# need_host, Shows
def shows(kind, part):
    if isinstance(kind, Bytes):
        if part == ENTRIES:
            return has_byte(kind.span, 0)
        return isinstance(part, tuple) and has_byte(kind.span, part[1])
    if isinstance(kind, Status):
        return part in (SIZE, TRAITS)
    return False


# verdicts (need_host, Calls)
@word
class Replies:
    reply: tuple


@word
class Writes:
    fid: Fid
    start: int
    bytes: bytes


@word
class Locks:
    fid: Fid
    writing: bool
    span: Span


@word
class Opens:
    fid: Fid
    kind: str


@word
class Frees:
    pass


@word
class Gives:
    pass


@word
class Asks:
    question: tuple     # ("enter", server) ("in", fileset) ("at", server)


def reply_now(verdict):
    if isinstance(verdict, Replies):
        return verdict.reply
    if isinstance(verdict, (Gives, Asks)):
        return None
    return OK


class LockUse(NamedTuple):
    host: int
    label: bytes
    fid: Fid
    writing: bool
    span: Span


class OpenUse(NamedTuple):
    host: int
    label: bytes
    fid: Fid
    kind: str


class Own:
    """What a host knows of itself: sets of LockUse and OpenUse, and functions."""

    def __init__(self, locks, opens, gives_lock, gives_open, is_clean, seen):
        self.locks, self.opens = locks, opens
        self.gives_lock, self.gives_open = gives_lock, gives_open
        self.is_clean, self.seen = is_clean, seen


def rounded(start, to):
    return span_between(start // TOKEN_BYTES * TOKEN_BYTES, (to + 1023) // TOKEN_BYTES * TOKEN_BYTES)


def kind_for(part):
    if part == ENTRIES:
        return Bytes(False, WHOLE)
    if part in (SIZE, TRAITS):
        return Status(False)
    return Bytes(False, rounded(part[1], part[1] + 1))


class Walk:
    """A look that is being made on a view: what is seen is noted as needs, in order."""

    def __init__(self, view):
        self.view = view
        self.needs = []

    def need(self, need):
        if not self.needs or self.needs[-1] != need:
            self.needs.append(need)

    def look(self, fid, part):
        self.need(Need(fid, kind_for(part)))
        return self.view(fid, part)

    def bytes(self, fid, start, to):
        """A look at each, one after the other"""
        for at in range(start // TOKEN_BYTES * TOKEN_BYTES, to if start < to else 0, TOKEN_BYTES):
            self.need(Need(fid, kind_for(byte_at(at))))
        return bytes(self.view(fid, byte_at(at)) for at in range(start, to))

    def nature(self, fid):
        nature = self.look(fid, TRAITS)
        return nature if nature is not None else no("no-entry")

    def permitted(self, nature, user, right, letter):
        if not rights_on(nature, user) & right:
            no("denied " + letter)

    def search(self, user, fid, nature):
        if not nature.dir:
            no("not-dir")
        self.permitted(nature, user, base.X, "x")
        return self.look(fid, ENTRIES)

    def walk(self, user, fid, path):
        for name in path:
            nature = self.nature(fid)
            entries = self.search(user, fid, nature)
            entry = next((e for e in entries if e.name == name), None)
            if entry is None:
                no("no-entry")
            fid = Fid(fid.fileset, entry.anode, entry.unique)
        return fid

    def target(self, user, root, path):
        fid = self.walk(user, root, path)
        return fid, self.nature(fid)

    def file(self, user, root, path):
        fid, nature = self.target(user, root, path)
        if nature.dir:
            no("is-dir")
        return fid, nature

    def permitted_file(self, user, root, path, right, letter):
        fid, nature = self.file(user, root, path)
        self.permitted(nature, user, right, letter)
        return fid, nature

    def use(self, user, root, path, changing, right, letter):
        fid, nature = self.file(user, root, path)
        if changing and nature.read_only:
            no("read-only")
        self.permitted(nature, user, right, letter)
        return fid


def rights_on(nature, user):
    return rights_of(nature.lists[0], nature.owner, nature.group, user) if nature.lists else 0


def open_right(kind):
    return {"reading": (base.R, "r"), "shared": (base.R, "r"), "executing": (base.X, "x")}.get(kind, (base.W, "w"))


def is_changing(kind):
    return kind in ("writing", "exclusive")


CHANGES_IN = (Create, MakeDir, Remove, Truncate, SetAcl)


def call_look(own, host, user, call, view):
    """(needs, verdict): needs_of and outcome of need_host's call_look, made on a view."""
    w = Walk(view)
    try:
        verdict = _look(w, own, host, user, call)
    except Refusal as why:
        verdict = Replies(refused(why.args[0]))
    return tuple(w.needs), verdict


def _root(own, server, name):
    found = own.seen(server, name)
    return None if found is None else root_of(found)


def _look(w, own, host, user, call):
    if isinstance(call, (NewFileset, CloneFileset)):
        return Asks(("at", call.server))
    if isinstance(call, MoveFileset):
        root = _root(own, call.server, call.fileset)
        return Asks(("enter", call.server)) if root is None else Asks(("in", root.fileset))
    if isinstance(call, Unlock):
        if not any(u.label == call.label for u in own.locks):
            no("not-locked")
        return Gives() if own.gives_lock(call.label) else Frees()
    if type(call).__name__ == "CloseFile":
        if not any(u.label == call.label for u in own.opens):
            no("not-opened")
        return Gives() if own.gives_open(call.label) else Frees()
    if isinstance(call, Lock):
        if any(u.label == call.label for u in own.locks):
            no("already-locked")
        if len(own.locks) >= LABELS_MAX:
            no("too-many")
    if isinstance(call, OpenFile):
        if any(u.label == call.label for u in own.opens):
            no("already-opened")
        if len(own.opens) >= LABELS_MAX:
            no("too-many")
    place = call.source if isinstance(call, Rename) else call.place
    root = _root(own, place.server, place.fileset)
    if root is None:
        return Asks(("enter", place.server))
    if isinstance(call, CHANGES_IN) or isinstance(call, Rename):
        return Asks(("in", root.fileset))
    path = place.path
    if isinstance(call, Read):
        fid, nature = w.permitted_file(user, root, path, base.R, "r")
        size = w.look(fid, SIZE)
        n = min(call.len, max(0, size - call.start))
        return Replies(("bytes", w.bytes(fid, call.start, call.start + n)))
    if isinstance(call, Write):
        if w.nature(root).read_only:
            no("read-only")
        fid, nature = w.permitted_file(user, root, path, base.W, "w")
        end = call.start + len(call.bytes)
        if end > FILE_BYTES_MAX:
            no("too-big")
        if not call.bytes:
            return Replies(OK)
        size = w.look(fid, SIZE)
        if size < end:
            w.need(Need(fid, Status(True)))
            w.need(Need(fid, Bytes(True, rounded(min(call.start, size), end))))
        else:
            w.need(Need(fid, Bytes(True, rounded(call.start, end))))
        return Writes(fid, call.start, call.bytes)
    if isinstance(call, List):
        fid, nature = w.target(user, root, path)
        if not nature.dir:
            no("not-dir")
        w.permitted(nature, user, base.R, "r")
        return Replies(("names", tuple(e.name for e in w.look(fid, ENTRIES))))
    if isinstance(call, Stat):
        fid, nature = w.target(user, root, path)
        size = w.look(fid, SIZE)
        return Replies(("facts", nature.dir, min(size, 4294967295), nature.owner, rights_on(nature, user)))
    if isinstance(call, GetAcl):
        fid, nature = w.target(user, root, path)
        at = base.WHICH.index(call.which)
        if at >= len(nature.lists):
            no("not-dir")
        return Replies(("access", tuple(nature.lists[at])))
    if isinstance(call, Sync):
        fid, nature = w.file(user, root, path)
        return Replies(OK) if own.is_clean(fid) else Gives()
    if isinstance(call, Lock):
        right, letter = (base.W, "w") if call.writing else (base.R, "r")
        fid = w.use(user, root, path, call.writing, right, letter)
        end = call.start + call.len
        span = span_between(call.start, end)
        if end > FILE_BYTES_MAX:
            no("too-big")
        if any(u.host == host and u.fid == fid and overlap(u.span, span) for u in own.locks):
            no("already-locked")
        w.need(Need(fid, LockTok(call.writing, span)))
        return Locks(fid, call.writing, span)
    if isinstance(call, OpenFile):
        right, letter = open_right(call.kind)
        fid = w.use(user, root, path, is_changing(call.kind), right, letter)
        w.need(Need(fid, Opening(call.kind)))
        return Opens(fid, call.kind)
    raise TypeError(call)


def finds_file(own, user, place, view):
    """(needs, fid) of the walk of a Sync, or None where its fileset isn't seen or it finds no file."""
    root = _root(own, place.server, place.fileset)
    if root is None:
        return None
    w = Walk(view)
    try:
        fid, _ = w.file(user, root, place.path)
    except Refusal:
        return None
    return tuple(w.needs), fid


def numbered_under(question):
    return question[1] if question[0] == "in" else 0


def fileset_of(call):
    """The server and the name by which a call says its fileset, or None."""
    if isinstance(call, (NewFileset, CloneFileset, Unlock)) or type(call).__name__ == "CloseFile":
        return None
    if isinstance(call, MoveFileset):
        return call.server, call.fileset
    place = call.source if isinstance(call, Rename) else call.place
    return place.server, place.fileset


# need_server
def all_of(update, fid):
    return (Need(fid, Status(update)), Need(fid, Bytes(update, WHOLE)))


def every_use_of(fid):
    return (Need(fid, LockTok(True, WHOLE)), Need(fid, Opening("exclusive")))


def use_of(fileset, anode):
    return Fid(fileset.id, anode, fileset.unique[anode])


def want(tree, user, call):
    """What is wanted for a call on the kept filesets; nothing where it is refused."""
    try:
        return tuple(_want(tree, user, call))
    except Refusal:
        return ()


def _parent(fileset, user, path, right):
    at = fileset.walk_parent(user, path)
    if not can(fileset.objects[at], user) & right:
        no("denied")
    return at


def _want(tree, user, c):
    if isinstance(c, CloneFileset):
        source = tree.fileset(base.Place(c.server, c.fileset, ()))
        if source.read_only:
            no("read-only")
        if not can(source.objects[1], user) & base.C:
            no("denied c")
        return [n for a in sorted(source.objects) if not source.objects[a].is_dir
                for n in all_of(False, use_of(source, a))]
    if isinstance(c, MoveFileset):
        f = tree.fileset(base.Place(c.server, c.fileset, ()))
        if f.read_only:
            no("read-only")
        if not can(f.objects[1], user) & base.C:
            no("denied c")
        return [n for a in sorted(f.objects) for n in all_of(True, use_of(f, a)) + every_use_of(use_of(f, a))]
    named = fileset_of(c)
    if named is None:
        return []
    f = tree.fileset(base.Place(named[0], named[1], ()))
    if isinstance(c, (Create, MakeDir)):
        if f.read_only or not c.place.path:
            no("read-only")
        at = _parent(f, user, c.place.path, base.I)
        if c.place.path[-1] in f.objects[at].entries or f.free_anode() is None:
            no("exists")
        return all_of(True, use_of(f, at))
    if isinstance(c, Remove):
        if f.read_only or not c.place.path:
            no("read-only")
        at = _parent(f, user, c.place.path, base.D)
        last = c.place.path[-1]
        if last not in f.objects[at].entries:
            no("no-entry")
        anode = f.objects[at].entries[last]
        thing = f.objects[anode]
        if thing.is_dir and thing.entries:
            no("not-empty")
        return all_of(True, use_of(f, at)) + all_of(True, use_of(f, anode)) + every_use_of(use_of(f, anode))
    if isinstance(c, Rename):
        if (c.source.server, c.source.fileset) != (c.to.server, c.to.fileset):
            return []
        if f.read_only or not c.source.path or not c.to.path:
            no("read-only")
        old = _parent(f, user, c.source.path, base.D)
        if c.source.path[-1] not in f.objects[old].entries:
            no("no-entry")
        anode = f.objects[old].entries[c.source.path[-1]]
        new = _parent(f, user, c.to.path, base.I)
        if c.to.path[-1] in f.objects[new].entries or tree.below(f, anode, new):
            no("exists")
        return all_of(True, use_of(f, old)) + all_of(True, use_of(f, new))
    if isinstance(c, Truncate):
        if f.read_only:
            no("read-only")
        anode = f.walk(user, c.place.path)
        thing = f.objects[anode]
        if thing.is_dir or not can(thing, user) & base.W or c.length > FILE_BYTES_MAX:
            no("denied w")
        return all_of(True, use_of(f, anode))
    if isinstance(c, SetAcl):
        if f.read_only:
            no("read-only")
        anode = f.walk(user, c.place.path)
        thing = f.objects[anode]
        if (not thing.is_dir and c.which != "list") or not can(thing, user) & base.C:
            no("denied c")
        return [Need(use_of(f, anode), Status(True))]
    if isinstance(c, Lock):
        anode = f.walk(user, c.place.path)
        thing = f.objects[anode]
        if thing.is_dir or (c.writing and f.read_only) or not can(thing, user) & (base.W if c.writing else base.R):
            no("denied")
        if c.start + c.len > FILE_BYTES_MAX:
            no("too-big")
        return [Need(use_of(f, anode), LockTok(c.writing, span_between(c.start, c.start + c.len)))]
    if isinstance(c, OpenFile):
        anode = f.walk(user, c.place.path)
        thing = f.objects[anode]
        if thing.is_dir or (is_changing(c.kind) and f.read_only) or not can(thing, user) & open_right(c.kind)[0]:
            no("denied")
        return [Need(use_of(f, anode), Opening(c.kind))]
    return []
