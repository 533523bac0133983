"""Which messages are sound (message_types, Soundness: IsSound). `unsound(roster, m)` lists the fields that fail."""
from words import (Bytes, Change, CloneFileset, CloseFile, Create, Done, Elsewhere, FILE_BYTES_MAX, Fetch, GiveBack,
                   Gone, Grant, Kept, Known, Lock, LockTok, MakeDir, MoveFileset, NO_FID, NewFileset, OBJECTS_MAX,
                   OpenFile, Reclaim, Reclaimed, Remove, Rename, Returned, Revoke, SetAcl, Status, TO_HOST, TO_SERVER,
                   Truncate, Unlock)


WAYS = {"Hello": TO_SERVER, "Fetch": TO_SERVER, "Grant": TO_HOST, "Change": TO_SERVER, "Done": TO_HOST,
        "Revoke": TO_HOST, "Returned": TO_SERVER, "Kept": TO_SERVER, "GiveBack": TO_SERVER, "Gone": TO_HOST,
        "Reclaim": TO_SERVER, "Reclaimed": TO_HOST, "Restarted": TO_HOST, "Down": TO_SERVER}
NO_MOVES = ("Hello", "Reclaim", "Reclaimed", "Restarted", "Down", "Bye")
GROUPS_MAX = 8


def is_server(roster, server):
    return 1 <= server <= len(roster.capacity)


def is_home(m, fileset):
    return m.moves != 0 or fileset // 65536 == m.server


def is_numbered(m, fileset):
    return fileset == 0 or is_home(m, fileset)


def places_in(call):
    if isinstance(call, Rename):
        return (call.source, call.to)
    place = getattr(call, "place", None)
    return () if place is None else (place,)


def servers_in(call):
    if isinstance(call, (NewFileset, CloneFileset)):
        return (call.server,)
    if isinstance(call, MoveFileset):
        return (call.server, call.to)
    return tuple(p.server for p in places_in(call))


def call_faults(roster, call):
    if not all(is_server(roster, s) for s in servers_in(call)):
        yield "servers"
    if any(len(p.path) > 65535 for p in places_in(call)):
        yield "paths"
    if isinstance(call, NewFileset):
        if not 1 <= call.objects <= OBJECTS_MAX:
            yield "objects"
        if not 1 <= len(call.owner[1]) <= GROUPS_MAX:
            yield "groups"


def is_decided(server, call):
    if isinstance(call, NewFileset):
        return call.server == server
    return isinstance(call, (Create, MakeDir, Remove, Rename, Truncate, SetAcl, CloneFileset, Lock, OpenFile,
                             MoveFileset))


def has_room(kind):
    return kind.span.start < kind.span.to if isinstance(kind, (Bytes, LockTok)) else True


def pieces_faults(pieces):
    if any(a.start + len(a.bytes) > b.start for a, b in zip(pieces, pieces[1:])):
        yield "bytes.order"
    if any(p.start + len(p.bytes) > FILE_BYTES_MAX for p in pieces):
        yield "ends"
    if sum(len(p.bytes) for p in pieces) > FILE_BYTES_MAX:
        yield "together"
    if len(pieces) > 65535:
        yield "count"


def token_faults(m, t):
    if t.host != m.host:
        yield "host"
    if t.id.server != m.server:
        yield "server"
    if not has_room(t.kind):
        yield "room"


def bring_faults(m, b):
    for t in b.tokens:
        yield from token_faults(m, t)
        if t.fid != b.fid:
            yield "file"
        if t.id.epoch != m.epoch:
            yield "epoch"
    if b.tokens and not is_home(m, b.fid.fileset):
        yield "home"


def named_faults(m, fid, ids):
    if not is_home(m, fid.fileset):
        yield "home"
    if any(i.server != m.server for i in ids):
        yield "issued"


def body_faults(roster, m):
    b = m.body
    if isinstance(b, Fetch):
        if not is_home(m, b.fid.fileset):
            yield "home"
        for n in b.needs:
            if n.fid != b.fid:
                yield "file"
            if not isinstance(n.kind, (Bytes, Status)):
                yield "kinds"
            if not has_room(n.kind):
                yield "room"
        if len(b.needs) > 65535:
            yield "count"
    elif isinstance(b, Grant):
        yield from bring_faults(m, b.bring)
        if not is_home(m, b.bring.fid.fileset):
            yield "home"
        if b.status is not None:
            if b.status.length > FILE_BYTES_MAX:
                yield "size"
            if len(b.status.lists) != (3 if b.status.dir else 1):
                yield "lists"
        yield from pieces_faults(b.pieces)
        names = [e.name for e in b.entries]
        if any(not x < y for x, y in zip(names, names[1:])):
            yield "order"
        if len(b.entries) > OBJECTS_MAX:
            yield "few"
        if b.status is None and (b.pieces or b.entries):
            yield "told.absent"
        if b.status is None and b.bring.tokens:
            yield "absent"
        if b.bring.stamp < 1:
            yield "stamp"
    elif isinstance(b, Change):
        if not is_numbered(m, b.fileset):
            yield "fileset"
        yield from call_faults(roster, b.call)
        if not b.enter and not is_decided(m.server, b.call):
            yield "decided"
    elif isinstance(b, Done):
        if not is_numbered(m, b.fileset):
            yield "fileset"
        if isinstance(b.outcome, Known) and not is_home(m, b.outcome.fileset):
            yield "outcome"
        if isinstance(b.outcome, Elsewhere) and not is_server(roster, b.outcome.server):
            yield "outcome"
        yield from bring_faults(m, b.bring)
        if not b.bring.tokens and (b.bring.fid != NO_FID or b.bring.stamp != 0):
            yield "none"
        if b.bring.tokens and b.bring.stamp < 1:
            yield "some"
    elif isinstance(b, (Revoke, Returned, Kept)):
        yield from named_faults(m, b.fid, b.ids)
        if isinstance(b, Revoke) and b.stamp < 1:
            yield "stamp"
    elif isinstance(b, GiveBack):
        g = b.give
        if not is_home(m, g.fid.fileset):
            yield "home"
        if any(not is_server(roster, i.server) for i in g.ids):
            yield "declared"
        if m.moves == 0 and any(i.server != m.server for i in g.ids):
            yield "issued"
        yield from pieces_faults(g.pieces)
        if g.length is not None and g.length > FILE_BYTES_MAX:
            yield "size"
        if g.ends is not None and not isinstance(g.ends.call, (Unlock, CloseFile)):
            yield "ends"
    elif isinstance(b, Gone):
        if not is_home(m, b.applied.fileset):
            yield "home"
    elif isinstance(b, Reclaim):
        for t in b.tokens:
            yield from token_faults(m, t)
            if not t.id.epoch < m.epoch:
                yield "earlier"
            if not any(o.fileset == t.fid.fileset for o in b.numbers):
                yield "moves"
    elif isinstance(b, Reclaimed):
        if any(i.server != m.server for i in b.left_out):
            yield "left_out"


def unsound(roster, m):
    out = []
    if not m.host <= len(roster.hosts):
        out.append("host")
    if not is_server(roster, m.server):
        out.append("server")
    way = WAYS.get(type(m.body).__name__)
    if m.direction not in (TO_SERVER, TO_HOST) or (way is not None and m.direction != way):
        out.append("way")
    if type(m.body).__name__ in NO_MOVES and m.moves != 0:
        out.append("moves")
    number = getattr(getattr(m.body, "give", m.body), "number", 1)
    if number < 1:
        out.append("number")
    return out + list(dict.fromkeys(body_faults(roster, m)))
