"""The words of journals: calls, tokens, messages, steps, scripts (of the crates tree_calls, token_types, message_types,
run_rules, script_lines) as plain Python data.

Everything here is immutable and hashable; lists are TUPLES.  Two values are equal exactly where they are of one
class and their fields are equal (so `Returned(f, i) != Kept(f, i)`), but for the NamedTuples below, which only stand
where their class is known.

Plain values
    HostId, ServerId, FilesetId   int; host 0 is the setup host c0, host 17 (EXPORTER) stands for a server's exporter;
                                  a fileset is server * 65536 + number
    node                          ("c", host) or ("s", server), as in dfs_oracle
    names, labels, flags          bytes
    user                          (name, (group, ..)), as in dfs_oracle
    access list                   tuple of (who, name or None, rights), as in dfs_oracle
    open kind, which              strings of dfs_oracle.base.OPEN_KINDS, WHICH
    reply                         tuples of dfs_oracle.tree: ("ok",) ("bytes", b) ("names", (n, ..))
                                  ("facts", is_dir, length, owner, rights) ("access", list) ("refused", text);
                                  use `refused(text)`; texts are the words of scripts: "no-entry", "denied w", "locked",
                                  "open-conflict", "in-use", "no-fileset", ..
    calls                         the classes below: same names and fields as in dfs_oracle.base, but compared by class

A step (`Step`) has all fields of run_rules::Step; those that don't apply are None or ().  `bare(node, cause)` is a
step in which nothing happens.  Order within a list counts where the Rattle text says so (`sent`, `applied`).

A journal is `Journal(script, start, epochs, steps)`: the script, the tree at the start (tree.py), the epoch in which
each server starts, and all steps of all nodes, the OLDEST first.  rules.check(journal) says which rules each step
breaks.  write_journal / read_journal: JSON lines (README.md).
"""
import json
import os
import sys
from dataclasses import dataclass, fields, is_dataclass, replace
from typing import NamedTuple

ORACLE = os.path.dirname(os.path.abspath(__file__))
if ORACLE not in sys.path:
    sys.path.insert(0, ORACLE)

EXPORTER = 17
SETUP = 0
FILE_BYTES_MAX = 65536
TOKEN_BYTES = 1024
LABELS_MAX = 64
OBJECTS_MAX = 64
HOSTS_MAX = 16
CACHED_TOKENS_DEFAULT = 64

_CLASSES = {}


def word(cls):
    """A frozen dataclass whose hash is computed once."""
    cls = dataclass(frozen=True)(cls)
    names = tuple(f.name for f in fields(cls))

    def hashed(self, _names=names, _tag=cls.__name__):
        found = self.__dict__.get("_hash")
        if found is None:
            found = hash((_tag,) + tuple(getattr(self, n) for n in _names))
            object.__setattr__(self, "_hash", found)
        return found

    def equal(self, other, _names=names):
        if self is other:
            return True
        if self.__class__ is not other.__class__:
            return NotImplemented
        if hash(self) != hash(other):
            return False
        return all(getattr(self, n) == getattr(other, n) for n in _names)
    cls.__hash__ = hashed
    cls.__eq__ = equal
    _CLASSES[cls.__name__] = cls
    return cls


def named(cls):
    _CLASSES[cls.__name__] = cls
    return cls


def change(value, **given):
    """The value with some fields changed (dataclasses and NamedTuples)."""
    return replace(value, **given) if is_dataclass(value) else value._replace(**given)


# ids, spans, places
@named
class Fid(NamedTuple):
    fileset: int
    anode: int
    unique: int


NO_FID = Fid(0, 0, 0)


def root_of(fileset):
    return Fid(fileset, 1, 1)


def home(fileset):
    """The server at which a fileset was made, where it is for now (run_rules, Places: home, place)."""
    return fileset // 65536


@named
class Span(NamedTuple):
    start: int      # `from` in Rattle
    to: int


def span_between(start, to):
    """tree_objects, Spans: cut at the last byte that a file can have."""
    to = min(to, FILE_BYTES_MAX)
    return Span(min(start, to), to)


WHOLE = span_between(0, FILE_BYTES_MAX)


@named
class Place(NamedTuple):
    server: int
    fileset: bytes
    path: tuple


# calls: fields as in dfs_oracle.base
@word
class NewFileset:
    server: int
    name: bytes
    objects: int
    owner: tuple


@word
class Create:
    place: Place


@word
class MakeDir:
    place: Place


@word
class Remove:
    place: Place


@word
class Rename:
    source: Place
    to: Place


@word
class Truncate:
    place: Place
    length: int


@word
class SetAcl:
    place: Place
    which: str
    list: tuple


@word
class CloneFileset:
    server: int
    fileset: bytes
    new: bytes


@word
class Read:
    place: Place
    start: int
    len: int


@word
class Write:
    place: Place
    start: int
    bytes: bytes


@word
class List:
    place: Place


@word
class Stat:
    place: Place


@word
class GetAcl:
    place: Place
    which: str


@word
class Sync:
    place: Place


@word
class Lock:
    label: bytes
    place: Place
    writing: bool
    start: int
    len: int


@word
class Unlock:
    label: bytes


@word
class OpenFile:
    label: bytes
    place: Place
    kind: str


@word
class CloseFile:
    label: bytes


@word
class MoveFileset:
    server: int
    fileset: bytes
    to: int


OK = ("ok",)


def refused(text):
    return ("refused", text)


def is_refusal(reply):
    return reply[0] == "refused"


# tokens
@named
class TokenId(NamedTuple):
    server: int
    epoch: int
    seq: int


@word
class Bytes:
    update: bool
    span: Span


@word
class Status:
    update: bool


@word
class LockTok:
    """Kind::Lock of token_types."""
    writing: bool
    span: Span


@word
class Opening:
    kind: str


@word
class Token:
    id: TokenId
    host: int
    fid: Fid
    kind: object


@word
class Need:
    fid: Fid
    kind: object


def need_of(token):
    return Need(token.fid, token.kind)


# parts that travel
@named
class Piece(NamedTuple):
    start: int
    bytes: bytes


@named
class DirEntry(NamedTuple):
    name: bytes
    anode: int
    unique: int


@word
class StatusOf:
    """tree_calls::Status: what a Grant tells of an object."""
    dir: bool
    read_only: bool
    length: int
    owner: bytes
    group: bytes
    lists: tuple        # one access list of a file, three of a directory


# messages
@word
class Hello:
    pass


@word
class Fetch:
    """Body::Fetch, and Request::Fetch."""
    number: int
    fid: Fid
    needs: tuple


@word
class Bring:
    number: int
    fid: Fid
    stamp: int
    tokens: tuple


@word
class Grant:
    bring: Bring
    status: object = None       # StatusOf, or None where the object isn't there (or isn't told)
    pieces: tuple = ()
    entries: tuple = ()


@word
class Change:
    """Body::Change, and Request::Change."""
    number: int
    fileset: int
    fid: Fid
    enter: bool
    k: int
    call: object


@word
class HasReply:
    """DoneIs::Reply"""
    reply: tuple


@word
class Known:
    fileset: int


@word
class Granted:
    """DoneIs::Granted: the token is granted"""


@word
class Again:
    pass


@word
class Elsewhere:
    server: int


@word
class Done:
    """Body::Done"""
    fileset: int
    outcome: object
    bring: Bring        # Bring(number, NO_FID, 0, ()) where it brings no token


@word
class Revoke:
    fid: Fid
    stamp: int
    ids: tuple


@word
class Returned:
    """Body::Returned(Named { fid, ids })"""
    fid: Fid
    ids: tuple


@word
class Kept:
    """Body::Kept(Named { fid, ids })"""
    fid: Fid
    ids: tuple


@word
class Ends:
    """The call that a give-back ends"""
    k: int
    call: object


@word
class Give:
    number: int
    fid: Fid
    ids: tuple
    pieces: tuple = ()
    length: object = None
    ends: object = None         # Ends, or None


@named
class GiveNo(NamedTuple):
    """AppliedGive: by which a give-back is known (number_of)."""
    fileset: int
    number: int


def number_of(give):
    return GiveNo(give.fid.fileset, give.number)


@word
class GiveBack:
    give: Give


@word
class Gone:
    applied: GiveNo


@word
class Outstanding:
    fileset: int
    moves: int
    give: int
    change: int


@word
class Reclaim:
    tokens: tuple
    numbers: tuple              # of Outstanding


@word
class Reclaimed:
    applied: tuple = ()         # of GiveNo
    left_out: tuple = ()        # of TokenId


@word
class Restarted:
    pass


@word
class Down:
    pass


@word
class Bye:
    pass


TO_SERVER, TO_HOST = "to_server", "to_host"
KINDS = {"Hello": 1, "Fetch": 2, "Grant": 3, "Change": 4, "Done": 5, "Revoke": 6, "Returned": 7, "Kept": 8,
         "GiveBack": 9, "Gone": 10, "Reclaim": 11, "Reclaimed": 12, "Restarted": 13, "Down": 14, "Bye": 15}


@word
class Message:
    direction: str              # TO_SERVER or TO_HOST
    host: int
    server: int
    epoch: int
    moves: int
    body: object


def to_server(host, server, epoch, body, moves=0):
    return Message(TO_SERVER, host, server, epoch, moves, body)


def to_host(host, server, epoch, body, moves=0):
    return Message(TO_HOST, host, server, epoch, moves, body)


def kind_of(body):
    return KINDS[type(body).__name__]


def sender(m):
    return ("c", m.host) if m.direction == TO_SERVER else ("s", m.server)


def receiver(m):
    return ("s", m.server) if m.direction == TO_SERVER else ("c", m.host)


def resender(m):
    """run_rules, Ends: who sends again where the message is lost."""
    if isinstance(m.body, (Revoke, Returned, Kept, Restarted)):
        return ("s", m.server)
    return ("c", m.host)


# causes of steps
@word
class LineOf:
    """Cause::Line(number): the node's next line, which isn't `restart`"""
    number: int


@word
class RestartAt:
    """Cause::Restart(number): the server's next line, which is `restart`"""
    number: int


@word
class Came:
    """Cause::Message"""
    message: Message


@word
class Freight:
    """Cause::Freight: a message of another server came"""
    message: Message


@word
class Lapse:
    pass


@word
class Evict:
    pass


@word
class End:
    pass


@word
class Flushed:
    pass


# steps
REVOKED, EVICTED, ASKED, ENDED, STOPPED = "revoked", "evicted", "asked", "ended", "stopped"


@word
class Leave:
    token: Token
    why: str


@word
class Answer:
    host: int
    k: int
    call: object
    reply: tuple
    first: bool


@word
class Asked:
    k: int
    call: object


@word
class Labelled:
    label: bytes
    token: Token


# what a server applies: Stored, EndsCall, IsDown by the cause; then Wanted, Written
@word
class Stored:
    host: int
    fid: Fid
    spans: tuple
    length: object


@word
class EndsCall:
    """Applied::Ends"""
    answer: Answer


@word
class IsDown:
    host: int


@word
class Wanted:
    """Applied::Wants(Wanted)"""
    host: int
    request: object     # Fetch or Change
    moves: int
    needs: tuple


@word
class Written:
    """Applied::Done(Written)"""
    fileset: int
    number: int
    answer: Answer


@word
class Admission:
    host: int
    tokens: tuple


@word
class Step:
    node: tuple
    cause: object
    asked: object = None
    taken: tuple = ()
    answers: tuple = ()
    wrote: object = None
    begun: tuple = ()
    made: tuple = ()
    dropped: tuple = ()
    applied: tuple = ()
    admitted: tuple = ()
    sent: tuple = ()
    shipped: tuple = ()
    reserved: tuple = ()


def bare(node, cause):
    return Step(node, cause)


# scripts
@word
class MakesCall:
    call: object


@word
class Raise:
    flag: bytes


@word
class Await:
    flag: bytes


@word
class Stop:
    pass


@word
class Restart:
    pass


@word
class Line:
    number: int
    node: tuple
    deed: object


@word
class PlanLine:
    deed: str               # "drop", "hold", "again"
    source: tuple           # `from` in Rattle
    to: tuple
    kind: int               # KINDS
    n: int
    flag: object            # bytes or None


@named
class Net(NamedTuple):
    seed: int
    losses: int
    repeats: int
    delays: int


@word
class Roster:
    users: tuple            # of (name, groups)
    hosts: tuple            # of (place in users, limit)
    capacity: tuple


@word
class Script:
    servers: int
    roster: Roster
    setup: tuple            # of Line of ("c", 0)
    plan: tuple
    net: object
    lines: tuple


class Journal:
    """script: Script; start: tree.Tree; epochs: tuple, by server from 1; steps: list of Step, the oldest first."""

    def __init__(self, script, start, epochs, steps):
        self.script, self.start, self.epochs, self.steps = script, start, tuple(epochs), list(steps)

    def with_steps(self, steps):
        return Journal(self.script, self.start, self.epochs, steps)


# roster and lines (tree_calls, Rosters; run_rules, Lines)
ADMIN = (b"admin", (b"admin",))


def user_of(roster, host):
    if host == 0:
        return ADMIN
    if not 1 <= host <= len(roster.hosts):
        return None
    at = roster.hosts[host - 1][0]
    return roster.users[at] if at < len(roster.users) else None


def lines_of(script, node):
    if node == ("c", 0):
        return script.setup
    return tuple(x for x in script.lines if x.node == node)


def servers_of(roster):
    return tuple(range(1, len(roster.capacity) + 1))


def hosts_of(roster):
    return tuple(range(0, len(roster.hosts) + 1))


def limit_of(roster, host):
    if host == 0 or host > len(roster.hosts):
        return CACHED_TOKENS_DEFAULT
    return roster.hosts[host - 1][1]


def first_epoch(epochs, server):
    return max(1, epochs[server - 1] if server - 1 < len(epochs) else 1)


# JSON
def to_json(value):
    if value is None or isinstance(value, (bool, int, str)):
        return value
    if isinstance(value, (bytes, bytearray)):
        return {"b": bytes(value).decode("latin-1")}
    name = type(value).__name__
    if is_dataclass(value):
        return {"_": name, **{f.name: to_json(getattr(value, f.name)) for f in fields(value)
                              if f.name == "node" or getattr(value, f.name) != f.default}}
    if hasattr(value, "_fields"):
        return {"_": name, **{f: to_json(getattr(value, f)) for f in value._fields}}
    if isinstance(value, (tuple, list)):
        return [to_json(v) for v in value]
    raise TypeError(name)


def from_json(value):
    if isinstance(value, list):
        return tuple(from_json(v) for v in value)
    if isinstance(value, dict):
        if "_" not in value:
            return value["b"].encode("latin-1")
        return _CLASSES[value["_"]](**{k: from_json(v) for k, v in value.items() if k != "_"})
    return value


def write_journal(path, journal):
    """JSON lines: the head (script, start, epochs), then a step a line."""
    from tree import tree_to_json
    with open(path, "w") as out:
        head = {"script": to_json(journal.script), "start": tree_to_json(journal.start),
                "epochs": list(journal.epochs)}
        out.write(json.dumps(head, separators=(",", ":")) + "\n")
        for step in journal.steps:
            out.write(json.dumps(to_json(step), separators=(",", ":")) + "\n")


def read_journal(path):
    from tree import tree_from_json
    with open(path) as source:
        head = json.loads(source.readline())
        steps = [from_json(json.loads(line)) for line in source if line.strip()]
    script = from_json(head["script"])
    return Journal(script, tree_from_json(head["start"], script.roster), head["epochs"], steps)
