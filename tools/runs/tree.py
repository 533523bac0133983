"""The file tree as a value (crates tree_answers, tree_laws): the oracle's tree and call table, never changed in place.

    new_tree(roster)                    the tree without filesets
    answer_to(tree, host, call)         (reply, tree after it); a tree is never changed
    stored_tree, may_store, down_tree, losses_of, tree_given, kept_first, kept_part
    cell(tree, fid, part)               (kept value, None or (writer, value)); parts: byte_at(n), SIZE, TRAITS, ENTRIES
    tree_view(tree), kept_view(tree)    functions fid, part -> value

So far no fileset moves: MoveFileset is answered by the call table, but a tree in which one has moved isn't made.
"""
from typing import NamedTuple

from words import DirEntry, from_json, is_refusal, named, to_json
from dfs_oracle import base, tree as oracle
from dfs_oracle.tree import Dir, File, Fileset, no

FILESETS_MAX = 16
SIZE, TRAITS, ENTRIES = "size", "traits", "entries"


def byte_at(n):
    return ("byte", n)


@named
class Nature(NamedTuple):
    dir: bool
    read_only: bool
    owner: bytes
    group: bytes
    lists: tuple


READERS = {"Read", "List", "Stat", "GetAcl"}


class Tree(oracle.Tree):
    def __init__(self, roster):
        super().__init__(len(roster.capacity), list(roster.users), list(roster.hosts), roster.capacity)
        self.roster = roster
        self._answers = {}
        self._by_id = None

    def twin(self, deep=()):
        """A copy that shares all filesets but those named in deep ((server, name) pairs)."""
        t = Tree.__new__(Tree)
        t.servers, t.users, t.hosts, t.capacity, t.roster = (
            self.servers, self.users, self.hosts, self.capacity, self.roster)
        t.next = dict(self.next)
        t.at = {s: dict(d) for s, d in self.at.items()}
        t.locks, t.opens = dict(self.locks), dict(self.opens)
        t._answers, t._by_id = {}, None
        for server, name in deep:
            if name in t.at.get(server, {}):
                t.at[server][name] = copy_fileset(t.at[server][name])
        return t

    def movefileset(self, host, user, c):
        """tree_answers, Moving: move_target."""
        fileset = self.at[c.server].get(c.fileset)
        if fileset is None:
            no("no-fileset")
        if fileset.read_only:
            no("read-only")
        if not oracle.can(fileset.objects[1], user) & base.C:
            no("denied c")
        if fileset.server == c.to:
            no("exists")
        if any(u[0] == fileset.id for uses in (self.locks, self.opens) for u in uses.values()):
            no("in-use")
        if fileset.name in self.at[c.to]:
            no("exists")
        if len(self.at[c.to]) >= FILESETS_MAX:
            no("too-many")
        if sum(f.promise() for f in self.at[c.to].values()) + fileset.promise() > self.capacity[c.to]:
            no("no-room")
        self.moved = True       # no such tree is made so far

    def sync(self, host, user, c):
        """tree_objects, Stores: content_synced; bytes past the length that becomes kept stay unsaved."""
        thing = self.file(user, c.place, False)
        length = thing.tall_of(host)
        end = len(thing.kept) if length is None else length
        spans = [(a, min(b, end)) for a, b in thing.spans(host) if a < end]
        if spans or length is not None:
            thing.stored(host, spans, length)

    def by_id(self, fileset):
        if self._by_id is None:
            self._by_id = {f.id: f for d in self.at.values() for f in d.values()}
        return self._by_id.get(fileset)


def copy_object(thing):
    if thing.is_dir:
        twin = Dir(thing.owner, thing.group, *thing.lists)
        twin.entries = dict(thing.entries)
        return twin
    twin = File(thing.owner, thing.group, thing.lists[0])
    twin.kept, twin.who, twin.new = bytearray(thing.kept), bytearray(thing.who), bytearray(thing.new)
    twin.tall = thing.tall
    return twin


def copy_fileset(f):
    twin = Fileset(f.server, f.id, f.name, f.read_only, f.limit)
    twin.unique = list(f.unique)
    twin.objects = {a: copy_object(o) for a, o in f.objects.items()}
    return twin


def new_tree(roster):
    return Tree(roster)


def settled_reply(reply):
    return (reply[0], tuple(reply[1])) if reply[0] in ("names", "access") else tuple(reply)


def answer_to(tree, host, call):
    """tree_answers, Answers: answer_to, for declared hosts."""
    key = (host, call)
    found = tree._answers.get(key)
    if found is None:
        name = type(call).__name__
        if name in READERS:
            reply = tree.answer(host, call)
            found = (settled_reply(reply), tree)
        else:
            places = [p for p in (getattr(call, "place", None), getattr(call, "source", None)) if p is not None]
            t = tree.twin([(p.server, p.fileset) for p in places])
            reply = settled_reply(t.answer(host, call))
            found = (reply, tree if is_refusal(reply) else t)
        tree._answers[key] = found
    return found


# cells
def object_of(tree, fid):
    """(fileset, object), or None: the object that a fid names."""
    fileset = tree.by_id(fid.fileset)
    if fileset is None or not 1 <= fid.anode <= fileset.limit or fileset.unique[fid.anode] != fid.unique:
        return None
    thing = fileset.objects.get(fid.anode)
    return None if thing is None else (fileset, thing)


def nature_of(fileset, thing):
    return Nature(thing.is_dir, fileset.read_only, thing.owner, thing.group, tuple(thing.lists))


def entries_of(fileset, thing):
    return tuple(DirEntry(n, a, fileset.unique[a]) for n, a in sorted(thing.entries.items())) if thing.is_dir else ()


def cell(tree, fid, part):
    found = object_of(tree, fid)
    if found is None:
        return ({SIZE: 0, TRAITS: None, ENTRIES: ()}.get(part, 0), None)
    fileset, thing = found
    if part == TRAITS:
        return nature_of(fileset, thing), None
    if part == ENTRIES:
        return entries_of(fileset, thing), None
    if part == SIZE:
        if thing.is_dir:
            return len(thing.entries), None
        return len(thing.kept), None if thing.tall is None else (thing.tall[1], thing.tall[0])
    at = part[1]
    if thing.is_dir:
        return 0, None
    kept = thing.kept[at] if at < len(thing.kept) else 0
    if at < len(thing.who) and thing.who[at]:
        return kept, (thing.who[at] - 1, thing.new[at])
    return kept, None


def tree_view(tree):
    def view(fid, part):
        kept, unsaved = cell(tree, fid, part)
        return kept if unsaved is None else unsaved[1]
    return view


def kept_view(tree):
    return lambda fid, part: cell(tree, fid, part)[0]


def is_file(tree, fid):
    found = object_of(tree, fid)
    return found is not None and not found[1].is_dir


def takes_gifts(tree, fid):
    """run_rules, Kept"""
    fileset = tree.by_id(fid.fileset)
    return fileset is not None and not fileset.read_only and is_file(tree, fid)


def byte_of(pieces, at):
    """run_rules, Told: the byte that pieces have at a position, or None."""
    for p in pieces:
        if p.start <= at < p.start + len(p.bytes):
            return p.bytes[at - p.start]
    return None


def tree_given(tree, fid, pieces, given):
    """run_rules, Kept: what a give-back leaves of the kept filesets."""
    if not takes_gifts(tree, fid):
        return tree
    fileset = tree.by_id(fid.fileset)
    t = tree.twin([(fileset.server, fileset.name)])
    thing = t.at[fileset.server][fileset.name].objects[fid.anode]
    size = len(thing.kept) if given is None else max(len(thing.kept), given)
    thing.kept.extend(bytes(size - len(thing.kept)))
    for p in reversed(pieces):      # of two pieces the first one counts
        end = min(p.start + len(p.bytes), size)
        if p.start < end:
            thing.kept[p.start:end] = p.bytes[:end - p.start]
    return t


# stores and losses (tree_answers, Stores and Losses; tree_objects, Stores)
def may_store(tree, host, fid, spans, length):
    found = object_of(tree, fid)
    if found is None or found[1].is_dir:
        return False
    thing = found[1]
    kept = len(thing.kept)
    if length is not None:
        if not kept <= length <= thing.length():
            return False
        if length != kept and not (thing.tall is not None and thing.tall[1] == host):
            return False
    end = kept if length is None else length
    for a, b in spans:
        if a < b and (b > end or thing.who[a:b] != bytes([host + 1]) * (b - a)):
            return False
    return True


def stored_tree(tree, host, fid, spans, length):
    """Of a store that may be made."""
    fileset = tree.by_id(fid.fileset)
    t = tree.twin([(fileset.server, fileset.name)])
    thing = t.at[fileset.server][fileset.name].objects[fid.anode]
    thing.stored(host, [tuple(s) for s in spans if s[0] < s[1]], length)
    return t


def down_tree(tree, host, server):
    """(losses, tree)."""
    t = tree.twin([(server, name) for name in tree.at[server]])
    losses = tuple(t.down(host, server))
    return losses, t


# what servers keep
def kept_first(start, server):
    t = start.twin()
    t.at = {s: (dict(d) if s == server else {}) for s, d in start.at.items()}
    t.locks, t.opens = {}, {}
    return t


def picture(fileset, kept_only):
    objects = []
    for a in sorted(fileset.objects):
        o = fileset.objects[a]
        if o.is_dir:
            body = ("dir", tuple(sorted(o.entries.items())))
        elif kept_only:
            body = ("file", bytes(o.kept))
        else:
            body = ("file", bytes(o.kept), bytes(o.who), bytes(o.new), o.tall)
        objects.append((a, o.owner, o.group, tuple(o.lists), body))
    return (fileset.server, fileset.id, fileset.name, fileset.read_only, fileset.limit, tuple(fileset.unique),
            tuple(objects))


def kept_part(tree, server):
    """What is kept of the filesets of a server, and the number of its next one."""
    return (tree.next[server], tuple(picture(f, True) for f in tree.filesets(server)))


def is_at_rest(tree):
    return not tree.locks and not tree.opens and all(
        o.is_dir or (not o.who and o.tall is None)
        for d in tree.at.values() for f in d.values() for o in f.objects.values())


# JSON
def tree_to_json(tree):
    def thing(o):
        if o.is_dir:
            return {"owner": to_json(o.owner), "group": to_json(o.group), "lists": to_json(tuple(o.lists)),
                    "entries": [[to_json(n), a] for n, a in sorted(o.entries.items())]}
        return {"owner": to_json(o.owner), "group": to_json(o.group), "lists": to_json(tuple(o.lists)),
                "kept": to_json(bytes(o.kept))}
    return {"next": [tree.next[s] for s in range(1, tree.servers + 1)],
            "filesets": [{"server": f.server, "id": f.id, "name": to_json(f.name), "read_only": f.read_only,
                          "limit": f.limit, "unique": list(f.unique),
                          "objects": [[a, thing(o)] for a, o in sorted(f.objects.items())]}
                         for s in range(1, tree.servers + 1) for f in tree.filesets(s)]}


def tree_from_json(value, roster):
    tree = Tree(roster)
    tree.next = dict(enumerate(value["next"], 1))
    for v in value["filesets"]:
        f = Fileset(v["server"], v["id"], from_json(v["name"]), v["read_only"], v["limit"])
        f.unique = list(v["unique"])
        for a, o in v["objects"]:
            lists = from_json(o["lists"])
            if "entries" in o:
                thing = Dir(from_json(o["owner"]), from_json(o["group"]), *lists)
                thing.entries = {from_json(n): at for n, at in o["entries"]}
            else:
                thing = File(from_json(o["owner"]), from_json(o["group"]), lists[0])
                thing.kept = bytearray(from_json(o["kept"]))
            f.objects[a] = thing
        tree.at[f.server][f.name] = f
    return tree
