"""The tree and the call table (docs/CALLS.md); what becomes kept, and what a host that stops loses.

A file keeps its kept bytes.  Its unsaved bytes stand in two arrays by position: `who` has the writer's number plus one,
or 0, and `new` the value, so that there is at most one for each position.
"""
import re

from . import base
from .base import C, D, I, MAX_FILE, MAX_UNIQUE, R, W, X, rights_of

OK = ("ok",)
_RUN = re.compile(rb"[^\0]+")


def refused(what):
    return ("refused", what)


class Refusal(Exception):
    pass


def no(what):
    raise Refusal(what)


class Dir:
    is_dir = True

    def __init__(self, owner, group, own, files, dirs):
        self.owner, self.group = owner, group
        self.entries = {}                   # name: anode
        self.lists = [own, files, dirs]

    def copy_present(self):
        twin = Dir(self.owner, self.group, *self.lists)
        twin.entries = dict(self.entries)
        return twin

    def length(self):
        return len(self.entries)


class File:
    is_dir = False

    def __init__(self, owner, group, own):
        self.owner, self.group = owner, group
        self.lists = [own]
        self.kept = bytearray()
        self.who = bytearray()
        self.new = bytearray()
        self.tall = None                    # the unsaved length and its writer

    def copy_present(self):
        twin = File(self.owner, self.group, self.lists[0])
        twin.kept = bytearray(self.present(0, self.length()))
        return twin

    def length(self):
        return len(self.kept) if self.tall is None else self.tall[0]

    def present(self, start, end):
        """Present bytes; a kept byte past the kept length is zero."""
        out = self.kept[start:end]
        out.extend(bytes(end - start - len(out)))
        for m in _RUN.finditer(self.who[start:end]):
            out[m.start():m.end()] = self.new[start + m.start():start + m.end()]
        return bytes(out)

    def write(self, host, start, data):
        end = start + len(data)
        if len(self.who) < end:
            grown = bytes(end - len(self.who))
            self.who.extend(grown)
            self.new.extend(grown)
        self.who[start:end] = bytes([host + 1]) * len(data)
        self.new[start:end] = data
        if end > self.length():
            self.tall = (end, host)

    def spans(self, host):
        """The maximal spans of the host's unsaved bytes."""
        if host + 1 not in self.who:
            return []
        return [m.span() for m in re.finditer(b"[%s]+" % re.escape(bytes([host + 1])), self.who)]

    def tall_of(self, host):
        return self.tall[0] if self.tall is not None and self.tall[1] == host else None

    def unsaved_by(self, host):
        return host + 1 in self.who or self.tall_of(host) is not None

    def stored(self, host, spans, length):
        """What the host has unsaved there becomes kept: it must be legal."""
        kept = len(self.kept) if length is None else length
        if length is not None:
            assert len(self.kept) <= length <= self.length()
            assert length == len(self.kept) or self.tall[1] == host
        for a, b in spans:
            assert a <= b <= kept and self.who[a:b] == bytes([host + 1]) * (b - a)
        if length is not None:
            self.kept.extend(bytes(length - len(self.kept)))
            if self.tall is not None and self.tall[0] == length:
                self.tall = None
        for a, b in spans:
            self.kept[a:b] = self.new[a:b]
            self.who[a:b] = bytes(b - a)
        self.tidy()

    def drop(self, host):
        for a, b in self.spans(host):
            self.who[a:b] = bytes(b - a)
        if self.tall_of(host) is not None:
            self.tall = None
        self.tidy()

    def tidy(self):
        if self.who.count(0) == len(self.who):
            self.who, self.new = bytearray(), bytearray()

    def keep_all(self):
        length = self.length()
        self.kept = bytearray(self.present(0, length))
        self.who, self.new, self.tall = bytearray(), bytearray(), None


class Fileset:
    def __init__(self, server, fid, name, read_only, limit):
        self.server, self.id, self.name = server, fid, name
        self.read_only, self.limit = read_only, limit
        self.unique = [0] * (limit + 1)     # by anode, from 1
        self.objects = {}                   # anode: Dir or File

    def promise(self):
        """The blocks that its server keeps free for it: a clone's are those that it holds."""
        if not self.read_only:
            return 68 * self.limit
        return clone_promise(self.objects.values())

    def free_anode(self):
        for a in range(1, self.limit + 1):
            if a not in self.objects and self.unique[a] < MAX_UNIQUE:
                return a
        return None

    def put(self, anode, thing):
        self.unique[anode] += 1
        self.objects[anode] = thing

    def walk(self, user, path):
        """The walk along a path; the anode."""
        at = 1
        for n in path:
            here = self.objects[at]
            if not here.is_dir:
                no("not-dir")
            if not can(here, user) & X:
                no("denied x")
            if n not in here.entries:
                no("no-entry")
            at = here.entries[n]
        return at

    def walk_parent(self, user, path):
        at = self.walk(user, path[:-1])
        here = self.objects[at]
        if not here.is_dir:
            no("not-dir")
        if not can(here, user) & X:
            no("denied x")
        return at

    def named(self, path):
        """The object that the path names, whatever the rights; None where there is none."""
        at = 1
        for n in path:
            here = self.objects[at]
            if not here.is_dir or n not in here.entries:
                return None
            at = here.entries[n]
        return at


def clone_promise(things):
    return sum(9 if t.is_dir else 4 + (t.length() + 1023) // 1024 for t in things)


def can(thing, user):
    return rights_of(thing.lists[0], thing.owner, thing.group, user)


class Tree:
    def __init__(self, servers, users, hosts, capacity):
        self.servers, self.users, self.hosts = servers, users, hosts
        self.capacity = dict(enumerate(capacity, 1))
        self.next = {s: 1 for s in range(1, servers + 1)}
        self.at = {s: {} for s in range(1, servers + 1)}    # server: name: Fileset
        self.locks = {}     # (host, label): (fileset id, anode, writing, from, to)
        self.opens = {}     # (host, label): (fileset id, anode, kind)

    def user(self, host):
        return base.ADMIN if host == 0 else self.users[self.hosts[host - 1][0]]

    def filesets(self, server):
        return sorted(self.at[server].values(), key=lambda f: f.id)

    def fileset(self, place):
        found = self.at[place.server].get(place.fileset)
        return found if found is not None else no("no-fileset")

    def answer(self, host, call):
        """The reply; the tree becomes the next tree."""
        try:
            return getattr(self, type(call).__name__.lower())(host, self.user(host), call) or OK
        except Refusal as why:
            return refused(why.args[0])

    # filesets
    def room_for(self, server, name, promise):
        if name in self.at[server]:
            no("exists")
        if len(self.at[server]) >= 16 or self.next[server] > 65535:
            no("too-many")
        if sum(f.promise() for f in self.at[server].values()) + promise > self.capacity[server]:
            no("no-room")

    def add_fileset(self, server, name, read_only, limit):
        fileset = Fileset(server, server * 65536 + self.next[server], name, read_only, limit)
        self.next[server] += 1
        self.at[server][name] = fileset
        return fileset

    def newfileset(self, host, user, c):
        self.room_for(c.server, c.name, 68 * c.objects)
        fileset = self.add_fileset(c.server, c.name, False, c.objects)
        both, files = base.default_list(True), base.default_list(False)
        fileset.put(1, Dir(c.owner[0], c.owner[1][0], both, files, both))

    def clonefileset(self, host, user, c):
        source = self.fileset(base.Place(c.server, c.fileset, ()))
        if source.read_only:
            no("read-only")
        if not can(source.objects[1], user) & C:
            no("denied c")
        self.room_for(c.server, c.new, clone_promise(source.objects.values()))
        clone = self.add_fileset(c.server, c.new, True, source.limit)
        clone.unique = list(source.unique)
        clone.objects = {a: t.copy_present() for a, t in source.objects.items()}

    # names
    def make(self, user, c, directory):
        fileset = self.fileset(c.place)
        if fileset.read_only:
            no("read-only")
        if not c.place.path:
            no("exists")
        parent = fileset.objects[fileset.walk_parent(user, c.place.path)]
        if not can(parent, user) & I:
            no("denied i")
        if c.place.path[-1] in parent.entries:
            no("exists")
        anode = fileset.free_anode()
        if anode is None:
            no("too-many")
        _, files, dirs = parent.lists
        owner, group = user[0], user[1][0]
        made = Dir(owner, group, dirs, files, dirs) if directory else File(owner, group, files)
        fileset.put(anode, made)
        parent.entries[c.place.path[-1]] = anode

    def create(self, host, user, c):
        self.make(user, c, False)

    def makedir(self, host, user, c):
        self.make(user, c, True)

    def in_use(self, fileset, anode):
        return any(u[0] == fileset.id and u[1] == anode
                   for uses in (self.locks, self.opens) for u in uses.values())

    def remove(self, host, user, c):
        fileset = self.fileset(c.place)
        if fileset.read_only:
            no("read-only")
        if not c.place.path:
            no("in-use")
        parent = fileset.objects[fileset.walk_parent(user, c.place.path)]
        if not can(parent, user) & D:
            no("denied d")
        last = c.place.path[-1]
        if last not in parent.entries:
            no("no-entry")
        anode = parent.entries[last]
        thing = fileset.objects[anode]
        if thing.is_dir and thing.entries:
            no("not-empty")
        if self.in_use(fileset, anode):
            no("in-use")
        del parent.entries[last]
        del fileset.objects[anode]

    def rename(self, host, user, c):
        fileset = self.fileset(c.source)
        if (c.source.server, c.source.fileset) != (c.to.server, c.to.fileset):
            no("cross-fileset")
        if fileset.read_only:
            no("read-only")
        if not c.source.path:
            no("loop")
        if not c.to.path:
            no("exists")
        old = fileset.objects[fileset.walk_parent(user, c.source.path)]
        if not can(old, user) & D:
            no("denied d")
        last = c.source.path[-1]
        if last not in old.entries:
            no("no-entry")
        anode = old.entries[last]
        at = fileset.walk_parent(user, c.to.path)
        new = fileset.objects[at]
        if not can(new, user) & I:
            no("denied i")
        if c.to.path[-1] in new.entries:
            no("exists")
        if self.below(fileset, anode, at):
            no("loop")
        del old.entries[last]
        new.entries[c.to.path[-1]] = anode

    @staticmethod
    def below(fileset, top, anode):
        """Whether `anode` is `top` or stands below it."""
        todo = [top]
        while todo:
            a = todo.pop()
            if a == anode:
                return True
            thing = fileset.objects[a]
            if thing.is_dir:
                todo.extend(thing.entries.values())
        return False

    # files
    def file(self, user, place, writing):
        fileset = self.fileset(place)
        if writing and fileset.read_only:
            no("read-only")
        thing = fileset.objects[fileset.walk(user, place.path)]
        if thing.is_dir:
            no("is-dir")
        return thing

    def truncate(self, host, user, c):
        thing = self.file(user, c.place, True)
        if not can(thing, user) & W:
            no("denied w")
        if c.length > MAX_FILE:
            no("too-big")
        thing.keep_all()
        if c.length < len(thing.kept):
            del thing.kept[c.length:]
        else:
            thing.kept.extend(bytes(c.length - len(thing.kept)))

    def read(self, host, user, c):
        thing = self.file(user, c.place, False)
        if not can(thing, user) & R:
            no("denied r")
        end = min(c.start + c.len, thing.length())
        return ("bytes", thing.present(c.start, end) if c.start < end else b"")

    def write(self, host, user, c):
        thing = self.file(user, c.place, True)
        if not can(thing, user) & W:
            no("denied w")
        if c.start + len(c.bytes) > MAX_FILE:
            no("too-big")
        if c.bytes:
            thing.write(host, c.start, c.bytes)

    def sync(self, host, user, c):
        thing = self.file(user, c.place, False)
        spans, length = thing.spans(host), thing.tall_of(host)
        if spans or length is not None:
            thing.stored(host, spans, length)

    # facts and lists
    def object(self, user, place):
        fileset = self.fileset(place)
        return fileset.objects[fileset.walk(user, place.path)]

    def list(self, host, user, c):
        thing = self.object(user, c.place)
        if not thing.is_dir:
            no("not-dir")
        if not can(thing, user) & R:
            no("denied r")
        return ("names", sorted(thing.entries))

    def stat(self, host, user, c):
        thing = self.object(user, c.place)
        return ("facts", thing.is_dir, thing.length(), thing.owner, can(thing, user))

    def listed(self, user, c):
        thing = self.object(user, c.place)
        if not thing.is_dir and c.which != "list":
            no("not-dir")
        return thing

    def setacl(self, host, user, c):
        if self.fileset(c.place).read_only:
            no("read-only")
        thing = self.listed(user, c)
        if not can(thing, user) & C:
            no("denied c")
        thing.lists[base.WHICH.index(c.which)] = c.list

    def getacl(self, host, user, c):
        return ("access", self.listed(user, c).lists[base.WHICH.index(c.which)])

    # locks and opens
    def held(self, uses, host):
        return sum(1 for h, _ in uses if h == host)

    def use(self, user, place, writing, right, letter):
        fileset = self.fileset(place)
        anode = fileset.walk(user, place.path)
        thing = fileset.objects[anode]
        if thing.is_dir:
            no("is-dir")
        if writing and fileset.read_only:
            no("read-only")
        if not can(thing, user) & right:
            no("denied " + letter)
        return fileset.id, anode

    def lock(self, host, user, c):
        if (host, c.label) in self.locks:
            no("already-locked")
        if self.held(self.locks, host) >= 64:
            no("too-many")
        fid = self.use(user, c.place, c.writing, W if c.writing else R, "w" if c.writing else "r")
        end = c.start + c.len
        if end > MAX_FILE:
            no("too-big")
        theirs = False
        for (h, _), (fs, anode, writing, a, b) in self.locks.items():
            if (fs, anode) == fid and a < end and c.start < b:
                if h == host:
                    no("already-locked")
                theirs = theirs or writing or c.writing
        if theirs:
            no("locked")
        self.locks[host, c.label] = (*fid, c.writing, c.start, end)

    def unlock(self, host, user, c):
        if (host, c.label) not in self.locks:
            no("not-locked")
        del self.locks[host, c.label]

    def openfile(self, host, user, c):
        if (host, c.label) in self.opens:
            no("already-opened")
        if self.held(self.opens, host) >= 64:
            no("too-many")
        writing = c.kind in ("writing", "exclusive")
        right, letter = {"reading": (R, "r"), "shared": (R, "r"), "executing": (X, "x")}.get(
            c.kind, (W, "w"))
        fid = self.use(user, c.place, writing, right, letter)
        for (h, _), (fs, anode, kind) in self.opens.items():
            if h != host and (fs, anode) == fid and base.OPEN_CONFLICT[kind, c.kind]:
                no("open-conflict")
        self.opens[host, c.label] = (*fid, c.kind)

    def closefile(self, host, user, c):
        if (host, c.label) not in self.opens:
            no("not-opened")
        del self.opens[host, c.label]

    def paths(self, fileset):
        """anode: the names from the fileset's name on."""
        found = {1: (fileset.name,)}
        todo = [1]
        while todo:
            at = todo.pop()
            thing = fileset.objects[at]
            if thing.is_dir:
                for n, a in thing.entries.items():
                    found[a] = found[at] + (n,)
                    todo.append(a)
        return found

    def down(self, host, server):
        """The host stops: what is lost, [(host, server, path, 0, from, to) or (.., 1, length, 0)], goes."""
        losses = []
        for fileset in self.filesets(server):
            paths = None
            for anode, thing in fileset.objects.items():
                if thing.is_dir or not thing.unsaved_by(host):
                    continue
                paths = paths or self.paths(fileset)
                for a, b in thing.spans(host):
                    losses.append((host, server, paths[anode], 0, a, b))
                if thing.tall_of(host) is not None:
                    losses.append((host, server, paths[anode], 1, thing.tall_of(host), 0))
                thing.drop(host)
        for uses in (self.locks, self.opens):
            for key in [k for k, u in uses.items() if k[0] == host and u[0] >> 16 == server]:
                del uses[key]
        return sorted(losses)
