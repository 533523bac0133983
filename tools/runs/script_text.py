"""Scripts as texts (docs/SCRIPTS.md), for those that the program takes: read_script(data) makes a words.Script.

A script that it would refuse is refused here too, or not, as it comes: only taken ones are meant.
"""
import re

import words as w
from dfs_oracle import base

WORD = re.compile(rb'"((?:[^"\\]|\\["\\]|\\x[0-9A-Fa-f]{2})*)"|([^ "][^ ]*)')
ESCAPE = re.compile(rb'\\(?:(["\\])|x([0-9A-Fa-f]{2}))')
KINDS = {name.lower().encode(): number for name, number in w.KINDS.items()}


class Refused(Exception):
    """It isn't taken here."""


def words_of(line):
    line = line.removesuffix(b"\r")
    if line.lstrip(b" ").startswith(b"#"):
        return []

    def value(m):
        if m.group(2) is not None:
            return m.group(2)
        return ESCAPE.sub(lambda e: e.group(1) or bytes([int(e.group(2), 16)]), m.group(1))
    return [value(m) for m in WORD.finditer(line)]


def node_of(word):
    return chr(word[0]), int(word[1:])


def access_of(word):
    out = []
    for entry in word.split(b","):
        who, *name, letters = entry.split(b":")
        rights = sum(1 << base.LETTERS.index(bytes([x])) for x in letters if letters != b"-")
        out.append((who.decode(), name[0] if name else None, rights))
    return tuple(out)


class Reader:
    def __init__(self):
        self.servers, self.users, self.hosts, self.capacity = 0, [], [], {}
        self.setup, self.plan, self.net, self.lines = [], [], None, []
        self.placed = {}            # fileset: server

    def header(self, at, words):
        what, *rest = words
        if what == b"servers":
            self.servers = int(rest[0])
        elif what == b"user":
            self.users.append((rest[0], tuple(rest[1:])))
        elif what == b"host":
            limit = int(rest[2]) if len(rest) > 2 else w.CACHED_TOKENS_DEFAULT
            self.hosts.append(([name for name, _ in self.users].index(rest[1]), limit))
        elif what == b"capacity":
            self.capacity[node_of(rest[0])[1]] = int(rest[1])
        elif what == b"fileset":
            server = node_of(rest[1])[1]
            self.placed[rest[0]] = server
            owner = next(u for u in self.users if u[0] == rest[3])
            call = w.NewFileset(server, rest[0], int(rest[2]), owner)
            self.setup.append(w.Line(at, ("c", w.SETUP), w.MakesCall(call)))
        elif what == b"net":
            self.net = w.Net(*map(int, rest))
        elif what == b"plan":
            flag = rest[5] if len(rest) > 5 else None
            self.plan.append(w.PlanLine(
                rest[0].decode(), node_of(rest[1]), node_of(rest[2]), KINDS[rest[3]], int(rest[4]), flag))
        else:
            raise Refused(at)

    def place(self, word):
        _, fileset, *path = word.split(b"/")
        return w.Place(self.placed[fileset], fileset, tuple(path))

    def deed(self, what, rest):
        one_place = {b"create": w.Create, b"mkdir": w.MakeDir, b"remove": w.Remove, b"list": w.List, b"stat": w.Stat,
                     b"sync": w.Sync}
        if what in (b"raise", b"await"):
            return (w.Raise if what == b"raise" else w.Await)(rest[0])
        if what in (b"stop", b"restart"):
            return w.Stop() if what == b"stop" else w.Restart()
        return w.MakesCall(one_place[what](self.place(rest[0])) if what in one_place else self.call(what, rest))

    def call(self, what, rest):
        if what == b"rename":
            return w.Rename(self.place(rest[0]), self.place(rest[1]))
        if what == b"truncate":
            return w.Truncate(self.place(rest[0]), int(rest[1]))
        if what == b"setacl":
            return w.SetAcl(self.place(rest[0]), rest[1].decode(), access_of(rest[2]))
        if what == b"getacl":
            return w.GetAcl(self.place(rest[0]), rest[1].decode())
        if what == b"clone":
            return w.CloneFileset(self.placed[rest[0]], rest[0], rest[1])
        if what == b"read":
            return w.Read(self.place(rest[0]), int(rest[1]), int(rest[2]))
        if what == b"write":
            return w.Write(self.place(rest[0]), int(rest[1]), rest[2])
        if what == b"lock":
            return w.Lock(rest[0], self.place(rest[1]), rest[2] == b"write", int(rest[3]), int(rest[4]))
        if what == b"open":
            return w.OpenFile(rest[0], self.place(rest[1]), rest[2].decode())
        if what in (b"unlock", b"close"):
            return (w.Unlock if what == b"unlock" else w.CloseFile)(rest[0])
        raise Refused(what)

    def place_clones(self, lines):
        """A clone line places its name where its source is, wherever it stands."""
        clones = [words[2:] for _, words in lines if len(words) == 4 and words[1] == b"clone"]
        for _ in clones:
            for source, new in clones:
                if source in self.placed:
                    self.placed.setdefault(new, self.placed[source])

    def read(self, data):
        lines = [(at, words_of(line)) for at, line in enumerate(data.split(b"\n"), 1)]
        lines = [(at, words) for at, words in lines if words]
        begin = next((i for i, (_, words) in enumerate(lines) if words == [b"begin"]), None)
        if begin is None:
            raise Refused("begin")
        for at, words in lines[:begin]:
            self.header(at, words)
        self.place_clones(lines[begin + 1:])
        for at, words in lines[begin + 1:]:
            self.lines.append(w.Line(at, node_of(words[0]), self.deed(words[1], words[2:])))
        capacity = tuple(self.capacity.get(n, 16384) for n in range(1, self.servers + 1))
        roster = w.Roster(tuple(self.users), tuple(self.hosts), capacity)
        return w.Script(self.servers, roster, tuple(self.setup), tuple(self.plan), self.net, tuple(self.lines))


def read_script(data):
    try:
        return Reader().read(data)
    except (KeyError, IndexError, ValueError, StopIteration) as why:
        raise Refused(str(why)) from why
