"""What a run prints, as text (docs/SCRIPTS.md)."""
import re

from .base import LETTERS, WHICH

_NONZERO = re.compile(rb"[^\0]+")
_ESCAPES = [b"%c" % b if 32 <= b <= 126 else b"\\x%02x" % b for b in range(256)]
_ESCAPES[34] = b'\\"'
_ESCAPES[92] = b"\\\\"
_PLAIN = re.compile(rb"[\x20\x21\x23-\x5b\x5d-\x7e]*\Z")
_WORD = re.compile(rb"[\x21-\x7e]*\Z")


def bare_text(data):
    """TEXT without its outer quotes."""
    if _PLAIN.match(data):
        return bytes(data)
    return b"".join([_ESCAPES[b] for b in data])


def text(data):
    return b'"' + bare_text(data) + b'"'


def printed(data):
    """A NAME, OWNER, GROUP or LIST."""
    return text(data) if not _WORD.match(data) or data.startswith(b'"') else bytes(data)


def path(names):
    data = b"/" + b"/".join(names)
    return data if _WORD.match(data) else text(data)


def rights_places(rights):
    return bytes(LETTERS[i] if rights >> i & 1 else 45 for i in range(6))


def rights_letters(rights):
    return rights_places(rights).replace(b"-", b"") or b"-"


def access(entries):
    out = []
    for who, name, rights in entries:
        parts = [who.encode()] + ([name] if name is not None else []) + [rights_letters(rights)]
        out.append(b":".join(parts))
    return printed(b",".join(out))


def reply(r):
    kind = r[0]
    if kind == "ok":
        return b"ok"
    if kind == "refused":
        return r[1].encode()
    if kind == "bytes":
        return b"ok " + text(r[1])
    if kind == "names":
        return b" ".join([b"ok"] + [text(n) for n in r[1]])
    if kind == "facts":
        _, is_dir, length, owner, rights = r
        return b"ok %s %d %s %s" % (b"dir" if is_dir else b"file", length, printed(owner),
                                    rights_places(rights))
    return b"ok " + access(r[1])


def reply_lines(run):
    for host in sorted(run.replies):
        for k, r in enumerate(run.replies[host], 1):
            yield b"c%d %d %s" % (host, k, reply(r))


def loss_lines(run):
    for host, server, names, kind, a, b in run.losses:
        head = b"lost c%d s%d %s " % (host, server, path(names))
        yield head + (b"length %d" % a if kind else b"%d %d" % (a, b))


def tree_lines(fileset):
    todo = [(1, (fileset.name,))]
    while todo:
        anode, names = todo.pop()
        thing = fileset.objects[anode]
        yield b"%s %s %d %s %s" % (b"dir" if thing.is_dir else b"file", path(names), thing.length(),
                                   printed(thing.owner), printed(thing.group))
        for which, entries in zip(WHICH, thing.lists):
            yield b" %s %s" % (which.encode(), access(entries))
        if thing.is_dir:
            todo.extend((a, names + (n,)) for n, a in sorted(thing.entries.items(), reverse=True))
        else:
            for m in _NONZERO.finditer(thing.present(0, thing.length())):
                yield b" %d %s" % (m.start(), text(m.group()))


def dump_lines(tree):
    for server in range(1, tree.servers + 1):
        for f in tree.filesets(server):
            yield b"fileset s%d %s %s %d" % (server, printed(f.name),
                                             b"ro" if f.read_only else b"rw", f.limit)
            yield from tree_lines(f)


def as_text(run):
    lines = [*reply_lines(run), *loss_lines(run), *dump_lines(run.tree), b"end", b""]
    return b"\n".join(lines)
