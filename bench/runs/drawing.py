"""Scripts that are drawn, as text."""
import random

import drive
import words as w

KINDS = {number: name.lower() for name, number in w.KINDS.items()}
LETTERS = "rwxcid"


def quoted(data):
    out = ""
    for byte in data:
        letter = chr(byte)
        out += "\\" + letter if letter in '"\\' else letter if 32 <= byte < 127 else "\\x%02x" % byte
    return '"' + out + '"'


def path_of(place):
    return quoted(b"/" + b"/".join((place.fileset,) + place.path))


def access(entries):
    def rights(bits):
        return "".join(x for i, x in enumerate(LETTERS) if bits >> i & 1) or "-"
    return ",".join(":".join([who] + ([name.decode()] if name else []) + [rights(bits)]) for who, name, bits in entries)


def call_text(c):
    name = type(c).__name__
    p = path_of(c.place) if hasattr(c, "place") else ""
    plain = {"Create": "create", "MakeDir": "mkdir", "Remove": "remove", "List": "list", "Stat": "stat", "Sync": "sync"}
    if name in plain:
        return "%s %s" % (plain[name], p)
    return {
        "Rename": lambda: "rename %s %s" % (path_of(c.source), path_of(c.to)),
        "Truncate": lambda: "truncate %s %d" % (p, c.length),
        "SetAcl": lambda: "setacl %s %s %s" % (p, c.which, access(c.list)),
        "GetAcl": lambda: "getacl %s %s" % (p, c.which),
        "CloneFileset": lambda: "clone %s %s" % (c.fileset.decode(), c.new.decode()),
        "Read": lambda: "read %s %d %d" % (p, c.start, c.len),
        "Write": lambda: "write %s %d %s" % (p, c.start, quoted(c.bytes)),
        "Lock": lambda: "lock %s %s %s %d %d" % (
            c.label.decode(), p, "write" if c.writing else "read", c.start, c.len),
        "Unlock": lambda: "unlock %s" % c.label.decode(),
        "OpenFile": lambda: "open %s %s %s" % (c.label.decode(), p, c.kind),
        "CloseFile": lambda: "close %s" % c.label.decode(),
    }[name]()


def deed_text(deed):
    name = type(deed).__name__
    if name == "MakesCall":
        return call_text(deed.call)
    if name in ("Raise", "Await"):
        return "%s %s" % (name.lower(), deed.flag.decode())
    return name.lower()


def node_text(node):
    return "%s%d" % node


def text_of(script):
    """The lines of a script."""
    out = ["servers %d" % script.servers]
    out += ["user %s %s" % (name.decode(), b" ".join(groups).decode()) for name, groups in script.roster.users]
    out += ["host c%d %s %d" % (i, script.roster.users[user][0].decode(), limit)
            for i, (user, limit) in enumerate(script.roster.hosts, 1)]
    for line in script.setup:
        c = line.deed.call
        out.append("fileset %s s%d %d %s" % (c.name.decode(), c.server, c.objects, c.owner[0].decode()))
    if script.net:
        out.append("net %d %d %d %d" % tuple(script.net))
    for p in script.plan:
        out.append("plan %s %s %s %s %d%s" % (
            p.deed, node_text(p.source), node_text(p.to), KINDS[p.kind], p.n,
            " " + p.flag.decode() if p.flag else ""))
    out.append("begin")
    out += ["%s %s" % (node_text(x.node), deed_text(x.deed)) for x in script.lines]
    return "\n".join(out) + "\n"


def with_waits(r, script):
    """Before most restarts the server awaits a flag that a host raises somewhere above."""
    lines = list(script.lines)
    at = 0
    while at < len(lines):
        above = [i for i in range(at) if lines[i].node[0] == "c" and not isinstance(lines[i].deed, w.Stop)]
        if isinstance(lines[at].deed, w.Restart) and above and r.random() < 0.85:
            flag = b"R%d" % at
            lines.insert(at, w.Line(0, lines[at].node, w.Await(flag)))
            up = r.choice(above)
            lines.insert(up + 1, w.Line(0, lines[up].node, w.Raise(flag)))
            at += 2
        at += 1
    return w.change(script, lines=tuple(lines))


def sayable(script):
    """Without lines that a script can't have: of filesets that no line places, or that two servers would have, plans
    for the setup host."""
    placed = {x.deed.call.name: x.deed.call.server for x in script.setup}
    lines = []
    for x in script.lines:
        c = x.deed.call if isinstance(x.deed, w.MakesCall) else None
        if isinstance(c, w.CloneFileset) and placed.setdefault(c.new, c.server) != c.server:
            continue
        lines.append(x)

    def said(x):
        c = x.deed.call if isinstance(x.deed, w.MakesCall) else None
        return all(getattr(c, name).fileset in placed for name in ("place", "source") if hasattr(c, name))
    plan = tuple(p for p in script.plan if ("c", 0) not in (p.source, p.to))
    return w.change(script, plan=plan, lines=tuple(x for x in lines if said(x)))


def filling(r, script):
    """A script of the same roster that makes some files."""
    lines = []
    for line in script.setup:
        c = line.deed.call
        for path in ((b"a",), (b"b",), (b"d",), (b"d", b"a")):
            if r.random() < 0.8:
                place = w.Place(c.server, c.name, path)
                call = (w.MakeDir if path == (b"d",) else w.Create)(place)
                lines.append(w.Line(0, ("c", 1), w.MakesCall(call)))
                size = r.choice((0, 3, 900, 1024))
                if path != (b"d",) and size:
                    data = bytes(r.randrange(65, 91) for _ in range(size))
                    lines.append(w.Line(0, ("c", 1), w.MakesCall(w.Write(place, r.choice((0, 0, 1000)), data))))
    return w.Script(script.servers, script.roster, script.setup, (), None, tuple(lines))


def behind(first, script):
    """A script in which the first host does the lines of another one before all hosts do theirs."""
    names = sorted({x.node for x in script.lines if x.node[0] == "c" and x.node != ("c", 1)})
    lines = first.lines + (w.Line(0, ("c", 1), w.Raise(b"made")),)
    lines += tuple(w.Line(0, node, w.Await(b"made")) for node in names)
    return w.change(script, lines=lines + script.lines)


def parts_of(seed, size, disks):
    """The scripts of a seed, one behind the other."""
    r = random.Random("%s %d" % (size, seed))
    script = with_waits(r, sayable(drive.random_script(r, drive.SIZES[size])))
    first = filling(r, script)
    return [text_of(first), text_of(script), text_of(first)] if disks else [text_of(behind(first, script))]
