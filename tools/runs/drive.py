"""Random scripts, a network with plan and net lines, and a driver that runs the machines to the end of a run.

    run(script, seed, mode, lazy) -> Outcome         modes: "hub" (the earliest copy that may arrive, as the hub gives
                                                     it), "wild" (any copy that may come, in any order)
    random_script(random, size)
    python3 drive.py [--seeds A..B] [--size NAME] [--mode hub|wild] [--check] [--lazy]
"""
import argparse
import random
import sys
import time

import words as w
import tree as trees
from machines import Host, Server
from dfs_oracle.pcg import Pcg32

DELAY_STEPS = 8


class Network:
    """What is on its way, and to whom lapses are due (hub_wire)."""

    def __init__(self, script):
        self.script = script
        self.plan = [[p, 0] for p in script.plan]
        self.left = list(script.net[1:]) if script.net else [0, 0, 0]
        self.pcg = Pcg32(script.net.seed, 1) if script.net else None
        self.steps = 0
        self.packets = []           # [message, way, step]
        self.due = []               # nodes
        self.raised = set()
        self.lost = self.sent = 0

    def post(self, messages):
        self.steps += 1
        for m in messages:
            self.post_one(m)

    def post_one(self, m):
        self.sent += 1
        if isinstance(m.body, w.Down):
            self.packets.append([m, "free", self.steps])
            return
        fate = None
        for entry in self.plan:
            p = entry[0]
            if p.kind == w.kind_of(m.body) and p.source == w.sender(m) and p.to == w.receiver(m):
                entry[1] += 1
                if entry[1] == p.n and fate is None:
                    held = "free" if p.flag in self.raised else ("held", p.flag)
                    fate = {"drop": (), "hold": (held,), "again": ("free", held)}[p.deed]
        word = self.pcg.next_u32() % 16 if self.pcg else 15
        if fate is None:
            fate = ("free",)
            if word == 0 and self.left[0]:
                self.left[0] -= 1
                fate = ()
            elif word == 1 and self.left[1]:
                self.left[1] -= 1
                fate = ("free", "delayed")
            elif word in (2, 3) and self.left[2]:
                self.left[2] -= 1
                fate = ("delayed",)
        if not fate:
            self.lost += 1
            self.due.append(w.resender(m))
        for way in fate:
            self.packets.append([m, way, self.steps])

    def raise_flag(self, flag):
        self.raised.add(flag)
        for p in self.packets:
            if p[1] == ("held", flag):
                p[1] = "free"

    def ripe(self, node, wild):
        """The copies for a node that may arrive now: the earliest, or any."""
        free = any(p[1] == "free" for p in self.packets)
        out = []
        for p in self.packets:
            if w.receiver(p[0]) != node or isinstance(p[1], tuple):
                continue
            if p[1] == "delayed" and not wild and free and self.steps - p[2] < DELAY_STEPS:
                continue
            out.append(p)
            if not wild:
                break
        return out


class Outcome:
    def __init__(self):
        self.ended = False
        self.why = ""
        self.journal = None
        self.figures = {}


class Stuck(Exception):
    pass


class Run:
    def __init__(self, script, seed, mode="hub", lazy=False, start=None, epochs=None, most=20000):
        self.script, self.mode, self.lazy, self.most = script, mode, lazy, most
        self.random = random.Random(seed)
        self.weight = self.random.choice((1, 4, 4, 20))
        self.start = start or trees.new_tree(script.roster)
        self.epochs = epochs or tuple(1 for _ in script.roster.capacity)
        self.hosts = {h: Host(script, h) for h in w.hosts_of(script.roster)}
        self.servers = {}
        for s in w.servers_of(script.roster):
            kept = trees.kept_first(self.start, s).twin([(s, n) for n in self.start.at[s]])
            self.servers[s] = Server(script, s, self.epochs[s - 1], kept, lazy)
        self.net = Network(script)
        self.raised = set()
        self.lapses_when = "any"    # "first": before all else; "last": when nothing else can go on
        self.steps = []
        self.kinds = {}
        self.lapses = 0

    def add(self, step):
        self.steps.append(step)
        self.net.post(step.sent)
        for m in step.sent:
            k = type(m.body).__name__
            self.kinds[k] = self.kinds.get(k, 0) + 1
        if len(self.steps) > self.most:
            raise Stuck("too many steps")

    def line_ready(self, node):
        if node[0] == "c":
            host = self.hosts[node[1]]
            if host.stopped or not host.may_line() or (node[1] and not self.hosts[0].is_done()):
                return None
        else:
            host = self.servers[node[1]]
            if host.at >= len(host.lines) or host.again:
                return None
        line = host.lines[host.at]
        if isinstance(line.deed, w.Await) and line.deed.flag not in self.raised:
            return None
        return line

    def do_line(self, node, line):
        machine = self.hosts[node[1]] if node[0] == "c" else self.servers[node[1]]
        self.add(machine.line())
        if isinstance(line.deed, w.Raise):
            self.raised.add(line.deed.flag)
            self.net.raise_flag(line.deed.flag)

    def options(self):
        out = []
        wild = self.mode == "wild"
        for h, host in self.hosts.items():
            node = ("c", h)
            if host.stopped:
                continue
            line = self.line_ready(node)
            if line is not None:
                out.append((2, self.do_line, (node, line)))
            if host.may_evict():
                out.append((4, self.evict, (host,)))
            if host.may_end():
                out.append((2, self.end, (host,)))
            self.copies(out, node, host, wild)
        for s, server in self.servers.items():
            node = ("s", s)
            line = self.line_ready(node)
            if line is not None:
                out.append((1, self.do_line, (node, line)))
            if server.wants_flush():
                out.append((4 if server.again else 2, self.flush, (server,)))
            self.copies(out, node, server, wild)
        return out

    def copies(self, out, node, machine, wild):
        for p in self.net.ripe(node, wild):
            out.append((self.weight, self.deliver, (machine, p)))
        if node in self.net.due:
            out.append((1, self.lapse, (machine, node)))

    def evict(self, host):
        self.add(host.evict())

    def end(self, host):
        self.add(host.end())

    def flush(self, server):
        self.add(server.flush())

    def deliver(self, machine, packet):
        self.net.packets.remove(packet)
        self.add(machine.message(packet[0]))

    def lapse(self, machine, node):
        self.net.due.remove(node)
        self.lapses += 1
        self.add(machine.lapse())

    def turn(self):
        """Round robin, as one thread would turn the nodes: each makes what is pending, and is given one thing."""
        nodes = [("c", h) for h in self.hosts] + [("s", s) for s in self.servers]
        self.at = (getattr(self, "at", -1) + 1) % len(nodes)
        node = nodes[self.at]
        host = node[0] == "c"
        machine = self.hosts[node[1]] if host else self.servers[node[1]]
        if host and machine.stopped:
            return
        for p in self.net.ripe(node, False)[:1]:
            self.deliver(machine, p)
            break
        else:
            if node in self.net.due:
                self.lapse(machine, node)
        while True:
            if host and machine.stopped:
                return
            if host and machine.may_evict():
                self.evict(machine)
            elif not host and machine.wants_flush():
                self.flush(machine)
            elif self.line_ready(node) is not None:
                self.do_line(node, self.line_ready(node))
            elif host and machine.may_end():
                self.end(machine)
            else:
                return

    def ended(self):
        return (all(h.is_done() for h in self.hosts.values())
                and all(s.at == len(s.lines) for s in self.servers.values())
                and all(not m.live() for s in self.servers.values() for m in s.hosts.values()))

    def go(self):
        out = Outcome()
        try:
            while not self.ended():
                for p in [p for p in self.net.packets if w.receiver(p[0])[0] == "c"
                          and self.hosts[p[0].host].stopped and w.receiver(p[0])[1] == p[0].host]:
                    self.net.packets.remove(p)
                options = self.options()
                if self.lapses_when != "any":
                    due = [o for o in options if o[1] == self.lapse]
                    rest = [o for o in options if o[1] != self.lapse]
                    options = (due or rest) if self.lapses_when == "first" else (rest or due)
                if not options:
                    raise Stuck("nothing can go on")
                if self.mode == "rr":
                    self.turn()
                    continue
                total = sum(o[0] for o in options)
                at = self.random.randrange(total)
                for weight, do, args in options:
                    at -= weight
                    if at < 0:
                        do(*args)
                        break
            out.ended = True
        except Stuck as why:
            out.why = str(why)
        except Exception as why:            # noqa: a machine that fails is a finding
            out.why = "%s: %s" % (type(why).__name__, why)
            out.error = why
            import traceback
            out.trace = traceback.format_exc()
        out.journal = w.Journal(self.script, self.start, self.epochs, self.steps)
        out.figures = {"steps": len(self.steps), "messages": self.net.sent, "lost": self.net.lost,
                       "lapses": self.lapses, "kinds": self.kinds,
                       "calls": sum(h.calls for h in self.hosts.values())}
        return out


# ------------------------------------------------------------------------------------------------ a quick own check
def quick_check(journal):
    """The history is legal on one tree; tokens never conflict.  (rules.py and laws.py judge the rest.)"""
    tree = journal.start
    held = {}
    faults = []
    for at, s in enumerate(journal.steps):
        entries = [("call", a) for a in s.answers]
        for x in s.applied:
            if isinstance(x, w.Written):
                entries.append(("call", x.answer))
            elif isinstance(x, w.EndsCall):
                entries.append(("call", x.answer))
            elif isinstance(x, w.Stored):
                entries.append(("stored", x))
            elif isinstance(x, w.IsDown):
                entries.append(("down", x))
        for kind, x in entries:
            if kind == "call":
                reply, tree2 = trees.answer_to(tree, x.host, x.call)
                if reply != x.reply:
                    faults.append((at, "reply", x, reply))
                tree = tree2
            elif kind == "stored":
                if not trees.may_store(tree, x.host, x.fid, x.spans, x.length):
                    faults.append((at, "stored", x))
                else:
                    tree = trees.stored_tree(tree, x.host, x.fid, x.spans, x.length)
            else:
                _, tree = trees.down_tree(tree, x.host, s.node[1])
        if s.node[0] == "c":
            mine = held.setdefault(s.node[1], {})
            for t in s.taken:
                mine[t.id] = t
            for x in s.dropped:
                mine.pop(x.token.id, None)
            if s.taken:
                from machines import kinds_conflict
                for h, other in held.items():
                    if h != s.node[1]:
                        for t in s.taken:
                            for u in other.values():
                                if u.fid == t.fid and kinds_conflict(u.kind, t.kind):
                                    faults.append((at, "conflict", t, u))
        if faults:
            break
    return faults, tree


# ------------------------------------------------------------------------------------------------ random scripts
class Size:
    def __init__(self, hosts=1, servers=1, filesets=1, lines=6, restarts=0, net=None, stops=0.0, plan=0, limit=64,
                 flags=0.3, calls=None, names=2, users=1):
        self.__dict__.update(locals())
        del self.self


SIZES = {
    "one": Size(),
    "two": Size(hosts=2, lines=8),
    "two_net": Size(hosts=2, lines=8, net=(4, 4, 6)),
    "two_small": Size(hosts=2, lines=10, limit=4, net=(2, 2, 4)),
    "three": Size(hosts=3, servers=2, filesets=2, lines=8, net=(3, 3, 5), limit=6),
    "restart": Size(hosts=2, servers=1, lines=8, restarts=2, net=(4, 4, 6)),
    "restart2": Size(hosts=3, servers=2, filesets=2, lines=8, restarts=2, net=(5, 5, 8), stops=0.2, limit=8),
    "stops": Size(hosts=3, servers=2, filesets=2, lines=8, stops=0.5, net=(3, 3, 5)),
    "hot2": Size(hosts=2, lines=30, flags=0.02),
    "hot4": Size(hosts=4, lines=30, flags=0.02, net=(6, 6, 10)),
    "hot4r": Size(hosts=4, lines=30, flags=0.02, net=(6, 6, 10), restarts=4, limit=5, stops=0.1),
    "hot8": Size(hosts=8, lines=40, flags=0.01),
    "storm": Size(hosts=3, servers=2, filesets=2, lines=14, restarts=7, net=(25, 25, 50), flags=0.05, names=3, limit=6,
                  stops=0.1),
    "storm1": Size(hosts=2, lines=14, restarts=7, net=(15, 15, 40), flags=0.05, names=3),
    "plans": Size(hosts=3, servers=2, filesets=2, lines=10, plan=12, restarts=2, flags=0.1),
    "big": Size(hosts=4, servers=3, filesets=4, lines=14, restarts=3, net=(10, 10, 15), stops=0.25, limit=8, plan=3,
                users=2),
}

ALL_CALLS = ("create", "mkdir", "remove", "rename", "truncate", "setacl", "clone", "read", "write", "list", "stat",
             "getacl", "sync", "lock", "unlock", "open", "close")
WEIGHTS = {"create": 4, "mkdir": 2, "remove": 2, "rename": 2, "truncate": 2, "setacl": 1, "clone": 1, "read": 5,
           "write": 8, "list": 2, "stat": 3, "getacl": 1, "sync": 3, "lock": 4, "unlock": 3, "open": 3, "close": 3}
LISTS = (((("user_obj", None, 63), ("group_obj", None, 63), ("other_obj", None, 63))),
         ((("user_obj", None, 63), ("group_obj", None, 5), ("other_obj", None, 1))),
         ((("user_obj", None, 23), ("group_obj", None, 0), ("other_obj", None, 5))))


PROFILES = (None, ("read", "write", "sync", "stat"), ("read", "write", "write", "truncate"),
            ("lock", "unlock", "open", "close", "remove", "create"), ("lock", "unlock", "write", "sync"),
            ("create", "remove", "rename", "mkdir", "stat", "list", "read"), ("write", "read", "clone", "setacl"),
            ("write", "lock", "unlock", "rename", "remove", "create"))


def start_tree(r, roster, filesets):
    """A tree with some files, from which a run starts."""
    tree = trees.new_tree(roster)
    for s, name in filesets:
        trees.oracle.Tree.answer(tree, 0, w.NewFileset(s, name, 8, roster.users[0]))
        for path in ((b"a",), (b"b",), (b"d",), (b"d", b"a")):
            if r.random() < 0.8:
                call = (w.MakeDir if path == (b"d",) else w.Create)(w.Place(s, name, path))
                trees.oracle.Tree.answer(tree, 1, call)
        for fs in tree.at[s].values():
            for o in fs.objects.values():
                if not o.is_dir:
                    o.kept = bytearray(r.randrange(65, 91) for _ in range(r.choice((0, 3, 1024, 2500))))
    return tree


def random_call(r, size, filesets, profile=None):
    name = r.choice([n for n in (profile or size.calls or ALL_CALLS) for _ in range(WEIGHTS[n])])
    fs = r.choice(filesets)
    names = [b"a", b"b", b"c"][:size.names]

    def place(depth=None):
        path = (b"d",) if r.random() < 0.3 else ()
        if depth == 0:
            path = path if r.random() < 0.5 else ()
        else:
            path += (r.choice(names + ([b"d"] if r.random() < 0.1 else [])),)
        return w.Place(fs[0], fs[1], path)
    at = r.choice((0, 0, 1, 5, 1000, 1020, 1024, 2048, 2050, 3000))
    if name == "create":
        return w.Create(place())
    if name == "mkdir":
        return w.MakeDir(w.Place(fs[0], fs[1], (b"d",)) if r.random() < 0.7 else place())
    if name == "remove":
        return w.Remove(place())
    if name == "rename":
        other = place()
        if r.random() < 0.1:
            fs2 = r.choice(filesets)
            other = w.Place(fs2[0], fs2[1], other.path)
        return w.Rename(place(), other)
    if name == "truncate":
        return w.Truncate(place(), r.choice((0, 2, 1024, 2049)))
    if name == "setacl":
        which = r.choice(("list", "list", "files", "dirs"))
        return w.SetAcl(place(r.choice((0, 1))), which, r.choice(LISTS))
    if name == "clone":
        return w.CloneFileset(fs[0], fs[1], b"k%d" % r.randrange(2))
    if name == "read":
        p = place()
        if r.random() < 0.15:
            p = w.Place(fs[0], b"k%d" % r.randrange(2), p.path)
        return w.Read(p, at, r.choice((1, 4, 1024, 2000)))
    if name == "write":
        return w.Write(place(), at, bytes(r.randrange(97, 123) for _ in range(r.choice((0, 1, 2, 5, 30, 30)))))
    if name == "list":
        return w.List(place(0))
    if name == "stat":
        return w.Stat(place(r.choice((0, 1, 1))))
    if name == "getacl":
        return w.GetAcl(place(r.choice((0, 1))), r.choice(("list", "files")))
    if name == "sync":
        return w.Sync(place())
    if name == "lock":
        return w.Lock(r.choice((b"L", b"M")), place(), r.random() < 0.6, r.choice((0, 0, 10, 1020)),
                      r.choice((1, 5, 2000)))
    if name == "unlock":
        return w.Unlock(r.choice((b"L", b"M")))
    if name == "open":
        kinds = ("reading", "writing", "executing", "shared", "exclusive")
        return w.OpenFile(r.choice((b"L", b"M")), place(), r.choice(kinds))
    return w.CloseFile(r.choice((b"L", b"M")))


def random_script(r, size):
    users = ((b"u", (b"g",)), (b"v", (b"g",)), (b"x", (b"h",)))[:max(1, size.users + 1)]
    hosts = tuple((r.randrange(size.users), size.limit if r.random() < 0.7 else 64) for _ in range(size.hosts))
    capacity = tuple(16384 for _ in range(size.servers))
    filesets = []
    number = 0
    setup = []
    for i in range(size.filesets):
        s = i % size.servers + 1
        number += 1
        filesets.append((s, b"f%d" % i))
        setup.append(w.Line(number, ("c", 0), w.MakesCall(
            w.NewFileset(s, b"f%d" % i, r.choice((4, 8, 8)), users[0]))))
    lines = []
    profile = r.choice(PROFILES)
    size = Size(**dict(size.__dict__, names=r.choice((1, 1, size.names))))
    left = {h: r.randrange(1, size.lines + 1) for h in range(1, size.hosts + 1)}
    restarts = {s: r.randrange(0, size.restarts + 1) for s in range(1, size.servers + 1)}
    nodes = [("c", h) for h, n in left.items() for _ in range(n)] + [("s", s) for s, n in restarts.items()
                                                                     for _ in range(n)]
    r.shuffle(nodes)
    flags = 0
    pending = []
    plan = []
    for i in range(size.plan):
        h, s = r.randrange(0, size.hosts + 1), r.randrange(1, size.servers + 1)
        ends = [("c", h), ("s", s)]
        kind = r.choice([k for k in range(1, 16) if k != 14])
        if kind in (3, 5, 6, 10, 12, 13) or (kind == 15 and r.random() < 0.5):
            ends.reverse()
        deed = r.choice(("drop", "hold", "again"))
        flag = None
        if deed != "drop":
            flag = b"h%d" % i
            number += 1
            lines.append(w.Line(number, ("s", r.randrange(1, size.servers + 1)), w.Raise(flag)))
        plan.append(w.PlanLine(deed, ends[0], ends[1], kind, r.randrange(1, 4), flag))
    for node in nodes:
        for flag in list(pending):
            if flag[1] != node and r.random() < 0.5:
                number += 1
                lines.append(w.Line(number, node, w.Await(flag[0])))
                pending.remove(flag)
        number += 1
        if node[0] == "s":
            lines.append(w.Line(number, node, w.Restart()))
        else:
            lines.append(w.Line(number, node, w.MakesCall(random_call(r, size, filesets, profile))))
        if r.random() < size.flags:
            flags += 1
            flag = b"F%d" % flags
            number += 1
            lines.append(w.Line(number, node, w.Raise(flag)))
            pending.append((flag, node))
    for h in range(1, size.hosts + 1):
        if r.random() < size.stops:
            number += 1
            lines.append(w.Line(number, ("c", h), w.Stop()))
    net = w.Net(r.randrange(1 << 32), *size.net) if size.net else None
    return w.Script(size.servers, w.Roster(users, hosts, capacity), tuple(setup), tuple(plan), net, tuple(lines))


def show(step, at):
    def b(x):
        return str(x)
    out = ["%d %s%d %s" % (at, step.node[0], step.node[1], show_cause(step.cause))]
    for f in ("asked", "taken", "answers", "wrote", "begun", "made", "dropped", "applied", "admitted", "reserved"):
        v = getattr(step, f)
        if v:
            out.append("    %s: %s" % (f, b(v)))
    for m in step.sent:
        out.append("    -> %s%d e%d %s" % (w.receiver(m)[0], w.receiver(m)[1], m.epoch, b(m.body)))
    return "\n".join(out)


def show_cause(c):
    return "%s" % (c,)


def describe(script):
    out = []
    for x in script.setup + script.lines:
        out.append("%d %s%d %s" % (x.number, x.node[0], x.node[1], x.deed))
    return "\n".join(out + ["plan %s" % (script.plan,), "net %s" % (script.net,)])


def make(seed, size, mode, lazy, kind=None, **given):
    """A run of a random script, from a random tree."""
    r = random.Random(seed)
    script = random_script(r, size)
    start = None
    if r.random() < 0.8:
        start = start_tree(r, script.roster, [(x.deed.call.server, x.deed.call.name) for x in script.setup])
    epochs = tuple(r.choice((1, 1, 5)) for _ in script.roster.capacity)
    return (kind or Run)(script, seed, mode, lazy, start, epochs, **given)


def trial(seed, size, mode, lazy):
    return make(seed, size, mode, lazy).go()


def main():
    p = argparse.ArgumentParser()
    p.add_argument("--seeds", default="0..200")
    p.add_argument("--size", default="one")
    p.add_argument("--mode", default="hub")
    p.add_argument("--lazy", action="store_true")
    p.add_argument("--check", action="store_true")
    p.add_argument("--show", action="store_true")
    p.add_argument("--stop", type=int, default=5)
    a = p.parse_args()
    lo, hi = map(int, a.seeds.split(".."))
    bad = 0
    began = time.time()
    total = {"steps": 0, "messages": 0, "calls": 0, "lost": 0, "lapses": 0}
    for seed in range(lo, hi):
        out = trial(seed, SIZES[a.size], a.mode, a.lazy)
        for k in total:
            total[k] += out.figures[k]
        faults = []
        if not out.ended:
            faults.append(out.why)
            if hasattr(out, "trace"):
                faults.append(out.trace)
        found, _ = quick_check(out.journal)
        faults += found
        if a.check:
            import rules
            faults += rules.check(out.journal)[:5]
        if a.show:
            print(describe(out.journal.script))
            for i, s in enumerate(out.journal.steps):
                print(show(s, i))
        if faults:
            bad += 1
            print("seed", seed, "steps", out.figures["steps"])
            for f in faults[:4]:
                print("   ", f)
            if bad >= a.stop:
                break
    n = seed - lo + 1
    print("%s %s %s: %d runs, %d bad, %.1f s; %s" % (a.size, a.mode, "lazy" if a.lazy else "eager", n, bad,
                                                   time.time() - began, total))
    return 1 if bad else 0


if __name__ == "__main__":
    sys.exit(main())
