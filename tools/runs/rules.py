"""The rules of a run (run_rules: Runs, Plans, Posting), over those of hosts and servers.

    check(journal)      Report: .broken = [(step, rule, why)], steps counted from 1 (0: the journal as a whole)
    Checker(script, start, epochs)      the same step by step: .step(step) -> [(rule, why)], for drivers
                        .ended() -> [(rule, why)] of IsEnded, .done(host) -> HostIsDone
                        .left(message) -> how many copies of a message may still come now, .lapses_due(node)

    half(rule)          "may": what a node may do, on which all safety rests; "due": what is due of it, so that runs
                        end; "run": what a journal is, but for its nodes' rules

Rules are named as their definitions: `HostAnswers.quiet`, `ServerTokens.grants/MayBring.free`, ...
"""
from words import (Await, Came, Down, Lapse, LineOf, Raise, SETUP, first_epoch, home, hosts_of, kind_of, lines_of,
                   receiver, resender, sender, servers_of)
from dfs_oracle.pcg import Pcg32
from host_rules import HostPast, Look
from server_rules import ServerPast, Turn
from sound import unsound
from tree import is_at_rest, kept_first

FREE, DELAYED = ("free",), ("delayed",)
# the records of HostDue and ServerDue, and of what is asked of a journal
DUE = ("HostDue", "CallsDue", "RevokeDue", "RepeatsDue", "LeavesDue", "ServerDue", "ServerLines", "ServerAnswers",
       "HasDecided", "HasSent")
RUN = ("StepsMeet", "CameToHost", "CameToServer", "KeepsPlan", "FlagsMet", "IsRun", "IsEnded")


def half(rule):
    record = rule.partition(".")[0].partition("/")[0]
    return "due" if record in DUE else "run" if record in RUN else "may"


class Post:
    """[Posting] What becomes of each message that was sent, in order."""

    def __init__(self, script):
        self.script = script
        self.counts = [0] * len(script.plan)
        net = script.net
        self.net = net
        self.left = [0, 0, 0] if net is None else [net.losses, net.repeats, net.delays]
        self.words = None if net is None else Pcg32(net.seed, 1)
        self.copies = {}            # message: list of ways
        self.lost = {}              # node: messages that were lost and that it has to send again

    def in_net(self, message):
        """[fate_in_net, spent]: the net draws a word for each message but Down"""
        if self.net is None:
            return [FREE]
        lot = self.words.next_u32() % 16
        return lot

    def by_lot(self, lot):
        """[fate_by]"""
        if self.net is None:
            return [FREE]
        left = self.left
        if lot == 0 and left[0] > 0:
            left[0] -= 1
            return []
        if lot == 1 and left[1] > 0:
            left[1] -= 1
            return [FREE, DELAYED]
        if lot in (2, 3) and left[2] > 0:
            left[2] -= 1
            return [DELAYED]
        return [FREE]

    def planned(self, m):
        """[planned]: the first plan line for the message; each line counts its messages"""
        found = None
        for i, line in enumerate(self.script.plan):
            if line.kind == kind_of(m.body) and line.source == sender(m) and line.to == receiver(m):
                self.counts[i] += 1
                if self.counts[i] == line.n and found is None:
                    until = FREE if line.flag is None else ("held", line.flag)
                    found = {"drop": [], "hold": [until], "again": [FREE, until]}[line.deed]
        return found

    def post(self, m):
        """The ways of its copies; none where it is lost."""
        planned = self.planned(m)
        if isinstance(m.body, Down):
            ways = [FREE]
        else:
            lot = self.in_net(m)
            ways = planned if planned is not None else self.by_lot(lot)
        self.copies.setdefault(m, []).extend(ways)
        if not ways:
            self.lost[resender(m)] = self.lost.get(resender(m), 0) + 1
        return ways


class Checker:
    def __init__(self, script, start, epochs, planned=True):
        self.script, self.start, self.epochs, self.planned = script, start, tuple(epochs), planned
        self.roster = script.roster
        self.hosts = {h: HostPast(h) for h in hosts_of(self.roster)}
        self.servers = {v: ServerPast(v, first_epoch(epochs, v)) for v in servers_of(self.roster)}
        self.kept = {v: kept_first(start, v) for v in self.servers}
        self.gone = {v: 0 for v in self.servers}        # lines of servers that have gone
        self.said = {h: set() for h in self.hosts}      # [Said] (server, epoch, moves, body)
        self.raised = set()
        self.lines = {n: {x.number: x for x in lines_of(script, n)} for n in self.nodes()}
        self.post = Post(script)
        self.came = {}              # message: in how many steps it came
        self.lapses = {}            # node: how many lapses
        self.steps = []
        self.looks = []             # the Look of each step of a host, else None

    def nodes(self):
        return [("c", h) for h in self.hosts] + [("s", v) for v in self.servers]

    def begin_faults(self):
        """[IsRun], but for the steps"""
        out = []
        if not is_at_rest(self.start):
            out.append(("IsRun.valid/at_rest", ""))
        if any(f.server != home(f.id) for d in self.start.at.values() for f in d.values()):
            out.append(("IsRun.valid/at_home", ""))
        if self.start.roster != self.script.roster:
            out.append(("IsRun.roster", ""))
        if len(self.epochs) != len(self.roster.capacity):
            out.append(("IsRun.epochs", ""))
        return out

    # progress, for drivers
    def done(self, host):
        """[HostIsDone]"""
        p = self.hosts[host]
        return p.lines_gone == len(lines_of(self.script, ("c", host))) and (p.stopped or p.greeted <= p.has_bye)

    def may_come(self, way):
        """[MayCome]"""
        return way[0] != "held" or way[1] in self.raised

    def left(self, m):
        """How many copies of a message that may come haven't come yet."""
        return sum(self.may_come(w) for w in self.post.copies.get(m, ())) - self.came.get(m, 0)

    def lapses_due(self, node):
        return self.post.lost.get(node, 0) - self.lapses.get(node, 0)

    def line_of(self, node, number):
        return self.lines[node].get(number)

    def step(self, s):
        """The rules that the step breaks: (rule, why). It counts as made whatever it breaks."""
        out = []
        if s.node not in self.lines:
            self.steps.append(s)
            self.looks.append(None)
            return [("StepsMeet/TakesPart", s.node)]
        kind, number = s.node
        m = s.cause.message if isinstance(s.cause, Came) else None
        look = None
        # what came
        if m is not None:
            if kind == "c":
                sent = m.server in self.servers and self.servers[m.server].sent_to(number, m.epoch, m.moves, m.body)
                if m.host != number or m.direction != "to_host" or not sent:
                    out.append(("CameToHost", m))
            else:
                said = m.host in self.said and (number, m.epoch, m.moves, m.body) in self.said[m.host]
                if m.server != number or m.direction != "to_server" or not said:
                    out.append(("CameToServer", m))
        # the plan
        if m is not None:
            self.came[m] = self.came.get(m, 0) + 1
            if self.planned and self.left(m) < 0:
                out.append(("KeepsPlan.copies", m))
        if isinstance(s.cause, Lapse):
            self.lapses[s.node] = self.lapses.get(s.node, 0) + 1
            if self.planned and self.lapses_due(s.node) < 0:
                out.append(("KeepsPlan.lapses", s.node))
        # flags
        line = self.line_of(s.node, s.cause.number) if isinstance(s.cause, LineOf) else None
        if line is not None and isinstance(line.deed, Await) and line.deed.flag not in self.raised:
            out.append(("FlagsMet.awaits", line))
        if kind == "c" and number != SETUP and isinstance(s.cause, LineOf) and not self.done(SETUP):
            out.append(("FlagsMet.setup_first", s.cause))
        # the node's rules
        if kind == "c":
            look = Look(self.script, number, self.hosts[number], s)
            out += look.host_meets()
            self.hosts[number] = look.after
        else:
            turn = Turn(self.script, number, self.servers[number], self.gone[number], self.kept[number], s)
            broken, past, tree = turn.server_meets()
            out += broken
            self.servers[number], self.kept[number] = past, tree
            self.gone[number] += type(s.cause).__name__ in ("LineOf", "RestartAt")
        # what is sent
        for x in s.sent:
            if x.direction != ("to_server" if kind == "c" else "to_host") or number != (
                    x.host if kind == "c" else x.server):
                out.append(("StepsMeet/IsFrom", x))
            faults = unsound(self.roster, x)
            if faults:
                out.append(("StepsMeet/IsSound." + faults[0], x))
            if kind == "c":
                self.said[number].add((x.server, x.epoch, x.moves, x.body))
            self.post.post(x)
        if line is not None and isinstance(line.deed, Raise):
            self.raised.add(line.deed.flag)
        self.steps.append(s)
        self.looks.append(look)
        return out

    def ended(self):
        """[IsEnded]: what isn't so yet"""
        out = [("IsEnded.hosts", h) for h in self.hosts if not self.done(h)]
        out += [("IsEnded.lines", v) for v in self.servers
                if self.gone[v] != len(lines_of(self.script, ("s", v)))]
        out += [("IsEnded.servers", (v, h)) for v, p in self.servers.items() for h in p.listed if h not in p.away]
        return out


class Report(list):
    """The list of (step, rule, why); .checker is the Checker after the last step."""

    def __init__(self, broken, checker):
        super().__init__(broken)
        self.checker = checker

    @property
    def broken(self):
        return self

    def rules(self):
        return sorted({rule for _, rule, _ in self})

    def of(self, which):
        """How many breaks are of this half."""
        return sum(half(rule) == which for _, rule, _ in self)

    def text(self, most=20):
        return "\n".join("step %d: %s %s  %s" % (i, half(rule), rule, str(why)[:300]) for i, rule, why in self[:most])


def check(journal, planned=True, ended=True, stop=False):
    """Which rules each step of a journal breaks.  stop: after the first step that breaks one."""
    c = Checker(journal.script, journal.start, journal.epochs, planned)
    broken = [(0, rule, why) for rule, why in c.begin_faults()]
    for i, s in enumerate(journal.steps, 1):
        broken += [(i, rule, why) for rule, why in c.step(s)]
        if stop and broken:
            return Report(broken, c)
    if ended:
        broken += [(len(journal.steps) + 1, rule, why) for rule, why in c.ended()]
    return Report(broken, c)


if __name__ == "__main__":
    import sys
    from words import read_journal
    from laws import laws_broken
    bad = 0
    for path in sys.argv[1:]:
        journal = read_journal(path)
        report = check(journal)
        laws = laws_broken(journal)
        print("%s: %d steps; breaks: %d of what may be done, %d of what is due, %d of a run, %d of laws" % (
            path, len(journal.steps), report.of("may"), report.of("due"), report.of("run"), len(laws)))
        if report.broken:
            print(report.text())
        for law in laws[:20]:
            print("law", *law)
        bad += bool(report.broken or laws)
    sys.exit(1 if bad else 0)
