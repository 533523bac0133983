"""Forged messages: does a node have a step that its rules admit, whatever sound message comes to it?

    python3 forge.py SIZE c|s A..B

In random runs of honest nodes a copy of a node is given a forged message: one that came in the run, changed in one or
two places, still sound and addressed to the node. What its machine then does is judged by the node's own rules.  A
break shows a machine that trusts what comes, or rules that need what an honest peer never sends.
"""
import argparse
import copy
import random
import time

import words as w
import drive
from host_rules import Look
from mutate import values
from rules import Checker
from server_rules import Turn
from sound import unsound

POOL = {}


class Forging(drive.Run):
    def __init__(self, *args, side="c", rate=0.7, **given):
        super().__init__(*args, **given)
        self.side, self.rate = side, rate
        self.forger = random.Random(args[1] + 5)
        self.checker = Checker(self.script, self.start, self.epochs)
        self.seen = []
        self.found = []
        self.tried = 0

    def forged(self, node):
        r = self.forger
        old = [m for m in self.seen if w.receiver(m)[0] == node[0]]
        if not old:
            return None
        m = r.choice(old)
        m = w.change(m, **{"host" if node[0] == "c" else "server": node[1]})
        if r.random() < 0.8:
            server = m.server
            if node[0] == "c":
                epoch = self.checker.hosts[node[1]].epoch_at(server)
            else:
                epoch = self.checker.servers[server].epoch
            m = w.change(m, epoch=epoch)
        pool = {"ids": [t.id for x in self.checker.servers.values() for t in x.granted][:8],
                "tokens": [t for x in self.checker.servers.values() for t in x.granted][:8],
                "applied": [w.number_of(g) for h in self.checker.hosts.values() for g in h.made][:6]}
        for _ in range(r.choice((0, 1, 1, 2))):
            todo = [b for _, b in values(m.body, "body", pool)]
            if todo:
                m = w.change(m, body=r.choice(todo))
        if r.random() < 0.1:
            m = w.change(m, epoch=m.epoch + 1)
        if r.random() < 0.05:
            m = w.change(m, moves=1)
        return None if unsound(self.script.roster, m) else m

    def add(self, s):
        self.checker.step(s)
        super().add(s)
        for m in s.sent:
            if m not in self.seen:
                self.seen.append(m)
        if self.forger.random() < self.rate:
            nodes = [("c", h) for h, x in self.hosts.items() if not x.stopped] if self.side == "c" else [
                ("s", v) for v in self.servers]
            node = self.forger.choice(nodes)
            m = self.forged(node)
            if m is not None:
                self.try_forged(node, m)

    def try_forged(self, node, m):
        self.tried += 1
        machine = copy.deepcopy((self.hosts if node[0] == "c" else self.servers)[node[1]])
        try:
            s = machine.message(m)
        except Exception as why:
            self.found.append(("FAILS " + type(why).__name__, str(why)[:100], m, None))
            return
        c = self.checker
        if node[0] == "c":
            out = Look(c.script, node[1], c.hosts[node[1]], s).host_meets()
        else:
            out = Turn(c.script, node[1], c.servers[node[1]], c.gone[node[1]], c.kept[node[1]], s).server_meets()[0]
        for x in s.sent:
            if unsound(c.roster, x):
                out.append(("IsSound", unsound(c.roster, x)))
        for rule, why in out:
            self.found.append((rule, why, m, s))


def main():
    p = argparse.ArgumentParser()
    p.add_argument("size")
    p.add_argument("side")
    p.add_argument("seeds")
    p.add_argument("--most", type=int, default=2)
    a = p.parse_args()
    lo, hi = map(int, a.seeds.split(".."))
    began, tried, kinds = time.time(), 0, {}
    for seed in range(lo, hi):
        r = random.Random(seed)
        size = drive.SIZES[a.size]
        script = drive.random_script(r, size)
        start = drive.start_tree(r, script.roster, [(x.deed.call.server, x.deed.call.name) for x in script.setup])
        epochs = tuple(r.choice((1, 1, 5)) for _ in script.roster.capacity)
        run = Forging(script, seed, "wild", seed % 2 == 1, start, epochs, side=a.side)
        run.go()
        tried += run.tried
        for rule, why, m, s in run.found:
            key = (rule, type(m.body).__name__)
            kinds.setdefault(key, []).append((seed, why, m, s))
    print("forge %s %s: %d forged messages, %.1f s" % (a.size, a.side, tried, time.time() - began))
    for key in sorted(kinds, key=lambda k: -len(kinds[k])):
        print("%5d %s" % (len(kinds[key]), " ".join(key)))
        for seed, why, m, s in kinds[key][:a.most]:
            print("       seed", seed, str(why)[:200])
            print("       came", str(m)[:600])
    return 1 if kinds else 0


if __name__ == "__main__":
    raise SystemExit(main())
