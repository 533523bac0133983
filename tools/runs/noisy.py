"""Runs in which nodes also do what the rules allow beyond what a straightforward machine does: messages are sent
again, unasked, and the order of what is sent changes, wherever the rules admit the changed step.

    python3 noisy.py SIZE MODE A..B [--no KIND ..]      KIND: again, reclaimed, reclaimed_live,
                                            restarted, swap
"""
import argparse
import random
import time

import words as w
import drive
from laws import Laws
from mutate import judge
from rules import Checker


class Noisy(drive.Run):
    def __init__(self, *args, noise=0.3, kinds=("again", "reclaimed", "restarted", "swap"), **given):
        super().__init__(*args, **given)
        self.noise, self.noises = noise, kinds
        self.noise_random = random.Random(args[1] * 7 + 1)
        self.checker = Checker(self.script, self.start, self.epochs)
        self.laws = Laws(self.checker, deep=True)
        self.faults = []
        self.said = {}
        self.added = {}

    def candidates(self, s):
        r, node = self.noise_random, s.node
        if "again" in self.noises:
            old = self.said.get(node, [])
            for m in r.sample(old, min(3, len(old))):
                epoch = m.epoch
                if node[0] == "s":
                    epoch = self.servers[node[1]].epoch
                else:
                    epoch = self.hosts[node[1]].epochs.get(m.server, m.epoch) if hasattr(
                        self.hosts[node[1]], "epochs") else m.epoch
                yield "again " + type(m.body).__name__, w.change(s, sent=s.sent + (w.change(m, epoch=epoch),))
        if node[0] == "s":
            host = r.choice(list(self.hosts))
            epoch = self.servers[node[1]].epoch
            for name, body in (("reclaimed", w.Reclaimed()), ("reclaimed_live", w.Reclaimed()),
                               ("restarted", w.Restarted())):
                if name == "reclaimed_live" and host not in self.checker.servers[node[1]].listed:
                    continue
                if name in self.noises:
                    yield name, w.change(s, sent=s.sent + (w.to_host(host, node[1], epoch, body),))
        if "swap" in self.kinds and len(s.sent) > 1:
            i = r.randrange(len(s.sent) - 1)
            t = list(s.sent)
            t[i], t[i + 1] = t[i + 1], t[i]
            yield "swap", w.change(s, sent=tuple(t))

    def add(self, s):
        if self.noise_random.random() < self.noise:
            for what, t in self.candidates(s):
                if t != s and not judge(self.checker, t):
                    self.added[what] = self.added.get(what, 0) + 1
                    s = t
                    break
        broken = self.checker.step(s)
        self.faults += [(len(self.steps) + 1, rule, why) for rule, why in broken]
        self.faults += [(len(self.steps) + 1, "LAW " + law, why) for law, why in self.laws.step()]
        if self.faults:
            self.steps.append(s)
            raise drive.Stuck("fault")
        for m in s.sent:
            mine = self.said.setdefault(s.node, [])
            if m not in mine:
                mine.append(m)
        super().add(s)


def trial(seed, size, mode, lazy, **given):
    run = drive.make(seed, size, mode, lazy, Noisy, **given)
    return run, run.go()


def main():
    p = argparse.ArgumentParser()
    p.add_argument("size")
    p.add_argument("mode")
    p.add_argument("seeds")
    p.add_argument("--no", nargs="*", default=[])
    p.add_argument("--noise", type=float, default=0.3)
    p.add_argument("--stop", type=int, default=4)
    a = p.parse_args()
    lo, hi = map(int, a.seeds.split(".."))
    kinds = tuple(k for k in ("again", "reclaimed", "reclaimed_live", "restarted", "swap") if k not in a.no)
    began, bad, n, steps, added = time.time(), 0, 0, 0, {}
    for seed in range(lo, hi):
        run, out = trial(seed, drive.SIZES[a.size], a.mode, seed % 2 == 1, kinds=kinds, noise=a.noise)
        n += 1
        steps += len(run.steps)
        for k, v in run.added.items():
            added[k] = added.get(k, 0) + v
        if not out.ended or run.faults:
            bad += 1
            print("seed", seed, "steps", len(run.steps), out.why, run.added)
            for f in run.faults[:3]:
                print("   ", f[0], f[1], str(f[2])[:600])
            if hasattr(out, "trace") and not run.faults:
                print(out.trace[-600:])
            if bad >= a.stop:
                break
    print("noisy %s %s: %d runs, %d steps, %d bad, %.1f s; added %s" % (a.size, a.mode, n, steps, bad,
                                                                       time.time() - began, added), flush=True)
    return 1 if bad else 0


if __name__ == "__main__":
    raise SystemExit(main())
