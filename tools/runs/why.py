"""A run as text, and where its machines stand at its end: python3 why.py SEED SIZE hub|wild|rr eager|lazy [STEPS]"""
import sys

import drive


def state(run):
    for h, x in run.hosts.items():
        gives = {f: [(g.give.number, g.sent) for g in found] for f, found in x.gives.items() if found}
        held = [(t.id.seq, tuple(t.fid)[1:], str(t.kind), t.id in x.uses) for t in x.held.values()]
        print("c%d at %d/%d call %s request %s gives %s held %s bye %s" % (
            h, x.at, len(x.lines), x.call, x.request, gives, held, x.said_bye))
    for s, x in run.servers.items():
        print("s%d epoch %d grace %s again %s" % (s, x.epoch, not x.no_grace(), x.again))
        for q in x.waiting.values():
            way = [h and (h.token.host, h.token.id.seq, h.pinned, h.revoked) for h in x.in_way(q)]
            print("   want", q.host, q.request, q.needs, "ready", x.ready(q), "behind", x.is_behind(q), way)
        for t in x.tokens.values():
            print("   token", t.token.host, t.token.id.seq, tuple(t.token.fid), t.token.kind, t.pinned, t.revoked)
    print("packets", run.net.packets, "due", run.net.due)


def main():
    seed, size, mode, store = int(sys.argv[1]), *sys.argv[2:5]
    run = drive.make(seed, drive.SIZES[size], mode, store == "lazy")
    out = run.go()
    print(drive.describe(run.script))
    n = int(sys.argv[5]) if len(sys.argv) > 5 else 12
    for i, s in list(enumerate(run.steps, 1))[-n:]:
        print(drive.show(s, i))
    print(out.why or "ended", getattr(out, "trace", ""))
    state(run)


if __name__ == "__main__":
    main()
