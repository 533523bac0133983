"""What happens in runs of a setting, counted: python3 stats.py SIZE hub|wild RUNS [lazy]"""
import collections
import sys

import drive
import words as w


def cause_of(s):
    kind = type(s.cause).__name__
    return "Came " + type(s.cause.message.body).__name__ if kind == "Came" else kind


def message_of(body):
    """What is told of a message beside its kind, or nothing."""
    if isinstance(body, w.Done):
        reply = " %s" % (body.outcome.reply[:2],) if isinstance(body.outcome, w.HasReply) else ""
        return "done %s%s" % (type(body.outcome).__name__, reply)
    if isinstance(body, w.Grant):
        return "grant of nothing" if body.status is None else None
    if isinstance(body, w.Reclaim):
        return "claim: tokens %d, give-backs %d" % (min(len(body.tokens), 2), sum(o.give > 0 for o in body.numbers))
    if isinstance(body, w.Reclaimed):
        return "reclaimed: applied %d, left out %d" % (len(body.applied), min(2, len(body.left_out)))
    return None


def cover(journal, count):
    for s in journal.steps:
        count["cause %s %s" % (s.node[0], cause_of(s))] += 1
        for m in s.sent:
            count["sent " + type(m.body).__name__] += 1
            count[message_of(m.body)] += 1
        for x in s.dropped:
            count["leaves " + x.why] += 1
        for g in s.made:
            count["give-back: pieces %d, length %s, ends %s, tokens %d" % (
                min(2, len(g.pieces)), g.length is not None, g.ends is not None, min(2, len(g.ids)))] += 1
        for a in s.answers:
            count["answer %s %s%s" % (type(a.call).__name__, a.reply[1] if a.reply[0] == "refused" else "ok",
                                      " at once" if a.first else "")] += 1
        for x in s.applied:
            count["applied " + type(x).__name__] += 1
        count["admitted"] += bool(s.admitted)
        count["reserved"] += bool(s.reserved)
        if any(isinstance(x, w.Wanted) for x in s.applied) and cause_of(s) not in ("Came Fetch", "Came Change"):
            count["want made anew"] += 1
        if cause_of(s) == "Came Grant" and not s.taken:
            count["grant that isn't used"] += 1


def main():
    size, mode, n = sys.argv[1], sys.argv[2], int(sys.argv[3])
    count = collections.Counter()
    for seed in range(n):
        cover(drive.trial(seed, drive.SIZES[size], mode, "lazy" in sys.argv).journal, count)
    for what in sorted(k for k in count if k is not None and count[k]):
        print("%7d %s" % (count[what], what))


if __name__ == "__main__":
    main()
