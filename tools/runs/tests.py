"""Tests of the checker: the worked run is admitted, and each changed step of it breaks the rule that it should.

    python3 tests.py
"""
import words as w
from words import *
from laws import laws_broken
from mutate import judge
from rules import Checker, check
from worked import *
from worked import journal

J = journal()


def at(n):
    """The checker after the steps before step n, and step n."""
    c = Checker(J.script, J.start, J.epochs)
    for s in J.steps[:n - 1]:
        assert not c.step(s)
    return c, J.steps[n - 1] if n <= len(J.steps) else None


def body(s, i, **given):
    """The step with another body of its message i."""
    sent = list(s.sent)
    sent[i] = w.change(sent[i], body=w.change(sent[i].body, **given))
    return w.change(s, sent=tuple(sent))


# (step, what, the changed step, the rule)
CASES = [
    (1, "no greeting", lambda s: w.change(s, sent=()), "HostAsks.asks"),
    (1, "another call", lambda s: w.change(s, asked=Asked(2, WRITES)), "HostLines.next"),
    (1, "greets twice", lambda s: w.change(s, sent=s.sent * 2), "HostDue.once"),
    (1, "applies", lambda s: w.change(s, applied=(IsDown(1),)), "HostLines.applies_none"),
    (1, "flushes", lambda s: w.change(s, cause=Flushed()), "HostLines.no_server"),
    (2, "no welcome", lambda s: w.change(s, sent=()), "ServerAnswers.hello"),
    (2, "welcomes twice", lambda s: w.change(s, sent=s.sent * 2), "HasSent.once"),
    (2, "a host's doing", lambda s: w.change(s, wrote=FILE), "NoHostStep.does_none"),
    (2, "evicts", lambda s: w.change(s, cause=Evict()), "NoHostStep.causes"),
    (2, "leaves out", lambda s: body(s, 0, left_out=(TokenId(1, 1, 1),)), "ServerTokens.left_out"),
    (3, "enters twice", lambda s: body(s, 0, number=2), "HostAsks.changes/next"),
    (3, "no entering", lambda s: body(s, 0, enter=False), "HostAsks.changes/enters"),
    (4, "no want", lambda s: w.change(s, applied=()), "HasDecided.news"),
    (4, "no number", lambda s: w.change(s, sent=()), "HasSent.enters"),
    (4, "welcomes again", lambda s: w.change(s, sent=s.sent + (down(1, Reclaimed()),)), "OnlyAnswers.reclaimed_only"),
    (5, "one need", lambda s: body(s, 0, needs=ROOT_NEEDS[:1]), "HostAsks.fetches/needs"),
    (6, "no grant", lambda s: w.change(s, sent=()), "HasSent.grants"),
    (6, "old seq", lambda s: body(s, 0, bring=w.change(s.sent[0].body.bring, tokens=(
        ROOT_STATUS, w.change(ROOT_ENTRIES, id=ROOT_STATUS.id)))), "ServerTokens.grants/MayBring.apart"),
    (6, "first stamp 0", lambda s: body(s, 0, bring=w.change(s.sent[0].body.bring, stamp=0)),
     "ServerTokens.grants/MayBring.stamp"),
    (6, "two tokens for a need", lambda s: body(s, 0, bring=w.change(s.sent[0].body.bring, tokens=(
        ROOT_STATUS, ROOT_ENTRIES, token(3, ROOT, ROOT_ENTRIES.kind)))), "MaySend.grant_for/brings"),
    (6, "settles again", lambda s: w.change(s, sent=s.sent + (down(1, ENTERED),)), "HasSent.dones_only"),
    (6, "tells of no restart", lambda s: w.change(s, sent=s.sent + (down(1, Restarted()),)),
     "ServerAnswers.restarted_only"),
    (7, "takes twice", lambda s: w.change(s, taken=s.taken * 2), "HostDue.once_taken"),
    (7, "takes none", lambda s: w.change(s, taken=()), "HostTakes.all"),
    (10, "tells a byte", lambda s: body(s, 0, pieces=(Piece(3, b"x"),)), "MaySend.grant_for/tells bytes"),
    (10, "conflicts", lambda s: body(s, 0, bring=w.change(s.sent[0].body.bring, stamp=1)),
     "ServerTokens.grants/MayBring.stamp"),
    (11, "no answer", lambda s: w.change(s, answers=(), wrote=None), "HostAnswers.answers_all"),
    (11, "writes nothing", lambda s: w.change(s, wrote=None), "HostAnswers.writes"),
    (11, "other reply", lambda s: w.change(s, answers=(w.change(s.answers[0], reply=refused("locked")),)),
     "HostAnswers.answers"),
    (12, "speaks", lambda s: w.change(s, sent=(up(1, Returned(FILE, ())),)), "HostAnswers.quiet"),
    (12, "drops", lambda s: w.change(s, dropped=(Leave(ROOT_STATUS, REVOKED),)), "HostLeaves.leaves"),
    (13, "tells none", lambda s: w.change(s, sent=()), "ServerAnswers.restarted"),
    (14, "claims none", lambda s: w.change(s, sent=()), "RepeatsDue.restarted_claims"),
    (14, "claims less", lambda s: body(s, 0, tokens=s.sent[0].body.tokens[1:]), "HostTokens.claims/held"),
    (15, "admits less", lambda s: w.change(s, admitted=(w.change(s.admitted[0], tokens=s.admitted[0].tokens[1:]),)),
     "ServerTokens.admits/MayAdmit.whole"),
    (15, "answers none", lambda s: w.change(s, sent=()), "ServerAnswers.claim_now"),
    (19, "no label", lambda s: w.change(s, begun=()), "HostAnswers.locks"),
    (27, "asks none back", lambda s: w.change(s, sent=()), "HasSent.revokes"),
    (28, "returns it", lambda s: w.change(s, made=(), sent=(up(2, Returned(FILE, (FILE_UPDATE.id,))),)),
     "RevokeDue.gives"),
    (28, "no length", lambda s: w.change(s, made=(w.change(s.made[0], length=None),),
                                         sent=(up(2, GiveBack(w.change(s.made[0], length=None))),)),
     "HostGives.length_too"),
    (28, "no token", lambda s: w.change(s, made=(w.change(s.made[0], ids=()),)), "HostGives.names"),
    (28, "makes twice", lambda s: w.change(s, made=s.made * 2), "HostDue.once_made"),
    (28, "drops twice", lambda s: w.change(s, dropped=s.dropped + (w.change(s.dropped[0], why=EVICTED),)),
     "HostDue.once_dropped"),
    (28, "not sent", lambda s: w.change(s, sent=()), "HostGives.sends"),
    (29, "stores none", lambda s: w.change(s, applied=()), "ServerApplies.given"),
    (29, "no Gone", lambda s: w.change(s, sent=s.sent[1:]), "ServerAnswers.gone"),
    (30, "gives again what is known", lambda s: w.change(s, sent=s.sent + (up(2, GiveBack(J.steps[27].made[0])),)),
     "RepeatsDue.gives_only"),
    (33, "returns a used one", lambda s: w.change(s, sent=(up(2, Returned(FILE, s.sent[0].body.ids)),)),
     "HostRevoked.returns_idle"),
    (34, "refuses late", lambda s: w.change(s, applied=(), sent=()), "HasDecided.pinned"),
    (34, "another refusal", lambda s: w.change(s, applied=(w.change(s.applied[0], answer=w.change(
        s.applied[0].answer, reply=refused("in-use"))),)), "ServerWorks.decides/IsWrittenSo"),
    (36, "frees itself", lambda s: w.change(s, asked=None, made=(), dropped=(), sent=(),
                                            answers=(Answer(1, 4, UNLOCKS, OK, True),)), "HostAnswers.answers"),
    (37, "ends nothing", lambda s: w.change(s, applied=()), "ServerApplies.given"),
    (39, "keeps one", lambda s: w.change(s, dropped=s.dropped[:2], sent=s.sent[:1]), "LeavesDue.ends_all"),
    (39, "drops what isn't there", lambda s: w.change(s, dropped=s.dropped + (Leave(FILE_BYTES, ENDED),)),
     "LeavesDue.held"),
    (42, "asks after", lambda s: w.change(s, cause=Lapse()), "RepeatsDue.lapse_only"),
    (43, "no Bye", lambda s: w.change(s, sent=()), "ServerAnswers.bye"),
    (45, "Bye at once", lambda s: w.change(s, sent=s.sent + (up(2, Bye()),)), "HostTokens.bye_gives"),
    (45, "a piece twice", lambda s: w.change(s, made=(w.change(s.made[0], pieces=s.made[0].pieces * 2),)),
     "HostGives.rise"),
    (46, "other bytes", lambda s: w.change(s, applied=(w.change(s.applied[0], spans=()),)), "ServerApplies.given"),
]


def other_needs(f):
    """What else than its needs a Fetch of a file could ask for: one less, one more, another."""
    more = (Need(f.fid, Status(False)), Need(f.fid, Status(True)), Need(f.fid, Bytes(True, Span(16384, 17408))),
            Need(f.fid, Opening("reading")))
    for k, n in enumerate(f.needs):
        yield f.needs[:k] + f.needs[k + 1:]
        yield f.needs[:k] + (w.change(n, kind=w.change(n.kind, update=not n.kind.update)),) + f.needs[k + 1:]
    for n in more:
        if n not in f.needs:
            yield f.needs + (n,)


def file_needs():
    """FileNeeds refuses them: (changed Fetches, how many it takes, how many asked for a status once more)"""
    from drive import Run
    from minimal import make, P
    from progress import start_of
    script = make(2, [("c%d" % h, Write(P, at, b"12345678")) for at in (0, 1030, 1020, 5000, 2044) for h in (1, 2)])
    cases = bad = lost = 0
    for seed in range(12):
        run = Run(script, seed, ("rr", "hub", "wild")[seed % 3], False, start_of(script)).go()
        assert run.ended
        c = Checker(script, run.journal.start, run.journal.epochs)
        for s in run.journal.steps:
            for i, m in enumerate(s.sent):
                f = m.body
                if not isinstance(f, Fetch) or f.fid.anode == 1 or f.needs == (Need(f.fid, Status(False)),):
                    continue
                lost += any(n.kind == Status(False) for n in f.needs)
                for needs in other_needs(f):
                    cases += 1
                    if "HostAsks.fetches/needs" not in [r for r, _ in judge(c, body(s, i, needs=needs))]:
                        bad += 1
                        print("asks", needs, "in place of", f.needs)
            assert not c.step(s)
    assert lost
    return cases, bad, lost


def again():
    """Steps that send once more what isn't due: (step of the run, what it does in its place, the rule)"""
    give = J.steps[27].sent[0]
    return ((30, host_step(Came(down(2, Reclaimed())), sent=(give,)), "RepeatsDue.again_only"),
            (53, host_step(End(), sent=(up(2, Bye()),)), "RepeatsDue.bye_again"),
            (12, host_step(LineOf(7), answers=J.steps[11].answers, sent=(up(1, Hello()),)), "CallsDue.greets"))


def main():
    assert not check(J), check(J).text()
    assert not laws_broken(J)
    bad = 0
    for n, what, changed, rule in CASES:
        c, s = at(n)
        broken = [r for r, _ in judge(c, changed(s))]
        if rule not in broken:
            bad += 1
            print("step %d, %s: expected %s, broken %s" % (n, what, rule, broken))
    # the run as a whole
    for steps, rule in ((J.steps[:51], "IsEnded.hosts"), (J.steps[:2] + J.steps[1:], "KeepsPlan.copies"),
                        (J.steps[:1] + J.steps[2:], "CameToHost"), (J.steps[:12] + [host_step(Lapse())] + J.steps[12:],
                                                                   "KeepsPlan.lapses")):
        found = check(J.with_steps(steps)).rules()
        if rule not in found:
            bad += 1
            print("expected %s, broken %s" % (rule, found))
    # a step after a stop; a token for the wrong opening
    script = w.change(J.script, lines=J.script.lines[:1] + (Line(7, ("c", 1), Stop()),))
    c = Checker(script, J.start, J.epochs)
    for s in J.steps[:11]:
        c.step(s)
    stop = host_step(LineOf(7), dropped=tuple(Leave(t, STOPPED) for t in c.hosts[1].held), sent=(up(1, Down()),))
    assert not c.step(stop)
    assert "HostTokens.live" in [r for r, _ in judge(c, host_step(Lapse()))]
    for n, s, rule in again():
        c, _ = at(n)
        if rule not in [r for r, _ in judge(c, s)]:
            bad += 1
            print("in place of step %d: expected %s, broken %s" % (n, rule, judge(c, s)))
    print("%d cases, %d bad" % (len(CASES) + 9, bad))
    cases, wrong, lost = file_needs()
    print("%d Fetches that ask for other than they should, %d taken; %d asked for a status once more" % (
        cases, wrong, lost))
    bad += wrong
    return 1 if bad else 0


if __name__ == "__main__":
    raise SystemExit(main())
