"""Messages that are sound and that only a wrong peer sends: each admits a step.

    python3 deadends.py

Each case builds a state by steps that meet the rules, lets the message come, and tries steps of a family of candidates:
some of them must be admitted, and where one is named that is the one.  Status 1 where none is.
"""
import itertools

import words as w
from host_rules import Look
from rules import Checker
from sound import unsound
from server_rules import Turn
from worked import (AT_FILE, BLOCK, FILE, LOCKS, READS, ROOT, TEN, WRITES, down, journal, up, enter_for, host_step,
                    serves, ROOT_STATUS, FILE_STATUS, ACCESS)
from words import *


def tries(c, node, candidates):
    best = None
    for s in candidates:
        if node[0] == "c":
            out = Look(c.script, node[1], c.hosts[node[1]], s).host_meets()
        else:
            out = Turn(c.script, node[1], c.servers[node[1]], c.gone[node[1]], c.kept[node[1]], s).server_meets()[0]
        out += [("IsSound", x) for x in s.sent if unsound(c.roster, x)]
        if best is None or len(out) < len(best[0]):
            best = (out, s)
        yield out
    print("   fewest breaks:", sorted({r for r, _ in best[0]}), "by", str(best[1].sent)[:200] or "nothing sent",
          "applied", [type(x).__name__ for x in best[1].applied])


BAD = []


def report(name, c, node, message, candidates):
    candidates = list(candidates)
    sound = message is None or not unsound(c.roster, message)
    found = [out for out in tries(c, node, candidates)]
    ok = sum(not out for out in found)
    print("%s: the message is sound: %s; %d candidate steps, %d admitted" % (name, sound, len(found), ok))
    if not sound or not ok:
        BAD.append(name)


def prefix(n):
    j = journal()
    c = Checker(j.script, j.start, j.epochs)
    for s in j.steps[:n]:
        assert not c.step(s)
    return c, j


def host_sends(c, host, cause, messages, most=2, **given):
    for n in range(most + 1):
        for sent in itertools.permutations(messages, n):
            yield w.Step(("c", host), cause, sent=tuple(sent), **given)


def case_known():
    """A Done of an entering Change, under fileset 0, with moves that aren't 0, names a fileset of no server."""
    c, j = prefix(4)
    for fileset, moves in ((9 * 65536 + 1, 1), (1, 1)):
        m = to_host(1, 1, 1, Done(0, Known(fileset), Bring(1, NO_FID, 0, ())), moves)
        v = fileset // 65536
        root = root_of(fileset)
        needs = (Need(root, Status(False)), Need(root, Bytes(False, WHOLE)))
        messages = [to_server(1, v, 0, Hello()), to_server(1, v, 0, Fetch(1, root, needs)), up(1, enter_for(WRITES)),
                    up(1, Change(2, 0, NO_FID, True, 1, WRITES)), up(1, Hello())]
        answers = [(), (Answer(1, 1, WRITES, refused("no-fileset"), False),)]
        report("Known(%d)" % fileset, c, ("c", 1), m,
               itertools.chain(*(host_sends(c, 1, Came(m), messages, answers=a) for a in answers)))


def case_gone():
    """A Gone, or a Reclaimed, of a give-back that isn't made yet."""
    c, j = prefix(12)       # the file is written, lines 8 and on are left; the host holds two tokens for update
    m = down(1, Gone(GiveNo(65537, 1)))
    assert not unsound(c.roster, m)
    first = host_step(Came(m))
    report("Gone of what isn't made", c, ("c", 1), m, (first,))
    # the host goes on as if it were honest: line 9 becomes a Sync here
    script = w.change(c.script, lines=tuple(
        w.change(x, deed=MakesCall(Sync(AT_FILE))) if x.number == 9 else x for x in c.script.lines))
    c2 = Checker(script, j.start, j.epochs)
    for s in j.steps[:12]:
        assert not c2.step(s)
    c2.step(first)
    update, block = [t for t in c2.hosts[1].held if isinstance(t.kind, (Status, Bytes)) and t.kind.update]
    sync = Sync(AT_FILE)
    def candidates():
        for number in (1, 2):
            for pieces in ((Piece(0, b"ab"),), ()):
                g = Give(number, FILE, (update.id, block.id), pieces, 2, None)
                for sent in ((), (up(1, GiveBack(g)),)):
                    for dropped in ((Leave(update, ASKED), Leave(block, ASKED)),):
                        yield host_step(LineOf(9), asked=Asked(3, sync), made=(g,), dropped=dropped, sent=sent)
        for a in ((), (Answer(1, 3, sync, OK, True),)):
            yield host_step(LineOf(9), answers=a, asked=None if a else Asked(3, sync))
    report("Sync after it", c2, ("c", 1), m, candidates())


def case_enter():
    """A Change that only enters, whose call names no fileset."""
    c, j = prefix(2)
    for call in (Unlock(b"l"), CloseFile(b"l"), NewFileset(1, b"new", 4, (b"u", (b"g",))),
                 CloneFileset(1, b"home", b"copy")):
        change = Change(1, 0, NO_FID, True, 1, call)
        m = up(1, change)
        want = Wanted(1, change, 0, ())
        def candidates():
            yield serves(Came(m))
            yield serves(Came(m), (want,))
            replies = [OK, refused("no-fileset"), refused("not-locked"), refused("not-opened"), refused("in-use"),
                       refused("exists")]
            for outcome in [Known(65537), Known(65538), Again(), Granted()] + [HasReply(r) for r in replies]:
                d = Done(0, outcome, Bring(1, NO_FID, 0, ()))
                yield serves(Came(m), (want,), (), (down(1, d),))
                if isinstance(outcome, HasReply):
                    x = Written(0, 1, Answer(1, 1, call, outcome.reply, False))
                    yield serves(Came(m), (want, x), (), (down(1, d),))
        report("enter by %s" % type(call).__name__, c, ("s", 1), m, candidates())


def case_lock():
    """A Change of a lock that is numbered under another fileset than its file's."""
    c, j = prefix(10)
    for fileset in (0, 65538, 65537):
        change = Change(2 if fileset == 0 else 1, fileset, FILE, False, 3, LOCKS)
        m = up(1, change)
        needs = (Need(FILE, LockTok(True, TEN)),)
        want = Wanted(1, change, 0, needs)
        t = Token(TokenId(1, 1, 6), 1, FILE, LockTok(True, TEN))
        def candidates():
            yield serves(Came(m))
            yield serves(Came(m), (want,))
            outs = [(Granted(), Bring(change.number, FILE, 3, (t,))), (Again(), Bring(change.number, NO_FID, 0, ()))]
            outs += [(HasReply(r), Bring(change.number, NO_FID, 0, ()))
                     for r in (OK, refused("locked"), refused("in-use"), refused("no-entry"))]
            for outcome, bring in outs:
                d = Done(fileset, outcome, bring)
                yield serves(Came(m), (want,), (), (down(1, d),))
                if isinstance(outcome, HasReply):
                    x = Written(fileset, change.number, Answer(1, 3, LOCKS, outcome.reply, False))
                    yield serves(Came(m), (want, x), (), (down(1, d),))
        report("lock numbered under %d" % fileset, c, ("s", 1), m, candidates())


def case_welcome():
    """A Reclaimed before any Hello: it welcomes nobody, so the host may still greet."""
    j = journal()
    c = Checker(j.script, j.start, j.epochs)
    m = down(1, Reclaimed())
    s = host_step(Came(m))
    report("Reclaimed before the Hello", c, ("c", 1), m, (s,))
    c.hosts[1] = Look(c.script, 1, c.hosts[1], s).after
    report("Hello after it", c, ("c", 1), None,
           host_sends(c, 1, LineOf(6), [up(1, Hello()), up(0, Hello()), up(1, enter_for(WRITES))], 1,
                      asked=Asked(1, WRITES)))


def case_other_file():
    """A Revoke of one file that names tokens of another, one of them twice: each is answered under its own file."""
    c, j = prefix(12)       # two tokens for update of the file, bytes and length dirty
    update, block = [t for t in c.hosts[1].held if isinstance(t.kind, (Status, Bytes)) and t.kind.update]
    m = down(1, Revoke(ROOT, 9, (ROOT_STATUS.id, block.id, FILE_STATUS.id, FILE_STATUS.id)))
    gift = Give(1, FILE, (block.id,), (Piece(0, b"ab"),), 2)
    named = [up(1, Returned(ROOT, (ROOT_STATUS.id,))), up(1, Returned(FILE, (FILE_STATUS.id,)))]
    dropped = tuple(Leave(t, REVOKED) for t in (ROOT_STATUS, block, FILE_STATUS))
    report("Revoke of another file's tokens", c, ("c", 1), m,
           (host_step(Came(m), made=(gift,), dropped=dropped, sent=(up(1, GiveBack(gift)), *named)),))
    unheld = down(1, Revoke(ROOT, 9, (TokenId(1, 1, 99),)))
    report("Revoke of a token that isn't held", c, ("c", 1), unheld,
           host_sends(c, 1, Came(unheld), [up(1, Returned(fid, (TokenId(1, 1, 99),))) for fid in (ROOT, FILE)]))


def case_dirty():
    """A Grant shows other bytes where the host has dirty ones: they are given back as it sees them then."""
    j = journal()
    write = Write(AT_FILE, 2000, b"x")
    script = w.change(j.script, lines=tuple(
        w.change(x, deed=MakesCall(write)) if x.number == 7 else x for x in j.script.lines))
    c = Checker(script, j.start, j.epochs)
    for s in j.steps[:11]:
        assert not c.step(s)
    update, block = [t for t in c.hosts[1].held if isinstance(t.kind, (Status, Bytes)) and t.kind.update]
    fetch = Fetch(4, FILE, (Need(FILE, Bytes(True, span_between(1024, 2048))),))
    assert not [x for x in Look(script, 1, c.hosts[1], host_step(
        LineOf(7), asked=Asked(2, write), sent=(up(1, fetch),))).host_meets()]
    c.step(host_step(LineOf(7), asked=Asked(2, write), sent=(up(1, fetch),)))
    more = w.change(block, id=TokenId(1, 1, 9), kind=Bytes(True, span_between(0, 2048)))
    m = down(1, Grant(Bring(4, FILE, 3, (more,)), StatusOf(False, False, 2, b"u", b"g", (ACCESS,)), (Piece(0, b"yz"),)))
    s = host_step(Came(m), taken=(more,), answers=(Answer(1, 2, write, OK, False),), wrote=FILE)
    report("Grant over dirty bytes", c, ("c", 1), m, (s,))
    c.step(s)
    m = down(1, Revoke(FILE, 4, (update.id, block.id, more.id)))
    for first, name in ((b"yz", "as they are seen"), (b"ab", "as they were written")):
        gift = Give(1, FILE, (update.id, block.id, more.id), (Piece(0, first), Piece(2000, b"x")), 2001)
        s = host_step(Came(m), made=(gift,), dropped=tuple(Leave(t, REVOKED) for t in (update, block, more)),
                      sent=(up(1, GiveBack(gift)),))
        broken = [r for r, _ in Look(script, 1, c.hosts[1], s).host_meets()]
        print("   the bytes %s: breaks %s" % (name, broken))
        if bool(broken) != (first == b"ab"):
            BAD.append(name)


def case_order():
    """A Change waits, and a later one of its host and fileset is answered; then the first can be decided."""
    c, j = prefix(12)
    say = lambda e, b: to_server(2, 1, e, b)
    clone = CloneFileset(1, b"home", b"copy")
    first, second = Change(1, 0, NO_FID, False, 1, clone), Change(2, 0, NO_FID, True, 2, READS)
    update, block = [t for t in c.hosts[1].held if t.kind == Status(True) or t.kind == Bytes(True, BLOCK)]
    needs = (Need(FILE, Status(False)), Need(FILE, Bytes(False, WHOLE)))
    w1, w2 = Wanted(2, first, 0, needs), Wanted(2, second, 0, ())
    known = Done(0, Known(65537), Bring(2, NO_FID, 0, ()))
    recall = Revoke(FILE, 3, (update.id, block.id))
    gift = Give(1, FILE, (update.id, block.id), (Piece(0, b"ab"),), 2, None)
    steps = [serves(Came(say(0, Hello())), sent=(to_host(2, 1, 1, Reclaimed()),)),
             serves(Came(say(1, first)), (w1,), (), (down(1, recall),)),
             serves(Came(say(1, second)), (w2,), (), (to_host(2, 1, 1, known),))]
    for s in steps:
        turn = Turn(c.script, 1, c.servers[1], c.gone[1], c.kept[1], s)
        broken, past, tree = turn.server_meets()
        if broken:      # the second one makes no want while the first one waits
            assert [r for r, _ in broken] == ["ServerWorks.decides/IsNewRequest"]
            m = s.cause.message
            report("a Change beside one that waits", c, ("s", 1), m, (serves(Came(m)),))
            return
        c.servers[1], c.kept[1] = past, tree
    m = up(1, GiveBack(gift))
    stored = Stored(1, FILE, (span_between(0, 2),), 2)
    gone = down(1, Gone(number_of(gift)))
    def candidates():
        yield serves(Came(m), (stored,), (), (gone,))
        for reply in (OK, refused("exists"), refused("no-room"), refused("in-use")):
            x = Written(0, 1, Answer(2, 1, clone, reply, False))
            d = to_host(2, 1, 1, Done(0, HasReply(reply), Bring(1, NO_FID, 0, ())))
            yield serves(Came(m), (stored, x), (), (gone,))
            yield serves(Came(m), (stored, x), (), (gone, d))
            yield serves(Came(m), (stored,), (), (gone, d))
        for needs2 in ((), needs):
            yield serves(Came(m), (stored, Wanted(2, first, 0, needs2)), (), (gone,))
    report("the first is ready", c, ("s", 1), m, candidates())


if __name__ == "__main__":
    for case in (case_welcome, case_known, case_gone, case_other_file, case_dirty, case_enter, case_lock, case_order):
        case()
    print("%d cases without a step" % len(BAD), BAD or "")
    raise SystemExit(1 if BAD else 0)
