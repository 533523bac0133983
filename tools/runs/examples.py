"""The steps of crate run_examples, which Rattle admits: the checker has to admit them too, with a lapse after each.

    python3 examples.py
"""
import words as w
from words import *
from host_rules import HostPast, Look
from server_rules import ServerPast, Turn
from tree import kept_first
from worked import *

ROSTER_OF_ONE = roster(1)


def script_of_deeds(*deeds):
    return Script(1, ROSTER_OF_ONE, (), (), None, tuple(Line(6 + i, ("c", 1), d) for i, d in enumerate(deeds)))


WRITING, STOPPING = script_of_deeds(MakesCall(WRITES)), script_of_deeds(MakesCall(WRITES), Stop())
LOCKING, LOCKING_ALONE = script_of_deeds(MakesCall(LOCKS), MakesCall(UNLOCKS)), script_of_deeds(MakesCall(LOCKS))
CACHING = w.change(WRITING, roster=w.change(ROSTER_OF_ONE, hosts=((0, 4),)))
RESTARTING = w.change(WRITING, lines=(Line(8, ("s", 1), Restart()),))


def greets(call):
    return host_step(LineOf(6), asked=Asked(1, call), sent=(up(0, Hello()),))


def enters(call):
    return host_step(Came(down(1, Reclaimed())), sent=(up(1, enter_for(call)),))


def asks_for(n, fid, *needs, epoch=1):
    return up(epoch, Fetch(n, fid, needs))


ASKS_ROOT = host_step(Came(down(1, ENTERED)), sent=(asks_for(1, ROOT, *ROOT_NEEDS),))
GRANT1 = grants(1, ROOT, 1, (ROOT_STATUS, ROOT_ENTRIES), True, (ENTRY,))
GRANT2 = grants(2, FILE, 1, (FILE_STATUS,), False)
GRANT3 = grants(3, FILE, 2, (FILE_UPDATE, FILE_BYTES), False)
ASKS_FILE = host_step(Came(GRANT1), taken=(ROOT_STATUS, ROOT_ENTRIES), sent=(asks_for(2, FILE, *FILE_NEEDS),))
ASKS_UPDATE = host_step(Came(GRANT2), taken=(FILE_STATUS,), sent=(asks_for(3, FILE, *UPDATE_NEEDS),))
GROWS = host_step(Came(GRANT3), taken=(FILE_UPDATE, FILE_BYTES), answers=(Answer(1, 1, WRITES, OK, False),), wrote=FILE)


def begin(call):
    return [greets(call), enters(call), ASKS_ROOT, ASKS_FILE]


GROWN = begin(WRITES) + [ASKS_UPDATE, GROWS]
GIFT = Give(1, FILE, (FILE_UPDATE.id, FILE_BYTES.id), (Piece(0, b"ab"),), 2)
RECALLS = down(1, Revoke(FILE, 3, (FILE_STATUS.id, FILE_UPDATE.id, FILE_BYTES.id)))
FILE_TOKENS = (FILE_STATUS, FILE_UPDATE, FILE_BYTES)
GIVES = host_step(Came(RECALLS), made=(GIFT,), dropped=tuple(Leave(t, REVOKED) for t in FILE_TOKENS),
                  sent=(up(1, GiveBack(GIFT)), up(1, Returned(FILE, (FILE_STATUS.id,)))))
LEARNS = host_step(Came(down(1, Gone(number_of(GIFT)))))
ALL = (ROOT_STATUS, ROOT_ENTRIES) + FILE_TOKENS


def claim(tokens, give):
    return up(2, Reclaim(tokens, (Outstanding(65537, 0, give, 0),)))


RESTARTED = host_step(Came(down(2, Restarted())), sent=(claim(ALL, 0),))
CLAIMS_GIFT = claim((ROOT_STATUS, ROOT_ENTRIES, FILE_UPDATE, FILE_BYTES), 1)
RESTARTED_LATE = host_step(Came(down(2, Restarted())), sent=(up(2, GiveBack(GIFT)), CLAIMS_GIFT))
RECLAIMED = host_step(Came(down(2, Reclaimed())))
STOPS = host_step(LineOf(7), dropped=tuple(Leave(t, STOPPED) for t in ALL), sent=(up(1, Down()),))
ENDS = host_step(End(), made=(GIFT,), dropped=tuple(Leave(t, ENDED) for t in ALL),
                 sent=(up(1, GiveBack(GIFT)), up(1, Returned(ROOT, (ROOT_STATUS.id, ROOT_ENTRIES.id))),
                       up(1, Returned(FILE, (FILE_STATUS.id,)))))
SAYS_BYE = host_step(End(), sent=(up(1, Bye()),))
HEARS_BYE = host_step(Came(down(1, Bye())))
FILE_LOCK = token(4, FILE, LockTok(True, TEN))
LOCK_CHANGE = Change(1, 65537, FILE, False, 1, LOCKS)
ASKS_LOCK = host_step(Came(GRANT2), taken=(FILE_STATUS,), sent=(up(1, LOCK_CHANGE),))
TAKES_LOCK = host_step(Came(down(1, Done(65537, Granted(), Bring(1, FILE, 2, (FILE_LOCK,))))), taken=(FILE_LOCK,),
                       answers=(Answer(1, 1, LOCKS, OK, False),), begun=(Labelled(b"l", FILE_LOCK),))
LOCKED = begin(LOCKS) + [ASKS_LOCK, TAKES_LOCK]
KEEPS = host_step(Came(down(1, Revoke(FILE, 3, (FILE_LOCK.id,)))), sent=(up(1, Kept(FILE, (FILE_LOCK.id,))),))
LOCK_GIFT = Give(1, FILE, (FILE_LOCK.id,), (), None, Ends(2, UNLOCKS))
FREES = host_step(LineOf(7), asked=Asked(2, UNLOCKS), made=(LOCK_GIFT,), dropped=(Leave(FILE_LOCK, ASKED),),
                  sent=(up(1, GiveBack(LOCK_GIFT)),))
LEARNS_FREED = host_step(Came(down(1, Gone(number_of(LOCK_GIFT)))))
UNLOCKS_LAST = host_step(End(), answers=(Answer(1, 2, UNLOCKS, OK, True),))
LOCKED_TOKENS = (ROOT_STATUS, ROOT_ENTRIES, FILE_STATUS, FILE_LOCK)
RETURNS_ALL = host_step(End(), dropped=tuple(Leave(t, ENDED) for t in LOCKED_TOKENS),
                        sent=(up(1, Returned(ROOT, (ROOT_STATUS.id, ROOT_ENTRIES.id))),
                              up(1, Returned(FILE, (FILE_STATUS.id, FILE_LOCK.id)))))
FREES_LAST = w.change(FREES, cause=End())
EVICT_GIFT = w.change(GIFT, ids=(FILE_BYTES.id,))
EVICTS = host_step(Evict(), made=(EVICT_GIFT,), dropped=(Leave(FILE_BYTES, EVICTED),),
                   sent=(up(1, GiveBack(EVICT_GIFT)),))

# (script, past, step, what a lapse after it sends; None where no lapse may follow)
HOST = [
    (WRITING, begin(WRITES)[:3], ASKS_FILE, (asks_for(2, FILE, *FILE_NEEDS),)),
    (WRITING, begin(WRITES), ASKS_UPDATE, (asks_for(3, FILE, *UPDATE_NEEDS),)),
    (WRITING, begin(WRITES) + [ASKS_UPDATE], GROWS, ()),
    (WRITING, GROWN, GIVES, (up(1, GiveBack(GIFT)),)),
    (WRITING, GROWN + [GIVES], LEARNS, ()),
    (WRITING, GROWN, RESTARTED, (claim(ALL, 0),)),
    (WRITING, GROWN + [GIVES], RESTARTED_LATE, (up(2, GiveBack(GIFT)), CLAIMS_GIFT)),
    (WRITING, GROWN + [RESTARTED], RECLAIMED, ()),
    (STOPPING, GROWN, STOPS, None),
    (WRITING, GROWN, ENDS, (up(1, GiveBack(GIFT)),)),
    (WRITING, GROWN + [ENDS, LEARNS], SAYS_BYE, (up(1, Bye()),)),
    (WRITING, GROWN + [ENDS, LEARNS, SAYS_BYE], HEARS_BYE, ()),
    (LOCKING, begin(LOCKS) + [ASKS_LOCK], TAKES_LOCK, ()),
    (LOCKING, LOCKED, KEEPS, ()),
    (LOCKING, LOCKED + [KEEPS], FREES, (up(1, GiveBack(LOCK_GIFT)),)),
    (LOCKING, LOCKED + [KEEPS, FREES], LEARNS_FREED, ()),
    (LOCKING_ALONE, LOCKED, UNLOCKS_LAST, ()),
    (LOCKING_ALONE, LOCKED + [UNLOCKS_LAST], RETURNS_ALL, ()),
    (LOCKING_ALONE, LOCKED + [KEEPS], FREES_LAST, (up(1, GiveBack(LOCK_GIFT)),)),
    (CACHING, GROWN, EVICTS, (up(1, GiveBack(EVICT_GIFT)),)),
]


def fetched(fetch, grant):
    return takes_request(up(1, fetch), fetch.needs, grant)


SERVED = [serves(Came(up(0, Hello())), sent=(down(1, Reclaimed()),)),
          takes_request(up(1, enter_for(WRITES)), (), down(1, ENTERED)),
          fetched(Fetch(1, ROOT, ROOT_NEEDS), GRANT1), fetched(Fetch(2, FILE, FILE_NEEDS), GRANT2),
          fetched(Fetch(3, FILE, UPDATE_NEEDS), GRANT3)]
STORED = Stored(1, FILE, (span_between(0, 2),), 2)
STORES = serves(Came(up(1, GiveBack(GIFT))), (STORED,), (), (down(1, Gone(number_of(GIFT))),))
HEARS_RETURNED = serves(Came(up(1, Returned(FILE, (FILE_STATUS.id,)))))
HEARS_DOWN = serves(Came(up(1, Down())), (IsDown(1),))
ANSWERS_BYE = serves(Came(up(1, Bye())), sent=(down(1, Bye()),))
RESTARTS = serves(RestartAt(8), sent=(down(2, Restarted()),))
ADMITS = serves(Came(claim(ALL, 0)), (), (Admission(1, ALL),), (down(2, Reclaimed()),))
SHARED = SERVED + [serves(Came(up(0, Hello(), 2)), sent=(down(1, Reclaimed(), 2),))]
OTHER_FETCH = Fetch(1, FILE, FILE_NEEDS)


def recall(stamp):
    return down(1, Revoke(FILE, stamp, (FILE_UPDATE.id,)))


CALLS_BACK = takes_request(up(1, OTHER_FETCH, 2), FILE_NEEDS, recall(3))
OTHER_STATUS = token(6, FILE, Status(False), 2)
OTHER_GRANT = Grant(Bring(1, FILE, 4, (OTHER_STATUS,)), status_of(False, 2))
STORES_AND_GRANTS = serves(Came(up(1, GiveBack(GIFT))), (STORED,), (),
                           (down(1, Gone(number_of(GIFT))), down(1, OTHER_GRANT, 2)))
# a Change that waits in a grace period, which the last host's claim ends after the decisions of its step: it is decided
# in the next step, and no line of the server goes before it
FLAGGING = w.change(WRITING, lines=(Line(8, ("s", 1), Restart()), Line(12, ("s", 1), Raise(b"f"))))
REMOVES = Remove(Place(SITE, b"home", (b"x",)))
REMOVAL = Change(1, 65537, ROOT, False, 1, REMOVES)
CLAIMS_NONE = Reclaim((), ())
RESTARTED_BOTH = [serves(Came(up(0, Hello())), sent=(down(1, Reclaimed()),)),
                  takes_request(up(1, enter_for(REMOVES)), (), down(1, ENTERED)),
                  serves(Came(up(0, Hello(), 2)), sent=(down(1, Reclaimed(), 2),)),
                  serves(RestartAt(8), sent=(down(2, Restarted()), down(2, Restarted(), 2))),
                  serves(Came(up(2, CLAIMS_NONE)), (), (Admission(1, ()),), (down(2, Reclaimed()),))]
WAITS = takes_request(up(2, REMOVAL), ())
ENDS_GRACE = serves(Came(up(2, CLAIMS_NONE, 2)), (), (Admission(2, ()),), (down(2, Reclaimed(), 2),))
RAISES = serves(LineOf(12))
NO_ENTRY = refused("no-entry")
DECIDES = serves(Flushed(), (Written(65537, 1, Answer(1, 1, REMOVES, NO_ENTRY, False)),), (),
                 (down(2, Done(65537, HasReply(NO_ENTRY), Bring(1, NO_FID, 0, ()))),))
READY = RESTARTED_BOTH + [WAITS, ENDS_GRACE]
SERVER = [
    (WRITING, SERVED, STORES, ()), (WRITING, SERVED + [STORES], HEARS_RETURNED, ()), (WRITING, SERVED, HEARS_DOWN, ()),
    (WRITING, SERVED + [STORES, HEARS_RETURNED], ANSWERS_BYE, ()),
    (RESTARTING, SERVED, RESTARTS, (down(2, Restarted()),)), (RESTARTING, SERVED + [RESTARTS], ADMITS, ()),
    (WRITING, SHARED, CALLS_BACK, (recall(4),)), (WRITING, SHARED + [CALLS_BACK], STORES_AND_GRANTS, ()),
    (FLAGGING, RESTARTED_BOTH, WAITS, (down(2, Restarted(), 2),)), (FLAGGING, READY, DECIDES, ()),
    (FLAGGING, READY + [DECIDES], RAISES, ()),
]
# (script, past, step that isn't admitted, the one rule that it breaks)
SERVER_BAD = [(FLAGGING, READY, RAISES, "HasDecided.refused")]


def main():
    bad = 0

    def say(n, what, broken):
        nonlocal bad
        if broken:
            bad += 1
            print(what, n, broken)
    for n, (script, before, s, again) in enumerate(HOST):
        past = HostPast(1)
        for x in before:
            past = Look(script, 1, past, x).after
        look = Look(script, 1, past, s)
        say(n, "host", look.host_meets())
        if again is not None:
            say(n, "host, lapse", Look(script, 1, look.after, host_step(Lapse(), sent=again)).host_meets())
    start = file_tree(ROSTER_OF_ONE)
    start.roster = roster(2)
    start.hosts = list(roster(2).hosts)
    for n, (script, before, s, again) in enumerate(SERVER):
        script = w.change(script, roster=roster(2))
        past, tree, gone = ServerPast(1, 1), kept_first(start, 1), 0
        for x in before + [s]:
            broken, past, tree = Turn(script, 1, past, gone, tree, x).server_meets()
            gone += isinstance(x.cause, (RestartAt, LineOf))
            say(n, "server, before" if x is not s else "server", broken)
        say(n, "server, lapse", Turn(script, 1, past, gone, tree, serves(Lapse(), sent=again)).server_meets()[0])
    for n, (script, before, s, rule) in enumerate(SERVER_BAD):
        script = w.change(script, roster=roster(2))
        past, tree, gone = ServerPast(1, 1), kept_first(start, 1), 0
        for x in before:
            broken, past, tree = Turn(script, 1, past, gone, tree, x).server_meets()
            gone += isinstance(x.cause, (RestartAt, LineOf))
            say(n, "server, before", broken)
        broken = Turn(script, 1, past, gone, tree, s).server_meets()[0]
        say(n, "server, not refused so", [] if [b[0] for b in broken] == [rule] else (rule, broken))
    print("%d steps of hosts, %d of servers, each with a lapse after it, %d steps that are refused: %d bad"
          % (len(HOST), len(SERVER), len(SERVER_BAD), bad))
    return 1 if bad else 0


if __name__ == "__main__":
    raise SystemExit(main())
