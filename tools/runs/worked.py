"""The worked run of crate run_examples (52 steps), transcribed."""
from words import *
from words import Restart
from dfs_oracle.tree import Dir, File, Fileset
from tree import Tree

CLIENT, OTHER, SITE = 1, 2, 1
ACCESS = (("user_obj", None, 63), ("group_obj", None, 5), ("other_obj", None, 5))
ROOT, FILE = root_of(65537), Fid(65537, 2, 1)
AT_FILE = Place(SITE, b"home", (b"f",))
USERS = ((b"u", (b"g",)),)


def roster(hosts=2, limit=64):
    return Roster(USERS, ((0, limit),) * hosts, (16384,))


def file_tree(r):
    t = Tree(r)
    f = Fileset(1, 65537, b"home", False, 2)
    f.unique = [0, 1, 1]
    root = Dir(b"u", b"g", ACCESS, ACCESS, ACCESS)
    root.entries = {b"f": 2}
    f.objects = {1: root, 2: File(b"u", b"g", ACCESS)}
    t.at[1][b"home"] = f
    t.next[1] = 2
    return t


def token(seq, fid, kind, host=CLIENT, epoch=1):
    return Token(TokenId(1, epoch, seq), host, fid, kind)


WRITES, READS = Write(AT_FILE, 0, b"ab"), Read(AT_FILE, 0, 2)
LOCKS, UNLOCKS, LOCKS_TOO = Lock(b"l", AT_FILE, True, 0, 10), Unlock(b"l"), Lock(b"m", AT_FILE, True, 0, 10)
BLOCK, TEN = span_between(0, 1024), span_between(0, 10)
ROOT_STATUS, ROOT_ENTRIES = token(1, ROOT, Status(False)), token(2, ROOT, Bytes(False, WHOLE))
FILE_STATUS, FILE_UPDATE = token(3, FILE, Status(False)), token(4, FILE, Status(True))
FILE_BYTES = token(5, FILE, Bytes(True, BLOCK))
ENTRY = DirEntry(b"f", 2, 1)


def host_step(cause, host=CLIENT, **given):
    return Step(("c", host), cause, **given)


def serves(cause, applied=(), admitted=(), sent=()):
    return Step(("s", SITE), cause, applied=applied, admitted=admitted, sent=sent)


def up(epoch, body, host=CLIENT):
    return to_server(host, SITE, epoch, body)


def down(epoch, body, host=CLIENT):
    return to_host(host, SITE, epoch, body)


def enter_for(call):
    return Change(1, 0, NO_FID, True, 1, call)


ENTERED = Done(0, Known(65537), Bring(1, NO_FID, 0, ()))


def status_of(is_dir, length=None):
    return StatusOf(is_dir, False, (1 if is_dir else 0) if length is None else length, b"u", b"g",
                    (ACCESS,) * (3 if is_dir else 1))


def grants(number, fid, stamp, tokens, is_dir, entries=()):
    return down(1, Grant(Bring(number, fid, stamp, tokens), status_of(is_dir), (), entries))


ROOT_NEEDS = (Need(ROOT, Status(False)), Need(ROOT, Bytes(False, WHOLE)))
FILE_NEEDS = (Need(FILE, Status(False)),)
UPDATE_NEEDS = (Need(FILE, Status(True)), Need(FILE, Bytes(True, BLOCK)))
LOCK_NEEDS = (Need(FILE, LockTok(True, TEN)),)


def takes_request(message, needs, *sent):
    return serves(Came(message), (Wanted(message.host, message.body, 0, needs),), (), sent)


def journal():
    r = roster()
    lines = (Line(6, ("c", 1), MakesCall(WRITES)), Line(7, ("c", 1), MakesCall(READS)), Line(8, ("s", 1), Restart()),
             Line(9, ("c", 1), MakesCall(LOCKS)), Line(10, ("c", 2), MakesCall(LOCKS_TOO)),
             Line(11, ("c", 1), MakesCall(UNLOCKS)))
    script = Script(1, r, (), (), None, lines)
    fetch1, fetch2, fetch3 = Fetch(1, ROOT, ROOT_NEEDS), Fetch(2, FILE, FILE_NEEDS), Fetch(3, FILE, UPDATE_NEEDS)
    grant1 = grants(1, ROOT, 1, (ROOT_STATUS, ROOT_ENTRIES), True, (ENTRY,))
    grant2 = grants(2, FILE, 1, (FILE_STATUS,), False)
    grant3 = grants(3, FILE, 2, (FILE_UPDATE, FILE_BYTES), False)
    held = (ROOT_STATUS, ROOT_ENTRIES, FILE_STATUS, FILE_UPDATE, FILE_BYTES)
    claim = Reclaim(held, (Outstanding(65537, 0, 0, 0),))
    s = [
        host_step(LineOf(6), asked=Asked(1, WRITES), sent=(up(0, Hello()),)),
        serves(Came(up(0, Hello())), sent=(down(1, Reclaimed()),)),
        host_step(Came(down(1, Reclaimed())), sent=(up(1, enter_for(WRITES)),)),
        takes_request(up(1, enter_for(WRITES)), (), down(1, ENTERED)),
        host_step(Came(down(1, ENTERED)), sent=(up(1, fetch1),)),
        takes_request(up(1, fetch1), ROOT_NEEDS, grant1),
        host_step(Came(grant1), taken=(ROOT_STATUS, ROOT_ENTRIES), sent=(up(1, fetch2),)),
        takes_request(up(1, fetch2), FILE_NEEDS, grant2),
        host_step(Came(grant2), taken=(FILE_STATUS,), sent=(up(1, fetch3),)),
        takes_request(up(1, fetch3), UPDATE_NEEDS, grant3),
        host_step(Came(grant3), taken=(FILE_UPDATE, FILE_BYTES), answers=(Answer(1, 1, WRITES, OK, False),),
                  wrote=FILE),
        # 12
        host_step(LineOf(7), answers=(Answer(1, 2, READS, ("bytes", b"ab"), True),)),
        serves(RestartAt(8), sent=(down(2, Restarted()),)),
        host_step(Came(down(2, Restarted())), sent=(up(2, claim),)),
        serves(Came(up(2, claim)), (), (Admission(1, held),), (down(2, Reclaimed()),)),
        host_step(Came(down(2, Reclaimed()))),
    ]
    lock1 = Change(1, 65537, FILE, False, 3, LOCKS)
    lock_token = token(1, FILE, LockTok(True, TEN), 1, 2)
    done1 = Done(65537, Granted(), Bring(1, FILE, 1, (lock_token,)))
    s += [
        host_step(LineOf(9), asked=Asked(3, LOCKS), sent=(up(2, lock1),)),
        takes_request(up(2, lock1), LOCK_NEEDS, down(2, done1)),
        host_step(Came(down(2, done1)), taken=(lock_token,), answers=(Answer(1, 3, LOCKS, OK, False),),
                  begun=(Labelled(b"l", lock_token),)),
    ]
    their = [token(2, ROOT, Status(False), 2, 2), token(3, ROOT, Bytes(False, WHOLE), 2, 2),
             token(4, FILE, Status(False), 2, 2)]
    root2 = Grant(Bring(1, ROOT, 1, tuple(their[:2])), status_of(True), (), (ENTRY,))
    gift = Give(1, FILE, (FILE_UPDATE.id,), (), 2, None)
    recall = Revoke(FILE, 2, (FILE_UPDATE.id,))
    file2 = Grant(Bring(2, FILE, 3, (their[2],)), status_of(False, 2))
    lock2 = Change(1, 65537, FILE, False, 1, LOCKS_TOO)
    recall_lock = Revoke(FILE, 4, (lock_token.id,))
    kept = Kept(FILE, (lock_token.id,))
    refusal = Done(65537, HasReply(refused("locked")), Bring(1, NO_FID, 0, ()))
    unlock_gift = Give(2, FILE, (lock_token.id,), (), None, Ends(4, UNLOCKS))
    s += [
        host_step(LineOf(10), 2, asked=Asked(1, LOCKS_TOO), sent=(up(0, Hello(), 2),)),
        serves(Came(up(0, Hello(), 2)), sent=(down(2, Reclaimed(), 2),)),
        host_step(Came(down(2, Reclaimed(), 2)), 2, sent=(up(2, enter_for(LOCKS_TOO), 2),)),
        takes_request(up(2, enter_for(LOCKS_TOO), 2), (), down(2, ENTERED, 2)),
        host_step(Came(down(2, ENTERED, 2)), 2, sent=(up(2, fetch1, 2),)),
        takes_request(up(2, fetch1, 2), ROOT_NEEDS, down(2, root2, 2)),
        host_step(Came(down(2, root2, 2)), 2, taken=tuple(their[:2]), sent=(up(2, fetch2, 2),)),
        takes_request(up(2, fetch2, 2), FILE_NEEDS, down(2, recall)),
        host_step(Came(down(2, recall)), made=(gift,), dropped=(Leave(FILE_UPDATE, REVOKED),),
                  sent=(up(2, GiveBack(gift)),)),
        serves(Came(up(2, GiveBack(gift))), (Stored(1, FILE, (), 2),), (),
               (down(2, Gone(number_of(gift))), down(2, file2, 2))),
        host_step(Came(down(2, Gone(number_of(gift))))),
        host_step(Came(down(2, file2, 2)), 2, taken=(their[2],), sent=(up(2, lock2, 2),)),
        takes_request(up(2, lock2, 2), LOCK_NEEDS, down(2, recall_lock)),
        host_step(Came(down(2, recall_lock)), sent=(up(2, kept),)),
        serves(Came(up(2, kept)), (Written(65537, 1, Answer(2, 1, LOCKS_TOO, refused("locked"), False)),), (),
               (down(2, refusal, 2),)),
        host_step(Came(down(2, refusal, 2)), 2),
        host_step(LineOf(11), asked=Asked(4, UNLOCKS), made=(unlock_gift,), dropped=(Leave(lock_token, ASKED),),
                  sent=(up(2, GiveBack(unlock_gift)),)),
        serves(Came(up(2, GiveBack(unlock_gift))), (EndsCall(Answer(1, 4, UNLOCKS, OK, False)),), (),
               (down(2, Gone(number_of(unlock_gift))),)),
        host_step(Came(down(2, Gone(number_of(unlock_gift))))),
    ]
    back = [Returned(ROOT, (their[0].id, their[1].id)), Returned(FILE, (their[2].id,))]
    bytes_gift = Give(3, FILE, (FILE_BYTES.id,), (Piece(0, b"ab"),), None, None)
    mine = [Returned(ROOT, (ROOT_STATUS.id, ROOT_ENTRIES.id)), Returned(FILE, (FILE_STATUS.id,))]
    s += [
        host_step(End(), 2, dropped=tuple(Leave(t, ENDED) for t in their), sent=tuple(up(2, b, 2) for b in back)),
        serves(Came(up(2, back[0], 2))),
        serves(Came(up(2, back[1], 2))),
        host_step(End(), 2, sent=(up(2, Bye(), 2),)),
        serves(Came(up(2, Bye(), 2)), sent=(down(2, Bye(), 2),)),
        host_step(Came(down(2, Bye(), 2)), 2),
        host_step(End(), made=(bytes_gift,),
                  dropped=tuple(Leave(t, ENDED) for t in (ROOT_STATUS, ROOT_ENTRIES, FILE_STATUS, FILE_BYTES)),
                  sent=(up(2, GiveBack(bytes_gift)), up(2, mine[0]), up(2, mine[1]))),
        serves(Came(up(2, GiveBack(bytes_gift))), (Stored(1, FILE, (span_between(0, 2),), None),), (),
               (down(2, Gone(number_of(bytes_gift))),)),
        serves(Came(up(2, mine[0]))),
        serves(Came(up(2, mine[1]))),
        host_step(Came(down(2, Gone(number_of(bytes_gift))))),
        host_step(End(), sent=(up(2, Bye()),)),
        serves(Came(up(2, Bye())), sent=(down(2, Bye()),)),
        host_step(Came(down(2, Bye()))),
    ]
    assert len(s) == 52
    return Journal(script, file_tree(r), (1,), s)


if __name__ == "__main__":
    from rules import check
    report = check(journal())
    print(report.text() or "all rules admit the worked run")
