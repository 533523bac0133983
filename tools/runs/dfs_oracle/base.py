"""Ids, names, rights, access lists, calls.

Names are `bytes`.  A user is `(name, (group, ..))`.  A list is a tuple of entries
`(who, name or None, rights)`, who being one of WHO.  A host is its number (0 is `c0`), a server its
number.
"""
from collections import namedtuple

MAX_FILE = 65536
MAX_UNIQUE = 4294967295
ADMIN = (b"admin", (b"admin",))

LETTERS = b"rwxcid"
R, W, X, C, I, D = 1, 2, 4, 8, 16, 32
WHO = ("user_obj", "user", "group_obj", "group", "other_obj", "mask_obj")
WHICH = ("list", "files", "dirs")
OPEN_KINDS = ("reading", "writing", "executing", "shared", "exclusive")

# the kinds of opens that conflict
_ROWS = {
    "reading": "nnnnc",
    "writing": "nnccc",
    "executing": "ncnnc",
    "shared": "ncnnc",
    "exclusive": "ccccc",
}
OPEN_CONFLICT = {
    (a, b): _ROWS[a][i] == "c" for a in OPEN_KINDS for i, b in enumerate(OPEN_KINDS)
}

Place = namedtuple("Place", "server fileset path")  # path: a tuple of names below the root

NewFileset = namedtuple("NewFileset", "server name objects owner")
Create = namedtuple("Create", "place")
MakeDir = namedtuple("MakeDir", "place")
Remove = namedtuple("Remove", "place")
Rename = namedtuple("Rename", "source to")
Truncate = namedtuple("Truncate", "place length")
SetAcl = namedtuple("SetAcl", "place which list")
CloneFileset = namedtuple("CloneFileset", "server fileset new")
Read = namedtuple("Read", "place start len")
Write = namedtuple("Write", "place start bytes")
List = namedtuple("List", "place")
Stat = namedtuple("Stat", "place")
GetAcl = namedtuple("GetAcl", "place which")
Sync = namedtuple("Sync", "place")
Lock = namedtuple("Lock", "label place writing start len")
Unlock = namedtuple("Unlock", "label")
OpenFile = namedtuple("OpenFile", "label place kind")
CloseFile = namedtuple("CloseFile", "label")


def rights_of(entries, owner, group, user):
    """The rights of a user under an access list (docs/CALLS.md)."""
    name, groups = user
    found = {}
    mask = 63
    for who, who_name, rights in entries:
        if who == "mask_obj":
            mask = rights
        found[who, who_name] = rights
    if name == owner:
        return found["user_obj", None]
    if ("user", name) in found:
        return found["user", name] & mask
    union = None
    if group in groups:
        union = found["group_obj", None]
    for g in groups:
        if ("group", g) in found:
            union = (union or 0) | found["group", g]
    if union is not None:
        return union & mask
    return found["other_obj", None]


def default_list(directory):
    if directory:
        return (("user_obj", None, 63), ("group_obj", None, R | X), ("other_obj", None, R | X))
    return (("user_obj", None, R | W | X | C), ("group_obj", None, R), ("other_obj", None, R))
