"""Writes the files and the marks that crates/mark_cases goes on from, and what it is to print, by the Python reader of tools/hpcdb.py. Next
to each walk stand the end that the rules give it and what it leaves, written by hand."""
import os
from hpcdb import *
from walk_cases import LIMIT, N, SOUND, Node, W, chain, damaged, edited, flags, flex, grown, ident, kids, meta, seven, ten, words

HERE = os.path.join(os.path.dirname(os.path.abspath(__file__)), "..", "crates", "mark_cases")
BEFORE, BYTE_BEFORE = 7, 255
RECORD = 12
files, marks, lines = {}, {}, []

# What a walk leaves that hands out no mark, whether it is asked or not. Any other leaves, with the listing, the table of all contexts up to
# the last one listed or the mark that it had: the path of that context, [] for no mark.
UNTOUCHED, CLEARED = "untouched", "cleared"


def mark_file(mark, name):
    """The name of a mark's file. A mark is a path, or its bytes, which need a name of their own."""
    data = mark if isinstance(mark, bytes) else mark_of(mark)
    name = (name or "-".join(map(str, mark)) or "before-the-roots") + ".mark"
    assert marks.setdefault(name, data) == data and len(data) <= 2048, name
    return name


def case(name, file, *walks):
    """A walk is (mark, room, slots, end, left), and then, if they are other than usual, in a dictionary: the mark's name, whether it asks,
    the words lent for records, the bytes lent for a new mark. End and left None: not known beforehand."""
    assert len(file) <= LIMIT and files.setdefault(name + ".db", file) == file, name
    for mark, room, slots, end, left, *how in walks:
        how = dict({"name": None, "asks": 1, "records": 0, "lent": MARK_ROOM}, **(how[0] if how else {}))
        asked = mark_file(mark, how["name"]), how["asks"], room, slots, how["records"], how["lent"]
        assert max(asked[2:]) <= 1024
        lines.append((name + ".db", asked, end, left))


def joined(name, file, mark, slots, *parts, **how):
    """Parts, each its room, end and what it leaves; they go on from each other, the first from a mark, and are together one walk. The mark
    that a part is given is the one that the part before it is to print."""
    given = [mark] + [left for _, _, left in parts]
    case(name, file, *((m, room, slots, end, left, how) for m, (room, end, left) in zip(given, parts)))
    rooms = [room for room, _, _ in parts]
    assert handed_on(file, mark, slots, rooms) == handed_on(file, mark, slots, [sum(rooms)]), (name, rooms)


def handed_on(file, mark, slots, rooms):
    """What walks with this room have listed, each from the mark that the one before it handed out, with the records; the last one's end,
    table and mark."""
    listed, records, given = [], [], mark_of(mark)
    for room in rooms:
        listing, table, rows, new = [BEFORE] * room, [BEFORE] * slots, [BEFORE] * (RECORD * room), bytearray([BYTE_BEFORE] * MARK_ROOM)
        end, n = walk_from(file, given, True, listing, table, rows, new)
        listed += listing[:n]
        records += rows[:RECORD * n]
        given = bytes(new[:number(new, 0, 2)])
    return listed, records, end, table, given


def recorded(file, mark, room, lent):
    """So many words lent for records, as a walk leaves them."""
    rows = [BEFORE] * lent
    walk_from(file, mark_of(mark), False, [BEFORE] * room, [BEFORE] * 1024, rows, bytearray())
    return rows


def with_records(records, lent):
    """So many words that have these records, as far as there is room for whole ones."""
    whole = sum(records[:lent // RECORD], [])
    return whole + [BEFORE] * (lent - len(whole))


# ---- 1. W: A (216, id 1) at 0, C (264, 2) at 0 0, D (288, 3) at 0 1, B (240, 4) at 1
A, B, C, D = [0], [1], [0, 0], [0, 1]
NO_MARK = {"name": "none"}
UNASKED = {"asks": 0}
assert mark_of(C) == bytes.fromhex("0d0001000200000000" "00000000") and mark_of([]) == bytes.fromhex("0500010000")
case("w", W,
     (b"", 4, 5, "whole 4", B, NO_MARK), ([], 4, 5, "whole 4", B), (A, 4, 5, "whole 3", B), (C, 4, 5, "whole 2", B), (D, 4, 5, "whole 1", B),
     (B, 4, 5, "whole 0", B), (C, 1, 5, "cut 1", D), (C, 2, 5, "whole 2", B), (A, 1, 5, "cut 1", C), (A, 2, 5, "cut 2", D),
     (D, 1, 5, "whole 1", B), (b"", 3, 5, "cut 3", D, NO_MARK), ([], 2, 5, "cut 2", C), (D, 9, 12, "whole 1", B))
# with room for none
case("w", W,
     (b"", 0, 5, "cut 0", [], NO_MARK), ([], 0, 5, "cut 0", []), (A, 0, 5, "cut 0", A), (C, 0, 5, "cut 0", C), (D, 0, 5, "cut 0", D),
     (B, 0, 5, "whole 0", B), (b"", 0, 0, "refused 13 0", [], NO_MARK), (b"", 4, 0, "refused 13 0", [], NO_MARK), ([], 0, 1, "refused 13 0", []))
# a context that is not there
for mark in [[2], [0, 2], [0, 0, 0], [0, 1, 0], [1, 0], [1, 1], [0, 0, 0, 0], [3], [256], [65536], [2 ** 24], [2 ** 32 - 1], [0, 256], [0, 2 ** 32 - 1],
             [0] * 5]:
    case("w", W, (mark, 4, 5, "refused 18 0", CLEARED), (mark, 0, 5, "refused 18 0", CLEARED, UNASKED), (mark, 4, 4, "refused 13 0", CLEARED))
case("w", W, ([0] * 200, 4, 5, "refused 18 0", CLEARED, {"name": "zeros-200"}), ([0, 2], 4, 0, "refused 13 0", CLEARED))
# a table that is too short: for a context after the mark, for the one that it names, for one before it
case("w", W, (D, 4, 4, "refused 13 0", D), (D, 0, 4, "refused 13 0", D), (C, 4, 4, "refused 13 1", D), (C, 1, 4, "refused 13 1", D), (C, 0, 4, "cut 0", C),
     (A, 4, 4, "refused 13 2", D), (A, 1, 4, "cut 1", C), (B, 4, 4, "refused 13 0", CLEARED), (B, 0, 4, "refused 13 0", CLEARED),
     (D, 4, 3, "refused 13 0", CLEARED), (D, 4, 1, "refused 13 0", CLEARED), (A, 4, 1, "refused 13 0", CLEARED), (A, 4, 0, "refused 13 0", CLEARED))
# room for the new mark, or none asked for
for lent in 0, 4, 5, 13, 804:
    case("w", W, (C, 1, 5, "refused 17 0", UNTOUCHED, {"lent": lent}), (b"", 0, 5, "refused 17 0", UNTOUCHED, {"lent": lent, "name": "none"}),
         (C, 1, 5, "cut 1", D, {"lent": lent, "asks": 0}))
for lent in 805, 806, 1000, 1024:
    case("w", W, (C, 1, 5, "cut 1", D, {"lent": lent}), (b"", 0, 5, "cut 0", [], {"lent": lent, "name": "none"}),
         (C, 1, 5, "cut 1", D, {"lent": lent, "asks": 0}))
case("w", W, (B, 4, 5, "whole 0", B, UNASKED), (D, 4, 4, "refused 13 0", D, UNASKED), (B, 4, 4, "refused 13 0", CLEARED, UNASKED),
     (b"", 4, 5, "whole 4", B, {"asks": 0, "lent": 0, "name": "none"}), (C, 1, 5, "cut 1", D, {"asks": 2}))
# records are those of the contexts listed
OF_W = [[216, 1, 1, 1, 0] + [0] * 6 + [0], [264, 2, 2, 0, 1] + [0] * 6 + [216], [288, 2, 3, 0, 2] + [0] * 6 + [216], [240, 1, 4, 1, 0] + [0] * 6 + [0]]
for records in 0, 11, 12, 13, 23, 24, 36, 50:
    case("w", W, (C, 2, 5, "whole 2", B, {"records": records}), (C, 1, 5, "cut 1", D, {"records": records}),
         (b"", 4, 5, "whole 4", B, {"records": records, "name": "none"}))
    assert recorded(W, [], 4, records) == with_records(OF_W, records) and recorded(W, C, 2, records) == with_records(OF_W[2:], records)
case("w", W, (B, 4, 5, "whole 0", B, {"records": 24}), ([2], 4, 5, "refused 18 0", CLEARED, {"records": 24}),
     (b"", 4, 5, "whole 4", B, {"records": 48, "name": "none"}))

# ---- 2. marks that are malformed: opening comes before, and the room for a new mark before both
GOOD = mark_of(C)
magic = edited(W, (13, b"e"))
case("magic", magic, (b"", 4, 5, "refused 2 0", UNTOUCHED, NO_MARK), (C, 4, 5, "refused 2 0", UNTOUCHED), ([2], 4, 5, "refused 2 0", UNTOUCHED),
     (C, 4, 5, "refused 2 0", UNTOUCHED, UNASKED))
for name, data in {
        "length-12": edited(GOOD, (0, u(2, 12))), "length-14": edited(GOOD, (0, u(2, 14))), "length-9": edited(GOOD, (0, u(2, 9))),
        "length-0": edited(GOOD, (0, u(2, 0))), "length-17": edited(GOOD, (0, u(2, 17))), "length-and-256": edited(GOOD, (0, u(2, 13 + 256))),
        "length-swapped": edited(GOOD, (0, b"\0\15")),
        "bytes-12": GOOD[:12], "bytes-14": GOOD + b"\0", "bytes-9": GOOD[:9], "bytes-5": GOOD[:5], "bytes-17": GOOD + u(4, 0), "bytes-805": GOOD + bytes(792),
        "bytes-12-length-12": edited(GOOD, (0, u(2, 12)))[:12], "bytes-14-length-14": edited(GOOD, (0, u(2, 14))) + b"\0",
        "bytes-17-length-17": edited(GOOD, (0, u(2, 17))) + u(4, 0),
        "kind-0": edited(GOOD, (2, u(2, 0))), "kind-2": edited(GOOD, (2, u(2, 2))), "kind-256": edited(GOOD, (2, u(2, 256))),
        "kind-257": edited(GOOD, (2, u(2, 257))), "kind-65535": edited(GOOD, (2, u(2, 65535))),
        "depth-0": edited(GOOD, (4, b"\0")), "depth-1": edited(GOOD, (4, b"\1")), "depth-3": edited(GOOD, (4, b"\3")), "depth-66": edited(GOOD, (4, b"\102")),
        "depth-201": mark_of([0] * 201), "depth-201-and-805-bytes": edited(mark_of([0] * 200), (4, b"\311")), "depth-255": mark_of([0] * 255),
        "bytes-1": b"\5", "bytes-2": b"\5\0", "bytes-3": b"\5\0\1", "bytes-4": b"\5\0\1\0", "bytes-6": mark_of([]) + b"\0", "bytes-805-of-0": bytes(805),
        "bytes-1-length-1": b"\1", "bytes-2-length-2": b"\2\0", "bytes-3-length-3": b"\3\0\1", "bytes-4-length-4": b"\4\0\1\0",
        "before-the-roots-length-4": edited(mark_of([]), (0, b"\4")), "before-the-roots-kind-2": edited(mark_of([]), (2, b"\2"))}.items():
    how = {"name": "malformed-" + name, "records": 12}
    case("w", W, (data, 2, 5, "refused 18 0", UNTOUCHED, how), (data, 0, 0, "refused 18 0", UNTOUCHED, dict(how, asks=0)))
    case("magic", magic, (data, 2, 5, "refused 2 0", UNTOUCHED, how), (data, 2, 5, "refused 17 0", UNTOUCHED, dict(how, lent=804)))
BAD = {"name": "malformed-length-12"}
bad = marks["malformed-length-12.mark"]
case("w", W, (bad, 2, 5, "refused 17 0", UNTOUCHED, dict(BAD, lent=804)), (bad, 4, 4, "refused 18 0", UNTOUCHED, BAD))
for name, file, end in [("empty", b"", "refused 1 0"), ("w-151-bytes", W[:151], "refused 1 0"), ("version-3", edited(W, (14, b"\3")), "refused 3 0"),
                        ("footer", edited(W, (365, b"B")), "refused 4 0"), ("section-below-least", edited(W, (64, u(8, 15))), "refused 5 0"),
                        ("stride-of-modules-8", edited(W, (324, u(2, 8))), "refused 6 0"), ("roots-size-0", edited(W, kids(200, 216, 0)), "refused 7 0")]:
    case(name, file, (b"", 2, 5, end, UNTOUCHED, NO_MARK), (C, 2, 5, end, UNTOUCHED), (bad, 2, 5, end, UNTOUCHED, BAD),
         (C, 2, 5, "refused 17 0", UNTOUCHED, {"lent": 804}), (C, 2, 5, end, UNTOUCHED, {"lent": 0, "asks": 0}))

# ---- 3. no contexts
case("roots-none", edited(W, kids(200, 0, 0)), (b"", 4, 5, "whole 0", [], NO_MARK), ([], 0, 0, "whole 0", []), (A, 4, 5, "refused 18 0", CLEARED),
     (A, 0, 0, "refused 18 0", CLEARED), ([0] * 200, 4, 5, "refused 18 0", CLEARED, {"name": "zeros-200"}), (bad, 4, 5, "refused 18 0", UNTOUCHED, BAD))

# ---- 4. a context is refused, before the one that the mark names, at it, after it; or there is none
w_first = edited(W, flags(216, 1))
case("w-a-flags-1", w_first, (b"", 4, 5, "refused 10 0", [], NO_MARK), ([], 0, 5, "refused 10 0", []), (A, 4, 5, "refused 10 0", CLEARED),
     (C, 4, 5, "refused 10 0", CLEARED), ([7], 4, 5, "refused 10 0", CLEARED), (b"", 4, 5, "refused 10 0", [], {"asks": 0, "name": "none"}))
w_twice = edited(W, ident(264, 1))
case("w-c-id-1", w_twice, (b"", 4, 5, "refused 14 1", A, NO_MARK), (b"", 0, 5, "cut 0", [], NO_MARK),
     (A, 4, 5, "refused 14 0", A), (A, 0, 5, "refused 14 0", A),
     (C, 4, 5, "refused 14 0", CLEARED), (D, 4, 5, "refused 14 0", CLEARED), (B, 4, 5, "refused 14 0", CLEARED), ([2], 4, 5, "refused 14 0", CLEARED),
     ([0, 2], 4, 5, "refused 14 0", CLEARED), (B, 0, 5, "refused 14 0", CLEARED, UNASKED), (C, 4, 1, "refused 13 0", CLEARED))
f, P = meta(Node(1), Node(2), Node(3, bits=1, fields=SOUND), Node(4))
for n, edit in {10: words(P[3], 0), 9: flex(P[3], 0, N + 1), 7: kids(P[3], P[1], 0), 13: ident(P[3], 5), 14: ident(P[3], 2)}.items():
    end = "refused %d " % n
    case("third-%d" % n, edited(f, edit), (b"", 4, 5, end + "2", [1], NO_MARK),
         ([0], 4, 5, end + "1", [1]), ([0], 1, 5, end + "1", [1]), ([0], 0, 5, "cut 0", [0]),
         ([1], 4, 5, end + "0", [1]), ([1], 0, 5, end + "0", [1]), ([2], 4, 5, end + "0", CLEARED), ([3], 4, 5, end + "0", CLEARED),
         ([4], 4, 5, end + "0", CLEARED), ([1, 0], 4, 5, end + "0", CLEARED), ([3], 0, 5, end + "0", CLEARED, UNASKED))

# ---- 5. deep; a context's id is its depth, its path zeros
f, P = chain(200)
for depth in 1, 2, 100, 198, 199:
    case("deep-200", f, ([0] * depth, 200, 201, "whole %d" % (200 - depth), [0] * 200, {"name": "zeros-%d" % depth}),
         ([0] * depth, 1, 201, "whole 1" if depth == 199 else "cut 1", [0] * (depth + 1), {"name": "zeros-%d" % depth, "records": 12}))
    assert recorded(f, [0] * depth, 1, 12)[11] == P[depth]
ZEROS = {"name": "zeros-200"}
case("deep-200", f, (b"", 200, 201, "whole 200", [0] * 200, NO_MARK), (b"", 200, 201, "whole 200", [0] * 200, {"name": "none", "lent": 1024}),
     (b"", 199, 201, "cut 199", [0] * 199, NO_MARK), ([0] * 200, 200, 201, "whole 0", [0] * 200, ZEROS), ([0] * 200, 0, 201, "whole 0", [0] * 200, ZEROS),
     ([0] * 200, 200, 200, "refused 13 0", CLEARED, ZEROS), ([0] * 199, 200, 200, "refused 13 0", [0] * 199, {"name": "zeros-199"}),
     ([0] * 199 + [1], 200, 201, "refused 18 0", CLEARED, {"name": "zeros-199-and-1"}),
     ([1] + [0] * 199, 200, 201, "refused 18 0", CLEARED, {"name": "1-and-zeros-199"}))
more_roots, Q = chain(200, Node(500), Node(501))
case("deep-200-and-more-roots", more_roots, ([0] * 200, 9, 502, "whole 2", [2], dict(ZEROS, records=24)), ([0] * 200, 1, 502, "cut 1", [1], ZEROS),
     ([0] * 200, 1, 501, "refused 13 1", [1], ZEROS), ([1], 9, 502, "whole 1", [2]), ([1, 0], 9, 502, "refused 18 0", CLEARED))
assert recorded(more_roots, [0] * 199, 3, 36)[11::12] == [Q[199], 0, 0]
case("deep-201", chain(201)[0], ([0] * 200, 9, 1024, "refused 12 0", [0] * 200, ZEROS), ([0] * 200, 0, 202, "refused 12 0", [0] * 200, ZEROS),
     ([0] * 199, 9, 202, "refused 12 1", [0] * 200, {"name": "zeros-199"}), ([0] * 199, 0, 202, "cut 0", [0] * 199, {"name": "zeros-199"}),
     ([0] * 199 + [1], 9, 202, "refused 12 0", CLEARED, {"name": "zeros-199-and-1"}), ([1], 9, 202, "refused 12 0", CLEARED),
     (mark_of([0] * 201), 9, 202, "refused 18 0", UNTOUCHED, {"name": "malformed-depth-201"}))

# ---- 6. wide
f, P = meta(*(Node(i, kind=i % 4, relation=i % 3) for i in range(1025)))
case("roots-1025", f, ([1000], 9, 1024, "cut 9", [1009]), ([1014], 9, 1024, "refused 13 9", [1023]), ([1023], 9, 1024, "refused 13 0", [1023]),
     ([1024], 9, 1024, "refused 13 0", CLEARED), ([1024], 9, 700, "refused 13 0", CLEARED), ([255], 2, 300, "cut 2", [257]), ([256], 1, 300, "cut 1", [257]),
     ([0], 1, 300, "cut 1", [1]), ([299], 1, 300, "refused 13 0", [299]), ([300], 1, 300, "refused 13 0", CLEARED))
f, P = meta(Node(0, *(Node(i) for i in range(1, 600))))
case("children-599", f, ([0, 598], 9, 600, "whole 0", [0, 598]), ([0, 599], 9, 600, "refused 18 0", CLEARED), ([0, 255], 1, 600, "cut 1", [0, 256]),
     ([0, 256], 1, 600, "cut 1", [0, 257]), ([0, 511], 600, 600, "whole 87", [0, 598]), ([0, 598, 0], 9, 600, "refused 18 0", CLEARED))

# ---- 7. inside a subtree: ids 1 to 10 in the order of the trail
f, P = ten()
TEN = [[0], [0, 0], [0, 0, 0], [0, 0, 1], [0, 1], [0, 1, 0], [0, 1, 1], [0, 1, 1, 0], [0, 1, 1, 1], [1]]
for i, path in enumerate(TEN):
    case("tree", f, (path, 10, 11, "whole %d" % (9 - i), [1]), (path, 1, 11, "cut 1" if i < 8 else "whole %d" % (9 - i), TEN[min(i + 1, 9)], {"records": 12}),
         (path, 10, 8, "refused 13 %d" % max(6 - i, 0), TEN[6] if i < 7 else CLEARED), (path, 0, 11, "cut 0" if i < 9 else "whole 0", path))
# the parent of the next one, by the ids; no context above it is listed
assert [recorded(f, path, 1, 12)[11] for path in TEN[:9]] == [P[1], P[2], P[2], P[1], P[5], P[5], P[7], P[7], 0]
for path in [0, 2], [0, 0, 2], [0, 1, 2], [0, 1, 0, 0], [0, 1, 1, 2], [0, 1, 1, 1, 0], [1, 0], [1, 1], [2], [1, 1, 1, 1]:
    case("tree", f, (path, 10, 11, "refused 18 0", CLEARED), (path, 10, 8, "refused 13 0", CLEARED))
backwards = ten(arrange=lambda arrays: arrays[::-1])[0]
case("tree-backwards", backwards, (TEN[3], 2, 11, "cut 2", TEN[5]), (TEN[8], 2, 11, "whole 1", [1]))
damaged_at_8 = edited(f, ident(P[8], 3))
case("tree-14-cousin", damaged_at_8, (TEN[6], 9, 11, "refused 14 0", TEN[6]), (TEN[5], 9, 11, "refused 14 1", TEN[6]), (TEN[7], 9, 11, "refused 14 0", CLEARED),
     (TEN[8], 9, 11, "refused 14 0", CLEARED), (TEN[9], 9, 11, "refused 14 0", CLEARED))
# behind 2; behind 4, the last below 3; behind 5, the last below 2: the parents of 5 and 6 come before the mark
g, Q = seven()
case("parents", g, ([0, 0], 5, 8, "whole 5", [1], {"records": 60}), ([0, 0, 0, 0], 3, 8, "whole 3", [1], {"records": 36}),
     ([0, 0, 1], 1, 8, "cut 1", [0, 1], {"records": 12}))
assert recorded(g, [0, 0], 5, 60)[11::12] == [Q[2], Q[3], Q[2], Q[1], 0] and recorded(g, [0, 0, 0, 0], 3, 36)[11::12] == [Q[2], Q[1], 0]
# a child that lies in its parent's flex, and an array that is reached again
g, Q = meta(Node(1, more=(0, 0, 2)), Node(3))
case("child-in-flex", edited(g, kids(Q[1], Q[1] + 24, 24)), ([0], 9, 4, "whole 2", [1], {"records": 24}), ([0, 0], 9, 4, "whole 1", [1], {"records": 12}),
     ([0, 0], 0, 4, "cut 0", [0, 0]))
g, Q = meta(Node(1, Node(2, Node(3))), Node(4), slack=24)
case("looped", edited(g, kids(Q[2], Q[1], 48)), ([0], 9, 5, "refused 14 1", [0, 0], {"records": 24}), ([0, 0], 9, 5, "refused 14 0", [0, 0]),
     ([0, 0, 0], 9, 5, "refused 14 0", CLEARED), ([1], 9, 5, "refused 14 0", CLEARED))

# ---- 8. parts that are one walk
joined("w", W, [], 5, (1, "cut 1", A), (1, "cut 1", C), (2, "whole 2", B), records=24)
joined("w", W, [], 5, (2, "cut 2", C), (2, "whole 2", B))
joined("w", W, [], 5, (0, "cut 0", []), (3, "cut 3", D), (0, "cut 0", D), (1, "whole 1", B), (0, "whole 0", B), (4, "whole 0", B))
joined("w", W, [], 5, (1, "cut 1", A), (2, "cut 2", D))
joined("w", W, A, 5, (1, "cut 1", C), (5, "whole 2", B), (5, "whole 0", B))
joined("w", W, [], 4, (1, "cut 1", A), (1, "cut 1", C), (2, "refused 13 1", D), (2, "refused 13 0", D))
joined("w-c-id-1", w_twice, [], 5, (0, "cut 0", []), (1, "refused 14 1", A), (1, "refused 14 0", A))
joined("w-a-flags-1", w_first, [], 5, (1, "refused 10 0", []), (0, "refused 10 0", []))
joined("roots-none", files["roots-none.db"], [], 5, (0, "whole 0", []), (3, "whole 0", []))
joined("tree", f, [], 11, (3, "cut 3", TEN[2]), (0, "cut 0", TEN[2]), (4, "cut 4", TEN[6]), (3, "whole 3", [1]), records=48)
joined("tree", f, TEN[1], 11, *((1, "cut 1", path) for path in TEN[2:9]), (1, "whole 1", [1]))
joined("tree", f, [], 9, (4, "cut 4", TEN[3]), (3, "cut 3", TEN[6]), (2, "refused 13 1", TEN[7]), (1, "refused 13 0", TEN[7]))
joined("tree-14-cousin", damaged_at_8, TEN[3], 11, (2, "cut 2", TEN[5]), (0, "cut 0", TEN[5]), (1, "refused 14 1", TEN[6]), (1, "refused 14 0", TEN[6]))
joined("roots-1025", files["roots-1025.db"], [296], 300, (2, "cut 2", [298]), (2, "refused 13 1", [299]))


# ---- 9. trees at random
def mark_near(dice, met):
    """The path of one of these contexts, or one that is a little other."""
    path = list(dice.of([path for path, _ in met] or [[0]]))
    how, level = dice.below(10), dice.below(len(path))
    if how == 0:
        return path + [0]
    if how == 1:
        return path[:level]
    if how == 2:
        path[level] += 1
    if how == 3:
        path[level] = max(path[level] - 1, 0)
    return path


dice = Dice(20260303)
for i in range(30):
    tree, nodes = grown(dice)
    f, P = meta(*tree, slack=8 * dice.below(3), arrange=dice.mix)
    if dice.below(5) > 1:
        f = damaged(dice, f, P, nodes)
    try:
        met = trail_with_paths(f, 1024)[0]
    except Refused:
        met = []
    for _ in range(5):
        room, slots = dice.of((130, 1, dice.below(len(nodes) + 1))), len(nodes) + 8 - dice.of((0, 0, dice.below(20)))
        how = {"asks": dice.of((0, 1, 1, 1)), "records": dice.of((0, 12, 30))}
        case("random-%02d" % i, f, (mark_near(dice, met), room, slots, None, None, how))


def show(file, mark, asks, room, slots, records, lent):
    """The lines for one walk, its end, and what it leaves."""
    listing, table, rows = ([BEFORE] * n for n in (room, slots, records))
    new = bytearray([BYTE_BEFORE] * lent)
    end, n = walk_from(file, mark, asks, listing, table, rows, new)
    end = " ".join(map(str, end + (n,)))
    shown = [" ".join([name] + list(map(str, part))) for name, part in (("listing", listing), ("table", table), ("records", rows))]
    return [end] + shown + ["mark " + new.rstrip(bytes([BYTE_BEFORE])).hex()], end, (listing, table, rows, new)


def asked_of(*line):
    return " ".join(map(str, line))


def as_before(words, new):
    return all(word == BEFORE for word in words) and all(byte == BYTE_BEFORE for byte in new)


def is_left(file, asks, n, left, listing, table, rows, new):
    """Whether a walk that listed n contexts left this, as it was written by hand."""
    if left == UNTOUCHED:
        return as_before(listing + table + rows, new)
    if left == CLEARED:
        return as_before(listing + rows, new) and not any(table)
    up_to = [record for path, record in trail_with_paths(file, len(table))[0] if path <= left]
    listed = up_to[len(up_to) - n:]
    mark = mark_of(left) if asks else b""
    return {record[2]: record[0] for record in up_to} == {slot: place for slot, place in enumerate(table) if place} \
        and listing[:n] == [record[0] for record in listed] and rows == with_records(listed, len(rows)) \
        and new[:len(mark)] == mark and as_before(listing[n:], new[len(mark):])


if __name__ == "__main__":
    text = ""
    for name, (mark, *how), known, left in lines:
        out, end, lent = show(files[name], marks[mark], *how)
        assert known is None or known == end, (name, mark, how, known, end)
        assert left is None or is_left(files[name], how[0], int(end.split()[-1]), left, *lent), (name, mark, how, left)
        text += "".join(line + "\n" for line in ["== " + asked_of(name, mark, *how)] + out)
    data = {**files, **marks, "list": "".join(asked_of(name, *asked) + "\n" for name, asked, _, _ in lines).encode()}
    os.makedirs(os.path.join(HERE, "data"), exist_ok=True)
    for old in os.listdir(os.path.join(HERE, "data")):
        os.remove(os.path.join(HERE, "data", old))
    for name, content in data.items():
        with open(os.path.join(HERE, "data", name), "wb") as f:
            f.write(content)
    with open(os.path.join(HERE, "stdout"), "w") as f:
        f.write(text)
    print("%d files, %d marks, %d lines in list" % (len(files), len(marks), len(lines)))
