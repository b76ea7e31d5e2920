"""Writes the files in which crates/hot_cases looks for hot paths, and what it is to print, by the Python reader of tools/hpcdb.py. Next to
each question, but for the random files, stands the answer that the rules give it, written by hand."""
import os
import struct
from hpcdb import *
from block_cases import INFINITY, NAN, Maker, raw
from walk_cases import LIMIT, N, SOUND, Node, W, chain, damaged, edited, eight, flags, flex, grown, ident, kids, meta, seven, ten, words

HERE = os.path.join(os.path.dirname(os.path.abspath(__file__)), "..", "crates", "hot_cases")
BEFORE = 7
METRIC = 7
MINUS = 2 ** 63
files, lines = {}, []


def keep(name, file):
    """The name under which a file is kept; as no name, it is one that is there."""
    if file is not None:
        assert len(file) <= LIMIT and files.setdefault(name + ".db", file) == file, name
    return name + ".db"


def case(name, file, db_name, db, answer, profile=1, metric=METRIC, listing=None, table=None, hot=None):
    """The answer is the path's places, a refusal's number, or None if it is not known beforehand. There is room for all contexts, and for
    two words more than the path has, unless it is said otherwise."""
    name, db_name = keep("m-" + name, file), keep("p-" + db_name, db)
    contexts = walk(files[name], 1024, 1024)[1]
    listing = len(contexts) if listing is None else listing
    table = max([r[2] + 1 for r in contexts] or [0]) if table is None else table
    hot = (len(answer) + 2 if isinstance(answer, list) else 3) if hot is None else hot
    assert max(listing, table, hot) <= 1024
    lines.append((name, db_name, profile, metric, listing, table, hot, answer))


# ---- building a profile.db
def profile_db(*rows):
    """A row has the values of a profile: {(context, metric): a float or its bits}"""
    entries = [struct.pack("<IIH6xQ", p, c, m, raw(row[c, m])) for p, row in enumerate(rows) for c, m in sorted(row)]
    return write_profile([0] * len(rows), [0], b"", b"".join(entries), LIMIT)


def bare(values):
    """Profile 1 of two has these values of the metric, by the contexts' ids, and nothing else is there."""
    return profile_db({}, {(c, METRIC): x for c, x in values.items()})


def among_others(values, ids=range(5)):
    """The same values, where all contexts have some of the metrics beside it, and in the profiles beside it; there are values for ids that
    are places of W too."""
    own = {(c, METRIC): x for c, x in values.items()}
    own.update({(c, m): 100.0 + (c * 7919 + m) % 11 for c in ids for m in (METRIC - 1, METRIC + 1)})
    own.update({(place, METRIC): 1000.0 + place % 7 for place in (216, 240, 264, 288)})
    return profile_db({(c, METRIC): NAN for c in ids}, own, {(c, METRIC): float(c) for c in ids})


# ---- 1. W: the roots A (216, id 1) and B (240, 4); below A its children C (264, 2) and D (288, 3)
A, B, C, D = 216, 240, 264, 288
IDS = {"A": 1, "B": 4, "C": 2, "D": 3}
keep("m-w", W)


def in_w(name, values, answer, **how):
    """Values by the contexts' letters; the file with nothing else, and the one with much beside them."""
    by_id = {IDS[letter]: x for letter, x in values.items()}
    case("w", None, "w-" + name, bare(by_id), answer, **how)
    case("w", None, "w-" + name + "-among-others", among_others(by_id), answer, **how)


in_w("equal-roots", {"A": 1.0, "B": 1.0, "D": -1.0}, [A, D])
in_w("minus-zero-first", {"A": -0.0, "B": 0.0}, [A])
in_w("zero-first", {"A": 0.0, "B": -0.0}, [A])
in_w("b-nan", {"A": -0.0, "B": NAN}, 16)
in_w("c-nan-on-the-way", {"A": 2.0, "B": 1.0, "C": NAN}, 16)
in_w("c-nan-off-the-way", {"A": 1.0, "B": 2.0, "C": NAN}, [B])
in_w("two-levels", {"A": 1.0, "D": 2.0}, 17, hot=1)
in_w("d-nan", {"A": 1.0, "D": NAN}, 16, hot=1)
in_w("d-nan", {"A": 1.0, "D": NAN}, 16, hot=0)
in_w("only-c", {"C": 3.0}, [])
in_w("only-c", {"C": 3.0}, [], hot=0)
in_w("only-c-nan", {"C": NAN, "D": INFINITY}, [])
in_w("nothing", {}, [])
in_w("nothing", {}, [], hot=0)
EMPTY = b""
case("w", None, "empty", EMPTY, 17, listing=3)
case("w", None, "empty", None, 1, listing=4)
case("w", None, "empty", None, 17, listing=0, hot=0)
case("w", None, "empty", None, 1, listing=9, table=12, hot=0)

# which is greater
for name, a, b, path in [
        ("1-2", 1.0, 2.0, [B]), ("2-1", 2.0, 1.0, [A]), ("minus-1-minus-2", -1.0, -2.0, [A]), ("minus-2-minus-1", -2.0, -1.0, [B]),
        ("minus-1-1", -1.0, 1.0, [B]), ("1-minus-2", 1.0, -2.0, [A]), ("minus-1-zero", -1.0, 0.0, [B]), ("minus-zero-minus-1", -0.0, -1.0, [A]),
        ("zero-least", 0.0, 1, [B]), ("minus-least-zero", MINUS + 1, 0.0, [B]), ("minus-zero-minus-least", -0.0, MINUS + 1, [A]),
        ("least-minus-zero", 1, -0.0, [A]), ("subnormals", 0x000fffffffffffff, 0x0010000000000000, [B]),
        ("one-bit", 0x3ff0000000000000, 0x3ff0000000000001, [B]), ("minus-one-bit", 0xbff0000000000000, 0xbff0000000000001, [A]),
        ("greatest", 0x7fefffffffffffff, 0x7feffffffffffffe, [A]), ("lowest", 0xffefffffffffffff, 0xffeffffffffffffe, [B]),
        ("lowest-twice", 0xffefffffffffffff, 0xffefffffffffffff, [A]), ("greatest-twice", 0x7fefffffffffffff, 0x7fefffffffffffff, [A]),
        ("2-53-and-1", 2.0 ** 53, 2.0 ** 53 + 2, [B])]:
    in_w("roots-" + name, {"A": a, "B": b}, path)
    in_w("children-" + name, {"A": -5.0, "C": a, "D": b}, [A] + [{A: C, B: D}[place] for place in path])
# one root or one child has a value, a zero too; a parent's value is not its children's matter
for name, values, path in [
        ("a", {"A": -1.0}, [A]), ("b", {"B": -1.0}, [B]), ("b-and-children-of-a", {"B": -9.0, "C": 8.0, "D": 9.0}, [B]),
        ("a-zero", {"A": 0.0}, [A]), ("b-minus-zero", {"B": -0.0}, [B]), ("a-and-zero-below", {"A": 1.0, "C": 0.0}, [A, C]),
        ("zero-below-and-minus", {"A": 1.0, "C": -1.0, "D": -0.0}, [A, D]), ("above-its-parent", {"A": 1.0, "B": 0.5, "C": 7.0, "D": 7.0}, [A, C]),
        ("all", {"A": 4.0, "B": 3.0, "C": 1.0, "D": 2.0}, [A, D]), ("all-zero", {"A": 0.0, "B": 0.0, "C": 0.0, "D": 0.0}, [A, C]),
        ("all-lowest", {letter: 0xffefffffffffffff for letter in "ABCD"}, [A, C])]:
    in_w("only-" + name, values, path)

# not finite, on the way and off it
for name, bits in [("inf", INFINITY), ("minus-inf", MINUS + INFINITY), ("nan", NAN), ("minus-nan", MINUS + NAN), ("signalling", INFINITY + 1),
                   ("all-ones", END - 1)]:
    in_w(name + "-of-a", {"A": bits}, 16)
    in_w(name + "-of-a-before-b", {"A": bits, "B": 1.0}, 16)
    in_w(name + "-of-b-behind-a", {"A": 9.0, "B": bits, "C": 1.0}, 16)
    in_w(name + "-of-c", {"A": 9.0, "B": 8.0, "C": bits, "D": 1.0}, 16)
    in_w(name + "-of-d", {"A": 9.0, "B": 9.0, "C": 1e308, "D": bits}, 16)
    in_w(name + "-below-a", {"A": 8.0, "B": 9.0, "C": bits, "D": bits}, [B])
    in_w(name + "-below-no-value", {"B": -9.0, "C": bits}, [B])
    beside = profile_db({(1, 7): 1.0}, {(0, 7): bits, (1, 6): bits, (1, 7): 2.0, (1, 8): bits, (4, 0): bits, (4, 65535): bits, (5, 7): bits}, {(4, 7): bits})
    case("w", None, name + "-beside", beside, [A])
    case("w", None, name + "-beside", None, [A], profile=0)
    case("w", None, name + "-beside", None, 16, profile=2)
    case("w", None, name + "-beside", None, 16, metric=6)

# profile and metric, of any size
numbers = profile_db({(1, 0): 1.0, (4, 65535): 1.0, (4, 4464): 1.0}, {(4, 0): 1.0, (1, 65535): 1.0, (2, 65535): 0.0, (1, 4464): 3.0}, {})
for profile, metric, answer in [
        (0, 0, [A]), (1, 0, [B]), (2, 0, []), (0, 65535, [B]), (1, 65535, [A, C]), (2, 65535, []), (0, 4464, [B]), (1, 4464, [A]), (0, 1, []), (1, 65534, []),
        (0, 65536, []), (0, 70000, []), (1, 70000, []), (1, 2 * 65536 - 1, []), (1, 2 ** 32, []), (1, 2 ** 32 + 65535, []), (0, END - 1, []), (1, END - 1, []),
        (1, 2 ** 63, []), (1, END - 65536, []), (3, 0, 15), (3, END - 1, 15), (4, 0, 15), (2 ** 32, 0, 15), (2 ** 32 + 1, 0, 15), (2 ** 61 + 1, 0, 15),
        (END - 1, 0, 15), (END - 1, 70000, 15)]:
    case("w", None, "numbers", numbers, answer, profile=profile, metric=metric)
    case("w", None, "numbers", None, answer, profile=profile, metric=metric, hot=len(answer) if isinstance(answer, list) else 0)
case("w", None, "no-profiles", profile_db(), 15, profile=0)
case("w", None, "no-profiles", None, 15, profile=END - 1)

# room for the path: behind it all is as it was
DOWN = among_others({1: 1.0, 4: 0.5, 3: 2.0})
for hot in 0, 1:
    case("w", None, "down", DOWN, 17, hot=hot)
for hot in 2, 3, 10:
    case("w", None, "down", None, [A, D], hot=hot)
    case("w", None, "down", None, [A, D], hot=hot, listing=9, table=12)
case("w", None, "down", None, [B], profile=2, hot=1)
case("w", None, "down", None, 17, profile=2, hot=0)

# ids that are not in the order of the contexts; the greatest that a table has a slot for
swapped = edited(W, ident(216, 4), ident(240, 1), ident(264, 1023), ident(288, 0))
case("w-other-ids", swapped, "other-ids", bare({4: 1.0, 1: 1.0, 1023: 2.0, 0: 2.0}), [A, C])
case("w-other-ids", None, "other-ids-d", bare({4: 1.0, 1: 0.5, 1023: 2.0, 0: 3.0}), [A, D])
case("w-other-ids", None, "other-ids-b", bare({4: -1.0, 1: -0.5, 1023: 2.0, 0: 3.0, 2: 9.0, 3: 9.0, 2 ** 32 - 1: 9.0, 65536 + 4: 9.0}), [B])
case("w-other-ids", None, "other-ids-b", None, 13, table=1023)

# ---- 2. the order of refusals. Profile 1 of these has one value that is not finite, and so is refused 16 if nothing comes before it
AT = 64 + 40  # profile 1
NOT_FINITE = among_others({1: 1.0, 4: NAN})
INDICES = number(NOT_FINITE, AT + 24, 8)
FAULTS = [("magic", 2, (13, b"F")), ("version", 3, (14, b"\3")), ("footer", 4, (len(NOT_FINITE) - 1, b"B")), ("section", 5, (16, u(8, 12))),
          ("stride", 6, (60, b"\40")), ("array", 7, (48, u(8, 60)))]
BLOCK_FAULTS = [("range", 7, (AT + 8, u(8, number(NOT_FINITE, AT + 8, 8) + 1))), ("order", 11, (INDICES + 4, u(8, 1)))]
case("w", None, "not-finite", NOT_FINITE, 16, hot=0)
case("w", None, "55-bytes", NOT_FINITE[:55], 1, profile=9, hot=0)
case("w", None, "55-bytes-and-magic", edited(NOT_FINITE[:55], (13, b"F"), (14, b"\3")), 1)
for k, (name, n, fault) in enumerate(FAULTS):
    # alone; with the next; with all that come later
    later = [edit for _, _, edit in FAULTS[k:] + BLOCK_FAULTS]
    case("w", None, "fault-" + name, edited(NOT_FINITE, fault), n)
    case("w", None, "fault-" + name + "-and-next", edited(NOT_FINITE, *later[:2]), n, profile=9)
    case("w", None, "fault-" + name + "-and-all", edited(NOT_FINITE, *later), n, profile=9, hot=0)
    case("w", None, "fault-" + name + "-and-all", None, n, profile=END - 1, metric=END - 1)
for k, (name, n, fault) in enumerate(BLOCK_FAULTS):
    case("w", None, "block-" + name, edited(NOT_FINITE, fault), n)
    case("w", None, "block-" + name, None, 15, profile=3, hot=0)
    case("w", None, "block-" + name, None, n, metric=70000, hot=0)
    case("w", None, "block-" + name, None, 16, profile=0)
    case("w", None, "block-" + name, None, [B], profile=2)
case("w", None, "block-range-and-order", edited(NOT_FINITE, *(edit for _, _, edit in BLOCK_FAULTS)), 7, hot=0)
# an order that is broken behind all that is looked up; values without indices, and the other way round
last = number(NOT_FINITE, AT + 24, 8) + 12 * (number(NOT_FINITE, AT + 16, 4) - 1)
case("w", None, "block-last-id", edited(NOT_FINITE, (last, u(4, 0))), 11)
case("w", None, "block-last-start", edited(NOT_FINITE, (last + 4, u(8, number(NOT_FINITE, AT, 8)))), 11)
case("w", None, "block-no-values", edited(NOT_FINITE, (AT, u(8, 0))), 7)
case("w", None, "block-no-indices", edited(NOT_FINITE, (AT + 16, u(4, 0))), 7)
case("w", None, "block-none", edited(NOT_FINITE, (AT, u(8, 0)), (AT + 16, u(4, 0)), (AT + 8, u(8, 1)), (AT + 24, u(8, END - 1))), [])
# a tuple is not read
case("w", None, "tuple-wild", edited(DOWN, (AT + 32, u(8, END - 1))), [A, D])
# the walk comes first: its own refusals, or 17, whatever the other file is
linked, P = meta(Node(1), Node(2, bits=7, fields=SOUND), Node(3))
for name, file, n, room in [
        ("w-151-bytes", W[:151], 1, {}), ("magic", edited(W, (13, b"e")), 2, {}), ("version", edited(W, (14, b"\3")), 3, {}),
        ("footer", edited(W, (365, b"B")), 4, {}), ("section", edited(W, (64, u(8, 15))), 5, {}), ("stride", edited(W, (324, u(2, 8))), 6, {}),
        ("roots", edited(W, kids(200, 216, 0)), 7, {}), ("w-a-flags-1", edited(W, flags(216, 1)), 10, {}), ("w-d-words", edited(W, words(288, 1)), 10, {}),
        ("w-d-children", edited(W, kids(288, 264, 0)), 7, {}), ("w-c-id-1", edited(W, ident(264, 1)), 14, {}), ("w", None, 13, {"listing": 4, "table": 4}),
        ("w", None, 13, {"listing": 3, "table": 4}), ("w", None, 17, {"listing": 2, "table": 4}), ("w", None, 17, {"listing": 3, "table": 5}),
        ("w", None, 17, {"listing": 0, "table": 5}), ("w", None, 13, {"listing": 0, "table": 0}), ("link", edited(linked, flex(P[2], 0, N + 1)), 9, {}),
        ("deep-201", chain(201)[0], 12, {"listing": 200, "table": 202})]:
    room = {"listing": 4, "table": 5, **room}
    case(name, file, "empty", None, n, hot=0, **room)
    case(name, None, "not-finite", None, n, **room)
    case(name, None, "down", None, n, profile=9, **room)
    case(name, None, "down", None, n, **room)

# ---- 3. no contexts
keep("m-roots-none", edited(W, kids(200, 0, 0)))
for listing, table in (0, 0), (2, 3):
    room = {"listing": listing, "table": table}
    case("roots-none", None, "not-finite", None, [], **room)
    case("roots-none", None, "not-finite", None, [], hot=0, **room)
    case("roots-none", None, "empty", None, 1, **room)
    case("roots-none", None, "fault-array", None, 7, **room)
    case("roots-none", None, "down", None, 15, profile=3, **room)
    case("roots-none", None, "block-range", None, 7, **room)
    case("roots-none", None, "block-order", None, 11, hot=0, **room)

# ---- 4. deep: a context's id is its depth
keep("m-deep-200", chain(200)[0])
P = chain(200)[1]
DEEP = {i: float(-i) for i in range(1, 201)}
whole = [P[i] for i in range(1, 201)]
for hot in 200, 201, 1000:
    case("deep-200", None, "deep", bare(DEEP), whole, hot=hot)
for hot in 0, 1, 199:
    case("deep-200", None, "deep", None, 17, hot=hot)
case("deep-200", None, "deep-100-absent", bare({i: x for i, x in DEEP.items() if i != 100}), whole[:99], hot=99)
case("deep-200", None, "deep-200-absent", bare({i: x for i, x in DEEP.items() if i != 200}), whole[:199], hot=199)
case("deep-200", None, "deep-200-not-finite", bare({**DEEP, 200: INFINITY}), 16, hot=0)
case("deep-200", None, "deep-101-not-finite", bare({i: NAN if i == 101 else x for i, x in DEEP.items() if i != 100}), whole[:99])
case("deep-200", None, "deep-1-absent", bare({i: x for i, x in DEEP.items() if i != 1}), [], hot=0)
f, P = chain(200, Node(500), Node(501))
case("deep-200-and-more-roots", f, "deep-and-more", bare({**DEEP, 500: -1.0, 501: -0.5}), [P[501]])
case("deep-200-and-more-roots", None, "deep", None, [P[i] for i in range(1, 201)])

# ---- 5. wide
f, P = meta(*(Node(i) for i in range(1024)))
WIDE = [("remainders", lambda i: float(i % 7), 6), ("rising", float, 1023), ("falling", lambda i: float(-i), 0), ("equal", lambda i: 2.5, 0)]
for name, value, hottest in WIDE:
    case("roots-1024", f, "wide-" + name, bare({i: value(i) for i in range(1024)}), [P[hottest]], hot=1)
case("roots-1024", None, "wide-last-nan", bare({i: NAN if i == 1023 else 0.0 for i in range(1024)}), 16)
f, P = meta(Node(0, *(Node(i) for i in range(1, 300))), Node(300))
for name, value, hottest in WIDE:
    values = {i: value(i) for i in range(300) if i not in (0, 6)}
    hottest = {6: 13, 1023: 299, 0: 1}[hottest]
    case("children-299", f, "children-" + name, bare({**values, 0: -1e300, 300: -2e300}), [P[0], P[hottest]], hot=2)

# ---- 6. inside a tree: 1 has 2 (3, 4) and 5 (6, 7 (8, 9)); then 10
VALUES = {1: 5.0, 10: 5.0, 2: 1.0, 3: 9.0, 4: 9.0, 5: 3.0, 6: -1.0, 7: -1.0, 8: 0.0, 9: 0.0}
for name, changed, ids in [
        ("equal", {}, [1, 5, 6]), ("7", {7: -0.5}, [1, 5, 7, 8]), ("7-9", {7: -0.5, 9: 1}, [1, 5, 7, 9]), ("2", {2: 3.0}, [1, 2, 3]),
        ("2-4", {2: 4.0, 4: 9.5}, [1, 2, 4]), ("10", {10: 5.5}, [10]), ("10-and-nan", {10: 5.5, 2: NAN, 8: NAN}, [10]),
        ("8-nan-off-the-way", {8: NAN, 3: INFINITY}, [1, 5, 6]), ("8-nan", {7: 1.0, 8: NAN}, 16), ("9-inf", {7: 1.0, 9: INFINITY}, 16),
        ("4-nan-behind-3", {2: 5.0, 4: NAN}, 16), ("10-nan", {10: NAN}, 16), ("2-nan-before-5", {2: NAN}, 16)]:
    for how, (f, P) in (("tree", ten()), ("tree-backwards", ten(arrange=lambda arrays: arrays[::-1]))):
        answer = ids if isinstance(ids, int) else [P[i] for i in ids]
        case(how, f, "tree-" + name, among_others({**VALUES, **changed}, range(11)), answer)
# without a value: 5, whose children have some; 1; both roots; the children of 5
f, P = ten()
for name, gone, ids in [("5", (5,), [1, 2, 3]), ("2-and-5", (2, 5), [1]), ("1", (1,), [10]), ("1-and-10", (1, 10), []), ("6-and-7", (6, 7), [1, 5]),
                        ("6", (6,), [1, 5, 7, 8])]:
    case("tree", f, "tree-without-" + name, among_others({i: x for i, x in VALUES.items() if i not in gone}, range(11)), [P[i] for i in ids])
f, P = seven()
case("seven", f, "seven", bare({1: 1.0, 6: 1.0, 3: 9.0, 4: 9.0, 5: 9.0}), [P[1], P[6]])
case("seven", None, "seven-all", bare({i: 1.0 for i in range(1, 8)}), [P[1], P[2], P[3], P[4]], hot=4)
case("seven", None, "seven-all", None, 17, hot=3)
# contexts of all sizes: 0 has 1 (2, 3) and 4; 5 has 6 (7)
f, P = meta(*eight())
case("sizes", f, "sizes-5", bare({i: 1.0 + i for i in range(8)}), [P[5], P[6], P[7]])
case("sizes", None, "sizes-0-1-3", bare({0: 2.0, 5: 1.0, 1: 2.0, 4: 2.0, 2: 0.5, 3: 0.75, 6: NAN}), [P[0], P[1], P[3]])
case("sizes", None, "sizes-0-4", bare({0: 2.0, 5: 2.0, 1: 2.0, 4: 2.5, 2: NAN, 3: 0.75}), [P[0], P[4]])
f, P = meta(*eight(lambda needed: range(1, 256 - needed)))
case("sizes-255-words", f, "sizes-5", None, [P[5], P[6], P[7]])

# ---- 7. arrays that overlap. 2 lies in the flex of 1: it is a child of 1, or of 3, and in no case a root
f, P = meta(Node(1, more=(0, 0, 2)), Node(3))
inner = P[1] + 24
own, of_next = edited(f, kids(P[1], inner, 24)), edited(f, kids(P[3], inner, 24))
for name, values, of_own, of_3 in [
        ("1", {1: 3.0, 2: 9.0, 3: 2.0}, [P[1], inner], [P[1]]), ("3", {1: 2.0, 2: 9.0, 3: 3.0}, [P[3]], [P[3], inner]),
        ("1-and-nan", {1: 3.0, 2: NAN, 3: 2.0}, 16, [P[1]]), ("3-and-nan", {1: 2.0, 2: NAN, 3: 3.0}, [P[3]], 16)]:
    case("child-in-flex", own, "in-flex-" + name, bare(values), of_own)
    case("child-in-flex-of-another", of_next, "in-flex-" + name, None, of_3)
# 2 lies in the flex of 1, and 3 in that of 2: the array of 2 begins inside that of the roots 1, 3, 4
f, P = meta(Node(1, more=(0, 0, 2 + 3 * 2 ** 56)), Node(3), Node(4))
crossed = edited(f, kids(P[4], P[1] + 24, 48))
case("arrays-crossed", crossed, "crossed-4", bare({1: 1.0, 2: 9.0, 3: 2.0, 4: 3.0}), [P[4], P[1] + 24])
case("arrays-crossed", None, "crossed-3", bare({1: 1.0, 2: NAN, 3: 4.0, 4: 3.0}), [P[3]])
case("arrays-crossed", None, "crossed-none", bare({2: 9.0}), [])
# children that lie before their parents
f, P = meta(Node(1, Node(2)), Node(3, Node(4), Node(5)), slack=48, arrange=lambda arrays: arrays[::-1])
case("far-apart", f, "far-apart", bare({1: 1.0, 3: 1.5, 2: 9.0, 4: 0.0, 5: -0.0}), [P[3], P[4]])

# ---- 8. a profile.db with a wider stride, gaps, and a block of two profiles
m = Maker("profile")
m.element(0, END - 1, 0, END - 1)
b = m.block([(1, 0), (2, 2), (4, 3), (5, 5)], [(6, 9.0), (7, 1.0), (7, 5.0), (7, 1.0), (9, NAN), (7, INFINITY)])
m.element(6, m.spots[b][0], 4, m.spots[b][1])
m.infos(3, stride=48, slack=5)
for profile, answer in (0, []), (1, [A, C]), (2, [A, C]), (3, 15):
    case("w", None, "spread", m.done() if profile == 0 else None, answer, profile=profile)
case("w", None, "spread", None, [A], metric=6)
case("w", None, "spread", None, 16, metric=9)

# ---- 9. trees and values at random
ORDINARY = [0.0, -0.0, 1.0, 1.0, 2.0, -1.0, -2.5, 1, MINUS + 1, 1e300]
WILD = [NAN, INFINITY, MINUS + INFINITY, INFINITY + 5]


def values_for(dice, nodes):
    """A profile: most contexts have a value of each of two metrics, few of them wild."""
    some = lambda: dice.of(WILD) if dice.below(60) == 0 else dice.of(ORDINARY)
    return {(c.ctx, metric): some() for c in nodes for metric in (METRIC, METRIC + 2) if dice.below(8)}


def spoiled(dice, db):
    """One byte other, most often where the profiles' blocks are told of; or the file cut."""
    if dice.below(6) == 0:
        return db[:dice.below(len(db))]
    return edited(db, (dice.of((dice.below(len(db)), 16 + dice.below(32), 48 + dice.below(96))), bytes([dice.below(256)])))


dice = Dice(20260808)
for i in range(36):
    tree, nodes = grown(dice)
    f, P = meta(*tree, slack=8 * dice.below(3), arrange=dice.mix)
    db = profile_db(values_for(dice, nodes), values_for(dice, nodes))
    f = damaged(dice, f, P, nodes) if dice.below(5) == 0 else f
    db = spoiled(dice, db) if dice.below(4) == 0 else db
    keep("m-random-%02d" % i, f)
    keep("p-random-%02d" % i, db)
    for _ in range(5):
        listing, table = len(nodes) - dice.of((0, 0, 0, 0, 1)), len(nodes) + 8 - dice.of((0, 0, 0, dice.below(20)))
        case("random-%02d" % i, None, "random-%02d" % i, None, None, profile=dice.of((0, 1, 0, 1, 2)), metric=METRIC + dice.of((0, 0, 2, 1)),
             listing=listing, table=table, hot=dice.of((9, 9, 9, 1, 2)))


def show(meta_name, db_name, profile, metric, listing, table, hot):
    """The lines for one question, its answer, and what it leaves."""
    lent = [[BEFORE] * n for n in (hot, listing, table)]
    answer = hot_path(files[meta_name], files[db_name], profile, metric, lent[1], lent[2], lent[0])
    shown = [" ".join([name] + list(map(str, part))) for name, part in zip(("hot", "listing", "table"), lent)]
    return [" ".join(map(str, answer))] + shown, answer, lent


def as_answered(known, answer, hot):
    """Whether the answer and the path's words are those that were written by hand."""
    if isinstance(known, int):
        return answer == ("refused", known) and all(word == BEFORE for word in hot)
    return answer == ("path", len(known)) and hot == known + [BEFORE] * (len(hot) - len(known))


def as_walked(file, listing, table):
    """Whether a walk leaves these."""
    if opening("meta", file)[0]:
        return all(word == BEFORE for word in listing + table)
    listed = walk(file, len(listing), len(table))[1]
    slots = {r[2]: r[0] for r in listed}
    return listing == [r[0] for r in listed] + [BEFORE] * (len(listing) - len(listed)) and table == [slots.get(i, 0) for i in range(len(table))]


# by hand: A and D of W
assert show("m-w.db", "p-down.db", 1, METRIC, 5, 6, 3)[0] == ["path 2", "hot 216 288 7", "listing 216 264 288 240 7", "table 0 216 264 288 240 0"]


if __name__ == "__main__":
    text = ""
    for *asked, known in lines:
        out, answer, (hot, listing, table) = show(*asked)
        assert known is None or as_answered(known, answer, hot), (asked, known, answer, hot)
        assert as_walked(files[asked[0]], listing, table), asked
        text += "".join(line + "\n" for line in ["== " + " ".join(map(str, asked))] + out)
    data = {**files, "list": "".join(" ".join(map(str, asked)) + "\n" for *asked, _ in lines).encode()}
    os.makedirs(os.path.join(HERE, "data"), exist_ok=True)
    for old in os.listdir(os.path.join(HERE, "data")):
        os.remove(os.path.join(HERE, "data", old))
    for name, content in data.items():
        with open(os.path.join(HERE, "data", name), "wb") as f:
            f.write(content)
    with open(os.path.join(HERE, "stdout"), "w") as f:
        f.write(text)
    print("%d files, %d lines in list" % (len(files), len(lines)))
