"""Writes the lists that crates/write_cases writes files from, and what it is to print, by the Python writer of tools/hpcdb.py. Next to each
case stands the answer that the rules give it, written by hand; every file is read back by the Python reader."""
import os
from hpcdb import *

HERE = os.path.join(os.path.dirname(os.path.abspath(__file__)), "..", "crates", "write_cases")
MAX = END - 1
LENT = 200
# how much the program can lend: bytes of identifications (behind a file's own they are 0), of a written file, of entries; words of a list
IDENTIFIERS, LONGEST, ENTRIES, WORDS = 16 * 65536, 1049000, 65536, 64
files, cases = {}, []


def stored(name, data):
    assert files.setdefault(name, data) == data, name
    return name


def ids(name, *four):
    """A file of identifications: kind, flags, logicalId, physicalId. The ignored byte is 0xa5."""
    return stored(name + ".ids", b"".join(struct.pack("<BBHIQ", kind, 0xa5, *rest) for kind, *rest in four))


def entries(name, *four, more=b""):
    """A file of entries: profile, context, metric, value or its bits. The ignored bytes are 0xa5."""
    bits = lambda x: x if isinstance(x, int) else bits_of(x)
    return stored(name + ".entries", b"".join(struct.pack("<IIH6sQ", *rest, b"\xa5" * 6, bits(x)) for *rest, x in four) + more)


def case(known, profiles, tuples, identifiers, of, room=LENT, lent=None):
    """`lent` bytes of the identifications are lent, all of the file's if nothing is said."""
    lent = len(files[identifiers]) if lent is None else lent
    assert lent <= IDENTIFIERS and room <= LONGEST and len(files[of]) <= ENTRIES and max(len(profiles), len(tuples)) <= WORDS
    cases.append((known, profiles, tuples, identifiers, lent, of, room))


# ---- two contexts and three values: 64 + 40 + tuple of 24 + values of 30, padding of 2, indices of 24 + 8
ONE = ids("one", (3, 0x8001, 77, MAX))
TWO = ids("two", (3, 0x8001, 77, MAX), (255, 0xffff, 2 ** 32 - 1, 5))
B = entries("b", (0, 5, 1, 2.0), (0, 5, 4, 3.0), (0, 9, 1, 5.0))
for room in 192, 193, 200, 256:
    case("written 192", [0], [1], ONE, B, room)
for room in 191, 190, 72, 1, 0:
    case("refused 17", [0], [1], ONE, B, room)
# what no tuple has, and what is no entry
case("written 192", [0], [1], TWO, B)
case("written 192", [0], [1], TWO, B, lent=31)
case("written 192", [0], [1], ONE, entries("b-more", (0, 5, 1, 2.0), (0, 5, 4, 3.0), (0, 9, 1, 5.0), more=b"\xff" * 23))

# ---- nothing; profiles and tuples alone
NO_IDS, NO_ENTRIES = ids("none"), entries("none")
for room in 72, 73, 100:
    case("written 72", [], [], NO_IDS, NO_ENTRIES, room)
case("refused 17", [], [], NO_IDS, NO_ENTRIES, 71)
case("written 72", [], [], TWO, entries("piece", more=b"\xff" * 23), 80)
case("written 80", [], [0], NO_IDS, NO_ENTRIES, 80)
case("written 120", [0], [0], NO_IDS, NO_ENTRIES, 128)
case("written 120", [], [0, 2], TWO, NO_ENTRIES, 120)
case("written 200", [0, 0, 0], [0], NO_IDS, NO_ENTRIES, 200)

# ---- two profiles share the second tuple, nobody has the first, the second profile has no entry; the same the other way round
case("written 256", [1, 1], [0, 2], TWO, B, 256)
case("written 256", [1, 0], [1, 1], TWO, entries("second", (1, 5, 1, 2.0), (1, 5, 4, 3.0), (1, 9, 1, 5.0)), 260)
# the same with one identification and a zero; a last piece that is no entry
SMALL = entries("small", (0, 5, 1, 2.0), (0, 5, 4, 3.0), (0, 9, 1, 5.0), (0, 9, 2, 0.0), more=b"\1\2\3")
for room in 248, 250:
    case("written 248", [1, 1], [0, 1], ONE, SMALL, room)
case("refused 17", [1, 1], [0, 1], ONE, SMALL, 247)
# a zero, in both signs; two values and no padding
case("written 192", [0, 0], [0], NO_IDS, entries("zeros", (0, 2, 0, 0.0), (0, 2, 7, -0.0)), 208)
# every value by its bits: infinities, NaNs of both kinds, subnormals; ids at their ends
EDGE = entries(
    "edge", (0, 0, 0, 0x7ff0000000000000), (0, 0, 65535, 0xfff0000000000000), (0, 2 ** 32 - 1, 0, 0x7ff0000000000001),
    (0, 2 ** 32 - 1, 65535, 0x7ff8000000000000), (2, 0, 1, 1), (2, 2 ** 31, 256, MAX))
case("written 356", [2, 0, 2], [1, 0, 1], TWO, EDGE, 360)
# one value in each context; one context
case("written 188", [0], [0], NO_IDS, entries("each", *((0, 256 * k, 1, float(k)) for k in range(3))), 224)
case("written 304", [0], [0], NO_IDS, entries("row", *((0, 7, k, k / 3) for k in range(17))), 320)

# ---- 15 alone: no such profile, no such tuple, too few identifications
for p in 1, 2, 2 ** 32 - 1:
    case("refused 15", [0], [1], ONE, entries("profile-%d" % p, (0, 5, 1, 2.0), (p, 5, 1, 2.0)))
for t in 1, 2, 2 ** 16, 2 ** 32, 2 ** 61, 2 ** 63, MAX:
    case("refused 15", [0, t], [1], ONE, B)
case("refused 15", [], [1], ONE, B)
case("refused 15", [0], [], NO_IDS, NO_ENTRIES)
case("refused 15", [0], [1], ONE, B, lent=15)
# modulo 2^64 the sums are 1, or the bytes 16
for tuples in [2], [1, 1], [0, 2], [2 ** 60 + 1], [2 ** 63, 2 ** 63, 1], [1, MAX, 1], [MAX], [2 ** 32 + 1]:
    case("refused 15", [0], tuples, ONE, B)

# ---- 11 alone
for k, pair in enumerate([
        ((1, 0, 0), (0, 1, 1)), ((0, 1, 0), (0, 0, 1)), ((0, 1, 1), (0, 1, 0)), ((0, 5, 1), (0, 5, 1)),
        ((0, 256, 0), (0, 1, 0)), ((0, 0, 256), (0, 0, 1)), ((0, 2 ** 31, 0), (0, 1, 0)), ((0, 2 ** 32 - 1, 0), (0, 0, 0))]):
    case("refused 11", [0, 0], [0], NO_IDS, entries("falls-%d" % k, *((*ids_, 1.0) for ids_ in pair)))
# equal ids, whatever the bits
case("refused 11", [0], [0], NO_IDS, entries("other-bits", (0, 5, 1, 1.0), (0, 5, 1, 2.0)))
SORTED = [(p, c, m, 1.0) for p in range(2) for c in (0, 3) for m in (1, 2)]
for k in range(7):
    case("refused 11", [0, 0], [0], NO_IDS, entries("swapped-%d" % k, *SORTED[:k], SORTED[k + 1], SORTED[k], *SORTED[k + 2:]))
case("written 288", [0, 0], [0], NO_IDS, entries("sorted", *SORTED), 300)

# ---- 7 alone: a tuple too long, named or not; the longest, and its last bytes
for profiles, tuples in ([0], [65536]), ([], [65536]), ([1], [0, 65536]), ([0], [0, 65536]):
    case("refused 7", profiles, tuples, TWO, NO_ENTRIES, lent=IDENTIFIERS)
case("written 1048680", [0], [65535], TWO, NO_ENTRIES, 1048680, IDENTIFIERS)
case("written 1048680", [0], [65535], TWO, NO_ENTRIES, 1048700, IDENTIFIERS - 16)
case("refused 17", [0], [65535], TWO, NO_ENTRIES, lent=IDENTIFIERS)

# ---- several at once: the first of 15, 11, 7, 17
TWICE = entries("twice", (0, 5, 1, 2.0), (0, 5, 1, 2.0))
LAST = entries("twice-7", (0, 5, 1, 2.0), (0, 5, 1, 3.0), (7, 0, 0, 1.0))
FIRST = entries("7-first", (7, 0, 0, 1.0), (0, 5, 1, 2.0))
FAR = entries("only-7", (7, 0, 0, 1.0))
for room in 0, 40, LENT:
    case("refused 15", [0], [1], ONE, LAST, room)
    case("refused 15", [0], [1], ONE, FIRST, room)
    case("refused 11", [0], [1], ONE, TWICE, room)
    case("refused 15", [0], [65536], NO_IDS, FAR, room, IDENTIFIERS)
    case("refused 15", [0], [65536], NO_IDS, TWICE, room, IDENTIFIERS - 1)
    case("refused 15", [1], [65536], NO_IDS, TWICE, room, IDENTIFIERS)
    case("refused 11", [0], [65536], NO_IDS, TWICE, room, IDENTIFIERS)
    case("refused 7", [0], [65536], NO_IDS, NO_ENTRIES, room, IDENTIFIERS)

# ---- at random
dice = Dice(20260202)
for i in range(12):
    tuples = [dice.below(4) for _ in range(1 + dice.below(4))]
    own = ids("random-%d" % i, *((dice.below(256), dice.below(65536), dice.below(2 ** 31), dice.bits()) for _ in range(sum(tuples))))
    profiles = [dice.below(len(tuples)) for _ in range(1 + dice.below(5))]
    some = {(p, dice.of((c, 9 * c, 2 ** 32 - c)), dice.below(5)) for p in range(len(profiles)) for c in range(1, 1 + dice.below(6))}
    some = [ids_ for ids_ in sorted(some) if ids_[0] != i % 6]
    length = 72 + 40 * len(profiles) + sum(8 + 16 * n for n in tuples) + 10 * len(some) + 12 * len({ids_[:2] for ids_ in some})
    length += sum(2 for p in range(len(profiles)) if sum(ids_[0] == p for ids_ in some) % 2)
    of = entries("random-%d" % i, *((*ids_, dice.bits()) for ids_ in some))
    case("written %d" % length, profiles, tuples, own, of, length + dice.below(9))


def read_back(file, profiles, tuples, identifiers, of):
    """The Python reader finds the lists in a file that was written from them."""
    all_ids, rows = pieces(identifiers, 16), [struct.unpack("<IIH6xQ", entry) for entry in pieces(of, 24)]
    assert profile_count(file) == ("count", len(profiles))
    for p, t in enumerate(profiles):
        first = sum(tuples[:t])
        assert tuple_of(file, p) == ("tuple", tuples[t])
        for k in list(range(tuples[t]))[:9] + list(range(tuples[t]))[-9:]:
            assert identifier(file, p, k) == ("identifier",) + struct.unpack("<BxHIQ", all_ids[first + k])
        assert identifier(file, p, tuples[t]) == ("refused", 15)
        found = {(p, c, m, bits) for c, sub in block("profile", file, p).items() for m, bits in sub}
        assert found == {row for row in rows if row[0] == p}
    assert tuple_of(file, len(profiles)) == profile_lookup(file, len(profiles), 0, 0) == ("refused", 15)


def shown(known, profiles, tuples, identifiers, lent, of, room):
    """The answer, and the lent bytes, which are 0xff before, in rows; rows of zeros are left out."""
    lists = profiles, tuples, (files[identifiers] + bytes(IDENTIFIERS))[:lent], files[of]
    try:
        file = write_profile(*lists, room)
        answer = "written %d" % len(file)
        read_back(file, *lists)
    except Refused as r:
        file, answer = b"", "refused %d" % r.args[0]
    assert answer == known, (known, answer, profiles, tuples, identifiers, lent, of, room)
    file += b"\xff" * (room - len(file))
    rows = ((at, file[at:at + 32]) for at in range(0, room, 32))
    return "".join([answer + "\n"] + ["%d %s\n" % (at, row.hex()) for at, row in rows if any(row)])


if __name__ == "__main__":
    text, list_ = "", ""
    for known, profiles, tuples, identifiers, lent, of, room in cases:
        lines = "%s %d %s %d\n%s\n%s\n" % (identifiers, lent, of, room, " ".join(map(str, profiles)), " ".join(map(str, tuples)))
        list_ += lines
        text += "== " + lines + shown(known, profiles, tuples, identifiers, lent, of, room)
    assert len(list_) <= 60000 and set(files) == {name for one in cases for name in (one[3], one[5])}
    os.makedirs(os.path.join(HERE, "data"), exist_ok=True)
    for old in os.listdir(os.path.join(HERE, "data")):
        os.remove(os.path.join(HERE, "data", old))
    for name, data in files.items():
        with open(os.path.join(HERE, "data", name), "wb") as f:
            f.write(data)
    with open(os.path.join(HERE, "data", "list"), "w") as f:
        f.write(list_)
    with open(os.path.join(HERE, "stdout"), "w") as f:
        f.write(text)
    print("%d files of %d bytes, %d cases" % (len(files), sum(map(len, files.values())), len(cases)))
