"""Writes the files that crates/block_cases reads, and what it is to print, by the Python reader of tools/hpcdb.py. Next to each question,
but for the random files, stands the answer that the rules give it, written by hand."""
import os
import struct
from hpcdb import *

HERE = os.path.join(os.path.dirname(os.path.abspath(__file__)), "..", "crates", "block_cases")
LIMIT = 32768
INFINITY, NAN = 0x7ff0000000000000, 0x7ff8000000000000
ASK = "not known beforehand"
files, lines = {}, []


def edited(file, *edits):
    for at, data in edits:
        assert 0 <= at and at + len(data) <= len(file)
        file = poke(file, at, data)
    return file


def raw(x):
    return bits_of(x) if isinstance(x, float) else x


def keep(name, file):
    assert len(file) <= LIMIT and files.setdefault(name + ".db", file) == file, name


def case(name, kind, file, *questions):
    """A question is (element, index's id, value's id, answer). Answers: None if absent, a refusal's number, a float, its bits as [bits]."""
    keep(name, file)
    for i, outer, inner, known in questions:
        asked = (i, outer, inner) if kind == "profile" else (inner, i, outer)
        if known is None:
            known = "absent"
        elif known is not ASK:
            known = "refused %d" % known if isinstance(known, int) else "found %d" % (known[0] if isinstance(known, list) else bits_of(known))
        lines.append((kind, name + ".db") + asked + (known,))


def totals(name, file, *questions):
    """A question is (context, metric, answer). Answers: None if absent, a refusal's number, (count, profile, smallest, profile, greatest, sum)."""
    keep(name, file)
    for context, metric, known in questions:
        if known is None:
            known = "absent"
        elif known is not ASK:
            known = "refused %d" % known if isinstance(known, int) else "totals " + " ".join(str(raw(x)) for x in known)
        lines.append(("totals", name + ".db", context, metric, 0, known))


# ---- building a file
FILL = b"\xa5"
LEAST = {"profile": 40, "cct": 32}
INFOS, TUPLES = 16, 32  # entries of the header: size, then place 8 bytes on


class Maker:
    """A file under way: all is put at its end. Bytes without a meaning are FILL. IdTuples is empty unless it is put."""

    def __init__(self, kind):
        self.kind, (self.outer, self.inner, _) = kind, BLOCKS[kind]
        self.f = bytearray(HEADER[kind])
        self.elements, self.spots, self.info = [], [], None
        self.pairs = [None] + [(END - 1, 0)] * (kind == "profile")

    def upto(self, rest, multiple=8):
        while (len(self.f) - rest) % multiple:
            self.f += FILL

    def put(self, data):
        self.f += data
        return len(self.f) - len(data)

    def values(self, values):
        return self.put(b"".join(u(self.inner, i) + u(8, raw(x)) for i, x in values))

    def indices(self, indices):
        return self.put(b"".join(u(self.outer, i) + u(8, start) for i, start in indices))

    def element(self, n, v, count, i, idtuple=END - 1):
        """The next element leads to these; its number is handed back."""
        self.elements.append(u(8, n) + u(8, v) + u(self.outer, count) + FILL * (8 - self.outer) + u(8, i) + u(8, idtuple) * (self.kind == "profile"))
        self.spots.append((v, i))
        return len(self.elements) - 1

    def block(self, indices, values, n=None, v=None, count=None, i=None, at=2, then=4):
        """Values at a place that is `at` modulo 8, indices at one that is `then`; n, v, count and i stand for what is true."""
        self.upto(at)
        places = [self.values(values)]
        self.upto(then)
        places.append(self.indices(indices))
        true = len(values), places[0], len(indices), places[1]
        return self.element(*(t if x is None else x for x, t in zip((n, v, count, i), true)))

    def infos(self, count, stride=0, slack=0, before=16):
        """The section with the elements; `before` of its bytes come before them, `slack` after them."""
        self.upto(0)
        self.stride = stride or LEAST[self.kind]
        self.info, self.array, self.count = len(self.f), len(self.f) + before, count
        self.pairs[0] = self.info, before + count * self.stride + slack
        self.f += array(self.array, count, self.stride, 1) + FILL * (self.pairs[0][1] - 13)

    def tuples(self, size):
        self.upto(0)
        self.pairs[1] = self.put(bytes(size)), size

    def at(self, k):
        return self.array + k * self.stride

    def done(self, length=0):
        if self.info is None:
            self.infos(len(self.elements))
        assert self.count == len(self.elements)
        for k, data in enumerate(self.elements):
            self.f[self.at(k):self.at(k) + len(data)] = data
        self.f += FILL * (length - 8 - len(self.f))
        self.f[:HEADER[self.kind]] = front(self.kind, self.pairs)
        return bytes(self.f) + FOOTER[self.kind]


# ---- a second reader, for sound files only
def entries(kind, file, k):
    """{(index's id, value's id): bits} of block k"""
    place, count, stride = struct.unpack_from("<QIB", file, number(file, 24, 8))
    n, v, m, i = struct.unpack_from("<QQI4xQ" if kind == "profile" else "<QQH6xQ", file, place + k * stride)
    index, value = ("<IQ", "<HQ") if kind == "profile" else ("<HQ", "<IQ")
    starts = list(struct.iter_unpack(index, file[i:i + m * struct.calcsize(index)])) if m else []
    values = list(struct.iter_unpack(value, file[v:v + n * struct.calcsize(value)])) if n else []
    ends = [start for _, start in starts[1:]] + [n]
    return {(outer, inner): bits for (outer, start), end in zip(starts, ends) for inner, bits in values[start:end]}


def sound(kind, file, truth=None):
    """All entries of all blocks, and as much that isn't there, by both readers; `truth` has what was put into the blocks."""
    count = number(file, number(file, 24, 8) + 8, 4)
    for k in range(count):
        there = entries(kind, file, k)
        assert truth is None or there == truth[k]
        outers = {near for o, _ in there for near in (o - 1, o, o + 1)} | {0, 7, END - 1}
        inners = {near for _, i in there for near in (i - 1, i, i + 1)} | {0, 7, END - 1}
        for o in outers:
            for i in inners:
                found = profile_lookup(file, k, o, i) if kind == "profile" else cct_lookup(file, i, k, o)
                assert found == (("found", there[o, i]) if (o, i) in there else ("absent",)), (k, o, i)
            if kind == "cct":
                sub = [(i, bits, double(bits)) for (o2, i), bits in there.items() if o2 == o]
                if not sub:
                    known = ("absent",)
                elif any(bits & INFINITY == INFINITY for _, bits, _ in sub):
                    known = "refused", 16
                else:
                    low, high = min(sub, key=lambda e: e[2]), max(sub, key=lambda e: e[2])
                    total = sub[0][2]
                    for _, _, x in sub[1:]:
                        total += x
                    known = "totals", len(sub), *low[:2], *high[:2], bits_of(total)
                assert cct_totals(file, k, o) == known, (k, o)


KINDS = "profile", "cct"
SHORT = {"profile": "p", "cct": "c"}
I, V = [(5, 0), (9, 2)], [(1, 2.0), (4, 3.0), (1, 5.0)]  # B; in a cct.db 5 and 9 are metrics, 1 and 4 profiles
IN_B = (5, 4, 3.0), (9, 1, 5.0), (7, 1, None), (5, 1, 2.0), (9, 4, None)


def of(k, questions):
    return [(k,) + q for q in questions]


def is_b(k):
    return of(k, IN_B[:3])


def refused(k, n):
    return of(k, [(5, 4, n), (7, 1, n)])


# ---- B, and positions and ids that are too large. Elements: empty, B, another block, empty with wild pointers
def with_b(kind, stride, order="ibt"):
    m = Maker(kind)
    for part in order:
        if part == "i":
            m.infos(4, LEAST[kind] + stride)
        if part == "t" and kind == "profile":
            m.tuples(24)
        if part == "b":
            m.element(0, 0, 0, 0)
            m.block(I, V)
            m.block([(1, 0), (2, 1), (300, 3), (65535, 6)], [(7, 1.5), (1, 2.5), (2, 3.5), (1, -4.5), (9, 5.5), (65535, 6.5), (3, 7.5)])
            m.element(0, END - 1, 0, END - 3)
    f = m.done()
    sound(kind, f)
    return f, m


SECOND = of(2, [(65535, 3, 7.5), (300, 9, 5.5), (300, 8, None)])
NONE = [(0, 5, 4, None), (3, 5, 4, None)]
OTHERS = SECOND + NONE
MADE = {kind: with_b(kind, 8) for kind in KINDS}
for kind, (f, m) in MADE.items():
    O, N = 1 << 8 * m.outer, 1 << 8 * m.inner
    case(SHORT[kind] + "-b", kind, f, *of(1, IN_B), *OTHERS)
    case(SHORT[kind] + "-b", kind, f, *of(1, ((o, i, None) for o, i in [(5, 2), (5, 0), (5, 5), (4, 1), (10, 1), (0, 0), (1, 5)])))
    case(SHORT[kind] + "-b", kind, f, *of(2, [(1, 7, 1.5), (2, 1, 2.5), (2, 2, 3.5), (300, 1, -4.5), (300, 65535, 6.5), (44, 1, None)]))
    case(SHORT[kind] + "-b", kind, f, (3, 0, 0, None), (0, END - 1, END - 1, None))
    # too large for their fields
    case(SHORT[kind] + "-b", kind, f, *of(1, ((o, i, None) for o, i in [
        (O + 5, 4), (5, N + 4), (O + 9, N + 1), (5, 2 ** 63 + 4), (2 ** 63 + 5, 4), (5, END - 1), (END - 1, 1), (END - 1, END - 1),
        (2 ** 32 + 5, 4), (5, 2 ** 32 + 4), (5, 65536 + 4), (65536 + 5, 4), (5, 256 + 4), (256 + 5, 4), (5, N), (O, 1)])))
    # 15
    case(SHORT[kind] + "-b", kind, f, *((i, 5, 4, 15) for i in (4, 5, 255, 256, 257, 65537, 2 ** 32, 2 ** 32 + 1, 2 ** 63 + 1, END - 1)))
    # a position that, times the stride, wraps to B's
    case(SHORT[kind] + "-b", kind, f, (2 ** 61 + 1, 5, 4, 15))
    for name, stride, order in [("least", 0, "bti"), ("wide", 16, "tbi"), ("widest", 248 - LEAST[kind], "itb")]:
        case("%s-stride-%s" % (SHORT[kind], name), kind, with_b(kind, stride, order)[0], *is_b(1), *OTHERS, (4, 5, 4, 15))
f = MADE["cct"][0]
FIVE, NINE = (2, 1, 2.0, 4, 3.0, 5.0), (1, 1, 5.0, 1, 5.0, 5.0)
totals("c-b", f, (1, 5, FIVE), (1, 9, NINE), (1, 7, None), (1, 0, None), (1, 65536 + 5, None), (1, 2 ** 32 + 9, None), (1, END - 1, None))
totals("c-b", f, (0, 5, None), (3, 5, None), (4, 5, 15), (2 ** 32 + 1, 5, 15), (END - 1, 7, 15), (2, 300, (3, 1, -4.5, 65535, 6.5, 7.5)))
totals("c-b", f, (2, 1, (1, 7, 1.5, 7, 1.5, 1.5)), (2, 2, (2, 1, 2.5, 2, 3.5, 6.0)), (2, 65535, (1, 3, 7.5, 3, 7.5, 7.5)), (2, 44, None))
# no elements: the array's pointer is wild
for kind in KINDS:
    m = Maker(kind)
    m.infos(0)
    f = edited(m.done(), (m.info, u(8, END - 1)))
    case(SHORT[kind] + "-none", kind, f, (0, 5, 4, 15), (1, 5, 4, 15), (END - 1, 0, 0, 15))
totals("c-none", f, (0, 5, 15), (END - 1, 5, 15))

# ---- opening refuses, before 15 and before the block
keep("empty", b"")
for kind, (f, m) in MADE.items():
    h = HEADER[kind]
    for name, n, file in [
            ("short", 1, f[:h - 1] + FOOTER[kind]),
            ("magic", 2, edited(f, (13, b"e"))),
            ("version-3", 3, edited(f, (14, b"\3"))),
            ("footer", 4, f[:-1]),
            ("section-far", 5, edited(f, (INFOS + 8, u(8, END - 8)))),
            ("stride-16", 6, edited(f, (m.info + 12, b"\x10"))),
            ("stride-low", 6, edited(f, (m.info + 12, bytes([LEAST[kind] - 8])))),
            ("stride-off", 6, edited(f, (m.info + 12, bytes([LEAST[kind] + 4])))),
            ("count-large", 7, edited(f, (m.info + 8, u(4, 2 ** 32 - 1))))]:
        case("%s-%s" % (SHORT[kind], name), kind, file, (1, 5, 4, n), (0, 5, 4, n), (4, 5, 4, n))
        if kind == "cct":
            totals("c-" + name, file, (1, 5, n), (4, 5, n))
    case("empty", kind, b"", (0, 0, 0, 1), (1, 5, 4, 1))
    case(SHORT[kind] + "-minor-9", kind, edited(f, (15, b"\x09")), *is_b(1), *OTHERS)
    # two at once; all blocks damaged, 15 as before
    case(SHORT[kind] + "-stride-and-block", kind, edited(f, (m.info + 12, b"\x10"), (m.at(1) + 8, u(8, END - 2))), (1, 5, 4, 6), (9, 5, 4, 6))
    wild = edited(f, *((m.at(k), u(8, END - 1)) for k in range(4)))
    case(SHORT[kind] + "-all-wild", kind, wild, *((k, 5, 4, 7) for k in range(4)), (4, 5, 4, 15), (2 ** 32, 5, 4, 15), (END - 1, 5, 4, 15))
    # B damaged, the others as before
    case(SHORT[kind] + "-b-wild", kind, edited(f, (m.at(1), u(8, 2))), *refused(1, 11), *OTHERS, (4, 5, 4, 15))
totals("empty", b"", (0, 0, 1), (1, 5, 1))
totals("c-all-wild", wild, (1, 5, 7), (1, 7, 7), (4, 5, 15))
case("c-b", "profile", MADE["cct"][0], (1, 5, 4, 2), (9, 5, 4, 2))
case("p-b", "cct", MADE["profile"][0], (1, 5, 4, 2), (9, 5, 4, 2))
totals("p-b", MADE["profile"][0], (1, 5, 2))


# ---- the order of starts and ids; each row is a block of its own
def rows(kind):
    m = Maker(kind)
    O, N = 1 << 8 * m.outer, 1 << 8 * m.inner
    asked, elevens = [], []

    def good(indices, values, *questions):
        asked.extend(of(m.block(indices, values), questions))

    def bad(indices, values=V, *more):
        k = m.block(indices, values)
        elevens.append(k)
        asked.extend(refused(k, 11) + of(k, ((o, i, 11) for o, i in more or [(9, 1)])))
    good(I, V, *IN_B)
    bad([(5, 0), (9, 0)])
    bad([(5, 0), (9, 0)], V[:2], (9, 4))
    bad([(5, 1), (9, 2)])
    bad([(5, 0), (9, 1)])  # 4 and then 1 in one sub-array
    good([(5, 0), (9, 1)], [(1, 2.0), (4, 3.0), (9, 5.0)], (5, 1, 2.0), (9, 4, 3.0), (9, 9, 5.0), (5, 4, None), (9, 1, None))
    bad([(5, 0), (9, 3)])
    bad([(5, 0), (9, 4)])
    bad([(5, 0), (9, END - 1)])
    bad([(5, 0), (9, 2 ** 63 + 2)])
    bad([(5, 0), (9, 2 ** 32 + 2)])
    bad([(5, 2 ** 32), (9, 2 ** 32 + 2)])
    bad([(5, 2 ** 32), (9, 2)])
    bad([(5, 2 ** 63), (9, 2)])
    bad([(5, 2), (9, 0)])
    bad([(5, 1)], [(1, 2.0), (4, 3.0)])
    bad([(5, 1)], [(1, 2.0)])
    good([(5, 0)], [(1, 2.0)], (5, 1, 2.0), (5, 4, None), (9, 1, None))
    four = [(1, 1.0), (2, 2.0), (3, 3.0), (4, 4.0)]
    good([(5, 0), (9, 1), (11, 2)], four, (5, 1, 1.0), (9, 2, 2.0), (11, 3, 3.0), (11, 4, 4.0), (11, 5, None), (9, 3, None))
    bad([(5, 0), (9, 2), (11, 1)], four, (11, 3))
    bad([(5, 0), (9, 2), (11, 2)], four, (11, 3))
    bad([(5, 0), (9, 3), (11, 2)], four, (5, 1))
    bad([(5, 0), (9, 2), (11, 4)], four, (9, 3))
    bad([(5, 0), (9, 2), (11, 0)], four, (9, 3))
    # ids of indices
    bad([(5, 0), (5, 2)])
    bad([(9, 0), (5, 2)])
    bad([(5, 0), (9, 1), (9, 2)], four, (5, 1))
    bad([(5, 0), (9, 1), (7, 2)], four, (5, 1))
    bad([(5, 0), (9, 1), (5, 2)], four, (9, 2))
    good([(5, 0), (O // 2, 2)], V, (5, 4, 3.0), (O // 2, 1, 5.0), (O // 2, 4, None))
    bad([(O // 2, 0), (5, 2)], V, (O // 2, 1))
    good([(1, 0), (256, 2)], V, (1, 4, 3.0), (256, 1, 5.0), (0, 1, None))
    bad([(256, 0), (1, 2)], V, (256, 1))
    good([(0, 0), (O - 1, 2)], V, (0, 4, 3.0), (O - 1, 1, 5.0), (END - 1, 1, None), (O, 4, None), (2 * O - 1, 1, None))
    # ids of values
    bad(I, [(1, 2.0), (1, 3.0), (1, 5.0)])
    bad(I, [(4, 2.0), (1, 3.0), (1, 5.0)])
    bad([(5, 0), (9, 1)], [(1, 2.0), (4, 3.0), (4, 5.0)])
    bad([(5, 0), (9, 1)], [(1, 2.0), (4, 3.0), (3, 5.0)])
    bad([(5, 0)], [(1, 2.0), (4, 3.0), (1, 5.0)])
    bad([(5, 0)], [(1, 2.0), (4, 3.0), (6, 5.0), (6, 7.0)], (5, 6))
    bad([(5, 0), (9, 4)], [(1, 2.0), (4, 3.0), (6, 5.0), (5, 7.0), (1, 8.0)], (5, 5), (9, 1))
    good([(5, 0), (9, 3)], [(2, 2.0), (4, 3.0), (6, 5.0), (1, 7.0)], (5, 2, 2.0), (5, 6, 5.0), (9, 1, 7.0), (5, 1, None), (9, 2, None))
    good([(5, 0), (9, 1)], [(4, 2.0), (4, 3.0)], (5, 4, 2.0), (9, 4, 3.0), (9, 1, None))
    good(I, [(1, 2.0), (N // 2, 3.0), (1, 5.0)], (5, 1, 2.0), (5, N // 2, 3.0), (9, N // 2, None))
    bad(I, [(N // 2, 2.0), (1, 3.0), (1, 5.0)], (5, N // 2))
    good(I, [(1, 2.0), (256, 3.0), (1, 5.0)], (5, 256, 3.0), (5, 0, None))
    bad(I, [(256, 2.0), (1, 3.0), (1, 5.0)], (5, 256))
    good(I, [(1, 2.0), (N - 1, 3.0), (N - 1, 5.0)], (5, N - 1, 3.0), (9, N - 1, 5.0), (5, END - 1, None), (5, 2 * N - 1, None), (9, N, None))
    # a 0 where a sub-array begins
    for indices, values, questions in [
            (I, [(0, 2.0), (4, 3.0), (1, 5.0)], [(5, 0, 2.0), (5, 4, 3.0), (9, 1, 5.0), (9, 0, None)]),
            (I, [(1, 2.0), (4, 3.0), (0, 5.0)], [(5, 0, None), (5, 4, 3.0), (9, 0, 5.0), (9, 1, None)]),
            ([(5, 0)], [(0, 2.0)], [(5, 0, 2.0), (5, 1, None)])]:
        if kind == "profile":
            good(indices, values, *questions)
        else:
            bad(indices, values, (5, 0))
    bad(I, [(1, 2.0), (0, 3.0), (1, 5.0)], (5, 0))
    f = m.done()
    case(SHORT[kind] + "-order", kind, f, *asked)
    if kind == "cct":
        totals("c-order", f, (0, 5, FIVE), (0, 9, NINE), (0, 7, None), *((k, o, 11) for k in elevens for o in (5, 7)[:1 + (k % 4 == 0)]))


# ---- ranges; each row is a block of its own
def ranges(kind):
    m = Maker(kind)
    size, wide = m.inner + 8, m.outer + 8
    asked, sevens = [], []

    def good(k):
        asked.extend(is_b(k))

    def bad(k, n=7):
        asked.extend(refused(k, n))
        if n == 7:
            sevens.append(k)

    def none(k):
        asked.extend(of(k, [(5, 4, None), (0, 0, None)]))
    good(m.block(I, V))
    # places modulo 8; the indices may follow at once
    for at, then in (0, 0), (0, 4), (2, 0), (4, 0), (6, 4):
        good(m.block(I, V, at=at, then=then))
    for at, then in (1, 4), (3, 0), (7, 4), (2, 2), (2, 6), (2, 1), (2, 5), (2, 7), (1, 1):
        bad(m.block(I, V, at=at, then=then))
    m.upto(-3 * size, 4)
    good(m.element(3, m.values(V), 2, m.indices(I)))
    assert m.spots[-1][0] + 3 * size == m.spots[-1][1]
    # number of values
    bad(m.block(I, V, n=0))
    bad(m.block([(5, 0)], V, n=0, count=1))
    for n in (END - 1, 2 ** 63, 2 ** 63 + 3, 2 ** 62 + 3, 2 ** 32 + 3, 2 ** 32, 65536 + 3, END // size + 1, END // size, 4000):
        bad(m.block(I, V, n=n))
    assert (2 ** 63 + 3) * size % END == 3 * size and (END // size + 1) * size % END < size
    bad(m.block(I, V, n=1), 11)
    bad(m.block(I, V, n=2), 11)
    bad(m.block(I, V, n=4))
    # number of indices
    for n in (1, 2, END - 1):
        bad(m.block(I, V, n=n, count=0))
    wraps = (65536 + 2, 2 ** 30 + 2, 2 ** 31 + 2, 2 ** 32 - 1) if kind == "profile" else (32768 + 2, 65535, 256 * 128 + 3)
    for count in wraps + (2800,):
        bad(m.block(I, V, count=count))
    assert (2 ** 30 + 2) * 12 % 2 ** 32 == 24 and (32768 + 2) * 10 % 65536 == 20
    bad(m.block(I, V, count=1), 11)
    # nothing: whatever the pointers are
    for v, i in (END - 1, END - 1), (1, 1), (0, 0), (m.spots[0][0], m.spots[0][1]), (END - 2, 4), (HEADER[kind] - 1, 3):
        none(m.element(0, v, 0, i))
    # far places: past the file, at the end of all numbers, below the header's END
    bad(m.block([(5, 0)], V[:1], v=END - 2))
    for v in (END - 2, END - size, END - 3 * size, END - 16, END - 3 * size + HEADER[kind], 2 ** 63, 100000, 0, 2, 14):
        bad(m.block(I, V, v=v))
    for i in (END - 4, END - 8, END - 2 * wide // 4 * 4, END - 16, 2 ** 63, 100000, 0, 4, 12):
        bad(m.block(I, V, i=i))
    bad(m.block(I, V, v=END - 2, i=END - 4))
    for more in (2 ** 32, 2 ** 63):
        v, i = m.spots[0]
        bad(m.element(3, v + more, 2, i))
        bad(m.element(3, v, 2, i + more))
        bad(m.element(3, v + more, 2, i + more))
    bad(m.element(3, v - 1, 2, i))
    bad(m.element(3, v, 2, i + 1))
    # the same block again; its values and indices far apart; part of it
    good(m.element(3, v, 2, i))
    m.upto(4)
    good(m.element(3, v, 2, m.indices(I)))
    k = m.element(2, v, 1, i)
    asked.extend(of(k, [(5, 1, 2.0), (5, 4, 3.0), (9, 1, None), (9, 4, None)]))
    # indices first; values and indices at one place
    m.upto(0)
    i = m.indices(I)
    bad(m.element(3, m.values(V), 2, i))
    bad(m.element(3, i, 2, i))
    # the third value is the first index: (9, 0), (12, 2)
    m.upto(0)
    v = m.values(V[:2])
    k = m.element(3, v, 2, m.indices([(9, 0), (12, 2)]))
    bad(k)
    asked.extend(of(k, [(12, 9, 7), (9, 4, 7)]))
    m.element(2, v, 1, m.spots[k][1])
    asked.extend(of(k + 1, [(9, 1, 2.0), (9, 4, 3.0), (12, 9, None)]))
    # the last two bytes of the values are in the first index
    m.upto(2 - 3 * size, 4)
    v = m.values(V)
    del m.f[-2:]
    bad(m.element(3, v, 2, m.indices(I)))
    # 7 before 11
    bad(m.block([(5, 1), (9, 2)], V, at=1))
    bad(m.block([(5, 0), (9, 0)], V, then=2))
    bad(m.block([(9, 0), (5, 2)], V, n=0))
    bad(m.block(I, V[::-1], v=END - 2))
    f = m.done()
    case(SHORT[kind] + "-range", kind, f, *asked)
    if kind == "cct":
        totals("c-range", f, (0, 5, FIVE), *((k, o, 7) for k in sevens[::3] for o in (5, 7)))


for kind in KINDS:
    rows(kind)
    ranges(kind)


# ---- beside sections, which they touch exactly. split: values before each section and indices after it. whole: a block before each
# section, the first from the header's END on, and a block after them up to the last eight bytes; then two blocks over the first section.
# Of what stands before section k the last over[k] bytes are in it; the first block begins in the last `header` bytes of the header
def split(kind, over=(0, 0)):
    m = Maker(kind)
    sections = [lambda: m.infos(1 + (kind == "profile"), slack=4)] + [lambda: m.tuples(28)] * (kind == "profile")
    for section, less in zip(sections, over):
        m.upto(less - 3 * (m.inner + 8))
        v = m.values(V)
        del m.f[len(m.f) - less:]
        section()
        m.element(3, v, 2, m.indices(I))
    return m.done(), m


def whole(kind, over=(0, 0), header=0, first=V):
    m = Maker(kind)
    size, wide = m.inner + 8, m.outer + 8
    sections = [lambda: m.infos(4 + (kind == "profile"), slack=2)] + [lambda: m.tuples(26)] * (kind == "profile")
    del m.f[len(m.f) - header:]
    for section, less in zip(sections, over):
        v = m.values(V if m.elements else first)
        m.upto(less - 2 * wide)
        m.element(3, v, 2, m.indices(I))
        del m.f[len(m.f) - less:]
        section()
    v = m.values(V)
    m.upto(0, 4)
    m.element(3, v, 2, m.indices(I))
    (v, i), end = m.spots[0], sum(m.pairs[0])
    m.element((end - v) // size + 1, v, 2, m.spots[-1][1])
    m.element(3, v, (end - i) // wide + 1, i)
    return m.done(), m


for kind in KINDS:
    s, n = SHORT[kind], 1 + (kind == "profile")

    def but(bad, count):
        """B in all blocks but one, or in all"""
        return [q for k in range(count) for q in (refused(k, 7) if k == bad else is_b(k))]
    f, m = split(kind)
    v, i = m.spots[0]
    assert v + 3 * (m.inner + 8) == m.info and i == sum(m.pairs[0])
    sound(kind, f)
    case(s + "-split", kind, f, *but(None, n))
    for k in range(n):
        case("%s-split-start-%d" % (s, k), kind, split(kind, [2 * (j == k) for j in range(2)])[0], *but(k, n))
        case("%s-split-end-%d" % (s, k), kind, edited(f, (16 + 16 * k, u(8, m.pairs[k][1] + 1))), *but(k, n))
    f, m = whole(kind)
    v, i = m.spots[0]
    assert v == HEADER[kind] and i + 2 * (m.outer + 8) == m.info and m.spots[1][0] == sum(m.pairs[0])
    assert m.spots[n][1] + 2 * (m.outer + 8) == len(f) - 8
    case(s + "-whole", kind, f, *but(None, n + 1), *refused(n + 1, 7), *refused(n + 2, 7))
    for k in range(n):
        case("%s-whole-start-%d" % (s, k), kind, whole(kind, [4 * (j == k) for j in range(2)])[0], *but(k, n + 1))
        case("%s-whole-end-%d" % (s, k), kind, edited(f, (16 + 16 * k, u(8, m.pairs[k][1] + 1))), *but(k + 1, n + 1))
    case(s + "-whole-last-eight", kind, f[:-9] + FOOTER[kind], *but(n, n + 1))
    low = [(0, 2.0), (4, 3.0), (1, 5.0)] if kind == "profile" else [(65536, 2.0), (65540, 3.0), (1, 5.0)]
    f, m = whole(kind, header=2, first=low)
    assert m.spots[0][0] == HEADER[kind] - 2 and set(entries(kind, f, 0)) == {(5, low[0][0]), (5, low[1][0]), (9, 1)}
    case(s + "-whole-header", kind, f, *but(0, n + 1))
    # a section over the blocks that follow it
    f, m = MADE[kind]
    end = len(f) - 8
    f = edited(f, (INFOS, u(8, end - m.info)))
    case(s + "-infos-to-the-end", kind, f, *refused(1, 7), *refused(2, 7), *NONE, (4, 5, 4, 15))
totals("c-infos-to-the-end", f, (1, 5, 7), (0, 5, None), (4, 5, 15))
f, m = MADE["profile"]
(v, i), end = m.spots[1], len(f) - 8


def idtuples(name, place, size, *questions):
    case("p-tuples-" + name, "profile", edited(f, (TUPLES, u(8, size) + u(8, place))), *questions)


B_BAD, B_GOOD = refused(1, 7) + OTHERS, is_b(1) + OTHERS
idtuples("in-values", v + 6, 1, *B_BAD)
idtuples("in-values-empty", v + 6, 0, *B_GOOD)
idtuples("in-indices", i + 4, 1, *B_BAD)
idtuples("in-indices-empty", i + 4, 0, *B_GOOD)
idtuples("over-b", v - 2, i + 24 - v + 2, *B_BAD)
idtuples("over-all", 48, end - 48, *refused(1, 7), *refused(2, 7), *NONE, (4, 5, 4, 15))
idtuples("off-multiple", v, 8, (1, 5, 4, 5), (0, 5, 4, 5), (4, 5, 4, 5))
idtuples("over-infos", m.info, m.pairs[0][1], *B_GOOD)
assert v % 8 == 2 and i % 8 == 4

# ---- values come as they are
SPECIAL = [0, 1 << 63,
           INFINITY, INFINITY + (1 << 63), NAN, NAN + (1 << 63), 0x7ff0000000000001, 0xfff0000000000001, 0x7ff8dead0000beef, 0x7fffffffffffffff,
           END - 1, 0xffffffff00000000,
           1, 0x000fffffffffffff, 0x8000000000000001, 0x800fffffffffffff, 0x0010000000000000, 0x7fefffffffffffff, 0xffefffffffffffff,
           0x0123456789abcdef, 0xfedcba9876543210, 0x3ff0000000000000, 0x3ff0000000000001, 0x00000000ffffffff]
for kind in KINDS:
    m = Maker(kind)
    m.block([(k, k) for k in range(len(SPECIAL))], [(3, bits) for bits in SPECIAL])
    m.block([(8, 0)], list(enumerate(SPECIAL, 1)))
    f = m.done()
    sound(kind, f)
    case(SHORT[kind] + "-values", kind, f, *((0, k, 3, [bits]) for k, bits in enumerate(SPECIAL)))
    case(SHORT[kind] + "-values", kind, f, *((1, 8, k, [bits]) for k, bits in enumerate(SPECIAL, 1)))
totals("c-values", f, (1, 8, 16), (0, 0, (1, 3, 0.0, 3, 0.0, 0.0)), (0, 1, (1, 3, -0.0, 3, -0.0, -0.0)), *((0, k, 16) for k in range(2, 12)))
totals("c-values", f, *((0, k, (1,) + (3, SPECIAL[k]) * 2 + (SPECIAL[k],)) for k in range(12, len(SPECIAL))))

# ---- a tuple's place changes nothing
m = Maker("profile")
m.infos(7, 56)
m.tuples(24)
m.block(I, V)
v, i = m.spots[0]
for wild in END - 1, m.pairs[1][0] + 1, 0, m.pairs[1][0], v, END - 8:
    m.element(3, v, 2, i, wild)
case("p-pidtuple", "profile", m.done(), *(q for k in range(7) for q in is_b(k)), (7, 5, 4, 15))

# ---- totals; each row is a metric, its profiles as said, or from 1 on
MAX, TINY, NORMAL = 0x7fefffffffffffff, 1, 0x0010000000000000
top = double(MAX)
subs, asked = [], []


def row(values, known, profiles=None):
    asked.append((1, len(subs), known))
    subs.append(list(zip(profiles or range(1, 1 + len(values)), values)))


row([2.5], (1, 1, 2.5, 1, 2.5, 2.5))
row([2.5], (1, 2 ** 32 - 1, 2.5, 2 ** 32 - 1, 2.5, 2.5), [2 ** 32 - 1])
row([3.0, 1.0, 2.0], (3, 2, 1.0, 1, 3.0, 6.0))
row([1.0, 2.0, 3.0], (3, 10, 1.0, 30, 3.0, 6.0), [10, 20, 30])
# the first of equal ones
row([2.0, 1.0, 3.0, 1.0, 3.0], (5, 2, 1.0, 3, 3.0, 10.0))
row([7.0, 7.0, 7.0], (3, 4, 7.0, 4, 7.0, 21.0), [4, 5, 2 ** 31])
# zeros are equal
row([-0.0], (1, 1, -0.0, 1, -0.0, -0.0))
row([0.0], (1, 1, 0.0, 1, 0.0, 0.0))
row([-0.0, -0.0], (2, 1, -0.0, 1, -0.0, -0.0))
row([0.0, -0.0], (2, 1, 0.0, 1, 0.0, 0.0))
row([-0.0, 0.0], (2, 1, -0.0, 1, -0.0, 0.0))
row([1.0, -0.0, 0.0], (3, 2, -0.0, 1, 1.0, 1.0))
row([1.0, 0.0, -0.0], (3, 2, 0.0, 1, 1.0, 1.0))
row([-1.0, -0.0, 0.0], (3, 1, -1.0, 2, -0.0, -1.0))
row([-1.0, 0.0, -0.0], (3, 1, -1.0, 2, 0.0, -1.0))
row([1.5, -1.5], (2, 2, -1.5, 1, 1.5, 0.0))
# negative ones, whose bits are in the other order
row([-1.0, -2.0, -3.0], (3, 3, -3.0, 1, -1.0, -6.0))
row([-3.0, -2.0, -1.0], (3, 1, -3.0, 3, -1.0, -6.0))
row([-2.0, 1.0, -5.0, 4.0], (4, 3, -5.0, 4, 4.0, -2.0))
row([1e-300, -1e300, 1e300, -1e-300], (4, 2, -1e300, 3, 1e300, -1e-300))
row([-1e-300, 1e-300], (2, 1, -1e-300, 2, 1e-300, 0.0))
# the order matters, and each addition is rounded
row([1e16, 1.0, -1e16], (3, 3, -1e16, 1, 1e16, 0.0))
row([1.0, 1e16, -1e16], (3, 3, -1e16, 2, 1e16, 0.0))
row([1e16, -1e16, 1.0], (3, 2, -1e16, 1, 1e16, 1.0))
row([2.0 ** 53, 1.0, 1.0], (3, 2, 1.0, 1, 2.0 ** 53, 2.0 ** 53))
row([1.0, 1.0, 2.0 ** 53], (3, 1, 1.0, 3, 2.0 ** 53, 2.0 ** 53 + 2))
row([2.0 ** 53 + 2, 1.0], (2, 2, 1.0, 1, 2.0 ** 53 + 2, 2.0 ** 53 + 4))
row([2.0 ** 53, 1.0, 2.0 ** -30], (3, 3, 2.0 ** -30, 1, 2.0 ** 53, 2.0 ** 53))
row([2.0 ** 53, 1.0 + 2.0 ** -30], (2, 2, 1.0 + 2.0 ** -30, 1, 2.0 ** 53, 2.0 ** 53 + 2))
row([0.1, 0.2, 0.3], (3, 1, 0.1, 3, 0.3, 0.6000000000000001))
row([0.3, 0.2, 0.1], (3, 3, 0.1, 1, 0.3, 0.6))
row([0.1] * 10, (10, 1, 0.1, 1, 0.1, 0.9999999999999999))
row([0.1, 0.1, 0.1], (3, 1, 0.1, 1, 0.1, 0.30000000000000004))
row([1.0, 1e100, 1.0, -1e100], (4, 4, -1e100, 2, 1e100, 0.0))
# past the greatest number
row([MAX, MAX], (2, 1, MAX, 1, MAX, INFINITY))
row([MAX, MAX, -top], (3, 3, -top, 1, MAX, INFINITY))
row([MAX, -top, MAX], (3, 2, -top, 1, MAX, MAX))
row([-top, -top, MAX], (3, 1, -top, 3, MAX, INFINITY + (1 << 63)))
row([MAX, 2.0 ** 970], (2, 2, 2.0 ** 970, 1, MAX, INFINITY))
row([MAX, 2.0 ** 969], (2, 2, 2.0 ** 969, 1, MAX, MAX))
row([1e308, 1e308, -1e308, -1e308], (4, 3, -1e308, 1, 1e308, INFINITY))
# below the least normal number
row([TINY], (1, 1, TINY, 1, TINY, TINY))
row([TINY, TINY, 2], (3, 1, TINY, 3, 2, 4))
row([2, TINY], (2, 2, TINY, 1, 2, 3))
row([NORMAL - 1, TINY], (2, 2, TINY, 1, NORMAL - 1, NORMAL))
row([NORMAL, (1 << 63) + 1], (2, 2, (1 << 63) + 1, 1, NORMAL, NORMAL - 1))
row([0.0, TINY, -0.0, (1 << 63) + 1], (4, 4, (1 << 63) + 1, 2, TINY, 0.0))
row([(1 << 63) + 1, (1 << 63) + 5, (1 << 63) + 2], (3, 2, (1 << 63) + 5, 1, (1 << 63) + 1, (1 << 63) + 8))
row([1.0, TINY], (2, 2, TINY, 1, 1.0, 1.0))
# 16, wherever it stands
row([INFINITY], 16)
row([1.0, INFINITY], 16)
row([INFINITY, 1.0], 16)
row([1.0, INFINITY + (1 << 63), 2.0], 16)
row([INFINITY, INFINITY + (1 << 63)], 16)
row([NAN], 16)
row([1.0, NAN, 2.0], 16)
row([1.0, 2.0, NAN + (1 << 63)], 16)
row([0x7ff0000000000001, 2.0], 16)
row([2.0, 0xfff0000000000001], 16)
row([MAX, MAX, INFINITY], 16)
row([1.0, END - 1], 16)
row([4.0, 6.0], (2, 1, 4.0, 2, 6.0, 10.0))
m = Maker("cct")
m.element(0, 0, 0, 0)
starts = [sum(len(sub) for sub in subs[:k]) for k in range(len(subs))]
every = [e for sub in subs for e in sub]
m.block(list(enumerate(starts)), every)
m.block(list(enumerate(starts)), every[:-1] + [every[-2]])
m.block(list(enumerate(starts)), every, then=6)
f = m.done()
totals("c-totals", f, *asked, (1, len(subs), None), (1, 65536, None), (1, END - 1, None), (0, 0, None), (0, 7, None))
totals("c-totals", f, (4, 0, 15), (2 ** 32 + 1, 0, 15))
totals("c-totals", f, *((2, k, 11) for k in (0, 1, len(subs) - 1, len(subs))), *((3, k, 7) for k in (0, 1, len(subs) - 1, len(subs))))
case("c-totals", "cct", f, (1, 0, 1, 2.5), (1, 2, 2, 1.0), (1, len(subs) - 1, 2, 6.0), (2, 0, 1, 11), (3, 0, 1, 7), (0, 0, 1, None))

# ---- as long as the program reads; more than 255 indices; a long sub-array
m = Maker("profile")
m.infos(2)
m.element(0, 0, 0, 0)
m.block([(3 * c, 30 * c) for c in range(100)], [(2 * k, float(1000 * c + k)) for c in range(100) for k in range(30)])
f = m.done(LIMIT)
case("p-full", "profile", f, (1, 0, 0, 0.0), (1, 3, 0, 1000.0), (1, 297, 58, 99029.0), (1, 297, 60, None), (1, 150, 30, 50015.0), (1, 150, 31, None))
case("p-full", "profile", f, (1, 151, 30, None), (1, 294, 58, 98029.0), (1, 297, 0, 99000.0), (0, 0, 0, None), (2, 0, 0, 15))
m = Maker("cct")
many = [(k, k) for k in range(300)]
m.block(many + [(1000, 300)], [(k + 1, 0.5 * k) for k in range(300)] + [(k + 1, 0.1) for k in range(2000)])
f = m.done(LIMIT)
assert len(f) == LIMIT
case("c-full", "cct", f, (0, 0, 1, 0.0), (0, 256, 257, 128.0), (0, 299, 300, 149.5), (0, 1000, 1, 0.1), (0, 1000, 2000, 0.1), (0, 1000, 2001, None))
case("c-full", "cct", f, (0, 300, 301, None), (0, 999, 1, None), (0, 1001, 1, None), (0, 1000, 0, None), (1, 0, 1, 15))
totals("c-full", f, (0, 1000, (2000, 1, 0.1, 1, 0.1, 199.99999999999292)), (0, 299, (1, 300, 149.5, 300, 149.5, 149.5)), (0, 1001, None))


# ---- at random
def some_ids(dice, n, least, top):
    """n ids from least to below top, rising"""
    ids = set()
    while len(ids) < n:
        small, wide = least + dice.below(14), least + dice.bits() % (top - least)
        ids.add(dice.of((small, small, wide, 254 + dice.below(4), top - 1 - dice.below(3))))
    return sorted(ids)


def some_value(dice, finite):
    how = dice.below(8)
    if not finite and how < 3:
        return dice.of(SPECIAL[2:12])
    if how < 3:
        return float(dice.below(19) - 9)
    if how < 5:
        return float("%de%d" % (dice.below(2 ** 31) - 2 ** 30, dice.below(40) - 20))
    if how < 6:
        return dice.of([bits for bits in SPECIAL if not finite or bits & INFINITY != INFINITY])
    bits = dice.bits()
    return bits if not finite or bits & INFINITY != INFINITY else bits ^ 1 << 62


def some_file(dice, kind):
    """A sound file, its maker, and what was put into each block, by index's and value's id."""
    m = Maker(kind)
    count, truth = 1 + dice.below(6), []
    outer, inner, least = BLOCKS[kind]
    for part in dice.mix(["infos"] + ["tuples"] * (kind == "profile") + ["block"] * count):
        if part == "infos":
            m.infos(count, LEAST[kind] + 8 * dice.below(4), dice.below(20), 16 + 8 * dice.below(3))
        elif part == "tuples":
            m.tuples(dice.of((0, 0, 8, 24, 41)))
        elif dice.below(6) == 0:
            m.element(0, *dice.of(((0, 0, 0), (END - 1, 0, 77), (60, 0, 64))))
            truth.append({})
        else:
            indices, values, there = [], [], {}
            for o in some_ids(dice, 1 + dice.below(5), 0, 1 << 8 * outer):
                indices.append((o, len(values)))
                finite = dice.below(5) > 0
                for i in some_ids(dice, 1 + dice.below(6), least, 1 << 8 * inner):
                    values.append((i, some_value(dice, finite)))
                    there[o, i] = raw(values[-1][1])
            m.block(indices, values, at=dice.of((0, 2, 4, 6)), then=dice.of((0, 4)))
            truth.append(there)
    order = dice.mix(range(count))
    m.elements, m.spots, truth = [[a[k] for k in order] for a in (m.elements, m.spots, truth)]
    return m.done(), m, truth


def damaged(dice, f, m, k):
    """One field of element k or its block, of the section or the header, or one byte, made other; or the file cut."""
    at, (v, i), n = m.at(k), m.spots[k], number(f, m.at(k), 8)
    size, wide, count = m.inner + 8, m.outer + 8, number(f, m.at(k) + 16, m.outer)
    an_index, a_value = i + dice.below(count) * wide, v + dice.below(n) * size

    def moved(place, width, *steps):
        return edited(f, (place, u(width, number(f, place, width) + dice.of(steps))))
    how = dice.below(18)
    if how < 2:
        return moved(at, 8, 1, -1, 1, -1, 2, -n, 2 ** 32, 2 ** 63, END // size)
    if how < 4:
        return moved(at + 8, 8, 1, -1, 2, -2, 4, -size, size, 2 ** 32, END // 2, -v)
    if how < 6:
        return moved(at + 16, m.outer, 1, -1, 1, -1, -count, 256, 2 ** (8 * m.outer - 1))
    if how < 8:
        return moved(at + 24, 8, 2, -2, 4, -4, 4, -4, 8, wide, -wide, 2 ** 32, -i)
    if how < 10:
        return moved(an_index + m.outer, 8, 1, -1, 1, -1, 2, -2, 2 ** 32)
    if how < 12:
        return edited(f, (an_index, dice.of((f[i:i + m.outer], u(m.outer, 0), u(m.outer, -1), u(m.outer, 1 + number(f, an_index, m.outer))))))
    if how < 14:
        return edited(f, (a_value, dice.of((f[v:v + m.inner], u(m.inner, 0), u(m.inner, -1), u(m.inner, 1 + number(f, a_value, m.inner))))))
    if how < 15:
        return moved(dice.of((INFOS, INFOS + 8, m.info, m.info + 8)), 2, 1, -1, 8, -8, 16, 40, 100)
    if how < 16:
        return moved(m.info + 12, 1, 8, -8, 4, 1)
    if how < 17:
        cut = f[:len(f) - 1 - dice.below(40)]
        return cut[:-8] + FOOTER[m.kind]
    return edited(f, (dice.below(len(f)), bytes([dice.below(256)])))


def some_questions(dice, m, truth, first):
    """About what is there, mostly of element `first`; about what isn't; of no element."""
    here, O, N = sorted(truth[first]), 1 << 8 * m.outer, 1 << 8 * m.inner
    for k in [first] * 2 + [dice.below(len(truth))]:
        o, i = dice.of(sorted(truth[k]) or [(dice.below(9), dice.below(9))])
        yield k, o, i
    o, i = dice.of(here or [(1, 1)])
    yield first, o, dice.of((i + 1, max(i, 1) - 1, i + N))
    yield first, dice.of((o + 1, max(o, 1) - 1, o + O)), i
    yield first + dice.of((len(truth), 2 ** 32)), o, i


for kind in KINDS:
    dice = Dice(20240311 + len(kind))
    for i in range(34):
        f, m, truth = some_file(dice, kind)
        sound(kind, f, truth)
        full = [k for k, there in enumerate(truth) if there]
        first = dice.of(full or [0])
        name = "%s-random-%02d" % (SHORT[kind], i)
        kept = i < 14 or not full
        if not kept:
            f = damaged(dice, f, m, first)
        for k, o, n in some_questions(dice, m, truth, first):
            known = ASK
            if kept:
                known = 15 if k >= len(truth) else [truth[k][o, n]] if (o, n) in truth[k] else None
            case(name, kind, f, (k, o, n, known))
        if kind == "cct":
            metrics = sorted({o for o, _ in truth[first]}) or [3]
            totals(name, f, *((first, o, ASK) for o in dice.mix(metrics)[:2]), (dice.below(len(truth)), dice.of(metrics) + dice.of((0, 1)), ASK))


def answered(kind, name, a, b, c):
    file = files[name]
    found = profile_lookup(file, a, b, c) if kind == "profile" else cct_lookup(file, a, b, c) if kind == "cct" else cct_totals(file, a, b)
    return " ".join(map(str, found))


if __name__ == "__main__":
    text, list_ = "", ""
    for *question, known in lines:
        said, line = answered(*question), " ".join(map(str, question))
        assert known is ASK or known == said, (line, known, said)
        assert len(line) <= 100
        list_ += line + "\n"
        text += line + " " + said + "\n"
    assert len(list_) <= 60000 and set(files) == {line[1] for line in lines}
    os.makedirs(os.path.join(HERE, "data"), exist_ok=True)
    for old in os.listdir(os.path.join(HERE, "data")):
        os.remove(os.path.join(HERE, "data", old))
    for name, file in files.items():
        with open(os.path.join(HERE, "data", name), "wb") as f:
            f.write(file)
    with open(os.path.join(HERE, "data", "list"), "w") as f:
        f.write(list_)
    with open(os.path.join(HERE, "stdout"), "w") as f:
        f.write(text)
    print("%d files of %d bytes, %d lines in list" % (len(files), sum(map(len, files.values())), len(lines)))
