"""Writes the files that crates/walk_cases walks, and what it is to print, by the Python reader of tools/hpcdb.py. Next to each file stands
the end that the rules give it, written by hand."""
import os
from hpcdb import *

HERE = os.path.join(os.path.dirname(os.path.abspath(__file__)), "..", "crates", "walk_cases")
LIMIT = 32768
W = w()
files, lines = [], []


def case(name, file, *walks):
    """A walk is (room, slots, end), or only the end for 1024 of both. End None: not known beforehand."""
    assert name + ".db" not in dict(files), name
    files.append((name + ".db", file))
    for walk_ in walks:
        room, slots, end = (1024, 1024, walk_) if isinstance(walk_, str) else walk_
        assert room <= 1024 and slots <= 1024
        lines.append((name + ".db", file, room, slots, end))


def edited(file, *edits):
    for at, data in edits:
        assert 0 <= at and at + len(data) <= len(file)
        file = poke(file, at, data)
    return file


# ---- edits of the context at a place
def kids(at, place, size):
    return at, u(8, size) + u(8, place)


def ident(at, n):
    return at + 16, u(4, n)


def flags(at, n):
    return at + 20, bytes([n])


def words(at, n):
    return at + 23, bytes([n])


def flex(at, k, n):
    return at + 24 + 8 * k, u(8, n)


# ---- building a file
class Node:
    """A context: its fields are function, file, line, module and offset; `more` are the words after those that are present."""

    def __init__(self, ctx, *children, bits=0, fields=(0, 0, 0, 0, 0), more=(), kind=0, relation=0):
        self.ctx, self.children, self.bits, self.fields, self.more, self.kind, self.relation = ctx, children, bits, fields, more, kind, relation
        function, source, line, module, offset = fields
        self.words = [function] * (bits & 1) + [source, line] * (bits >> 1 & 1) + [module, offset] * (bits >> 2 & 1) + list(more)
        self.place = self.parent = None
        for child in children:
            child.parent = self

    def data(self):
        size = sum(24 + 8 * len(c.words) for c in self.children)
        return context((self.children[0].place if size else 0, size), self.ctx, self.kind, self.relation, self.bits, self.words)

    def records(self, depth=1):
        """What a walk is to list for the context and all below it."""
        f, s, line, m, o = self.fields
        b = [self.bits & 1, self.bits >> 1 & 1, self.bits >> 2 & 1]
        mine = [self.place, depth, self.ctx, self.relation, self.kind, self.bits % 8, f * b[0], s * b[1], line % 2 ** 32 * b[1], m * b[2], o * b[2]]
        mine.append(self.parent.place if self.parent else 0)
        return [mine] + [r for c in self.children for r in c.records(depth + 1)]


def before(strides):
    """All before the Context section, without the header; the sections' pairs; the places of the first module, file and function of three."""
    f = bytearray(W[:199] + b"/bin/app\0solve.c\0solve\0" + bytes(2))
    pairs, firsts = [(144, 18), (168, 9), (184, 15), None, (199, 23)], []
    for stride, element in zip(strides, (u(8, 1) + u(8, 199), u(8, 0) + u(8, 208), u(8, 216) + bytes(32))):
        pairs.append((len(f), 16 + 3 * stride))
        firsts.append(len(f) + 16)
        f += array(len(f) + 16, 3, stride, 2) + bytes(2) + 3 * (element + bytes(stride - len(element)))
    return bytes(f), pairs, firsts


STRIDES = 24, 32, 48
M, F, N = before(STRIDES)[2]


def meta(*tree, strides=STRIDES, slack=0, length=0, arrange=list):
    """A sound file with these roots. Its arrays lie one after another, in the order that `arrange` gives them; `slack` bytes end the
    section. P has the place of each context by its number, of the roots, and of the section's start and end."""
    f, pairs, _ = before(strides)
    arrays = [tree]
    for a in arrays:
        arrays.extend(c.children for c in a if c.children)
    arrays = arrange(arrays)
    P = {"tree": len(f)}
    at = len(f) + 16
    for c in (c for a in arrays for c in a):
        P[c.ctx] = c.place = at
        at += 24 + 8 * len(c.words)
    P["roots"] = tree[0].place
    f += u(8, sum(24 + 8 * len(c.words) for c in tree)) + u(8, P["roots"])
    f += b"".join(c.data() for a in arrays for c in a) + bytes(slack)
    P["end"] = len(f)
    pairs[3] = P["tree"], len(f) - P["tree"]
    f += bytes(max(40, length - len(f) - 8)) + b"_meta.db"
    return front("meta", pairs) + f[144:], P


def parents(file):
    """Each context that a walk lists, and its parent: their places."""
    return [(r[0], r[11]) for r in walk(file, 1024, 1024)[1]]


# ---- 1. W: A (216, id 1), C (264, 2), D (288, 3), B (240, 4)
case("w", W, "whole 4", (4, 5, "whole 4"), (3, 5, "cut 3"), (0, 5, "cut 0"), (3, 4, "refused 13 3"), (2, 4, "cut 2"), (4, 4, "refused 13 3"),
     (5, 0, "refused 13 0"), (0, 0, "refused 13 0"), (1, 2, "refused 13 1"))
case("w-c-id-1", edited(W, ident(264, 1)), (4, 5, "refused 14 1"), (1, 5, "refused 14 1"), (0, 5, "cut 0"))

# ---- 2. opening refuses, or only just opens. Entries of the header: size, then place
CONTEXT = 64
case("empty", b"", "refused 1 0", (3, 5, "refused 1 0"))
case("w-151-bytes", W[:151], (4, 5, "refused 1 0"))
case("w-152-bytes", W[:152], (4, 5, "refused 4 0"))
case("w-300-bytes", W[:300], (4, 5, "refused 4 0"))
case("w-365-bytes", W[:365], "refused 4 0", (0, 1, "refused 4 0"))
case("magic", edited(W, (13, b"e")), (4, 5, "refused 2 0"))
case("footer", edited(W, (365, b"B")), (4, 5, "refused 4 0"))
case("version-3", edited(W, (14, b"\3")), (4, 5, "refused 3 0"))
case("version-4-9", edited(W, (15, b"\11")), (4, 5, "whole 4"))
case("section-to-the-footer", edited(W, (CONTEXT, u(8, 158))), (4, 5, "whole 4"))
case("section-into-the-footer", edited(W, (CONTEXT, u(8, 159))), (4, 5, "refused 5 0"))
case("section-past-2-64", edited(W, (CONTEXT + 8, u(8, END - 8))), (4, 5, "refused 5 0"))
case("section-off-multiple", edited(W, (CONTEXT + 8, u(8, 204))), (4, 5, "refused 5 0"))
case("section-below-least", edited(W, (CONTEXT, u(8, 15))), (4, 5, "refused 5 0"))
case("stride-of-modules-8", edited(W, (324, u(2, 8))), (4, 5, "refused 6 0"))
case("roots-off-multiple", edited(W, kids(200, 220, 24)), (4, 5, "refused 7 0"), (0, 5, "refused 7 0"))
case("roots-size-0", edited(W, kids(200, 216, 0)), (4, 5, "refused 7 0"))
case("roots-place-0", edited(W, kids(200, 0, 48)), (4, 5, "refused 7 0"))
case("roots-past-section", edited(W, kids(200, 216, 97)), (4, 5, "refused 7 0"))
case("roots-in-header", edited(W, kids(200, 208, 24)), (4, 5, "refused 7 0"))
case("roots-past-2-64", edited(W, kids(200, 216, END - 216)), (4, 5, "refused 7 0"))
case("roots-to-section-end", edited(W, kids(200, 288, 24)), (4, 5, "whole 1"), (1, 3, "refused 13 0"))
case("roots-none", edited(W, kids(200, 0, 0)), "whole 0", (0, 5, "whole 0"), (4, 0, "whole 0"))
case("roots-and-context", edited(W, kids(200, 216, 97), flags(216, 1)), (4, 5, "refused 7 0"))

# ---- 3. many roots
f, P = meta(*(Node(i, kind=i % 4, relation=i % 3) for i in range(1025)))
case("roots-1025", f, "refused 13 1024", (1000, 1024, "cut 1000"), (1, 1024, "cut 1"), (512, 30, "refused 13 30"))
case("roots-1025-last-id-1023", edited(f, ident(P[1024], 1023)), "refused 14 1024", (7, 1024, "cut 7"))
f, P = meta(*(Node(i) for i in range(1024)))
case("roots-1024", f, "whole 1024", (0, 1024, "cut 0"))

# ---- 4. arrays that are reached twice
f, P = meta(Node(1, Node(2, Node(3))), Node(4), slack=24)
case("looped", edited(f, kids(P[2], P[1], 48)), "refused 14 2", (2, 5, "refused 14 2"), (1, 5, "cut 1"), (2, 2, "refused 13 1"))
case("looped-from-below", edited(f, kids(P[3], P[1], 48)), "refused 14 3")
case("own-array", edited(f, kids(P[1], P[1], 48)), "refused 14 1", (1, 5, "refused 14 1"), (0, 5, "cut 0"))
case("own-array-of-second-root", edited(f, kids(P[4], P[1], 48)), "refused 14 4", (3, 5, "cut 3"))
case("own-array-below", edited(f, kids(P[2], P[2], 24)), "refused 14 2")
case("only-itself", edited(f, kids(P[4], P[4], 24)), "refused 14 4")
case("shared-array", edited(f, kids(P[4], P[3], 24)), "refused 14 4", (4, 5, "refused 14 4"), (3, 5, "cut 3"))
f, P = meta(Node(1), Node(2), Node(3, Node(4), Node(5)))
case("overlap-inside", edited(f, kids(P[1], P[2], 24)), "refused 14 2")
case("overlap-to-the-end", edited(f, kids(P[1], P[2], 48), kids(P[3], 0, 0)), "refused 14 3")
beyond = edited(f, kids(P[1], P[3], 48), kids(P[3], 0, 0))
case("overlap-and-beyond", beyond, "refused 14 4", (4, 6, "refused 14 4"), (3, 6, "cut 3"))
# 3 lies among the roots, and is met as a child of 1
assert parents(beyond) == [(600, 0), (648, 600), (672, 600), (624, 0)]
# the overlapped bytes are other contexts: B lies in A's flex, and is A's child
f, P = meta(Node(1, more=(0, 0, 2)), Node(3))
in_flex = edited(f, kids(P[1], P[1] + 24, 24))
case("child-in-flex", in_flex, "whole 3", (2, 4, "cut 2"))
assert parents(in_flex) == [(600, 0), (624, 600), (648, 0)]
f, P = meta(Node(1, more=(0, 0, 1)), Node(3))
case("child-in-flex-same-id", edited(f, kids(P[1], P[1] + 24, 24)), "refused 14 1")


# ---- 5. chains; a context's id is its depth
def chain(n, *also, **last):
    node = Node(n, **last)
    for i in range(n - 1, 0, -1):
        node = Node(i, node, kind=i % 4, relation=i % 3)
    return meta(node, *also, slack=24)


f, P = chain(200)
case("deep-200", f, "whole 200", (200, 201, "whole 200"), (199, 201, "cut 199"), (150, 1024, "cut 150"), (200, 200, "refused 13 199"),
     (199, 200, "refused 13 199"), (198, 200, "cut 198"))
case("deep-200-and-8-bytes", edited(f, kids(P[200], P["end"] - 24, 8)), "refused 10 200")
case("deep-200-children-bad", edited(f, kids(P[200], P["end"] - 24, 25)), (200, 1024, "refused 7 199"))
case("deep-200-looped", edited(f, kids(P[200], P[200], 24)), (200, 1024, "refused 12 200"))
f, P = chain(200, Node(500), Node(501))
case("deep-200-and-more-roots", f, "whole 202")
assert parents(f)[199:] == [(P[200], P[199]), (P[500], 0), (P[501], 0)]
f, P = chain(201)
case("deep-201", f, "refused 12 200", (200, 1024, "refused 12 200"), (199, 1024, "cut 199"), (3, 1024, "cut 3"))
case("deep-201-flex-few", edited(f, flags(P[201], 1)), (200, 1024, "refused 10 200"))
case("deep-201-does-not-fit", edited(f, words(P[201], 1)), (201, 1024, "refused 10 200"))
case("deep-201-children-bad", edited(f, kids(P[201], P["end"] - 20, 8)), (200, 1024, "refused 7 200"), (199, 1024, "cut 199"))
case("deep-201-id-beyond-table", edited(f, ident(P[201], 5000)), (200, 1024, "refused 12 200"))
case("deep-201-id-again", edited(f, ident(P[201], 7)), (200, 1024, "refused 12 200"))
case("deep-201-link-bad", chain(201, bits=1, fields=(N + 8, 0, 0, 0, 0))[0], (200, 1024, "refused 9 200"))
case("deep-201-link-good", chain(201, bits=1, fields=(N, 0, 0, 0, 0))[0], (200, 1024, "refused 12 200"), (40, 1024, "cut 40"))

# ---- 6. flex
SOUND = N + 48, F + 32, 77, M + 24, 0x401000


def eight(more=lambda needed: ()):
    """Contexts of all flags, each with its flags as id, listed from 0 to 7."""
    def n(b, *children):
        return Node(b, *children, bits=b, fields=(N + 48 * (b % 3), F + 32 * (b // 3), 100 + b, M + 24 * (b % 3), END - 1 - b),
                    more=more([0, 1, 2, 3, 2, 3, 4, 5][b]), kind=b % 4, relation=b % 3)
    return n(0, n(1, n(2), n(3)), n(4)), n(5, n(6, n(7)))


f, P = meta(*eight())
case("flags", f, "whole 8", (8, 8, "whole 8"), (7, 8, "cut 7"), (8, 7, "refused 13 7"))
# by hand: function, file, line, module, offset
assert [r[5:11] for r in walk(f, 8, 8)[1]] == [
    [0, 0, 0, 0, 0, 0],
    [1, 488, 0, 0, 0, 0],
    [2, 0, 328, 102, 0, 0],
    [3, 440, 360, 103, 0, 0],
    [4, 0, 0, 0, 264, END - 5],
    [5, 536, 0, 0, 288, END - 6],
    [6, 0, 392, 106, 240, END - 7],
    [7, 488, 392, 107, 264, END - 8]]
case("flags-reserved-bits", edited(f, *(flags(P[b], b + 0xf8) for b in range(8))), "whole 8")
case("flags-and-more-words", meta(*eight(lambda needed: range(END - 1 - needed, END)))[0], "whole 8", (5, 8, "cut 5"))
case("flags-255-words", meta(*eight(lambda needed: range(1, 256 - needed)))[0], "whole 8")
for b, needed in enumerate([0, 1, 2, 3, 2, 3, 4, 5]):
    if b:
        f, P = meta(Node(9), Node(b, bits=b, fields=SOUND), Node(8))
        case("flags-%d-%d-words" % (b, needed), f, (3, 10, "whole 3"))
        case("flags-%d-%d-words" % (b, needed - 1), edited(f, words(P[b], needed - 1)), (3, 10, "refused 10 1"), (0, 10, "cut 0"))
# flags mod 8: 14 is row 6, and 255 row 7
for b, row, needed in ((14, [6, 0, F + 32, 77, M + 24, 0x401000], 4), (255, [7, *SOUND], 5)):
    f, P = meta(Node(1, bits=b, fields=SOUND), Node(2))
    assert P[2] == P[1] + 24 + 8 * needed and walk(f, 2, 3)[1][0][5:11] == row
    case("flags-%d" % b, f, (2, 3, "whole 2"))
    case("flags-%d-%d-words" % (b, needed - 1), edited(f, words(P[1], needed - 1)), (2, 3, "refused 10 0"))
# a word more than flags 6 need, which belongs to nothing: the next sibling is 64 bytes on
f, P = meta(Node(1, bits=6, fields=SOUND, more=(N,)), Node(2))
assert P[2] == P[1] + 64 and [r[0] for r in walk(f, 2, 3)[1]] == [P[1], P[1] + 64]
case("flags-6-5-words", f, (2, 3, "whole 2"))
# nFlexWords 4 over the same bytes: the fifth word is the size of the next context's children, whose place is 0
case("flags-6-5-words-of-4", edited(f, words(P[1], 4)), (2, 3, "refused 7 1"))
# every flags byte, as document 01's table has it: place of function, file, line, module, offset
TABLE = ((None, None, None, None, None), (0, None, None, None, None), (None, 0, 8, None, None), (0, 8, 16, None, None),
         (None, None, None, 0, 8), (0, None, None, 8, 16), (None, 0, 8, 16, 24), (0, 8, 16, 24, 32))
f, P = meta(*(Node(b, bits=b, fields=(N + 48 * (b % 3), F + 32 * (b % 3), 1000 + b, M + 24 * (b % 3), END - 1 - b)) for b in range(256)))
for b, r in enumerate(walk(f, 256, 256)[1]):
    assert r[6:11] == [0 if at is None else number(f, P[b] + 24 + at, width) for at, width in zip(TABLE[b % 8], (8, 8, 4, 8, 8))]
case("flags-all", f, (256, 256, "whole 256"))
f, P = meta(Node(1), Node(2), slack=48)
case("24-bytes-at-the-end", f, "whole 2")
case("words-1-at-the-end", edited(f, words(P[2], 1)), "refused 10 1", (1, 3, "refused 10 1"), (0, 3, "cut 0"))
case("words-255-at-the-end", edited(f, words(P[2], 255)), "refused 10 1")
case("words-1-leave-16", edited(f, words(P[1], 1)), "refused 10 1")
case("words-2-leave-8", edited(f, words(P[1], 2)), "refused 10 1")
case("words-3-take-the-next", edited(f, words(P[1], 3)), "whole 1", (0, 3, "cut 0"))
case("words-4-past-the-array", edited(f, words(P[1], 4)), "refused 10 0")
for left in (1, 2, 7, 8, 9, 15, 16, 17, 22, 23):
    case("left-%d" % left, edited(f, kids(P["tree"], P[1], 48 + left)), (4, 5, "refused 10 2"))
case("left-24", edited(f, kids(P["tree"], P[1], 72)), "whole 3", (2, 3, "cut 2"))
case("left-25", edited(f, kids(P["tree"], P[1], 73)), (3, 3, "refused 10 3"), (2, 3, "cut 2"))
case("left-48", edited(f, kids(P["tree"], P[1], 96)), (3, 3, "refused 14 3"))
case("roots-47-bytes", edited(f, kids(P["tree"], P[1], 47)), "refused 10 1")
case("roots-24-bytes", edited(f, kids(P["tree"], P[1], 24)), "whole 1")
case("roots-23-bytes", edited(f, kids(P["tree"], P[1], 23)), "refused 10 0", (0, 0, "refused 10 0"))
case("roots-1-byte", edited(f, kids(P["tree"], P[1], 1)), "refused 10 0")
case("children-23-bytes", edited(f, kids(P[1], P["end"] - 24, 23)), "refused 10 1")
case("children-left-8", edited(f, kids(P[1], P["end"] - 48, 32)), "refused 10 2", (1, 3, "cut 1"))

# ---- 7. links of the context 2, below 1 and before 3
GOOD, BAD = "whole 3", "refused 9 1"


def linked(name, bits, fields, end, strides=STRIDES, more=()):
    case(name, meta(Node(1, Node(2, bits=bits, fields=fields, more=more)), Node(3), strides=strides)[0], (3, 4, end))


for name, k, bit, first, stride, least, other in [("function", 0, 1, N, 48, 40, F), ("file", 1, 2, F, 32, 16, M), ("module", 3, 4, M, 24, 16, N)]:
    def to(link):
        return SOUND[:k] + (link,) + SOUND[k + 1:]
    linked(name + "-0", 7, to(0), BAD)
    linked(name + "-0-alone", bit, to(0), BAD)
    linked(name + "-between", 7, to(first + 8), BAD)
    linked(name + "-between-alone", bit, to(first + stride + 8), BAD)
    linked(name + "-by-least-stride", 7, to(first + least), BAD)
    linked(name + "-odd", 7, to(first + 1), BAD)
    linked(name + "-before-first", 7, to(first - stride), BAD)
    linked(name + "-section", 7, to(first - 16), BAD)
    linked(name + "-one-past-last", 7, to(first + 3 * stride), BAD)
    linked(name + "-of-another-array", 7, to(other), BAD)
    linked(name + "-and-2-32", 7, to(first + 2 ** 32), BAD)
    linked(name + "-near-2-64", bit, to(END - 1), BAD)
    linked(name + "-first", bit, to(first), GOOD)
    linked(name + "-last", 7, to(first + 2 * stride), GOOD)
    linked(name + "-last-alone", bit, to(first + 2 * stride), GOOD)
    linked(name + "-absent", 7 - bit, to(first), GOOD, more=(1,))
    # as many elements as the count says
    f, P = meta(Node(1, Node(2, bits=bit, fields=to(first + stride))), Node(3))
    case(name + "-second-of-2", edited(f, (first - 8, u(4, 2))), (3, 4, GOOD))
    case(name + "-second-of-1", edited(f, (first - 8, u(4, 1))), (3, 4, BAD))
    case(name + "-none", edited(f, (first - 8, u(4, 0)), (first - 16, u(8, first + stride))), (3, 4, BAD))
m, s, n = before((16, 16, 40))[2]
linked("least-strides", 7, (n + 80, s + 32, 5, m + 32, 6), GOOD, (16, 16, 40))
linked("least-strides-past-last", 7, (n + 80, s + 32, 5, m + 48, 6), BAD, (16, 16, 40))
m, s, n = before((1024, 512, 256))[2]
linked("large-strides", 7, (n + 512, s + 1024, 5, m + 1024, 6), GOOD, (1024, 512, 256))
linked("absent-all", 0, (0, 0, 0, 0, 0), GOOD, more=(N + 1, 1, END - 1, 0, 3))
linked("absent-but-function", 1, SOUND, GOOD, more=(F + 1, 1, M + 1, 0))
linked("absent-but-module", 4, SOUND, GOOD, more=(END - 1, 1))
linked("line-upper-half", 2, (0, F, END - 2, 0, 0), GOOD)
linked("line-upper-half-of-7", 7, (N, F, M * 2 ** 32 + 9, M, 8), GOOD)
linked("module-in-half-word", 6, (0, F, M * 2 ** 32 + 9, 0, M), BAD)
# a section of modules over the tree, whose elements are the contexts
f, P = meta(Node(1, bits=4, fields=(0, 0, 0, 0, 9)), Node(2), slack=16)
f = edited(f, (96, u(8, P["end"] - M + 16)), (M - 16, array(P[1], 2, 40, 2)))
case("module-is-the-context", edited(f, flex(P[1], 0, P[1])), (2, 3, "whole 2"))
case("module-is-the-next-context", edited(f, flex(P[1], 0, P[1] + 40)), (2, 3, "whole 2"))
case("module-is-after-the-contexts", edited(f, flex(P[1], 0, P[1] + 80)), (2, 3, "refused 9 0"))

# ---- 8. the order of the checks, on the context 2 of 1, 2, 3
f, P = meta(Node(1), Node(2, bits=7, fields=SOUND), Node(3))
TEN, NINE, SEVEN, THIRTEEN, FOURTEEN = words(P[2], 4), flex(P[2], 0, 8), kids(P[2], 4, 4), ident(P[2], 5000), ident(P[2], 1)
case("order-10-9-7-13", edited(f, TEN, NINE, SEVEN, THIRTEEN), "refused 10 1", (1, 9, "refused 10 1"), (0, 9, "cut 0"), (1, 0, "refused 13 0"))
case("order-10-9-7-14", edited(f, TEN, NINE, SEVEN, FOURTEEN), "refused 10 1")
case("order-10-does-not-fit", edited(f, words(P[2], 255), NINE, SEVEN, THIRTEEN), "refused 10 1")
case("order-10-13", edited(f, TEN, THIRTEEN), "refused 10 1")
case("order-10-14", edited(f, TEN, FOURTEEN), "refused 10 1")
case("order-9-7", edited(f, NINE, SEVEN), "refused 9 1", (1, 4, "refused 9 1"), (0, 4, "cut 0"))
case("order-9-13", edited(f, NINE, THIRTEEN), "refused 9 1")
case("order-9-14", edited(f, NINE, FOURTEEN), "refused 9 1")
case("order-9-of-module-7", edited(f, flex(P[2], 3, 0), SEVEN), "refused 9 1")
case("order-7-13", edited(f, SEVEN, THIRTEEN), "refused 7 1", (1, 4, "refused 7 1"), (0, 4, "cut 0"))
case("order-7-14", edited(f, SEVEN, FOURTEEN), "refused 7 1")
case("order-13", edited(f, THIRTEEN), "refused 13 1")
case("order-14", edited(f, FOURTEEN), "refused 14 1")
# a full listing: what comes next is sound, or not
f, P = meta(Node(1), Node(2), Node(3, bits=1, fields=SOUND), Node(4))
case("full", f, (2, 5, "cut 2"), (3, 5, "cut 3"), (4, 5, "whole 4"), (2, 3, "refused 13 2"), (3, 4, "refused 13 3"), (1, 3, "cut 1"))
for n, edit in {10: words(P[3], 0), 9: flex(P[3], 0, N + 1), 7: kids(P[3], P[1], 0), 13: ident(P[3], 5), 14: ident(P[3], 2)}.items():
    case("full-then-%d" % n, edited(f, edit), (2, 5, "refused %d 2" % n), (3, 5, "refused %d 2" % n), (1, 5, "cut 1"))
f, P = meta(Node(1), Node(2), slack=8)
case("full-then-left-8", edited(f, kids(P["tree"], P[1], 56)), (2, 5, "refused 10 2"), (1, 5, "cut 1"))

# ---- 9. inside a subtree; listed from 1 to 10
def ten(**how):
    return meta(Node(1, Node(2, Node(3), Node(4)), Node(5, Node(6), Node(7, Node(8), Node(9, bits=7, fields=SOUND)))), Node(10), **how)


f, P = ten()
case("tree", f, "whole 10", (10, 11, "whole 10"), (9, 11, "cut 9"), (6, 11, "cut 6"), (10, 8, "refused 13 7"), (7, 8, "refused 13 7"), (6, 8, "cut 6"))
assert P[9] + 64 == P["end"] and [r[1:3] for r in walk(f, 10, 11)[1]] == [[1, 1], [2, 2], [3, 3], [3, 4], [2, 5], [3, 6], [3, 7], [4, 8], [4, 9], [1, 10]]
case("tree-backwards", ten(arrange=lambda arrays: arrays[::-1])[0], "whole 10", (8, 11, "cut 8"), (8, 9, "refused 13 8"))
case("tree-with-slack", ten(slack=5)[0], "whole 10")


# grandchildren; siblings behind another's children, 5 at depth 3 and 6 at depth 2; a root behind them all. Listed from 1 to 7
def seven(**how):
    return meta(Node(1, Node(2, Node(3, Node(4)), Node(5)), Node(6)), Node(7), **how)


g, _ = seven()
case("parents", g, "whole 7", (6, 8, "cut 6"), (4, 8, "cut 4"))
assert parents(g) == [(600, 0), (648, 600), (696, 648), (744, 696), (720, 648), (672, 600), (624, 0)]
# every parent lies behind its children
g, _ = seven(arrange=lambda arrays: arrays[::-1])
case("parents-backwards", g, "whole 7")
assert parents(g) == [(720, 0), (672, 720), (624, 672), (600, 624), (648, 672), (696, 720), (744, 0)]
for name, place, size in [
        ("size-0", P[8], 0), ("size-0-far", END - 1, 0), ("place-0", 0, 88), ("place-0-size-large", 0, END - 1),
        ("off-multiple", P[8] + 4, 24), ("off-multiple-1", P[8] + 1, 1), ("in-last-byte-of-header", P["tree"] + 15, 24),
        ("in-header", P["tree"] + 8, 24), ("at-section", P["tree"], 24), ("before-section", N, 24),
        ("one-byte-past-section", P[8], 89), ("past-section", P["end"], 24),
        ("size-past-2-63", P[8], 2 ** 63), ("to-2-64", P[8], END - P[8]), ("past-2-64", P[8], END - 1), ("far", END - 8, 8), ("far-and-large", END - 8, END - 8)]:
    case("children-" + name, edited(f, kids(P[7], place, size)), (10, 11, "refused 7 6"), (5, 11, "cut 5"))
case("children-in-header-of-root", edited(f, kids(P[10], P["tree"] + 8, 24)), (10, 11, "refused 7 9"))
case("children-last-only", edited(f, kids(P[7], P[9], 64)), (10, 11, "whole 9"))
case("children-first-only", edited(f, kids(P[7], P[8], 24)), (10, 11, "whole 9"))
case("children-none", edited(f, kids(P[5], 0, 0)), (10, 11, "whole 6"))
case("children-all-that-follows", edited(f, kids(P[7], P[2], P["end"] - P[2])), (10, 11, "refused 14 7"))
case("tree-10-at-8", edited(f, flags(P[8], 4)), (10, 11, "refused 10 7"), (7, 11, "refused 10 7"), (6, 11, "cut 6"))
case("tree-10-at-9", edited(f, words(P[9], 6)), (10, 11, "refused 10 8"), (8, 11, "refused 10 8"), (7, 11, "cut 7"))
case("tree-10-after-8", edited(f, words(P[8], 7)), (10, 11, "refused 10 8"))
case("tree-8-takes-9", edited(f, words(P[8], 8)), (10, 11, "whole 9"))
case("tree-10-at-8-too-large", edited(f, words(P[8], 9)), (10, 11, "refused 10 7"))
case("tree-10-after-9", edited(f, kids(P[7], P[8], 80)), (10, 11, "refused 10 8"))
case("tree-9-at-9", edited(f, flex(P[9], 3, M + 8)), (10, 11, "refused 9 8"), (8, 11, "refused 9 8"), (7, 11, "cut 7"))
case("tree-7-at-4", edited(f, kids(P[4], P[8], 0)), (10, 11, "refused 7 3"))
case("tree-7-at-9", edited(f, kids(P[9], P[8], 89)), (10, 11, "refused 7 8"))
case("tree-14-parent", edited(f, ident(P[8], 7)), (10, 11, "refused 14 7"))
case("tree-14-sibling", edited(f, ident(P[9], 8)), (10, 11, "refused 14 8"), (8, 11, "refused 14 8"), (7, 11, "cut 7"))
case("tree-14-cousin", edited(f, ident(P[8], 3)), (10, 11, "refused 14 7"))
case("tree-14-root", edited(f, ident(P[10], 9)), (10, 11, "refused 14 9"))
case("tree-13-at-9", edited(f, ident(P[9], 2 ** 32 - 1)), (10, 1024, "refused 13 8"))
case("tree-13-at-8", edited(f, ident(P[8], 65536 + 12)), (10, 1024, "refused 13 7"))
case("tree-id-0", edited(f, ident(P[8], 0)), (10, 11, "whole 10"))
case("tree-id-1023", edited(f, ident(P[8], 1023)), "whole 10", (10, 1023, "refused 13 7"))
case("tree-id-1024", edited(f, ident(P[8], 1024)), "refused 13 7")

# ---- 10. unknown numbers
f, P = meta(Node(1, Node(2, kind=255, relation=254), kind=255, relation=255), Node(3, kind=4, relation=3))
case("kind-and-relation-255", f, "whole 3")
assert [r[3:5] for r in walk(f, 3, 4)[1]] == [[255, 255], [254, 255], [3, 4]]

# ---- 11. as long as the program reads, and longer
f, P = ten(length=LIMIT)
case("bytes-32768", f, "whole 10", (3, 11, "cut 3"))
f, P = ten(length=LIMIT + 1)
case("bytes-32769", f, "too long")


# ---- 12. trees at random
def grown(dice):
    """Roots, and all contexts."""
    count = 20 + dice.below(101)
    ids = dice.mix(range(count + dice.below(9)))
    under, depth = {-1: []}, {-1: 0}
    for i in range(count):
        above = -1 if i == 0 or dice.below(8) == 0 else dice.below(i)
        if depth[above] == 8:
            above = -1
        under[above].append(i)
        under[i], depth[i] = [], depth[above] + 1
    nodes = {}
    for i in reversed(range(count)):
        line = dice.below(2 ** 31) * dice.of((1, 2, 2 ** 20))
        nodes[i] = Node(ids[i], *(nodes[j] for j in under[i]), bits=dice.of((0, 0, 1, 2, 3, 4, 5, 6, 7)) + 8 * dice.of((0, 0, 0, 31, 5)),
                        fields=(N + 48 * dice.below(3), F + 32 * dice.below(3), line, M + 24 * dice.below(3), dice.below(2 ** 31) * dice.of((1, 2 ** 33))),
                        more=[dice.below(2 ** 31)] * dice.of((0, 0, 0, 1, 2)), kind=dice.below(5), relation=dice.below(4))
    return [nodes[j] for j in under[-1]], [nodes[i] for i in range(count)]


def damaged(dice, f, P, nodes):
    """One field or byte made wrong, or at least other; or the file cut."""
    a, b = dice.of(nodes), dice.of(nodes)
    full = [c for c in nodes if c.words]
    parent = dice.of([c for c in nodes if c.children])
    own = number(f, parent.place, 8)
    how = dice.below(16)
    if how < 2:
        return edited(f, (P["tree"] + dice.below(P["end"] - P["tree"]), bytes([dice.below(256)])))
    if how < 4:
        return edited(f, ident(a.place, dice.of((b.ctx, b.ctx, 900 + dice.below(200), 2 ** 32 - 1))))
    if how < 6:
        return edited(f, (parent.place + 8, u(8, dice.of((b.place, P["roots"], parent.children[0].place + 8, P["tree"] + 8, 0, END - 8)))))
    if how < 8:
        return edited(f, (parent.place, u(8, own + dice.of((8, 24, 5, -8, -24, -own, P["end"])))))
    if how < 9:
        return edited(f, kids(a.place, b.place, 24 + 8 * len(b.words)))
    if how < 11:
        return edited(f, words(a.place, max(0, len(a.words) + dice.of((-1, 1, 2, 60)))))
    if how < 12:
        return edited(f, flags(a.place, dice.below(256)))
    if how < 14:
        return edited(f, flex(dice.of(full).place, 0, dice.of((0, M, F, N, N + 8, M + 72, END - 1))))
    if how < 15:
        return edited(f, (dice.of((64, 65, 72, 80, 96, P["tree"], P["tree"] + 8)), bytes([dice.below(256)])))
    cut = f[:dice.below(len(f))]
    return cut[:-8] + b"_meta.db" if dice.below(2) else cut


dice = Dice(20240229)
for i in range(42):
    tree, nodes = grown(dice)
    f, P = meta(*tree, slack=8 * dice.below(3), arrange=dice.mix)
    assert len(f) < 12000 and walk(f, 1024, 1024) == (("whole",), [r for c in tree for r in c.records()])
    if dice.below(5):
        f = damaged(dice, f, P, nodes)
    case("random-%02d" % i, f, (dice.of((len(nodes), 130, dice.below(len(nodes) + 1))), dice.of((1024, 130)), None),
         (dice.below(len(nodes) + 1), len(nodes) + 8 - dice.of((0, 0, dice.below(20))), None))


def show(name, file, room, slots):
    """The lines for one walk, and its end."""
    out = ["== %s %d %d" % (name, room, slots)]
    if len(file) > LIMIT:
        return out + ["too long"], "too long"
    end, listed = walk(file, room, slots)
    end = " ".join(map(str, end + (len(listed),)))
    out.append("place depth id type relation parent")
    out += ["%d %d %d %d %d %d" % (place, depth, ctx, kind, relation, parent) for place, depth, ctx, relation, kind, *_, parent in listed]
    out.append(end)
    out += ["flex " + " ".join(map(str, [r[0]] + r[5:11])) for r in listed if r[5]]
    table = ["%d %d" % (r[2], r[0]) for r in sorted(listed, key=lambda r: r[2])]
    out.append("table untouched" if opening("meta", file)[0] else " ".join(["table"] + table))
    return out, end


# by hand: W, and a file that does not open
assert show("w.db", W, 4, 5)[0][1:] == [
    "place depth id type relation parent",
    "216 1 1 0 1 0",
    "264 2 2 1 0 216",
    "288 2 3 2 0 216",
    "240 1 4 0 1 0",
    "whole 4",
    "table 1 216 2 264 3 288 4 240"]
assert show("magic.db", edited(W, (13, b"e")), 4, 5)[0][1:] == ["place depth id type relation parent", "refused 2 0", "table untouched"]


if __name__ == "__main__":
    text = ""
    for name, file, room, slots, known in lines:
        out, end = show(name, file, room, slots)
        assert known is None or known == end, (name, room, slots, known, end)
        text += "".join(line + "\n" for line in out)
    os.makedirs(os.path.join(HERE, "data"), exist_ok=True)
    for old in os.listdir(os.path.join(HERE, "data")):
        os.remove(os.path.join(HERE, "data", old))
    for name, file in files:
        with open(os.path.join(HERE, "data", name), "wb") as f:
            f.write(file)
    with open(os.path.join(HERE, "data", "list"), "w") as f:
        f.write("".join("%s %d %d\n" % (name, room, slots) for name, _, room, slots, _ in lines))
    with open(os.path.join(HERE, "stdout"), "w") as f:
        f.write(text)
    print("%d files, %d lines in list" % (len(files), len(lines)))
