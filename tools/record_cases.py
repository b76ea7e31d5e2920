"""Writes the files that crates/record_cases reads, and what it is to print, by the Python reader of tools/hpcdb.py. Next to each question,
but for the cut and damaged files, stands the answer that the rules give it: written by hand, or in random files what was put into them."""
import os
from hpcdb import *

HERE = os.path.join(os.path.dirname(os.path.abspath(__file__)), "..", "crates", "record_cases")
LIMIT = 32768
MAX = END - 1
ASK = "not known beforehand"
READERS = {  # and how many of a question's two numbers they take
    "profiles": (profile_count, 0), "contexts": (cct_count, 0), "lines": (trace_count, 0), "tuple": (tuple_of, 1), "identifier": (identifier, 2),
    "header": (trace_line, 1), "sample": (trace_sample, 2), "at": (trace_at, 2)}
files, lines = {}, []


def answered(file, kind, *numbers):
    reader, n = READERS[kind]
    return " ".join(map(str, reader(file, *numbers[:n])))


def edited(file, *edits):
    for at, data in edits:
        assert 0 <= at and at + len(data) <= len(file)
        file = poke(file, at, data)
    return file


def case(name, file, *texts):
    """A text has lines of stdout, parted by semicolons, without the file's name."""
    assert len(file) <= LIMIT and files.setdefault(name + ".db", file) == file, name
    for line in "; ".join(texts).split(";"):
        kind, a, b, *known = line.split()
        lines.append((kind, name + ".db", int(a), int(b), " ".join(known)))


def ask(name, file, *questions):
    """A question is "KIND A B"."""
    case(name, file, *(q + " " + ASK for q in questions))


# ---- building a file
FILL = b"\xa5"
LEAST = {"profile": 40, "cct": 32, "trace": 24}


def header(start, end, profile):
    return u(4, profile) + FILL * 4 + u(8, start) + u(8, end)


def samples(*pairs):
    return b"".join(u(8, time) + u(4, context) for time, context in pairs)


def ids(*four):
    """A tuple"""
    each = (u(1, kind) + FILL + u(2, flags) + u(4, logical) + u(8, physical) for kind, flags, logical, physical in four)
    return u(2, len(four)) + FILL * 6 + b"".join(each)


class Maker:
    """A file under way: all is put at its end, at a multiple of 8. Bytes without a meaning are FILL. IdTuples is empty unless it is put."""

    def __init__(self, kind):
        self.kind, self.f, self.elements, self.info = kind, bytearray(HEADER[kind]), [], None
        self.pairs = [None] + [(MAX, 0)] * (kind == "profile")

    def put(self, data):
        self.f += FILL * (-len(self.f) % 8) + data
        return len(self.f) - len(data)

    def element(self, data):
        """Its number is handed back."""
        self.elements.append(data)
        return len(self.elements) - 1

    def line(self, start, end):
        """Line i is of profile 100 + i."""
        return self.element(header(start, end, 100 + len(self.elements)))

    def trace(self, *pairs):
        start = self.put(samples(*pairs))
        return self.line(start, len(self.f))

    def profile(self, place, block=FILL * 32):
        return self.element(block + u(8, place))

    def infos(self, count, stride=0, before=16, slack=0):
        """The section with the elements; `before` of its bytes come before them, `slack` after them."""
        self.stride, self.count = stride or LEAST[self.kind], count
        size = before + count * self.stride + slack
        self.info = self.put(FILL * size)
        self.array, self.pairs[0] = self.info + before, (self.info, size)
        self.f[self.info:self.info + 13] = array(self.array, count, self.stride, 1)

    def tuples(self, data):
        self.pairs[1] = self.put(data), len(data)

    def at(self, k):
        return self.array + k * self.stride

    def done(self, last=b"anything"):
        if self.info is None:
            self.infos(len(self.elements))
        assert self.count == len(self.elements)
        for k, data in enumerate(self.elements):
            assert len(data) <= self.stride
            self.f[self.at(k):self.at(k) + len(data)] = data
        self.f[:HEADER[self.kind]] = front(self.kind, self.pairs)
        return bytes(self.f) + (FOOTER[self.kind] or last)


def bad(i, n):
    """Line i is refused n, whatever is asked of it."""
    return "; ".join(f"{question} refused {n}" for question in (f"header {i} 0", f"at {i} {MAX}", f"sample {i} 0", f"sample {i} {MAX}"))


def one_bad(i, n):
    return bad(i, n).split("; ")[i % 4]


# ---- trace lines: times 10 and 20; an empty line; one sample; time 0
m = Maker("trace")
m.trace((10, 5), (20, 6))
m.line(32, 32)
m.trace((7, 2 ** 32 - 1))
m.trace((0, 0))
TIMES, TIMES_MADE = m.done(), m
f = TIMES
case("t-times", f, "lines 0 0 count 4; header 0 0 line 100 2; at 0 9 absent; at 0 19 sample 0 10 5; at 0 20 sample 1 20 6")
case("t-times", f, f"at 0 0 absent; at 0 10 sample 0 10 5; at 0 21 sample 1 20 6; at 0 {MAX} sample 1 20 6")
case("t-times", f, f"at 0 265 sample 1 20 6; at 0 {2 ** 32 + 9} sample 1 20 6; at 0 {2 ** 63 + 9} sample 1 20 6")
case("t-times", f, "sample 0 0 sample 0 10 5; sample 0 1 sample 1 20 6; sample 0 2 refused 15; sample 0 256 refused 15")
# the last one multiplied by 12 wraps to the first sample
case("t-times", f, f"sample 0 {2 ** 32} refused 15; sample 0 {2 ** 32 + 1} refused 15; sample 0 {MAX} refused 15; sample 0 {2 ** 62} refused 15")
case("t-times", f, f"header 1 0 line 101 0; at 1 0 absent; at 1 {MAX} absent; sample 1 0 refused 15; sample 1 {MAX} refused 15")
case("t-times", f, "header 2 0 line 102 1; at 2 6 absent; at 2 7 sample 0 7 4294967295; at 2 8 sample 0 7 4294967295; sample 2 1 refused 15")
case("t-times", f, f"header 3 0 line 103 1; at 3 0 sample 0 0 0; at 3 {MAX} sample 0 0 0; sample 3 0 sample 0 0 0")
# no such line; the last one multiplied by 24 wraps to the first line
case("t-times", f, *(f"header {i} 0 refused 15" for i in (4, 5, 256, 2 ** 32, 2 ** 32 + 1, 2 ** 63, MAX, 2 ** 61)))
case("t-times", f, f"at 4 10 refused 15; at {2 ** 32} 10 refused 15; sample {2 ** 32} 0 refused 15; sample {MAX} {MAX} refused 15")
case("t-times", f, "profiles 0 0 refused 2; contexts 0 0 refused 2; tuple 0 0 refused 2; identifier 0 0 refused 2")
for name, last in ("zero", bytes(8)), ("ones", b"\xff" * 8), ("meta", FOOTER["meta"]), ("time", u(8, 30)):
    case("t-last-" + name, f[:-8] + last, f"at 0 {MAX} sample 1 20 6")
case("t-minor", edited(f, (15, b"\xff")), "at 0 19 sample 0 10 5")

# ---- one to four samples, at 2, 4, ...
m = Maker("trace")
for n in range(1, 5):
    m.trace(*((2 * k + 2, 10 * n + k) for k in range(n)))
f = m.done()
for n in range(1, 5):
    case("t-few", f, f"header {n - 1} 0 line {99 + n} {n}; at {n - 1} 1 absent")
    for k in range(n):
        case("t-few", f, *(f"at {n - 1} {t} sample {k} {2 * k + 2} {10 * n + k}" for t in (2 * k + 2, 2 * k + 3)))

# ---- large times
m = Maker("trace")
m.trace((0, 1), (MAX, 2))
m.trace((MAX, 3))
m.trace((MAX - 1, 4), (MAX, 5))
m.trace((2 ** 63 - 1, 6), (2 ** 63, 7), (2 ** 63 + 1, 8))
m.trace((2 ** 32 - 1, 9), (2 ** 32, 10), (2 ** 32 + 1, 11))
m.trace((5, 12), (2 ** 32 + 3, 13), (2 ** 63 + 1, 14))
f = m.done()
case("t-large", f, f"at 0 {MAX} sample 1 {MAX} 2; at 0 {MAX - 1} sample 0 0 1; at 0 0 sample 0 0 1; sample 0 1 sample 1 {MAX} 2")
case("t-large", f, f"at 1 {MAX} sample 0 {MAX} 3; at 1 {MAX - 1} absent; at 1 0 absent; at 1 {2 ** 63} absent; at 1 {2 ** 32 - 1} absent")
case("t-large", f, f"at 2 {MAX} sample 1 {MAX} 5; at 2 {MAX - 1} sample 0 {MAX - 1} 4; at 2 {MAX - 2} absent; header 2 0 line 102 2")
case("t-large", f, f"at 3 {2 ** 63 - 2} absent; at 3 {2 ** 63 - 1} sample 0 {2 ** 63 - 1} 6; at 3 {2 ** 63} sample 1 {2 ** 63} 7")
case("t-large", f, f"at 3 0 absent; at 3 {MAX} sample 2 {2 ** 63 + 1} 8; at 4 1 absent; at 4 {2 ** 32 - 1} sample 0 {2 ** 32 - 1} 9")
case("t-large", f, f"at 4 {2 ** 32} sample 1 {2 ** 32} 10; at 5 4 absent; at 5 {2 ** 32 + 2} sample 0 5 12; at 5 {2 ** 63} sample 1 {2 ** 32 + 3} 13")

# ---- times that repeat: 10, 10, 20; 10, 20, 19; the greatest time twice; 1,000 equal times; each time three times
m = Maker("trace")
m.trace((10, 1), (10, 2), (20, 3))
m.trace((10, 1), (20, 2), (19, 3))
m.trace((MAX, 4), (MAX, 5))
m.trace(*((10 ** 18, k) for k in range(1000)))
m.trace(*((10 * (k // 3), 7 * k) for k in range(300)))
f = m.done()
case("t-repeat", f, "header 0 0 line 100 3; at 0 9 absent; at 0 10 sample 1 10 2; at 0 11 sample 1 10 2; at 0 19 sample 1 10 2; at 0 20 sample 2 20 3")
case("t-repeat", f, "sample 0 0 sample 0 10 1; sample 0 1 sample 1 10 2; sample 0 2 sample 2 20 3; sample 0 3 refused 15")
case("t-repeat", f, bad(1, 11), *(f"at 1 {t} refused 11" for t in (0, 5, 9, 10, 15, 19, 20)), *(f"sample 1 {k} refused 11" for k in (1, 2, 3)))
case("t-repeat", f, f"header 2 0 line 102 2; at 2 {MAX} sample 1 {MAX} 5; at 2 {MAX - 1} absent; at 2 0 absent; sample 2 0 sample 0 {MAX} 4")
case("t-repeat", f, f"header 3 0 line 103 1000; at 3 {10 ** 18 - 1} absent; at 3 {10 ** 18} sample 999 {10 ** 18} 999; at 3 {MAX} sample 999 {10 ** 18} 999")
case("t-repeat", f, f"sample 3 0 sample 0 {10 ** 18} 0; sample 3 998 sample 998 {10 ** 18} 998; sample 3 1000 refused 15")
for t in 0, 1, 42, 63, 64, 99:
    case("t-repeat", f, *(f"at 4 {10 * t + d} sample {3 * t + 2} {10 * t} {21 * t + 14}" for d in (0, 9)))

# ---- many samples: 201 without gaps, 300 with gaps; the 201 with one time repeated, or two exchanged
m = Maker("trace")
close = [(1000 + k, 3 + 7 * k) for k in range(201)]
m.trace(*close)
m.trace(*((50 + 10 * k, 2 ** 32 - 1 - k) for k in range(300)))
for k in 1, 100, 200:
    m.trace(*close[:k], (close[k - 1][0], 1), *close[k + 1:])
m.trace(close[1], close[0], *close[2:])
m.trace(*close[:199], close[200], close[199])
f = m.done()
case("t-many", f, f"header 0 0 line 100 201; at 0 0 absent; at 0 999 absent; at 0 1201 sample 200 1200 1403; at 0 {MAX} sample 200 1200 1403")
case("t-many", f, *(f"at 0 {1000 + k} sample {k} {1000 + k} {3 + 7 * k}" for k in range(201)))
case("t-many", f, "header 1 0 line 101 300; at 1 49 absent; at 1 50 sample 0 50 4294967295; at 1 3040 sample 299 3040 4294966996")
for k in 1, 128, 255, 256, 299:
    case("t-many", f, f"at 1 {49 + 10 * k} sample {k - 1} {40 + 10 * k} {2 ** 32 - k}; sample 1 {k} sample {k} {50 + 10 * k} {2 ** 32 - 1 - k}")
case("t-many", f, "sample 1 300 refused 15; sample 1 556 refused 15; sample 0 200 sample 200 1200 1403; sample 0 201 refused 15")
for i, k in (2, 1), (3, 100), (4, 200):
    case("t-many", f, f"header {i} 0 line {100 + i} 201; at {i} {999 + k} sample {k} {999 + k} 1; at {i} {1000 + k} sample {k} {999 + k} 1")
    case("t-many", f, f"sample {i} {k - 1} sample {k - 1} {999 + k} {7 * k - 4}; sample {i} {k} sample {k} {999 + k} 1; sample {i} 201 refused 15")
case("t-many", f, *(f"at {i} 999 refused 11; sample {i} {k} refused 11" for i, k in [(5, 9), (6, 201)]))

# ---- the order of times; each row is a line of its own
RISING = [(1, 2, 3), (0, 1), (0, MAX), (1, 2 ** 63), (255, 256), (2 ** 32 - 1, 2 ** 32), (2 ** 63 - 1, 2 ** 63)]
# a time that repeats, and the last of its samples
REPEATED = [
    ((5, 5), 5, 1), ((1, 2, 2), 2, 2), ((2, 2, 3), 2, 1), ((1, 2, 3, 4, 4), 4, 4), ((1, 2, 2, 3, 4), 2, 2), ((0, 0), 0, 1), ((MAX, MAX), MAX, 1),
    ((1, MAX, MAX), MAX, 2), ((2 ** 32 + 5, 2 ** 32 + 5), 2 ** 32 + 5, 1), ((0, 0, 0, 0, 1), 0, 3), ((0, 0, 0, 0, 0, 1), 0, 4)]
FALLING = [
    (6, 5), (1, 3, 2), (2, 1, 3), (1, 2, 3, 4, 3), (1, 3, 2, 4, 5), (3, 2, 1), (1, 2, 3, 1, 2, 3), (10, 20, 15, 30), (MAX, 0), (MAX, MAX - 1),
    (2 ** 63, 1), (2 ** 63, 2 ** 63 - 1), (2 ** 32, 1), (2 ** 32, 2 ** 32 - 1), (256, 1), (2 ** 63 + 5, 5), (5, 5, 4), (5, 4, 4), (MAX, MAX, 0)]
# all but one are equal to the one before
FALLING += [(10,) * k + (9,) * (9 - k) for k in range(1, 9)]
m = Maker("trace")
rows = len(RISING) + len(REPEATED) + len(FALLING) + 4
m.infos(rows)
asked = [f"lines 0 0 count {rows}; header {rows} 0 refused 15"]
for times in RISING:
    i, n = m.trace(*((t, 9) for t in times)), len(times)
    asked.append(f"at {i} {MAX} sample {n - 1} {times[-1]} 9")
for times, t, k in REPEATED:
    i = m.trace(*((time, 9) for time in times))
    asked.append(f"at {i} {t} sample {k} {t} 9; header {i} 0 line {100 + i} {len(times)}")
for times in FALLING:
    asked.append(one_bad(m.trace(*((t, 9) for t in times)), 11))
# 7 before 11: a range that is no good; the last reaches into the last eight bytes
start = m.put(samples((6, 1), (5, 2), (4, 3)))
for place, end in (start, start + 20), (start + 4, start + 28), (start + 2 ** 32, start + 2 ** 32 + 24):
    asked.append(one_bad(m.line(place, end), 7))
start = m.put(samples((6, 1), (5, 2))[:20])
asked.append(bad(m.line(start, start + 24), 7))
f = m.done(u(4, 2) + b"last")
assert start + 20 == len(f) - 8
case("t-order", f, *asked)


# ---- ranges: four samples from the header's END to 80, the section from there to b, two samples from b to the last eight bytes, which are at e
def ranges(b, e):
    fine = [(32, 80), (b, e), (32, 56), (56, 80), (32, 44)]
    empty = [32, 72, 80, 88, b - 8, b, e]
    refused = [
        # empty
        (24, 24), (0, 0), (e + 8, e + 8), (36, 36), (33, 33), (84, 84), (2 ** 32 + 32, 2 ** 32 + 32), (2 ** 63 + 32, 2 ** 63 + 32), (END - 8, END - 8),
        # in the header
        (24, 36), (16, 40), (0, 24), (8, 32),
        # start no multiple of 8; end none of 4
        (36, 48), (33, 45), (34, 46), (44, 56), (32, 45), (32, 46), (32, 33), (32, 34),
        # length no multiple of 12
        (32, 36), (32, 40), (32, 48), (32, 52), (32, 60), (b, e - 4),
        # end before start
        (56, 52), (56, 44), (56, 40), (56, 32), (b, 32), (2 ** 32 + 32, 44),
        # in the section; over it
        (72, 84), (32, 92), (80, b), (88, 112), (b - 8, b + 4), (b - 24, b), (32, e),
        # in the last eight bytes; past them
        (b, e + 12), (b, e + 24), (e - 8, e + 4), (e, e + 12), (e + 8, e + 20),
        # far
        (32, END - 8), (END - 16, END - 4), (END - 8, 4), (END - 8, 28), (2 ** 32 + 32, 2 ** 32 + 44), (32, 3 * 2 ** 32 + 44),
        (2 ** 63 + 32, 2 ** 63 + 44), (MAX, MAX)]
    return fine, [(at, at) for at in empty], refused


m = Maker("trace")
m.put(samples((10, 1), (20, 2), (30, 3), (40, 4)))
m.infos(sum(map(len, ranges(0, 0))), before=24)
b = m.put(samples((50, 5), (60, 6)))
e = len(m.f)
fine, empty, refused = ranges(b, e)
rows = fine + empty + refused
assert m.info == 80 and sum(m.pairs[0]) == b
# modulo 2^64 these lengths are multiples of 12
assert not any((end - start) % END % 12 for start, end in [(32, e), (80, b), (32, END - 8), (END - 8, 28), (56, 52), (32, 3 * 2 ** 32 + 44)])
for start, end in rows:
    m.line(start, end)
f = m.done()
A, B = f"at 0 9 absent; at 0 {MAX} sample 3 40 4", f"at 1 49 absent; at 1 {MAX} sample 1 60 6"
case("t-range", f, f"lines 0 0 count {len(rows)}; header 0 0 line 100 4; header 1 0 line 101 2", A, B)
case("t-range", f, "header 2 0 line 102 2; at 2 99 sample 1 20 2; sample 2 2 refused 15; at 3 29 absent; at 3 30 sample 0 30 3; at 4 99 sample 0 10 1")
case("t-range", f, *(f"at {i} {MAX} absent" for i in range(5, 12)), "header 5 0 line 105 0; header 8 0 line 108 0; sample 8 0 refused 15")
case("t-range", f, *(one_bad(i, 7) for i in range(12, len(rows))), f"header {len(rows)} 0 refused 15")
at_b, at_e, past_e, over_e = (rows.index(row) for row in [(b, b), (e, e), (e + 8, e + 8), (e - 8, e + 4)])
# the section with one byte more, the first of the line at b; with all up to the last eight
case("t-grown-1", edited(f, (16, u(8, b - 80 + 1))), A, bad(1, 7), f"at {at_b} 0 absent")
case("t-grown", edited(f, (16, u(8, e - 80))), A, one_bad(1, 7), f"at {at_b} 0 absent; at {at_e} 0 absent")
# one byte less before the last eight; eight more, so that "anyt" is a ctxId
case("t-less", f[:-9] + f[-8:], A, bad(1, 7), one_bad(at_e, 7), f"at {at_b} 0 absent")
f += b"the last"
case("t-more", f, A, B, f"header {past_e} 0 line {100 + past_e} 0; at {past_e} 9 absent; at {over_e} {MAX} sample 0 {6 * 2 ** 32} 1954115169")

# ---- the section first, not of whole words; last, up to the last eight bytes
m = Maker("trace")
m.infos(2, slack=5)
m.trace((1, 2), (3, 4))
m.line(96, 120)
case("t-first", m.done(), "header 0 0 line 100 2; at 0 2 sample 0 1 2; at 0 3 sample 1 3 4; header 1 0 refused 7")
m = Maker("trace")
m.trace((1, 2), (3, 4), (5, 6))
m.line(56, 68)
m.infos(2, slack=3)
case("t-end", m.done(), "header 0 0 line 100 3; at 0 4 sample 1 3 4; header 1 0 line 101 1; at 1 5 sample 0 5 6")

# ---- bytes in common: the line again, parts of it; in the last one times are a ctxId and half a time
m = Maker("trace")
start = m.put(samples((10, 1), (20, 2), (30, 3), (40, 4), (50, 5), (60, 6)))
for place, end in (0, 72), (0, 72), (24, 72), (0, 36), (24, 48), (8, 32):
    m.line(start + place, start + end)
f = m.done()
case("t-common", f, "at 0 35 sample 2 30 3; at 1 35 sample 2 30 3; header 2 0 line 102 4; at 2 29 absent; at 2 35 sample 0 30 3; at 3 99 sample 2 30 3")
case("t-common", f, f"sample 3 3 refused 15; at 4 99 sample 1 40 4; sample 5 0 sample 0 {1 + 20 * 2 ** 32} 0; sample 5 1 sample 1 {2 + 30 * 2 ** 32} 0")

# ---- strides: 48, the second half of each being another line; others, filled
m = Maker("trace")
start = m.put(samples((10, 1), (20, 2), (30, 3), (40, 4)))
for k in range(3):
    m.element(header(start, start + 12 * k + 12, 2 ** 32 - 1 - k) + header(start + 24, start + 48, 7))
m.infos(3, 48, 32)
f = m.done()
case("t-48", f, "header 0 0 line 4294967295 1; header 1 0 line 4294967294 2; header 2 0 line 4294967293 3; header 3 0 refused 15")
case("t-48", f, "at 0 99 sample 0 10 1; at 1 99 sample 1 20 2; at 2 99 sample 2 30 3")
for stride in 32, 248:
    m = Maker("trace")
    m.infos(4, stride, slack=1)
    for k in range(3):
        m.trace((k, k + 1), (k + 10, k + 2))
    m.line(32, 33)
    case(f"t-{stride}", m.done(), "header 1 0 line 101 2; at 2 9 sample 0 2 3; at 2 12 sample 1 12 4; at 3 0 refused 7; header 4 0 refused 15")

# ---- no line, the array wild; 300 lines; as long as the program reads
m = Maker("trace")
m.infos(0)
case("t-none", edited(m.done(), (m.info, u(8, MAX))), "lines 0 0 count 0; header 0 0 refused 15; sample 0 0 refused 15; at 0 0 refused 15")
m = Maker("trace")
start = m.put(samples((10, 1), (20, 2)))
for k in range(300):
    m.line(start, start + 12 * (k % 3))
case("t-300", m.done(), "lines 0 0 count 300; header 255 0 line 355 0; header 256 0 line 356 1; header 299 0 line 399 2; header 300 0 refused 15")
m = Maker("trace")
m.trace(*((3 * k + 1, k) for k in range(2724)))
f = m.done()
assert len(f) == LIMIT
case("t-full", f, "header 0 0 line 100 2724; at 0 0 absent; at 0 3 sample 0 1 0; at 0 4095 sample 1364 4093 1364; at 0 4096 sample 1365 4096 1365")
case("t-full", f, f"at 0 8169 sample 2722 8167 2722; at 0 {MAX} sample 2723 8170 2723; sample 0 2724 refused 15")

# ---- trace.db does not open
f, info, end = TIMES, TIMES_MADE.info, len(TIMES) - 8
for k, (name, n, file) in enumerate([
        ("empty", 1, b""), ("39", 1, f[:39]), ("39-magic", 1, edited(f[:39], (0, b"h"))),
        ("magic", 2, edited(f, (13, b"f"))), ("magic-0", 2, edited(f, (0, b"h"), (14, b"\3"))),
        ("version-3", 3, edited(f, (14, b"\3"))), ("version-5", 3, edited(f, (14, b"\5"), (16, u(8, 0)))),
        ("size-0", 5, edited(f, (16, u(8, 0)))), ("size-12", 5, edited(f, (16, u(8, 12)))), ("in-last", 5, edited(f, (16, u(8, end - info + 1)))),
        ("place-24", 5, edited(f, (24, u(8, 24)))), ("place-off", 5, edited(f, (16, u(8, 96) + u(8, info + 4)))),
        ("place-far", 5, edited(f, (24, u(8, END - 8)))), ("size-far", 5, edited(f, (16, u(8, END - info)))),
        ("stride-16", 6, edited(f, (info + 12, b"\x10"))), ("stride-22", 6, edited(f, (info + 12, b"\x16"))),
        ("stride-28", 6, edited(f, (info + 12, b"\x1c"), (info, u(8, 1)))), ("stride-0", 6, edited(f, (info + 8, u(5, 0)))),
        ("count-5", 7, edited(f, (info + 8, u(4, 5)))), ("count-far", 7, edited(f, (info + 8, u(4, 2 ** 32 - 1)))),
        ("stride-32", 7, edited(f, (info + 12, b"\x20"))), ("array-off", 7, edited(f, (info, u(8, info + 20) + u(4, 3)))),
        ("array-8", 7, edited(f, (info, u(8, info + 8)))), ("array-far", 7, edited(f, (info, u(8, END - 8))))]):
    case("t-" + name, file, ("lines 0 0", "header 4 0", "at 0 10", f"sample {MAX} 0", "header 0 0")[k % 5] + f" refused {n}")
# 15 before 7, 7 before 15
f = edited(f, *((TIMES_MADE.at(k) + 8, u(8, MAX)) for k in range(4)))
case("t-wild", f, "lines 0 0 count 4; header 3 0 refused 7; sample 1 9 refused 7; header 4 0 refused 15; at 4 0 refused 15; sample 4 9 refused 15")

# ---- tuples of no, one, three, 300 identifications; a shared one; one in the bytes of others
m = Maker("profile")
THREE = (0, 1, 3, 0x0123456789abcdef), (255, 0xffff, 2 ** 32 - 1, MAX), (7, 0x8000, 2 ** 31, 2 ** 63)
m.tuples(ids() + ids((1, 0, 7, 7)) + ids(*THREE) + ids(*((k % 256, k, 1000 + k, 10 ** 12 + k) for k in range(300))))
for place in 80, 48, 56, 136, 80, 72:
    m.profile(place)
TUPLES, TUPLES_MADE = m.done(), m
f = TUPLES
case("p-tuples", f, "profiles 0 0 count 6; tuple 0 0 tuple 3; tuple 1 0 tuple 0; tuple 2 0 tuple 1; tuple 3 0 tuple 300; tuple 4 0 tuple 3")
case("p-tuples", f, "identifier 0 0 identifier 0 1 3 81985529216486895; identifier 0 1 identifier 255 65535 4294967295 18446744073709551615")
case("p-tuples", f, "identifier 0 2 identifier 7 32768 2147483648 9223372036854775808; identifier 4 0 identifier 0 1 3 81985529216486895")
case("p-tuples", f, "identifier 4 3 refused 15; identifier 1 0 refused 15; identifier 2 0 identifier 1 0 7 7; identifier 2 1 refused 15")
# the last one multiplied by 16 wraps to the first identification
case("p-tuples", f, *(f"identifier 0 {k} refused 15" for k in (3, 65536, 65537, 2 ** 32, 2 ** 32 + 1, 2 ** 63, MAX, 2 ** 60)))
case("p-tuples", f, *(f"identifier 3 {k} identifier {k % 256} {k} {1000 + k} {10 ** 12 + k}" for k in (0, 255, 256, 299)), "identifier 3 300 refused 15")
# number and first identification of the three: 3, 0xa5a5, 0xa5a5a5a5, 0x30001a500
case("p-tuples", f, "tuple 5 0 tuple 7; identifier 5 0 identifier 3 42405 2779096485 12885009664; identifier 5 7 refused 15")
# no such profile; the last one multiplied by 40 wraps to the first profile
case("p-tuples", f, *(f"tuple {p} 0 refused 15" for p in (6, 7, 256, 2 ** 32, 2 ** 32 + 1, 2 ** 63, MAX, 2 ** 61)))
case("p-tuples", f, f"identifier 6 0 refused 15; identifier {2 ** 32} 0 refused 15; identifier {MAX} {MAX} refused 15")
case("p-tuples", f, "lines 0 0 refused 2; contexts 0 0 refused 2; header 0 0 refused 2; sample 0 0 refused 2; at 0 0 refused 2")
case("p-minor", edited(f, (15, b"\x07")), "tuple 0 0 tuple 3")

# ---- ranges: a tuple before IdTuples; in it one of one, one of none, one of 257 that ends with it and has others in its physicalIds; one after
m = Maker("profile")
m.put(ids((9, 0, 0, 0)))
within = {0: 256, 1: 256, 250: 4097, 251: 4096, 252: 65535, 253: 4, 254: 2, 255: 1, 256: 0}
m.tuples(ids((4, 1, 5, 6)) + ids() + ids(*((k % 256, 1, k, within.get(k, 10 ** 15)) for k in range(257))))
s, e = m.pairs[1][0], sum(m.pairs[1])
m.put(ids())
assert s == 72 and e == 104 + 8 + 16 * 257 == 120 + 8 + 16 * 256
rows = [
    s, 96, 104, e - 8, e - 24, e - 40, 120,
    # before, after; too many identifications
    48, s - 8, 40, 0, e, e + 8, e - 56, e - 72, e - 88, e - 104, 136,
    # no multiple of 8; all but the last have few identifications
    121, 122, 123, 124, 126, 162, 164, 166, e - 4,
    END - 8, END - 16, END - 24, MAX, 2 ** 32 + s, 2 ** 32 + 96, 2 ** 63 + s]
for place in rows:
    m.profile(place)
f = m.done()
case("p-range", f, "tuple 0 0 tuple 1; tuple 1 0 tuple 0; tuple 2 0 tuple 257; tuple 3 0 tuple 0; tuple 4 0 tuple 1; tuple 5 0 tuple 2")
case("p-range", f, "identifier 0 0 identifier 4 1 5 6; identifier 1 0 refused 15; identifier 2 256 identifier 0 1 256 0; identifier 2 257 refused 15")
case("p-range", f, "identifier 4 0 identifier 0 1 256 0; identifier 5 1 identifier 0 1 256 0")
case("p-range", f, "tuple 6 0 tuple 256; identifier 6 0 identifier 1 1 1 256; identifier 6 256 refused 15")
for p in range(7, len(rows)):
    case("p-range", f, f"tuple {p} 0 refused 7" if p % 4 else f"identifier {p} {p % 8} refused 7")
case("p-range", f, f"tuple {len(rows)} 0 refused 15")


def sized(name, size, *texts):
    case("p-" + name, edited(f, (32, u(8, size))), *texts)


p = rows.index(e)
sized("less", e - s - 1, "tuple 0 0 tuple 1; tuple 1 0 tuple 0; tuple 2 0 refused 7; tuple 3 0 refused 7; tuple 4 0 refused 7; identifier 6 0 refused 7")
sized("more", e - s + 1, f"tuple 2 0 tuple 257; tuple 3 0 tuple 0; tuple 6 0 tuple 256; tuple {p} 0 refused 7")
sized("more-7", e - s + 7, f"tuple {p} 0 refused 7")
sized("more-8", e - s + 8, f"tuple {p} 0 tuple 0; identifier {p} 0 refused 15")
sized("size-32", 32, "tuple 0 0 tuple 1; tuple 1 0 tuple 0")
sized("size-31", 31, "tuple 0 0 tuple 1; tuple 1 0 refused 7")
sized("size-24", 24, "tuple 0 0 tuple 1; tuple 1 0 refused 7")
for size in 23, 8, 2:
    sized("size-%d" % size, size, "tuple 0 0 refused 7; tuple 1 0 refused 7")
# nothing in IdTuples, wherever it is said to be
for name, place in ("there", s), ("wild", MAX), ("null", 0):
    g = edited(f, (32, u(8, 0) + u(8, place)))
    case("p-no-" + name, g, f"profiles 0 0 count {len(rows)}; tuple 0 0 refused 7", *(f"tuple {rows.index(at)} 0 refused 7" for at in (0, MAX)))

# ---- strides: 80, the second half of each being another profile; others, filled. Blocks of all sorts: they are not read
m = Maker("profile")
m.tuples(ids((1, 0, 2, 2)) + ids((3, 1, 4, 5), (6, 0, 7, 7)))
for place in 48, 72, 48:
    m.element(FILL * 32 + u(8, place) + FILL * 32 + u(8, 120 - place))
m.infos(3, 80, 24)
case("p-80", m.done(), "tuple 0 0 tuple 1; tuple 1 0 tuple 2; tuple 2 0 tuple 1; identifier 1 1 identifier 6 0 7 7; tuple 3 0 refused 15")
for stride in 40, 48, 248:
    m = Maker("profile")
    m.infos(5, stride, slack=2)
    m.tuples(ids((1, 0, 2, 2)) + ids((3, 1, 4, 5), (6, 0, 7, 7)))
    for at, block in (24, b"\xff" * 32), (0, bytes(32)), (24, u(8, 1) + bytes(24)), (0, (u(8, 0) + u(8, 1)) * 2), (1, bytes(32)):
        m.profile(m.pairs[1][0] + at, block)
    f = m.done()
    case(f"p-{stride}", f, "tuple 0 0 tuple 2; tuple 1 0 tuple 1; tuple 3 0 tuple 1; identifier 2 0 identifier 3 1 4 5; tuple 4 0 refused 7")
    case(f"p-{stride}", f, "tuple 5 0 refused 15")

# ---- IdTuples over the profiles: the tuple is three words of the block
m = Maker("profile")
m.profile(64, u(8, 1) + bytes([9, 8]) + u(2, 7) + u(4, 6) + u(8, 5) + FILL * 8)
m.infos(1)
m.pairs[1] = 64, 40
case("p-over", m.done(), "tuple 0 0 tuple 1; identifier 0 0 identifier 9 7 6 5; identifier 0 1 refused 15")

# ---- no profile, the array wild; 300 profiles; contexts, which only have a count
m = Maker("profile")
m.infos(0)
case("p-none", edited(m.done(), (m.info, u(8, MAX))), "profiles 0 0 count 0; tuple 0 0 refused 15; identifier 0 0 refused 15")
m = Maker("profile")
m.tuples(ids() + ids((1, 0, 2, 2)) + ids((3, 1, 4, 5), (6, 0, 7, 7)))
for k in range(300):
    m.profile((48, 56, 80)[k % 3])
case("p-300", m.done(), "profiles 0 0 count 300; tuple 256 0 tuple 1; tuple 299 0 tuple 2; tuple 300 0 refused 15; identifier 299 1 identifier 6 0 7 7")
made = {}
for count, stride in (0, 32), (3, 40), (300, 32):
    m = Maker("cct")
    m.infos(count, stride, 24, 1)
    m.elements = [FILL * 32] * count
    made[count] = m.done(), m
    case("c-%d" % count, edited(made[count][0], *[(m.info, u(8, MAX))] * (count == 0)), f"contexts 0 0 count {count}")
case("c-3", made[3][0], "profiles 0 0 refused 2; lines 0 0 refused 2; header 0 0 refused 2; tuple 0 0 refused 2")

# ---- profile.db and cct.db do not open
for f, m in (TUPLES, TUPLES_MADE), made[3]:
    end, info, least, last = len(f) - 8, m.info, LEAST[m.kind], FOOTER[m.kind]
    refused = [
        ("short", 1, f[:HEADER[m.kind] - 1] + last), ("magic", 2, edited(f, (13, b"e"))), ("version", 3, edited(f, (14, b"\5"))),
        ("last", 4, edited(f, (end, b"-"))), ("size-12", 5, edited(f, (16, u(8, 12)))), ("in-last", 5, edited(f, (16, u(8, end - info + 1)))),
        ("far", 5, edited(f, (24, u(8, END - 8)))), ("stride-16", 6, edited(f, (info + 12, b"\x10"), (info, u(8, 1)))),
        ("stride-off", 6, edited(f, (info + 12, bytes([least + 4])))), ("count", 7, edited(f, (info + 8, u(4, 2 ** 32 - 1)))),
        ("array-8", 7, edited(f, (info, u(8, info + 8)))), ("array-far", 7, edited(f, (info, u(8, END - 8))))]
    if m.kind == "profile":
        refused += [
            ("tuples-off", 5, edited(f, (40, u(8, 52)), (info + 12, b"\x10"))), ("tuples-far", 5, edited(f, (32, u(8, END - 48)))),
            ("tuples-last", 5, edited(f, (32, u(8, end - 48 + 1)))), ("tuples-40", 5, edited(f, (40, u(8, 40))))]
    for k, (name, n, file) in enumerate(refused):
        if m.kind == "profile":
            case("p-" + name, file, ("profiles 0 0", "tuple 0 0", "tuple 6 0", f"identifier 0 {MAX}")[k % 4] + f" refused {n}")
        else:
            case("c-" + name, file, f"contexts 0 0 refused {n}")
case("t-empty", b"", "header 0 0 refused 1; at 9 9 refused 1; profiles 0 0 refused 1; contexts 0 0 refused 1; identifier 9 9 refused 1")

# ---- at random
dice = Dice(20240523)
for i in range(6):
    m, truth, count = Maker("trace"), [], 1 + dice.below(5)
    for part in dice.mix(["infos"] + ["line"] * count):
        if part == "infos":
            m.infos(count, 24 + 8 * dice.below(4), 16 + 8 * dice.below(3), dice.below(9))
        else:
            times = {dice.of((dice.below(20), dice.bits(), 2 ** 32 - dice.below(4), MAX - dice.below(3))) for _ in range(dice.below(9))}
            truth.append([(time, dice.below(2 ** 31)) for time in sorted(times)])
            m.trace(*truth[-1])
    f, k = m.done(u(8, dice.bits())), dice.below(count)
    case("t-random-%d" % i, f, f"header {k} 0 line {100 + k} {len(truth[k])}")
    for t in [dice.bits()] + [max(0, time - dice.below(2)) for time, _ in dice.mix(truth[k])[:2]]:
        n = sum(time <= t for time, _ in truth[k])
        case("t-random-%d" % i, f, f"at {k} {t} " + ("sample %d %d %d" % (n - 1, *truth[k][n - 1]) if n else "absent"))
for i in range(5):
    m, count = Maker("profile"), 1 + dice.below(5)
    truth = [[(dice.below(256), dice.below(65536), dice.below(2 ** 31), dice.bits()) for _ in range(dice.below(6))] for _ in range(count)]
    for part in dice.mix(("infos", "tuples")):
        if part == "infos":
            m.infos(count, 40 + 8 * dice.below(4), 16 + 8 * dice.below(3), dice.below(9))
        else:
            m.tuples(b"".join(ids(*four) for four in truth))
    for k in range(count):
        m.profile(m.pairs[1][0] + sum(8 + 16 * len(four) for four in truth[:k]))
    f, k = m.done(), dice.below(count)
    case("p-random-%d" % i, f, f"tuple {k} 0 tuple {len(truth[k])}")
    for j, four in dice.mix(enumerate(truth[k]))[:2]:
        case("p-random-%d" % i, f, f"identifier {k} {j} identifier %d %d %d %d" % four)


# ---- cut; one byte damaged
def damage(name, f, at, questions):
    """Two questions that get other answers than before, if there are such."""
    g = edited(f, (at, bytes([dice.of((f[at] ^ 1 << dice.below(8), (f[at] + 1 + dice.below(255)) % 256))])))
    other = [q for q in questions if answered(f, *parsed(q)) != answered(g, *parsed(q))]
    ask(name, g, *(dice.mix(other)[:2] or [dice.of(questions)]))


def parsed(question):
    kind, a, b = question.split()
    return kind, int(a), int(b)


m = Maker("trace")
m.trace((10, 1), (20, 2), (30, 3))
m.infos(4, 32)
m.trace((11, 1), (300, 2))
m.line(80, 80)
m.trace((5, 6), (7, 8), (9, 10))
f, end = m.done(), sum(m.pairs[0])
for size in 1, 32, 40, 100, end + 7, end + 8, end + 31, end + 32, len(f) - 8, len(f) - 1:
    ask("t-cut-%d" % size, f[:size], "at 0 25", "at 1 25" if size < len(f) - 8 else "header 3 0")
for i in range(24):
    at = (dice.below(len(f)), m.info + dice.below(m.pairs[0][1]), dice.of((16, 24, m.info)) + dice.below(8), dice.below(len(f)))[i % 4]
    damage("t-damage-%d" % i, f, at, ["lines 0 0"] + [q % k for q in ("header %d 0", "sample %d 1", "at %d 25", f"at %d {MAX}") for k in range(4)])
m = Maker("profile")
m.infos(4, 48)
m.tuples(ids((1, 0, 2, 2)) + ids() + ids((3, 1, 4, 5), (6, 0, 7, 7)))
for at in 0, 24, 32, 0:
    m.profile(m.pairs[1][0] + at)
f, end = m.done(), sum(m.pairs[1])
for size in 1, 55, 56, 100, end - 1, end:
    ask("p-cut-%d" % size, f[:size], "tuple 2 0")
    ask("p-cut-%d-last" % size, f[:size] + FOOTER["profile"], "tuple 2 0")
for i in range(16):
    at = (dice.below(len(f)), m.at(dice.below(4)) + 32 + dice.below(2), dice.of((16, 32, m.info)) + dice.below(16), end - 72 + dice.below(72))[i % 4]
    damage("p-damage-%d" % i, f, at, ["profiles 0 0"] + [q % k for q in ("tuple %d 0", "identifier %d 0", "identifier %d 1") for k in range(4)])

# ---- at random, from few times, so that most repeat
dice = Dice(20260101)
for i in range(8):
    m, n = Maker("trace"), 4 + dice.below(40)
    first = dice.of((0, dice.bits(), 2 ** 32 - 3, MAX - 5))
    truth = [(time, dice.below(2 ** 31)) for time in sorted(first + dice.below(6) for _ in range(n))]
    m.trace(*truth)
    f = m.done(u(8, dice.bits()))
    for t in range(max(0, first - 1), first + 6):
        k = max((k for k, (time, _) in enumerate(truth) if time <= t), default=None)
        case("t-repeat-%d" % i, f, f"at 0 {t} " + ("absent" if k is None else "sample %d %d %d" % (k, *truth[k])))

if __name__ == "__main__":
    text, list_ = "", ""
    for kind, name, a, b, known in lines:
        said, line = answered(files[name], kind, a, b), "%s %s %d %d" % (kind, name, a, b)
        assert known in (said, ASK), (line, known, said)
        assert len(line) <= 100
        list_ += line + "\n"
        text += line + " " + said + "\n"
    assert len(list_) <= 60000 and set(files) == {line[1] for line in lines}
    os.makedirs(os.path.join(HERE, "data"), exist_ok=True)
    for old in os.listdir(os.path.join(HERE, "data")):
        os.remove(os.path.join(HERE, "data", old))
    for name, file in files.items():
        with open(os.path.join(HERE, "data", name), "wb") as f:
            f.write(file)
    with open(os.path.join(HERE, "data", "list"), "w") as f:
        f.write(list_)
    with open(os.path.join(HERE, "stdout"), "w") as f:
        f.write(text)
    print("%d files of %d bytes, %d lines in list" % (len(files), sum(map(len, files.values())), len(lines)))
