"""Writes the DCPI samples that crates/dcpi_cases reads, and what it is to print, by the Python reader of tools/hpcdb.py. Next to each
question stands the answer that the rules give it: written by hand, or in random files what was put into them."""
import os
from hpcdb import *

HERE = os.path.join(os.path.dirname(os.path.abspath(__file__)), "..", "crates", "dcpi_cases")
HALF, TOP, MAX = 2 ** 31, 2 ** 32 - 1, END - 1
# how many bytes of samples the program can read, and of entries it can lend; what these hold before
LONGEST, LENT, BEFORE = 65536, 8192, b"\xff"
files, cases = {}, []


def words(*numbers):
    return struct.pack("<%dI" % len(numbers), *numbers)


def float_bits(n):
    """Of the f64 that equals a number over 0: its exponent, and the bits of the number behind the first."""
    e = n.bit_length() - 1
    return (1023 + e << 52) + (n << 52 - e) - (1 << 52)


def entry(profile, metric, offset, count):
    return u(4, profile) + u(4, offset) + u(2, metric) + bytes(6) + u(8, float_bits(count))


for n, bits in [
        (1, 0x3ff0000000000000), (2, 0x4000000000000000), (3, 0x4008000000000000), (5, 0x4014000000000000), (7, 0x401c000000000000),
        (2 ** 24 - 1, 0x416fffffe0000000), (2 ** 24, 0x4170000000000000), (2 ** 24 + 1, 0x4170000010000000), (2 ** 31 - 1, 0x41dfffffffc00000),
        (2 ** 31, 0x41e0000000000000), (2 ** 31 + 1, 0x41e0000000200000), (TOP - 1, 0x41efffffffc00000), (TOP, 0x41efffffffe00000)]:
    assert float_bits(n) == bits
assert entry(1, 2, 100, 5) == bytes.fromhex("01000000" "64000000" "0200" "000000000000" "0000000000001440")


def case(name, samples, *texts, counts={}):
    """A text has questions, each with its answer behind a colon, parted by semicolons. Where entries are listed, they are those of the
    counts that are not 0."""
    assert len(samples) <= LONGEST and files.setdefault(name + ".dcpi", samples) == samples, name
    some = [(offset, count) for offset, count in counts.items() if count]
    for text in "; ".join(texts).split("; "):
        question, known = text.split(": ")
        cases.append((name + ".dcpi", question, known, some))


def sound(name, samples, totals, counts, *absent):
    """The totals, every count by its offset, and offsets that no count is for."""
    n = totals[0]
    found = [f"lookup {offset}: found {count}" for offset, count in counts.items()] + [f"lookup {offset}: absent" for offset in absent]
    case(name, samples, "totals: totals %d %d" % totals, *found, f"entries 1 2 {24 * n}: listed {n}", counts=counts)
    if n:
        case(name, samples, f"entries 1 2 {24 * n - 1}: refused 17")


def refused(n, name, samples, offset=100):
    """Whatever is asked."""
    case(name, samples, f"totals: refused {n}; lookup {offset}: refused {n}; entries 1 2 48: refused {n}")


def broken(n, name, *numbers):
    """As the numbers have it, the totals last; and before 20 and 17."""
    *body, some, total = numbers
    refused(n, name, words(*numbers))
    case(name + "-20", words(*body, some + 1, total + 1), f"totals: refused {n}; entries 1 2 0: refused {n}")


# ---- one chunk: 5 for offset 100, 0 for 101, 7 for 102
FIRST, COUNTS = (100, 3, 5, 0, 7), {100: 5, 101: 0, 102: 7}
TWO = words(*FIRST, 2, 12)
sound("two", TWO, (2, 12), COUNTS, 0, 2, 3, 5, 7, 12, 98, 99, 103, 104, 356, 2 ** 16 + 100, 2 ** 31 + 100, TOP - 100, TOP)
for offset in 2 ** 32, 2 ** 32 + 99, 2 ** 32 + 100, 2 ** 32 + 101, 2 ** 32 + 102, 2 ** 33 + 100, 2 ** 63, 2 ** 63 + 100, END - 100, MAX - 1, MAX:
    case("two", TWO, f"lookup {offset}: absent")
for lent in 0, 1, 22, 23, 24, 25, 46:
    case("two", TWO, f"entries 1 2 {lent}: refused 17")
for lent in 49, 71, 72, 73, 95, 96, 100:
    case("two", TWO, f"entries 1 2 {lent}: listed 2", counts=COUNTS)
IDS = [(0, 0), (0, 1), (1, 0), (1, 256), (256, 1), (255, 255), (65536, 255), (2 ** 24, 1), (2 ** 31, 2 ** 15), (TOP, 0), (0, 65535), (TOP, 65535)]
for profile, metric in IDS + [(0x01020304, 0x0506)]:
    case("two", TWO, f"entries {profile} {metric} 72: listed 2; entries {profile} {metric} 47: refused 17", counts=COUNTS)

# ---- no chunk at all; too few bytes; one count, or none but 0
sound("none", bytes(8), (0, 0), {}, 0, 1, 99, 100, TOP, 2 ** 32, 2 ** 32 + 100, MAX)
for lent in 1, 23, 24, 25, 48:
    case("none", bytes(8), f"entries 1 2 {lent}: listed 0; entries {TOP} 65535 {lent}: listed 0")
for n in range(8):
    refused(1, "zeros-%d" % n, bytes(n))
    case("zeros-%d" % n, bytes(n), "entries 1 2 0: refused 1")
refused(1, "ones-7", b"\1" * 7)
for k, totals in enumerate([(1, 0), (0, 1), (1, 1), (TOP, TOP)] + [pair for k in (8, 16, 24, 31) for pair in ((2 ** k, 0), (0, 2 ** k))]):
    refused(20, "none-totals-%d" % k, words(*totals))
# 12 bytes are an offset and the totals, 16 a chunk without counts
for n in range(9, 17):
    refused(7, "zeros-%d" % n, bytes(n))
    refused(7, "ones-%d" % n, b"\1" * n)
broken(7, "offset-only", 100, 0, 0)
broken(7, "no-count", 100, 1, 0, 0)
broken(7, "number-0", 100, 0, 0, 0)
ONE = words(100, 1, 9, 1, 9)
sound("one", ONE, (1, 9), {100: 9}, 99, 101, 2 ** 32 + 100)
case("one", ONE, *(f"entries 1 2 {lent}: refused 17" for lent in (0, 1, 22)))
case("one", ONE, *(f"entries 1 2 {lent}: listed 1" for lent in (25, 47, 48, 49)), counts={100: 9})
sound("zero", words(100, 1, 0, 0, 0), (0, 0), {100: 0}, 99, 101)
ZEROS = words(100, 3, 0, 0, 0, 0, 0)
sound("three-zeros", ZEROS, (0, 0), {100: 0, 101: 0, 102: 0}, 99, 103)
case("three-zeros", ZEROS, *(f"entries 1 2 {lent}: listed 0" for lent in (23, 24, 48)))

# ---- another number than 3; from 2^30 - 2 on four times the number, and 8, is small modulo 2^32
for size in 0, 1, 2, 4, 5, 6, 7, 3 + 2 ** 8, 3 + 2 ** 16, 3 + 2 ** 24, 2 ** 30 - 2, 2 ** 30, 2 ** 30 + 3, 2 ** 31, 2 ** 31 + 3, 3 * 2 ** 30 + 3, TOP - 1, TOP:
    refused(7, "of-3-number-%d" % size, words(0, size, 5, 0, 7, 2, 12), 0)
broken(7, "one-too-long", 100, 4, 5, 0, 7, 2, 12)
broken(7, "one-too-short", 100, 2, 5, 0, 7, 2, 12)
for n in range(1, 9):
    refused(7, "behind-%d" % n, TWO + bytes(n))
refused(7, "before-8", bytes(8) + TWO)
refused(7, "newline", b"\n" + TWO)
refused(7, "twice", TWO + TWO)
refused(7, "big-endian", struct.pack(">7I", *FIRST, 2, 12))

# ---- offsets at their ends; the bytes of a number
sound("first", words(0, 1, 9, 1, 9), (1, 9), {0: 9}, 1, 2, TOP, 2 ** 32, 2 ** 63, MAX)
sound("first-3", words(0, 3, 9, 8, 0, 2, 17), (2, 17), {0: 9, 1: 8, 2: 0}, 3, 2 ** 32 + 1, MAX)
sound("last", words(TOP, 1, 9, 1, 9), (1, 9), {TOP: 9}, 0, TOP - 1, 2 ** 32, 2 * TOP, MAX)
sound("last-2", words(TOP - 1, 2, 9, 8, 2, 17), (2, 17), {TOP - 1: 9, TOP: 8}, 0, TOP - 2, 2 ** 32, MAX - 1, MAX)
sound("last-3", words(TOP - 2, 3, 1, 0, 2, 2, 3), (2, 3), {TOP - 2: 1, TOP - 1: 0, TOP: 2}, 0, TOP - 3, 2 ** 32, 2 ** 32 + 1)
broken(7, "past-1", TOP, 2, 9, 8, 2, 17)
broken(7, "past-1-zero", TOP, 2, 9, 0, 1, 9)
broken(7, "past-2", TOP, 3, 9, 8, 7, 3, 24)
broken(7, "past-1-of-4", TOP - 2, 4, 1, 0, 2, 4, 3, 7)
sound("both-ends", words(0, 1, 3, TOP, 1, 4, 2, 7), (2, 7), {0: 3, TOP: 4}, 1, 2 ** 31, TOP - 1, 2 ** 32, 2 ** 32 + TOP)
sound("middle", words(HALF - 1, 2, 5, 6, 2, 11), (2, 11), {HALF - 1: 5, HALF: 6}, HALF - 2, HALF + 1, END - HALF)
sound("bytes", words(0x01020304, 2, 0x05060708, 0x090a0b0c, 2, 0x0e101214), (2, 0x0e101214), {0x01020304: 0x05060708, 0x01020305: 0x090a0b0c},
      4, 0x304, 0x20304, 0x04030201)

# ---- a second chunk: touching, with a gap, overlapping, before the first; of one count, of more
NEXT = *FIRST, 103, 1, 9
sound("next-103", words(*NEXT, 3, 21), (3, 21), {**COUNTS, 103: 9}, 99, 104)
for offset in 104, 200, 2 ** 31 + 100, TOP:
    sound("next-%d" % offset, words(*FIRST, offset, 1, 9, 3, 21), (3, 21), {**COUNTS, offset: 9}, 99, 103, offset + 1)
for offset in 0, 1, 50, 97, 98, 99, 100, 101, 102:
    broken(11, "next-%d" % offset, *FIRST, offset, 1, 9, 3, 21)
sound("next-longer", words(*FIRST, 103, 2, 0, 9, 3, 21), (3, 21), {**COUNTS, 103: 0, 104: 9}, 99, 105)
for offset in 0, 96, 98, 99, 100, 102:
    broken(11, "longer-%d" % offset, *FIRST, offset, 4, 0, 9, 1, 0, 4, 22)
# what overlaps is 0
broken(11, "zero-on-count", *FIRST, 102, 1, 0, 2, 12)
broken(11, "count-on-zero", 100, 3, 5, 7, 0, 102, 1, 9, 3, 21)
broken(11, "zero-on-zero", 100, 1, 0, 100, 1, 0, 0, 0)
# the bytes of an offset
for offset in 256, 2 ** 16, 2 ** 24, 2 ** 31, TOP:
    sound("up-to-%d" % offset, words(offset - 1, 1, 5, offset, 1, 6, 2, 11), (2, 11), {offset - 1: 5, offset: 6}, 0, offset - 2, offset + 1)
    broken(11, "down-from-%d" % offset, offset, 1, 5, offset - 1, 1, 6, 2, 11)
# behind the last offset
for offset in 0, 1, 5, TOP - 2, TOP - 1, TOP:
    broken(11, "behind-last-%d" % offset, TOP - 1, 2, 4, 4, offset, 1, 5, 3, 13)
# a third chunk
for offset in 0, 99, 100, 101, 200, 299, 300, 302, 304:
    broken(11, "third-%d" % offset, 100, 1, 1, 300, 5, 2, 2, 2, 2, 2, offset, 1, 3, 7, 14)
for offset in 305, 306, TOP:
    sound("third-%d" % offset, words(100, 1, 1, 300, 5, 2, 2, 2, 2, 2, offset, 1, 3, 7, 14), (7, 14),
          {100: 1, 300: 2, 301: 2, 302: 2, 303: 2, 304: 2, offset: 3}, 99, 101, 299, offset + 1)
sound("touching", words(7, 1, 1, 8, 2, 2, 0, 10, 1, 0, 11, 3, 3, 0, 4, 14, 1, 5, 5, 15), (5, 15),
      {7: 1, 8: 2, 9: 0, 10: 0, 11: 3, 12: 0, 13: 4, 14: 5}, 6, 15)

# ---- zero counts at either end
sound("zero-first", words(10, 3, 0, 3, 4, 2, 7), (2, 7), {10: 0, 11: 3, 12: 4}, 9, 13)
sound("zero-last", words(10, 3, 3, 4, 0, 2, 7), (2, 7), {10: 3, 11: 4, 12: 0}, 9, 13)
sound("zero-ends", words(10, 4, 0, 3, 4, 0, 2, 7), (2, 7), {10: 0, 11: 3, 12: 4, 13: 0}, 9, 14)
sound("zero-but-last", words(10, 3, 0, 0, 5, 1, 5), (1, 5), {10: 0, 11: 0, 12: 5}, 9, 13)
sound("zero-but-first", words(10, 3, 5, 0, 0, 1, 5), (1, 5), {10: 5, 11: 0, 12: 0}, 9, 13)
sound("zero-chunks", words(10, 1, 0, 20, 2, 0, 6, 30, 1, 0, 1, 6), (1, 6), {10: 0, 20: 0, 21: 6, 30: 0}, 9, 11, 19, 22, 29, 31)

# ---- 20 alone, and before 17
WRONG = [(1, 12), (3, 12), (0, 12), (2, 11), (2, 13), (2, 0), (0, 0), (12, 2), (1, 13), (3, 11), (3, 13), (2, 5), (2, 7), (2, TOP), (TOP, 12)]
for k, totals in enumerate(WRONG + [pair for k in (8, 16, 24, 31) for pair in ((2 + 2 ** k, 12), (2, 12 + 2 ** k))]):
    samples = words(*FIRST, *totals)
    refused(20, "totals-%d" % k, samples)
    case("totals-%d" % k, samples, "lookup 99: refused 20; entries 1 2 24: refused 20; entries 1 2 0: refused 20")
for k, totals in enumerate([(1, 0), (0, 1), (1, 1), (3, 0)]):
    refused(20, "zeros-totals-%d" % k, words(100, 3, 0, 0, 0, *totals))
# those of the first chunk, of the second; some of each
for k, totals in enumerate([(2, 12), (1, 9), (2, 21), (3, 12), (3, 9)]):
    refused(20, "next-totals-%d" % k, words(*NEXT, *totals))

# ---- the largest counts and sums; a sum of 2^32 or more is no total, nor is what is left of it
sound("most", words(7, 1, TOP, 1, TOP), (1, TOP), {7: TOP}, 6, 8)
sound("most-less-1", words(7, 1, TOP - 1, 1, TOP - 1), (1, TOP - 1), {7: TOP - 1}, 6, 8)
sound("most-and-zeros", words(7, 3, 0, TOP, 0, 1, TOP), (1, TOP), {7: 0, 8: TOP, 9: 0}, 6, 10)
sound("most-in-halves", words(7, 2, HALF, HALF - 1, 2, TOP), (2, TOP), {7: HALF, 8: HALF - 1}, 6, 9)
sound("most-in-parts", words(7, 2, TOP - 1, 1, 2, TOP), (2, TOP), {7: TOP - 1, 8: 1}, 6, 9)
sound("most-in-chunks", words(7, 1, 1, 9, 1, TOP - 1, 2, TOP), (2, TOP), {7: 1, 9: TOP - 1}, 6, 8, 10)
sound("half", words(7, 1, HALF, 1, HALF), (1, HALF), {7: HALF}, 6, 8)
sound("half-and-1", words(7, 1, HALF + 1, 1, HALF + 1), (1, HALF + 1), {7: HALF + 1}, 6, 8)
for k, (counts, totals) in enumerate([
        ((HALF, HALF), (2, 0)), ((HALF, HALF), (2, TOP)), ((HALF, HALF), (0, 0)), ((HALF, HALF), (2, HALF)), ((TOP, 1), (2, 0)), ((1, TOP), (2, 0)),
        ((TOP, 1), (2, TOP)), ((TOP, 2), (2, 1)), ((TOP, TOP), (2, TOP - 1)), ((TOP, TOP), (2, TOP)), ((HALF, HALF, 5), (3, 5)), ((TOP, TOP, 3), (3, 1)),
        ((TOP, TOP, 2), (3, 0)), ((2 ** 30,) * 4, (4, 0)), ((2 ** 30,) * 5, (5, 2 ** 30)), ((HALF,) * 4, (4, 0))]):
    refused(20, "sum-%d" % k, words(7, len(counts), *counts, *totals), 7)
refused(20, "sum-of-chunks", words(7, 1, TOP, 9, 1, 1, 2, 0), 7)
refused(20, "sum-of-touching", words(7, 1, HALF, 8, 1, HALF, 2, 0), 8)
# as floats: every power of 2, of which the sum is the largest; what a float of 32 bits has no place for
POWERS = [2 ** k for k in range(32)]
sound("powers", words(64, 32, *POWERS, 32, TOP), (32, TOP), dict(zip(range(64, 96), POWERS)), 63, 96)
sound("floats", words(10, 7, 1, 2, 3, 2 ** 24 - 1, 2 ** 24, 2 ** 24 + 1, HALF - 1, 7, 2197815301), (7, 2197815301),
      {10: 1, 11: 2, 12: 3, 13: 16777215, 14: 16777216, 15: 16777217, 16: 2147483647}, 9, 17)

# ---- several at once. Within a chunk 7 before 11
broken(7, "overlap-and-number-0", *FIRST, 102, 0, 2, 12)
broken(7, "overlap-and-number-0-in-the-middle", *FIRST, 102, 0, 200, 1, 9, 3, 21)
broken(7, "overlap-and-offset-only", *FIRST, 102, 2, 12)
broken(7, "overlap-and-no-count", *FIRST, 102, 1, 2, 12)
broken(7, "overlap-and-too-long", *FIRST, 102, 2, 9, 3, 21)
broken(7, "overlap-and-past", TOP - 2, 3, 5, 0, 7, TOP, 2, 9, 9, 4, 30)
broken(7, "falls-and-past", TOP - 2, 3, 5, 0, 7, TOP - 3, 5, 1, 1, 1, 1, 1, 7, 17)
# 7 of a second chunk; of a third, where the second is fine, and where it overlaps: the chunks in order. Their counts are 0 to 2 ones
for name, chunk, n in [
        ("number-0", (200, 0), 0), ("offset-only", (200,), 0), ("no-count", (200, 1), 0), ("too-long", (200, 2, 1), 1), ("past", (TOP, 2, 1, 1), 2)]:
    broken(7, "second-" + name, *FIRST, *chunk, 2 + n, 12 + n)
    broken(7, "third-" + name, *NEXT, *chunk, 3 + n, 21 + n)
    broken(11, "overlap-then-" + name, *FIRST, 102, 1, 9, *chunk, 3 + n, 21 + n)
for n in 1, 2, 3, 5, 6, 7:
    refused(7, "overlap-and-%d-bytes" % n, words(*FIRST) + words(102, 1)[:n] + words(2, 12))
    refused(7, "third-%d-bytes" % n, words(*NEXT) + words(200, 1)[:n] + words(3, 21))
    refused(11, "overlap-then-%d-bytes" % n, words(*FIRST, 102, 1, 9) + words(200, 1)[:n] + words(3, 21))
# the other way round
broken(7, "number-0-then-falls", 100, 0, 50, 1, 9, 1, 9)
broken(7, "number-0-then-overlap", *FIRST, 200, 0, 102, 1, 9, 3, 21)
broken(7, "past-then-falls", TOP, 2, 1, 1, 50, 1, 9, 3, 11)
broken(7, "past-then-overlap", *FIRST, TOP, 2, 1, 1, 102, 1, 9, 5, 23)

# ---- cut at every length from 8 on. What follows a chunk is the next one, and also the totals of all before it
DOUBLED, ENDS = words(0, 1, 1, 1, 1, 1, 2, 2, 1, 1, 4, 4, 1, 1, 1, 1, 8, 8), {20: 1, 32: 2, 48: 4, 72: 8}
for size in range(8, len(DOUBLED) + 1):
    if size in ENDS:
        n = ENDS[size]
        sound("doubled-%d" % size, DOUBLED[:size], (n, n), dict.fromkeys(range(n), 1), n, 9, 2 ** 32)
    else:
        refused(7 if size > 8 else 20, "doubled-%d" % size, DOUBLED[:size], 0)
# at every length, where the second chunk overlaps
OVERLAP = words(100, 2, 1, 2, 101, 1, 4, 300, 1, 5, 4, 12)
for size in range(len(OVERLAP) + 1):
    refused(1 if size < 8 else 20 if size in (8, 24) else 7 if size < 36 else 11, "overlap-%d" % size, OVERLAP[:size])

# ---- a long chunk: 1, 11, 21, ... and zeros between them; many chunks of one count, the last of them moved, without a count
LONG = words(5000, 3000, *(0 if i % 10 else i + 1 for i in range(3000)), 300, 448800)
case("long", LONG, "totals: totals 300 448800; lookup 5000: found 1; lookup 5001: found 0; lookup 5010: found 11; lookup 6280: found 1281")
case("long", LONG, "lookup 7989: found 0; lookup 7990: found 2991; lookup 7991: found 0; lookup 7999: found 0; lookup 8000: absent; lookup 4999: absent")
case("long", LONG, "lookup 3000: absent; lookup 0: absent; lookup 4294972296: absent; entries 1 2 24: refused 17")
case("long", LONG, "entries 7 8 7207: listed 300", counts={5000 + i: i + 1 for i in range(0, 3000, 10)})
MANY = [n for k in range(120) for n in (10 * k, 1, k)]
sound("many", words(*MANY, 119, 7140), (119, 7140), {10 * k: k for k in range(120)}, 1, 5, 9, 11, 641, 1189, 1191, 1199, 1200)
broken(11, "many-last", *MANY[:-3], 1180, 1, 119, 119, 7140)
broken(7, "many-last-0", *MANY[:-2], 0, 118, 7021)

# ---- at random, from few counts; many chunks touch
dice = Dice(20260606)
for i in range(8):
    truth, numbers, at = {}, [], (0, 1, dice.below(2 ** 31), TOP - 60)[i % 4]
    for _ in range(2 + dice.below(5)):
        at += dice.below(3)
        own = [dice.of((0, 1, dice.below(9), dice.below(2 ** 26))) for _ in range(1 + dice.below(6))]
        numbers += [at, len(own)] + own
        truth.update(zip(range(at, at + len(own)), own))
        at += len(own)
    totals = sum(count > 0 for count in truth.values()), sum(truth.values())
    gaps = sorted(set(range(max(0, min(truth) - 1), at + 2)) - set(truth))
    sound("random-%d" % i, words(*numbers, *totals), totals, truth, *gaps)


def shown(name, question, known, some):
    """The answer, and of entries the lent bytes, in rows of an entry's size, each with its place."""
    kind, *asked = question.split()
    asked = list(map(int, asked))
    if kind != "entries":
        said = {"totals": dcpi_totals, "lookup": dcpi_lookup}[kind](files[name], *asked)
        assert known == " ".join(map(str, said)), (name, question, known, said)
        return known + "\n"
    profile, metric, size = asked
    assert size <= LENT
    lent = bytearray(BEFORE * size)
    said = dcpi_entries(files[name], profile, metric, lent)
    assert known == " ".join(map(str, said)), (name, question, known, said)
    listed = b"".join(entry(profile, metric, *pair) for pair in some) if said[0] == "listed" else b""
    assert lent == listed + BEFORE * (size - len(listed)), (name, question)
    return known + "\n" + "".join("%d %s\n" % (at, lent[at:at + 24].hex()) for at in range(0, size, 24))


if __name__ == "__main__":
    text, list_ = "", ""
    for name, question, known, some in cases:
        list_ += name + " " + question + "\n"
        text += "== " + name + " " + question + "\n" + shown(name, question, known, some)
    assert len(list_) <= 60000 and len(set(list_.split("\n"))) == len(cases) + 1
    os.makedirs(os.path.join(HERE, "data"), exist_ok=True)
    for old in os.listdir(os.path.join(HERE, "data")):
        os.remove(os.path.join(HERE, "data", old))
    for name, samples in files.items():
        with open(os.path.join(HERE, "data", name), "wb") as f:
            f.write(samples)
    with open(os.path.join(HERE, "data", "list"), "w") as f:
        f.write(list_)
    with open(os.path.join(HERE, "stdout"), "w") as f:
        f.write(text)
    print("%d files of %d bytes, %d cases" % (len(files), sum(map(len, files.values())), len(cases)))
