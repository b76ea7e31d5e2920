"""HPCToolkit 4.0 files and DCPI samples for the tests, built and opened in Python: written from the formats' descriptions alone, apart from
the Rattle code, so that the two can be compared."""
import struct

END = 2 ** 64


def u(width, n):
    return (n % (1 << (8 * width))).to_bytes(width, "little")


def poke(file, at, data):
    return file[:at] + data + file[at + len(data):]


def number(file, at, width):
    return int.from_bytes(file[at:at + width], "little")


class Dice:
    """Numbers that look like chance, the same in every run"""
    def __init__(self, seed):
        self.state = seed

    def below(self, n):
        self.state = (self.state * 6364136223846793005 + 1442695040888963407) % END
        return (self.state >> 33) % n

    def of(self, choices):
        return choices[self.below(len(choices))]

    def mix(self, items):
        items = list(items)
        for i in range(len(items) - 1, 0, -1):
            j = self.below(i + 1)
            items[i], items[j] = items[j], items[i]
        return items

    def bits(self):
        return self.below(2 ** 31) << 33 ^ self.below(2 ** 31) << 15 ^ self.below(2 ** 15)


MAGIC = {"meta": b"HPCTOOLKITmeta", "profile": b"HPCTOOLKITprof", "cct": b"HPCTOOLKITctxt", "trace": b"HPCTOOLKITtrce"}
FOOTER = {"meta": b"_meta.db", "profile": b"_prof.db", "cct": b"__ctx.db", "trace": None}
HEADER = {"meta": 144, "profile": 48, "cct": 32, "trace": 32}


def front(kind, sections, version=(4, 0)):
    """The header: magic, version, and (size, place) of each section."""
    return MAGIC[kind] + bytes(version) + b"".join(u(8, size) + u(8, place) for place, size in sections)


def context(children, ctx, kind, relation, flags=0, flex=()):
    place, size = children
    return u(8, size) + u(8, place) + u(4, ctx) + bytes([flags, relation, kind, len(flex)]) + b"".join(u(8, w) for w in flex)


def array(place, count, stride, width):
    return u(8, place) + u(4, count) + u(width, stride)


def w():
    """File W."""
    f = bytearray(366)

    def at(place, data):
        f[place:place + len(data)] = data
    at(0, front("meta", [(144, 18), (168, 9), (184, 15), (200, 112), (0, 0), (312, 14), (328, 14), (344, 14)]))
    at(144, u(8, 160) + u(8, 161) + b"T")
    at(184, u(8, 0) + u(4, 0) + bytes([24, 24, 16]))
    at(200, u(8, 48) + u(8, 216))
    at(216, context((264, 48), 1, 0, 1))
    at(240, context((0, 0), 4, 0, 1))
    at(264, context((0, 0), 2, 1, 0))
    at(288, context((0, 0), 3, 2, 0))
    at(312, array(0, 0, 16, 2))
    at(328, array(0, 0, 16, 2))
    at(344, array(0, 0, 40, 2))
    at(358, b"_meta.db")
    return bytes(f)


# ---- opening, section by section as the description has it: (least size, alignment, strides, content)
ARRAY8 = lambda least: (13, 8, [(12, 1, least)], ("array", (8, 4), (12, 1)))
ARRAY16 = lambda least: (14, 8, [(12, 2, least)], ("array", (8, 4), (12, 2)))
SECTIONS = {
    "meta": [
        (16, 8, [], None),
        (9, 8, [], ("array", (8, 1), 8)),
        (15, 8, [(12, 1, 24), (13, 1, 24), (14, 1, 16)], ("array", (8, 4), (12, 1))),
        (16, 8, [], ("roots",)),
        (0, 1, [], None),
        ARRAY16(16), ARRAY16(16), ARRAY16(40)],
    "profile": [ARRAY8(40), (0, 8, [], None)],
    "cct": [ARRAY8(32)],
    "trace": [ARRAY8(24)],
}


def in_tree(section, place, size):
    """The range rule of roots and children."""
    if place == 0 or size == 0:
        return place == size
    return place % 8 == 0 and section[0] + 16 <= place and place + size <= section[0] + section[1]


def content_kept(file, place, size, least, content):
    if content is None:
        return True
    if content[0] == "roots":
        return in_tree((place, size), number(file, place + 8, 8), number(file, place, 8))
    p, n = number(file, place, 8), number(file, place + content[1][0], content[1][1])
    stride = content[2] if isinstance(content[2], int) else number(file, place + content[2][0], content[2][1])
    return n == 0 or (p % 8 == 0 and place + least <= p and p + n * stride <= place + size)


def opening(kind, file):
    """(number, pairs): 0 and the pairs of place and size, or the refusal's number and pairs of 0."""
    rows = SECTIONS[kind]
    none = [(0, 0)] * len(rows)
    if len(file) < HEADER[kind] + 8:
        return 1, none
    if file[:14] != MAGIC[kind]:
        return 2, none
    if file[14] != 4:
        return 3, none
    if FOOTER[kind] is not None and file[-8:] != FOOTER[kind]:
        return 4, none
    pairs = []
    for k in range(len(rows)):
        size, place = struct.unpack_from("<QQ", file, 16 + 16 * k)
        pairs.append((place if size else 0, size))
    for (least, align, _, _), (place, size) in zip(rows, pairs):
        if size < least:
            return 5, none
        if size and not (HEADER[kind] <= place and place + size <= len(file) - 8 and place % align == 0):
            return 5, none
    for (least, _, strides, content), (place, size) in zip(rows, pairs):
        for at, width, low in strides:
            n = number(file, place + at, width)
            if n < low or n % 8:
                return 6, none
        if not content_kept(file, place, size, least, content):
            return 7, none
    return 0, pairs


# ---- all of meta.db but its contexts. Answers are (number, values..., bytes); after a refusal values are 0 and there are no bytes
class Refused(Exception):
    pass


def sections_of(file, kind="meta"):
    n, pairs = opening(kind, file)
    if n:
        raise Refused(n)
    return pairs


# RFC 3629, section 4: the forms of a character, each with the ranges of its bytes
TAIL = (0x80, 0xBF)
UTF8_CHAR = (
    ((0x00, 0x7F),),
    ((0xC2, 0xDF), TAIL),
    ((0xE0, 0xE0), (0xA0, 0xBF), TAIL),
    ((0xE1, 0xEC), TAIL, TAIL),
    ((0xED, 0xED), (0x80, 0x9F), TAIL),
    ((0xEE, 0xEF), TAIL, TAIL),
    ((0xF0, 0xF0), (0x90, 0xBF), TAIL, TAIL),
    ((0xF1, 0xF3), TAIL, TAIL, TAIL),
    ((0xF4, 0xF4), (0x80, 0x8F), TAIL, TAIL))


def starts_with(data, form):
    return len(data) >= len(form) and all(low <= byte <= high for byte, (low, high) in zip(data, form))


def is_utf8(data):
    while data:
        form = next((form for form in UTF8_CHAR if starts_with(data, form)), None)
        if form is None:
            return False
        data = data[len(form):]
    return True


def string(file, section, place):
    start, size = section
    if not start <= place < start + size:
        raise Refused(8)
    end = file.find(b"\0", place, start + size)
    if end < 0:
        raise Refused(8)
    if not is_utf8(file[place:end]):
        raise Refused(19)
    return file[place:end]


def stored(file, k, count=(8, 4), stride=(12, 2)):
    """(place, count, stride) of section k's array"""
    at = sections_of(file)[k][0]
    return number(file, at, 8), number(file, at + count[0], count[1]), stride if isinstance(stride, int) else number(file, at + stride[0], stride[1])


def names_array(file):
    return stored(file, 1, (8, 1), 8)


def metrics_array(file):
    return stored(file, 2, (8, 4), (12, 1))


def nth(a, i):
    if i >= a[1]:
        raise Refused(15)
    return a[0] + i * a[2]


def is_link(a, place):
    return any(place == a[0] + i * a[2] for i in range(a[1]))


def answer(values, read):
    """What read() gives, or the refusal with as many zeros."""
    try:
        return (0,) + read()
    except Refused as r:
        return (r.args[0],) + (0,) * values + (b"",)


def general(file, offset):
    s = sections_of(file)[0]
    return (string(file, s, number(file, s[0] + offset, 8)),)


def kind(file, i):
    return (string(file, sections_of(file)[1], number(file, nth(names_array(file), i), 8)),)


def module(file, i):
    return (string(file, sections_of(file)[4], number(file, nth(stored(file, 5), i) + 8, 8)),)


def source(file, i):
    at = nth(stored(file, 6), i)
    path = string(file, sections_of(file)[4], number(file, at + 8, 8))
    return (number(file, at, 4) & 1, path)


def function(file, i):
    """Module, offset, file, line; the name, or None."""
    at = nth(stored(file, 7), i)
    name, image, offset, src, line = (number(file, at + o, w) for o, w in ((0, 8), (8, 8), (16, 8), (24, 8), (32, 4)))
    if not (name or image or src):
        raise Refused(9)
    if image and not is_link(stored(file, 5), image) or src and not is_link(stored(file, 6), src):
        raise Refused(9)
    return image, offset, src, line, string(file, sections_of(file)[4], name) if name else None


def nested(file, outer, i, stride_at):
    """Element i of an array in Metrics, and the array that it leads to."""
    place, size = sections_of(file)[2]
    at = nth(outer, i)
    inner = number(file, at + 16, 8), number(file, at + 8, 2), number(file, place + stride_at, 1)
    if inner[1] and not (inner[0] % 8 == 0 and place + 15 <= inner[0] and inner[0] + inner[1] * inner[2] <= place + size):
        raise Refused(7)
    return at, inner


def metric(file, m):
    at, scopes = nested(file, metrics_array(file), m, 13)
    return scopes[1], string(file, sections_of(file)[2], number(file, at, 8))


def scope_place(file, m, s):
    return nested(file, nested(file, metrics_array(file), m, 13)[1], s, 14)


def scope(file, m, s):
    at, summaries = scope_place(file, m, s)
    return summaries[1], number(file, at + 10, 2), string(file, sections_of(file)[2], number(file, at, 8))


def summary(file, m, s, k):
    at = nth(scope_place(file, m, s)[1], k)
    return number(file, at + 8, 1), number(file, at + 10, 2), string(file, sections_of(file)[2], number(file, at, 8))


# ---- the context tree. Function, file, line, module, offset: the bit of flags that says they are there, and the bytes read of their word
FLEX = ((1, 8), (2, 8), (2, 4), (4, 8), (4, 8))


def trail(file, slots):
    """The record of each context of the trail, in order; ends, or raises Refused."""
    section = sections_of(file)[3]
    modules, sources, functions = (stored(file, k) for k in (5, 6, 7))
    taken = set()

    def contexts(at, size, depth, parent):
        end = at + size
        while at < end:
            if at + 24 > end:
                raise Refused(10)
            below, children, ctx, flags, relation, lexical, words = struct.unpack_from("<QQIBBBB", file, at)
            after = at + 24 + 8 * words
            used, flex = 0, []
            for bit, width in FLEX:
                flex.append(number(file, at + 24 + 8 * used, width) if flags & bit else 0)
                used += 1 if flags & bit else 0
            if after > end or words < used:
                raise Refused(10)
            for bit, link, a in ((1, flex[0], functions), (2, flex[1], sources), (4, flex[3], modules)):
                if flags & bit and (link == 0 or not is_link(a, link)):
                    raise Refused(9)
            if not in_tree(section, children, below):
                raise Refused(7)
            if depth > 200:
                raise Refused(12)
            if ctx >= slots:
                raise Refused(13)
            if ctx in taken:
                raise Refused(14)
            taken.add(ctx)
            yield [at, depth, ctx, relation, lexical, flags % 8] + flex + [parent]
            yield from contexts(children, below, depth + 1, at)
            at = after
    yield from contexts(number(file, section[0] + 8, 8), number(file, section[0], 8), 1, 0)


def walk(file, room, slots):
    """(end, listed): ("whole",), ("cut",) or ("refused", number), and the records listed: place, depth, ctxId, relation, lexicalType,
    flags mod 8, function, file, line, module, offset, the parent's place or 0."""
    listed = []
    try:
        for record in trail(file, slots):
            if len(listed) == room:
                return ("cut",), listed
            listed.append(record)
    except Refused as r:
        return ("refused", r.args[0]), listed
    return ("whole",), listed


# ---- going on from a mark. A context's path has its number among its siblings, from 0, and before it that of each context above it
MARK_ROOM = 805


def mark_of(path):
    return u(2, 5 + 4 * len(path)) + u(2, 1) + u(1, len(path)) + b"".join(u(4, n) for n in path)


def path_of(mark):
    """The path that a mark names; no bytes at all name none, as a mark of depth 0 does."""
    if not mark:
        return []
    if len(mark) < 5 or not len(mark) == number(mark, 0, 2) == 5 + 4 * mark[4] or number(mark, 2, 2) != 1 or mark[4] > 200:
        raise Refused(18)
    return [number(mark, at, 4) for at in range(5, len(mark), 4)]


def trail_with_paths(file, slots):
    """The path and the record of each context of the trail, and the trail's end: ("whole",) or ("refused", number)"""
    met, path = [], []
    try:
        for record in trail(file, slots):
            level = record[1] - 1
            path = path[:level] + [path[level] + 1 if level < len(path) else 0]
            met.append((path, record))
    except Refused as r:
        return met, ("refused", r.args[0])
    return met, ("whole",)


def walk_from(file, mark, asks, listing, table, records, new_mark):
    """The end, as walk has it, and the number listed. The lists of words and the bytearray new_mark are left as the walk leaves them."""
    if asks and len(new_mark) < MARK_ROOM:
        return ("refused", 17), 0
    try:
        sections_of(file)
        given = path_of(mark)
    except Refused as r:
        return ("refused", r.args[0]), 0
    met, end = trail_with_paths(file, len(table))
    table[:] = [0] * len(table)
    paths = [[]] + [path for path, _ in met]
    if given not in paths:
        return ("refused", 18) if end == ("whole",) else end, 0
    passed = paths.index(given)
    listed = min(len(met) - passed, len(listing))
    for i, (_, record) in enumerate(met[:passed + listed]):
        table[record[2]] = record[0]
        if i >= passed:
            listing[i - passed] = record[0]
            own = slice((i - passed) * len(record), (i - passed + 1) * len(record))
            records[own] = record if own.stop <= len(records) else records[own]
    if asks:
        new = mark_of(paths[passed + listed])
        new_mark[:len(new)] = new
    return ("cut",) if passed + listed < len(met) else end, listed


# ---- sparse blocks. Of each file: the bytes of an index's id, as of the count of indices; the bytes of a value's id; the least value's id
BLOCKS = {"profile": (4, 2, 0), "cct": (2, 4, 1)}


def double(bits):
    return struct.unpack("<d", u(8, bits))[0]


def bits_of(x):
    return number(struct.pack("<d", x), 0, 8)


def in_common(a, b):
    """Whether two ranges, each a place and a size, share a byte."""
    return max(a[0], b[0]) < min(a[0] + a[1], b[0] + b[1])


def rising(numbers):
    return all(a < b for a, b in zip(numbers, numbers[1:]))


def elements_of(kind, file):
    """The sections, and (place, count, stride) of the array in the first of them; not for meta.db."""
    sections = sections_of(file, kind)
    info = sections[0][0]
    return sections, (number(file, info, 8), number(file, info + 8, 4), number(file, info + 12, 1))


def block(kind, file, i):
    """The sub-arrays of block i by their index's id, each a list of (id, bits)."""
    sections, elements = elements_of(kind, file)
    at = nth(elements, i)
    outer, inner, least = BLOCKS[kind]
    amount, count = number(file, at, 8), number(file, at + 16, outer)
    values, indices = (number(file, at + 8, 8), amount * (inner + 8)), (number(file, at + 24, 8), count * (outer + 8))
    if count == 0 and amount == 0:
        return {}
    if count == 0 or amount == 0 or values[0] % 2 or indices[0] % 4 or values[0] + values[1] > indices[0]:
        raise Refused(7)
    for part in values, indices:
        if part[0] < HEADER[kind] or part[0] + part[1] > len(file) - 8 or any(in_common(part, s) for s in sections):
            raise Refused(7)
    ids, starts = [], []
    for at in range(indices[0], sum(indices), outer + 8):
        ids.append(number(file, at, outer))
        starts.append(number(file, at + outer, 8))
    if starts[0] or not rising(starts + [amount]) or not rising(ids):
        raise Refused(11)
    found = {}
    for name, start, end in zip(ids, starts, starts[1:] + [amount]):
        places = [values[0] + k * (inner + 8) for k in range(start, end)]
        found[name] = [(number(file, p, inner), number(file, p + inner, 8)) for p in places]
        if not rising([least - 1] + [n for n, _ in found[name]]):
            raise Refused(11)
    return found


def lookup(kind, file, i, outer, inner):
    try:
        sub = block(kind, file, i).get(outer, [])
    except Refused as r:
        return "refused", r.args[0]
    for name, bits in sub:
        if name == inner:
            return "found", bits
    return ("absent",)


def profile_lookup(file, profile, context, metric):
    """("found", bits), ("absent",) or ("refused", number)"""
    return lookup("profile", file, profile, context, metric)


def cct_lookup(file, profile, context, metric):
    return lookup("cct", file, context, metric, profile)


def cct_totals(file, context, metric):
    """("totals", count, profile and bits of the smallest, of the greatest, bits of the sum), ("absent",) or ("refused", number)"""
    try:
        sub = block("cct", file, context).get(metric)
    except Refused as r:
        return "refused", r.args[0]
    if sub is None:
        return ("absent",)
    numbers = [double(bits) for _, bits in sub]
    if not all(float("-inf") < x < float("inf") for x in numbers):
        return "refused", 16
    low = high = 0
    total = numbers[0]
    for k in range(1, len(numbers)):
        low = k if numbers[k] < numbers[low] else low
        high = k if numbers[k] > numbers[high] else high
        total = total + numbers[k]
    return ("totals", len(sub)) + sub[low] + sub[high] + (bits_of(total),)


# ---- counts, tuples and trace lines. Answers are a word and its numbers, ("absent",) or ("refused", number)
def told(read):
    """The same reader, with a refusal as an answer"""
    def telling(*asked):
        try:
            return read(*asked)
        except Refused as r:
            return "refused", r.args[0]
    return telling


@told
def profile_count(file):
    return "count", elements_of("profile", file)[1][1]


@told
def cct_count(file):
    return "count", elements_of("cct", file)[1][1]


@told
def trace_count(file):
    return "count", elements_of("trace", file)[1][1]


def identifications(file, p):
    """(place, count, stride) of those in profile p's tuple"""
    sections, profiles = elements_of("profile", file)
    at = number(file, nth(profiles, p) + 32, 8)
    start, end = sections[1][0], sum(sections[1])
    if at % 8 or at < start or at + 8 > end or at + 8 + 16 * number(file, at, 2) > end:
        raise Refused(7)
    return at + 8, number(file, at, 2), 16


@told
def tuple_of(file, p):
    return "tuple", identifications(file, p)[1]


@told
def identifier(file, p, k):
    """Kind, all 16 flags, logicalId, physicalId"""
    return ("identifier",) + struct.unpack_from("<BxHIQ", file, nth(identifications(file, p), k))


def samples_of(file, i):
    """profIdx of line i, and its samples: (timestamp, ctxId)"""
    sections, headers = elements_of("trace", file)
    profile, start, end = struct.unpack_from("<I4xQQ", file, nth(headers, i))
    if start % 8 or end % 4 or start > end or (end - start) % 12:
        raise Refused(7)
    if start < HEADER["trace"] or end > len(file) - 8 or in_common((start, end - start), sections[0]):
        raise Refused(7)
    samples = list(struct.iter_unpack("<QI", file[start:end]))
    if any(later < time for (time, _), (later, _) in zip(samples, samples[1:])):
        raise Refused(11)
    return profile, samples


@told
def trace_line(file, i):
    """profIdx, and the number of samples"""
    profile, samples = samples_of(file, i)
    return "line", profile, len(samples)


@told
def trace_sample(file, i, k):
    samples = samples_of(file, i)[1]
    return ("sample", k) + samples[nth((0, len(samples), 1), k)]


@told
def trace_at(file, i, t):
    """The last sample not later than t"""
    found = ("absent",)
    for k, sample in enumerate(samples_of(file, i)[1]):
        if sample[0] <= t:
            found = ("sample", k) + sample
    return found


# ---- the hot path
@told
def hot_path(file, profile_db, profile, metric, listing, table, hot):
    """How many places it has. The lists of words are left as the search leaves them."""
    end, _ = walk_from(file, b"", False, listing, table, [], bytearray())
    if end != ("whole",):
        raise Refused(17 if end == ("cut",) else end[1])
    values = block("profile", profile_db, profile)
    contexts = walk(file, len(listing), len(table))[1]
    path, above = [], 0
    while True:
        # those with a value, in stored order
        there = [(double(bits), c[0]) for c in contexts if c[11] == above for name, bits in values.get(c[2], []) if name == metric]
        if not there:
            break
        if not all(float("-inf") < value < float("inf") for value, _ in there):
            raise Refused(16)
        greatest = max(value for value, _ in there)
        above = [place for value, place in there if value == greatest][0]
        path.append(above)
    if len(path) > len(hot):
        raise Refused(17)
    hot[:len(path)] = path
    return "path", len(path)


# ---- writing a profile.db
def pieces(data, size):
    """Those that are whole"""
    return [data[at:at + size] for at in range(0, len(data) - size + 1, size)]


def profile_block(rows, place):
    """The header and the bytes of a block that is to stand at a place. A row is context, metric and bits."""
    if not rows:
        return bytes(32), b""
    contexts = [context for context, _, _ in rows]
    values = b"".join(u(2, metric) + u(8, bits) for _, metric, bits in rows)
    values += bytes(-len(values) % 4)
    indices = b"".join(u(4, context) + u(8, contexts.index(context)) for context in sorted(set(contexts)))
    return u(8, len(rows)) + u(8, place) + u(4, len(set(contexts))) + bytes(4) + u(8, place + len(values)), values + indices


def write_profile(profiles, tuples, identifiers, entries, room):
    """The file that the lists make, as they are lent: numbers, numbers, bytes, bytes; `room` bytes are lent for it."""
    ids, rows = pieces(identifiers, 16), [struct.unpack("<IIH6xQ", entry) for entry in pieces(entries, 24)]
    if sum(tuples) > len(ids) or any(t >= len(tuples) for t in profiles) or any(row[0] >= len(profiles) for row in rows):
        raise Refused(15)
    if not rising([row[:3] for row in rows]):
        raise Refused(11)
    of_profile = [[row[1:] for row in rows if row[0] == p] for p in range(len(profiles))]
    contexts = max((len({row[0] for row in own}) for own in of_profile), default=0)
    if len(profiles) >= 2 ** 32 or max(tuples, default=0) >= 2 ** 16 or contexts >= 2 ** 32:
        raise Refused(7)
    base = 64 + 40 * len(profiles)
    section, places = b"", []
    for count in tuples:
        places.append(base + len(section))
        section += u(2, count) + bytes(6) + b"".join(one[:1] + b"\0" + one[2:] for one in ids[:count])
        ids = ids[count:]
    infos, blocks = b"", b""
    for own, t in zip(of_profile, profiles):
        header, data = profile_block(own, base + len(section) + len(blocks))
        infos, blocks = infos + header + u(8, places[t]), blocks + data
    file = front("profile", [(48, 16 + len(infos)), (base if section else 0, len(section))])
    file += array(64 if profiles else 0, len(profiles), 40, 1) + bytes(3) + infos + section + blocks + FOOTER["profile"]
    if len(file) > room:
        raise Refused(17)
    return file


# ---- DCPI samples. Answers are as those of counts, tuples and trace lines
def dcpi_chunks(body):
    """Each chunk, as pairs of an offset and its count"""
    while body:
        offset, size = number(body, 0, 4), number(body, 4, 4)
        counts, body = body[8:8 + 4 * size], body[8 + 4 * size:]
        if size == 0 or len(counts) < 4 * size or offset + size > 2 ** 32:
            raise Refused(7)
        yield [(offset + i, count) for i, (count,) in enumerate(struct.iter_unpack("<I", counts))]


def dcpi_counts(samples):
    """All counts by their offsets, which rise"""
    if len(samples) < 8:
        raise Refused(1)
    pairs = []
    for chunk in dcpi_chunks(samples[:-8]):
        pairs += chunk
        if not rising([offset for offset, _ in pairs]):
            raise Refused(11)
    some = [count for _, count in pairs if count]
    if struct.unpack("<II", samples[-8:]) != (len(some), sum(some)):
        raise Refused(20)
    return dict(pairs)


@told
def dcpi_totals(samples):
    some = [count for count in dcpi_counts(samples).values() if count]
    return "totals", len(some), sum(some)


@told
def dcpi_lookup(samples, offset):
    counts = dcpi_counts(samples)
    return ("found", counts[offset]) if offset in counts else ("absent",)


@told
def dcpi_entries(samples, profile, metric, lent):
    """The bytearray `lent` is left as the listing leaves it."""
    listed = [struct.pack("<IIH6xd", profile, offset, metric, count) for offset, count in dcpi_counts(samples).items() if count]
    if len(listed) > len(pieces(lent, 24)):
        raise Refused(17)
    lent[:24 * len(listed)] = b"".join(listed)
    return "listed", len(listed)
