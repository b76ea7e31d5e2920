"""Writes the files that crates/open_cases opens, and what it is to print, by the Python reader of tools/hpcdb.py."""
import os
from hpcdb import *

HERE = os.path.join(os.path.dirname(os.path.abspath(__file__)), "..", "crates", "open_cases")
W = w()
cases = []


def case(kind, name, file):
    cases.append((kind, "%s-%s.db" % (kind, name), file))


def meta(name, *edits):
    f = W
    for at, data in edits:
        f = poke(f, at, data)
    case("meta", name, f)


# entries of the header: size, then place 8 bytes on
GENERAL, NAMES, METRICS, CONTEXT, STRINGS, MODULES, FILES, FUNCTIONS = range(16, 144, 16)

# ---- sound
meta("w")
SMALL = poke(poke(bytes(175), 0, front("meta", [(144, 16), (152, 9), (152, 15), (144, 16), (0, 0), (152, 14), (152, 14), (152, 14)])), 164, bytes([24, 24, 16]))
case("meta", "smallest", poke(SMALL, 167, b"_meta.db"))
meta("minor-255", (15, b"\xff"))
meta("count-0-wild-pointer", (312, u(8, END - 1)))
meta("strings-0-wild-pointer", (STRINGS + 8, u(8, END - 1)))
meta("strings-odd", (STRINGS, u(8, 3) + u(8, 161)))
meta("overlap", (FILES, u(8, 14) + u(8, 312)))
meta("no-roots", (200, u(8, 0) + u(8, 0)))
# two modules of stride 24: the section is moved to the end and holds both
TWO = poke(W[:358] + bytes(2), MODULES, u(8, 64) + u(8, 360)) + array(376, 2, 24, 2) + bytes(2 + 48) + b"_meta.db"
case("meta", "two-modules", TWO)


def single(kind, stride, count=0, place=0, bytes_=b"", size=None):
    head = front(kind, [(HEADER[kind], 13 + len(bytes_) if size is None else size)] + [(0, 0)] * (kind == "profile"))
    return head + array(place, count, stride, 1) + bytes_ + (FOOTER[kind] or b"anything")


LEAST = {"profile": 40, "cct": 32, "trace": 24}
for kind, least in LEAST.items():
    case(kind, "smallest", single(kind, least))
    from_ = HEADER[kind] + 16
    case(kind, "one", single(kind, least, 1, from_, bytes(3 + least)))
    case(kind, "wide-stride", single(kind, least + 8, 1, from_, bytes(3 + least + 8)))
case("profile", "tuples-0-wild-pointer", poke(single("profile", 40), 40, u(8, END - 8)))
case("trace", "last-eight-zero", single("trace", 24)[:-8] + bytes(8))
case("trace", "last-eight-footer-of-meta", single("trace", 24)[:-8] + b"_meta.db")

# ---- 1 to 4
case("meta", "empty", b"")
case("meta", "cut-in-header", W[:100])
case("meta", "header-and-seven", W[:151])
case("meta", "one-byte-short", W[:-1])
meta("magic-last-byte", (13, b"b"))
meta("magic-of-profile", (0, MAGIC["profile"]))
meta("version-3", (14, b"\x03"))
meta("version-5", (14, b"\x05"))
meta("footer", (365, b"c"))
for kind, least in LEAST.items():
    case(kind, "empty", b"")
    case(kind, "header-and-seven", single(kind, least)[:HEADER[kind] + 7])
    case(kind, "magic-of-meta", poke(single(kind, least), 0, MAGIC["meta"]))
    case(kind, "version-0", poke(single(kind, least), 14, b"\x00"))
for kind in ("profile", "cct"):
    case(kind, "footer", single(kind, LEAST[kind])[:-1] + b"c")
    case(kind, "one-byte-short", single(kind, LEAST[kind])[:-1])
# no footer tells a trace.db that lost a byte: its section now reaches into the last eight
case("trace", "one-byte-short", single("trace", 24)[:-1])

# ---- 5
meta("section-too-small", (GENERAL, u(8, 15)))
meta("section-size-0", (FUNCTIONS, u(8, 0)))
meta("section-past-end", (FUNCTIONS, u(8, 15)))
meta("section-off-multiple", (GENERAL + 8, u(8, 148)))
meta("section-before-header-end", (GENERAL + 8, u(8, 136)))
meta("section-past-2-64", (GENERAL, u(8, END - 144)))
meta("section-wraps-into-file", (CONTEXT, u(8, END - 8) + u(8, 208)))
meta("strings-in-header", (STRINGS, u(8, 1) + u(8, 143)))
meta("strings-in-footer", (STRINGS, u(8, 1) + u(8, 358)))
case("profile", "tuples-past-end", poke(single("profile", 40), 32, u(8, 8) + u(8, 56)))
case("profile", "tuples-off-multiple", poke(single("profile", 40), 32, u(8, 1) + u(8, 52)))
case("cct", "section-too-small", single("cct", 32, size=12))
case("trace", "section-past-end", single("trace", 24, size=14))

# ---- 6, all with count 0
meta("metric-stride-16", (196, bytes([16])))
meta("metric-stride-28", (196, bytes([28])))
meta("scope-stride-16", (197, bytes([16])))
meta("summary-stride-8", (198, bytes([8])))
meta("summary-stride-20", (198, bytes([20])))
meta("module-stride-8", (324, u(2, 8)))
meta("file-stride-12", (340, u(2, 12)))
meta("function-stride-32", (356, u(2, 32)))
meta("function-stride-65535", (356, u(2, 65535)))
for kind, least in LEAST.items():
    case(kind, "stride-below", single(kind, least - 8))
    case(kind, "stride-above-no-multiple", single(kind, least + 4))
case("profile", "stride-16", single("profile", 16))

# ---- 7
meta("names-past-section", (168, u(8, 184)), (176, bytes([1])))
meta("names-before-header-end", (NAMES, u(8, 32)), (168, u(8, 176)), (176, bytes([1])))
meta("metrics-past-section", (184, u(8, 200)), (192, u(4, 1)))
meta("modules-off-multiple", (MODULES, u(8, 46)), (312, u(8, 332)), (320, u(4, 1)))
meta("modules-one-too-many", (MODULES, u(8, 46)), (312, u(8, 328)), (320, u(4, 2)))
meta("modules-past-2-64", (312, u(8, END - 16)), (320, u(4, 21)))
meta("modules-count-all-ones", (312, u(8, 328)), (320, u(4, 2 ** 32 - 1)), (324, u(2, 65528)))
meta("roots-place-no-size", (200, u(8, 0)))
meta("roots-size-no-place", (208, u(8, 0)))
meta("roots-off-multiple", (208, u(8, 220)))
meta("roots-before-header-end", (208, u(8, 208)))
meta("roots-past-section", (200, u(8, 97)))
meta("roots-past-2-64", (200, u(8, END - 216 + 48)))
for kind, least in LEAST.items():
    from_ = HEADER[kind] + 16
    case(kind, "array-past-section", single(kind, least, 1, from_, bytes(2 + least)))
    case(kind, "array-before-header-end", single(kind, least, 1, from_ - 8, bytes(3 + least)))
    case(kind, "array-past-2-64", single(kind, least, 2, END - least, bytes(3 + least)))

# ---- two rules broken: the first in order answers
meta("two-magic-version", (13, b"b"), (14, b"\x03"))
meta("two-version-footer", (14, b"\x03"), (365, b"c"))
meta("two-footer-section", (365, b"c"), (GENERAL, u(8, 15)))
meta("two-section-stride", (FUNCTIONS, u(8, 13)), (196, bytes([16])))
meta("two-stride-array-in-one-header", (184, u(8, 200)), (192, u(4, 1)), (198, bytes([8])))
meta("two-names-array-metrics-stride", (168, u(8, 184)), (176, bytes([1])), (196, bytes([16])))
meta("two-roots-modules-stride", (208, u(8, 220)), (324, u(2, 8)))
meta("two-metrics-stride-roots", (196, bytes([16])), (208, u(8, 220)))
case("profile", "two-tuples-stride", poke(single("profile", 16), 32, u(8, 1) + u(8, 52)))
case("cct", "two-short-magic", MAGIC["meta"])


def line(kind, name, file):
    n, pairs = opening(kind, file)
    return "%s %d%s\n" % (name, n, "".join("  %d %d" % p for p in pairs))


if __name__ == "__main__":
    os.makedirs(os.path.join(HERE, "data"), exist_ok=True)
    for old in os.listdir(os.path.join(HERE, "data")):
        os.remove(os.path.join(HERE, "data", old))
    for kind, name, file in cases:
        with open(os.path.join(HERE, "data", name), "wb") as f:
            f.write(file)
    with open(os.path.join(HERE, "stdout"), "w") as f:
        f.write("".join(line(*c) for c in cases))
    with open(os.path.join(HERE, "data", "list"), "w") as f:
        f.write("".join(c[1] + "\n" for c in cases))
