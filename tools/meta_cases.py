"""Writes the files that crates/meta_cases reads, and what it is to print, by the Python reader of tools/hpcdb.py. Next to each file with
other strings stand lines that the rules give it, written by hand."""
import os
from hpcdb import *

HERE = os.path.join(os.path.dirname(os.path.abspath(__file__)), "..", "crates", "meta_cases")
# what the program hands in for a function without a name: no UTF-8
PLACEHOLDER = b"\xff"


def place_strings(texts, at):
    """The bytes of some strings from a place on, and the place of each."""
    places, data = [], b""
    for t in texts:
        places.append(at + len(data))
        data += t + b"\0"
    return places, data


def sample():
    """A sound meta.db: two kinds, two metrics with scopes and summaries, strides above the least, two modules, files and functions,
    of which one has no name. P has the place of each thing."""
    P = {}
    f = bytearray(144)

    def pad():
        while len(f) % 8:
            f.append(0)

    def put(name, data):
        P[name] = len(f)
        f.extend(data)
    # General
    pad()
    P["general"] = at = len(f)
    places, data = place_strings([b"survey of a solver", b"# two ranks"], at + 16)
    f.extend(u(8, places[0]) + u(8, places[1]) + data)
    P["general-size"] = len(f) - at
    # IdNames: header, array at 16, strings
    pad()
    P["names"] = at = len(f)
    places, data = place_strings([b"NODE", b"RANK"], at + 32)
    f.extend(u(8, at + 16) + bytes([2]) + bytes(7) + u(8, places[0]) + u(8, places[1]) + data)
    P["names-size"] = len(f) - at
    # Metrics: two of 32 bytes; three scopes of 40 bytes; three summaries of 24 bytes; strings
    pad()
    P["metrics"] = at = len(f)
    metrics, scopes = at + 16, at + 16 + 2 * 32
    summaries = scopes + 3 * 40
    places, data = place_strings([b"cycles", b"gpu time", b"point", b"execution", b"function", b"$$", b"($$^2)", b"1"], summaries + 3 * 24)
    f.extend(u(8, metrics) + u(4, 2) + bytes([32, 40, 24]) + bytes(1))
    f.extend(u(8, places[0]) + u(2, 2) + bytes(6) + u(8, scopes) + bytes(8))
    f.extend(u(8, places[1]) + u(2, 1) + bytes(6) + u(8, scopes + 80) + bytes(8))
    f.extend(u(8, places[2]) + u(2, 2) + u(2, 7) + bytes(4) + u(8, summaries) + bytes(16))
    f.extend(u(8, places[3]) + u(2, 0) + u(2, 65535) + bytes(4) + u(8, END - 1) + bytes(16))
    f.extend(u(8, places[4]) + u(2, 1) + u(2, 9) + bytes(4) + u(8, summaries + 48) + bytes(16))
    f.extend(u(8, places[5]) + bytes([0, 0]) + u(2, 20) + bytes(12))
    f.extend(u(8, places[6]) + bytes([2, 0]) + u(2, 21) + bytes(12))
    f.extend(u(8, places[7]) + bytes([200, 0]) + u(2, 65535) + bytes(12))
    P.update(metric=metrics, scope=scopes, summary=summaries)
    f.extend(data)
    P["metrics-size"] = len(f) - at
    # Context: none
    pad()
    put("context", bytes(16))
    # Strings, at an odd place
    f.append(7)
    P["strings"] = at = len(f)
    places, data = place_strings([b"/lib/libsolver.so", b"/bin/app", b"src/solve.c", b"src/main.c", b"solve", b""], at)
    f.extend(data)
    P["strings-size"] = len(f) - at
    # Modules: stride 24; Files: stride 16; Functions: stride 48
    pad()
    P["modules"] = at = len(f)
    P["module"] = at + 16
    f.extend(array(at + 16, 2, 24, 2) + bytes(2) + u(8, 1) + u(8, places[0]) + bytes(8) + u(8, 0) + u(8, places[1]) + bytes(8))
    P["modules-size"] = len(f) - at
    P["files"] = at = len(f)
    P["file"] = at + 16
    f.extend(array(at + 16, 2, 16, 2) + bytes(2) + u(4, 1) + u(4, 0) + u(8, places[2]) + u(4, 0xfffffffe) + u(4, 0) + u(8, places[3]))
    P["files-size"] = len(f) - at
    P["functions"] = at = len(f)
    P["function"] = at + 16
    f.extend(array(at + 16, 2, 48, 2) + bytes(2))
    f.extend(u(8, places[4]) + u(8, P["module"] + 24) + u(8, END - 1) + u(8, P["file"]) + u(4, 42) + u(4, 99) + bytes(8))
    f.extend(u(8, 0) + u(8, P["module"]) + u(8, 0x1000) + u(8, 0) + u(4, 0) + u(4, 0) + bytes(8))
    P["functions-size"] = len(f) - at
    f.extend(b"_meta.db")
    order = [("general", P["general-size"]), ("names", P["names-size"]), ("metrics", P["metrics-size"]), ("context", 16), ("strings", P["strings-size"]),
             ("modules", P["modules-size"]), ("files", P["files-size"]), ("functions", P["functions-size"])]
    f[:144] = front("meta", [(P[n], size) for n, size in order])
    return bytes(f), P


S, P = sample()
cases = []


def case(name, *edits, gives=()):
    """gives: of some lines the words up to the answer's number, and the string."""
    f = S
    for at, data in edits:
        f = poke(f, at, data)
    cases.append((name + ".db", f, gives))


STRINGS_END = P["strings"] + P["strings-size"]
METRICS_END = P["metrics"] + P["metrics-size"]
case("sound")
# 15 stands at the end of every array of every file
# 7: an inner array past the section, before its header's end, off its multiple
case("scopes-past-section", (P["metric"] + 16, u(8, METRICS_END // 8 * 8 - 40)))
case("scopes-count-too-large", (P["metric"] + 8, u(2, 65535)))
case("scopes-before-header-end", (P["metric"] + 16, u(8, P["metrics"] + 8)))
case("scopes-off-multiple", (P["metric"] + 16, u(8, P["scope"] + 4)))
case("scopes-past-2-64", (P["metric"] + 16, u(8, END - 40)))
case("summaries-past-section", (P["scope"] + 16, u(8, METRICS_END // 8 * 8)))
case("summaries-off-multiple", (P["scope"] + 16, u(8, P["summary"] + 2)))
# 8 at each level
case("title-outside", (P["general"], u(8, P["names"])))
case("title-one-past-section", (P["general"], u(8, P["general"] + P["general-size"])))
case("description-no-nul", (P["general"] + P["general-size"] - 1, b"!"))
case("kind-name-no-nul", (P["names"] + P["names-size"] - 1, b"!"))
case("kind-name-outside", (P["names"] + 16, u(8, P["strings"])))
case("metric-name-outside", (P["metric"], u(8, 0)))
case("scope-name-past-2-63", (P["scope"], u(8, END - 1)))
case("summary-formula-outside", (P["summary"], u(8, P["metrics"] - 1)))
case("module-path-outside", (P["module"] + 8, u(8, STRINGS_END)))
case("file-path-before-section", (P["file"] + 8, u(8, P["strings"] - 1)))
case("last-string-no-nul", (STRINGS_END - 1, b"!"), (P["function"], u(8, STRINGS_END - 1)))
case("function-name-outside", (P["function"], u(8, P["general"] + 16)))
case("empty-strings", (80, u(8, 0) + u(8, END - 1)))
# 9
case("module-link-between", (P["function"] + 8, u(8, P["module"] + 8)))
case("module-link-past-last", (P["function"] + 8, u(8, P["module"] + 48)))
case("module-link-before-first", (P["function"] + 8, u(8, P["module"] - 24)))
case("file-link-to-a-module", (P["function"] + 24, u(8, P["module"])))
case("file-link-between", (P["function"] + 24, u(8, P["file"] + 8)))
case("all-links-0", (P["function"] + 48 + 8, u(8, 0)))
case("only-a-name", (P["function"] + 8, u(8, 0)), (P["function"] + 24, u(8, 0)))
case("module-link-to-empty-array", (P["modules"] + 8, u(4, 0)))
# two at once
case("two-link-and-name", (P["function"], u(8, 1)), (P["function"] + 8, u(8, P["module"] + 1)))
case("two-array-and-string-of-metric", (P["metric"], u(8, 0)), (P["metric"] + 16, u(8, P["scope"] + 4)))
case("two-outer-string-and-inner-array", (P["metric"], u(8, 0)), (P["scope"] + 16, u(8, P["summary"] + 2)))
case("two-scope-string-and-summary-string", (P["scope"], u(8, 0)), (P["summary"], u(8, 0)))
case("two-opening-and-string", (P["metrics"] + 13, bytes([20])), (P["general"], u(8, 0)))
# where the first string of each sort lies, by the words that its line begins with
TEXT = {words: number(S, at, 8) for words, at in (
    ("title", P["general"]), ("description", P["general"] + 8), ("kind 0", P["names"] + 16), ("module 0", P["module"] + 8),
    ("source 0", P["file"] + 8), ("function 0", P["function"]),
    ("metric 0", P["metric"]), ("scope 0 0", P["scope"]), ("summary 0 0 0", P["summary"]))}
# UTF-8: the first and the last character of two, three and four bytes, those beside the surrogates, a byte order mark; no character at all
SPELLED = (
    ("title", b"\xc3\xa9", "\u00e9rvey of a solver"),
    ("description", b"\xef\xbb\xbf", "\ufeffwo ranks"),
    ("kind 0", b"\xf4\x8f\xbf\xbf", "\U0010ffff"),
    ("module 0", b"\xc2\x80\xdf\xbf\xe0\xa0\x80", "\u0080\u07ff\u0800bsolver.so"),
    ("source 0", b"\xed\x9f\xbf\xee\x80\x80", "\ud7ff\ue000lve.c"),
    ("function 0", b"\xf0\x90\x80\x80", "\U00010000e"),
    ("metric 0", b"\xef\xbf\xbf", "\uffffles"),
    ("scope 0 0", b"\xe2\x82\xac\xc3\xa9", "\u20ac\u00e9"),
    ("summary 0 0 0", b"\xc3\xa9", "\u00e9"))
case("utf-8", *[(TEXT[words], data) for words, data, _ in SPELLED], gives=[(words + " 0", text) for words, _, text in SPELLED])
case("utf-8-no-character", *[(at, b"\0") for at in TEXT.values()], gives=[(words + " 0", "") for words in TEXT])
# 19 at each of the nine strings, a Latin-1 letter; what stands beside it or below it is handed back
for words, beside in (
        ("title", ("description 0", "# two ranks")), ("description", ("title 0", "survey of a solver")), ("kind 0", ("kind 1 0", "RANK")),
        ("module 0", ("module 1 0", "/bin/app")), ("source 0", ("source 1 0", "src/main.c")), ("function 0", ("function 1 0", PLACEHOLDER)),
        ("metric 0", ("scope 0 0 0", "point")), ("scope 0 0", ("summary 0 0 0 0", "$$")), ("summary 0 0 0", ("summary 0 0 1 0", "($$^2)"))):
    case("latin-1-" + words.replace(" ", "-"), (TEXT[words], b"\xe9"), gives=[(words + " 19", ""), beside])
case("latin-1-last-byte", (S.index(b"\0", TEXT["module 0"]) - 1, b"\xe9"), gives=[("module 0 19", "")])
# 19: longer than need be, surrogates, above 10FFFF, bytes of no character, characters that the NUL or the next one cuts
for data in (b"\xc0\xaf", b"\xc1\xbf", b"\xe0\x9f\xbf", b"\xf0\x8f\xbf\xbf", b"\xed\xa0\x80", b"\xed\xbf\xbf", b"\xf4\x90\x80\x80",
             b"\xf5\x80\x80\x80", b"\xff", b"\x80", b"\xc3\xa9\xa9", b"\xc3\0", b"\xe2\x82\0", b"\xf0\x9f\x98\0", b"\xe2\x82\xc3\xa9"):
    case("spelling-" + data.hex("-"), (TEXT["module 0"], data), gives=[("module 0 19", "")])
case("spelling-within-a-character", (TEXT["module 0"], b"\xc3\xa9"), (P["module"] + 8, u(8, TEXT["module 0"] + 1)), gives=[("module 0 19", "")])
# 19 and what comes before it
case("two-spelling-and-no-nul", (STRINGS_END - 1, b"\xe9"), (P["function"], u(8, STRINGS_END - 1)), gives=[("function 0 8", "")])
case("two-spelling-and-no-nul-of-description", (TEXT["description"], b"\xe9"), (P["general"] + P["general-size"] - 1, b"!"),
     gives=[("description 8", "")])
case("two-spelling-and-link", (TEXT["function 0"], b"\xe9"), (P["function"] + 8, u(8, P["module"] + 1)), gives=[("function 0 9", "")])
case("two-spelling-and-array-of-metric", (TEXT["metric 0"], b"\xe9"), (P["metric"] + 16, u(8, P["scope"] + 4)),
     gives=[("metric 0 7", ""), ("scope 0 0 7", "")])
case("two-spelling-and-array-of-scope", (TEXT["scope 0 0"], b"\xe9"), (P["scope"] + 16, u(8, P["summary"] + 2)),
     gives=[("metric 0 0", "cycles"), ("scope 0 0 7", ""), ("summary 0 0 0 7", "")])
case("two-spelling-of-metric-and-scope", (TEXT["metric 0"], b"\xe9"), (TEXT["scope 0 0"], b"\xe9"),
     gives=[("metric 0 19", ""), ("scope 0 0 19", ""), ("summary 0 0 0 0", "$$")])
case("two-string-of-metric-and-spelling-of-scope", (P["metric"], u(8, 0)), (TEXT["scope 0 0"], b"\xe9"),
     gives=[("metric 0 8", ""), ("scope 0 0 19", "")])
# it does not open
case("footer", (len(S) - 1, b"!"))
cases.append(("empty.db", b"", ()))
cases.append(("cut.db", S[:len(S) // 2], ()))


def show(file):
    """The lines of one file, as bytes."""
    out = []

    def line(*words):
        *numbers, text = words
        out.append(b" ".join([w if isinstance(w, bytes) else b"%d" % w for w in numbers]) + b" " + text + b"\n")
    line(b"title", *answer(0, lambda: general(file, 0)))
    line(b"description", *answer(0, lambda: general(file, 8)))
    code, *counts = answer(4, lambda: (names_array(file)[1], metrics_array(file)[1]) + tuple(stored(file, k)[1] for k in (5, 6, 7)))
    counts = [c or 0 for c in counts]
    out.append(b" ".join([b"counts", b"%d" % code] + [b"%d" % c for c in counts]) + b"\n")
    for i in range(counts[0] + 1):
        line(b"kind", i, *answer(0, lambda: kind(file, i)))
    for i in range(counts[2] + 1):
        line(b"module", i, *answer(0, lambda: module(file, i)))
    for i in range(counts[3] + 1):
        line(b"source", i, *answer(1, lambda: source(file, i)))
    for i in range(counts[4] + 1):
        *numbers, name = answer(4, lambda: function(file, i))
        which = 100 if name is None else numbers[0]
        line(b"function", i, *numbers, which, PLACEHOLDER if name is None else name)
    for m in range(counts[1] + 1):
        code, n, name = answer(1, lambda: metric(file, m))
        line(b"metric", m, code, n, name)
        for s in range(n + 1):
            code, n2, prop, name = answer(2, lambda: scope(file, m, s))
            line(b"scope", m, s, code, n2, prop, name)
            for k in range(n2 + 1):
                line(b"summary", m, s, k, *answer(2, lambda: summary(file, m, s, k)))
    return b"".join(out)


def is_given(words, text, lines):
    begin, end = (words + " ").encode(), b" " + (text if isinstance(text, bytes) else text.encode())
    return any(line.startswith(begin) and line.endswith(end) for line in lines)


if __name__ == "__main__":
    printed = b""
    for name, file, gives in cases:
        lines = show(file)
        for words, text in gives:
            assert is_given(words, text, lines.split(b"\n")), (name, words, text)
        printed += b"file " + name.encode() + b"\n" + lines
    os.makedirs(os.path.join(HERE, "data"), exist_ok=True)
    for old in os.listdir(os.path.join(HERE, "data")):
        os.remove(os.path.join(HERE, "data", old))
    for name, file, _ in cases:
        with open(os.path.join(HERE, "data", name), "wb") as f:
            f.write(file)
    with open(os.path.join(HERE, "data", "list"), "w") as f:
        f.write("".join(name + "\n" for name, _, _ in cases))
    with open(os.path.join(HERE, "stdout"), "wb") as f:
        f.write(printed)
