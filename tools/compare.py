#!/usr/bin/env python3
"""Compares the program mixlist with the naive reference, and the reference
with the sheet of small records.

    python3 tools/compare.py path/to/mixlist

Four parts, all made from one fixed seed: (a) the sheet, the widths under it
and the examples of the refusals against reference.py, and method 6, lost
hours and the marked sheet against other descriptions of them; (b) made inputs run
through mixlist, once per input, and its output compared byte for byte with
the reference's; (c) inputs around the longest one, read by mixlist from a
file and from a pipe that delivers them in pieces; (d) series of feeds, saves,
loads and changes of method in the reference against a whole search of the
joined text.  Prints how many agreed and every difference; the exit status is
1 if there is any.
"""

import fcntl
import itertools
import random
import struct
import subprocess
import sys
import tempfile
import termios
import time

sys.dont_write_bytecode = True

import reference as ref

SEED = 20260101
METHODS = (1, 2, 3, 4, 5, 6)
ORDERS = list(itertools.permutations((1, 2, 3, 4)))


def around_difference(one, other):
    """Two printed values, the long ones cut to where they first differ."""
    at = 0
    while at < min(len(one), len(other)) and one[at] == other[at]:
        at += 1
    start = at - 100 if at > 400 else 0
    cut = []
    for value in (one, other):
        part = value[start : at + 400]
        cut.append(("... " if start else "") + part + (" ..." if at + 400 < len(value) else ""))
    return cut


class Tally:
    def __init__(self, name):
        self.name = name
        self.agreed = 0
        self.differences = 0

    def same(self, what, seen, expected):
        if seen == expected:
            self.agreed += 1
        else:
            self.differences += 1
            print("DIFFERENCE %s: %s" % (self.name, what))
            seen, expected = around_difference(repr(seen), repr(expected))
            print("  seen     " + seen)
            print("  expected " + expected)

    def guarded(self, what, action, *arguments):
        """Runs a check; a failed assertion inside is a difference too."""
        try:
            action(self, *arguments)
        except AssertionError as failure:
            self.differences += 1
            print("DIFFERENCE %s: %s: assertion: %s" % (self.name, what, failure))

    def report(self, seconds):
        print(
            "%s: %d agreed, %d differences, %.1f s"
            % (self.name, self.agreed, self.differences, seconds)
        )


# --- (a) The sheet, the widths, the examples --------------------------------

# Pattern, k, text, positions, looks by method.  The sheet is older than method 6,
# whose looks were worked out by hand.
SHEET = [
    (b"ab", 0, b"aab", [1], {1: 3, 5: 3, 2: 4, 3: 4, 4: 4, 6: 8}),
    (b"abc", 0, b"abcxxxabc", [0, 6], {1: 9, 2: 9, 3: 13, 6: 15}),
    (b"aabb", 1, b"axbb", [0], {4: 4}),
    (b"aabb", 1, b"xxbb", [], {4: 4}),
    (b"a", 0, b"aba", [0, 2], {3: 3, 6: 5}),
    (b"ab", 0, b"a", [], {1: 0, 2: 0, 3: 0, 4: 0, 5: 0, 6: 0}),
    (b"ab", 0, b"xb", [], {5: 2, 6: 2}),
    (b"accgta", 0, b"ccgatacgcattgac", [0, 1, 3, 4, 5], {1: 15, 6: 120}),
]


def letters(count):
    """That many different bytes, none of them a newline."""
    return bytes(range(65, 65 + count))


def check_sheet(tally):
    for pattern, k, text, positions, looks in SHEET:
        row = "%r, %d, %r" % (pattern, k, text)
        tally.same(row + " listed", ref.listed_positions(pattern, k, text), positions)
        for method in METHODS:
            places = [77] * (len(text) + 2)
            refusal, found, seen = ref.whole_search(pattern, k, method, text, places)
            what = "%s method %d" % (row, method)
            if k > 0 and method in (2, 3, 5, 6):
                tally.same(what, (refusal, found, seen), (4, 0, 0))
                tally.same(what + " list", places, [77] * (len(text) + 2))
                continue
            tally.same(what + " refusal", refusal, 0)
            tally.same(
                what + " list",
                places,
                positions + [77] * (len(text) + 2 - len(positions)),
            )
            tally.same(what + " found", found, len(positions))
            if method in looks:
                tally.same(what + " looks", seen, looks[method])


def check_widths(tally):
    def bits(what, pattern, k, method, expected):
        tally.same(what + " bits", ref.bits_needed(pattern, k, method), expected)
        tally.same(
            what + " refusal",
            ref.open_search(pattern, k, method)[0],
            5 if expected > 64 else 0,
        )

    bits("31 letters, method 2", letters(31), 0, 2, 63)
    bits("31 letters, method 3", letters(31), 0, 3, 64)
    bits("32 letters, method 2", letters(32), 0, 2, 65)
    bits("15 letters, k 3, method 4", letters(15), 3, 4, 64)
    bits("16 letters, k 3, method 4", letters(16), 3, 4, 68)
    for method, expected in ((2, 64), (3, 65), (4, 86)):
        bits("21 letters thrice, method %d" % method, letters(21) * 3, 0, method, expected)
    bits("20 letters thrice and one, method 3", letters(20) * 3 + b"x", 0, 3, 64)
    bits("20 letters thrice and two, method 2", letters(20) * 3 + b"xy", 0, 2, 65)
    for q, exact in ((10, True), (11, False)):
        pattern = letters(q) + letters(1) * (63 - q)
        what = "m 63, %d letters, method 5" % q
        tally.same(what + " exact", ref.heap_is_exact(pattern), exact)
        text = pattern + pattern[:1]
        places = [0] * len(text)
        tally.same(
            what + " answer",
            ref.whole_search(pattern, 0, 5, text, places),
            (0, 2, 64 + (0 if exact else 2 * 63)),
        )
    # Each lg with the first and the last v that has it.
    for first, last, e in (
        (0, 1, 0), (2, 2, 1), (3, 4, 2), (5, 8, 3), (9, 16, 4), (17, 32, 5), (33, 64, 6),
    ):
        for v in range(first, last + 1):
            tally.same("lg(%d)" % v, ref.lg(v), e)
    # Each width with the fewest and the most of a letter that it is for.
    for least, most, g in (
        (1, 1, 2), (2, 3, 3), (4, 7, 4), (8, 15, 5), (16, 31, 6), (32, 63, 7), (64, 64, 8),
    ):
        for v in (least, most):
            tally.same("width of a letter that comes %d times" % v, ref.own_width(v), g)


def check_examples(tally):
    fresh = ref.open_search(b"ab", 0, 2)[1]
    image = bytes.fromhex("04 010200 020200 030400 040000 6162 0002 00000000")
    tally.same("image of a fresh search", ref.image_of(fresh), image)
    tally.same("load of that image", ref.load(image), (0, fresh))
    tally.same(
        "mixlist example",
        ref.program_output(b"2 0 abc\nabcxxxabc\n"),
        b"mix abc method 2 k 0\n0\n6\nfound 2 looks 9\n",
    )
    tally.same(
        "mixlist, method 6",
        ref.program_output(b"6 0 abc\nabcxxxabc\n"),
        b"mix abc method 6 k 0\n0\n6\nfound 2 looks 15\n",
    )
    tally.same("1", ref.open_search(b"", 0, 1), (1, ref.BLANK))
    tally.same("2", ref.open_search(b"ab", 2, 1), (2, ref.BLANK))
    tally.same("3", ref.open_search(b"ab", 0, 7), (3, ref.BLANK))
    tally.same("4", ref.open_search(b"ab", 1, 2), (4, ref.BLANK))
    tally.same("4, method 6", ref.open_search(b"ab", 1, 6), (4, ref.BLANK))
    tally.same("64 letters, method 6", ref.open_search(letters(64), 0, 6)[0], 0)
    tally.same("5", ref.open_search(letters(32), 0, 2), (5, ref.BLANK))
    tally.same("13", ref.open_search(b"a-", 0, 1), (13, ref.BLANK))
    tally.same("13, program", ref.program_output(b"1 2 a-\na\n"), b"refused 13\n")
    places = [7] * 65537
    tally.same(
        "6, whole search",
        ref.whole_search(b"a", 0, 1, b"a" * 65537, places),
        (6, 0, 0),
    )
    tally.same("6, list", places, [7] * 65537)
    start = ref.open_search(b"a", 0, 1)[1]
    tally.same("6, feed", ref.feed(start, b"a" * 65537, places), (6, 0, 0, start))
    tally.same("7", ref.feed(start, b"aaa", [5, 5]), (7, 0, 0, start))
    last = ref.Search(b"a", 0, 1, 4294967295, b"")
    tally.same("8, load", ref.load(ref.image_of(last)), (0, last))
    tally.same("8", ref.feed(last, b"a", [5]), (8, 0, 0, last))
    tally.same("8, empty chunk", ref.feed(last, b"", []), (0, 0, 0, last))
    near = ref.Search(b"aab", 1, 4, 4294967290, b"ab")
    for size in range(8):
        places = [3] * 9
        refusal, found, looks, after = ref.feed(near, (b"aabaabaa")[:size], places)
        tally.same("8, %d bytes more" % size, refusal, 8 if size > 5 else 0)
        if not refusal:
            tally.same(
                "positions near the largest total",
                places,
                list(range(4294967288, 4294967288 + size)) + [3] * (9 - size),
            )
            tally.same("total", after.n, 4294967290 + size)
    tally.same("9", ref.load(b"\x04"), (9, ref.BLANK))
    for what, wrong, number in (
        ("pattern of 65", ref.Search(b"a" * 65, 65, 7, 9, b""), 1),
        ("no pattern", ref.BLANK, 1),
        ("65 with a lost hour", ref.Search(b"a" * 64 + b"-", 65, 7, 9, b""), 1),
        ("a lost hour", ref.Search(b"a-", 0, 1, 9, b"a"), 13),
        ("a lost hour, k of m", ref.Search(b"-b", 2, 7, 9, b""), 13),
        ("a lost hour, 65 bits", ref.Search(letters(31) + b"-", 0, 2, 9, b""), 13),
        ("k of m", ref.Search(b"ab", 2, 7, 9, b""), 2),
        ("k of m, method 6", ref.Search(b"ab", 2, 6, 9, b""), 2),
        ("method 0", ref.Search(b"ab", 1, 0, 9, b""), 3),
        ("method 7", ref.Search(b"ab", 1, 7, 9, b""), 3),
        ("k with pairs", ref.Search(b"ab", 1, 3, 9, b""), 4),
        ("k with method 6", ref.Search(b"ab", 1, 6, 9, b""), 4),
        ("65 bits", ref.Search(letters(32), 0, 2, 9, b""), 5),
        ("tail too short", ref.Search(b"ab", 1, 4, 9, b""), 9),
        ("tail too long", ref.Search(b"ab", 1, 4, 9, b"ab"), 9),
        ("tail longer than the text", ref.Search(b"ab", 1, 4, 0, b"a"), 9),
    ):
        tally.same(what + ", load", ref.load(ref.image_of(wrong)), (number, ref.BLANK))
        tally.same(what + ", feed", ref.feed(wrong, b"aa", [5]), (number, 0, 0, wrong))
        tally.same(what + ", set method", ref.set_method(wrong, 7), (number, wrong))
        tally.same(what + ", save", ref.save(wrong, bytearray(3)), (number, 0, wrong))
    short = bytearray(b"\xee" * 19)
    tally.same("10", ref.save(start, short), (10, 0, start))
    tally.same("10, buffer", short, bytearray(b"\xee" * 19))
    room = bytearray(b"\xee" * 22)
    tally.same("20 bytes", ref.save(start, room), (0, 20, start))
    tally.same("20 bytes, rest", bytes(room[20:]), b"\xee\xee")
    tally.same("11", ref.program_output(b"abc"), b"refused 11\n")


def windows_of_method_6(pattern, text):
    """Each window that method 6 comes to, with the offset in it of the last reading
    that the pattern lacks, which is None if there is none.  A lost hour isn't one."""
    m, s = len(pattern), 0
    known = set(pattern) | {ref.LOST}
    while s + m <= len(text):
        lacking = max((j for j in range(m) if text[s + j] not in known), default=None)
        yield s, lacking
        s += 1 if lacking is None else lacking + 1


def looks_of_method_6(pattern, text):
    m = len(pattern)
    return sum(2 * m if at is None else m - at for _, at in windows_of_method_6(pattern, text))


def taken_from(window, pattern):
    """Whether the readings of a window but for its lost hours are some of the
    pattern's, which makes it a match for k = 0."""
    left = list(pattern)
    for c in window:
        if c != ref.LOST:
            if c not in left:
                return False
            left.remove(c)
    return True


def check_method_6(tally, rng):
    """Against the other description of it, on texts of which few readings, about
    half and all are the pattern's."""
    for number in range(1500):
        m = rng.choice((1, 2, 3, 4, 5, 8, 16, 63, 64))
        pattern = make_pattern(rng, m, rng.choice((1, 2, 3, 64)))
        others = (pattern, pattern + bytes(range(m)), bytes(range(256)))[number % 3]
        text = bytes(rng.choice(others) for _ in range(rng.randrange(3 * m + 9)))
        text += shuffled(rng, pattern)[: rng.randrange(m + 1)]
        positions, looks = ref.steps_exact_backward(pattern, 0, text)
        verified = [s for s, at in windows_of_method_6(pattern, text) if at is None]
        matching = [s for s in verified if taken_from(text[s : s + m], pattern)]
        what = "method 6 of %r, text %r" % (pattern, text)
        tally.same(what, (positions, looks), (matching, looks_of_method_6(pattern, text)))


def stop_of(window, pattern, k, method):
    """The offset at which methods 2, 3 and 4 leave a window, None if they don't: the
    first, from the right, from which on the window has an excess above k.  Pairs are
    asked at the left one of two only, and at offset 0."""
    m = len(window)
    asked = range(m - 1, -1, -1)
    if method == 3:
        asked = [at for at in asked if (m - at) % 2 == 0 or at == 0]
    return next((at for at in asked if ref.excess(window[at:], pattern) > k), None)


def windows_of(pattern, k, method, text):
    """Each window that a method comes to, with the offset at which it is left early,
    None if it isn't."""
    m, s = len(pattern), 0
    if method == 6:
        yield from windows_of_method_6(pattern, text)
        return
    while s + m <= len(text):
        stop = stop_of(text[s : s + m], pattern, k, method) if method in (2, 3, 4) else None
        yield s, stop
        s += 1 if stop is None else stop + 1


def candidates(pattern, text):
    """The windows whose sum of heap values, modulo 2^64, is the pattern's."""
    m = len(pattern)
    value = {c: (m + 1) ** i for i, c in enumerate(sorted(set(pattern)))}
    sums = [sum(value.get(c, 0) for c in text[s : s + m]) for s in range(len(text) - m + 1)]
    own = sum(value[c] for c in pattern)
    return [s for s, total in enumerate(sums) if (total - own) % 2**64 == 0]


def looks_of(pattern, k, method, text):
    """By the windows that the method comes to, and those that it verifies."""
    m, n = len(pattern), len(text)
    if method in (1, 5):
        lost = {s for s in range(n - m + 1) if ref.LOST in text[s : s + m]}
        equal = set() if ref.heap_is_exact(pattern) else set(candidates(pattern, text))
        return (n if n >= m else 0) + (m * len(lost | equal) if method == 5 else 0)
    if method == 6:
        return looks_of_method_6(pattern, text)
    return sum(m - (stop or 0) for _, stop in windows_of(pattern, k, method, text))


# Pattern, k, text with lost hours, positions, looks by method, worked out by hand.
LOST_HOURS = [
    (b"abc", 0, b"a-c", [0], {1: 3, 2: 3, 3: 3, 4: 3, 5: 6, 6: 6}),
    (b"ab", 0, b"--", [0], {1: 2, 2: 2, 3: 2, 4: 2, 5: 4, 6: 4}),
    (b"ab", 0, b"-xb", [], {1: 3, 2: 1, 3: 4, 4: 1, 5: 5, 6: 1}),
    (b"ab", 0, b"b-ba", [0, 1, 2], {1: 4, 2: 6, 3: 6, 4: 6, 5: 8, 6: 12}),
    (b"aab", 0, b"-bb-", [], {1: 4, 2: 2, 3: 2, 4: 2, 5: 10, 6: 12}),
    (b"aabb", 1, b"-xxb", [], {1: 4, 4: 3}),
    (b"aabb", 1, b"b-xb", [0], {1: 4, 4: 4}),
    (b"a", 0, b"-", [0], {1: 1, 2: 1, 3: 1, 4: 1, 5: 2, 6: 2}),
]


def check_lost_hours(tally, rng):
    """By hand; that the excess of a right part never shrinks when a reading joins it
    on the left, and grows by none that is lost; every method against the other
    descriptions, on texts with few lost hours, with many, and of hardly anything
    else."""
    for pattern, k, text, positions, looks in LOST_HOURS:
        for method in looks:
            places = [77] * (len(text) + 1)
            seen = ref.whole_search(pattern, k, method, text, places)
            what = "%r in %r, k %d, method %d" % (pattern, text, k, method)
            tally.same(what, seen, (0, len(positions), looks[method]))
            tally.same(what + ", list", places[: len(positions)], positions)
    for number in range(1500):
        m = rng.choice((1, 2, 3, 4, 5, 8, 23, 31))
        pattern = make_pattern(rng, m, rng.choice((1, 2, 3, 64)))
        k = rng.choice((0, rng.randrange(m)))
        text = make_text(rng, pattern, k, rng.randrange(3 * m + 9))
        text = lost_in(rng, text, (0.05, 0.3, 0.9)[number % 3])
        for at in range(len(text)):
            grown = ref.excess(text[at:], pattern) - ref.excess(text[at + 1 :], pattern)
            allowed = (0,) if text[at] == ref.LOST else (0, 1)
            tally.same("excess of %r from %d on, %r" % (text, at, pattern), grown in allowed, True)
        for method in METHODS:
            if ref.refuse_terms(pattern, k, method):
                continue
            positions, looks = ref.by_steps(pattern, k, method, text)
            windows = windows_of(pattern, k, method, text)
            passed = [s for s, stop in windows if stop is None]
            if k == 0:
                passed = [s for s in passed if taken_from(text[s : s + m], pattern)]
            elif method == 1:
                passed = ref.listed_positions(pattern, k, text)
            what = "method %d of %r, k %d, text %r" % (method, pattern, k, text)
            tally.same(what, (positions, looks), (passed, looks_of(pattern, k, method, text)))


def image_in_order(search, order):
    """The bytes that would hold a search in another order of the kinds."""
    bodies = dict(enumerate(ref.bodies_of(search), 1))
    said = [bytes([kind]) + len(bodies[kind]).to_bytes(2, "little") for kind in order]
    return bytes([4]) + b"".join(said) + b"".join(bodies[kind] for kind in order)


def loads_in_every_order(tally, search):
    """One order is taken, of a search that save accepts."""
    for order in ORDERS:
        wanted = (0, search) if order == (1, 2, 3, 4) else (9, ref.BLANK)
        tally.same("load in order %r" % (order,), ref.load(image_in_order(search, order)), wanted)


def check_images(tally, rng):
    """Whatever is accepted after a change of one byte is saved as it was changed;
    images are equal exactly when the searches are."""
    bases = ref.Search(b"a", 0, 1, 0, b""), ref.Search(b"abca", 1, 4, 9, b"bca")
    for base in bases:
        image = ref.image_of(base)
        loads_in_every_order(tally, base)
        tally.same("one byte short", ref.load(image[:-1]), (9, ref.BLANK))
        tally.same("one byte more", ref.load(image + b"\0"), (9, ref.BLANK))
        for at in range(len(image)):
            for byte in range(256):
                changed = image[:at] + bytes([byte]) + image[at + 1 :]
                refusal, search = ref.load(changed)
                if refusal:
                    tally.same("refused load", search, ref.BLANK)
                else:
                    tally.same("saved again", ref.image_of(search), changed)
    some = set(bases)
    for _ in range(150):
        m = rng.randrange(1, 4)
        pattern = bytes(rng.choice(b"ab") for _ in range(m))
        n = rng.choice((0, 1, 2, 258, 65536))
        tail = bytes(rng.choice(b"ab") for _ in range(min(n, m - 1)))
        some.add(ref.Search(pattern, rng.randrange(m), rng.choice((1, 4)), n, tail))
    for one, other in itertools.product(some, some):
        alike = ref.image_of(one) == ref.image_of(other)
        tally.same("equal images of %r and %r" % (one, other), alike, one == other)


# Pattern, k, text, and the marked sheet without its blanks on the right.
MARKED = [
    (b"abc", 0, b"abcxxxabc", [b"         0 abc", b"         6 abc"]),
    (b"\n ", 0, b"a \n!\n \x0c", [b"         1 ..", b"         4 .."]),
    (b"~a", 1, b"..~\x7f", [b"         1 .~", b"         2 ~."]),
    (b"+", 0, b"0123456789+", [b"        10 +"]),
    (b"abc", 0, b"a-ca-x", [b"         0 a-c", b"         1 -ca", b"         2 ca-"]),
    (b"ab", 0, b"a", []),
]


def sheet_byte(i, positions, m, text):
    """Byte i of the marked sheet of these positions, from where it stands."""
    page, at = divmod(i, 50 * 76 + 1)
    line, column = divmod(at, 76)
    if line == 50 or column == 75:
        return 12 if line == 50 else 10
    s = positions[50 * page + line]
    if column < 10:
        digit = s // 10 ** (9 - column)
        return 48 + digit % 10 if digit or column == 9 else 32
    if column == 10 or column >= 11 + m:
        return 32
    reading = text[s + column - 11]
    return reading if 32 < reading < 127 else 46


def marked_alike(tally, pattern, k, method, text, spare, places):
    """The call on a buffer of so many bytes more than the sheet has, against the
    whole search and that description."""
    listed, kept = [9] * places, [9] * places
    refusal, found, looks = ref.whole_search(pattern, k, method, text, listed)
    length = 76 * found + max(found - 1, 0) // 50
    buffer = bytearray(b"\xbb" * max(length + spare, 0))
    before = bytes(buffer)
    seen = ref.whole_sheet(pattern, k, method, text, kept, buffer)
    if not refusal and len(buffer) < length:
        refusal = 10
    what = "marked sheet of %r, k %d, method %d, text %r" % (pattern, k, method, text)
    if refusal:
        tally.same(what, (seen, kept, bytes(buffer)), ((refusal, 0, 0, 0), [9] * places, before))
        return
    sheet = bytes(sheet_byte(i, listed, len(pattern), text) for i in range(length))
    tally.same(what, (seen, kept), ((0, found, looks, length), listed))
    tally.same(what + ", buffer", bytes(buffer), sheet + before[length:])
    tally.same(what + ", read back", ref.positions_of_sheet(sheet), listed[:found])
    for at, page in enumerate(sheet.split(b"\x0c")):
        shown_there = listed[:found][50 * at : 50 * at + 50]
        tally.same(what + ", page read back", ref.positions_of_page(page), shown_there)


def check_marked_sheets(tally, rng):
    for pattern, k, text, lines in MARKED:
        sheet = b"".join(line.ljust(75) + b"\n" for line in lines)
        buffer = bytearray(len(sheet))
        refusal, found, _, length = ref.whole_sheet(pattern, k, 1, text, [0] * len(text), buffer)
        tally.same("example %r" % text, (refusal, found, length), (0, len(lines), len(sheet)))
        tally.same("sheet of %r" % text, bytes(buffer), sheet)
    for lines, spare in itertools.product((0, 1, 49, 50, 51, 99, 100, 101, 150, 151), (-1, 0, 1)):
        marked_alike(tally, b"a", 0, rng.choice(METHODS), b"a" * lines, spare, lines)
    for n in (11, 101, 1001, 10001, 65536):
        marked_alike(tally, b"ab", 0, 1 + n % 6, b"x" * (n - 3) + b"aba", 0, n)
    for _ in range(400):
        m = rng.choice((1, 2, 3, 5, 63, 64, 65))
        pattern = make_pattern(rng, m, rng.randrange(1, 40))
        k = rng.choice((0, rng.randrange(m + 1)))
        text = lossy(rng, make_text(rng, pattern, k, rng.randrange(2 * m + 9)))
        places = max(len(text) + rng.choice((-1, 0, 3)), 0)
        marked_alike(tally, pattern, k, rng.randrange(1, 8), text, rng.choice((-1, 0, 5)), places)


# --- (b) Made inputs for the program ----------------------------------------


def random_bytes(rng, length):
    return bytes(rng.randrange(256) for _ in range(length))


def shuffled(rng, some):
    some = bytearray(some)
    rng.shuffle(some)
    return bytes(some)


# What can be in a pattern that the program takes: no newline, and no lost hour.
PATTERN_BYTES = bytes(c for c in range(256) if c not in b"\n-")


def make_pattern(rng, m, most_letters):
    """m bytes from at most that many letters."""
    pool = [rng.choice(PATTERN_BYTES) for _ in range(max(1, most_letters))]
    return bytes(rng.choice(pool) for _ in range(m))


def lost_in(rng, text, share):
    """The text with about that share of its readings lost."""
    return bytes(ref.LOST if rng.random() < share else c for c in text)


def lossy(rng, text):
    """As it is, or with few or many lost hours."""
    return lost_in(rng, text, rng.choice((0, 0, 0.04, 0.15, 0.5)))


def make_text(rng, pattern, k, length):
    """Mixes of the pattern, nearly mixes, its letters, and any bytes."""
    made = b""
    while len(made) < length:
        kind = rng.randrange(6)
        if kind <= 1:
            made += shuffled(rng, pattern)
        elif kind <= 3:
            part = bytearray(shuffled(rng, pattern))
            for _ in range(rng.choice((1, k, k + 1))):
                if part:
                    part[rng.randrange(len(part))] = rng.randrange(256)
            made += bytes(part)
        elif kind == 4 and pattern:
            made += bytes(rng.choice(pattern) for _ in range(rng.randrange(1, 5)))
        else:
            made += random_bytes(rng, rng.randrange(1, 4))
    return made[:length]


def line(method, k, pattern):
    return b"%d %d " % (method, k) + pattern + b"\n"


def first_line_inputs(rng):
    """Malformed first lines: every byte value in every place of the line."""
    for base, places in ((b"2 0 abc", range(5)), (b"4 12 abcabcabcabcabc", (2, 3, 4))):
        rest = b"\nabcxxxabcabcabccbacba\n"
        for at in places:
            for c in range(256):
                yield base[:at] + bytes([c]) + base[at + 1 :] + rest
            yield base[:at] + base[at + 1 :] + rest
            for c in b" 0123456789\n\t\r\0-+a":
                yield base[:at] + bytes([c]) + base[at:] + rest
        for end in range(len(base) + 1):
            yield base[:end]
            yield base[:end] + b"\n"
    for k in range(100):
        yield b"1 %02d abc\nabc" % k
        yield b"1 %d abc\nabc" % k
        yield b"1 %d \nabc" % k
        yield b"1 1%02d abc\nabc" % k
    for odd in (
        b"", b"\n", b"\n\n", b" \n", b"  \n", b"   \n", b"abc", b"1", b"1 0 a",
        b"1 0 a\r\na", b"1\t0\ta\na", b"01 0 a\na", b" 1 0 a\na", b"1  0 a\na",
        b"1 0  a\n a", b"1 0 a \na ", b"1 0 a b\nb a", b"1 0  \n  ", b"1 0   \n   \n",
        b"-1 0 a\na", b"+1 0 a\na", b"1 -0 a\na", b"1 +0 a\na", b"1 0x0 a\na",
        b"\xef\xbc\x91 0 a\na", b"\xb2 0 a\na", b"1 \xb2 abc\nabc", b"\xef\xbb\xbf1 0 a\na",
        b"\0 0 a\na", b"1 \0 a\na", b"1 0 \0\n\0\0", b"1 0 \n", b"1 0 \nabc", b"1 0\nabc",
        b"1 0\n\nabc", b"1\n0\na\n", b"1 000 a\na", b"9 99 \n",
    ):
        yield odd


def newline_inputs(rng):
    """With and without a last newline, newlines in the text, no text."""
    for method in METHODS:
        for pattern in (b"a", b"ab", b"aba"):
            for text in (b"", b"a", b"ab", b"aba", b"ab\nba", b"\n", b"\nab", b"ba\r"):
                for end in (b"", b"\n", b"\n\n", b"\n\n\n", b"\r\n"):
                    yield line(method, 0, pattern) + text + end


def byte_inputs(rng):
    """Every byte value as a pattern of its own, beside its neighbours, and beside a
    pattern's letter and a lost hour."""
    for c in range(256):
        near = bytes([c, (c + 1) % 256, (c - 1) % 256, c, c, c ^ 128])
        for method in METHODS:
            yield line(method, 0, bytes([c])) + near + b"\n"
            yield line(method, 0, b"aa") + bytes([97, c, 97, 45, c, 45]) + b"\n"
        yield line(4, 1, bytes([c, c, (c + 1) % 256])) + near * 3
        yield line(1 + c % 6, 0, bytes([c, c ^ 128])) + near * 3
    for method in METHODS:
        yield line(method, 0, b"\xff\0") + bytes(range(256)) * 2


def grid_inputs(rng):
    """All methods, m = 1, 2, 3, 63, 64, all k; short, equal and long texts."""
    for m in (1, 2, 3, 63, 64):
        for k in range(m):
            most = rng.choice((1, 2, 3, 5, 6, 7))
            pattern = make_pattern(rng, m, most)
            short = lossy(rng, make_text(rng, pattern, k, rng.randrange(m)))
            equal = lossy(rng, make_text(rng, pattern, k, m))
            one_less = lossy(rng, make_text(rng, pattern, k, m - 1))
            long = lossy(rng, make_text(rng, pattern, k, m + 1 + rng.randrange(70)))
            for method in METHODS if k == 0 else (1, 4):
                for text in (short, one_less, equal, long):
                    yield line(method, k, pattern) + text + rng.choice((b"", b"\n"))
        for _ in range(25):
            most = rng.choice((1, 2, 4, 8, 9, 10, 11, 12, 14, 31))
            pattern = make_pattern(rng, m, most)
            long = lossy(rng, make_text(rng, pattern, 0, m + rng.randrange(70)))
            for method in METHODS:
                yield line(method, 0, pattern) + long + rng.choice((b"", b"\n"))


def random_inputs(rng):
    for _ in range(500):
        m = rng.choice((rng.randrange(1, 9), rng.randrange(1, 65)))
        pattern = make_pattern(rng, m, rng.choice((1, 2, 3, 4, 8, 16)))
        if rng.randrange(16) == 0:
            pattern = lost_in(rng, pattern, 0.2)
        k = rng.choice((0, rng.randrange(m), rng.randrange(min(m, 4))))
        text = lossy(rng, make_text(rng, pattern, k, rng.randrange(60 + m)))
        for method in (1, 4) if k else METHODS:
            yield line(method, k, pattern) + text + rng.choice((b"", b"\n"))


def edge_inputs(rng):
    """Both sides of refusals 1 to 4, and which comes first of several."""
    text = b"abcabcaabbcc\n"
    for m in (0, 1, 2, 3, 10, 62, 63, 64, 65, 66, 255, 256, 257, 320):
        for k in sorted({0, 1, m - 1, m, m + 1, 64, 99}):
            if 0 <= k <= 99:
                for method in range(10):
                    most = (2, 3, 40)[(method + k + m) % 3]
                    pattern = bytes(97 + i % most for i in range(m))
                    yield line(method, k, pattern) + text


def width_inputs(rng):
    """Fields of 62 to 67 bits in methods 2, 3 and 4 (refusal 5)."""
    for q in range(28, 36):
        for method in METHODS:
            yield line(method, 0, letters(q)) + shuffled(rng, letters(q)) + letters(3)
    for q in range(5, 18):
        for k in range(64):
            if k < q or k % 4 == 0:
                pattern = letters(q) + letters(1) * max(0, k + 1 - q)
                yield line(4, k, pattern) + shuffled(rng, pattern) + b"ABC"
    wanted = {}
    for _ in range(20000):
        method = rng.choice((2, 3, 4, 4, 4))
        m = rng.randrange(1, 65)
        k = rng.randrange(m) if method == 4 else 0
        pattern = make_pattern(rng, m, rng.randrange(1, 40))
        bits = ref.bits_needed(pattern, k, method)
        if 62 <= bits <= 67 and wanted.get((method, bits), 0) < 12:
            wanted[method, bits] = wanted.get((method, bits), 0) + 1
            yield line(method, k, pattern) + make_text(rng, pattern, k, m + 9)
        if len(wanted) == 18 and min(wanted.values()) == 12:
            break
    for q in range(15, 22):
        for others in (b"", b"x", b"xy", b"xx"):
            pattern = letters(q) * 3 + others
            for method in METHODS:
                yield line(method, 0, pattern) + shuffled(rng, pattern) + letters(3)


def heap_inputs(rng):
    """Method 5: exact and verified patterns, and candidates that don't match."""
    for m, q in ((15, 15), (16, 15), (16, 16), (31, 12), (31, 13), (31, 14), (31, 20),
                 (47, 15), (63, 9), (63, 10), (63, 11), (63, 12), (63, 16), (63, 63),
                 (64, 10), (64, 11), (64, 64)):
        for _ in range(4):
            pool = sorted(rng.sample(list(PATTERN_BYTES), q))
            pattern = bytes(pool) + bytes(rng.choice(pool) for _ in range(m - q))
            text = b""
            for _ in range(3):
                part = bytearray(shuffled(rng, pattern))
                # The highest letters may have the value 0, like other bytes.
                for i, c in enumerate(part):
                    if c in pool[11:] and rng.randrange(4) == 0:
                        part[i] = rng.choice((pool[-1], 10, rng.randrange(256)))
                text += bytes(part)
                text += shuffled(rng, pattern)[: rng.randrange(m)]
            text += shuffled(rng, pattern)
            yield line(5, 0, pattern) + text + b"\n"
            yield line(5, 0, pattern) + lost_in(rng, text, 0.02) + b"\n"


def known_letter_inputs(rng):
    """Method 6: a reading that the pattern lacks at each place of a window, windows
    that are verified in vain, patterns of up to 64 letters, and the digits that
    are no method's."""
    for m in (1, 2, 3, 5, 63, 64):
        pattern = make_pattern(rng, m, 3)
        other = bytes([next(c for c in range(97, 123) if c not in pattern)])
        for at in range(m):
            before, after = pattern[:at], pattern[at + 1 :]
            yield line(6, 0, pattern) + before + other + after + pattern + other * m
        for unit in (pattern, pattern[:1], pattern[-1:], pattern + pattern[:1], other):
            yield line(6, 0, pattern) + (unit * 200)[: 2 * m + 9]
    for q in (31, 32, 33, 63, 64):
        for method in METHODS:
            yield line(method, 0, letters(q)) + letters(q) + letters(3) + shuffled(rng, letters(q))
    for method, k in itertools.product((0, 6, 7, 8, 9), (0, 1, 2, 3, 4, 99)):
        yield line(method, k, b"abc") + b"abcbax\n"


def lost_hour_inputs(rng):
    """A lost hour at each place of a window that matches without it, and of one that
    has a reading too many on either side; texts of nothing else; top bits of method 4
    that are set before one; a pattern with one at each of its places, also where
    another number would follow, or comes first."""
    for m in (1, 2, 3, 4, 5, 8):
        pattern = repeating(b"abcd", m)
        for at, method in itertools.product(range(m), METHODS):
            gone = pattern[:at] + b"-" + pattern[at + 1 :]
            yield line(method, 0, pattern) + gone
            yield line(method, 0, pattern) + b"x" + gone[1:] + gone[:-1] + b"x" + gone
            yield line(method, 0, gone) + pattern
    for m, k, method in itertools.product((1, 2, 3, 8, 63, 64), (0, 1, 2, 7), METHODS):
        if k < m and (k == 0 or method in (1, 4)):
            for n in (m - 1, m, m + 9):
                yield line(method, k, repeating(b"ab", m)) + b"-" * n
    for k in (1, 2, 3, 4):
        for errors, gone in itertools.product(range(k + 2), (1, 2)):
            for wrong in (b"x" * errors, b"f" * errors, (b"xf" * errors)[:errors]):
                window = (b"abcd" + b"-" * gone + wrong + b"f")[-6:].rjust(6, b"y")
                yield line(4, k, b"abcdef") + window
                yield line(4, k, b"abcdef") + window + b"x" + window + b"-"
    for pattern in (b"-", b"a-", b"-" * 64, b"-" * 65, b"a" * 64 + b"-", letters(40) + b"-"):
        for method, k in itertools.product(range(10), (0, 1, len(pattern) % 100)):
            yield line(method, k, pattern) + b"a-b"
    for first in (b"- 0 ab\n", b"1 - ab\n", b"1 00 a-\n", b"1 -1 a-\n", b"1 0 a-", b"7 0 a-\n"):
        yield first
        yield first * 4000
    for _ in range(150):
        m = rng.choice((2, 3, 5, 9, 16, 31, 63))
        pattern = make_pattern(rng, m, rng.choice((2, 3, 15, 40)))
        k = rng.choice((0, 0, rng.randrange(m)))
        share = rng.choice((0.02, 0.1, 0.3, 0.7, 0.95))
        text = lost_in(rng, make_text(rng, pattern, k, m + rng.randrange(70)), share)
        for method in METHODS if k == 0 else (1, 4):
            yield line(method, k, pattern) + text


def repeating(unit, length):
    return (unit * length)[:length]


def size_inputs(rng):
    """Both sides of refusal 6, and refusal 6 before 11 and 1 to 5."""
    for size in (16383, 16384, 16385, 16386, 20000, 32768, 65536, 65537, 70000):
        for head, unit in (
            (b"1 0 a\n", b"ab"),
            (b"2 0 ab\n", b"ab"),
            (b"3 0 aab\n", b"abaxx"),
            (b"4 1 abcd\n", b"abxdcbad\n"),
            (b"5 0 abc\n", b"cabx"),
            (b"6 0 abc\n", b"cabxbb"),
            (b"5 0 abc\n", b"ca-b"),
            (b"1 0 a-\n", b"a"),
            (b"1 0 ", b"a"),
            (b"1 2 ab\n", b"a"),
            (b"7 0 ab\n", b"a"),
            (b"abc", b"d"),
            (b"", b"\n"),
        ):
            data = (head + unit * size)[:size]
            yield data
            if size > 16384 or b"\n" not in head or size % 2:
                yield data[:-1] + b"\n"
    # A first line that takes up the whole input, and patterns that long.
    for size in (16383, 16384, 16385):
        yield (b"1 0 " + b"a" * size)[: size - 1] + b"\n"


def long_inputs(rng):
    for method, k, m, most in (
        (1, 5, 64, 40), (2, 0, 20, 4), (3, 0, 21, 4), (4, 3, 24, 4), (5, 0, 63, 12), (6, 0, 64, 60),
    ):
        pattern = make_pattern(rng, m, most)
        text = make_text(rng, pattern, k, 3000)
        yield line(method, k, pattern) + text + b"\n"
        yield line(method, k, pattern) + lost_in(rng, text, 0.1) + b"\n"
    for method in METHODS:
        pattern = make_pattern(rng, 3, 2)
        yield line(method, 0, pattern) + lost_in(rng, make_text(rng, pattern, 0, 2000), 0.1)


FAMILIES = (
    first_line_inputs,
    newline_inputs,
    byte_inputs,
    grid_inputs,
    random_inputs,
    edge_inputs,
    width_inputs,
    heap_inputs,
    known_letter_inputs,
    lost_hour_inputs,
    size_inputs,
    long_inputs,
)


def shown(data):
    if len(data) <= 400:
        return repr(data)
    return "%r ... (%d bytes)" % (data[:400], len(data))


class Coverage:
    """What the made inputs reached, so that a gap would be seen."""

    def __init__(self):
        self.answers = {}
        self.by_method = {}
        self.in_pattern = set()
        self.in_text = set()
        self.bits = set()
        self.grid = set()
        self.sides = {"shorter": 0, "equal": 0, "longer": 0}
        self.verified = 0
        self.failed_verification = 0
        self.verified_6 = 0
        self.failed_6 = 0
        self.lost = {}

    def add(self, data, output):
        word = output.split(b"\n", 1)[0].decode("latin-1")
        key = word if word.startswith("refused ") else "accepted"
        self.answers[key] = self.answers.get(key, 0) + 1
        if len(data) > ref.LONGEST_INPUT:
            return
        parsed = ref.parse_input(data)
        if parsed is None:
            return
        method, k, pattern, text = parsed
        if key == "refused 5":
            self.bits.add((method, ref.bits_needed(pattern, k, method)))
        if key == "accepted":
            self.searched(pattern, k, method, text)

    def searched(self, pattern, k, method, text):
        """An accepted search."""
        if method in (2, 3, 4):
            self.bits.add((method, ref.bits_needed(pattern, k, method)))
        count, matching = self.by_method.get(method, (0, 0))
        found = ref.listed_positions(pattern, k, text)
        self.by_method[method] = (count + 1, matching + (1 if found else 0))
        self.in_pattern |= set(pattern)
        self.in_text |= set(text)
        m, n = len(pattern), len(text)
        self.grid.add((method, m, k))
        self.sides["shorter" if n < m else "equal" if n == m else "longer"] += 1
        exact = ref.heap_is_exact(pattern)
        if method == 5 and not exact and n >= m:
            looked = (ref.steps_heap_values(pattern, k, text)[1] - n) // m
            self.verified += looked
            self.failed_verification += looked - len(found)
        if ref.LOST in text and n >= m:
            self.with_lost_hours(method, exact, m, text, set(found))
        if method == 6:
            verified = sum(at is None for _, at in windows_of_method_6(pattern, text))
            self.verified_6 += verified
            self.failed_6 += verified - len(found)

    def with_lost_hours(self, method, exact, m, text, found):
        """The windows of an accepted search that have a lost hour; of method 5 those
        of patterns with exact values apart from the others."""
        lost = [s for s in range(len(text) - m + 1) if ref.LOST in text[s : s + m]]
        kind = ("5, exact" if exact else "5, not exact") if method == 5 else str(method)
        matching, others = self.lost.get(kind, (0, 0))
        matches = sum(s in found for s in lost)
        self.lost[kind] = matching + matches, others + len(lost) - matches

    def report(self):
        for key in sorted(self.answers, key=lambda word: (len(word), word)):
            print("  %s: %d" % (key, self.answers[key]))
        for method in sorted(self.by_method):
            print(
                "  method %d: %d accepted, %d of them with a match"
                % ((method,) + self.by_method[method])
            )
        print(
            "  byte values in patterns: %d, in texts: %d"
            % (len(self.in_pattern), len(self.in_text))
        )
        for method in (2, 3, 4):
            near = sorted(b for at, b in self.bits if at == method and 61 <= b <= 68)
            print("  method %d fields of %s bits" % (method, near))
        print(
            "  texts shorter than the pattern: %(shorter)d, of its length: %(equal)d,"
            " longer: %(longer)d" % self.sides
        )
        print(
            "  windows verified in method 5: %d, of them no match: %d"
            % (self.verified, self.failed_verification)
        )
        print(
            "  windows verified in method 6: %d, of them no match: %d"
            % (self.verified_6, self.failed_6)
        )
        for kind in sorted(self.lost):
            print("  method %s: %d windows with a lost hour that match, %d others"
                  % ((kind,) + self.lost[kind]))

    def gaps(self):
        """What should have been reached and was not."""
        missing = []
        for number in (1, 2, 3, 4, 5, 6, 11, 13):
            if "refused %d" % number not in self.answers:
                missing.append("refusal %d" % number)
        if self.in_pattern != set(PATTERN_BYTES) or len(self.in_text) != 256:
            missing.append("byte values")
        for kind in ("1", "2", "3", "4", "5, exact", "5, not exact", "6"):
            if min(self.lost.get(kind, (0,))) == 0:
                missing.append("windows with a lost hour of method " + kind)
        for m in (1, 2, 3, 63, 64):
            for k in range(m):
                for method in (1, 4) if k else METHODS:
                    if (method, m, k) not in self.grid:
                        missing.append("method %d, m %d, k %d" % (method, m, k))
        for method in (2, 3, 4):
            for bits in (64, 65):
                if (method, bits) not in self.bits and (method, bits + 1) not in self.bits:
                    missing.append("method %d, %d bits" % (method, bits))
        if min(self.sides.values()) == 0 or self.failed_verification == 0 or self.failed_6 == 0:
            missing.append("a length of text, or a failed verification")
        return missing


def check_program(tally, path, coverage):
    seen = set()
    statuses = {}
    for family in FAMILIES:
        rng = random.Random("%d %s" % (SEED, family.__name__))
        inputs = 0
        for data in family(rng):
            if data in seen:
                continue
            seen.add(data)
            inputs += 1
            try:
                expected = ref.program_output(data)
            except AssertionError as failure:
                tally.differences += 1
                print("DIFFERENCE %s: %s: assertion: %s"
                      % (tally.name, shown(data), failure))
                continue
            run = subprocess.run(
                [path], input=data, stdout=subprocess.PIPE, stderr=subprocess.PIPE,
                timeout=20,
            )
            status = (expected.startswith(b"refused "), run.returncode)
            statuses[status] = statuses.get(status, 0) + 1
            tally.same(
                "input %s (expected is the reference)" % shown(data),
                (run.stdout, run.stderr, run.returncode < 0),
                (expected, b"", False),
            )
            coverage.add(data, expected)
        print("  %s: %d inputs" % (family.__name__.replace("_", " "), inputs))
    for (refused, status), count in sorted(statuses.items()):
        print(
            "  exit status %d after %s: %d"
            % (status, "a refusal" if refused else "an answer", count)
        )


# --- (c) How mixlist reads ---------------------------------------------------

# How many bytes each write has, over and over.  A pipe hands on what it holds,
# so the next piece is written only once the one before it was taken.
DELIVERIES = ((1000,), (4096,), (16384,), (16383, 1), (1, 16384), (65536,))


def pieces(data, sizes):
    start = 0
    for size in itertools.cycle(sizes):
        if start >= len(data):
            return
        yield data[start : start + size]
        start += size


def waiting(pipe):
    """How many bytes of a pipe were not taken yet."""
    return struct.unpack("i", fcntl.ioctl(pipe, termios.FIONREAD, b"\0" * 4))[0]


def run_on_file(path, data):
    with tempfile.TemporaryFile() as source:
        source.write(data)
        source.seek(0)
        run = subprocess.run(
            [path], stdin=source, stdout=subprocess.PIPE, stderr=subprocess.PIPE, timeout=20,
        )
    return run.stdout, run.stderr, run.returncode < 0


def run_on_pipe(path, data, sizes):
    run = subprocess.Popen(
        [path], stdin=subprocess.PIPE, stdout=subprocess.PIPE, stderr=subprocess.PIPE, bufsize=0,
    )
    try:
        for piece in pieces(data, sizes):
            run.stdin.write(piece)
            while waiting(run.stdin) and run.poll() is None:
                time.sleep(0.0001)
    except BrokenPipeError:
        pass  # the program ends once it has read enough
    output, errors = run.communicate(timeout=20)
    return output, errors, run.returncode < 0


def check_reads(tally, path):
    for size in (16383, 16384, 16385, 16386, 20000, 70000):
        for head, unit in (
            (b"2 0 abc\n", b"abcxxx"),
            (b"4 1 abcd\n", b"abxdcbad\n"),
            (b"5 0 ab\n", b"ba"),
            (b"6 0 aab\n", b"abaax"),
            (b"3 0 aab\n", b"a-bx-"),
            (b"1 0 ", b"a"),
        ):
            data = (head + unit * size)[:size]
            expected = (ref.program_output(data), b"", False)
            tally.same("from a file: %s" % shown(data), run_on_file(path, data), expected)
            for sizes in DELIVERIES:
                tally.same(
                    "from a pipe in pieces of %s: %s" % (sizes, shown(data)),
                    run_on_pipe(path, data, sizes), expected,
                )


# --- (d) Series of calls in the reference -----------------------------------


class Ledger:
    def __init__(self, pattern, k, method):
        self.pattern, self.k, self.method = pattern, k, method
        self.text = b""
        self.reports = []

    def copy(self):
        other = Ledger(self.pattern, self.k, self.method)
        other.text, other.reports = self.text, list(self.reports)
        return other


def whole_searches_agree(tally, ledger):
    tally.same(
        "reports of %r, k %d, text %r" % (ledger.pattern, ledger.k, ledger.text),
        ledger.reports,
        ref.listed_positions(ledger.pattern, ledger.k, ledger.text),
    )
    for method in METHODS:
        places = [9] * (len(ledger.text) + 1)
        refusal, found, _ = ref.whole_search(
            ledger.pattern, ledger.k, method, ledger.text, places
        )
        if refusal:
            tally.same("whole search refused", refusal in (4, 5), True)
        else:
            tally.same("whole search, method %d" % method, places[:found], ledger.reports)


def fed(tally, search, ledger, chunk, rng):
    places = [5] * (len(chunk) + rng.randrange(3))
    before = ledger.text
    kept = before[len(before) - min(len(before), len(ledger.pattern) - 1) :]
    joined = before + chunk
    report = [
        s
        for s in ref.listed_positions(ledger.pattern, ledger.k, joined)
        if s + len(ledger.pattern) > len(before)
    ]
    looks = ref.STEPS[ledger.method](ledger.pattern, ledger.k, kept + chunk)[1]
    room = len(places)
    refusal, found, seen, search = ref.feed(search, chunk, places)
    tally.same("feed", (refusal, found, seen), (0, len(report), looks))
    tally.same("list of a feed", places, report + [5] * (room - len(report)))
    ledger.text = joined
    ledger.reports += report
    return search


def one_series(tally, rng, number):
    m = rng.choice((1, 2, 3, 4, 5, 7, 8, 16, 63, 64))
    pattern = bytes(rng.choice(b"abcd\n\0\xff") for _ in range(m))
    k = rng.choice((0, 0, rng.randrange(m)))
    allowed = [x for x in METHODS if ref.refuse_terms(pattern, k, x) == 0]
    method = rng.choice(allowed)
    refusal, search = ref.open_search(pattern, k, method)
    tally.same("open", refusal, 0)
    ledger = Ledger(pattern, k, method)
    kept = []
    for _ in range(rng.randrange(4, 16)):
        call = rng.randrange(10)
        if call <= 4:
            size = rng.choice((0, 1, 2, m - 1, m, rng.randrange(20)))
            chunk = lossy(rng, make_text(rng, pattern, k, size))
            search = fed(tally, search, ledger, chunk, rng)
        elif call == 5:
            wanted = rng.randrange(8)
            refusal, after = ref.set_method(search, wanted)
            tally.same(
                "set method %d" % wanted,
                (refusal, after),
                (0, search._replace(method=wanted))
                if wanted in allowed
                else (ref.refuse_terms(pattern, k, wanted), search),
            )
            search = after
            if not refusal:
                ledger.method = wanted
        elif call <= 7:
            needed = 13 + m + 2 + 4 + min(len(ledger.text), m - 1)
            buffer = bytearray(b"\xaa" * (needed + rng.choice((-1, 0, 3))))
            room = len(buffer)
            refusal, length, after = ref.save(search, buffer)
            tally.same("search after save", after, search)
            if room < needed:
                tally.same("save", (refusal, length), (10, 0))
                tally.same("buffer of a refusal", bytes(buffer), b"\xaa" * room)
            else:
                tally.same("save", (refusal, length), (0, needed))
                tally.same("rest of the buffer", bytes(buffer[length:]), b"\xaa" * (room - length))
                image = bytes(buffer[:length])
                kept.append((image, ledger.copy(), search))
                loads_in_every_order(tally, search)
        elif call == 8 and kept:
            image, copy, saved = rng.choice(kept)
            refusal, search = ref.load(image)
            tally.same("load", (refusal, search), (0, saved))
            ledger = copy.copy()
        elif call == 9 and kept:
            # A refused load or open leaves the blank search.
            image, copy, saved = rng.choice(kept)
            if rng.randrange(2):
                refusal, blank = ref.load(image[:-1])
                tally.same("refused load", (refusal, blank), (9, ref.BLANK))
            elif rng.randrange(2):
                refusal, blank = ref.open_search(pattern, m, method)
                tally.same("refused open", (refusal, blank), (2, ref.BLANK))
            else:
                refusal, blank = ref.open_search(b"-" + pattern[1:], m, method)
                tally.same("refused open", (refusal, blank), (13, ref.BLANK))
            tally.same("blank feed", ref.feed(blank, b"", []), (1, 0, 0, blank))
            tally.same("blank set method", ref.set_method(blank, 1), (1, blank))
            tally.same("blank save", ref.save(blank, bytearray(99)), (1, 0, blank))
            refusal, search = ref.load(image)
            tally.same("load", (refusal, search), (0, saved))
            ledger = copy.copy()
        tail = ledger.text[len(ledger.text) - min(len(ledger.text), m - 1) :]
        tally.same(
            "search after a call",
            search,
            ref.Search(pattern, k, ledger.method, len(ledger.text), tail),
        )
        whole_searches_agree(tally, ledger)


def all_cuts(tally, rng):
    """Short texts cut at every two places, in every method."""
    for pattern, k in ((b"a", 0), (b"ab", 0), (b"aab", 1), (b"abac", 0), (b"abac", 2)):
        text = lost_in(rng, make_text(rng, pattern, k, 11), 0.2)
        for method in METHODS:
            if ref.refuse_terms(pattern, k, method):
                continue
            for first in range(len(text) + 1):
                for second in range(first, len(text) + 1):
                    search = ref.open_search(pattern, k, method)[1]
                    ledger = Ledger(pattern, k, method)
                    for chunk in (text[:first], text[first:second], text[second:]):
                        search = fed(tally, search, ledger, chunk, rng)
                    tally.same(
                        "cuts at %d and %d" % (first, second),
                        ledger.reports,
                        ref.listed_positions(pattern, k, text),
                    )


def handed_over(tally, rng):
    """Short texts begun by one method and ended by another, to and from method 6,
    cut at every place."""
    for pattern in (b"a", b"ab", b"aab", b"abac"):
        text = lost_in(rng, make_text(rng, pattern, 0, 14), 0.2)
        for other, cut in itertools.product(METHODS, range(len(text) + 1)):
            for first, second in ((6, other), (other, 6)):
                search = ref.open_search(pattern, 0, first)[1]
                ledger = Ledger(pattern, 0, first)
                search = fed(tally, search, ledger, text[:cut], rng)
                refusal, search = ref.set_method(search, second)
                ledger.method = second
                search = fed(tally, search, ledger, text[cut:], rng)
                what = "from method %d to %d at %d" % (first, second, cut)
                listed = ref.listed_positions(pattern, 0, text)
                tally.same(what, (refusal, ledger.reports), (0, listed))


def check_series(tally):
    rng = random.Random("%d series" % SEED)
    tally.guarded("all cuts", all_cuts, rng)
    tally.guarded("handed over", handed_over, rng)
    for number in range(480):
        tally.guarded("series %d" % number, one_series, rng, number)


def check_reference(tally):
    tally.guarded("sheet", check_sheet)
    tally.guarded("widths", check_widths)
    tally.guarded("examples", check_examples)
    tally.guarded("method 6", check_method_6, random.Random("%d method 6" % SEED))
    tally.guarded("lost hours", check_lost_hours, random.Random("%d lost hours" % SEED))
    tally.guarded("images", check_images, random.Random("%d images" % SEED))
    tally.guarded("marked sheets", check_marked_sheets, random.Random("%d marked" % SEED))


def main(arguments):
    if len(arguments) != 2:
        print("usage: python3 tools/compare.py path/to/mixlist", file=sys.stderr)
        return 2
    started = time.monotonic()

    sheet = Tally("(a) sheet, widths, examples, method 6, lost hours, marked sheets")
    check_reference(sheet)
    after_sheet = time.monotonic()
    sheet.report(after_sheet - started)

    program = Tally("(b) made inputs through mixlist")
    coverage = Coverage()
    check_program(program, arguments[1], coverage)
    coverage.report()
    for gap in coverage.gaps():
        program.differences += 1
        print("DIFFERENCE %s: not reached: %s" % (program.name, gap))
    after_program = time.monotonic()
    program.report(after_program - after_sheet)

    reads = Tally("(c) mixlist's reads")
    check_reads(reads, arguments[1])
    after_reads = time.monotonic()
    reads.report(after_reads - after_program)

    series = Tally("(d) series of calls")
    check_series(series)
    series.report(time.monotonic() - after_reads)

    tallies = (sheet, program, reads, series)
    differences = sum(tally.differences for tally in tallies)
    print(
        "all: %d agreed, %d differences, %.1f s"
        % (
            sum(tally.agreed for tally in tallies),
            differences,
            time.monotonic() - started,
        )
    )
    return 1 if differences else 0


if __name__ == "__main__":
    sys.exit(main(sys.argv))
