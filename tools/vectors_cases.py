"""The cases of the stored vectors: families of calls, each from its own numbers.

A family gets the stream, to which it adds cases, and a source of numbers.
"""

import itertools

import reference as ref
import vectors_stream as vs
from compare import METHODS, ORDERS, SHEET, image_in_order, letters, line, make_text, shuffled
from vectors_stream import repeated, scattered

# The edges of 1 to 6 and of a byte, and two others.
NO_METHODS = (0, 7, 8, 200, 255)

# Those before T-04.  Families that are older draw from them, and so have the cases
# that they had; method 6 joins where nothing is drawn, and in families of its own.
FORMER_METHODS = METHODS[:5]


class Random:
    """splitmix64, since Python's own may change from version to version."""

    def __init__(self, name):
        self.state = vs.digest(name.encode())

    def next(self):
        self.state = (self.state + 0x9E3779B97F4A7C15) % 2**64
        z = self.state
        z = (z ^ (z >> 30)) * 0xBF58476D1CE4E5B9 % 2**64
        z = (z ^ (z >> 27)) * 0x94D049BB133111EB % 2**64
        return z ^ (z >> 31)

    def randrange(self, first, end=None):
        if end is None:
            first, end = 0, first
        return first + self.next() % (end - first)

    def choice(self, some):
        return some[self.randrange(len(some))]

    def shuffle(self, some):
        for i in range(len(some) - 1, 0, -1):
            j = self.randrange(i + 1)
            some[i], some[j] = some[j], some[i]


# --- Patterns and texts -------------------------------------------------------


def some_letters(rng, count):
    """That many different bytes that a pattern can have, ascending."""
    every = list(range(256))
    rng.shuffle(every)
    every.remove(ref.LOST)
    return bytes(sorted(every[:count]))


def letters_from(first):
    """64 letters of a pattern from there on, the lost-hour mark left out."""
    return bytes([c for c in range(first, first + 65) if c != ref.LOST][:64])


def pattern_of(rng, m, q):
    """m bytes, of q different letters if m has room for them."""
    own = some_letters(rng, min(m, q))
    return shuffled(rng, own + bytes(rng.choice(own) for _ in range(m - len(own))))


def strangers(rng, pattern, count):
    """Bytes that the pattern lacks, and that are errors: no lost hours."""
    others = bytes(c for c in range(256) if c not in pattern and c != ref.LOST)
    return bytes(rng.choice(others) for _ in range(count))


def with_errors(rng, pattern, errors):
    """A mix of the pattern with an excess of exactly that many."""
    kept = shuffled(rng, pattern)[errors:]
    return shuffled(rng, kept + strangers(rng, pattern, errors))


def allowed_methods(pattern, k, methods=METHODS):
    return [method for method in methods if not ref.refuse_terms(pattern, k, method)]


def drawn_method(rng, pattern, k):
    return rng.choice(allowed_methods(pattern, k, FORMER_METHODS))


# --- Sheet, widths, exactness ---------------------------------------------------


def blank_search(stream, rng):
    """The search at first is the blank one: every call is refused with 1."""
    for _ in range(8):
        feed_set_and_save(stream, rng)


def sheet_rows(stream, rng):
    for pattern, k, text, _, _ in SHEET:
        for method in METHODS + NO_METHODS[:2]:
            stream.whole(pattern, k, method, text)
        for method in allowed_methods(pattern, k):
            for cut in range(len(text) + 1):
                stream.open(pattern, k, method)
                stream.feed(text[:cut])
                stream.feed(text[cut:], len(text))


def widths_at(stream, rng, pattern, k, method):
    """The bits needed, and every call that refuses with 5 if they are over 64."""
    stream.width(pattern, k, method)
    stream.whole(pattern, k, method, with_errors(rng, pattern, k) + pattern[:1])
    stream.open(pattern, k, method)
    stream.open(pattern, k, 1)
    stream.set_method(method)
    stream.load(ref.image_of(ref.Search(pattern, k, method, 0, b"")))
    stream.feed(pattern[:2])


def widths_under_the_sheet(stream, rng):
    for q, k, method in (
        (30, 0, 2), (31, 0, 2), (32, 0, 2), (33, 0, 2), (30, 0, 3), (31, 0, 3), (32, 0, 3),
        (14, 3, 4), (15, 3, 4), (16, 3, 4), (31, 0, 4), (32, 0, 4), (64, 0, 2), (64, 63, 4),
    ):
        widths_at(stream, rng, letters(q), k, method)
    for q in range(65):
        stream.width(repeated(q, letters(max(q, 1))), q % 7, 2 + q % 3)
    for k in range(64):
        stream.width(repeated(64, b"abcd" if k % 2 else b"abc"), k, 4)
    for m in range(1, 65):
        stream.width(repeated(m, b"a"), 0, 2 + m % 3)


def near_a_word(rng, methods, each, own):
    """Made patterns whose fields need 62 to 67 bits, letters having the widths
    that own gives: of every method and number of bits the same number."""
    made = {}
    while len(made) < 6 * len(set(methods)) or min(made.values()) < each:
        method = rng.choice(methods)
        m = rng.randrange(12, 65)
        k = rng.randrange(min(m, 20)) if method == 4 else 0
        pattern = pattern_of(rng, m, rng.randrange(5, 34))
        bits = ref.bits_needed(pattern, k, method, own)
        if 62 <= bits <= 67 and made.get((method, bits), 0) < each:
            made[method, bits] = made.get((method, bits), 0) + 1
            yield pattern, k, method, made[method, bits]


def widths_near_a_word(stream, rng):
    """By the widths before T-03: some that were refused are accepted since."""
    for pattern, k, method, number in near_a_word(rng, (2, 3, 4, 4, 4), 3, ref.former_width):
        if number == 1:
            widths_at(stream, rng, pattern, k, method)
        else:
            stream.width(pattern, k, method)
            stream.open(pattern, k, method)


def most_exact_letters(m):
    q = 1
    while q < m and (m + 1) ** (q + 1) <= 2**64:
        q += 1
    return q


def exactness(stream, rng):
    """Method 5 on both sides of (m + 1)^q = 2^64, for every m that has both."""
    for m in range(1, 65):
        q = most_exact_letters(m)
        for count in (q, q + 1) if q < m else (q,):
            pattern = pattern_of(rng, m, count)
            stream.exact(pattern)
            if m in (16, 31, 47, 63, 64):
                stream.whole(pattern, 0, 5, pattern + pattern[:1])
    for m in (1, 2, 31, 63, 64):
        stream.exact(repeated(m, b"a"))
        stream.exact(letters(m))


# --- Whole searches ---------------------------------------------------------------


def byte_values(stream, rng):
    """Every byte value in a pattern and in a text, beside its neighbours; the
    lost-hour mark's patterns are refused."""
    for c in range(256):
        near = bytes([c, (c + 1) % 256, (c - 1) % 256, c, c ^ 128, c])
        stream.whole(bytes([c]), 0, 1 + c % 5, near)
        stream.whole(bytes([c, c ^ 128]), 0, 1 + (c // 5) % 5, near[2:])
    for first in range(0, 256, 64):
        pattern = letters_from(first)
        for method in (1, 5, 6, 2):
            stream.whole(pattern, 0, method, repeated(200, pattern))
        stream.whole(pattern, 60, 1, scattered(150, first, bytes(range(255))))


def every_k(stream, rng):
    """All k of several m, by counting and approximate backward: one searches
    windows with about k errors, the other a text of few letters."""
    for m in (1, 2, 3, 5, 8, 16, 31, 63, 64):
        for k in range(m):
            own = some_letters(rng, 4)
            pattern = scattered(m, rng.randrange(2**32), own[: rng.randrange(1, 4)])
            text = make_text(rng, pattern.value, k, rng.randrange(4))
            for errors in (k, k + 1) if m < 31 else (k + rng.randrange(2),):
                text += with_errors(rng, pattern.value, min(errors, m))
            made = scattered(m + rng.randrange(60), rng.randrange(2**32), own)
            for method in METHODS if k == 0 else (1, 4):
                stream.whole(pattern, k, method, text if (method + k) % 4 < 2 or m < 9 else made)


def every_length(stream, rng):
    """Texts shorter than the pattern, of its length, one longer, and longer."""
    for m in (1, 2, 3, 63, 64):
        for n in sorted({0, 1, m - 1, m, m + 1, 2 * m + 1}):
            for method in FORMER_METHODS:
                stream.whole(repeated(m, b"abc"), 0, method, repeated(n, b"abc"))
                k = rng.randrange(m)
                stream.whole(repeated(m, b"aab"), k, (1, 4)[method % 2], repeated(n, b"abcab"))


def made_searches(stream, rng):
    for _ in range(600):
        m = rng.choice((rng.randrange(1, 5), rng.randrange(1, 10), rng.randrange(1, 20)))
        pattern = pattern_of(rng, m, rng.randrange(1, 5))
        k = rng.choice((0, rng.randrange(m), rng.randrange(min(m, 4))))
        text = make_text(rng, pattern, k, rng.randrange(3 * m + 8))
        method = drawn_method(rng, pattern, k)
        stream.whole(pattern, k, method, text, len(text) + rng.choice((0, 0, 1, 5)))


def long_texts(stream, rng):
    for m, k, own in (
        (1, 0, b"ab"), (2, 0, b"abc"), (3, 1, b"aab"), (5, 0, b"abb"), (7, 2, b"abcd"),
        (8, 0, b"ab"), (12, 3, b"abc"), (31, 6, b"abc"), (63, 12, b"ab"), (64, 9, b"abcde"),
    ):
        pattern = repeated(m, own)
        for method in FORMER_METHODS:
            n = rng.randrange(1000, 5000)
            stream.whole(pattern, 0, method, repeated(n, pattern.value + own))
            if method in allowed_methods(pattern.value, k):
                made = scattered(n // (1 + m // 8), rng.randrange(2**32), own + b"x")
                stream.whole(pattern, k, method, made)
    for method in METHODS:
        stream.whole(b"aab", 0, method, scattered(20000, method, b"abx"))


def long_chunks(stream, rng):
    """Long and short chunks by turns, the method changed between them."""
    for m, method in itertools.product((2, 17, 64), FORMER_METHODS):
        own = some_letters(rng, 3)
        pattern = repeated(m, own[:2])
        stream.open(pattern, 0, method)
        stream.feed(scattered(rng.randrange(200, 1200), rng.randrange(2**32), own[:2]))
        stream.feed(repeated(rng.randrange(3), own))
        stream.set_method(rng.choice(FORMER_METHODS))
        stream.feed(repeated(rng.randrange(200, 1200), pattern.value + own))
        stream.save(512)


# --- Method 5: sums that are equal modulo 2^64 --------------------------------------


def heap_value(m, i):
    return (m + 1) ** i % 2**64


def repeats_to_zero(m, i):
    """How many of c_i have a sum that is 0 modulo 2^64."""
    repeats = 1
    while repeats * heap_value(m, i) % 2**64:
        repeats *= 2
    return repeats


def with_strangers(rng, pattern, letter, count):
    """A mix of the pattern, that many of one of its letters replaced."""
    part = bytearray(shuffled(rng, pattern))
    for _ in range(count):
        part[part.index(letter)] = strangers(rng, pattern, 1)[0]
    return bytes(part)


def colliding_text(rng, pattern, letter, repeats):
    """Mixes, windows of equal sum that are none, and some that nearly are."""
    other = rng.choice([c for c in pattern if c != letter])
    equal = [with_strangers(rng, pattern, letter, repeats) for _ in range(2)]
    nearly = [
        with_strangers(rng, pattern, letter, repeats - 1) if repeats > 1
        else with_strangers(rng, pattern, other, 1),
        with_strangers(rng, equal[0], other, 1),
    ]
    parts = [shuffled(rng, pattern), equal[0], nearly[0], equal[1], nearly[1]]
    return b"".join(parts) + equal[1][:9]


def colliding_sums(stream, rng):
    """c_i has the value 0, or enough of it have the sum 0: a byte that the
    pattern lacks, which has the value 0 as well, can take their place."""
    for m, i in (
        (63, 10), (63, 11), (63, 12), (63, 20), (31, 12), (31, 13), (31, 14), (47, 15), (47, 16),
        (23, 21), (23, 22), (39, 21), (39, 22), (55, 21), (55, 22), (59, 31), (59, 32),
    ):
        repeats = repeats_to_zero(m, i)
        own = some_letters(rng, i + 1)
        extra = rng.randrange(m - i - repeats + 1)
        filler = bytes(rng.choice(own) for _ in range(m - i - repeats - extra))
        pattern = own[:i] + own[i:] * (repeats + extra) + filler
        assert len(pattern) == m and not ref.heap_is_exact(pattern)
        text = colliding_text(rng, pattern, own[i], repeats)
        stream.whole(pattern, 0, 5, text)
        stream.open(pattern, 0, 5)
        cuts = sorted(rng.randrange(2 * m) for _ in range(3))
        for first, end in zip([0] + cuts, cuts):
            stream.feed(text[first:end])
        stream.set_method(1)
        stream.feed(text[cuts[-1] : 2 * m + 9])


# For windows of m bytes, how many more of c_0, c_1, ... a window can have than a
# mix, with the same sum modulo 2^64; bytes that the pattern lacks make up for
# those that are missing.  Each was found by reducing a lattice, and is tested.
EQUAL_SUMS = (
    (64, (-8, 7, -19, 11, 4, 0, 16, 0, 4, -11, 3, -7)),
    (64, (-6, 1, -4, 10, -15, 12, 0, -12, 15, -10, 4, 5)),
    (64, (-6, -5, -3, 6, -5, -3, 12, -12, 3, 5, -6, 9, 5)),
    (64, (-6, -7, 3, -9, -4, 16, 0, 4, 15, -6, -7, 8, -7)),
    (64, (10, 0, -1, 1, 11, 10, 1, -1, 0, 1, -12, -10, -1, -9)),
    (64, (-2, -4, -12, -2, 4, 6, -4, -2, -1, 0, 0, 2, 3, 5, 2, 5)),
    (63, (0, 0, 0, 0, 0, 0, 0, 0, 0, 0, -16)),
    (63, (0, 0, 0, 0, 0, 0, 0, 0, 0, 0, -32)),
    (63, (0, 0, 0, 0, 0, 0, 0, 0, 0, 0, 0, -1)),
    (63, (0, 0, 0, 0, 0, 0, 0, 0, 0, 0, -16, -1)),
    (63, (0, 0, 0, 0, 0, 0, 0, 0, 0, 0, -16, -9)),
    (63, (0, 0, 0, 0, 0, 0, 0, 0, 0, 0, 0, -2, 1)),
    (62, (6, -6, -20, -5, -1, -1, -3, 5, 1, 10, -7, 26, -11)),
    (62, (-6, 5, 3, 10, 8, -4, -3, -2, -5, 0, -2, -6, 1, -7)),
    (60, (10, 9, -13, 14, -5, 1, -4, -1, -7, -4, -6, -5, 7, 4)),
    (48, (-1, 0, -1, -2, -5, -2, 3, 14, 0, -5, 1, -6, 0, -2, -1, 5, -2, 4)),
    (40, (-3, 1, -2, 3, 6, -1, -7, 7, -2, -4, 4, 1, -5, 3, -1, 2, 0, -2)),
    (32, (-4, -2, -1, 2, -1, 4, 1, 1, -6, 3, 2, -1, -1, -1, -2, 1, 3, 1, 1, 0)),
)


def pattern_and_window(rng, m, more):
    """A pattern that has each letter often enough, and a window of equal sum."""
    own = some_letters(rng, len(more))
    counts = [max(1, -difference) for difference in more]
    while sum(counts) < m:
        counts[rng.randrange(len(counts))] += 1
    pattern = b"".join(bytes([c]) * count for c, count in zip(own, counts))
    window = b"".join(bytes([c]) * (n + d) for c, n, d in zip(own, counts, more))
    window += strangers(rng, pattern, m - len(window))
    assert sum(d * heap_value(m, i) for i, d in enumerate(more)) % 2**64 == 0
    assert len(pattern) == len(window) == m and not ref.heap_is_exact(pattern)
    return shuffled(rng, pattern), shuffled(rng, window)


def equal_sums(stream, rng):
    """Windows that are candidates and no mixes: alone, again and again in a
    text whose windows are all rotations of one, beside mixes, and fed so that
    they begin in the tail, or lie in the chunk."""
    for m, more in EQUAL_SUMS:
        pattern, window = pattern_and_window(rng, m, more)
        mix = shuffled(rng, pattern)
        stream.whole(pattern, 0, 5, window)
        stream.whole(pattern, 0, 5, repeated(m + rng.randrange(1, 2 * m), window))
        stream.whole(pattern, 0, 5, mix + window + mix[: m // 2])
        stream.whole(pattern, 0, 5, repeated(3 * m + rng.randrange(m), window + mix))
        stream.open(pattern, 0, 5)
        cut = rng.randrange(1, m)
        stream.feed(window[:cut])
        stream.feed(window[cut:] + window[: m // 3])
        stream.feed(repeated(m + rng.randrange(m), window[m // 3 :] + window[: m // 3]))
        stream.feed(mix + window[:cut])
        stream.set_method(1)
        stream.feed(window[cut : cut + 1])
        stream.set_method(5)
        stream.feed(window[cut + 1 :] + mix[:9])
        stream.save(512)
        stream.feed(mix[9:] + window[:1])


# --- Refusals at their edges, and which comes first ---------------------------------


def edges_of_terms(stream, rng):
    """Numbers 1 to 5 of open, each at both sides and several at once."""
    for m in (0, 1, 2, 3, 63, 64, 65, 66, 256, 257, 300):
        for k in sorted({0, 1, max(m - 1, 0) % 256, m % 256, (m + 1) % 256, 255}):
            for method in (0, 1, 2, 3, 4, 5, 6, 7, 200, 255):
                stream.open(repeated(m, b"ab"), k, method)
    for q in (31, 32, 65):
        for k in (0, 1, q, 255):
            for method in METHODS + NO_METHODS[:1]:
                stream.open(letters(q), k, method)


# Texts and lists: enough places, too few, too long a text, and both.
LIMITS = ((3, 3), (3, 2), (3, 0), (1, 0), (0, 0), (65537, 3))


def edges_of_whole_search(stream, rng):
    """Numbers 1 to 7 of a whole search: each set of terms with texts and
    lists that would be refused too."""
    for m, k in (
        (0, 0), (0, 255), (1, 0), (2, 1), (2, 2), (64, 0), (64, 63), (64, 64), (65, 0), (65, 65),
    ):
        for method in FORMER_METHODS:
            n, places = rng.choice(LIMITS)
            stream.whole(repeated(m, b"ab"), k, method, repeated(n, b"ab"), places)
    for pattern, k, method in (
        (b"", 0, 1), (b"", 0, 7), (repeated(65, b"a"), 0, 1), (letters(65), 0, 2),
        (b"ab", 2, 1), (b"ab", 2, 2), (b"ab", 0, 0), (b"ab", 1, 7), (b"ab", 1, 2), (b"ab", 1, 3),
        (b"ab", 1, 5), (b"ab", 1, 6), (b"ab", 2, 6), (letters(32), 0, 2), (letters(32), 1, 2),
        (letters(32), 32, 4),
    ):
        for n, places in LIMITS:
            stream.whole(pattern, k, method, repeated(n, b"ab"), places)
    for method in METHODS:
        for n, places in ((65536, 65536), (65537, 0), (5, 4), (5, 5), (5, 6), (5, 0)):
            stream.whole(b"ab", 0, method, repeated(n, b"abbx"), places)
    for method, k in itertools.product(METHODS + NO_METHODS, (0, 1, 2, 255)):
        stream.whole(b"ab", k, method, b"bab")
    for n, places in ((65536, 65535), (65537, 65536), (65537, 65537)):
        stream.whole(b"ab", 0, 2, repeated(n, b"abbx"), places)


def edges_of_feed(stream, rng):
    """Numbers 6, 7 and 8, alone and together, on a search that is sound."""
    for method in FORMER_METHODS:
        feeds_at_the_limits(stream, method)
    for n, places in ((65536, 65535), (65537, 65536), (65537, 65537)):
        stream.feed(repeated(n, b"abx"), places)
    for m, size in itertools.product((1, 2, 3, 64), (0, 1, 2, 5, 64)):
        feeds_at_the_largest_total(stream, rng.choice(FORMER_METHODS), m, size)
    feeds_at_the_largest_total(stream, rng.choice(FORMER_METHODS), 3, 65535)


def feeds_at_the_limits(stream, method):
    stream.open(b"ab", 0, method)
    for n, places in LIMITS + ((65536, 65536), (3, 4), (1, 1)):
        stream.feed(repeated(n, b"abx"), places)


def feeds_at_the_largest_total(stream, method, m, size):
    """A search that has room for that many bytes more."""
    pattern = b"a" * (m - 1) + b"b"
    search = ref.Search(pattern, 0, method, ref.LARGEST_TOTAL - size, pattern[1:])
    stream.load(ref.image_of(search))
    too_many = size + 1
    for n, places in (
        (too_many, too_many), (too_many, size), (65537, 9), (size, size), (0, 0), (1, 1),
    ):
        stream.feed(repeated(n, pattern), places)


def edges_of_set_method(stream, rng):
    """Numbers 3, 4 and 5 of the new method, on a search that is sound."""
    for pattern, k in ((b"a", 0), (b"ab", 0), (b"ab", 1), (letters(31), 0), (letters(32), 0),
                       (letters(32), 1), (letters(15), 3), (letters(16), 3), (letters(64), 63)):
        stream.open(pattern, k, 1)
        for method in FORMER_METHODS + NO_METHODS:
            stream.set_method(method)
        stream.feed(repeated(9, pattern))


def edges_of_save(stream, rng):
    """Number 10 at its edge."""
    for m in (1, 2, 3, 40, 64):
        saves_at_the_limits(stream, rng.choice(FORMER_METHODS), m)


def saves_at_the_limits(stream, method, m):
    stream.open(repeated(m, b"abc"), 0, method)
    for size in (0, 1, m):
        stream.feed(repeated(size, b"cab"))
        needed = len(ref.image_of(ref.contents(stream.search)))
        for room in (0, 1, 13, needed - 1, needed, needed + 1, 512):
            stream.save(room)


# --- Searches filled in by hand -------------------------------------------------------


def handed(rng, pattern, k, method, n, tail, pattern_len=None, tail_len=None):
    """A stored search with other bytes than 0 past its lengths."""
    def filled(some, size):
        return some + bytes(rng.randrange(1, 256) for _ in range(size - len(some)))

    return ref.Stored(
        filled(pattern, 64),
        len(pattern) if pattern_len is None else pattern_len,
        k,
        method,
        n,
        filled(tail, 63),
        len(tail) if tail_len is None else tail_len,
    )


def feed_set_and_save(stream, rng):
    """The three calls in any order, also as they would be refused anyway."""
    chunk, places = rng.choice(((b"", 0), (b"ab", 2), (b"ab", 1), (repeated(65537, b"ab"), 3)))
    calls = [
        lambda: stream.feed(chunk, places),
        lambda: stream.set_method(rng.choice(FORMER_METHODS + NO_METHODS)),
        lambda: stream.save(rng.choice((512, 512, 20, 0))),
    ]
    rng.shuffle(calls)
    for call in calls:
        call()


def searches_with_a_fault(stream, rng):
    sound = dict(pattern=b"abcab", k=1, method=4, n=9, tail=b"bcab")
    faults = [dict(pattern_len=m) for m in (0, 65, 66, 128, 256 + 5, 2**32 + 5, 2**63, 2**64 - 1)]
    faults += [dict(k=k) for k in (4, 5, 6, 255)]
    faults += [dict(method=method) for method in NO_METHODS + (2, 3, 5)]
    faults += [dict(tail_len=t) for t in (0, 3, 5, 63, 64, 256 + 4, 2**32 + 4, 2**64 - 1)]
    faults += [dict(n=n) for n in (0, 1, 3, 4, 5)]
    for n, tail_len in ((0, 0), (0, 1), (1, 0), (1, 1), (1, 2), (3, 2), (3, 3), (3, 4)):
        faults.append(dict(n=n, tail=b"abc"[:n], tail_len=tail_len))
    for q, k, method in ((31, 0, 2), (32, 0, 2), (31, 0, 3), (32, 0, 3), (15, 3, 4), (16, 3, 4)):
        faults.append(dict(pattern=letters(q), k=k, method=method, tail=letters(q)[1:], n=q - 1))
    for fault in faults:
        stream.hand(handed(rng, **dict(sound, **fault)))
        feed_set_and_save(stream, rng)
        feed_set_and_save(stream, rng)


def searches_with_faults(stream, rng):
    """Several faults of a search at once, and calls that a sound one would
    refuse too (its total leaves no room): the first number is given."""
    narrow = itertools.product((b"abcab",), (0, 1, 5), (1, 2, 4, 7))
    wide = itertools.product((letters(32),), (0, 1), (1, 2, 4, 7))
    lengths = ((None, None), (None, 63), (0, None), (65, 63))
    for pattern, k, method in itertools.chain(narrow, wide, [(letters(32), 32, 4)]):
        for pattern_len, tail_len in lengths:
            terms = pattern, k, method, ref.LARGEST_TOTAL
            stream.hand(handed(rng, *terms, pattern[1:], pattern_len, tail_len))
            stream.feed(b"ab", rng.randrange(3))
            stream.feed(repeated(65537, b"ab"), 3)
            stream.save(rng.choice((0, 19, 20)))
            for new in (rng.choice(NO_METHODS), 2, 4):
                stream.set_method(new)


def sound_searches(stream, rng):
    """Stored bytes past the lengths do nothing; only a feed writes them 0."""
    for m in (1, 2, 3, 17, 63, 64):
        for n in sorted({0, 1, max(m - 2, 0), m - 1, m, 1000, ref.LARGEST_TOTAL - 3}):
            pattern = pattern_of(rng, m, rng.randrange(1, 5))
            k = rng.choice((0, rng.randrange(m)))
            tail = make_text(rng, pattern, k, min(n, m - 1))
            stream.hand(handed(rng, pattern, k, drawn_method(rng, pattern, k), n, tail))
            needed = 19 + m + len(tail)
            stream.save(needed + rng.choice((-1, 0, 1)))
            stream.set_method(rng.choice(FORMER_METHODS + NO_METHODS))
            stream.save(512)
            stream.feed(with_errors(rng, pattern, k)[:3], rng.choice((1, 3, 3)))
            stream.save(512)
            stream.feed(make_text(rng, pattern, k, rng.randrange(9)))


# --- Images ---------------------------------------------------------------------------

IMAGES = (
    ref.Search(b"ab", 0, 2, 0, b""),
    ref.Search(b"abca", 1, 4, 9, b"bca"),
    ref.Search(b"a", 0, 5, 4294967295, b""),
)


def image_orders(stream, rng):
    """Saved, and loaded in all 24 orders, of which one is taken: what was loaded goes
    on as it should, and what was refused is the blank search."""
    wide = pattern_of(rng, 64, 3)
    searches = IMAGES + (
        ref.Search(b"\x04\x01\x02", 2, 1, 1, b"\x03"),
        ref.Search(wide, 0, 3, 70, shuffled(rng, wide)[1:]),
    )
    for search in searches:
        stream.hand(handed(rng, *search))
        stream.save(512)
    for order in ORDERS:
        for search in searches[: 5 if order in ((1, 2, 3, 4), (1, 2, 4, 3)) else 4]:
            stream.load(image_in_order(search, order))
        stream.save(512)
        stream.feed(b"\x01\x04\x02ab")


def changed_images(stream, rng):
    """Each byte changed, and every truncation; of the smallest, 20 bytes, every bit."""
    for search in IMAGES:
        image = ref.image_of(search)
        for end in range(len(image)):
            stream.load(image[:end])
        stream.load(image + b"\0")
        for at, byte in enumerate(image):
            bits = {byte ^ 1 << i for i in range(8)} if len(image) == 20 else set()
            for other in sorted({0, byte ^ 1, (byte + 1) % 256, 5, 255} - {byte} | bits):
                stream.load(image[:at] + bytes([other]) + image[at + 1 :])
        stream.save(99)


def bodies_in_another_order(stream, rng):
    """The entries as they must be, and the bodies in all orders: what stands where a
    body is looked for is taken for it."""
    searches = IMAGES[1], ref.Search(b"\0\1\0\1", 0, 1, 258, b"\1\0\0")
    for order in ORDERS:
        for search in searches:
            image, bodies = ref.image_of(search), ref.bodies_of(search)
            stream.load(image[:13] + b"".join(bodies[kind - 1] for kind in order))
            stream.save(99)


# Each alike with the one before it but for one part: the order of the pattern's letters,
# its letters, k, the method, n in each of its bytes, the tail.
NEARLY_ALIKE = (
    ref.Search(b"abc", 1, 4, 9, b"ab"),
    ref.Search(b"bac", 1, 4, 9, b"ab"),
    ref.Search(b"bab", 1, 4, 9, b"ab"),
    ref.Search(b"bab", 0, 4, 9, b"ab"),
    ref.Search(b"bab", 0, 6, 9, b"ab"),
    ref.Search(b"bab", 0, 6, 8, b"ab"),
    ref.Search(b"bab", 0, 6, 264, b"ab"),
    ref.Search(b"bab", 0, 6, 65800, b"ab"),
    ref.Search(b"bab", 0, 6, 16843016, b"ab"),
    ref.Search(b"bab", 0, 6, 16843016, b"ba"),
)


def equal_images(stream, rng):
    """Searches filled in by hand that differ past their lengths only, saved as one
    image; others that are nearly alike, saved as two; and each image loaded and saved
    again."""
    for search in IMAGES + NEARLY_ALIKE:
        for _ in range(2):
            stream.hand(handed(rng, *search))
            stream.save(64)
        stream.load(ref.image_of(search))
        stream.save(64)
    images = [ref.image_of(search) for search in IMAGES + NEARLY_ALIKE]
    assert len(set(images)) == len(images)


def image_with(bodies, lengths=()):
    """An image with any bodies, and lengths that need not be theirs."""
    said = {kind: len(body) for kind, body in bodies.items()}
    said.update(lengths)
    image = bytes([4])
    for kind in (1, 2, 3, 4):
        image += bytes([kind]) + said[kind].to_bytes(2, "little")
    return image + b"".join(bodies[kind] for kind in (1, 2, 3, 4))


def malformed_images(stream, rng):
    """Number 9 for the form, also with terms or a tail that are wrong too."""
    sound = {1: b"ab", 2: b"\0\2", 3: b"\5\0\0\0", 4: b"a"}
    for bodies in (sound, {**sound, 2: b"\7\7"}, {**sound, 4: b"abc"}):
        image = image_with(bodies)
        for first in (0, 3, 4, 5, 255):
            stream.load(bytes([first]) + image[1:])
        for at in (1, 4, 7, 10):
            for kind in (0, 1, 2, 3, 4, 5, 255):
                stream.load(image[:at] + bytes([kind]) + image[at + 1 :])
        for kind in (1, 2, 3, 4):
            for length in (0, 1, 2, 3, 4, 5, 256, 258, 65535):
                body = (bodies[kind] + bytes(9))[: min(length, 9)]
                stream.load(image_with({**bodies, kind: body}, {kind: length}))
        stream.load(image[:-1])
        stream.load(image + b"\0")
        # Lengths whose sum has the right low 16 bits, or the right low bytes.
        both = len(bodies[1]) + len(bodies[4])
        for first in (65535, 32769):
            stream.load(image_with(bodies, {1: first, 4: 65536 + both - first}))
        stream.load(image_with(bodies, {4: 256 + len(bodies[4])}))
    # Lengths exchanged between the entries.
    stream.load(image_with(sound, {1: 1, 4: 2}))
    stream.load(image_with(sound, {2: 4, 3: 2}))


def refused_contents(stream, rng):
    """Numbers 1 to 5 and the tail's 9 in an image of the right form."""
    pattern, tail = b"ab" * 100, b"ba" * 100
    lengths = 0, 1, 2, 64, 65, 66, 200
    methods = 0, 1, 2, 4, 5, 7, 200
    for m, k, method in itertools.product(lengths, (0, 1, 2, 255), methods):
        n = rng.choice((0, 1, 2, 100, 65536, ref.LARGEST_TOTAL))
        kept = max(0, min(n, m - 1) + rng.choice((0, 0, 0, 1, -1)))
        if m < 9 or rng.randrange(6) == 0:
            search = ref.Search(pattern[:m], k, method, n, tail[:kept])
            stream.load(ref.image_of(search))
    for q, k, method in (
        (31, 0, 2), (32, 0, 2), (32, 1, 2), (65, 0, 2), (32, 32, 4), (15, 3, 4), (16, 3, 4),
    ):
        for tail in (b"", b"A"):
            stream.load(ref.image_of(ref.Search(letters(q), k, method, 0, tail)))
    for m, k in itertools.product((63, 64, 65), (0, 62, 63, 64)):
        stream.load(ref.image_of(ref.Search(pattern[:m], k, 1, 0, b"")))


# --- Series of calls --------------------------------------------------------------------


class Series:
    """One search fed with parts of a text, saved, loaded and changed.  Where
    all of the text so far is known, a feed's list is tested against it."""

    def __init__(self, stream, rng, methods):
        self.stream, self.rng, self.methods = stream, rng, methods
        m = rng.choice((1, 2, 2, 3, 3, 4, 5, 6, 8, 12, 16, 31, 63, 64))
        q = rng.choice((1, 2, 3, 4, 6, 12 if m > 30 else 2))
        self.pattern = pattern_of(rng, m, q)
        self.k = rng.choice((0, 0, rng.randrange(m)))
        self.allowed = allowed_methods(self.pattern, self.k, methods)
        self.plan = make_text(rng, self.pattern, self.k, 6 * m + 60)
        self.kept = []
        self.open()

    def open(self):
        self.stream.open(self.pattern, self.k, self.rng.choice(self.allowed))
        self.at, self.text = 0, b""

    def feed(self):
        rng, m = self.rng, len(self.pattern)
        size = rng.choice((0, 1, 1, 2, 3, rng.randrange(9), rng.randrange(20), m - 1, m, m + 1))
        chunk = self.plan[self.at : self.at + size]
        self.at += len(chunk)
        if rng.randrange(8) == 0:
            chunk = make_text(rng, self.pattern, self.k, rng.randrange(6))
        number = self.stream.feed(chunk, len(chunk) + rng.choice((0, 0, 0, 1, 4)))
        if self.text is None or number:
            return
        joined = self.text + chunk
        every = ref.listed_positions(self.pattern, self.k, joined)
        assert self.stream.listed == [s for s in every if s + m > len(self.text)]
        self.text = joined

    def feed_refused(self):
        size = self.rng.randrange(1, 6)
        chunk = self.plan[self.at : self.at + size] or self.pattern[:1]
        self.stream.feed(chunk, self.rng.choice((0, len(chunk) - 1)))

    def set_method(self):
        some = self.methods + tuple(self.allowed) * 2 + NO_METHODS
        self.stream.set_method(self.rng.choice(some))

    def save(self):
        search = ref.contents(self.stream.search)
        image = ref.image_of(search)
        room = len(image) + self.rng.choice((-1, 0, 0, 0, 1, 7))
        if self.stream.save(room) == 0:
            self.kept.append((image, search, self.at, self.text))

    def load(self):
        """A saved image as it was written."""
        if not self.kept:
            return self.save()
        image, search, self.at, self.text = self.rng.choice(self.kept)
        self.stream.load(image)

    def load_damaged(self):
        """A changed image may be accepted: then the text so far isn't known."""
        image = bytearray(self.rng.choice(self.kept)[0] if self.kept else b"\4\1\2")
        way = self.rng.randrange(6)
        if way < 2 and self.kept:
            search = self.rng.choice(self.kept)[1]
            image = bytearray(image_in_order(search, self.rng.choice(ORDERS[1:])))
        elif way < 4:
            image[self.rng.randrange(len(image))] ^= 1 << self.rng.randrange(8)
        else:
            del image[self.rng.randrange(len(image)) :]
        self.text = None
        if self.stream.load(bytes(image)):
            self.go_on_from_blank()

    def open_refused(self):
        m, rng = len(self.pattern), self.rng
        k, method = rng.choice(((m, 1), (255, 7), (0, 0), (0, 7), (m, 4)))
        self.stream.open(self.pattern, k, method)
        self.go_on_from_blank()

    def go_on_from_blank(self):
        for call in (self.feed_blank, self.set_method, self.save_blank):
            if self.rng.randrange(2):
                call()
        (self.load if self.kept else self.open)()

    def feed_blank(self):
        self.stream.feed(self.pattern[:2], 2)

    def save_blank(self):
        self.stream.save(self.rng.choice((0, 19, 512)))

    def run(self, calls):
        usual = [self.feed] * 12 + [self.save] * 3 + [self.set_method] * 4 + [self.load] * 2
        for _ in range(calls):
            self.rng.choice(usual + [self.feed_refused, self.load_damaged, self.open_refused])()


def series_of_calls(stream, rng):
    for _ in range(95):
        Series(stream, rng, FORMER_METHODS).run(rng.randrange(8, 36))


# --- The program's input ------------------------------------------------------------------


def first_lines(stream, rng):
    """The line's form: each of its first bytes changed, left out or doubled."""
    sound, rest = b"2 0 abc", b"\nabcxxxabc\n"
    stream.report(sound + rest)
    for at in range(5):
        stream.report(sound[:at] + sound[at + 1 :] + rest)
        for c in b" 019:/\n\t\r\0-+a\xb2":
            stream.report(sound[:at] + bytes([c]) + sound[at + 1 :] + rest)
            stream.report(sound[:at] + bytes([c]) + sound[at:] + rest)
    for end in range(len(sound) + 1):
        stream.report(sound[:end])
        stream.report(sound[:end] + b"\n")
    for k in (
        b"", b"0", b"00", b"000", b"01", b"09", b"010", b"1", b"2", b"3", b"10", b"99", b"100", b"-1",
    ):
        for method in b"0123456789":
            stream.report(bytes([method]) + b" " + k + b" abc\nabcab")


def patterns_and_records(stream, rng):
    """Blanks and other bytes in the pattern, its length, last newlines."""
    for pattern in (
        b"", b" ", b"  ", b" a", b"a ", b"a b", b"\r", b"ab\r", b"\t", b"\0", b"\xff\xfe", b"-",
    ):
        for end in (b"", b"\n", b"\n\n", b"\r\n", b"\n \n"):
            record = pattern + b"a" + pattern + end
            stream.report(line(rng.choice(FORMER_METHODS), 0, pattern) + record)
    for m, method in itertools.product((1, 10, 11, 63, 64, 65), (1, 2, 4, 6, 7)):
        for k in sorted({0, m - 1, m}):
            first = line(method, k, b"a" * m)
            stream.report(repeated(len(first) + m + 1, first + b"a" * m))
    for q, k, method in (
        (31, 0, 2), (32, 0, 2), (31, 0, 3), (32, 0, 3), (15, 3, 4), (16, 3, 4), (32, 1, 2),
    ):
        stream.report(line(method, k, letters(q)) + letters(q) + b"\n")
    for (pattern, k, text, _, _), method in itertools.product(SHEET, FORMER_METHODS):
        stream.report(line(method, k, pattern) + text + rng.choice((b"", b"\n")))


def input_lengths(stream, rng):
    """16,384 bytes and one more: 6 comes before 11, and before 1 to 5."""
    for size in (16383, 16384, 16385):
        for unit in (
            b"1 0 a\na", b"2 0 ab\nabbax", b"3 0 aab\nabaxx", b"4 1 abcd\nabxdcbad\n",
            b"5 0 abc\ncabx", b"6 0 abc\ncabxbb", b"1 0 \n", b"1 2 ab\nab", b"7 0 ab\nab",
            b"2 1 ab\nab", b"abc", b"\n", b"1 00 a\n", b"1 0 a\n",
        ):
            stream.report(repeated(size, unit))
        stream.report(scattered(size, rng.randrange(2**32), b"1 0 a\n"))
    for _ in range(30):
        pattern = bytes(rng.choice(b"ab c") for _ in range(rng.randrange(1, 9)))
        k = rng.randrange(len(pattern)) if rng.randrange(2) else 0
        first = line(drawn_method(rng, pattern, k), k, pattern)
        record = bytes(rng.choice(b"ab c\nx") for _ in range(rng.randrange(120)))
        stream.report(repeated(rng.randrange(200, 3000), first + record))


# First lines that are none: no newline, an empty line, a digit too many or too
# few or none, a leading zero, a space too many or too few, another space.
BAD_LINES = (
    b"abc", b"2 0 abc", b" ", b"0", b"\n", b"\n2 0 abc\n", b" 2 0 abc\n", b"2\n", b"2 \n", b"2 0\n",
    b"20 abc\n", b"2 0abc\n", b"20abc\n", b"2  0 abc\n", b"22 0 abc\n", b"2 00 abc\n", b"2 01 abc\n",
    b"2 000 abc\n", b"2 100 abc\n", b"x 0 abc\n", b"2 x abc\n", b"2 1x abc\n", b"2 x1 abc\n",
    b"2 -1 abc\n", b"- 0 abc\n", b"2\t0 abc\n", b"2 0\tabc\n", b"2 0\r\n", b"\0 0 abc\n", b"2 0\0abc\n",
)


def bad_lines_of_long_inputs(stream, rng):
    """A bad line gives 11 up to 16,384 bytes, and 6 from there on."""
    for unit in BAD_LINES:
        for size in (16384, 16385, 16386, 20000):
            stream.report(repeated(size, unit))
    for size in (16384, 16385, 65536, 65537):
        stream.report(scattered(size, rng.randrange(2**32), b"abc"))
        stream.report(scattered(size, rng.randrange(2**32), b"x\n"))


# --- Several patterns in one pass (document 02, T-01) --------------------------------------


def several(stream, patterns, k, text, places=None, numbers=None, lengths=None):
    """In each list as many places as bytes times patterns, and the lengths that
    the patterns have, unless something else is said."""
    text = vs.as_text(text)
    lengths = [len(pattern) for pattern in patterns] if lengths is None else lengths
    most = len(text.value) * len(lengths)
    handed = vs.Handed(most if numbers is None else numbers, lengths, b"".join(patterns))
    return stream.several(handed, k, text, most if places is None else places)


def made_patterns(rng, count, m, own):
    """That many patterns of m bytes, from some letters."""
    return [bytes(rng.choice(own) for _ in range(m)) for _ in range(count)]


def numbers_of_patterns(stream, rng):
    """Number 12 on both sides of one and of eight patterns."""
    for count in (0, 1, 2, 3, 7, 8, 9, 16):
        several(stream, made_patterns(rng, count, 1, b"ab"), 0, repeated(9, b"aab"))
        several(stream, made_patterns(rng, count, 3, b"ab"), 2, b"abaab")
    for count in range(1, 9):
        several(stream, made_patterns(rng, count, 2, b"ab"), 0, repeated(7, b"aab"))


def lengths_of_patterns(stream, rng):
    """Numbers 1 and 12 by the lengths: one length that no pattern can have, at
    any place, comes before all else; then lengths that differ."""
    every = 0, 1, 2, 4, 64, 65, 256 + 3, 2**32 + 3, 2**63, 2**64 - 1
    for count, others in ((1, every), (2, every), (8, (0, 4, 65)), (9, (0, 65))):
        for at, m in itertools.product(sorted({0, count - 2, count - 1} - {-1}), others):
            lengths = [3] * count
            lengths[at] = m
            handed = b"abc" * (count - 1) + b"abc"[: min(m, 3)]
            several(stream, [handed], 0, b"abcab", lengths=lengths)
    # Lengths whose sum wraps to the number of bytes.
    for lengths, handed in (
        ([2**63, 2**63], b""), ([2**61] * 8, b""), ([2**64 - 1, 4], b"abc"), ([3, 2**64 - 2], b"a"),
    ):
        several(stream, [handed], 0, b"abc", lengths=lengths)
    # Lengths with the sum that they would have if they were alike.
    for lengths in ((2, 3, 1), (1, 3), (3, 2, 4, 3), (3, 3, 3, 3, 3, 3, 2, 4), (2, 4, 3), (63, 64)):
        several(stream, [letters(sum(lengths))], 0, b"ab", lengths=list(lengths))


def bytes_of_patterns(stream, rng):
    """Number 12 where the lengths are not those of the bytes."""
    for count, m in ((1, 1), (1, 3), (2, 3), (8, 2), (1, 64)):
        size = count * m
        for handed in sorted({0, size - m, size - 1, size, size + 1, size + m}):
            patterns = [repeated(handed, b"abc").value]
            several(stream, patterns, 0, b"abab", lengths=[m] * count)


def tolerances_of_several(stream, rng):
    """Number 2 at its edge."""
    for count, m in ((1, 1), (8, 1), (2, 2), (3, 3), (1, 63), (2, 64)):
        patterns = made_patterns(rng, count, m, b"ab")
        for k in sorted({0, m - 1, m, m + 1, 255}):
            several(stream, patterns, k, repeated(m + 3, b"abc"))


def edges_of_several(stream, rng):
    """All numbers with one another: every choice of tests that apply."""
    for bad, odd, large, long, few in itertools.product((False, True), repeat=5):
        lengths = [2, 65 if bad else 2, 2]
        patterns = [b"ab", b"ba", b"bbb" if odd else b"bb"]
        text = repeated(65537, b"ab") if long else b"abbab"
        several(stream, patterns, 2 if large else 1, text, 14 if few else 65537, 65537, lengths)
    for k, text in ((0, b"ab"), (9, b"ab"), (0, repeated(65537, b"ab"))):
        several(stream, [], k, text)
        several(stream, [b"ab"] * 9, k, text, 1, 0)
        several(stream, [b"ab"] * 8 + [b""], k, text, 1, 0)
        several(stream, [b"ab", b"abc"], k, text, 1, 0)


def places_of_several(stream, rng):
    """Number 7 at its edge, in either list, and lists that are longer than they
    have to be, also by unlike numbers of places."""
    for n, count in ((1, 1), (5, 2), (4, 3), (0, 1), (3, 8)):
        most = n * count
        for places, numbers in (
            (most, most), (most + 1, most), (most, most + 9), (most + 20, most + 3),
            (most - 1, most), (most, most - 1), (most - 1, most + 1), (most + 1, most - 1),
            (0, most), (most, 0), (n, n),
        ):
            if places >= 0 and numbers >= 0:
                several(stream, [b"ab"] * count, 0, repeated(n, b"ab"), places, numbers)
    several(stream, [b"ab"] * 8, 0, b"", 0, 0)
    for n, count, places, numbers in (
        (8192, 8, 65536, 65536), (8192, 8, 65535, 65536), (8192, 8, 65536, 65535),
        (8192, 8, 65537, 65536), (8193, 8, 65537, 65537), (65536, 1, 65536, 65536),
        (65536, 1, 65536, 65535), (65536, 1, 65535, 65536), (65536, 2, 65537, 65537),
        (65537, 1, 65537, 65537), (65537, 1, 0, 0), (65537, 8, 65537, 65537),
        (65537, 2, 65536, 65537), (32768, 2, 65536, 65536),
        (9362, 7, 65534, 65537), (9362, 7, 65533, 65537),
    ):
        several(stream, [b"aab"] * count, 0, repeated(n, b"abaax"), places, numbers)


def texts_of_several(stream, rng):
    """Texts shorter than the patterns, of their length, one longer, and longer."""
    for m, count in ((1, 2), (2, 1), (2, 8), (3, 3), (63, 1), (64, 1), (64, 2), (63, 8)):
        own = some_letters(rng, 3)
        for n in sorted({0, 1, m - 1, m, m + 1, 2 * m + 1}) if count * m < 500 else (m - 1, m):
            patterns = [shuffled(rng, repeated(m, own).value) for _ in range(count)]
            several(stream, patterns, rng.choice((0, rng.randrange(m))), repeated(n, own))


def patterns_alike(stream, rng):
    """One pattern several times, patterns that are mixes of one another, and
    windows that match all of them, or none."""
    for pattern, k, text in (
        (b"a", 0, b"aabaa"), (b"ab", 0, b"abbaabxba"), (b"aab", 1, b"abaxaabbb"),
        (b"abcd", 2, b"dcbaxabdc"), (b"\0\xff", 0, b"\xff\0\0\xff"),
    ):
        other = bytes((c + 7) % 256 for c in pattern)
        for count in (2, 4):
            several(stream, [pattern] * count, k, text)
            several(stream, [shuffled(rng, pattern) for _ in range(count)], k, text)
            several(stream, [other] * count, k, text)
            several(stream, [other] * (count - 1) + [pattern], k, text)
        several(stream, [pattern, other] * 4, k, text)
    mixes = [bytes(each) for each in itertools.permutations(b"abc")]
    several(stream, mixes + mixes[:2], 0, repeated(30, b"abcxcba"))
    several(stream, [b"aba"] * 8, 0, repeated(30, b"ab"))
    for n, count in ((20, 1), (20, 2), (20, 8), (8192, 8), (65536, 1)):
        several(stream, [b"a"] * count, 0, repeated(n, b"a"))
    for k in range(3):
        several(stream, [b"aaa", b"aab", b"abb", b"bbb"], k, scattered(60, k, b"abc"[: 2 + k // 2]))
    for pattern, k, text, _, _ in SHEET:
        several(stream, [pattern], k, text)
        several(stream, [text[: len(pattern)].ljust(len(pattern)), pattern], k, text)


def bytes_of_several(stream, rng):
    """Every byte value in a pattern and in a text, beside its neighbours; with the
    lost-hour mark the patterns are refused, and without it taken."""
    for first in range(0, 256, 8):
        own = bytes(range(first, first + 8))
        near = bytes([(first - 1) % 256]) + own + bytes([(first + 8) % 256, first ^ 128])
        several(stream, [bytes([c]) for c in own], 0, near)
        if ref.LOST in own:
            several(stream, [bytes([c]) for c in own if c != ref.LOST], 0, near)
    wide = [letters_from(first) for first in range(0, 256, 64)]
    several(stream, wide, 60, repeated(300, bytes(range(255))))


def fields_at_their_limits(stream, rng):
    """64 of a byte in a pattern and in a window, and fields beside them that
    are as low as they get: no field may reach into its neighbour."""
    same = [b"a" * 64] * 8
    turns = [b"a" * 64, b"b" * 64] * 4
    for patterns, k, unit, n in (
        (same, 0, b"a", 70), (same, 63, b"a", 70), (same, 63, b"x", 70),
        (turns, 0, b"a" * 64 + b"b" * 64, 255),
        (turns, 63, b"b" * 64 + b"x" * 65 + b"a" * 64, 255),
        (turns[:2], 31, b"a" * 64 + b"b" * 64, 255), (turns[:1], 63, b"x" * 63 + b"a", 200),
        (turns[1:3], 0, b"a" * 65 + b"b" * 66, 255), (turns[:2], 63, b"x" * 64 + b"ba", 200),
    ):
        several(stream, patterns, k, repeated(n, unit))


def made_several(stream, rng):
    """One to eight patterns of few letters, and every k of short ones."""
    for m in range(1, 7):
        for k in range(m):
            for count in range(1 + k % 2, 9, 2):
                own = some_letters(rng, rng.randrange(2, 4))
                patterns = made_patterns(rng, count, m, own[:2])
                text = scattered(rng.randrange(m, 40), rng.randrange(2**32), own)
                several(stream, patterns, k, text)
    for _ in range(40):
        m, count = rng.randrange(1, 12), rng.randrange(1, 6)
        own = pattern_of(rng, m, rng.randrange(1, 5))
        k = rng.choice((0, rng.randrange(m)))
        patterns = [with_errors(rng, own, rng.randrange(min(m, 3) + 1)) for _ in range(count)]
        text = make_text(rng, rng.choice(patterns), k, rng.randrange(2 * m + 8))
        most = len(text) * count
        several(stream, patterns, k, text, most + rng.choice((0, 0, 3)), most + rng.choice((0, 1)))


def long_texts_of_several(stream, rng):
    for n, count, m, k, own in (
        (8192, 8, 5, 1, b"abc"), (8192, 8, 12, 2, b"ab"), (2000, 8, 24, 7, b"abcd"),
        (2000, 3, 64, 20, b"abcd"), (20000, 3, 7, 0, b"ab"), (32768, 2, 2, 0, b"abc"),
        (65536, 1, 3, 1, b"abcd"),
    ):
        patterns = made_patterns(rng, count, m, own)
        several(stream, patterns, k, scattered(n, rng.randrange(2**32), own + b"x"[: count % 2]))


# --- The marked sheet on paper (document 02, T-02) -----------------------------------------


def marked(stream, pattern, k, method, text, spare=0, places=None):
    """A buffer of so many bytes more than the sheet has, or fewer, and as many
    places as readings, unless it is said how many."""
    text = vs.as_text(text)
    lines = len(ref.listed_positions(pattern, k, text.value))
    room = max(ref.sheet_length(lines) + spare, 0)
    # The longest buffer that a case can have; cut to it, a sheet that is meant to
    # be written would be refused.
    assert room <= 65537, "%d lines, for which no case has a buffer" % lines
    places = len(text.value) if places is None else places
    return stream.marked(vs.Marked(room, pattern), k, method, text, places)


def numbers_of_lines(stream, rng):
    """Both sides of one, two and three full pages, with buffers at both sides
    of what the sheet needs: by a byte, by the bytes between the pages, by a
    line, and by a line with the byte before it."""
    for lines in (1, 2, 49, 50, 51, 52, 99, 100, 101, 149, 150, 151):
        for spare in (-77, -76, -3, -2, -1, 0, 1, 2, 76, 77):
            marked(stream, b"a", 0, rng.choice(FORMER_METHODS), repeated(lines, b"a"), spare)
        text = repeated(3 * lines, b"aba")
        for spare in (-1, 0, 40):
            marked(stream, b"ba", 0, rng.choice(FORMER_METHODS), text, spare)


def sheets_of_nothing(stream, rng):
    """No positions make no bytes, for which an empty buffer is enough; one
    position makes a line, for which 75 bytes are too few."""
    for method, room in itertools.product(METHODS, (0, 1, 76)):
        for text in (b"", b"a", b"bb", repeated(60, b"abb")):
            stream.marked(vs.Marked(room, b"aab"), 0, method, text, len(vs.as_text(text).value))
    for method, room in itertools.product(METHODS, (0, 1, 75, 76, 77, 152)):
        for text in (b"ab", b"xbax"):
            stream.marked(vs.Marked(room, b"ab"), 0, method, text, 4)


# On paper: none and the highest, newline, new page and carriage return, the
# blank, the marks beside the edges, the lost hour, and the full stop itself.
SHOWN = bytes((0, 10, 12, 13, 31, 32, 33, 45, 46, 47, 125, 126, 127, 128, 255))


def readings_on_paper(stream, rng):
    """Each edge in the pattern and, by an error, only in the window; then every
    reading, at every place of a window of 64."""
    for c in SHOWN:
        near = bytes([c, (c + 1) % 256, c, (c - 1) % 256, c])
        for method in METHODS:
            marked(stream, bytes([c]), 0, method, near)
        for method in (1, 4):
            marked(stream, b"aa", 1, method, b"a" + near + b"a")
    # Readings that would pass for the end of a line or a page, for padding, or for
    # a position, if they showed as themselves or stood in the first ten bytes.
    for pattern in (b"\n\n", b"\x0c", b"\n\x0c\n", b"  ", b" 7", b"12", b"\n        77 "):
        method = rng.choice(FORMER_METHODS)
        marked(stream, pattern, 0, method, b"a" + pattern * 2 + pattern[::-1])
    for first in range(0, 256, 64):
        own = letters_from(first)
        for method, pattern in ((1, own), (5, own), (1, own[:63]), (5, own[1:])):
            marked(stream, pattern, 0, method, repeated(130, own))
    for k in (62, 63):
        marked(stream, b"a" * 64, k, 1, scattered(140, k, bytes(range(255))))
        marked(stream, b"a" * 64, k, 4, b"a" + bytes(range(129, 256)) + b"a" * 9)


def windows_on_paper(stream, rng):
    """Every length of a window, in texts that end within it, with it, and after
    it; with the largest k every window is listed, whatever it holds."""
    for m in range(1, 65):
        own = some_letters(rng, 2)
        pattern = repeated(m, own).value
        for n in (m - 1, m, m + 1, 2 * m + 1) if m in (1, 2, 63, 64) else (m + 1,):
            marked(stream, pattern, 0, rng.choice(FORMER_METHODS), repeated(n, own))
            marked(stream, pattern, m - 1, rng.choice((1, 4)), scattered(n, m, own + b"x~"))


# Lengths of texts that are the same letters over and over, and these: the last
# positions of pattern `a` are one below a power of ten and the power, or the
# last that a text can have.
DIGITS = (
    (10, b"a"), (11, b"a"), (100, b"a"), (101, b"a"),
    (1000, b"aa" + b"x" * 35), (1001, b"aa" + b"x" * 35),
    (10000, b"a" + b"." * 248 + b"a"), (10001, b"a" + b"." * 248 + b"a"),
    (65535, b"a" + b" " * 254), (65536, b"a" + b" " * 254), (65536, b"+" * 253 + b"aa"),
)


def digits_of_positions(stream, rng):
    """Positions of one to five digits, at both sides of each power of ten."""
    for n, unit in DIGITS:
        for method in FORMER_METHODS:
            marked(stream, b"a", 0, method, repeated(n, unit))
    for n in (65535, 65536):
        marked(stream, b" a", 0, 1 + n % 5, repeated(n, b"a" + b" " * 254))
        marked(stream, b"a  ", 1, (1, 4)[n % 2], repeated(n, b"a" + b"x" * 252 + b"  "))


def one_sheet_by_every_method(stream, rng):
    """The same sheet from all methods that take the terms, each with its own
    looks; the others refuse."""
    for pattern, k, text, _, _ in SHEET:
        for method in METHODS + NO_METHODS[:2]:
            marked(stream, pattern, k, method, text)
    for m, own, n in ((2, b"ab", 30), (3, b"aab", 90), (5, b"abacc", 150), (12, b"+ab", 75)):
        pattern = repeated(m, own).value
        for text in (repeated(n, own + b"x" + own), scattered(n, m, own)):
            for method in METHODS:
                marked(stream, pattern, 0, method, text)
    for q in (10, 11):
        pattern = letters(q) + b"A" * (63 - q)
        for method in allowed_methods(pattern, 0):
            marked(stream, pattern, 0, method, pattern + pattern[:3])


# Terms that are refused with 1 to 5, some with several of them, and terms that
# are taken.
TERMS = (
    (b"", 0, 1), (b"", 0, 7), (b"a" * 65, 0, 1), (letters(65), 0, 2), (letters(65), 1, 2),
    (b"a" * 257, 255, 0), (b"a" * 300, 0, 1), (b"ab", 2, 1), (b"ab", 2, 2), (b"ab", 255, 7),
    (b"ab", 0, 0), (b"ab", 1, 7), (b"ab", 0, 255), (b"ab", 1, 2), (b"ab", 1, 3), (b"ab", 1, 5),
    (letters(32), 0, 2), (letters(31), 0, 3), (letters(32), 0, 3), (letters(32), 1, 2),
    (letters(32), 32, 4), (letters(16), 3, 4), (b"ab", 0, 2), (b"ab", 1, 4), (letters(31), 0, 2),
)


def edges_of_sheet(stream, rng):
    """Every set of terms with lists and buffers that would be refused too: the
    first number wins, and 10 comes when nothing else does."""
    for pattern, k, method in TERMS:
        text = pattern + b"ab" + pattern[:9]
        for places, spare in itertools.product((len(text), len(text) - 1), (-1, 0)):
            marked(stream, pattern, k, method, text, spare, places)
        stream.marked(vs.Marked(0, pattern), k, method, text, 0)
        stream.marked(vs.Marked(0, pattern), k, method, repeated(65537, b"ab"), rng.choice((0, 65537)))
    for method, k in itertools.product(FORMER_METHODS + NO_METHODS, (0, 1, 2, 255)):
        marked(stream, b"ab", k, method, b"bab", rng.choice((-1, 0)))


def limits_of_sheet(stream, rng):
    """Numbers 6, 7 and 10, alone and together, at their edges."""
    for method in METHODS:
        for places, spare in itertools.product((0, 4, 5, 6, 14), (-152, -1, 0, 1, 30)):
            marked(stream, b"ab", 0, method, b"abxba", spare, places)
    for n, places in ((65536, 65536), (65536, 65535), (65536, 65537), (65537, 65537)):
        for spare in (-65537, -77, -1, 0):
            text = repeated(n, b"ab" + b"x" * 126)
            marked(stream, b"ab", 0, rng.choice(FORMER_METHODS), text, spare, places)
    for n, room in ((862, 65537), (863, 65537), (65536, 65537), (65537, 65537), (65536, 0)):
        stream.marked(vs.Marked(room, b"a"), 0, 1 + n % 5, repeated(n, b"a"), n)


def made_sheets(stream, rng):
    for _ in range(120):
        m = rng.choice((rng.randrange(1, 5), rng.randrange(1, 10), rng.randrange(1, 65)))
        pattern = pattern_of(rng, m, rng.randrange(1, 5))
        k = rng.choice((0, rng.randrange(m), rng.randrange(min(m, 4))))
        text = make_text(rng, pattern, k, rng.randrange(3 * m + 8))
        method = drawn_method(rng, pattern, k)
        places = len(text) + rng.choice((0, 0, 1, 5))
        marked(stream, pattern, k, method, text, rng.choice((-1, 0, 0, 1, 30)), places)


# Length of the text, m, k, the pattern's letters, and others of the text.  Where
# the text has 861 + m readings every window of it is listed, which makes 862
# lines, the most that the longest buffer of a case holds.
LONG = (
    (862, 1, 0, b"a", b""), (2500, 1, 0, b"~", b"a.+"), (3000, 2, 0, b"ab", b"c"),
    (2400, 3, 0, b"\n\x0c ", b"7"), (20000, 7, 0, b"abcde", b""), (65536, 4, 0, b"abcd", b"efghij"),
    (5000, 64, 0, b"ab", b""), (925, 64, 0, b"a", b""),
    (863, 2, 1, b"ab", b""), (1200, 2, 1, b"ab", b"xyz"), (2000, 3, 1, b"\n\x0c ", b"\xff\r\0"),
    (1500, 5, 1, b"abc", b"x"), (2500, 9, 2, b"abcde", b"x"), (50000, 6, 1, b"abcdef", b"ghijkl"),
    (1200, 64, 11, letters(15), b""), (2500, 64, 40, b"ab", b"cdef"), (925, 64, 63, b"ab", b"x"),
)

# The same, with a line too many or far more.
TOO_LONG = (
    (863, 1, 0, b"a", b""), (900, 1, 0, b"a", b""), (926, 64, 0, b"a", b""),
    (864, 2, 1, b"ab", b""), (3000, 5, 1, b"abc", b""), (5000, 9, 2, b"abcde", b""),
    (926, 64, 63, b"ab", b"x"), (1500, 64, 40, letters(15), b""),
)


def long_sheets(stream, rng):
    """Many pages, by every method into a buffer that they fill, and into one a
    byte shorter and one a byte longer; then more than any buffer here holds."""
    for n, m, k, own, others in LONG:
        pattern, text = repeated(m, own).value, scattered(n, rng.randrange(2**32), own + others)
        methods = allowed_methods(pattern, k)
        short, longer = drawn_method(rng, pattern, k), drawn_method(rng, pattern, k)
        for method, spare in [(short, -1)] + [(method, 0) for method in methods] + [(longer, 1)]:
            number = marked(stream, pattern, k, method, text, spare)
            assert number == (10 if spare < 0 else 0), "not the number that is meant"
    for n, m, k, own, others in TOO_LONG:
        pattern, text = repeated(m, own).value, scattered(n, rng.randrange(2**32), own + others)
        method = drawn_method(rng, pattern, k)
        number = stream.marked(vs.Marked(65537, pattern), k, method, text, n)
        assert number == 10, "a sheet that fits"


# --- Letters that come three times (document 02, T-03) ---------------------------------------

THRICE = letters(21) * 3
WITH_ONE = letters(20) * 3 + b"x"
WITH_TWO = letters(20) * 3 + b"xy"

# A pattern, a method, and the bits that the fields need for k = 0: a word's and one
# more.  Method 4 kept its widths.
SIDES = (
    (THRICE, 2, 64), (WITH_TWO, 2, 65), (WITH_ONE, 3, 64), (THRICE, 3, 65),
    (letters(15) * 3 + b"x", 4, 64), (letters(15) * 3 + b"xx", 4, 65), (THRICE, 4, 86),
)


def fed_in_turn(stream, pattern, pieces, methods):
    """Each piece by the next method.  Where that is refused the one before it goes
    on; either way the lists are the matching windows of the record so far."""
    stream.open(pattern, 0, methods[0])
    record, listed = b"", []
    for at, piece in enumerate(pieces):
        if at:
            stream.set_method(methods[at % len(methods)])
        number = stream.feed(piece)
        assert number == 0
        record += piece
        listed += stream.listed
        assert listed == ref.listed_positions(pattern, 0, record)


def sides_by_every_call(stream, rng):
    """Every call that measures the fields, at both sides of 64 bits."""
    for pattern, method, bits in SIDES:
        assert ref.bits_needed(pattern, 0, method) == bits
        mix = shuffled(rng, pattern)
        text = mix + mix[:1] + pattern[:1] if bits <= 64 else mix[:2]
        sound = ref.Search(pattern, 0, method, 99, mix[1:])
        stream.width(pattern, 0, method)
        stream.whole(pattern, 0, method, text)
        stream.open(pattern, 0, method)
        stream.save(99)
        fed_in_turn(stream, pattern, (text[:1], text[1:-1], text[-1:]), (1, method, 5))
        stream.load(ref.image_of(sound))
        stream.hand(handed(rng, *sound))
        stream.save(160)
        stream.feed(mix[:2])
        stream.set_method(1)
        stream.report(line(method, 0, pattern) + text)
        marked(stream, pattern, 0, method, text)


# How often a letter comes, at both sides of each power of two: from one power to
# the next its field has the same width.
COUNTS = (1, 2, 3, 4, 5, 7, 8, 15, 16, 31, 32, 63, 64)


def counts_at_each_width(stream, rng):
    """Windows with a letter as often as the pattern has it, and once more: beside
    few other letters, so that m is odd and even, and beside some of its count."""
    for v, method in itertools.product(COUNTS, (2, 3)):
        run = b"a" * v
        stream.width(repeated(v, b"a"), 0, method)
        for others in (b"b", b"bc") if v < 63 else (b"b",) if v < 64 else (b"",):
            text = others + run + others[:1] + b"a" + run + others[::-1]
            stream.whole(run + others, 0, method, text)
        for own in (b"ab", b"abc"):
            m = v * len(own)
            if m <= 64:
                made = scattered(2 * m + 30, rng.randrange(2**32), own)
                stream.whole(repeated(m, own), 0, method, made)


def filled_up(v, bits):
    """A letter that comes v times, and others once, or one of them twice, so that
    the fields of all of them have that many bits."""
    rest = bits - ref.own_width(v)
    return b"~" * v + letters(rest // 2) + letters(rest % 2)


def filled_to_a_word(stream, rng):
    """62 bits of the letters make 63 in method 2 and 64 in method 3; 63 make 64 and
    65, so that only the change to method 2 is accepted; 64 make too many for both."""
    for v, bits in itertools.product(COUNTS, (62, 63, 64)):
        pattern = filled_up(v, bits)
        if len(pattern) <= 64:
            for method, shared in ((2, 1), (3, 2)):
                assert ref.bits_needed(pattern, 0, method) == bits + shared
            mix = shuffled(rng, pattern)
            pieces = mix[:1], mix[1:] + b"~A", mix[2:4] + b"~~+"
            fed_in_turn(stream, pattern, pieces, (1, 2, 3))


def accepted_since(stream, rng):
    """Made patterns at both sides of what fits since T-03."""
    for pattern, _, method, _ in near_a_word(rng, (2, 3), 1, ref.own_width):
        stream.width(pattern, 0, method)
        size = len(pattern) + 30 if ref.fits(pattern, 0, method) else 2
        stream.whole(pattern, 0, method, make_text(rng, pattern, 0, size))


def cut_anywhere(stream, rng):
    """A record cut at each place, and begun by one method and ended by another."""
    record = b"abbabaaabbxbabaab"
    for methods, cut in itertools.product(((2, 3), (3, 2)), range(len(record) + 1)):
        fed_in_turn(stream, b"ab" * 3, (record[:cut], record[cut:]), methods)


def in_many_pieces(stream, rng):
    """Methods 2 and 3 in turn; where method 3 would need 65 bits 2 and 1, with
    changes between them that are refused."""
    for pattern, methods in (
        (letters(3) * 3, (2, 3)), (letters(9) * 3, (3, 2)), (WITH_ONE, (2, 3)),
        (THRICE, (2, 3, 1, 3, 2, 4)),
    ):
        m = len(pattern)
        # From the first window on almost every piece ends one that matches.
        first, second = shuffled(rng, pattern), shuffled(rng, pattern)
        record = (first * 2)[: m + 12] + b"+" + (second * 2)[: m + 11]
        pieces = []
        for size in (m - 1, 1, 2, 1, 3, 1, 2, 1, 1, 1) * 2:
            pieces.append(record[:size])
            record = record[size:]
        fed_in_turn(stream, pattern, pieces, methods)


def images_of_letters_thrice(stream, rng):
    """A saved search is loaded and goes on; with a method in its image that needs
    too many bits it is refused with 5."""
    for pattern, method, others in (
        (THRICE, 2, (2, 3, 1, 4)), (WITH_ONE, 3, (3, 4)), (WITH_TWO, 1, (1, 2)),
    ):
        mix = shuffled(rng, pattern)
        stream.open(pattern, 0, method)
        stream.feed(mix[:-1])
        search = ref.contents(stream.search)
        stream.save(len(ref.image_of(search)))
        for other in others:
            stream.load(ref.image_of(search._replace(method=other)))
            stream.feed(mix[-1:] + mix[:1])


# --- Method without counters (document 02, T-04) ---------------------------------------------


def windows_of_one_reading(stream, rng):
    """Each reading is a window, which is verified, or left behind at once."""
    for c, other in ((b"a", b"b"), (b",", b"."), (b"\0", b"\xff"), (b"\xff", b"\0")):
        for text in (b"", c, other, c * 9, other * 9, (c + other) * 3, other + c * 2 + other * 2):
            stream.whole(c, 0, 6, text)


def lengths_of_known_letters(stream, rng):
    """Texts at both sides of m, of readings that the pattern has, of others, and
    of both."""
    for m in (1, 2, 63, 64):
        for n in (m - 1, m, m + 1, 2 * m + 1):
            for unit in (b"ab", b"x", b"aabxba"):
                stream.whole(repeated(m, b"ab"), 0, 6, repeated(n, unit))


def every_short_text(stream, rng):
    """All that three windows can be, and all that three can be that are verified."""
    for text in itertools.product(b"abx", repeat=4):
        stream.whole(b"ab", 0, 6, bytes(text))
    for text in itertools.product(b"ab", repeat=5):
        stream.whole(b"aab", 0, 6, bytes(text))


def stops_at_every_offset(stream, rng):
    """A reading that the pattern lacks at each place of a window: alone, with
    others to its left, which aren't looked at, and before windows that are
    verified.  Then it is fed, and goes through the windows of a long pattern."""
    for m in (2, 3, 5):
        pattern = repeated(m, b"aab").value
        for at in range(m):
            right = b"x" + pattern[at + 1 :]
            stream.whole(pattern, 0, 6, pattern[:at] + right)
            stream.whole(pattern, 0, 6, b"y" * at + right + pattern + b"b")
    for m, before in ((63, [repeated(62, b"ab")]), (64, [b"b"] * 63)):
        stream.open(repeated(m, b"ab"), 0, 6)
        for piece in before + [b"x"] + [b"a", b"b"] * 32:
            stream.feed(piece)


def verified_windows(stream, rng):
    """Texts of the pattern's letters alone: windows that all match, that all fail,
    that do so by turns, one that matches after many that fail and before others,
    and a last one of either kind."""
    for m in (2, 3, 63, 64):
        pattern = repeated(m, b"ab").value
        few, many = pattern[1:] + b"b", b"a" * m
        for text in (
            repeated(2 * m + 9, pattern), repeated(2 * m + 9, b"a"), repeated(m + 9, b"ab"),
            repeated(m, few), repeated(m + 1, few + b"a"), repeated(3 * m, many + few),
            repeated(2 * m, many + pattern), repeated(2 * m + 1, many + pattern + b"b"),
            scattered(2 * m + 30, m, b"ab"), scattered(2 * m + 30, m, b"aab"),
        ):
            stream.whole(repeated(m, b"ab"), 0, 6, text)
    # The letters of the pattern, each of them there, and not as often.
    for text in (b"aabcc", b"abbbc", b"aabbc", b"cbbaa", b"abcab", b"aabb", b"abcabcbbaac"):
        stream.whole(b"abcab", 0, 6, text)


def known_bytes(stream, rng):
    """Every byte value as a letter that the pattern has, and as one that it lacks.
    Of its letters' neighbours, and of what differs from one in the top bit, each
    is the first reading that a window is asked about.  The lost-hour mark is
    neither."""
    for first in range(0, 256, 8):
        own = bytes(range(first, first + 8))
        text = shuffled(rng, own)
        for c in ((first - 1) % 256, first ^ 128, (first + 8) % 256):
            text += bytes([c]) + shuffled(rng, own)[:7]
        stream.whole(own, 0, 6, text + own[::-1])
        if ref.LOST in own:
            without = own.replace(b"-", b"")
            stream.whole(without, 0, 6, text + own[::-1])
    for pattern in (b"\0", b"a\xff", b"\x7f"):
        stream.whole(pattern, 0, 6, bytes(range(256)))


def most_letters(stream, rng):
    """64 letters are too many for the fields of methods 2, 3 and 4; method 6 has no
    fields."""
    pattern, mix = letters(64), shuffled(rng, letters(64))
    search = ref.Search(pattern, 0, 6, 99, mix[1:])
    for method in (2, 3, 4, 6):
        stream.whole(pattern, 0, method, mix + b"~" + mix[:2])
        stream.open(pattern, 0, method)
        stream.load(ref.image_of(search._replace(method=method)))
        stream.report(line(method, 0, pattern) + mix + mix[:1])
        marked(stream, pattern, 0, method, mix + mix[:1])
        stream.hand(handed(rng, *search._replace(method=method)))
        stream.save(160)
        stream.feed(mix[:1])
    for method in (4, 5, 3, 6, 2):
        stream.set_method(method)
        stream.feed(mix[method : method + 1])


# Terms at both sides of 3 and of 4, and such that 2 comes first.
SIDES_OF_6 = (
    (b"ab", 0, 6), (b"ab", 1, 6), (b"ab", 2, 6), (b"ab", 0, 7), (b"ab", 1, 7), (b"ab", 2, 7),
    (b"ab", 0, 8), (b"ab", 0, 9), (b"ab", 1, 9), (b"ab", 0, 0), (b"a", 0, 6), (b"a", 1, 6),
    (b"ab" * 32, 0, 6), (b"ab" * 32, 63, 6), (b"ab" * 32, 64, 6),
)


def sides_of_method_6(stream, rng):
    """Numbers 2, 3 and 4 by every call that knows them."""
    for pattern, k, method in SIDES_OF_6:
        m = len(pattern)
        short = repeated(m, b"ab")
        stream.whole(short, k, method, b"bab")
        marked(stream, pattern, k, method, b"bab")
        stream.report(line(method, k, pattern) + b"bab")
        stream.open(short, k, method)
        stream.open(short, min(k, m - 1), 1)
        stream.set_method(method)
        stream.feed(b"aab")
        stream.load(ref.image_of(ref.Search(pattern, k, method, m, pattern[1:])))
        stream.hand(handed(rng, pattern, k, method, m, pattern[1:]))
        stream.save(19 + 2 * m - 1)
        stream.feed(pattern[:1])
        for new in (7, 1, 6):
            stream.set_method(new)


def limits_of_method_6(stream, rng):
    """Numbers 6 to 10, and every change from it."""
    feeds_at_the_limits(stream, 6)
    for m, size in ((1, 1), (2, 0), (64, 2)):
        feeds_at_the_largest_total(stream, 6, m, size)
    saves_at_the_limits(stream, 6, 3)
    for tail in (b"b", b"bc", b"bca"):
        stream.hand(handed(rng, b"abc", 0, 6, 9, tail))
        stream.feed(b"abc")
        stream.set_method(2)
        stream.save(512)
        stream.load(ref.image_of(ref.Search(b"abc", 0, 6, 2, tail)))
    for pattern in (b"ab", letters(32)):
        stream.open(pattern, 0, 1)
        for method in METHODS + NO_METHODS:
            stream.set_method(6)
            stream.set_method(method)
            stream.feed(pattern[:1])


def sheets_of_method_6(stream, rng):
    """Both sides of a page and of its buffer, with windows that are verified in
    vain and with stops; and every refusal before and after the search."""
    for lines, spare in itertools.product((1, 50, 51, 101), (-1, 0, 1)):
        marked(stream, b"ab", 0, 6, repeated(7 * lines, b"baaaxbb"), spare)
        marked(stream, b"a", 0, 6, repeated(lines, b"a"), spare)
    for m in (63, 64):
        for n in (m - 1, m, 2 * m + 1):
            marked(stream, repeated(m, b"ab").value, 0, 6, repeated(n, b"ab"))
    for k, places, spare in itertools.product((0, 1, 2), (2, 3), (-1, 0)):
        marked(stream, b"ab", k, 6, b"bab", spare, places)
    stream.marked(vs.Marked(65537, b"ab"), 0, 6, repeated(65537, b"ab"), 65537)


# Length of the text, the pattern's letters, its length, and others of the text.
LONG_TEXTS = (
    (65536, b"a", 1, b""), (65536, b"a", 1, b"x"), (65536, b"ab", 2, b""), (20000, b"aab", 3, b"x"),
    (9000, b"abcde", 5, b"xyz"), (9000, b"abab" * 9, 36, b"x"), (4000, letters(32), 64, b"~"),
    (3000, b"ab", 63, b""), (3000, b"ab", 64, b""),
)


def long_texts_of_method_6(stream, rng):
    """Also the most looks that there are, and the fewest of a long text."""
    for n, own, m, others in LONG_TEXTS:
        text = scattered(n, rng.randrange(2**32), own + others)
        stream.whole(repeated(m, own), 0, 6, text)
        stream.open(repeated(m, own), 0, 6)
        for part in (3, 5):
            stream.feed(scattered(n // part, rng.randrange(2**32), own + others))
    for n, unit in ((65536, b"a"), (65536, b"x"), (2000, b"b"), (2000, b"a" * 63 + b"b")):
        stream.whole(b"a" * 63 + b"b", 0, 6, repeated(n, unit))


# All windows of three readings that are mixes of `aab`, some of its letters that are
# none, and a reading that it lacks.
RECORD = b"abaabbaxa"


def handed_over_at_every_cut(stream, rng):
    """The record twice, from method 6 to another at each place of the first and
    back again at the same place of the second."""
    for other, cut in itertools.product(FORMER_METHODS, range(len(RECORD) + 1)):
        pieces = RECORD[:cut], RECORD[cut:] + RECORD[:cut], RECORD[cut:]
        fed_in_turn(stream, b"aab", pieces, (6, other, 6))


def handed_over_in_an_image(stream, rng):
    """Saved and loaded between two feeds, and changed in between; then the image
    has the new method, or one that is none, or a k that the method doesn't take."""
    for other in FORMER_METHODS:
        for first, second in ((6, other), (other, 6)):
            cut = rng.randrange(1, len(RECORD))
            stream.open(b"aab", 0, first)
            stream.feed(RECORD[:cut])
            search = ref.contents(stream.search)
            stream.save(99)
            stream.load(ref.image_of(search))
            stream.set_method(second)
            stream.feed(RECORD[cut:])
            stream.load(ref.image_of(search._replace(method=second)))
            stream.feed(RECORD[cut:])
    for k, method in ((0, 7), (1, 6), (2, 6), (3, 6), (1, 7)):
        stream.load(ref.image_of(search._replace(k=k, method=method)))
        stream.feed(RECORD[cut:])


def tails_of_each_length(stream, rng):
    """A search that goes on after none to m - 1 readings, with no reading more,
    with one, and with several."""
    for m in (1, 2, 5):
        pattern = repeated(m, b"aab").value
        for kept, size in itertools.product(range(m), (0, 1, m)):
            record = make_text(rng, pattern, 0, kept + size)
            stream.load(ref.image_of(ref.Search(pattern, 0, 6, kept, record[:kept])))
            stream.feed(record[kept:])
    long = repeated(64, b"ab").value
    for kept, size in itertools.product((0, 1, 62, 63), (0, 1, 2)):
        stream.load(ref.image_of(ref.Search(long, 0, 6, kept, long[:kept])))
        stream.feed(repeated(size, long[kept:] + b"ax"))


def one_by_one(stream, rng):
    """Pieces of one reading, and empty ones between them."""
    for pattern in (b"a", b"ab", b"aab", b"abba"):
        stream.open(pattern, 0, 6)
        for at in range(len(RECORD)):
            stream.feed(RECORD[at : at + 1])
            if at % 3 == 0:
                stream.feed(b"")


def made_of_known_letters(stream, rng):
    for _ in range(30):
        m = rng.choice((rng.randrange(1, 5), rng.randrange(1, 10), rng.randrange(1, 65)))
        pattern = pattern_of(rng, m, rng.randrange(1, 9))
        text = make_text(rng, pattern, 0, rng.randrange(2 * m + 8))
        stream.whole(pattern, 0, 6, text, len(text) + rng.choice((0, 0, 1, 5)))


def inputs_of_method_6(stream, rng):
    for pattern, k, text, _, _ in SHEET:
        stream.report(line(6, k, pattern) + text + rng.choice((b"", b"\n")))
    for pattern in (b" ", b"a b", b"\r", b"\0\xff", b"-", b"a-"):
        stream.report(line(6, 0, pattern) + pattern + b"-" + pattern[::-1] + b"\n\n")


def series_with_method_6(stream, rng):
    for _ in range(8):
        Series(stream, rng, METHODS + (6, 6)).run(rng.randrange(8, 36))


# --- Widths by table (document 02, T-05) -----------------------------------------------------


def each_entry(stream, rng):
    """Every v from 0 to 64 as what the card is asked for: in method 4 as k and as a
    letter's count, in methods 2 and 3 as the number after a letter's count."""
    for v in range(65):
        if v < 64:
            stream.width(repeated(64, letters(32)), v, 4)
        if v > 0:
            stream.width(repeated(v, b"a"), 0, 4)
        for method in (2, 3) if v > 1 else ():
            stream.width(repeated(v - 1, b"a"), 0, method)


def sides_of_each_entry(stream, rng):
    """For every k as many letters as method 4 has fields for, and one letter more.
    All fields have the width that goes by k, so that these two numbers tell it."""
    for k in range(64):
        width = ref.lg(k) + 2
        most = 64 // width - 1
        for q in (most, most + 1):
            pattern = repeated(max(q, k + 1), letters(q))
            assert ref.bits_needed(pattern.value, k, 4) == (q + 1) * width
            text = with_errors(rng, pattern.value, k) + letters(1)
            stream.whole(pattern, k, 4, text if q == most else letters(2))
            stream.open(pattern, k, 1)
            stream.set_method(4)
            stream.open(pattern, k, 4)


# --- A lost hour is no evidence (document 02, T-07) ------------------------------------------


def by_each_method(stream, pattern, text, k=0):
    """A whole search by every method that takes the terms."""
    for method in METHODS if k == 0 else (1, 4):
        stream.whole(pattern, k, method, text)


def losing(rng, text, share):
    """The text with that many readings lost of every hundred, about."""
    return bytes(ref.LOST if rng.randrange(100) < share else c for c in text)


def nothing_but_lost_hours(stream, rng):
    """Every window that there is matches, also at a length of 64, of values that are
    not exact, and for every k; then with the most looks of methods 1, 5 and 6, and in
    the longest record by the others."""
    for m, n in ((1, 0), (1, 1), (2, 2), (3, 4), (64, 63), (64, 64)):
        by_each_method(stream, repeated(m, b"ab"), repeated(n, b"-"))
    for m, k in ((2, 1), (3, 2), (64, 1), (64, 63)):
        by_each_method(stream, repeated(m, b"ab"), repeated(m + 1, b"-"), k)
    for method in (1, 5, 6):
        stream.whole(letters(64), 0, method, repeated(65, b"-"))
        stream.whole(repeated(64, b"ab"), 0, method, repeated(65536, b"-"))
    for method in (2, 3, 4):
        stream.whole(b"ab", 0, method, repeated(65536, b"-"))


def the_hour_between(stream, rng):
    """`a-c` for `abc`: whole, in pieces, on a sheet, by the program, and among several
    patterns."""
    for method in METHODS:
        stream.whole(b"abc", 0, method, b"a-c")
        stream.open(b"abc", 0, method)
        for piece in (b"a", b"-", b"c"):
            stream.feed(piece)
        marked(stream, b"abc", 0, method, b"a-c")
        stream.report(line(method, 0, b"abc") + b"a-c\n")
    several(stream, [b"abc", b"abd", b"cca"], 0, b"a-c")


def lost_at_each_place(stream, rng):
    """One hour lost of a mix, at each of its places."""
    for at in range(3):
        by_each_method(stream, b"abc", b"cab"[:at] + b"-" + b"cab"[at + 1 :])


def pairs_with_lost_hours(stream, rng):
    """Every pair that has one, as the first of two and as the second; and an odd m,
    whose leftmost reading is alone."""
    for pair in itertools.product(b"-abx", repeat=2):
        if ref.LOST in pair:
            stream.whole(b"aabb", 0, 3, b"bb" + bytes(pair))
            stream.whole(b"aabb", 0, 3, bytes(pair) + b"bb")
    for text in (b"-abbc", b"--bbc", b"-xbbc", b"x-bbc", b"xa-b-"):
        stream.whole(b"aabbc", 0, 3, text)


# Patterns, and lengths of texts of `a`, `b`, `-` and `x` in which every method comes to
# every window that has a lost hour.
EVERY_WINDOW = ((b"ab", 300), (b"aab", 4000), (b"aabb", 20000))


def every_window_with_lost_hours(stream, rng):
    """All that two readings can be of which one is lost; then, in long texts, whole and
    fed, all that up to four can be, for every k."""
    for text in itertools.product(b"ab-x", repeat=2):
        if ref.LOST in text:
            by_each_method(stream, b"ab", bytes(text))
    for pattern, n in EVERY_WINDOW:
        for k in range(len(pattern)):
            by_each_method(stream, pattern, scattered(n, 7 + k, b"ab-x"), k)
    for method in METHODS:
        stream.open(b"aab", 0, method)
        stream.feed(scattered(200, method, b"ab-"))
        stream.feed(scattered(150, method, b"a-x"))


def letters_thrice_and_lost_hours(stream, rng):
    """Methods 2 and 3 where their fields had other widths before T-03, whole and in
    turn."""
    for pattern in (b"aaab", b"ab" * 3):
        for method in (2, 3):
            stream.whole(pattern, 0, method, scattered(600, method, b"ab-x"))
        pieces = [scattered(40, seed, b"aab-").value for seed in range(3)]
        fed_in_turn(stream, pattern, pieces, (2, 3))


def lost_hours_one_by_one(stream, rng):
    """Pieces of one reading, by one method each; with an error by those that take one.
    Each kind of seam beside a lost hour has a match across it, and comes without one."""
    for pattern, k, text in ((b"aab", 0, b"a--x--b-a"), (b"aabb", 1, b"bxx---x-xa")):
        for method in METHODS if k == 0 else (1, 4):
            stream.open(pattern, k, method)
            for at in range(len(text)):
                stream.feed(text[at : at + 1])


def seams_of_lost_hours(stream, rng):
    """A record of lost hours cut before and after them; then every change from one
    method to another within a window that has one."""
    for method, cut in itertools.product(METHODS, (2, 4)):
        stream.open(b"aab", 0, method)
        stream.feed(b"ab--ab"[:cut])
        stream.feed(b"ab--ab"[cut:])
    # A round through all of them: each goes once to each other.
    methods, left = [1], set(itertools.permutations(METHODS, 2))
    while left:
        here = methods[-1]
        there = max(b for a, b in left if a == here)
        left.remove((here, there))
        methods.append(there)
    pieces = [b"-ab"] + [b"-ab"[at % 3 :][:1] for at in range(30)]
    fed_in_turn(stream, b"aab", pieces, methods)


def lost_hours_in_an_image(stream, rng):
    """Saved with a tail that has lost hours, loaded, and gone on with; the form of an
    image comes before its pattern, and its pattern before its tail."""
    for method, piece in zip(METHODS, (b"-", b"b-", b"ab-", b"a-b", b"--", b"b--")):
        stream.open(b"aab", 0, method)
        stream.feed(piece)
        search = ref.contents(stream.search)
        stream.save(64)
        stream.load(ref.image_of(search))
        stream.feed(b"a-x")
    lost = ref.Search(b"a-", 0, 1, 1, b"a")
    image = ref.image_of(lost)
    stream.load(image)
    stream.load(ref.image_of(lost._replace(pattern=b"ab", tail=b"-")))
    for wrong in (image[:-1], image + b"-", b"\5" + image[1:], image_in_order(lost, (2, 1, 3, 4))):
        stream.load(wrong)
    for tail in (b"", b"-", b"--"):
        stream.load(ref.image_of(lost._replace(tail=tail)))


# 31 readings of 14 letters, whose values aren't exact; the last of them, `n`, has the
# value 0.  A window of each kind: with a lost hour and without, of equal sum and of
# another, a match and none.
HEAP = b"abcdefghijklm" + b"n" * 18
HEAP_WINDOWS = (
    HEAP, HEAP[:-1] + b"-", HEAP[:-2] + b"-x", b"-" + HEAP[1:], b"-x" + HEAP[2:], HEAP[:-1] + b"x",
    b"x" + HEAP[1:], HEAP[:13] + b"-" * 18,
)


def sums_beside_lost_hours(stream, rng):
    """Method 5: each kind of window alone and after each other; one lost hour that goes
    through all places of a window, after which no window is verified but for its sum;
    and more of them, which leave one by one."""
    for window in HEAP_WINDOWS[1:5]:
        stream.whole(HEAP, 0, 5, window)
    for parts in ((0, 1, 0, 6), (5, 2, 5), (3, 6, 4), (6, 7, 0)):
        stream.whole(HEAP, 0, 5, b"".join(HEAP_WINDOWS[part] for part in parts))
    stream.open(HEAP, 0, 5)
    for part in (5, 2, 0, 3, 6):
        stream.feed(HEAP_WINDOWS[part])
    for text in (
        b"abc-abc", b"xbc-xbc", b"ab-xab", b"--abc", b"abc--", b"aa-aab", b"-xx-xx",
        b"abcab-cabxabc--bca", b"-abc-x-acb-",
    ):
        stream.whole(b"abc", 0, 5, text)
    for q in (10, 11):
        pattern = letters(q) + b"A" * (63 - q)
        stream.whole(pattern, 0, 5, repeated(260, pattern + pattern[:9] + b"-" + pattern))


def top_bits_before_lost_hours(stream, rng):
    """Method 4: so many errors to the right of a lost hour, by letters that the pattern
    lacks, by one that it has, and by both, and none or too many to the left of it."""
    for k in (1, 2, 3):
        for errors in range(1, k + 1):
            for wrong in sorted({b"x" * errors, b"f" * errors, (b"fx" * errors)[:errors]}):
                for left in (b"abcd", b"xxxx"):
                    stream.whole(b"abcdef", k, 4, (left + b"-" + wrong + b"f")[-6:])
    for text in (b"abc-xf", b"a-b-xx", b"xx-xxx", b"---xxx", b"x-x-x-", b"f-f-f-f-f", b"-x-x-x-ff"):
        stream.whole(b"abcdef", 2, 4, text)


# What is next to the lost-hour mark, or differs from it in one bit.
BESIDE_LOST = bytes((44, 46, 47, 41, 37, 61, 13, 109, 173))


def letters_beside_the_mark(stream, rng):
    """As letters that a pattern lacks and as letters that it has they are what they
    were."""
    by_each_method(stream, b"a", BESIDE_LOST + b"-")
    by_each_method(stream, b",.", b",-.,,.-./")
    for c in BESIDE_LOST:
        stream.whole(bytes([c]), 0, 1 + c % 6, bytes([c, 45, 97, c]))


def several_and_lost_hours(stream, rng):
    """Records of nothing else, windows that match some of the patterns and all of them,
    and as many lost hours as a field can count."""
    for count in (1, 3, 8):
        several(stream, made_patterns(rng, count, 2, b"ab"), 0, repeated(4, b"-"))
        for k in (0, 1, 2) if count == 3 else (0,):
            patterns = made_patterns(rng, count, 3, b"abc")
            several(stream, patterns, k, scattered(60, 9 * count + k, b"abc-x"))
    for k, unit in ((0, b"a" * 64 + b"-" * 66), (63, b"x" * 63 + b"-"), (31, b"a-b")):
        several(stream, [b"a" * 64, b"b" * 64], k, repeated(200, unit))
    several(stream, [b"ab", b"ba", b"bc"], 0, b"a-b-c,.-")


def lost_hours_on_paper(stream, rng):
    """They show as they stand."""
    for method, lines in zip(METHODS, (1, 49, 50, 51, 100, 101)):
        marked(stream, b"a", 0, method, repeated(lines, b"a-"))
        marked(stream, b"abc", 0, method, losing(rng, repeated(30, b"cabx").value, 30), method % 2)
    for k, method in ((1, 1), (1, 4), (63, 4)):
        marked(stream, b"ab" * 32, k, method, repeated(130, b"-.a,b "))
    marked(stream, b"ab", 0, 5, b"--x-", -1)


def inputs_with_lost_hours(stream, rng):
    """In the record they count for nothing, also as its last reading; in the pattern
    they are a 13 after 6, 11 and 1, and before the others."""
    for method in METHODS:
        text = losing(rng, b"abcabxcba", 40)
        stream.report(line(method, 0, b"abc") + text + (b"-", b"-\n", b"\n-", b"-\n\n")[method % 4])
    for method, k in ((1, 1), (4, 1), (4, 2)):
        stream.report(line(method, k, b"abc") + b"-x-xx-xxx-a")
    for first in (
        b"2 00 a-\n", b"- 0 a-\n", b"2 -0 a-\n", b"2 0 a-", b"20 a-\n", b"1 0 -\n", b"1 0 --\n",
        b"1 0 -a\n", b"1 0 a -\n", b"1 0 - \n", b"2 2 a-\n", b"4 99 -a\n", b"0 0 a-\n", b"9 1 a-\n",
        b"6 1 a-\n", b"1 0 " + b"a" * 64 + b"-\n", b"7 65 " + b"a" * 64 + b"-\n", b"1 0 a,.\n",
    ):
        stream.report(first + b"a-")
    for first in (
        line(2, 0, letters(31) + b"-"), line(4, 32, letters(31) + b"-"), line(2, 1, letters(32)),
        line(2, 0, letters(65)), line(5, 1, letters(65)), line(4, 32, letters(32)),
    ):
        stream.report(first + b"A-")
    for size in (16384, 16385):
        for unit in (b"5 0 abc\nca-b", b"1 0 a-\n", b"2 0 " + letters(32) + b"\nA"):
            stream.report(repeated(size, unit))


def lost_in_pattern(m, at):
    return b"a" * at + b"-" + b"b" * (m - 1 - at)


def patterns_with_a_lost_hour(stream, rng):
    """Number 13 by every call, for the first place of a pattern, a middle one and the
    last."""
    for m in (1, 2, 3, 64):
        for at in sorted({0, m // 2, m - 1}):
            pattern = lost_in_pattern(m, at)
            search = ref.Search(pattern, 0, 1 + (m + at) % 6, 1, b"a"[: m - 1])
            stream.whole(*search[:3], b"ab-")
            stream.open(*search[:3])
            stream.load(ref.image_of(search))
            if m < 64:
                marked(stream, *search[:3], b"ab-")
                stream.report(line(search.method, 0, pattern) + b"ab-")
            if at == m // 2 if m < 64 else at != m // 2:
                stream.hand(handed(rng, *search))
                stream.feed(b"-b")
                stream.set_method(1)
                stream.save(160)
    # Only the bytes up to the pattern's length are the pattern's.
    for m, tail in ((2, b"-"), (63, b"a" * 62)):
        stored = handed(rng, b"ab" * m, 0, 2, 99, tail, pattern_len=m)
        past = stored.pattern[:m] + b"-" * (64 - m)
        stream.hand(stored._replace(pattern=past, tail=tail.ljust(63, b"-")))
        stream.set_method(1)
        stream.save(160)
        stream.feed(b"a-b")


# Terms with a lost hour in the pattern and something else that is refused, before it in
# the order of the tests or after it.
SIDES_OF_13 = (
    (b"-" * 65, 0, 1), (b"a" * 64 + b"-", 65, 7), (b"a-", 2, 1), (b"-a", 255, 7), (b"a-", 0, 0),
    (b"a-", 1, 7), (b"a-", 1, 2), (b"a-", 1, 6), (letters(31) + b"-", 0, 2),
    (letters(31) + b"-", 32, 4),
)


def sides_of_13(stream, rng):
    """Every set of terms with lists, buffers and tails that would be refused too."""
    for pattern, k, method in SIDES_OF_13:
        stream.open(pattern, k, method)
        stream.whole(pattern, k, method, b"aab", rng.choice((0, 2, 3)))
        marked(stream, pattern, k, method, b"a--" * 3, rng.choice((-1, 0)), rng.choice((8, 9)))
        search = ref.Search(pattern, k, method, 99, rng.choice((b"", pattern[1:])))
        stream.load(ref.image_of(search))
    for n, places in ((65537, 65537), (65537, 3), (3, 2)):
        stream.whole(b"a-", 0, 1, repeated(n, b"ab"), places)
        stream.marked(vs.Marked(0, b"a-"), 0, 1, repeated(n, b"ab-"), places)
    for room in (0, 227, 228):
        stream.marked(vs.Marked(room, b"a-"), 0, 1, b"a-a-", 4)
    for pattern, k, method, tail_len in (
        (letters(31) + b"-", 32, 4, 63), (b"a-", 1, 3, 1), (b"-a", 0, 7, 0),
        (b"a" * 63 + b"-", 65, 9, 65),
    ):
        stored = handed(rng, pattern, k, method, ref.LARGEST_TOTAL, b"a" * 32, tail_len=tail_len)
        stream.hand(stored._replace(pattern_len=65) if tail_len == 65 else stored)
        for n, places in ((3, 2), (65537, 3)):
            stream.feed(repeated(n, b"a"), places)
        for new in (2, 4, 7):
            stream.set_method(new)
        stream.save(20)


def several_with_a_lost_hour(stream, rng):
    """Number 13 by any of the patterns, after 1 and 12 and before the others."""
    for count in (1, 2, 3, 8):
        for at in sorted({0, count // 2, count - 1}):
            patterns = [b"ab"] * count
            patterns[at] = (b"a-", b"-b")[at % 2]
            several(stream, patterns, at % 3, b"ab-", at % 4 * 8)
    several(stream, [b"-", b"a"], 0, b"a-")
    several(stream, [b"a" * 63 + b"-"], 64, repeated(65537, b"a"), 3)
    several(stream, [b"a-", b"ab"], 0, repeated(65537, b"a"), 65537, 65537)
    several(stream, [b"a-"] * 9, 0, b"ab")
    several(stream, [b"a-", b"abc"], 0, b"ab")
    several(stream, [b"a-", b"abc"], 2, b"ab", 1)
    several(stream, [b"a-b"], 0, b"ab", lengths=[2])
    several(stream, [b"a-"], 0, b"ab", lengths=[2, 65])
    several(stream, [b"a-"], 0, b"ab", lengths=[2, 0])
    several(stream, [b"-" * 65], 0, b"ab")


class LossySeries(Series):
    """A text with lost hours; an open that is refused may be so for one."""

    def open(self):
        super().open()
        self.plan = losing(self.rng, self.plan, self.rng.choice((10, 30, 80)))

    def open_refused(self):
        at = self.rng.randrange(len(self.pattern))
        pattern = self.pattern[:at] + b"-" + self.pattern[at + 1 :]
        self.stream.open(pattern, self.rng.choice((0, 64)), self.rng.choice((1, 7)))
        self.go_on_from_blank()


def series_with_lost_hours(stream, rng):
    for _ in range(3):
        LossySeries(stream, rng, METHODS).run(rng.randrange(8, 36))


# --- The first match from a given hour on (document 02, T-08) --------------------------------


def first_from(stream, start, pattern, k, method, text):
    return stream.first(vs.First(start, pattern), k, method, text)


def from_each_hour(stream, pattern, k, text, methods=METHODS):
    """By each of the methods that takes the terms, from every reading on and from the
    end."""
    for method in allowed_methods(pattern, k, methods):
        for start in range(len(text) + 1):
            first_from(stream, start, pattern, k, method, text)


def sheet_from_each_hour(stream, rng):
    for pattern, k, text, _, _ in SHEET:
        from_each_hour(stream, pattern, k, text)


def hours_beside_matches(stream, rng):
    """Matches alone and side by side, with readings before, between and after them that
    belong to none: an hour at one, one before and one after, between two, and past the
    last."""
    from_each_hour(stream, b"aab", 0, b"xabaxxbbaabbx")
    from_each_hour(stream, b"aabb", 1, b"xxabxabbaxxb")


# Hours past the end, at both sides of what fewer bits hold.
FAR_HOURS = (
    255, 256, 2**16 - 1, 2**16, 2**32 - 2, 2**32 - 1, 2**32, 2**32 + 1, 2**63 - 1, 2**63,
    2**63 + 1, 2**64 - 3, 2**64 - 2, 2**64 - 1,
)


def far_hours(stream, rng):
    """In texts of which every window matches, so that an hour with bits cut off would
    find one; also where the hour and m together come to 2^64, to one less and to
    more."""
    for at, start in enumerate(FAR_HOURS):
        edge = start in (2**32 - 1, 2**32, 2**63, 2**64 - 2, 2**64 - 1)
        for method in METHODS if edge else METHODS[at % 3 :: 3]:
            first_from(stream, start, b"aa", 0, method, b"aaaaa")
    for method in METHODS:
        first_from(stream, 2**64 - 1, b"a", 0, method, b"a")
        first_from(stream, 2**64 - 64 + method % 2, b"a" * 64, 0, method, repeated(65, b"a"))
    for start in (2**32, 2**64 - 1):
        for method in (1, 4):
            first_from(stream, start, b"aab", 2, method, b"aabaab")
            first_from(stream, start, b"aab", 0, method, b"")


def lengths_from_an_hour(stream, rng):
    """Texts at both sides of m, from both sides of the last window and of the end, by
    some of the methods in turn."""
    for m in (1, 2, 63, 64):
        pattern = repeated(m, b"ab").value
        for n in (m - 1, m, m + 1):
            starts = sorted({0, n - m, n - m + 1, n - 1, n, n + 1} - {-1})
            for at, start in enumerate(starts):
                for method in METHODS[(at + n) % 3 :: 3]:
                    first_from(stream, start, pattern, 0, method, repeated(n, b"ab"))


def error_before_the_match(rng, pattern, k):
    """A window with an error more than k, and then one with k: an error leaves, and a
    letter of the pattern enters."""
    kept, wrong = shuffled(rng, pattern)[k:], strangers(rng, pattern, k + 1)
    return wrong[:1] + shuffled(rng, wrong[1:] + kept[1:]) + kept[:1]


def errors_to_the_edge(rng, pattern, k):
    """A text of so many errors to a window, about, and an hour from which on the first
    match has k of them and follows a window with one more."""
    m, wrong = len(pattern), min(16 * k // len(pattern), 15)
    own = b"x" * wrong + b"a" * (15 - wrong) + (b"b" if wrong < 12 else b"a")
    while True:
        text = scattered(m + 150, rng.randrange(2**32), own)
        errors = [ref.excess(text.value[s : s + m], pattern) for s in range(151)]
        after = 0
        for s in range(1, 151):
            if errors[s - 1 : s + 1] == [k + 1, k]:
                return text, rng.randrange(after, s)
            if errors[s] <= k:
                after = s + 1


def every_k_from_an_hour(stream, rng):
    """All k of several m, where an error more makes the difference."""
    for m in (1, 2, 3, 5):
        for k, method in itertools.product(range(m), (1, 4)):
            pattern = pattern_of(rng, m, rng.randrange(1, 4))
            for start in (0, 1):
                text = error_before_the_match(rng, pattern, k)
                first_from(stream, start, pattern, k, method, text)
    for m, tolerances in ((63, (0, 1, 31, 61, 62)), (64, range(64))):
        pattern = b"a" * (m - 3) + b"bbb"
        for k in tolerances:
            text, start = errors_to_the_edge(rng, pattern, k)
            for method in (1, 4):
                first_from(stream, start, pattern, k, method, text)


# Of a text of 65,536 readings, in which the last window alone is a mix of `aaaaaaab`.  It
# was found by going back from a state that makes one, and is tested.
LAST_ALONE = 2104188699


def only_the_last_window(stream, rng):
    """Short, of long windows that method 6 verifies all of, and in the longest text."""
    for pattern, text in (
        (b"ab", b"aaxxaab"), (b"aab", b"bb-xbbaba"), (b"abcd", b"abcaacc-bd"),
    ):
        matches = ref.listed_positions(pattern, 0, text)
        assert matches == [len(text) - len(pattern)]
        for method in METHODS:
            first_from(stream, 0, pattern, 0, method, text)
    pattern = b"ba" * 32
    for method, start in itertools.product(METHODS, (0, 63)):
        first_from(stream, start, pattern, 0, method, b"b" * 64 + pattern)
    text = scattered(65536, LAST_ALONE, b"abcdx")
    assert ref.listed_positions(b"aaaaaaab", 0, text.value) == [65528]
    for method, start in itertools.product(METHODS, (0, 65528, 65529)):
        first_from(stream, start, b"aaaaaaab", 0, method, text)


def after_the_last_match(stream, rng):
    """In long texts: before the last match, after it, and in a text that has none."""
    text = repeated(65000, b"a" + b"x" * 200)
    last = text.value.rindex(b"a")
    for method, start in itertools.product(METHODS, (last - 200, last + 1)):
        first_from(stream, start, b"a", 0, method, text)
    for method in METHODS:
        start = rng.choice((0, 1, 65533, 65534))
        first_from(stream, start, b"ab", 0, method, repeated(65536, b"bbx"))


def most_looks_from_an_hour(stream, rng):
    """Every window verified in vain: by method 6 for its letters, by method 5 for a lost
    hour; from the start, from the second window, from the last and from after it."""
    for start in (0, 1, 65472, 65473):
        first_from(stream, start, b"a" * 63 + b"b", 0, 6, repeated(65536, b"b"))
        first_from(stream, start, b"ab" * 32, 0, 5, repeated(65536, b"-xxxxxxxxx"))
    for start in (0, 65472):
        first_from(stream, start, b"ab" * 32, 0, 1, repeated(65536, b"-xxxxxxxxx"))


def lost_hours_from_each_hour(stream, rng):
    """Windows with lost hours that match and that don't, found and passed over, also with
    an error; the lost hours before the start are none of theirs.  Then texts of nothing
    else."""
    from_each_hour(stream, b"abc", 0, b"-xbca-xxc-bb--x")
    from_each_hour(stream, b"aabb", 1, b"-xx-xabb-xbx-b")
    for method in METHODS:
        first_from(stream, 0, b"abc", 0, method, b"a-c")
        for start in (1, 2):
            first_from(stream, start, b"ab" * 31, 0, method, repeated(63, b"-"))
        for start in (65534, 65535):
            first_from(stream, start, b"ab", 0, method, repeated(65536, b"-"))


def sums_from_an_hour(stream, rng):
    """Method 5 with values that aren't exact: windows of equal sum that are no mixes, and
    windows with lost hours of both kinds, before the match, at the start and alone."""
    for parts, starts in (
        ((0,), (0, 1)), ((1,), (0,)), ((2,), (0, 1)), ((3,), (0,)), ((4,), (0,)), ((5,), (0,)),
        ((6,), (0,)), ((7,), (0, 1)), ((5, 0), (0, 1, 31)), ((2, 0), (0, 30)),
        ((6, 5, 1), (0, 31, 62)), ((4, 3), (0, 1)), ((5, 6), (0, 1)), ((6, 2, 6), (0, 31, 32)),
    ):
        text = b"".join(HEAP_WINDOWS[part] for part in parts)
        for start in starts:
            first_from(stream, start, HEAP, 0, 5, text)
    for m, more in EQUAL_SUMS[::3]:
        pattern, window = pattern_and_window(rng, m, more)
        for start in (0, rng.randrange(1, m)):
            first_from(stream, start, pattern, 0, 5, window + shuffled(rng, pattern))
    # Exact on one side, and verified on the other.
    for q in (10, 11):
        pattern = letters(q) + b"A" * (63 - q)
        for start in (0, 1, 2):
            first_from(stream, start, pattern, 0, 5, b"~" + pattern + b"A")


def stops_from_an_hour(stream, rng):
    """A reading that the pattern lacks at each place of the window at the start, after
    which the scan goes on with a match, or has none left to come to."""
    for m in (3, 5):
        pattern = repeated(m, b"aab").value
        for at, method in itertools.product(range(m), (2, 3, 4, 6)):
            stopped = b"y" * at + b"x" + pattern[at + 1 :]
            first_from(stream, 0, pattern, 0, method, stopped + pattern)
            if m == 5:
                first_from(stream, 1, pattern, 0, method, b"a" + stopped + pattern[:4])


def scans_past_the_end(stream, rng):
    """From each hour of a text whose scans go past several windows, at the end past all
    that are left; from most of them there is nothing to find."""
    from_each_hour(stream, b"abbab", 0, b"abxbbabaxbabxa", (2, 3, 4, 6))
    from_each_hour(stream, b"abcab", 1, b"abxxcabcxabyx", (4,))


def known_letters_from_an_hour(stream, rng):
    """Method 6: from each hour windows that are verified in vain and stops, either after
    the other and after its own kind, before a match."""
    for pattern, text in ((b"aab", b"bbabbxbbaxaaab"), (b"ab", b"aabxbbaa-xbbba")):
        from_each_hour(stream, pattern, 0, text, (6,))


def hours_of_a_long_text(stream, rng):
    for pattern, k, n, own in (
        (b"aabb", 0, 3000, b"ab-x"), (b"abcabcaabbcc", 0, 4000, b"abc"),
        (b"aabbcc", 1, 4000, b"abcxyz"), (b"aaab", 0, 2000, b"abxyzw"),
    ):
        text = scattered(n, rng.randrange(2**32), own)
        for method in allowed_methods(pattern, k):
            for _ in range(3):
                first_from(stream, rng.randrange(n), pattern, k, method, text)


def edges_of_first(stream, rng):
    """Numbers 1 to 5 and 13 with hours within the text and past its end, and with a text
    that is too long as well; there is no list, and so no number 7."""
    others = (b"ab", 1, 200), (b"ab", 1, 255), (b"a" * 63, 63, 1), (b"a" * 64, 63, 1)
    for at, terms in enumerate(TERMS + SIDES_OF_6 + SIDES_OF_13 + others):
        starts = 0, 1, 4, 5, 2**32, 2**64 - 1
        number = first_from(stream, starts[at % 6], *terms, b"bab-a")
        assert number == ref.refuse_terms(*terms)
        if terms not in SIDES_OF_6:
            first_from(stream, starts[(at + 3) % 6], *terms, repeated(65537, b"ab"))


def limits_of_first(stream, rng):
    """Number 6 at its edge, wherever the hour is."""
    for method in METHODS:
        for start in (0, 65534, 65536):
            first_from(stream, start, b"ab", 0, method, repeated(65536, b"bbbab"))
        for start in (0, 65537, 2**64 - 1)[method % 2 :]:
            first_from(stream, start, b"ab", 0, method, repeated(65537, b"bbbab"))


def widths_of_first(stream, rng):
    """Number 5 at its edge, with letters that come thrice, and with 64 letters."""
    for pattern, method, _ in SIDES:
        mix = shuffled(rng, pattern)
        first_from(stream, 1, pattern, 0, method, b"+" + mix)
    for method in (2, 3, 4, 6):
        first_from(stream, 0, letters(64), 0, method, shuffled(rng, letters(64)))


def first_with_a_lost_hour(stream, rng):
    """Number 13 by the place in the pattern."""
    for m in (1, 2, 3, 64):
        for at in sorted({0, m // 2, m - 1}):
            method = 1 + (m + at) % 6
            first_from(stream, at, lost_in_pattern(m, at), 0, method, b"ab-")


def bytes_from_an_hour(stream, rng):
    """Every byte value in the window that is found, after others that differ from it by
    one, in the lowest bit or in the top bit.  With the lost-hour mark a pattern is
    refused, so that those beside it are found alone."""
    for c in range(128):
        own = bytes([c, c ^ 128])
        near = bytes([c, c ^ 1, c ^ 128, (c - 1) % 256, c ^ 129])
        first_from(stream, c // 6 % 2, own, 0, 1 + c % 6, near + own[:: (1, -1)[c % 2]])
    for method in METHODS:
        first_from(stream, 0, b",", 0, method, b"\xad./,-")
        first_from(stream, 1, b"\xad", 0, method, b"-,\xac\xad")


def made_first(stream, rng):
    """From a match or beside it, from anywhere, and from past the end."""
    for _ in range(80):
        m = rng.choice((rng.randrange(1, 5), rng.randrange(1, 10), rng.randrange(1, 65)))
        pattern = pattern_of(rng, m, rng.randrange(1, 5))
        k = rng.choice((0, rng.randrange(m), rng.randrange(min(m, 4))))
        text = make_text(rng, pattern, k, rng.randrange(2 * m + 20))
        text = losing(rng, text, rng.choice((0, 0, 5, 30)))
        beside = ref.listed_positions(pattern, k, text) or [0]
        near = max(rng.choice(beside) + rng.randrange(-2, 3), 0)
        start = rng.choice((near, near, rng.randrange(len(text) + 3)))
        first_from(stream, start, pattern, k, rng.choice(allowed_methods(pattern, k)), text)


# --- Readings sent again (document 02, T-09) -------------------------------------------------


def sent(*entries):
    """The bytes of entries, each an hour, a serial and a letter."""
    return b"".join(ref.entry_bytes(entry) for entry in entries)


def in_each_order(stream, *entries):
    """Equal entries aren't told apart."""
    for order in sorted(set(itertools.permutations(entries))):
        stream.resent(sent(*order))


def cycled(hours):
    """Entries of these hours, an odd number of them, in this order: so many bytes four
    times over, of which each is once an hour, once each half of a serial and once a
    letter."""
    unit = bytearray(len(hours))
    for at, hour in enumerate(hours):
        unit[4 * at % len(unit)] = hour
    return repeated(4 * len(unit), bytes(unit))


def mixed(rng, some):
    some = list(some)
    rng.shuffle(some)
    return some


def some_entries(rng, count):
    """Of any hours, with serials that all differ."""
    serials = []
    while len(serials) < count:
        drawn = rng.randrange(65536)
        serials += [drawn] if drawn not in serials else []
    return [(rng.randrange(216), serial, rng.randrange(256)) for serial in serials]


def lengths_of_entries(stream, rng):
    """Every short length, both sides of the most entries, and of as many bytes; then the
    longest ones here."""
    unit = sent((3, 1, 97), (215, 256, 98), (3, 255, 99), (0, 0, 100), (215, 65535, 101))
    for n in range(21):
        stream.resent(unit[:n])
    for n in (
        *range(21, 29), 1024, 1028, *range(4095, 4101), 8192, *range(16379, 16390), 16392, 16640,
        20480, 32768, 32772, *range(65532, 65538),
    ):
        stream.resent(repeated(n, unit))


def hours_alone(stream, rng):
    """Each of them, and some over 215, in the only entry, the letter of which isn't the
    lost-hour mark."""
    for hour in (*range(216), 216, 217, 218, 223, 224, 240, 254, 255):
        stream.resent(sent((hour, 263 * hour % 65536, (hour + 46) % 255)))
    for hour in (0, 214, 215, 216, 217, 255):
        for serial in (0, 65535):
            stream.resent(sent((hour, serial, 97)))


def hours_together(stream, rng):
    """All of them, ascending, descending and mixed, at first with the same entries; all
    but one; and all of them again and again."""
    every = list(range(216))
    entries = [(hour, rng.randrange(65536), rng.randrange(256)) for hour in every]
    for order in (entries, entries[::-1], mixed(rng, entries)):
        stream.resent(sent(*order))
    for order in (every + every[-1:], every[::-1] + every[:1]):
        stream.resent(cycled(order))
    for more in (1, 1, 39, 39):
        stream.resent(cycled(mixed(rng, every + mixed(rng, every)[:more])))
    for left_out in (0, 128, 215):
        stream.resent(cycled(mixed(rng, every[:left_out] + every[left_out + 1 :])))
    for count in (4095, 4096):
        unit = cycled(mixed(rng, every + [rng.randrange(216)])).value[:217]
        stream.resent(repeated(4 * count, unit))


def hours_over(stream, rng):
    """At each end and in the middle, beside hours up to 215; and 214 and 215 in the same
    places."""
    for count, hour in itertools.product((2, 5), (214, 215, 216, 217, 255)):
        for at in sorted({0, count // 2, count - 1}):
            entries = some_entries(rng, count)
            entries[at] = (hour,) + entries[at][1:]
            stream.resent(sent(*entries))
    for hour, at in itertools.product((216, 255), (0, 127, 254)):
        hours = mixed(rng, range(216)) + mixed(rng, range(39))
        hours[at] = hour
        stream.resent(cycled(hours))
    # The last of many, and then without it.
    own = bytes(range(216)) + bytes(range(38)) + b"\xd8"
    count = 0
    while count < 900:
        seed = rng.randrange(2**32)
        count = scattered(16384, seed, own).value[::4].find(b"\xd8")
    assert stream.resent(scattered(4 * count + 4, seed, own)) == 15
    assert stream.resent(scattered(4 * count, seed, own)) == 0


# Both sides of what 7, 8, 15 and 16 bits hold.  The order of some is another one by the low
# byte alone, by the high byte alone, or with the two of them exchanged.
SERIALS = 0, 1, 127, 128, 255, 256, 257, 32767, 32768, 65280, 65534, 65535


def serials_of_an_hour(stream, rng):
    """Every two of them, in both orders; each alone; and three, the highest of which is
    first, in the middle and last."""
    for at, (one, other) in enumerate(itertools.permutations(SERIALS, 2)):
        hour = 31 * at % 216
        stream.resent(sent((hour, one, 97 + at % 3), (hour, other, 100 + at % 5)))
    for serial in SERIALS:
        stream.resent(sent((serial % 216, serial, 120)))
    for serials in ((255, 256, 257), (0, 1, 65535), (510, 765, 255), (254, 511, 256)):
        in_each_order(stream, *((99, serial, 65 + at) for at, serial in enumerate(serials)))


def serials_by_a_bit(stream, rng):
    """Serials that differ in one bit, in both orders."""
    for bit in range(16):
        serial, hour = rng.randrange(65536), rng.randrange(216)
        in_each_order(stream, (hour, serial, 98), (hour, serial ^ 2**bit, 99))


def letters_sent_again(stream, rng):
    """Every byte as a letter that supersedes one that differs from it in a bit, and is
    handed in after it or before it; and some alone."""
    for letter in range(128):
        entries = []
        for own in (letter, letter ^ 128):
            hour, serial = rng.randrange(216), rng.randrange(1, 65536)
            before = hour, rng.randrange(serial), own ^ 2 ** (letter % 8)
            entries += [before, (hour, serial, own)]
        stream.resent(sent(*entries[:: (1, -1)[letter // 8 % 2]]))
    for letter in (0, 32, 44, 45, 46, 127, 128, 255):
        stream.resent(sent((letter % 216, 258, letter)))


# The lost-hour mark's neighbours, others by a bit, and what else could stand for nothing.
BESIDE_THE_MARK = 0, 32, 44, 46, 173


def marks_sent_again(stream, rng):
    """The lost-hour mark is a letter as any other: it supersedes, is superseded, and is
    no other letter."""
    for hour, serial in ((0, 0), (215, 65535), (100, 300)):
        stream.resent(sent((hour, serial, 45)))
        stream.resent(sent((hour, serial, 45), (hour, serial, 45)))
        in_each_order(stream, (hour, serial, 45), (hour, serial, 97))
    for letter in BESIDE_THE_MARK:
        in_each_order(stream, (9, 300, 45), (9, 255, letter))
        in_each_order(stream, (9, 255, 45), (9, 300, letter))
        in_each_order(stream, (9, 300, 45), (9, 300, letter))
    in_each_order(stream, (20, 1, 45), (20, 2, 97), (20, 3, 45))
    in_each_order(stream, (20, 1, 97), (20, 2, 45), (20, 3, 98))
    in_each_order(stream, (20, 1, 97), (20, 1, 45), (20, 2, 98))
    in_each_order(stream, (20, 1, 97), (20, 2, 45), (20, 2, 98))
    in_each_order(stream, (20, 0, 45), (20, 0, 45), (20, 0, 46))


def conflicts_at_the_edges(stream, rng):
    """Of the hours and serials at an edge; letters that differ in a bit."""
    for hour in (0, 127, 128, 215):
        for serial in (0, 1, 255, 256, 65534, 65535):
            stream.resent(sent((hour, serial, 97), (hour, serial, 98)))
    for letter, bit in itertools.product((0, 45, 97, 255), range(8)):
        stream.resent(sent((215, 2, letter), (215, 2, letter ^ 2**bit)))


def conflicts_beside_others(stream, rng):
    """Under a higher serial and over a lower one, which has a letter of its own or one of
    theirs; three of one serial, of which two or three differ; and beside another hour."""
    for other, letter in itertools.product((0, 255, 257, 65535), (98, 99)):
        in_each_order(stream, (50, 256, 97), (50, 256, 98), (50, other, letter))
    for letter in (97, 98):
        in_each_order(stream, (0, 0, 97), (0, 0, 98), (0, 0, letter))
    in_each_order(stream, (0, 65535, 97), (0, 65535, 98), (0, 65535, 99))
    in_each_order(stream, (50, 7, 97), (50, 7, 98), (51, 7, 97))


def conflict_of_each_two(stream, rng):
    """Of so many entries, some of them of the same hour, each two that can conflict; then
    of more at the ends, side by side, and at both sides of the middle."""
    for count in (2, 3, 4, 5, 8):
        for places in itertools.combinations(range(count), 2):
            conflicting(stream, rng, count, *places)
    for count in (16, 17, 33, 64):
        half, last = count // 2, count - 1
        for places in ((0, last), (0, 1), (last - 1, last), (half - 1, half), (half // 2, half)):
            conflicting(stream, rng, count, *places)


def conflicting(stream, rng, count, one, other):
    hour = rng.randrange(216)
    entries = some_entries(rng, count)
    entries = [(hour if rng.randrange(2) else h, serial, letter) for h, serial, letter in entries]
    letter = entries[one][2]
    entries[one] = hour, entries[one][1], letter
    entries[other] = hour, entries[one][1], (letter + rng.randrange(1, 256)) % 256
    assert stream.resent(sent(*entries)) == 16


# Two entries that have two letters and don't conflict: of two hours; of two serials that are
# alike in a half or have the halves exchanged; or of hours and serials that come to the same
# where they are put together with too few bits, added, or combined bit by bit.
NO_CONFLICTS = (
    ((0, 5), (1, 5)), ((0, 5), (215, 5)), ((0, 0), (128, 0)), ((87, 65535), (215, 65535)),
    ((214, 0), (215, 0)), ((9, 0), (9, 1)), ((9, 65534), (9, 65535)), ((9, 511), (9, 255)),
    ((9, 0), (9, 256)), ((9, 0), (9, 32768)), ((9, 258), (9, 257)), ((9, 258), (9, 259)),
    ((9, 258), (9, 513)), ((9, 255), (9, 65280)), ((0, 256), (1, 0)), ((0, 1), (1, 0)),
    ((1, 256), (2, 0)), ((0, 216), (1, 0)), ((1, 2), (2, 1)), ((3, 0), (0, 3)), ((1, 3), (3, 1)),
    ((0, 65535), (1, 65534)), ((8, 0), (0, 6675)), ((160, 2), (2, 160)), ((0, 40), (40, 0)),
    ((1, 255), (0, 511)), ((2, 512), (0, 514)), ((0, 65535), (215, 0)),
)


def no_conflicts(stream, rng):
    """These in both orders, in one of them with the first once more."""
    for at, (one, other) in enumerate(NO_CONFLICTS):
        one, other = one + (97,), other + (98,)
        for order in ((one, other, one)[: 2 + at % 2], (other, one, other)[: 3 - at % 2]):
            assert stream.resent(sent(*order)) == 0


def equal_entries(stream, rng):
    """Twice, more often, and as often as there may be entries; beside others of the hour
    that supersede them or don't, and of other hours."""
    for entry in ((0, 0, 0), (0, 0, 45), (215, 65535, 255), (128, 256, 97), (87, 255, 32)):
        for count in (2, 3, 4096):
            stream.resent(repeated(4 * count, sent(entry)))
    for count in (5, 216, 217, 256, 257, 4095, 4097, 8192, 16384):
        stream.resent(repeated(4 * count, sent((215, 513, 98))))
    for serial in (0, 512, 514, 65535):
        in_each_order(stream, (60, 513, 98), (60, 513, 98), (60, serial, 99))
        in_each_order(stream, (60, 513, 98), (60, 513, 98), (60, serial, 98))
    in_each_order(stream, (60, 513, 98), (60, 513, 98), (61, 513, 99), (61, 513, 99))
    unit = sent(*mixed(rng, some_entries(rng, 60)))
    for count in (60, 61, 120, 4095, 4096, 4097):
        stream.resent(repeated(4 * count, unit))


def refused_for_two_reasons(stream, rng):
    """A conflict, and with it a cut-off entry, an hour over 215, or too many entries: 15
    is first.  The conflict may be of that hour, or come about by the cut-off entry."""
    conflict = (7, 3, 97), (7, 3, 98)
    for rest in (b"\7", b"\7\3", b"\7\3\0", b"\xd8\0", b"\xff\xff\xff"):
        assert stream.resent(sent(*conflict) + rest) == 15
        assert stream.resent(sent(conflict[0]) + rest) == 15
        assert stream.resent(sent(*conflict, (7, 4, 99)) + rest) == 15
        assert stream.resent(sent((216, 3, 97)) + rest) == 15
    for hour in (216, 255):
        in_each_order(stream, *conflict, (hour, 3, 97))
        in_each_order(stream, (hour, 3, 97), (hour, 3, 98))
        in_each_order(stream, (hour, 3, 97), (hour, 3, 98), (7, 3, 97))
    in_each_order(stream, (0, 3, 97), (216, 3, 98))
    in_each_order(stream, (39, 3, 97), (255, 3, 98))
    in_each_order(stream, (127, 3, 97), (255, 3, 98))
    for count in (4095, 4096, 4097, 4098, 16384):
        for entries in (conflict, conflict + ((7, 4, 99),), conflict + ((216, 4, 99),)):
            stream.resent(repeated(4 * count, sent(*entries)))
    for n in (16381, 16383, 16385, 16386, 16387, 65537):
        stream.resent(repeated(n, sent(*conflict)))
        stream.resent(repeated(n, sent(*conflict, (255, 4, 99))))
        stream.resent(repeated(n, sent((7, 3, 97), (216, 3, 97))))


def every_three_entries(stream, rng):
    """Of one hour, with two letters and two serials: each three, and each two."""
    every = [(215, serial, letter) for serial in (255, 256) for letter in b"-a"]
    for count in (2, 3):
        for entries in itertools.product(every, repeat=count):
            stream.resent(sent(*entries))


def every_order(stream, rng):
    """Some sets of entries in all their orders."""
    in_each_order(
        stream, (0, 255, 97), (0, 256, 45), (0, 1, 98), (215, 65535, 99), (215, 256, 97)
    )
    for entries in (
        ((7, 3, 97), (7, 3, 98), (7, 9, 99), (8, 3, 98)),
        ((7, 3, 97), (7, 3, 97), (7, 9, 98), (7, 2, 99)),
    ):
        in_each_order(stream, *entries)


def larger_sets_in_some_orders(stream, rng):
    """By hour, by serial, both of these from the end, and shuffled: accepted, with a
    conflict, and with an hour over 215."""
    for count, hours, fault in (
        (20, 3, 0), (40, 216, 0), (60, 9, 0), (24, 4, 16), (24, 4, 15),
    ):
        entries = [
            (serial % hours * (216 // hours), serial, letter)
            for _, serial, letter in some_entries(rng, count)
        ]
        if fault == 16:
            hour, serial, letter = min(entries)
            entries[entries.index(max(entries))] = hour, serial, letter ^ 4
        if fault == 15:
            entries[count // 2] = (216,) + entries[count // 2][1:]
        by_serial = sorted(entries, key=lambda entry: entry[1:])
        orders = [sorted(entries), sorted(entries)[::-1], by_serial, by_serial[::-1]]
        for order in orders + [mixed(rng, entries) for _ in range(2)]:
            assert stream.resent(sent(*order)) == fault


def serials_of_one_hour(stream, rng):
    """As many as there may be entries, descending, and mixed with the highest last; fewer
    ascending; then some of them again and again."""
    serials = mixed(rng, range(65536))[:4096]
    highest = serials.index(max(serials))
    serials[highest], serials[-1] = serials[-1], serials[highest]
    letter = {serial: rng.randrange(256) for serial in serials}
    for hour, order in (
        (215, sorted(serials)[::-1]), (0, serials), (128, sorted(serials[:600])),
    ):
        stream.resent(sent(*((hour, serial, letter[serial]) for serial in order)))
    for order in (sorted(serials[:63]), sorted(serials[:63])[::-1], serials[:63]):
        unit = sent(*((77, serial, letter[serial]) for serial in order))
        for count in (63, 126, 4096):
            stream.resent(repeated(4 * count, unit))
    # Every other byte is the hour, and so the high half of the serial as well.
    for count in (1, 63, 127):
        unit = bytearray([77]) * (2 * count)
        unit[1::2] = mixed(rng, range(256))[:count]
        stream.resent(repeated(16384, bytes(unit)))


# Of 4,096 entries scattered over the bytes up to 215 the only two that conflict: at first
# those with the highest serial of their hour, and then others under a higher one.  The seeds
# were found by trying, and are tested.
LONE_CONFLICTS = (
    (0, 4095, 16218906), (0, 1, 69796753), (4094, 4095, 64559762), (2047, 2048, 445885921),
    (1, 4094, 73727951), (0, 4095, 18451500), (0, 1, 43073550), (4094, 4095, 36379800),
    (2047, 2048, 5060632), (1, 4094, 7842968),
)


def lone_conflicts(stream, rng):
    """The same up to the second of the two and without it; and with one entry too many,
    whole and cut off."""
    own = bytes(range(216))
    for one, other, seed in LONE_CONFLICTS:
        entries, _ = ref.whole_entries(scattered(16384, seed, own).value)
        assert entries[one][:2] == entries[other][:2]
        for count in sorted({other + 1, 4096}):
            assert stream.resent(scattered(4 * count, seed, own)) == 16
        assert stream.resent(scattered(4 * other, seed, own)) == 0
    for at, more in enumerate((1, 2, 3, 4)):
        assert stream.resent(scattered(16384 + more, LONE_CONFLICTS[at][2], own)) == 15


def decides(given, at):
    """Whether the record would be another one without that entry."""
    return ref.resent(given[: 4 * at] + given[4 * at + 4 :])[1] != ref.resent(given)[1]


def scattered_entries(stream, rng):
    """Of as many entries as there may be the first one decides an hour, or the last one;
    then of fewer hours, of fewer entries, of few letters, and of too many entries."""
    own = bytes(range(216))
    for count, at in ((4096, 0), (4096, 4095), (4095, 4094), (4096, 2048)):
        while True:
            text = scattered(4 * count, rng.randrange(2**32), own)
            entries, _ = ref.whole_entries(text.value)
            hour, serial, _ = entries[at]
            highest = max(s for h, s, _ in entries if h == hour) == serial
            if highest and not ref.contradict(entries) and decides(text.value, at):
                break
        stream.resent(text)
    for n in (16380, 16384, 16384, 16388, 16385, 32768, 65536):
        stream.resent(scattered(n, rng.randrange(2**32), own))
    for n, letters_of_all in (
        (40, 3), (60, 5), (100, 10), (100, 10), (400, 30), (400, 60), (1000, 60), (4000, 200),
        (16384, 2), (16384, 10), (16384, 128), (16384, 200),
    ):
        for _ in range(2):
            first = rng.randrange(217 - letters_of_all)
            own = bytes(range(first, first + letters_of_all))
            stream.resent(scattered(n, rng.randrange(2**32), own))


def made_entries(stream, rng):
    """Of few hours and serials, so that many are superseded and many are equal; with a
    conflict, an hour over 215 or a cut-off entry in some."""
    for at in range(84):
        hours = [rng.choice((0, 215, rng.randrange(216))) for _ in range(rng.randrange(1, 6))]
        serials = [rng.choice(SERIALS + (rng.randrange(65536),)) for _ in range(6)]
        letter, entries = {}, []
        for _ in range(at // 3 + 1):
            pair = rng.choice(hours), rng.choice(serials)
            drawn = rng.choice((45, 97, 98, rng.randrange(256)))
            entries.append(pair + (letter.setdefault(pair, drawn),))
        fault = rng.randrange(12)
        if fault < 3:
            hour, serial, drawn = rng.choice(entries)
            another = hour, serial, drawn ^ 2 ** rng.randrange(8)
            entries.insert(rng.randrange(len(entries) + 1), another)
        if fault in (2, 3):
            over = rng.randrange(216, 256), rng.choice(serials), 97
            entries.insert(rng.randrange(len(entries) + 1), over)
        rest = bytes(rng.randrange(256) for _ in range(rng.randrange(1, 4)))
        stream.resent(sent(*entries) + (rest if fault == 4 else b""))


# --- All of them ----------------------------------------------------------------------------

FAMILIES = (
    blank_search,
    sheet_rows,
    widths_under_the_sheet,
    widths_near_a_word,
    exactness,
    byte_values,
    every_k,
    every_length,
    made_searches,
    long_texts,
    long_chunks,
    colliding_sums,
    equal_sums,
    edges_of_terms,
    edges_of_whole_search,
    edges_of_feed,
    edges_of_set_method,
    edges_of_save,
    searches_with_a_fault,
    searches_with_faults,
    sound_searches,
    image_orders,
    changed_images,
    bodies_in_another_order,
    equal_images,
    malformed_images,
    refused_contents,
    series_of_calls,
    first_lines,
    patterns_and_records,
    input_lengths,
    bad_lines_of_long_inputs,
    numbers_of_patterns,
    lengths_of_patterns,
    bytes_of_patterns,
    tolerances_of_several,
    edges_of_several,
    places_of_several,
    texts_of_several,
    patterns_alike,
    bytes_of_several,
    fields_at_their_limits,
    made_several,
    long_texts_of_several,
    numbers_of_lines,
    sheets_of_nothing,
    readings_on_paper,
    windows_on_paper,
    digits_of_positions,
    one_sheet_by_every_method,
    edges_of_sheet,
    limits_of_sheet,
    made_sheets,
    long_sheets,
    sides_by_every_call,
    counts_at_each_width,
    filled_to_a_word,
    accepted_since,
    cut_anywhere,
    in_many_pieces,
    images_of_letters_thrice,
    windows_of_one_reading,
    lengths_of_known_letters,
    every_short_text,
    stops_at_every_offset,
    verified_windows,
    known_bytes,
    most_letters,
    sides_of_method_6,
    limits_of_method_6,
    sheets_of_method_6,
    long_texts_of_method_6,
    handed_over_at_every_cut,
    handed_over_in_an_image,
    tails_of_each_length,
    one_by_one,
    made_of_known_letters,
    inputs_of_method_6,
    series_with_method_6,
    each_entry,
    sides_of_each_entry,
    nothing_but_lost_hours,
    the_hour_between,
    lost_at_each_place,
    pairs_with_lost_hours,
    every_window_with_lost_hours,
    letters_thrice_and_lost_hours,
    lost_hours_one_by_one,
    seams_of_lost_hours,
    lost_hours_in_an_image,
    sums_beside_lost_hours,
    top_bits_before_lost_hours,
    letters_beside_the_mark,
    several_and_lost_hours,
    lost_hours_on_paper,
    inputs_with_lost_hours,
    patterns_with_a_lost_hour,
    sides_of_13,
    several_with_a_lost_hour,
    series_with_lost_hours,
    sheet_from_each_hour,
    hours_beside_matches,
    far_hours,
    lengths_from_an_hour,
    every_k_from_an_hour,
    only_the_last_window,
    after_the_last_match,
    most_looks_from_an_hour,
    lost_hours_from_each_hour,
    sums_from_an_hour,
    stops_from_an_hour,
    scans_past_the_end,
    known_letters_from_an_hour,
    hours_of_a_long_text,
    edges_of_first,
    limits_of_first,
    widths_of_first,
    first_with_a_lost_hour,
    bytes_from_an_hour,
    made_first,
    lengths_of_entries,
    hours_alone,
    hours_together,
    hours_over,
    serials_of_an_hour,
    serials_by_a_bit,
    letters_sent_again,
    marks_sent_again,
    conflicts_at_the_edges,
    conflicts_beside_others,
    conflict_of_each_two,
    no_conflicts,
    equal_entries,
    refused_for_two_reasons,
    every_three_entries,
    every_order,
    larger_sets_in_some_orders,
    serials_of_one_hour,
    lone_conflicts,
    scattered_entries,
    made_entries,
)
