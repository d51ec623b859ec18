"""What a stream of cases reaches, taken from the stream as it is read back."""

import itertools
import math
from collections import Counter

import reference as ref
from compare import (
    METHODS, ORDERS, SHEET, Coverage, candidates, looks_of, windows_of, windows_of_method_6,
)
from vectors_stream import (
    EXACT, FEED, FIRST, HAND, LOAD, MARKED, OPEN, REPORT, RESENT, SAVE, SET_METHOD, SEVERAL,
    WHOLE, WIDTH, First, Handed, Marked,
)

NAMES = {
    WHOLE: "whole search", OPEN: "open", FEED: "feed", SET_METHOD: "set method", SAVE: "save",
    LOAD: "load", REPORT: "report", WIDTH: "width", EXACT: "exact", SEVERAL: "several patterns",
    MARKED: "marked sheet", FIRST: "first match", RESENT: "readings sent again",
}

# Document 01, "When a call says no", and document 02, T-01, T-02, T-07, T-08 and
# T-09: the numbers of each call.
NUMBERS = {
    WHOLE: (*range(8), 13), OPEN: (*range(6), 13), FEED: (*range(10), 13),
    SET_METHOD: (0, 1, 2, 3, 4, 5, 9, 13), SAVE: (0, 1, 2, 3, 4, 5, 9, 10, 13),
    LOAD: (0, 1, 2, 3, 4, 5, 9, 13), SEVERAL: (0, 1, 2, 6, 7, 12, 13),
    MARKED: (0, 1, 2, 3, 4, 5, 6, 7, 10, 13), FIRST: (*range(7), 13), RESENT: (0, 15, 16),
}

# The fewest cases of kinds that are easily thin.
FEWEST = {
    "a bad first line of an input over 16,384 bytes": 60,
    "a bad first line of an input of 16,384 bytes": 20,
    "whole searches with a failed verification": 50,
    "feeds with a failed verification": 50,
    "feeds with a failed verification of a window that begins in the tail": 30,
    "feeds with a failed verification of a window in the chunk": 15,
    "searches with a failed verification and a match": 30,
    "a window that matches several patterns": 100,
    "a window that matches all of eight patterns": 10,
    "several patterns, and no window matches": 15,
    "several patterns, of which two are equal": 50,
    "pairs that fill both lists": 5,
    "lists of unlike length for several patterns": 10,
    "sheets of several pages": 150,
    "sheets of several pages with k > 0": 30,
    "sheets of over ten pages": 40,
    "sheets that fill their buffers": 200,
    "buffers a byte too short for a sheet": 60,
    "buffers that reach past a sheet": 60,
    "lists that reach past a sheet's positions": 100,
    "no positions, and an empty buffer for the sheet": 10,
    "one position, and an empty buffer for the sheet": 5,
    "one sheet by all six methods, with unlike looks": 10,
    "calls that method 2 accepts since T-03": 50,
    "calls that method 3 accepts since T-03": 40,
    "calls that method 2 accepted before T-03, with wider fields": 100,
    "calls that method 3 accepted before T-03, with wider fields": 100,
    "a window of letters thrice across a change from method 2 to 3": 30,
    "a window of letters thrice across a change from method 3 to 2": 30,
    "a window of letters thrice across a change from method 2 to 1": 3,
    "a window of letters thrice across a change from method 1 to 2": 3,
    "a window of letters thrice across a change that is refused with 5": 8,
    "saved searches for letters thrice that are loaded": 4,
    "saved searches for letters thrice that are refused with 5 by another method": 4,
    "searches by method 6 with a match and a window that is verified in vain": 100,
    "feeds by method 6 with a match that begins in the tail": 50,
    "feeds by method 6 with a window from the tail that is verified in vain": 40,
    "saved searches of method 6 that are loaded": 10,
    "saved searches of method 6 that are loaded with another": 5,
    "saved searches of another method that are loaded with 6": 5,
    "images of saved searches in another order": 92,
    "saved searches that differ past their lengths alone": 10,
    "searches with a lost hour in a window that matches and in one that doesn't": 50,
    "feeds with a lost hour in a match that begins in the tail": 80,
    "searches with a lost hour, and fields that were wider before T-03": 10,
    "saved searches with a lost hour in the tail that are loaded": 6,
    "images of another form, with a lost hour in the pattern": 3,
    "several patterns, and a lost hour in a window that matches": 12,
    "sheets that show a lost hour": 20,
    "outputs of a record with a lost hour": 15,
    "first matches where the search starts": 200,
    "first matches that come later": 500,
    "first matches past other windows by a scan that is left early": 100,
    "first matches after a window that method 5 verifies in vain": 20,
    "first matches after a window that method 6 verifies in vain": 35,
    "first matches with a lost hour": 100,
    "first matches in a text of 65,536 readings": 20,
    "no match from the start on, and one before it": 300,
    "no match at all, and windows from the start on": 25,
    "no window from the start on": 300,
    "readings sent again with number 0": 950,
    "readings sent again with number 15": 190,
    "readings sent again with number 16": 310,
    "hours with a reading that is superseded": 4000,
    "equal entries, accepted": 200,
    "4,095 or 4,096 entries, accepted": 25,
    "sets of three to five entries in all their orders": 50,
    "larger sets in another order, number 0": 15,
    "larger sets in another order, number 15": 5,
    "larger sets in another order, number 16": 5,
    "conflicts with the highest serial of the hour alone": 150,
    "conflicts under a higher serial alone": 120,
    "two entries that conflict, side by side": 150,
    "two entries that conflict, at both ends": 35,
    "two entries that conflict, apart": 40,
    "conflicts beside 1 bytes of an entry": 7,
    "conflicts beside 2 bytes of an entry": 5,
    "conflicts beside 3 bytes of an entry": 7,
    "conflicts beside an hour over 215": 20,
    "conflicts of hours over 215": 12,
    "conflicts beside too many entries": 12,
    "refused for 1 bytes of an entry alone": 10,
    "refused for 2 bytes of an entry alone": 10,
    "refused for 3 bytes of an entry alone": 10,
    "refused for too many entries alone": 10,
}

# What is beside the lost-hour mark: the next bytes, and others by a bit.
BESIDE_LOST = (44, 46, 47, 41, 37, 61, 13, 109, 173)

# Starts past the end that every method has, and others that some have.
FAR = 2**32 - 1, 2**32, 2**63, 2**64 - 2, 2**64 - 1
ALSO_FAR = (
    255, 256, 2**16 - 1, 2**16, 2**32 - 2, 2**32 + 1, 2**63 - 1, 2**63 + 1, 2**64 - 3,
    2**64 - 63, 2**64 - 64,
)

# Serials of which every two are the only ones of an hour.
SERIALS = 0, 1, 127, 128, 255, 256, 257, 32767, 32768, 65280, 65534, 65535

# The calls that refuse with 3, 4 and 5.
MEASURING = WHOLE, OPEN, FEED, SET_METHOD, SAVE, LOAD, REPORT, MARKED, FIRST

# --- The tests of each call, in their order ------------------------------------


def method_tests(pattern, k, method):
    wide = method in (2, 3, 4) and ref.bits_needed(pattern, k, method) > 64
    return [(3, method not in METHODS), (4, k > 0 and method in (2, 3, 5, 6)), (5, wide)]


def terms_tests(pattern, k, method):
    m = len(pattern)
    first = [(1, m == 0 or m > 64), (13, ref.LOST in pattern), (2, k >= m)]
    return first + method_tests(pattern, k, method)


def search_tests(search):
    tail = min(search.n, len(search.pattern) - 1)
    return terms_tests(search.pattern, search.k, search.method) + [(9, len(search.tail) != tail)]


def handed_tests(handed, k):
    lengths = handed.lengths
    apart = not 1 <= len(lengths) <= 8 or len(set(lengths)) > 1
    wrong = sum(lengths) != len(handed.data)
    bad = any(m not in range(1, 65) for m in lengths)
    first = [(1, bad), (12, apart or wrong), (13, ref.LOST in handed.data)]
    return first + [(2, len(lengths) > 0 and k >= lengths[0])]


def sheet_needed(pattern, k, text):
    return ref.sheet_length(len(ref.listed_positions(pattern, k, text)))


def tests_of(op, arguments, search):
    """Each number with whether its condition holds, whatever comes before it."""
    if op == OPEN:
        return terms_tests(*arguments)
    if op == WHOLE:
        text, places = arguments[3:]
        return terms_tests(*arguments[:3]) + [(6, len(text) > 65536), (7, places < len(text))]
    if op == FEED:
        chunk, places = arguments
        limits = [(6, len(chunk) > 65536), (7, places < len(chunk))]
        return search_tests(search) + limits + [(8, search.n + len(chunk) > 4294967295)]
    if op == SET_METHOD:
        return search_tests(search) + method_tests(search.pattern, search.k, *arguments)
    if op == SAVE:
        needed = 19 + len(search.pattern) + len(search.tail)
        return search_tests(search) + [(10, arguments[0] < needed)]
    if op == LOAD:
        loaded = ref.parts_of(*arguments)
        return search_tests(loaded) if loaded else [(9, True)]
    if op == SEVERAL:
        handed, k, text, places = arguments
        fewer = min(places, handed.places) < len(text) * len(handed.lengths)
        return handed_tests(handed, k) + [(6, len(text) > 65536), (7, fewer)]
    if op == MARKED:
        handed, k, method, text, places = arguments
        limits = [(6, len(text) > 65536), (7, places < len(text))]
        short = handed.room < sheet_needed(handed.pattern, k, text)
        return terms_tests(handed.pattern, k, method) + limits + [(10, short)]
    if op == FIRST:
        handed, k, method, text = arguments
        return terms_tests(handed.pattern, k, method) + [(6, len(text) > 65536)]
    if op == RESENT:
        entries = fours_of(arguments[0])
        over = any(entry[0] > 215 for entry in entries)
        conflict = len(set(entries)) > len({entry[:3] for entry in entries})
        lengths = [(15, len(arguments[0]) > 16384), (15, len(arguments[0]) % 4 > 0)]
        return lengths + [(15, over), (16, conflict)]
    if op == REPORT:
        method, k, pattern, _ = ref.parse_input(arguments[0]) or (1, 0, b"a", b"")
        bad = ref.parse_input(arguments[0]) is None
        return [(6, len(arguments[0]) > 16384), (11, bad)] + terms_tests(pattern, k, method)
    return []


def fours_of(given):
    """Entries as they are, each four bytes, without one that is cut off."""
    return [given[at : at + 4] for at in range(0, len(given) - 3, 4)]


def measured_terms(op, arguments, search):
    """The pattern, k and method whose fields a case measures, if it comes to that;
    of set method those of the change, unless the search is refused already."""
    if op in (WHOLE, OPEN, WIDTH):
        return arguments[:3]
    if op in (FEED, SAVE):
        return search[:3]
    if op == SET_METHOD and not ref.refuse_search(search):
        return search.pattern, search.k, arguments[0]
    if op == LOAD:
        loaded = ref.parts_of(arguments[0])
        return loaded and loaded[:3]
    if op == REPORT:
        parsed = ref.parse_input(arguments[0])
        return parsed and (parsed[2], parsed[1], parsed[0])
    if op in (MARKED, FIRST):
        return arguments[0].pattern, arguments[1], arguments[2]
    return None


def in_right_order(image):
    """The kinds that four entries name, and the image with entries and bodies put in
    the order of their kinds."""
    entries, bodies, at = [], [], 13
    for i in range(1, 13, 3):
        entries.append(image[i : i + 3])
        end = at + int.from_bytes(image[i + 1 : i + 3], "little")
        bodies.append(image[at:end])
        at = end
    by_kind = sorted(zip(entries, bodies))
    put_right = image[:1] + b"".join(e for e, _ in by_kind) + b"".join(b for _, b in by_kind)
    return tuple(image[1:13:3]), put_right


def has_thrice(pattern):
    return any(pattern.count(c) == 3 for c in pattern)


def possible_pairs(op):
    """Places in the order of tests of two that can hold at once.  A method
    that is none has no condition of number 4 or 5, and a bad first line no terms."""
    numbers = [number for number, _ in tests_of(op, *EXAMPLES[op])]
    for j in range(len(numbers)):
        for i in range(j):
            of_one_method = numbers[i] == 3 and j - i in (1, 2) and numbers[j] in (4, 5)
            if not of_one_method and numbers[i] != 11:
                yield i, j


EXAMPLES = {
    OPEN: ((b"a", 0, 1), ref.BLANK),
    WHOLE: ((b"a", 0, 1, b"", 0), ref.BLANK),
    FEED: ((b"", 0), ref.BLANK),
    SET_METHOD: ((1,), ref.BLANK),
    SAVE: ((0,), ref.BLANK),
    LOAD: ((ref.image_of(ref.BLANK),), ref.BLANK),
    SEVERAL: ((Handed(0, [1], b"a"), 0, b"", 0), ref.BLANK),
    MARKED: ((Marked(0, b"a"), 0, 1, b"", 0), ref.BLANK),
    FIRST: ((First(0, b"a"), 0, 1, b""), ref.BLANK),
    REPORT: ((b"1 0 a\n",), ref.BLANK),
    RESENT: ((b"",), ref.BLANK),
}

# --- Coverage ------------------------------------------------------------------


def place_in(at, length):
    return "first" if at == 0 else "last" if at == length - 1 else "middle"


class VectorCoverage(Coverage):
    def __init__(self):
        super().__init__()
        self.cases = Counter()
        self.hands = 0
        self.pairs = Counter()
        self.counts = Counter()
        self.together = set()
        self.fields = set()
        self.change = None
        self.saved = set()
        self.stored_as = {}
        self.orders = set()
        self.in_several = set()
        self.on_paper = set()
        self.looks_of_sheets = {}
        self.by_letters = set()
        self.known, self.lacking = set(), set()
        self.most_looks = 0
        self.beside_lost = set()
        self.from_hours = set()
        self.first_own, self.first_others = set(), set()
        self.most_looks_first = 0
        self.sent_again = set()
        self.superseding, self.superseded = set(), set()
        self.orders_of_entries = {}

    def case(self, op, arguments, number, before):
        """A case, and the stored search before it."""
        if op == HAND:
            self.hands += 1
            self.change = None
            return
        self.cases[op, number] += 1
        search = ref.contents(before)
        if op == REPORT:
            output = ref.program_output(arguments[0])
            self.add(arguments[0], output)
            self.first_line(arguments[0])
            number = int(output.split()[1]) if output.startswith(b"refused ") else 0
        self.order(op, tests_of(op, arguments, search), number)
        self.across(op, arguments, number, search)
        self.images(op, arguments, number, search, before)
        self.marks(op, arguments, number, before)
        if op == WIDTH:
            self.bits.add((arguments[2], ref.bits_needed(*arguments)))
        elif op == WHOLE and not number:
            self.searched(*arguments[:4])
            self.verifications(op, arguments[0], arguments[2], b"", arguments[3])
        elif op == FEED and not number:
            self.searched(search.pattern, search.k, search.method, search.tail + arguments[0])
            self.verifications(op, search.pattern, search.method, search.tail, arguments[0])
            self.seam(search, arguments[0])
            if search.method == 6:
                self.from_the_tail(search.pattern, search.tail, arguments[0])
        elif op == SEVERAL and not number:
            self.several(*arguments)
        elif op == MARKED and number in (0, 10):
            self.marked(number, *arguments)
        elif op == FIRST and not number:
            self.first(*arguments)
        elif op == RESENT:
            self.resent(number, *arguments)
        terms = measured_terms(op, arguments, search)
        if terms and terms[2] in (2, 3, 4) and number in (0, 5):
            self.measured(op, number, *terms)
        if terms:
            self.beside_method_6(op, number, *terms)

    def measured(self, op, number, pattern, k, method):
        """How many bits the fields of a case need, and what it made of that."""
        bits = ref.bits_needed(pattern, k, method)
        self.fields.add((NAMES[op], "method", method, "bits", bits, "number", number))
        often = {pattern.count(c) for c in pattern}
        if op == WIDTH:
            asked = {k} | {max(v, k) for v in often} if method == 4 else {v + 1 for v in often}
            self.fields.update(("the card, by method", method, "at", v) for v in asked)
            return
        if method == 4 and max(often) <= max(k, 1):
            self.fields.add((NAMES[op], "k", k, "letters", len(set(pattern)), "number", number))
        if often == {3}:
            self.fields.add((NAMES[op], "letters thrice", len(pattern) // 3, method, number))
        for v in often:
            self.fields.add(("a letter that comes", v, "method", method, "bits", bits))
        if method < 4 and not number:
            since = not ref.fits(pattern, k, method, ref.former_width)
            wider = ref.had_other_fields(pattern, k, method)
            self.counts["calls that method %d accepts since T-03" % method] += since
            accepted_before = "calls that method %d accepted before T-03, with wider fields"
            self.counts[accepted_before % method] += wider

    def searched(self, pattern, k, method, text):
        """In methods 2 and 3 also each letter whose field decides: windows that
        match, and windows with one of that letter too many and no other.  The steps
        come to the first window and to each that follows one that matches."""
        super().searched(pattern, k, method, text)
        if method == 6:
            self.course(pattern, text)
        if ref.LOST in text and len(text) >= len(pattern):
            self.evidence(pattern, k, method, text)
        if method not in (2, 3):
            return
        m = len(pattern)
        for s in [0] + [s + 1 for s in ref.listed_positions(pattern, k, text)[:99]]:
            window = text[s : s + m]
            excess = ref.excess(window, pattern)
            for c in set(pattern) if len(window) == m and excess < 2 else ():
                v = pattern.count(c)
                if window.count(c) - v == excess:
                    self.fields.add(("a letter that comes", v, "method", method, "over", excess))

    def beside_method_6(self, op, number, pattern, k, method):
        """Numbers 2 to 4 of method 6 and of those that are none; 64 letters."""
        m = len(pattern)
        tolerance = "k = 0" if k == 0 else "k < m" if k < m else "k >= m"
        self.by_letters.add((NAMES[op], "method", method, tolerance, "number", number))
        if len(set(pattern)) == ref.LONGEST_PATTERN:
            self.by_letters.add((NAMES[op], "64 letters, method", method, "number", number))

    def course(self, pattern, text):
        """Each window that method 6 comes to, and what came before it."""
        m, n, looks = len(pattern), len(text), 0
        matches = set(ref.listed_positions(pattern, 0, text))
        before, kinds = "none", set()
        for s, at in windows_of_method_6(pattern, text):
            kind = "stop" if at is not None else "match" if s in matches else "failure"
            looks += 2 * m if at is None else m - at
            self.by_letters |= {("m", m, kind, at), (kind, "after", before)}
            if s == n - m:
                self.by_letters.add((kind, "in the last window"))
            before = kind
            kinds.add(kind)
        self.by_letters.add(("all windows",) + tuple(sorted(kinds)))
        if n <= m + 1:
            self.by_letters.add(("m", m, "readings", n - m))
        self.most_looks = max(self.most_looks, looks)
        self.known |= set(pattern) & set(text)
        self.lacking |= set(text) - set(pattern) - {ref.LOST}
        with_both = "searches by method 6 with a match and a window that is verified in vain"
        self.counts[with_both] += {"match", "failure"} <= kinds

    def from_the_tail(self, pattern, tail, chunk):
        m = len(pattern)
        self.by_letters.add(("m", m, "tail", len(tail), "chunk", min(len(chunk), 2)))
        verified = [s for s, at in windows_of_method_6(pattern, tail + chunk) if at is None]
        matches = ref.listed_positions(pattern, 0, tail + chunk)
        of_tail = {s in matches for s in verified if s < len(tail)}
        self.counts["feeds by method 6 with a match that begins in the tail"] += True in of_tail
        in_vain = "feeds by method 6 with a window from the tail that is verified in vain"
        self.counts[in_vain] += False in of_tail

    def across(self, op, arguments, number, search):
        """Windows that begin before a change of method and end after it."""
        change, self.change = self.change, None
        if op == SET_METHOD and number == 5:
            self.change = "that is refused with 5"
        elif op == SET_METHOD and not number:
            self.change = "from method %d to %d" % (search.method, arguments[0])
        elif op == LOAD and not number:
            self.change = "by an image of method %d" % ref.parts_of(arguments[0]).method
        elif op == FEED and not number and change:
            text = search.tail + arguments[0]
            first = ref.listed_positions(search.pattern, search.k, text)[:1]
            match = bool(first) and first[0] < len(search.tail)
            at = change, search.pattern, "at", search.n
            self.by_letters |= {at, (change, "within a match", match)}
            if match and ref.LOST in text[first[0] : first[0] + len(search.pattern)]:
                self.beside_lost.add(("a match across a change", change))
            if has_thrice(search.pattern) and match:
                self.counts["a window of letters thrice across a change " + change] += 1

    def images(self, op, arguments, number, search, stored):
        """Searches that were saved, loaded as they are or with another method; the
        orders of the entries, and searches alike that are stored unlike."""
        if op == LOAD:
            order, put_right = in_right_order(arguments[0])
            self.orders.add((order, number))
            known = order in ORDERS[1:] and ref.parts_of(put_right) in self.saved
            self.counts["images of saved searches in another order"] += known
            form = ref.parts_of(arguments[0])
            lost = form is None and ref.LOST in arguments[0][13:15]
            self.counts["images of another form, with a lost hour in the pattern"] += lost
            lost = form is not None and form in self.saved and ref.LOST in form.tail
            kind = "saved searches with a lost hour in the tail that are loaded"
            self.counts[kind] += lost and not number
        if op == SAVE and not number:
            stored_before = self.stored_as.setdefault(search, set())
            again = stored not in stored_before and len(stored_before) > 0
            self.counts["saved searches that differ past their lengths alone"] += again
            stored_before.add(stored)
            self.saved.add(search)
        elif op == LOAD and number in (0, 5):
            loaded = ref.parts_of(arguments[0])
            others = {loaded._replace(method=method) for method in METHODS}
            for kind, holds in (
                ("are loaded", loaded in self.saved),
                ("are refused with 5 by another method", number == 5 and others & self.saved),
            ):
                if has_thrice(loaded.pattern) and holds:
                    self.counts["saved searches for letters thrice that " + kind] += 1
            six = loaded._replace(method=6)
            by_6, by_others = six in self.saved, bool((others - {six}) & self.saved)
            for kind, holds in (
                ("of method 6 that are loaded", by_6 and loaded == six),
                ("of method 6 that are loaded with another", by_6 and loaded != six),
                ("of another method that are loaded with 6", by_others and loaded == six),
            ):
                self.counts["saved searches " + kind] += holds and not number

    def marks(self, op, arguments, number, stored):
        """Number 13 by where the lost hour is; stored searches that have one only where
        it does nothing; and the example of the request."""
        if op == SEVERAL and number == 13:
            patterns = ref.cut_up(arguments[0].data, arguments[0].lengths)
            for at, pattern in enumerate(patterns):
                if ref.LOST in pattern:
                    place = place_in(at, len(patterns))
                    self.beside_lost.add(("13 of", len(patterns), "patterns, by the", place))
        terms = measured_terms(op, arguments, ref.contents(stored))
        if op == SET_METHOD:
            terms = ref.contents(stored)[:3]
        if number == 13 and terms:
            pattern = terms[0]
            place = place_in(pattern.index(ref.LOST), len(pattern))
            self.beside_lost.add((NAMES[op], "number 13", "m", len(pattern), place))
        if op in (FEED, SET_METHOD, SAVE) and not number:
            if ref.LOST in stored.pattern[stored.pattern_len :]:
                self.beside_lost.add((NAMES[op], "lost past the pattern's length"))
            if ref.LOST in stored.tail[stored.tail_len :]:
                self.beside_lost.add((NAMES[op], "lost past the tail's length"))
        record = None
        if op in (WHOLE, MARKED, FIRST):
            record = arguments[3]
        elif op == FEED:
            record = ref.contents(stored).tail + arguments[0]
        elif op == REPORT and not number:
            record = ref.parse_input(arguments[0])[3]
        if record == b"a-c" and terms[0] == b"abc" and not number:
            self.beside_lost.add(("the example", NAMES[op], "method", terms[2]))

    def evidence(self, pattern, k, method, text):
        """An accepted search of a text with lost hours, by the windows that it comes
        to."""
        m, n = len(pattern), len(text)
        tolerance = "k > 0" if k else "k = 0"
        if text == b"-" * n:
            self.beside_lost.add(("nothing else, method", method, tolerance, "m", m))
        matches = set(ref.listed_positions(pattern, k, text))
        if n == m and matches and text.count(ref.LOST) == 1:
            at = text.index(ref.LOST)
            self.beside_lost.add(("a record of one window, method", method, "m", m, "at", at))
        lost = {s in matches for s in range(n - m + 1) if ref.LOST in text[s : s + m]}
        both = "searches with a lost hour in a window that matches and in one that doesn't"
        self.counts[both] += len(lost) == 2
        wider = "searches with a lost hour, and fields that were wider before T-03"
        self.counts[wider] += ref.had_other_fields(pattern, k, method)
        if method == 5:
            self.sums(pattern, text, matches)
        for c in BESIDE_LOST if m == 1 else ():
            if c in text:
                self.beside_lost.add(("reading", c, "method", method, "own", c in pattern))
        if m > 8 or n > 20000:
            return
        for s, stop in windows_of(pattern, k, method, text):
            window = text[s : s + m]
            if set(pattern) <= set(b"ab") and set(window) <= set(b"ab-x"):
                self.beside_lost.add((pattern, k, method, window))
            if ref.LOST in window:
                self.one_window(pattern, k, method, window, stop, s in matches)

    def one_window(self, pattern, k, method, window, stop, match):
        """How the scan of a window with a lost hour ends: as a match, verified in vain,
        or before it comes to the lost hour, at it, or after it."""
        at = window.index(ref.LOST)
        how = "a match" if match else "none"
        if stop is not None:
            how = "left before" if stop > at else "left at" if stop == at else "left after"
        if window.count(ref.LOST) == 1:
            self.beside_lost.add(("method", method, "k > 0", k > 0, "m", len(window), at, how))
        if method == 3:
            self.pairs_read(pattern, window, stop)
        if method == 4 and k:
            self.top_bits(pattern, k, window, stop)

    def pairs_read(self, pattern, window, stop):
        """Each step of method 3 with a lost hour in it."""
        def kind(c):
            return "lost" if c == ref.LOST else "own" if c in pattern else "strange"

        right = len(window) - 1
        while right >= (stop or 0):
            left = max(right - 1, 0)
            kinds = tuple(kind(c) for c in window[left : right + 1])
            if "lost" in kinds:
                self.beside_lost.add(("step", kinds, "left" if stop == left else "gone on"))
            right = left - 1

    def top_bits(self, pattern, k, window, stop):
        """Method 4: the errors to the right of a lost hour, and whose top bits they
        set; with k of them one more would end the scan."""
        for at in range(stop or 0, len(window)):
            right = window[at + 1 :].replace(b"-", b"")
            errors = ref.excess(right, pattern)
            shared = any(c not in pattern for c in right)
            own = any(right.count(c) > pattern.count(c) for c in pattern)
            if window[at] == ref.LOST and errors:
                bits = "both" if shared and own else "shared" if shared else "own"
                end = "a match" if stop is None else "left"
                self.beside_lost.add(("top bits", bits, "errors", errors, "of", k, end))

    def sums(self, pattern, text, matches):
        """Method 5: the kind of each window, and which follows which where a lost hour
        enters or leaves."""
        m, exact, before = len(pattern), ref.heap_is_exact(pattern), None
        equal = set(candidates(pattern, text))
        for s in range(len(text) - m + 1):
            kind = ref.LOST in text[s : s + m], s in equal, s in matches
            self.beside_lost.add(("exact", exact, "lost, equal sum, match", kind))
            if before and before[0] != kind[0]:
                self.beside_lost.add(("exact", exact, before[:2], "then", kind[:2]))
            before = kind

    def seam(self, search, chunk):
        """Lost hours at the place where a piece joins the tail."""
        pattern, k, method, _, tail = search
        m, text = len(pattern), tail + chunk
        if not tail or not chunk or len(text) < m or ref.LOST not in text:
            return
        found = [s for s in ref.listed_positions(pattern, k, text) if s < len(tail)]
        match = any(ref.LOST in text[s : s + m] for s in found)
        self.counts["feeds with a lost hour in a match that begins in the tail"] += match
        for kind, holds in (
            ("last of the tail", tail[-1] == ref.LOST != chunk[0]),
            ("first of the piece", tail[-1] != ref.LOST == chunk[0]),
            ("on both sides", tail[-1] == ref.LOST == chunk[0]),
            ("all of the tail", tail == b"-" * (m - 1) and m > 2),
            ("a piece of one", chunk == b"-"),
        ):
            if holds:
                self.beside_lost.add(("seam", kind, "method", method, "k > 0", k > 0, match))

    def several(self, handed, k, text, places):
        patterns = ref.cut_up(handed.data, handed.lengths)
        pairs = ref.listed_pairs(patterns, k, text)
        at_once = Counter(s for s, _ in pairs).values()
        m, n, count = handed.lengths[0], len(text), len(patterns)
        side = "shorter" if n < m else "equal" if n == m else "longer"
        self.together |= {("count", count), ("m, k", m, k), ("m, text", m, side)}
        self.in_several |= set(handed.data) & set(text)
        for kind, holds in (
            ("a window that matches several patterns", count > 1 and max(at_once, default=0) > 1),
            ("a window that matches all of eight patterns", count == 8 and 8 in at_once),
            ("several patterns, and no window matches", count > 1 and n >= m and not pairs),
            ("several patterns, of which two are equal", len(set(patterns)) < count),
            ("pairs that fill both lists", places == handed.places == len(pairs) > 0),
            ("lists of unlike length for several patterns", places != handed.places),
            ("several patterns, and a lost hour in a window that matches",
             count > 1 and any(ref.LOST in text[s : s + m] for s, _ in pairs)),
        ):
            self.counts[kind] += holds

    def marked(self, number, handed, k, method, text, places):
        """A sheet that was written, or one for which the buffer is too short."""
        room, pattern = handed
        positions = ref.listed_positions(pattern, k, text)
        spare = room - ref.sheet_length(len(positions))
        pages = -(-len(positions) // ref.LINES_OF_A_PAGE)
        self.on_paper.add(("lines", len(positions), spare))
        if pages > 10:
            m = len(pattern)
            window = m if m in (1, ref.LONGEST_PATTERN) else "between"
            self.on_paper.add(("over ten pages, window", window, "k > 0", k > 0, spare))
        for kind, holds in (
            ("buffers a byte too short for a sheet", spare == -1),
            ("one position, and an empty buffer for the sheet", len(positions) == 1 and not room),
            ("no positions, and an empty buffer for the sheet", not positions and not room),
            ("sheets of several pages", not number and pages > 1),
            ("sheets of several pages with k > 0", not number and pages > 1 and k > 0),
            ("sheets of over ten pages", not number and pages > 10),
            ("sheets that fill their buffers", not number and positions and not spare),
            ("buffers that reach past a sheet", not number and positions and spare > 0),
            ("lists that reach past a sheet's positions", not number and 0 < len(positions) < places),
        ):
            self.counts[kind] += bool(holds)
        if not number:
            self.searched(pattern, k, method, text)
            self.lines(pattern, k, method, text, positions)

    def lines(self, pattern, k, method, text, positions):
        """What the lines of a sheet show."""
        m = len(pattern)
        for s in positions:
            self.on_paper.add(("position", s))
            for c in set(text[s : s + m]):
                self.on_paper.add(("reading", c, "of the pattern" if c in pattern else "else"))
        shown = any(ref.LOST in text[s : s + m] for s in positions)
        self.counts["sheets that show a lost hour"] += shown
        if positions:
            self.on_paper |= {("window", m), ("method", method)}
            self.looks_of_one_sheet(pattern, k, method, text)

    def looks_of_one_sheet(self, pattern, k, method, text):
        looks = self.looks_of_sheets.setdefault((pattern, k, text), {})
        if method not in looks:
            looks[method] = ref.by_steps(pattern, k, method, text)[1]
            unlike = len(looks) == len(METHODS) and len(set(looks.values())) > 1
            self.counts["one sheet by all six methods, with unlike looks"] += unlike

    def first(self, handed, k, method, text):
        """An accepted search for the first match."""
        start, pattern = handed
        m, n = len(pattern), len(text)
        matches = ref.listed_positions(pattern, k, text)
        after = [s for s in matches if s >= start]
        self.start(pattern, k, method, text, start, bool(after))
        self.outcome(method, n - m, start, matches, after)
        if after:
            s, window = after[0], text[after[0] : after[0] + m]
            self.first_own |= set(pattern) & set(window)
            before = ref.excess(text[s - 1 : s - 1 + m], pattern) if s > start else None
            if (before, ref.excess(window, pattern)) == (k + 1, k):
                self.from_hours.add(("method", method, "m", m, "k", k, "after an error more"))
            self.counts["first matches with a lost hour"] += ref.LOST in window
            self.counts["first matches in a text of 65,536 readings"] += n == 65536
        if start <= n - m:
            end = after[0] + m if after else n
            self.way(pattern, k, method, text, start, end, bool(after))

    def start(self, pattern, k, method, text, start, found):
        """Where it begins."""
        m, n = len(pattern), len(text)
        for at, row in enumerate(SHEET):
            if (pattern, k, text) == row[:3]:
                self.from_hours.add(("row", at, "method", method, "from", start))
        for place, at in (
            ("position 0", 0), ("the last window", n - m), ("after the last window", n - m + 1),
            ("the last reading", n - 1), ("the end", n), ("past the end", n + 1),
        ):
            if start == at and n >= m:
                self.from_hours.add(("method", method, "from", place, found))
        if start in FAR + ALSO_FAR:
            self.from_hours |= {("from", start), ("method", method, "from", start)}
        if n <= m + 1:
            self.from_hours.add(("m", m, "readings", n - m, "from", start))

    def outcome(self, method, last, start, matches, after):
        """What it finds, and where the other matches are."""
        first = after[0] if after else None
        for kind, holds in (
            ("at the start", first == start),
            ("right after the start", first == start + 1),
            ("later", after and first > start + 1),
            ("the last window alone", after == [last] and start < last),
            ("from right after a match", after and start - 1 in matches and first > start),
            ("between two matches", after and matches[0] < start < first),
            ("none from right after the last match", not after and start - 1 in matches[-1:]),
            ("none after the last match", not after and matches and start <= last),
            ("none at all", not matches and start <= last),
            ("none in the last window, from it", not after and start == last),
            ("no window", start > last),
        ):
            if holds:
                self.from_hours.add(("method", method, kind))
        for kind, holds in (
            ("first matches where the search starts", first == start),
            ("first matches that come later", after and first > start),
            ("no match from the start on, and one before it", matches and not after),
            ("no match at all, and windows from the start on", not matches and start <= last),
            ("no window from the start on", start > last),
        ):
            self.counts[kind] += bool(holds)

    def way(self, pattern, k, method, text, start, end, found):
        """What it comes to from the start up to the window that is found, or up to the
        end.  The looks are held to another description of them here."""
        m, part = len(pattern), text[start:end]
        looks = ref.steps_first(pattern, k, method, text, start)[1]
        assert looks == looks_of(pattern, k, method, part), (pattern, k, method, text, start)
        self.most_looks_first = max(self.most_looks_first, looks)
        self.first_others |= set(part) - set(pattern) - {ref.LOST}
        windows = list(windows_of(pattern, k, method, part))
        if method in (2, 3, 4, 6):
            self.left_early(m, method, windows, len(text) - m - start, found)
        if method == 5:
            self.sums_on_the_way(pattern, part, found)
        if method == 6:
            self.letters_on_the_way(windows, found)
        lost = [s for s, _ in windows if ref.LOST in part[s : s + m]]
        passed = lost[:-1] if found and lost[-1:] == [len(part) - m] else lost
        for kind, holds in (
            ("in the match at the start", found and lost and len(part) == m),
            ("in a match that comes later", found and lost != passed and len(part) > m),
            ("in a window before the match", found and passed),
            ("before the start alone", ref.LOST in text[:start] and ref.LOST not in part),
            ("after the match alone", found and ref.LOST in text[end:] and not lost),
        ):
            if holds:
                self.from_hours.add(("method", method, "a lost hour", kind))

    def left_early(self, m, method, windows, last, found):
        """The scans of backward methods, by where they are left; those that go past other
        windows, to the match or past the last window of the text."""
        before = 0
        for s, stop in windows:
            if found and stop is None and s == windows[-1][0] and s > before:
                self.from_hours.add(("method", method, "a match past other windows"))
                kind = "first matches past other windows by a scan that is left early"
                self.counts[kind] += 1
            before = s + 1
            if stop is not None:
                self.from_hours.add(("method", method, "m", m, "left at", stop))
                if s < last < s + stop:
                    self.from_hours.add(("method", method, "past several windows and the last"))

    def sums_on_the_way(self, pattern, part, found):
        """The kind of each window that method 5 comes to, as for whole searches."""
        m, exact = len(pattern), ref.heap_is_exact(pattern)
        equal, last, in_vain = set(candidates(pattern, part)), len(part) - m, False
        for s in range(last + 1):
            match = found and s == last
            kind = ref.LOST in part[s : s + m], s in equal, match
            in_vain |= not match and (kind[0] or kind[1] and not exact)
            place = "alone" if last == 0 else "at the start" if s == 0 else "later"
            self.from_hours.add(("exact", exact, "lost, equal sum, match", kind, place))
        kind = "first matches after a window that method 5 verifies in vain"
        self.counts[kind] += found and in_vain

    def letters_on_the_way(self, windows, found):
        """Each window that method 6 comes to, and what came before it."""
        before, kinds = "none", set()
        for s, stop in windows:
            match = found and s == windows[-1][0]
            kind = "stop" if stop is not None else "match" if match else "failure"
            self.from_hours.add(("method 6", kind, "after", before))
            before = kind
            kinds.add(kind)
        in_vain = "first matches after a window that method 6 verifies in vain"
        self.counts[in_vain] += {"failure", "match"} <= kinds

    def resent(self, number, given):
        """Entries sent again, by what becomes of them."""
        entries, cut_off = ref.whole_entries(given)
        self.counts["readings sent again with number %d" % number] += 1
        self.sent_again.add(("bytes", len(given), "number", number))
        if number == 0:
            self.hours_sent(entries)
            self.equal_ones(entries)
            self.most_sent(entries)
        elif number == 16:
            self.conflict(entries)
        else:
            self.refused_at_once(entries, cut_off)
        if not cut_off and len(entries) <= ref.MOST_ENTRIES:
            self.order_of_entries(number, entries)

    def hours_sent(self, entries):
        """Which hours there are, and what is superseded in each."""
        hours = [entry.hour for entry in entries]
        if len(hours) == 1:
            self.sent_again.add(("alone, hour", hours[0]))
            self.sent_again.add(("alone, serial", entries[0].serial))
            self.sent_again.add(("alone, letter", entries[0].letter))
        left_out = set(range(216)) - set(hours)
        if not left_out:
            way = "ascending" if hours == sorted(hours) else "mixed"
            way = "descending" if hours[::-1] == sorted(hours) else way
            self.sent_again.add(("all hours", way))
        if len(left_out) == 1:
            self.sent_again.add(("all hours but", left_out.pop()))
        of_hours = {}
        for entry in entries:
            of_hours.setdefault(entry.hour, []).append(entry)
        for of_hour in of_hours.values():
            self.superseded_in_an_hour(of_hour)
        if len(set(entries)) == 2:
            self.no_conflict(*dict.fromkeys(entries))

    def superseded_in_an_hour(self, of_hour):
        """The entries of an hour in their order, where the letter makes a difference."""
        highest = max(of_hour, key=lambda entry: entry.serial)
        others = {entry.letter for entry in of_hour if entry.serial < highest.serial}
        if others - {highest.letter}:
            self.superseding.add(highest.letter)
            self.superseded |= others
            place = place_in(of_hour.index(highest), len(of_hour))
            self.sent_again.add(("the highest serial", place))
            self.counts["hours with a reading that is superseded"] += 1
        if len(of_hour) == 2 and others - {highest.letter}:
            self.two_serials(*(entry.serial for entry in of_hour))

    def two_serials(self, one, other):
        """The serials of an hour's two entries, as they are handed in: how they differ,
        and whether less than both bytes would tell which is the higher one."""
        self.sent_again.add(("serials", one, other))
        order, apart = "ascending" if one < other else "descending", one ^ other
        lower, higher = min(one, other), max(one, other)
        exchanged = [serial // 256 + 256 * (serial % 256) for serial in (lower, higher)]
        for kind, holds in (
            ("alike in the low byte", apart % 256 == 0),
            ("alike in the high byte", apart < 256),
            ("of another order by the low byte", lower % 256 > higher % 256),
            ("of another order with the bytes exchanged", exchanged[0] > exchanged[1]),
            ("of another order with a sign", lower < 32768 <= higher),
            ("apart by half of the numbers", higher - lower == 32768),
            ("apart by bit %d" % (apart.bit_length() - 1), apart & (apart - 1) == 0),
        ):
            if holds:
                self.sent_again.add(("serials", kind, order))

    def no_conflict(self, one, other):
        """Two entries that might be taken for a conflict, and what they share."""
        hours, serials = (one.hour, other.hour), (one.serial, other.serial)
        in_both = list(zip(hours, serials))
        hour, serial = hours[0] == hours[1], serials[0] == serials[1]
        low, high = [s % 256 for s in serials], [s // 256 for s in serials]

        def same(combined):
            return combined(*in_both[0]) == combined(*in_both[1])

        for kind, holds in (
            ("serial", serial),
            ("serial, hours by the top bit", serial and hours[0] ^ hours[1] == 128),
            ("hour", hour),
            ("hour and low byte", hour and low[0] == low[1]),
            ("hour and high byte", hour and high[0] == high[1]),
            ("hour and the bytes, exchanged", hour and low == high[::-1]),
            ("sum", same(lambda h, s: h + s)),
            ("exclusive or", same(lambda h, s: h ^ s)),
            ("hour times 256 and serial", same(lambda h, s: 256 * h + s)),
            ("hour times 216 and serial", same(lambda h, s: 216 * h + s)),
            ("serial times 216 and hour in 16 bits", same(lambda h, s: (216 * s + h) % 65536)),
        ):
            if holds and one.letter != other.letter:
                self.sent_again.add(("no conflict, but the same", kind))

    def equal_ones(self, entries):
        if not entries:
            return
        entry, often = Counter(entries).most_common(1)[0]
        others = {other for other in entries if other.hour == entry.hour} - {entry}
        for kind, holds in (
            ("alone", len(set(entries)) == 1),
            ("beside a higher serial", any(other.serial > entry.serial for other in others)),
            ("beside a lower serial", any(other.serial < entry.serial for other in others)),
            ("beside other hours", any(other.hour != entry.hour for other in entries)),
        ):
            if holds and often > 1:
                self.sent_again.add(("equal entries", kind, often))
                self.counts["equal entries, accepted"] += 1

    def most_sent(self, entries):
        """Many entries: how many serials of an hour, in which order; and whether the first
        or the last one decides."""
        count = len(entries)
        if len({entry.hour for entry in entries}) == 1:
            serials = [entry.serial for entry in entries]
            if count >= 63 and len(set(serials)) == count:
                way = "ascending" if serials == sorted(serials) else "mixed"
                way = "descending" if serials[::-1] == sorted(serials) else way
                self.sent_again.add(("serials of one hour", count, way))
        if count < 4095:
            return
        self.counts["4,095 or 4,096 entries, accepted"] += 1
        record = ref.record_of(entries)
        for at in (0, count // 2, count - 1):
            if ref.record_of(entries[:at] + entries[at + 1 :]) != record:
                self.sent_again.add(("of", count, "one decides, the", place_in(at, count)))

    def conflict(self, entries):
        """Each hour and serial with two letters, and where the two entries are that
        conflict, if there are no more."""
        places, higher = {}, []
        for at, entry in enumerate(entries):
            places.setdefault(entry[:2], []).append(at)
        same = [some for some in places.values() if len({entries[at] for at in some}) > 1]
        for some in same:
            hour, serial, _ = entries[some[0]]
            serials = [entry.serial for entry in entries if entry.hour == hour]
            higher.append(max(serials) > serial)
            lower, letters = min(serials) < serial, len({entries[at] for at in some})
            self.sent_again |= {
                ("conflict", "higher", higher[-1], "lower", lower),
                ("conflict", "entries", min(len(some), 4), "letters", min(letters, 4)),
            }
        self.counts["conflicts with the highest serial of the hour alone"] += not any(higher)
        self.counts["conflicts under a higher serial alone"] += all(higher)
        if [len(some) for some in same] == [2]:
            self.two_that_conflict(entries, *same[0], higher[0])

    def two_that_conflict(self, entries, one, other, higher):
        hour, serial, letter = entries[one]
        count, another = len(entries), entries[other].letter
        kind = "side by side" if other == one + 1 else "apart"
        if count > 2 and other - one == count - 1:
            kind = "at both ends"
        self.counts["two entries that conflict, " + kind] += 1
        self.sent_again |= {
            ("conflict", "hour", hour, "serial", serial),
            ("conflict", "letters", letter, another),
            ("conflict", "bits", letter ^ another),
            ("conflict", "of", count, "at", one, other),
            ("conflict", "of", count, "at", one, other, "higher", higher),
        }

    def refused_at_once(self, entries, cut_off):
        """Number 15: the one hour over 215, and conflicts beside what is refused."""
        over = [at for at, entry in enumerate(entries) if entry.hour > 215]
        conflict, many = ref.contradict(entries), len(entries) > 4096
        among = ref.contradict([entry for entry in entries if entry.hour < 216])
        if len(over) == 1 and not cut_off and not many:
            count, hour = len(entries), entries[over[0]].hour
            size = "alone" if count == 1 else "few" if count < 9 else "many"
            self.sent_again.add(("hour over 215", hour, size, place_in(over[0], count)))
        alone = not conflict and not over
        for kind, holds in (
            ("conflicts of hours over 215", conflict and not among),
            ("conflicts beside an hour over 215", over and among),
            ("conflicts beside %d bytes of an entry" % len(cut_off), conflict),
            ("conflicts beside too many entries", many and conflict),
            ("refused for %d bytes of an entry alone" % len(cut_off), alone and not many),
            ("refused for too many entries alone", alone and not cut_off),
        ):
            self.counts[kind] += bool(holds)

    def order_of_entries(self, number, entries):
        """Sets of entries that have come in all their orders, or in another one."""
        orders = self.orders_of_entries.setdefault(tuple(sorted(entries)), set())
        if tuple(entries) in orders:
            return
        orders.add(tuple(entries))
        count, possible = len(entries), math.factorial(min(len(entries), 8))
        for often in Counter(entries).values():
            possible //= math.factorial(min(often, 8))
        if 2 < count < 8 and len(orders) == possible:
            hours = len({entry.hour for entry in entries})
            self.sent_again.add(("all orders of", count, "hours", hours, "number", number))
            self.counts["sets of three to five entries in all their orders"] += 1
        if count >= 20 and len(orders) > 1:
            self.counts["larger sets in another order, number %d" % number] += 1

    def first_line(self, given):
        if ref.parse_input(given) and len(given) <= ref.LONGEST_INPUT:
            method, k, pattern, text = ref.parse_input(given)
            sound = not ref.refuse_terms(pattern, k, method)
            self.counts["outputs of a record with a lost hour"] += sound and ref.LOST in text
        elif b"-" in given.split(b"\n")[0][4:]:
            number = 6 if len(given) > ref.LONGEST_INPUT else 11
            self.beside_lost.add(("a first line with a lost hour", "number", number))
        if ref.parse_input(given) is None:
            if len(given) > ref.LONGEST_INPUT:
                self.counts["a bad first line of an input over 16,384 bytes"] += 1
            elif len(given) == ref.LONGEST_INPUT:
                self.counts["a bad first line of an input of 16,384 bytes"] += 1

    def verifications(self, op, pattern, method, tail, given):
        """Candidates of method 5 that are verified and do not match."""
        if method != 5 or ref.heap_is_exact(pattern):
            return
        text = tail + given
        matches = ref.listed_positions(pattern, 0, text)
        failed = [s for s in candidates(pattern, text) if s not in matches]
        if failed:
            kind = "whole searches" if op == WHOLE else "feeds"
            self.counts[kind + " with a failed verification"] += 1
            of_a_window = "feeds with a failed verification of a window "
            if failed[0] < len(tail):
                self.counts[of_a_window + "that begins in the tail"] += 1
            if op == FEED and failed[-1] >= len(tail):
                self.counts[of_a_window + "in the chunk"] += 1
            if matches:
                self.counts["searches with a failed verification and a match"] += 1

    def order(self, op, tests, number):
        """The first test that holds gives the number; others may hold too."""
        holding = [at for at, (_, holds) in enumerate(tests) if holds]
        if tests:
            assert number == (tests[holding[0]][0] if holding else 0), (op, tests, number)
        for at in holding[1:]:
            self.pairs[op, holding[0], at] += 1

    def report(self):
        for op, name in NAMES.items():
            numbers = sorted(number for at, number in self.cases if at == op)
            each = ["%d: %d" % (number, self.cases[op, number]) for number in numbers]
            total = sum(self.cases[op, number] for number in numbers)
            print("  %s, %d cases by number: %s" % (name, total, ", ".join(each)))
        print("  searches filled in by hand: %d" % self.hands)
        print(
            "  tests that hold at once: %d pairs, %d times"
            % (len(self.pairs), sum(self.pairs.values()))
        )
        for kind in FEWEST:
            print("  %s: %d" % (kind, self.counts[kind]))
        print("  the program's answers, and then the accepted searches of all kinds:")
        super().report()

    def wanted_together(self):
        """Every number of patterns, every k of short ones, and the edges."""
        for count in range(1, 9):
            yield "count", count
        for m in (1, 2, 3, 4, 5, 6, 63, 64):
            for k in range(m) if m < 63 else (0, m - 1):
                yield "m, k", m, k
        for m in (1, 2, 3, 63, 64):
            for side in ("shorter", "equal", "longer"):
                yield "m, text", m, side

    def wanted_on_paper(self):
        """Both sides of every page and of every buffer, with the most lines that
        fit a buffer here, and in many pages of short and long windows, also with
        errors, which a window of one reading can't have; every length of a
        window; every reading, and by an error alone those at an edge; both sides
        of each power of ten, and the last position of all."""
        for lines in (0, 1, 49, 50, 51, 99, 100, 101, 150, 151, 862):
            for spare in (-1, 0, 1) if lines else (0, 1):
                yield "lines", lines, spare
        for window in (1, "between", ref.LONGEST_PATTERN):
            for errors in (False,) if window == 1 else (False, True):
                for spare in (-1, 0, 1):
                    yield "over ten pages, window", window, "k > 0", errors, spare
        for m in range(1, 65):
            yield "window", m
        for method in METHODS:
            yield "method", method
        for c in set(range(256)) - {ref.LOST}:
            yield "reading", c, "of the pattern"
        for c in (0, 10, 12, 13, 31, 32, 33, 45, 46, 126, 127, 128, 255):
            yield "reading", c, "else"
        for s in (0, 9, 10, 99, 100, 999, 1000, 9999, 10000, 65534, 65535):
            yield "position", s

    def wanted_beside_method_6(self):
        """Both sides of 3 and 4, and 2 before them, by every call; and with more
        letters than fields have room for."""
        for op in MEASURING:
            name = NAMES[op]
            yield name, "method", 6, "k = 0", "number", 0
            yield name, "method", 6, "k < m", "number", 4
            for method in (6, 7) if op != SET_METHOD else ():
                yield name, "method", method, "k >= m", "number", 2
            for method in (0, 7, 8, 9):
                yield name, "method", method, "k = 0", "number", 3
            for method in (7, 9) if op == REPORT else (7, 9, 200, 255):
                yield name, "method", method, "k < m", "number", 3
            for method, number in ((2, 5), (3, 5), (4, 5), (6, 0)):
                yield name, "64 letters, method", method, "number", number

    def wanted_by_letters(self):
        """A stop at every offset; windows that match and that fail, last, alone, and
        each kind after each; texts beside m."""
        for m in (1, 2, 3, 5, 63, 64):
            for at in range(m):
                yield "m", m, "stop", at
            for kind in ("match", "failure") if m > 1 else ("match",):
                yield "m", m, kind, None
            for more in (-1, 0, 1) if m in (1, 2, 63, 64) else ():
                yield "m", m, "readings", more
        for kind in ("stop", "match", "failure"):
            yield kind, "in the last window"
            yield "all windows", kind
            for before in ("none", "stop", "match", "failure"):
                yield kind, "after", before
        yield "all windows", "failure", "match"

    def wanted_over_seams(self):
        """Every cut of a short record, from method 6 to each other, and back at the
        same place of its repetition; tails of every length."""
        for other in METHODS[:5]:
            there, back = "from method 6 to %d" % other, "from method %d to 6" % other
            for cut in range(10):
                yield there, b"aab", "at", cut
                yield back, b"aab", "at", 9 + cut
            for change in (there, back):
                yield change, "within a match", True
        for m, chunks in ((1, (0, 1)), (2, (0, 1, 2)), (5, (0, 1, 2)), (64, (1,))):
            for tail in range(m):
                for chunk in chunks:
                    yield "m", m, "tail", tail, "chunk", chunk

    def wanted_fields(self):
        """Both sides of number 5 by every call, also with 21 letters thrice; each
        count beside a width's edge in windows that match and in windows with one
        more, and at both sides of number 5 where 64 readings have room for that; every
        entry of the card, and by every k the most letters of method 4 and one more."""
        for op in MEASURING:
            for method in (2, 3, 4):
                for bits, number in ((64, 0), (65, 5)):
                    yield NAMES[op], "method", method, "bits", bits, "number", number
            for method, number in ((2, 0), (3, 5), (4, 5)):
                yield NAMES[op], "letters thrice", 21, method, number
        for method in (2, 3, 4):
            for bits in (64, 65):
                yield NAMES[WIDTH], "method", method, "bits", bits, "number", 0
        for v in range(65):
            for method in (4,) if v < 2 else (2, 3, 4):
                yield "the card, by method", method, "at", v
        for k in range(64):
            for op in (WHOLE, OPEN, SET_METHOD):
                most = 64 // (ref.lg(k) + 2) - 1
                yield NAMES[op], "k", k, "letters", most, "number", 0
                yield NAMES[op], "k", k, "letters", most + 1, "number", 5
        for v in (1, 2, 3, 4, 5, 7, 8, 15, 16, 31, 32, 63, 64):
            for method in (2, 3):
                for excess in (0, 1) if v < 64 else (0,):
                    yield "a letter that comes", v, "method", method, "over", excess
                for bits in (64, 65) if v < 63 else ():
                    yield "a letter that comes", v, "method", method, "bits", bits

    def wanted_beside_lost(self):
        """Records of nothing else; the example of the request; a lost hour at each place
        of short windows, alone and however their scan ends; pairs with one and with two;
        top bits of method 4 set before one; every kind of window that method 5 can have;
        the letters beside the mark; and every window of short patterns."""
        for method in METHODS:
            for m in (1, 2, 3, 64):
                yield "nothing else, method", method, "k = 0", "m", m
            for m in (2, 3, 64) if method in (1, 4) else ():
                yield "nothing else, method", method, "k > 0", "m", m
            for c in BESIDE_LOST:
                yield "reading", c, "method", method, "own", False
            for op in (WHOLE, FEED, MARKED, REPORT, FIRST):
                yield "the example", NAMES[op], "method", method
            for at in range(3):
                yield "a record of one window, method", method, "m", 3, "at", at
            for m in (1, 2, 3, 4):
                for at in range(m):
                    yield from self.wanted_at(method, m, at)
        yield "method", 3, "k > 0", False, "m", 5, 0, "a match"
        for kinds in (("lost", "lost"), ("lost", "own"), ("own", "lost"), ("lost",)):
            yield "step", kinds, "gone on"
        for kinds in itertools.product(("lost", "own", "strange"), repeat=2):
            if kinds.count("lost") == 1:
                yield "step", kinds, "left"
        for k in (1, 2, 3):
            for errors, bits in itertools.product(range(1, k + 1), ("shared", "own", "both")):
                for end in ("a match", "left") if bits != "both" or errors > 1 else ():
                    yield "top bits", bits, "errors", errors, "of", k, end
        for exact in (True, False):
            for kind in itertools.product((True, False), repeat=3):
                lost, equal, match = kind
                possible = not (exact and lost and equal) and (lost or equal or not match)
                if possible and not (exact and equal and not match):
                    yield "exact", exact, "lost, equal sum, match", kind
            for equal in (True, False):
                yield "exact", exact, (True, False), "then", (False, equal)
                yield "exact", exact, (False, equal), "then", (True, False)
        yield "exact", False, (True, True), "then", (False, True)
        yield "exact", False, (False, True), "then", (True, True)
        for pattern in (b"ab", b"aab", b"aabb"):
            for k, method in itertools.product(range(len(pattern)), METHODS):
                for window in itertools.product(b"ab-x", repeat=len(pattern)):
                    if ref.LOST in window and (k == 0 or method in (1, 4)):
                        yield pattern, k, method, bytes(window)

    def wanted_at(self, method, m, at):
        """One lost hour of a window, there: backward methods leave a window before they
        come to it and after it; pairs are left at it where its neighbour is the error."""
        for errors in (False, True) if method in (1, 4) and m > 2 else (False,):
            yield "method", method, "k > 0", errors, "m", m, at, "a match"
        if method in (1, 5, 6) and m > (2 if method == 6 else 1):
            yield "method", method, "k > 0", False, "m", m, at, "none"
        if method in (2, 4, 6) and at < m - 1:
            yield "method", method, "k > 0", False, "m", m, at, "left before"
        if method in (2, 3, 4, 6) and at > (1 if method == 3 else 0):
            yield "method", method, "k > 0", False, "m", m, at, "left after"

    def wanted_over_lost_seams(self):
        """Each kind of seam by every method, within a match and not, which after a tail
        of nothing else takes k = 0; every change of method, and an image, within a
        match."""
        kinds = "last of the tail", "first of the piece", "on both sides", "a piece of one"
        for method, match in itertools.product(METHODS, (True, False)):
            for errors in (False, True) if method in (1, 4) else (False,):
                for kind in kinds:
                    yield "seam", kind, "method", method, "k > 0", errors, match
                if match or not errors:
                    yield "seam", "all of the tail", "method", method, "k > 0", errors, match
        for change in itertools.permutations(METHODS, 2):
            yield "a match across a change", "from method %d to %d" % change
        for method in METHODS:
            yield "a match across a change", "by an image of method %d" % method

    def wanted_13(self):
        """By each call, by the place in the pattern and by the pattern of several; past
        the lengths it isn't one."""
        for op in (WHOLE, OPEN, LOAD, MARKED, REPORT, FEED, SET_METHOD, SAVE, FIRST):
            for m in (1, 2, 3, 64):
                every = {place_in(at, m) for at in (0, m // 2, m - 1)}
                if op in (FEED, SET_METHOD, SAVE):
                    every = {place_in(m // 2, m)} if m < 64 else {"first", "last"}
                for place in every if m < 64 or op not in (MARKED, REPORT) else ():
                    yield NAMES[op], "number 13", "m", m, place
        for count in (1, 2, 3, 8):
            for at in {0, count // 2, count - 1}:
                yield "13 of", count, "patterns, by the", place_in(at, count)
        for op in (FEED, SET_METHOD, SAVE):
            yield NAMES[op], "lost past the pattern's length"
            yield NAMES[op], "lost past the tail's length"
        for number in (6, 11):
            yield "a first line with a lost hour", "number", number

    def wanted_from_hours(self):
        """The sheet's rows from each of their hours; both sides of the last window and of
        the end, and starts far past it; a match at the start, beside it and far from it,
        and none; every k of some m at its edge; texts beside m."""
        for at, (pattern, k, text, _, _) in enumerate(SHEET):
            for method, start in itertools.product(METHODS, range(len(text) + 1)):
                if k == 0 or method in (1, 4):
                    yield "row", at, "method", method, "from", start
        for method in METHODS:
            for place in ("position 0", "the last window"):
                yield "method", method, "from", place, True
            for place in (
                "position 0", "the last window", "after the last window", "the last reading",
                "the end", "past the end",
            ):
                yield "method", method, "from", place, False
            for start in FAR:
                yield "method", method, "from", start
            for kind in (
                "at the start", "right after the start", "later", "the last window alone",
                "from right after a match", "between two matches",
                "none from right after the last match", "none after the last match",
                "none at all", "none in the last window, from it", "no window",
            ):
                yield "method", method, kind
        for start in ALSO_FAR:
            yield "from", start
        for method in (1, 4):
            for m in (1, 2, 3, 5, 63, 64):
                for k in range(m) if m != 63 else (0, 1, 31, 61, 62):
                    yield "method", method, "m", m, "k", k, "after an error more"
        for m, more in itertools.product((1, 2, 63, 64), (-1, 0, 1)):
            n = m + more
            for start in {0, more, more + 1, n - 1, n, n + 1} - {-1}:
                yield "m", m, "readings", more, "from", start

    def wanted_on_the_way(self):
        """Scans left at each place of a window, past other windows to the match and past
        the end; lost hours in the match, before it, and where they do nothing; every
        kind of window that method 5 can have, found and passed over; of method 6 each
        kind after each."""
        for method in (2, 3, 4, 6):
            for m in (3, 5):
                for at in range(m):
                    if method != 3 or at == 0 or (m - at) % 2 == 0:
                        yield "method", method, "m", m, "left at", at
            yield "method", method, "a match past other windows"
            yield "method", method, "past several windows and the last"
        for method in METHODS:
            for kind in (
                "in the match at the start", "in a match that comes later",
                "in a window before the match", "before the start alone",
                "after the match alone",
            ):
                yield "method", method, "a lost hour", kind
        for exact in (True, False):
            for kind in itertools.product((True, False), repeat=3):
                lost, equal, match = kind
                possible = not (exact and lost and equal) and (lost or equal or not match)
                if possible and not (exact and equal and not match):
                    for place in ("alone", "at the start", "later"):
                        if not (match and place == "at the start"):
                            yield "exact", exact, "lost, equal sum, match", kind, place
        for kind in ("stop", "match", "failure"):
            for before in ("none", "stop", "failure"):
                yield "method 6", kind, "after", before

    def wanted_sent_again(self):
        """Both sides of the most entries and of an hour's end; every hour alone; all of
        them in each order; an hour over 215 in each place; equal entries, once as many as
        there may be; sets in all their orders; and of many entries one that decides."""
        for n in (*range(29), *range(4095, 4101), *range(16379, 16390), *range(65532, 65538)):
            yield "bytes", n, "number", 15 if n % 4 or n > 16384 else 0
        for number in (0, 15, 16):
            yield "bytes", 16384, "number", number
        for hour in range(216):
            yield "alone, hour", hour
        for serial in SERIALS:
            yield "alone, serial", serial
        for letter in (0, 32, 44, 45, 46, 127, 128, 255):
            yield "alone, letter", letter
        for way in ("ascending", "descending", "mixed"):
            yield "all hours", way
            yield "serials of one hour", 63, way
        for hour in (0, 128, 215):
            yield "all hours but", hour
        for count, way in ((4096, "descending"), (4096, "mixed"), (600, "ascending")):
            yield "serials of one hour", count, way
        for hour in (216, 217, 255):
            yield "hour over 215", hour, "alone", "first"
            for place in ("first", "middle", "last"):
                yield "hour over 215", hour, "few", place
                if hour != 217:
                    yield "hour over 215", hour, "many", place
        for often in (2, 3, 5, 216, 217, 256, 257, 4095, 4096):
            yield "equal entries", "alone", often
        for kind in ("beside a higher serial", "beside a lower serial", "beside other hours"):
            yield "equal entries", kind, 2
        for count, hours, number in (
            (3, 1, 0), (3, 1, 16), (3, 2, 15), (3, 2, 16), (4, 1, 0), (4, 2, 0), (4, 2, 16),
            (5, 2, 0),
        ):
            yield "all orders of", count, "hours", hours, "number", number
        for count, place in ((4095, "last"), (4096, "first"), (4096, "middle"), (4096, "last")):
            yield "of", count, "one decides, the", place

    def wanted_serials(self):
        """The highest in each place; every two at an edge, and two of which a part of
        the bits tells something else, in both orders."""
        for place in ("first", "middle", "last"):
            yield "the highest serial", place
        for one, other in itertools.permutations(SERIALS, 2):
            yield "serials", one, other
        for order in ("ascending", "descending"):
            for kind in (
                "alike in the low byte", "alike in the high byte",
                "of another order by the low byte", "of another order with the bytes exchanged",
                "of another order with a sign", "apart by half of the numbers",
            ):
                yield "serials", kind, order
            for bit in range(16):
                yield "serials", "apart by bit %d" % bit, order

    def wanted_conflicts(self):
        """Each two of a few entries, and some of the most there may be, with and without
        a higher serial; hours, serials and letters at an edge; the mark and what is
        beside it; and what is no conflict."""
        for higher, lower in itertools.product((True, False), repeat=2):
            yield "conflict", "higher", higher, "lower", lower
        for count, letters in ((2, 2), (3, 2), (3, 3)):
            yield "conflict", "entries", count, "letters", letters
        for count in (2, 3, 4, 5, 8):
            for places in itertools.combinations(range(count), 2):
                yield ("conflict", "of", count, "at") + places
        for count in (16, 17, 33, 64):
            half, last = count // 2, count - 1
            for places in ((0, last), (0, 1), (last - 1, last), (half - 1, half)):
                yield ("conflict", "of", count, "at") + places
        for places in ((0, 1), (0, 4095), (1, 4094), (2047, 2048), (4094, 4095)):
            for higher in (True, False):
                yield ("conflict", "of", 4096, "at") + places + ("higher", higher)
        for hour in (0, 127, 128, 215):
            for serial in (0, 1, 255, 256, 65534, 65535):
                yield "conflict", "hour", hour, "serial", serial
        for bit in range(8):
            yield "conflict", "bits", 2**bit
        for letter in (0, 32, 44, 46, 97, 173):
            yield "conflict", "letters", ref.LOST, letter
            yield "conflict", "letters", letter, ref.LOST
        for kind in (
            "serial", "serial, hours by the top bit", "hour", "hour and low byte",
            "hour and high byte", "hour and the bytes, exchanged", "sum", "exclusive or",
            "hour times 256 and serial", "hour times 216 and serial",
            "serial times 216 and hour in 16 bits",
        ):
            yield "no conflict, but the same", kind

    def gaps(self):
        missing = []
        for op, numbers in NUMBERS.items():
            for number in numbers:
                if not self.cases[op, number]:
                    missing.append("%s with number %d" % (NAMES[op], number))
        for op in EXAMPLES:
            for i, j in possible_pairs(op):
                if not self.pairs[op, i, j]:
                    missing.append("%s with tests %d and %d at once" % (NAMES[op], i, j))
        for m in (1, 2, 3, 5, 8, 16, 31, 63, 64):
            for k in range(m):
                for method in (1, 4) if k else METHODS:
                    if (method, m, k) not in self.grid:
                        missing.append("method %d, m %d, k %d" % (method, m, k))
        for method in (2, 3, 4):
            for bits in range(62, 68):
                if (method, bits) not in self.bits:
                    missing.append("method %d, %d bits" % (method, bits))
        for number in (1, 2, 3, 4, 5, 6, 11, 13):
            if "refused %d" % number not in self.answers:
                missing.append("the program's refusal %d" % number)
        for kind, fewest in FEWEST.items():
            if self.counts[kind] < fewest:
                missing.append("%d cases of %s, but %d" % (fewest, kind, self.counts[kind]))
        for reached in self.wanted_together():
            if reached not in self.together:
                missing.append("several patterns with %s" % (reached,))
        for reached in self.wanted_on_paper():
            if reached not in self.on_paper:
                missing.append("a marked sheet with %s" % (reached,))
        for reached in self.wanted_fields():
            if reached not in self.fields:
                missing.append("fields: %s" % (reached,))
        for wanted in (
            self.wanted_beside_method_6, self.wanted_by_letters, self.wanted_over_seams,
        ):
            for reached in wanted():
                if reached not in self.by_letters:
                    missing.append("method 6: %s" % (reached,))
        for wanted in (self.wanted_beside_lost, self.wanted_over_lost_seams, self.wanted_13):
            for reached in wanted():
                if reached not in self.beside_lost:
                    missing.append("lost hours: %s" % (reached,))
        for wanted in (self.wanted_from_hours, self.wanted_on_the_way):
            for reached in wanted():
                if reached not in self.from_hours:
                    missing.append("first match: %s" % (reached,))
        for wanted in (self.wanted_sent_again, self.wanted_serials, self.wanted_conflicts):
            for reached in wanted():
                if reached not in self.sent_again:
                    missing.append("readings sent again: %s" % (reached,))
        for order in ORDERS:
            number = 0 if order == (1, 2, 3, 4) else 9
            if (order, number) not in self.orders:
                missing.append("an image in the order %r with number %d" % (order, number))
        letters = set(range(256)) - {ref.LOST}
        if self.in_pattern != letters or self.in_several != letters or len(self.in_text) < 256:
            missing.append("byte values")
        if self.known != letters or self.lacking != letters:
            missing.append("byte values of method 6")
        if self.first_own != letters or self.first_others != letters:
            missing.append("byte values of a first match")
        if min(len(self.superseding), len(self.superseded)) < 256:
            missing.append("byte values of readings sent again")
        # The longest text and pattern, and every window verified.
        if min(self.most_looks, self.most_looks_first) < 2 * 64 * (65536 - 64 + 1):
            missing.append("the most looks")
        if min(self.sides.values()) == 0 or self.failed_verification == 0:
            missing.append("a length of text, or a failed verification")
        return missing
