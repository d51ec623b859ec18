"""The stream of cases that the program in crates/vectors reads.

Numbers are little-endian.  Cases follow one another to the end: a byte for the
operation, its arguments, and its outcome of 17 bytes: u8 refusal number (0 if
accepted), u32 a, u32 b, u64 digest.

A text is one of
    0, u16 length, the bytes
    1, u32 length, u8 count, that many bytes: repeated up to the length
    2, u32 length, u32 seed, u8 count, that many letters: byte i is
       letters[x / 65536 % count], x being seed % 2^31 at first and
       (x * 1103515245 + 12345) % 2^31 before each byte

Operations, their arguments, a and b, and what the digest is of:
     1 whole       text pattern, u8 k, u8 method, text, u32 places
                   found, looks; the list
     2 open        text pattern, u8 k, u8 method; the search
     3 feed        text chunk, u32 places
                   found, looks; the list, then the search
     4 set method  u8 method; the search
     5 save        u16 room; length, 0; the buffer, then the search
     6 load        text image; the search
     7 hand        the search is filled in: 64 bytes of pattern, u64 length,
                   u8 k, u8 method, u32 total, 63 bytes of tail, u64 length;
                   no outcome
     8 report      text input; length of the output, 0; the output
     9 width       text pattern, u8 k, u8 method; bits that the fields need, 0
    10 exact       text pattern; 1 if a candidate of method 5 matches
                   without being verified, else 0; 0
    11 several     text handed, u8 k, text, u32 places of the positions' list
                   found, looks; the positions' list, then the numbers' list
    12 marked      text handed, u8 k, u8 method, text, u32 places
                   found, looks; the list, then the buffer, then the sheet's
                   length in 8 bytes
    13 first       text handed, u8 k, u8 method, text
                   1 if there is a match from the start on, else 0, looks; its
                   position in 8 bytes, all of them 0 if there is none
    14 resent      text entries; 0, 0; the record's 216 bytes
What is handed to 11 has u32 places of the list of pattern numbers, u8 count,
that many u64 lengths, and then the bytes of the patterns; what is handed to 12
has u32 bytes of the sheet's buffer, and then the pattern; what is handed to 13
has u64 start, and then the pattern.
The calls 2 to 6 work on one search, at first the blank one.  Place i of a list
holds (i * 2654435761 + 12345) % 2^32 before the call, byte i of a buffer
(i * 37 + 11) % 256.  A digest starts at 0 and takes in a byte as
(h * 251 + byte + 1) % (2^56 - 5); a list goes in as 4 bytes a place, a search
as the bytes that hand has.
"""

import functools
import struct
from collections import namedtuple

import reference as ref

WHOLE, OPEN, FEED, SET_METHOD, SAVE, LOAD, HAND, REPORT, WIDTH, EXACT = range(1, 11)
SEVERAL, MARKED, FIRST, RESENT = 11, 12, 13, 14

# Several patterns: the places of the list of their numbers, their lengths, and
# their bytes.
Handed = namedtuple("Handed", "places lengths data")

# A search with its marked sheet: the bytes of the sheet's buffer, and the pattern.
Marked = namedtuple("Marked", "room pattern")

# A search for the first match: the position from which on it is, and the pattern.
First = namedtuple("First", "start pattern")

# --- Texts --------------------------------------------------------------------


class Text:
    """Bytes, and the form in which the stream has them."""

    def __init__(self, form, value):
        self.form, self.value = form, value


def literal(value):
    return Text(struct.pack("<BH", 0, len(value)) + value, value)


def repeated(length, unit):
    form = struct.pack("<BIB", 1, length, len(unit)) + unit
    return Text(form, (unit * (length // len(unit) + 1))[:length])


def scattered(length, seed, letters):
    made, x = bytearray(), seed % 2**31
    for _ in range(length):
        x = (x * 1103515245 + 12345) % 2**31
        made.append(letters[x // 65536 % len(letters)])
    form = struct.pack("<BIIB", 2, length, seed, len(letters)) + letters
    return Text(form, bytes(made))


def as_text(given):
    return given if isinstance(given, Text) else literal(given)


# --- Digests --------------------------------------------------------------------


@functools.lru_cache(maxsize=None)
def digest(data):
    h = 0
    for byte in data:
        h = (h * 251 + byte + 1) % 72057594037927931
    return h


def list_bytes(places):
    return struct.pack("<%dI" % len(places), *places)


def search_bytes(stored):
    return struct.pack("<64sQBBI63sQ", *stored)


@functools.lru_cache(maxsize=None)
def fresh_places(places):
    return tuple((i * 2654435761 + 12345) % 2**32 for i in range(places))


def fresh_buffer(room):
    return bytearray((i * 37 + 11) % 256 for i in range(room))


# --- Writing --------------------------------------------------------------------


class Stream:
    """Cases, each with the outcome that the reference gives."""

    def __init__(self):
        self.data = bytearray()
        self.count = 0
        self.search = ref.store(ref.BLANK)

    def case(self, op, arguments, number, a=0, b=0, digested=b""):
        self.data += bytes([op]) + arguments
        self.data += struct.pack("<BIIQ", number, a, b, digest(digested))
        self.count += 1
        return number

    def whole(self, pattern, k, method, text, places=None):
        """As many places as bytes, unless it is said how many."""
        pattern, text = as_text(pattern), as_text(text)
        places = len(text.value) if places is None else places
        filled = list(fresh_places(places))
        number, found, looks = ref.whole_search(pattern.value, k, method, text.value, filled)
        arguments = pattern.form + bytes([k, method]) + text.form + struct.pack("<I", places)
        return self.case(WHOLE, arguments, number, found, looks, list_bytes(filled))

    def open(self, pattern, k, method):
        pattern = as_text(pattern)
        number, self.search = ref.open_stored(pattern.value, k, method)
        arguments = pattern.form + bytes([k, method])
        return self.case(OPEN, arguments, number, digested=search_bytes(self.search))

    def feed(self, chunk, places=None):
        """As many places as bytes, unless it is said how many."""
        chunk = as_text(chunk)
        places = len(chunk.value) if places is None else places
        filled = list(fresh_places(places))
        number, found, looks, self.search = ref.feed_stored(self.search, chunk.value, filled)
        self.listed = filled[:found]
        digested = list_bytes(filled) + search_bytes(self.search)
        arguments = chunk.form + struct.pack("<I", places)
        return self.case(FEED, arguments, number, found, looks, digested)

    def set_method(self, method):
        number, self.search = ref.set_method_stored(self.search, method)
        return self.case(SET_METHOD, bytes([method]), number, digested=search_bytes(self.search))

    def save(self, room):
        buffer = fresh_buffer(room)
        number, length, self.search = ref.save_stored(self.search, buffer)
        digested = bytes(buffer) + search_bytes(self.search)
        return self.case(SAVE, struct.pack("<H", room), number, length, digested=digested)

    def load(self, image):
        image = as_text(image)
        number, self.search = ref.load_stored(image.value)
        return self.case(LOAD, image.form, number, digested=search_bytes(self.search))

    def hand(self, stored):
        self.search = stored
        self.data += bytes([HAND]) + search_bytes(stored)

    def report(self, given):
        """The program always answers: its refusals are in what it prints."""
        given = as_text(given)
        output = ref.program_output(given.value)
        return self.case(REPORT, given.form, 0, len(output), digested=output)

    def width(self, pattern, k, method):
        pattern = as_text(pattern)
        bits = ref.bits_needed(pattern.value, k, method)
        return self.case(WIDTH, pattern.form + bytes([k, method]), 0, bits)

    def exact(self, pattern):
        pattern = as_text(pattern)
        return self.case(EXACT, pattern.form, 0, int(ref.heap_is_exact(pattern.value)))

    def several(self, handed, k, text, places):
        text = as_text(text)
        positions = list(fresh_places(places))
        numbers = list(fresh_places(handed.places))
        number, found, looks = ref.several(
            handed.data, handed.lengths, k, text.value, positions, numbers
        )
        count = len(handed.lengths)
        front = struct.pack("<IB%dQ" % count, handed.places, count, *handed.lengths)
        arguments = literal(front + handed.data).form + bytes([k]) + text.form
        arguments += struct.pack("<I", places)
        digested = list_bytes(positions) + list_bytes(numbers)
        return self.case(SEVERAL, arguments, number, found, looks, digested)

    def marked(self, handed, k, method, text, places):
        text = as_text(text)
        filled, buffer = list(fresh_places(places)), fresh_buffer(handed.room)
        number, found, looks, length = ref.whole_sheet(
            handed.pattern, k, method, text.value, filled, buffer
        )
        arguments = literal(struct.pack("<I", handed.room) + handed.pattern).form
        arguments += bytes([k, method]) + text.form + struct.pack("<I", places)
        digested = list_bytes(filled) + bytes(buffer) + struct.pack("<Q", length)
        return self.case(MARKED, arguments, number, found, looks, digested)

    def first(self, handed, k, method, text):
        text = as_text(text)
        start, pattern = handed
        number, position, looks = ref.first(pattern, k, method, text.value, start)
        arguments = literal(struct.pack("<Q", start) + pattern).form
        arguments += bytes([k, method]) + text.form
        found = 0 if position is None else 1
        digested = struct.pack("<Q", position or 0)
        return self.case(FIRST, arguments, number, found, looks, digested)

    def resent(self, entries):
        entries = as_text(entries)
        number, record = ref.resent(entries.value)
        return self.case(RESENT, entries.form, number, digested=record)


# --- Reading --------------------------------------------------------------------

# By the text at the top of this file; nothing here is shared with the writing.

# A number's size, the greatest length of a text, list or buffer, or the length
# of bytes as they are.
ARGUMENTS = {
    WHOLE: (("text", 300), ("number", 1), ("number", 1), ("text", 65537), ("places", 65537)),
    OPEN: (("text", 300), ("number", 1), ("number", 1)),
    FEED: (("text", 65537), ("places", 65537)),
    SET_METHOD: (("number", 1),),
    SAVE: (("room", 512),),
    LOAD: (("text", 512),),
    HAND: (
        ("take", 64), ("number", 8), ("number", 1), ("number", 1), ("number", 4),
        ("take", 63), ("number", 8),
    ),
    REPORT: (("text", 65537),),
    WIDTH: (("text", 64), ("number", 1), ("number", 1)),
    EXACT: (("text", 64),),
    SEVERAL: (("handed", 1024), ("number", 1), ("text", 65537), ("places", 65537)),
    MARKED: (
        ("marked", 304), ("number", 1), ("number", 1), ("text", 65537), ("places", 65537),
    ),
    FIRST: (("first", 308), ("number", 1), ("number", 1), ("text", 65537)),
    RESENT: (("text", 65537),),
}


class Reader:
    def __init__(self, data):
        self.data, self.at = bytes(data), 0

    def take(self, count):
        if self.at + count > len(self.data):
            raise ValueError("the stream ends within a case")
        self.at += count
        return self.data[self.at - count : self.at]

    def number(self, size):
        return sum(byte * 256**i for i, byte in enumerate(self.take(size)))

    def limited(self, size, most):
        number = self.number(size)
        if number > most:
            raise ValueError("%d before byte %d" % (number, self.at))
        return number

    def places(self, most):
        return self.limited(4, most)

    def room(self, most):
        return self.limited(2, most)

    def text(self, longest):
        form = self.limited(1, 2)
        length = self.limited(4 if form else 2, longest)
        if form == 0:
            return Text(b"", self.take(length))
        x = self.number(4) % 2**31 if form == 2 else 0
        letters = self.take(self.number(1))
        made = []
        for i in range(length):
            x = (x * 1103515245 + 12345) % 2**31
            made.append(letters[i % len(letters) if form == 1 else (x >> 16) % len(letters)])
        return Text(b"", bytes(made))

    def handed(self, longest):
        front = Reader(self.text(longest).value)
        places, count = front.limited(4, 65537), front.limited(1, 16)
        lengths = [front.number(8) for _ in range(count)]
        return Handed(places, lengths, front.data[front.at :])

    def marked(self, longest):
        front = Reader(self.text(longest).value)
        return Marked(front.limited(4, 65537), front.data[front.at :])

    def first(self, longest):
        front = Reader(self.text(longest).value)
        return First(front.number(8), front.data[front.at :])


def read_cases(data):
    """Gives each operation, its arguments and its outcome's bytes (hand: none)."""
    reader = Reader(data)
    while reader.at < len(data):
        op = reader.number(1)
        if op not in ARGUMENTS:
            raise ValueError("operation %d before byte %d" % (op, reader.at))
        arguments = [getattr(reader, kind)(size) for kind, size in ARGUMENTS[op]]
        yield op, arguments, b"" if op == HAND else reader.take(17)
