#!/usr/bin/env python3
"""Makes the stored test vectors, byte for byte the same each time.

    python3 tools/make_vectors.py              writes crates/vectors/stdin
    python3 tools/make_vectors.py --check      says whether that file is the same
    python3 tools/make_vectors.py --out FILE   writes another file

The outcomes are those of reference.py, which asserts for every accepted search
that the steps of its method list the positions of the definition.  Before
anything is written the stream is read back by its format (vectors_stream.py)
and every case run once more as it was read; what it covers is counted then.
The exit status is 1 if a case differs, something is not covered, or the file
to be checked isn't the same.
"""

import hashlib
import os
import sys
import time

sys.dont_write_bytecode = True

import reference as ref
import vectors_stream as vs
from vectors_cases import FAMILIES, Random
from vectors_coverage import VectorCoverage

STORED = os.path.join(
    os.path.dirname(os.path.dirname(os.path.abspath(__file__))), "crates", "vectors", "stdin"
)
# The room that the program has is 1024 * 1024.
MOST_BYTES = 992 * 1024
FEWEST_CASES = 7000


def make():
    stream = vs.Stream()
    for family in FAMILIES:
        count, size, started = stream.count, len(stream.data), time.monotonic()
        family(stream, Random(family.__name__))
        print(
            "  %s: %d cases, %d bytes, %.1f s"
            % (
                family.__name__.replace("_", " "),
                stream.count - count,
                len(stream.data) - size,
                time.monotonic() - started,
            )
        )
    return bytes(stream.data)


def replay(data, coverage):
    """Runs the cases as they are read; gives the numbers of those that differ."""
    stream = vs.Stream()
    calls = {
        vs.WHOLE: stream.whole, vs.OPEN: stream.open, vs.FEED: stream.feed,
        vs.SET_METHOD: stream.set_method, vs.SAVE: stream.save, vs.LOAD: stream.load,
        vs.HAND: lambda *fields: stream.hand(ref.Stored(*fields)),
        vs.REPORT: stream.report, vs.WIDTH: stream.width, vs.EXACT: stream.exact,
        vs.SEVERAL: stream.several, vs.MARKED: stream.marked, vs.FIRST: stream.first,
        vs.RESENT: stream.resent,
    }
    different = []
    for op, arguments, outcome in vs.read_cases(data):
        before = stream.search
        calls[op](*arguments)
        if not stream.data.endswith(outcome):
            different.append(stream.count)
        values = [getattr(argument, "value", argument) for argument in arguments]
        coverage.case(op, values, outcome[:1][0] if outcome else 0, before)
    return different


def faults_of(data):
    """Prints what the stream covers; gives what is wrong with it."""
    coverage = VectorCoverage()
    faults = ["case %d differs when read back" % number for number in replay(data, coverage)]
    coverage.report()
    faults += ["not reached: " + gap for gap in coverage.gaps()]
    count = sum(coverage.cases.values())
    print(
        "%d cases, %d bytes, SHA-256 %s" % (count, len(data), hashlib.sha256(data).hexdigest())
    )
    if len(data) > MOST_BYTES or count < FEWEST_CASES:
        faults.append("%d cases in %d bytes" % (count, len(data)))
    return faults


def stored_is(data):
    """Says whether the stored file has these bytes."""
    try:
        with open(STORED, "rb") as file:
            same = file.read() == data
    except OSError as failure:
        print(failure)
        return False
    print("the stored vectors are %s" % ("the same" if same else "others"))
    return same


def main(arguments):
    check = arguments == ["--check"]
    if not (check or arguments == [] or len(arguments) == 2 and arguments[0] == "--out"):
        print("usage: python3 tools/make_vectors.py [--check | --out FILE]", file=sys.stderr)
        return 2
    started = time.monotonic()
    data = make()
    faults = faults_of(data)
    for fault in faults:
        print("FAULT " + fault)
    print("%.1f s" % (time.monotonic() - started))
    if faults:
        return 1
    if check:
        return 0 if stored_is(data) else 1
    with open(arguments[1] if arguments else STORED, "wb") as file:
        file.write(data)
    return 0


if __name__ == "__main__":
    sys.exit(main(sys.argv[1:]))
