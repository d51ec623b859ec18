#!/usr/bin/env python3
"""Where src/ is written in the forms that docs/DESIGN-PASS.md counts.

  count_forms.py [-v] [DIR]     DIR has crates/ (default: the repository); -v prints each place

A place is a line of a .rt file, but for parameters and contracts, which are counted by function.
"""
import pathlib, re, sys

args = [a for a in sys.argv[1:] if a != "-v"]
verbose = "-v" in sys.argv
root = pathlib.Path(args[0] if args else pathlib.Path(__file__).resolve().parent.parent)
files = sorted(root.glob("crates/*/src/**/*.rt"))
lines = [(f.relative_to(root / "crates"), n, l) for f in files for n, l in enumerate(f.read_text().split("\n"), 1)]
code = [(f, n, l.split("//")[0]) for f, n, l in lines]

# functions with the text of their parameters and of their contracts
FN = re.compile(r"^[ ]*(?:pub )?fn (\w+)[^(]*\((.*?)\)([^{]*?)((?:\n\s*(?:requires|ensures)[^\n]*(?:\n\s{8,}[^\n]*)*)*)\n?\s*\{", re.S | re.M)
functions = []
for f in files:
    text = "\n".join(l.split("//")[0] for l in f.read_text().split("\n"))
    for m in FN.finditer(text):
        functions.append((f.relative_to(root / "crates"), text.count("\n", 0, m.start(1)) + 1, m.group(1), m.group(2), m.group(4)))

def by_line(pattern, skip=None):
    return [(f, n, l.strip()) for f, n, l in code if re.search(pattern, l) and not (skip and re.search(skip, l))]

def with_parameters(*names):
    return [(f, n, name) for f, n, name, ps, c in functions if all(re.search(r"\b%s:" % p, ps) for p in names)]

def with_fact(pattern):
    return [(f, n, name) for f, n, name, ps, c in functions if re.search(pattern, c)]

def named(names):
    return by_line(r"\b(fn|struct) (%s)\b" % names)

POINTS = [
    ("1 own enums beside Refusal", by_line(r"^\s*(pub )?enum ", r"enum (Refusal|Method|Kind)\b")),
    ("1 a flag with a value beside it", by_line(r"^\s+(pub )?(admission|answer|saving|exact|listed): [A-Z]?\w+[<,]")),
    ("1 a place that stands for no place", by_line(r"\bNOWHERE\b")),
    ("1 numbers for kinds", by_line(r"\b(method|op): u8")),
    ("2 twins", named("bam|bam2|abam|ebl|backward_range|backward_both|ebl_chunk|count_seam|hcam_seam|count_chunk|hcam_chunk|count_windows|hcam_windows|count_start|hcam_start"
                      "|CountStart|HcamStart|Counted|Hashed|place_units|place_own_tops|stored_pattern|stored_tail|copy_in|put_back|write_shown|list_room|byte_room|report_room|word_room|stream_room"
                      "|fill_list|fill_buffer|read_lengths|read_full|answered|admitted|saved|marked|first_answered|number_read|from_low_first|low_first|digest_number|answer_called|admission_called|saving_called")),
    ("3 while", by_line(r"\bwhile ")),
    ("3 for over numbers", by_line(r"\bfor \w+ in .*\.\.")),
    ("4 types without Eq", by_line(r"#\[derive\((Drop|Clone, Copy)\)\]")),
    ("4 equality, order, conversion and printing by hand", named("agree|least|larger|is_digit|is_method_form|parse_number|number_read|from_low_first|low_first|wrapping_mul|write_decimal|print_byte|print_line|number_of|is_method")),
    ("5 pattern and counts", with_parameters("pattern", "counts")),
    ("5 counts and span", with_parameters("counts", "span")),
    ("5 seam, chunk and split", with_parameters("seam", "chunk", "split")),
    ("5 word and units", with_parameters("word", "units")),
    ("5 pattern, k, method and total", with_parameters("pattern", "k", "method", "total")),
    ("5 buffer and at", with_parameters("buffer", "at")),
    ("5 stream and at", with_parameters("stream", "at")),
    ("5 counts are those of the pattern", with_fact(r"≡ parikh pattern")),
    ("5 a digest is below the modulus", with_fact(r"< 72057594037927931")),
    ("6 a length beside", by_line(r"^\s+(pub )?(\w+_len|len|count): usize,")),
    ("7 a switch on the method or the kind", by_line(r"\b(method|op) == \d|match (method|op|kind)\b")),
]
total = {}
for title, places in POINTS:
    print(f"{len(places):4} {title}")
    total[title[0]] = total.get(title[0], 0) + len(places)
    if verbose:
        for f, n, what in places:
            print(f"       {f}:{n}: {what}")
print("by point: " + ", ".join(f"{p}: {n}" for p, n in total.items()))
