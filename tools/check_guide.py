#!/usr/bin/env python3
"""Compares docs/EXAMINERS.md and docs/MUST-FAIL.md with the repository.

    python3 tools/check_guide.py            says what differs; exit status 1 where something does
    python3 tools/check_guide.py --write    first brings printed definitions, the card and the rows of edits up to date

A definition printed after "From `FILE`:" is that of the file, without the words that say who may use it. Every name in it is printed
in the guide too, or stands in the tables of signs, or is bound where it stands. Every name that is printed is explained, every name that the
prose has is one of the repository. The card of widths has the entries of the code's table, in which each stands beside its place. Every
must-fail edit has its row.
"""

import difflib
import pathlib
import re
import sys

ROOT = pathlib.Path(__file__).resolve().parent.parent
GUIDE = ROOT / "docs" / "EXAMINERS.md"
EDITS = ROOT / "docs" / "MUST-FAIL.md"
TABLE = ROOT / "crates" / "table_widths" / "src" / "lib.rt"
CARD = re.compile(r"(\| v \| \+ 0 \|.*\n\|[-|]+\n)((?:\|.*\n)*)")
BLOCK = re.compile(r"(From `([^`]+)`:\n```\w+\n)(.*?)(?=\n```)", re.S)
HEAD = re.compile(r"(?:record|data|struct|enum|fn) ([^\s({]+)|(\S+) :(?: |$)", re.M)
MEMBER = re.compile(r"^ {2}(?: {2})?(\w[^\s:({,]*)", re.M)
CODE = re.compile(r"^```.*?^```$", re.S | re.M)
SPAN = re.compile(r"`([^`\n]+)`")
# where the guide says what a name is: a cell of a table, an item or a clause begins with it, or with several in a row
TOLD = re.compile(r"(?:^|\| |[.;:] |- |\*\* )((?:`[^`\n]+`(?:, (?=`)| and (?=`))?)+)", re.M)
WORD = re.compile(r"\w+(?:-\w+)*")
# what looks like a name of the repository; a record of examples may have lost hours, but no letters beyond these
NAME = re.compile(r"(?![abcxyzXY-]+$)(?:[a-z]+[A-Z]\w*|[A-Z][a-z]\w+|\w+(?:[-_]\w+)+)")
# words of the line that a check of proofs prints (section 7)
PRINTED = {"not-proved", "logic-built", "libraries-built", "rattle_errno"}


def without_comments(text):
    return re.sub(r'(?m)^\s*(--|//).*$|"[^"]*"', "", text)


def words(text):
    """The names and signs in a definition or in a sign's cell."""
    found = re.split(r'[\s(){}.;,@«»"\[\]⌜⌝&|]+', text)
    return {word.strip("_:") for word in found} - {""}


def printed_items(block):
    """The definitions of a block, each with the blank lines after it."""
    starts = [head.start() for head in re.finditer(rf"^(?:{HEAD.pattern})", block, re.M)]
    return [block[at:end] for at, end in zip(starts, starts[1:] + [len(block)])]


def name_of(item):
    head = HEAD.match(item)
    return (head.group(1) or head.group(2)) if head else None


def printed_in(text):
    """Every definition that the text prints, with its file."""
    return [(ROOT / file, item) for _, file, block in BLOCK.findall(text) for item in printed_items(block)]


def named_in(text):
    """The words that stand in backticks outside of code blocks."""
    return {word for span in SPAN.findall(CODE.sub("", text)) for word in WORD.findall(span)}


def is_law(path, first_line):
    """Whether a definition is a law: in proofs/ all but records, cases and, since they define a claim, those that yield a type."""
    return "proofs" in path.parts and not first_line.startswith(("record ", "data ")) and not first_line.endswith("Type 0")


def items(path):
    """Each definition of a file by its name, as the guide prints it: a law's statement, a function's first lines, all of any other."""
    found = {}
    for paragraph in path.read_text().split("\n\n"):
        lines = paragraph.strip("\n").split("\n")
        while lines and lines[0].strip().startswith(("--", "//", "#[")):
            lines.pop(0)
        indent = len(lines[0]) - len(lines[0].lstrip()) if lines else 0
        lines = [re.sub(r"^(\s*)(unfoldable |abbrev |pub )+", r"\1", line[indent:]) for line in lines]
        name = name_of(lines[0]) if lines else None
        if name is None:
            continue
        law = is_law(path, lines[0])
        kept = lines[:1]
        for line in lines[1:]:
            if line == "{" or law and line.startswith((name + " ", "unfolding ")):
                break
            if not line.startswith("unfolding "):
                kept.append(line)
        found.setdefault(name, "\n".join(kept))
    return found


def members(item):
    """The constructors, variants or fields of a definition that has any."""
    if not item.startswith(("record ", "data ", "struct ", "enum ")):
        return set()
    return set(MEMBER.findall(without_comments(item)))


def bound(item, path):
    """The names that a definition binds: arguments, fields, and in the cases of a definition what no other name of the file is."""
    source = path.read_text()
    known = set(items(path)).union(*map(members, items(path).values()))
    for names in re.findall(r"^use [^{\n]*\{([^}]*)\}", source, re.M):
        known |= words(names)
    found = re.findall(r"[({,]([^(){}:,]+):|λ ([^.(]+)\.|let (\S+)|^ +(\w+):|\{\S+ = (\S+)\}", item, re.M)
    names = words(" ".join(" ".join(group) for group in found))
    for case in re.findall(r"^(\S.*?) =(?: |$)", re.sub(r"\{(\S+) = \S+\}", r"{\1}", item), re.M):
        names |= words(case) - known
    return names


def refreshed(text, problems):
    """The guide with every printed definition as the repository has it."""

    def block(match):
        path = ROOT / match.group(2)
        there = items(path) if path.exists() else {}
        printed = ""
        for item in printed_items(match.group(3)):
            if name_of(item) not in there:
                problems.append(f"{match.group(2)}: no definition of {name_of(item)}")
            kept = item.rstrip("\n")
            printed += there.get(name_of(item), kept) + item[len(kept) :]
        return match.group(1) + printed

    return BLOCK.sub(block, text)


def card_rows(problems):
    """The code's table of widths, eight entries to a row behind the number of the first."""
    entries = re.findall(r"^    (\d+), // (\d+)$", TABLE.read_text(), re.M)
    if [int(v) for _, v in entries] != list(range(65)):
        problems.append("the table of widths: an entry does not stand beside its place")
    rows = ""
    for first in range(0, len(entries), 8):
        cells = [e for e, _ in entries[first : first + 8]]
        rows += "| " + " | ".join([str(first)] + cells + [""] * (8 - len(cells))) + " |\n"
    return rows


def unexplained(text):
    """What stands in a printed definition and is neither printed, nor a sign, nor bound."""
    signs = text[text.index("\n## A. ") : text.index("\n## B. ")]
    known = set()
    for cell in re.findall(r"^\| (`.*?) \|", signs.replace("\\|", "¦"), re.M):
        known |= words(" ".join(re.findall(r"`([^`]+)`", cell)).replace("¦", "|"))
    printed = printed_in(text)
    for _, item in printed:
        known |= members(item) | {name_of(item)}
    problems = []
    for path, item in printed:
        for word in sorted(words(without_comments(item)) - known - bound(without_comments(item), path)):
            if not word.isdigit():
                problems.append(f"{path.relative_to(ROOT)}, {name_of(item)}: {word} is not explained")
    return len(printed), problems


def untold(text):
    """Printed names that the guide does not explain. A law may be named where its sentence ends; of any other name it is said what it is."""
    named = named_in(text)
    told = {span.split(" ")[0] for run in TOLD.findall(CODE.sub("", text)) for span in SPAN.findall(run)}
    problems = []
    for path, item in printed_in(text):
        name = name_of(item)
        if name not in (named if is_law(path, item.split("\n")[0]) else told):
            where = "no cell, item or clause begins with it" if name in named else "the prose does not name it"
            problems.append(f"{path.relative_to(ROOT)}: {name} is printed and not explained ({where})")
    return problems


def untold_above(text):
    """Names that the promises of sections 1 to 7 are made of and that these do not name: they are to be understood without the appendices."""
    above = text[: text.index("\n## A. ")]
    names = {name_of(item) for _, item in printed_in(text)}
    problems = []
    for _, item in printed_in(above):
        # without the parts taken of a thing, which may be called as a definition is
        used = words(re.sub(r" \.\S+", "", without_comments(item))) & names
        for name in sorted(used - named_in(above) - {name_of(item)}):
            # `open_number` is explained for all of its kind, and that r and s are what calls hand back and are handed, for all types
            if not name.endswith("_number") and not name[0].isupper():
                problems.append(f"sections 1 to 7, {name_of(item)}: {name} is not named there")
    return problems


def words_there():
    """The words that the prose may have as names: those of sources and tools, and the names of crates, edits and files."""
    found = PRINTED | {path.name for path in ROOT.glob("crates/*")}
    for path in [*ROOT.glob("crates/*/*/**/*.*"), *ROOT.glob("tools/*.py"), *ROOT.glob("docs/*.md")]:
        found.add(path.stem)
        # not this file: what it excepts would be there by being excepted
        if path.suffix in (".antt", ".rt", ".py") and path != pathlib.Path(__file__).resolve():
            found.update(WORD.findall(path.read_text()))
    return found


def unknown(text):
    """Names in the prose that the repository has not, with the lines where they stand. Code blocks are compared with it elsewhere."""
    there = words_there()
    # a block's lines stay, empty, so that the numbers of later lines are right
    prose = CODE.sub(lambda block: "\n" * block.group().count("\n"), text)
    problems = []
    for number, line in enumerate(prose.split("\n"), 1):
        for word in sorted({word for span in SPAN.findall(line) for word in WORD.findall(span)} - there):
            if NAME.fullmatch(word):
                problems.append(f"line {number}: no such name: {word}")
    return problems


def rows_of_edits():
    crates = re.findall(r"^(\w+):", (ROOT / "crates.txt").read_text(), re.M)
    rows = []
    for crate in crates:
        for path in sorted((ROOT / "crates" / crate / "must-fail").glob("*.edit")):
            comment = " ".join(line[1:].strip() for line in path.read_text().split("\n") if line.startswith("#"))
            rows.append(f"| `{crate}` | `{path.stem}` | {comment} |\n")
    return rows


def main():
    problems = []
    guide, edits = GUIDE.read_text(), EDITS.read_text()
    rows = rows_of_edits()
    new_guide = CARD.sub(lambda match: match.group(1) + card_rows(problems), refreshed(guide, problems))
    if not CARD.search(guide):
        problems.append("the guide has no card of widths")
    new_edits = re.sub(r"(?m)(?:^\| `\w+` \| `\w+` \| .*\|\n)+", lambda _: "".join(rows), edits, count=1)
    if sys.argv[1:] == ["--write"]:
        GUIDE.write_text(new_guide)
        EDITS.write_text(new_edits)
        guide, edits = new_guide, new_edits
    for old, new in ((guide, new_guide), (edits, new_edits)):
        problems += difflib.unified_diff(old.split("\n"), new.split("\n"), "docs", "repository", "", "", 0, "")
    count, others = unexplained(guide)
    problems += others + untold(guide) + untold_above(guide) + unknown(guide)
    there = {f"{crate}/{edit}" for crate, edit in re.findall(r"^\| `(\w+)` \| `(\w+)` \|", "".join(rows), re.M)}
    problems += [f"no such edit: {name}" for name in sorted(set(re.findall(r"`(\w+/\w+)`", edits)) - there)]
    print("\n".join(problems + [f"{count} definitions, {len(rows)} edits, {len(problems)} problems"]))
    return 1 if problems else 0


if __name__ == "__main__":
    sys.exit(main())
