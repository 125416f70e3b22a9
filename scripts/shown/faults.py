#!/usr/bin/env python3
"""Compares the faults of every language with hl_model, whose fault.rt has their one table: numbers, names and fields.

Usage: faults.py FOLDER, which is the repository

It shows how the tables of the headers and of the Rust crate differ, and ends with status 1 if they do. To bring them up to
date: scripts/shown/faults.py . | git apply
What a clause or a sentence says of each fault is written by hand. Where that differs, it is told on standard error.
"""

import difflib
import re
import sys
from dataclasses import dataclass
from pathlib import Path

from reasons import sentence_of

TABLE = "crates/hl_model/src/fault.rt"
# Faults that no call of C, C++ or Rust can meet.
NOT_OF_DOORS = {"NoJob", "TouchesFull", "JournalFull", "BadLine", "Stream"}
# A pass in Rust holds its log, so it is no stranger there.
NOT_OF_RUST = NOT_OF_DOORS | {"Stranger"}
# Faults that refuse no line of a script.
NOT_OF_LINES = {"TouchesFull", "Stranger", "JournalFull", "Device", "OutOfMemory", "BadLine", "Stream"}
# What hl.h says of a field.
FIELDS = {
    "front": "the front's ticket", "safe": "the safe epoch", "page": "the page that can't be entered",
    "read_only": "the view's read-only offset", "tail": "the view's tail", "head": "the view's head",
    "stamp": "a stamp, told by hl_log.h alone",
}  # fmt: skip


@dataclass(frozen=True)
class Fault:
    number: int
    name: str
    fields: list[str]

    @property
    def constant(self) -> str:
        return "HL_" + re.sub(r"(?<!^)(?=[A-Z])", "_", self.name).upper()

    def in_rust(self, fields: str) -> str:
        """The variant of Rust, with these fields if it has any."""
        return f"Fault::{self.name}" + (f" {{ {fields} }}" if self.fields else "")


def read_table(top: Path) -> list[Fault]:
    found = re.findall(r'#\[error\("fault (\d+) (\w+)((?: \w+ \{\w+\})*)"\)\]', read(top / TABLE))
    return [Fault(int(number), name, re.findall(r"\{(\w+)\}", fields)) for number, name, fields in found]


def read(path: Path) -> str:
    return path.read_text(encoding="utf-8")


# ---- The tables that are written ----


def enum_of_c(faults: list[Fault]) -> str:
    lines = [(f"    {it.constant} = {it.number},", carried(it)) for it in faults]
    return "".join(f"{line.ljust(width) + words}\n" for (line, words), width in zip(lines, widths(lines)))


def carried(fault: Fault) -> str:
    """The comment that says what a fault's numbers are."""
    words = ", ".join(f"{letter}: {FIELDS.get(field, field)}" for letter, field in zip("ab", fault.fields))
    return f" /* {words} */" if words else ""


def widths(lines: list[tuple[str, str]]) -> list[int]:
    """How wide each line is before its comment: as the widest of those with comments that it stands among."""
    found, at = [], 0
    while at < len(lines):
        end = at + 1
        while end < len(lines) and lines[at][1] and lines[end][1]:
            end += 1
        found += [max(len(line) for line, _ in lines[at:end])] * (end - at)
        at = end
    return found


def names_of_c(faults: list[Fault]) -> str:
    return "".join(f'    case {it.constant}: return "{it.name}";\n' for it in faults)


def enum_of_cpp(faults: list[Fault]) -> str:
    return "".join(f"    {it.name} = {it.constant},\n" for it in faults)


def names_of_cpp(faults: list[Fault]) -> str:
    return "".join(f'    case Fault::{it.name}: return "{it.name}";\n' for it in faults)


def by_number_in_rust(faults: list[Fault]) -> str:
    def carrying(fault: Fault) -> str:
        return ", ".join(f"{field}: {letter}" for letter, field in zip("ab", fault.fields))

    return "".join(f"            {it.number} => {it.in_rust(carrying(it))},\n" for it in faults)


def numbers_in_rust(faults: list[Fault]) -> str:
    return "".join(f"            {it.in_rust('..')} => {it.number},\n" for it in faults)


def texts_in_rust(faults: list[Fault]) -> str:
    def text(fault: Fault) -> str:
        words = " ".join([fault.name] + [f"{field} {{{field}}}" for field in fault.fields])
        return f'            {fault.in_rust(", ".join(fault.fields))} => write!(f, "{words}"),\n'

    return "".join(text(it) for it in faults if it.fields)


HEADER, ANSWERS, RUST = "include/hl.h", "include/hl_answers.hpp", "rust/hl/src/fault.rs"
# Each table: its file, the lines before and behind it, what it leaves out, and how it is written.
TABLES = [
    (HEADER, "enum hl_fault {\n", "    /* no fault of the rules: */\n", NOT_OF_DOORS, enum_of_c),
    (HEADER, '    case 0: return "accepted";\n', "    case HL_OUT_OF_RANGE:", NOT_OF_DOORS, names_of_c),
    (ANSWERS, "enum class Fault : Word {\n", "    OutOfRange =", NOT_OF_DOORS, enum_of_cpp),
    (ANSWERS, "    switch (fault) {\n", "    case Fault::OutOfRange:", NOT_OF_DOORS, names_of_cpp),
    (RUST, "        match number {\n", "            254 =>", NOT_OF_RUST, by_number_in_rust),
    (RUST, "        match self {\n", "            Fault::OutOfRange =>", NOT_OF_RUST, numbers_in_rust),
    (RUST, "        match *self {\n", "            plain =>", NOT_OF_RUST, texts_in_rust),
]


def differences(top: Path, faults: list[Fault]) -> list[str]:
    """How the files differ from what they are to be, as a patch."""
    patch = []
    for file in (HEADER, ANSWERS, RUST):
        text = now = read(top / file)
        for _, before, behind, left_out, written in (table for table in TABLES if table[0] == file):
            place = re.compile(f"({re.escape(before)}).*?(?={re.escape(behind)})", re.DOTALL)
            lines = written([it for it in faults if it.name not in left_out])
            text, places = place.subn(lambda found, lines=lines: found[1] + lines, text)
            if places != 1:
                sys.exit(f"{file} has '{before.strip()}' with '{behind.strip()}' behind it at {places} places, not at one")
        patch += difflib.unified_diff(now.splitlines(True), text.splitlines(True), f"a/{file}", f"b/{file}")
    return patch


# ---- What is written by hand ----

# What each file has by a fault's name: its number, its name or its fields.
BY_HAND = [
    ("crates/hl_model/src/fault.rt", r"Fault::(\w+)(?: \{ \.\. \})? => (\d+),", "number"),
    ("crates/hl_model/specs/Faults.antt", r"^number_of \(?(\w+)[\w ]*\)? = (\d+)$", "number"),
    ("crates/hl_line/src/fault.rt", r'Fault::(\w+)(?: \{ \.\. \})? => "(\w+)"', "name"),
    ("crates/hl_line/specs/Replies.antt", r'^name_of \(?(\w+)[\w ]*\)? = codes "(\w+)"$', "name"),
    ("crates/hl_line/specs/Replies.antt", r"^fields_of \((\w+) ([\w ]+)\) =", "fields"),
]


def deviations(top: Path, faults: list[Fault]) -> list[str]:
    """What differs in files that are written by hand."""
    wrong = []
    for file, pattern, what in BY_HAND:
        found = dict(re.findall(pattern, read(top / file), flags=re.MULTILINE))
        for it in faults:
            value = " ".join(it.fields) if what == "fields" else str(getattr(it, what))
            if found.get(it.name, "") != value:
                wrong.append(f"{file}: the {what} of {it.name} is {found.get(it.name)}, and in hl_model {value}")
    wrong += [f"scripts/shown/reasons.py has no sentence for {it.name}" for it in faults
              if it.name not in NOT_OF_LINES and sentence_of(it.name) is None]  # fmt: skip
    return wrong + deviations_of_rust(top, faults) + deviations_of_codes(top)


def deviations_of_rust(top: Path, faults: list[Fault]) -> list[str]:
    """The variants of the Rust crate, whose comments are its own."""
    variants = re.search(r"^pub enum Fault \{\n(.*?)^\}", read(top / RUST), re.MULTILINE | re.DOTALL)
    names = re.findall(r"^    (\w+)(?:,| \{)$", variants[1], re.MULTILINE) if variants else []
    wanted = [it.name for it in faults if it.name not in NOT_OF_RUST] + ["OutOfRange"]
    return [] if names == wanted else [f"{RUST}: the variants aren't {', '.join(wanted)}"]


def deviations_of_codes(top: Path) -> list[str]:
    """The two numbers that are no fault's, of which hl_answers has the first copy."""
    codes = re.findall(r"^pub const (\w+): u64 = (\d+);", read(top / "crates/hl_answers/src/outcome.rt"), re.MULTILINE)
    header = read(top / HEADER)
    wrong = [f"{HEADER}: HL_{name} isn't {number}" for name, number in codes if f" HL_{name} = {number}," not in header]
    if dict(codes).get("OUT_OF_RANGE") != "254":
        wrong.append(f"{RUST} has 254 for what is out of range")
    return wrong


def main() -> int:
    if len(sys.argv) != 2:
        sys.exit("usage: faults.py FOLDER")
    top = Path(sys.argv[1])
    faults = read_table(top)
    if [it.number for it in faults] != list(range(1, len(faults) + 1)) or len(faults) < 32:
        sys.exit(f"{TABLE} has no table of all faults in order")
    patch, wrong = differences(top, faults), deviations(top, faults)
    sys.stdout.writelines(patch)
    for line in wrong:
        print(line, file=sys.stderr)
    return 1 if patch or wrong else 0


if __name__ == "__main__":
    sys.exit(main())
