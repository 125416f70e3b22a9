#!/usr/bin/env python3
"""Cuts the part of the first program that README.md shows out of its crate, from its struct up to its main function.

Usage: first_program.py FOLDER [check]

It prints the page with that part in its place. With `check` it shows how the page differs from that, and ends with status 1
if it does. To bring the page up to date: scripts/shown/first_program.py . check | git apply
"""

import difflib
import re
import sys
from pathlib import Path

PAGE, PROGRAM = "README.md", "crates/example_first_log/src/main.rt"
PART = re.compile(r"^struct OneWord;\n.*?(?=\nfn main\()", re.MULTILINE | re.DOTALL)
# Where the page shows it: the first block behind this comment.
PLACE = re.compile(rf"(<!-- cut out of {re.escape(PROGRAM)} -->\n```rust\n).*?(?=```)", re.DOTALL)


def main(top: Path, check: bool) -> int:
    page = (top / PAGE).read_text(encoding="utf-8")
    part = PART.search((top / PROGRAM).read_text(encoding="utf-8"))
    cut, places = PLACE.subn(lambda place: place[1] + part[0], page) if part else (page, 0)
    if places != 1:
        print(f"{PAGE} shows the part of {PROGRAM} at {places} places, not at one")
        return 1
    if not check:
        print(cut, end="")
        return 0
    before, after = page.splitlines(keepends=True), cut.splitlines(keepends=True)
    sys.stdout.writelines(difflib.unified_diff(before, after, f"a/{PAGE}", f"b/{PAGE}"))
    return 0 if page == cut else 1


if __name__ == "__main__":
    if not 2 <= len(sys.argv) <= 3 or sys.argv[2:] not in ([], ["check"]):
        sys.exit("usage: first_program.py FOLDER [check]")
    sys.exit(main(Path(sys.argv[1]), sys.argv[2:] == ["check"]))
