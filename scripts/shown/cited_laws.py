#!/usr/bin/env python3
"""Prints the modules of `proofs` that proofs of other crates cite, a crate a row, as docs/MAP.md has them.

Usage: cited_laws.py FOLDER [check], FOLDER being the repository

With `check` it shows how the page differs from that, and ends with status 1 if it does. To bring the page up to date:
scripts/shown/cited_laws.py . check | git apply
"""

import difflib
import re
import sys
from pathlib import Path

PAGE = "docs/MAP.md"
CITED = re.compile(r"Rattle\.((?:hl|example)\w*)\.proofs\.(\w+)")
TABLE = re.compile(r"^Crate \| Modules of `proofs` that others cite\n(.*\|.*\n)+", re.MULTILINE)


def crates(top):
    """The crates, in the order of crates.txt."""
    lines = (top / "crates.txt").read_text(encoding="utf-8").splitlines()
    return [re.split("[ :]", line)[0] for line in lines if line and not line.startswith("#")]


def cited(top):
    """The modules of each crate that files of others name."""
    modules = {crate: set() for crate in crates(top)}
    for citing in modules:
        folder = top / "crates" / citing
        for file in [*folder.glob("src/**/*.rt"), *folder.glob("specs/**/*.antt"), *folder.glob("proofs/**/*.antt")]:
            for crate, module in CITED.findall(file.read_text(encoding="utf-8")):
                if crate != citing and crate in modules:
                    modules[crate].add(module)
    return modules


def table(top):
    rows = (f"`{crate}` | {', '.join(f'`{it}`' for it in sorted(found))}" for crate, found in cited(top).items() if found)
    return "\n".join(["Crate | Modules of `proofs` that others cite", "---|---", *rows]) + "\n"


def check(top):
    """Shows how the page differs, and returns the status."""
    page = (top / PAGE).read_text(encoding="utf-8")
    as_it_is, places = TABLE.subn(table(top), page)
    if places != 1:
        print(f"{PAGE} has the table at {places} places, not at one")
        return 1
    before, after = page.splitlines(keepends=True), as_it_is.splitlines(keepends=True)
    sys.stdout.writelines(difflib.unified_diff(before, after, f"a/{PAGE}", f"b/{PAGE}"))
    return 0 if page == as_it_is else 1


if len(sys.argv) == 3 and sys.argv[2] == "check":
    sys.exit(check(Path(sys.argv[1])))
elif len(sys.argv) != 2:
    sys.exit("usage: cited_laws.py FOLDER [check]")
else:
    print(table(Path(sys.argv[1])), end="")
