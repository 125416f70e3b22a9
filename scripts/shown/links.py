#!/usr/bin/env python3
"""Tells which links of a repository's pages lead nowhere, and which pages no other page links.

Usage: links.py FOLDER; status 1 if there is one of either.
"""

import re
import sys
from pathlib import Path

LINK = re.compile(r"!?\[[^\]]*\]\(([^)\s]+)\)")


def pages_of(top: Path) -> list[Path]:
    return sorted([*top.glob("*.md"), *top.glob("docs/*.md"), *top.glob("crates/*/*.md")])


def targets_of(page: Path) -> list[str]:
    """The links of a page that stand outside blocks of code."""
    text = re.sub(r"^```.*?^```", "", page.read_text(encoding="utf-8"), flags=re.MULTILINE | re.DOTALL)
    return [it for it in LINK.findall(text) if "://" not in it]


def heading_ids(page: Path) -> set[str]:
    """The places of a page that a link may name behind a #."""
    heads = re.findall(r"^#+ (.*)$", page.read_text(encoding="utf-8"), flags=re.MULTILINE)
    return {re.sub(r"[^\w\- ]", "", it.lower()).replace(" ", "-") for it in heads}


def leads(page: Path, target: str) -> bool:
    path, _, place = target.partition("#")
    there = (page.parent / path) if path else page
    return there.exists() and (not place or place in heading_ids(there))


def main() -> int:
    top = Path(sys.argv[1]).resolve()
    linked, faults = {top / "README.md"}, 0
    for page in pages_of(top):
        for target in targets_of(page):
            if not leads(page, target):
                print(f"{page.relative_to(top)}: {target} leads nowhere")
                faults += 1
            linked.add((page.parent / target.partition("#")[0]).resolve())
    for page in pages_of(top):
        if page not in linked:
            print(f"no page links {page.relative_to(top)}")
            faults += 1
    return 1 if faults else 0


if __name__ == "__main__":
    sys.exit(main())
