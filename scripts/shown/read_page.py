"""Opens a page of ./hl view in a headless browser and prints what it shows at some lines.

Usage: read_page.py PAGE LINE.. prints for each line its answer, the status, the pending actions and the frames as
the program spells them, and each slot. It ends with status 1 where something goes wrong in the page, or where the
slider, its keys or a button don't move it, or where the line at hand is out of sight at the page's head or foot.
"""

import re
import sys
import tempfile
from pathlib import Path

from browser import Browser, chromium

# Each is what is to be seen, and not what the page was made of.
SHOWN = """(() => {
  const text = (it) => it.textContent.trim();
  const all = (where) => [...document.querySelectorAll(where)];
  const epoch = (it) => it.firstChild.textContent;
  const numbers = all("#offsets [data-offset]").map((it) => [it.dataset.offset, text(it.querySelector(".number"))]);
  return {
    answer: text(document.querySelector("#answer")),
    why: text(document.querySelector("#why")),
    epoch: all("#epochs thead th").filter((it) => text(it).endsWith("current")).map(epoch)[0],
    safe: all("#epochs thead th").filter((it) => text(it).endsWith("the safe epoch")).map(epoch)[0],
    offsets: Object.fromEntries(numbers),
    pending: all("#pending .chip").map(text),
    taken: all("#taken .chip").map(text),
    frames: all("#frames li").map((it) => text(it.lastChild)),
    slots: all("#slots tbody tr").map((it) => [...it.children].map(text).join(" ")),
  };
})()"""
IN_SIGHT = """[0, document.body.scrollHeight].every((place) => {
  scrollTo(0, place);
  const { top, bottom } = document.querySelector("#answer").getBoundingClientRect();
  return top >= 0 && bottom <= innerHeight;
})"""
OFFSETS = ["closed", "head", "flushed", "safe_read_only", "read_only", "tail"]


def spelled_action(text: str) -> str:
    ticket, kind, number = re.fullmatch(r"(\d+): (job of tag|settle to|close to) (\d+)", text).groups()
    return f"{ticket}:{ {'job of tag': 'user', 'settle to': 'settle', 'close to': 'close'}[kind] }:{number}"


def spelled_frame(text: str) -> str:
    found = re.fullmatch(r"page (\d+): (\w+)(, in flight|, being cleaned)?", text)
    return f"{found[2]}:{found[1]}" if found else text


def spelled(shown: dict) -> list[str]:
    """What is shown, as the program would answer it."""
    offsets = " ".join(f"{label} {shown['offsets'][label]}" for label in OFFSETS)
    return [
        shown["answer"],
        f"status epoch {shown['epoch']} safe {shown['safe']} pending {len(shown['pending'])} "
        f"taken {len(shown['taken'])} {offsets}",
        " ".join(["pending", *map(spelled_action, shown["pending"])]),
        " ".join(["frames", *map(spelled_frame, shown["frames"])]),
        *(f"slot {slot}" for slot in shown["slots"]),
    ]


def moves(browser: Browser, what: str, wanted: str):
    """Ends this where the page doesn't stand where it was moved to."""
    place = browser.value("document.querySelector('#place').textContent")
    if place != wanted:
        raise SystemExit(f"{what}: the page is at {place}, not at {wanted}")


def main(page: str, lines: list[int]):
    with tempfile.TemporaryDirectory(ignore_cleanup_errors=True) as folder, Browser(chromium(), folder) as browser:
        browser.open(Path(page).resolve().as_uri())
        count = browser.value("document.querySelectorAll('#lines li').length")
        moves(browser, "at first", f"1 of {count}")
        browser.press("ArrowRight", 39)
        moves(browser, "by a key", f"2 of {count}")
        browser.value("document.querySelector('#slider').focus()")
        browser.press("ArrowRight", 39)
        moves(browser, "by a key on the slider", f"3 of {count}")
        browser.value("document.querySelector('#back').click()")
        moves(browser, "by the button", f"2 of {count}")
        browser.press("End", 35)
        moves(browser, "by the End key", f"{count} of {count}")
        for line in lines:
            browser.value(f"slider.value = {line}; slider.dispatchEvent(new Event('input'))")
            moves(browser, "by the slider", f"{line} of {count}")
            print("\n".join(spelled(browser.value(SHOWN))))
            if not browser.value(IN_SIGHT):
                raise SystemExit(f"line {line} is out of sight")
        if browser.wrong:
            raise SystemExit("\n".join(browser.wrong))


if __name__ == "__main__":
    main(sys.argv[1], list(map(int, sys.argv[2:])))
