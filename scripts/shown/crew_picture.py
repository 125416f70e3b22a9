"""A turn of a crew: who takes, writes, answers and cleans a page. It is drawn from the rows below, and from no run."""

import textwrap
from typing import NamedTuple

from drawing import Drawing

TITLE = "A turn of a crew: who takes, writes, answers and cleans a page"
COLUMNS = 30  # of a line in a box
WHO = ["your threads", "flusher", "page writers (two)", "cleaner"]


class Row(NamedTuple):
    """What one of them does, and whom it then tells what."""

    who: str
    does: str
    kind: str  # the colour of the state that its page is in, or none
    tells: str = ""  # whom
    what: str = ""


ROWS = [
    Row("your threads", "enter a new page, or meet Busy", "open", "flusher", "ring"),
    Row("flusher", "makes the lag's steps: raise, settle, shift, close", "track"),
    Row("flusher", "takes up to four safe actions, runs and answers each", "track"),
    Row("flusher", "cuts the journal, if its limits say so", "track", "page writers (two)", "a turn is over"),
    Row("page writers (two)", "each takes a sealed page, asks the gate, copies the words without the lock", "sealed"),
    Row("page writers (two)", "and writes the image, and answers its page; a failed one is taken again", "flushed", "flusher",
        "a page is written"),
    Row("flusher", "moves the head on in its next turn, and closes behind it", "track", "cleaner", "a turn is over"),
    Row("cleaner", "takes a closed page, zeroes its words without the lock, answers it (clean done)", "closed"),
    Row("your threads", "find the frame free when they try again", "free"),
]  # fmt: skip


def text() -> str:
    rows = []
    for number, row in enumerate(ROWS, 1):
        rows.append(f"{number}  {row.who:<20}{row.does}")
        if row.tells:
            rows.append(f"{'':<23}-> {row.tells}: {row.what}")
    return "\n".join(rows) + "\n"


def svg() -> str:
    left, wide, box, top, step = 24, 250, 196, 60, 98
    it = Drawing(left * 2 + wide * (len(WHO) - 1) + box, top + step * len(ROWS) + 16, TITLE)
    middle = {name: left + wide * place + box // 2 for place, name in enumerate(WHO)}
    bottom = top + step * len(ROWS)
    for name, x in middle.items():
        it.words(x, 32, name, "strong", "middle")
        it.line(f"M{x} 44V{bottom}", "rule dashed")
    for place, row in enumerate(ROWS):
        x, y, does = middle[row.who], top + step * place, f"{place + 1}. {row.does}"
        it.box(x - box // 2, y, box, 62, row.kind, 8)
        it.box(x - box // 2, y, box, 62, "line rule", 8)
        rows = len(textwrap.wrap(does, COLUMNS, break_on_hyphens=False))
        it.paragraph(x, y + 44 - 17 * rows // 2, does, COLUMNS, "small", "middle")
        if row.tells:
            tell(it, middle, row, y + 86)
    return str(it)


def tell(it: Drawing, middle: dict[str, int], row: Row, y: int):
    """An arrow from one of them to another, with what is told beside where it begins."""
    start, end = middle[row.who], middle[row.tells]
    on = end > start
    it.arrow(f"M{start} {y}H{end - 6 if on else end + 6}", end, y, "right" if on else "left")
    it.words(start + (8 if on else -8), y - 5, row.what, "small strong", "start" if on else "end")
