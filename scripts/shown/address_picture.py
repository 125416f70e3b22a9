"""The address line: six offsets, and what each region between two of them allows."""

from typing import NamedTuple

from drawing import Drawing
from told import Line, Sizes

TITLE = "The address line with its six offsets, and what each region allows"



class Offset(NamedTuple):
    """An offset, and the region that ends there."""

    label: str  # in `status`
    words: str
    faster: str  # its name in FASTER's C# code
    who: str  # reads and writes in the region
    step: str  # that comes next


OFFSETS = [
    Offset("closed", "closed", "SafeHeadAddress", "nobody reads", "and a clean zeroes the page and frees its frame"),
    Offset("head", "head", "HeadAddress", "only a slot that saw an older head reads", "until a close is done"),
    Offset("flushed", "flushed", "FlushedUntilAddress", "on the device, and still read here", "until the head is shifted"),
    Offset("safe_read_only", "safe read-only", "SafeReadOnlyAddress", "read, no longer written",
           "and a flush takes its next whole page"),
    Offset("read_only", "read-only", "ReadOnlyAddress",
           "fuzzy: only a slot that saw an older read-only offset writes", "until a settle is done"),
    Offset("tail", "tail", "TailAddress", "read and written", "until the read-only offset is raised"),
]  # fmt: skip


def pages(sizes: Sizes, lines: list[Line]) -> list[str]:
    """The states of the pages from 0 on, all of which are in a frame."""
    return [frame.state for frame in lines[-1].state.frames if frame.page is not None]


def text(sizes: Sizes, lines: list[Line]) -> str:
    state, wide = lines[-1].state, 2  # columns a word
    begins = [page * sizes.page for page in range(len(pages(sizes, lines)))]

    def row(label: str, marks: dict[int, str]) -> str:
        cells = [" "] * (wide * (begins[-1] + 2 * sizes.page))
        for address, mark in marks.items():
            cells[address * wide : address * wide + len(mark)] = mark
        return f"{label:<16}{''.join(cells)}".rstrip()

    rows = [
        row("address", {begin: str(begin) for begin in begins}),
        row("page", {begin: f"|page {page}" for page, begin in enumerate(begins)}),
        row("its frame is", {begin: f"|{kind}" for begin, kind in zip(begins, pages(sizes, lines))}),
    ]
    for it in reversed(OFFSETS):
        rows.append(row(it.words, {0: "-" * (wide * state[it.label]) + f" {state[it.label]}"}))
    lowers = [0, *(state[it.label] for it in OFFSETS)]
    letters = [*"ABCDEF", ""]
    rows.append(row("region", {lower: f"|{letter}" for lower, letter in zip(lowers, letters)}))
    rows.append("")
    for letter, lower, it in zip(letters, ["0", *(it.words for it in OFFSETS)], OFFSETS):
        rows.append(f"{letter}  {f'{lower} to {it.words}':<29}{it.who}, {it.step}")
    return "\n".join([*rows, "", seen(lines)]) + "\n"


def seen(lines: list[Line]) -> str:
    """What slot 0 sees, which has not refreshed since the last two steps."""
    slot = lines[-1].state.slots[0]
    return (f"Slot 0 has not refreshed since the last two steps: it still reads from {slot.head} and writes from "
            f"{slot.read_only}, up to {slot.tail}.")  # fmt: skip


def svg(sizes: Sizes, lines: list[Line]) -> str:
    state, slot = lines[-1].state, lines[-1].state.slots[0]
    left, wide, top = 36, 32, 74  # wide: pixels a word
    states = pages(sizes, lines)
    it = Drawing(left * 2 + wide * sizes.page * len(states), 400, TITLE)

    def place(address: int) -> int:
        return left + wide * address

    for page, kind in enumerate(states):
        x = place(page * sizes.page)
        it.box(x, top, wide * sizes.page, 46, kind)
        it.line(f"M{x} {top}h{wide * sizes.page}v46h{-wide * sizes.page}z", "rule")
        it.words(x + 2 * wide, top + 20, f"page {page}", "strong", "middle")
        it.words(x + 2 * wide, top + 37, kind, "small", "middle")
    lower = 0
    for offset in OFFSETS:
        upper = state[offset.label]
        middle = place(lower) + wide * (upper - lower) // 2
        # Within a page the line leaves out the page's words.
        gap = "" if upper % sizes.page == 0 else f"V{top}M{place(upper)} {top + 46}"
        it.line(f"M{place(upper)} {top - 12}{gap}V{top + 190}", "mark")
        it.words(place(upper), top - 48, offset.words, "strong mark", "middle")
        it.words(place(upper), top - 32, str(upper), "step mark", "middle")
        it.words(place(upper), top - 18, offset.faster, "tiny soft other", "middle")
        below = it.paragraph(middle, top + 72, offset.who, 17, "", "middle")
        it.paragraph(middle, below + 6, offset.step, 17, "small", "middle")
        lower = upper
    x = place(slot.head)
    bottom = top + 226
    it.words(left, bottom, "What slot 0 sees, which has not refreshed since the last two steps", "strong")
    for y, name, begin in ((bottom + 18, "reads", slot.head), (bottom + 46, "writes", slot.read_only)):
        it.box(place(begin), y, wide * (slot.tail - begin), 12, name)
        it.words(left, y + 11, f"{name} from {begin}")
    it.words(left, bottom + 84, "Names in grey italics are those of FASTER's C# code.", "small soft other")
    return str(it)
