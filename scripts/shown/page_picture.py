"""The life of a page and of its frame: from a free frame to a free one, with the steps between and FASTER's names."""

from dataclasses import dataclass

from drawing import Drawing
from told import Line, Sizes, State

TITLE = "The life of a page and of its frame, with the steps that lead from each state to the next"

# What FASTER's C# code calls what leads from one state to the next.
FASTER = {
    ("free", "open"): "the tail enters the page (HandlePageOverflow)",
    ("open", "sealed"): "ShiftReadOnlyAddress; once that epoch is safe, OnPagesMarkedReadOnly",
    ("sealed", "in flight"): "AsyncFlushPages",
    ("in flight", "flushed"): "AsyncFlushPageCallback: FlushedUntilAddress",
    ("flushed", "closed"): "ShiftHeadAddress; once that epoch is safe, OnPagesClosed",
    ("closed", "being cleaned"): "OnPagesClosed, page by page",
    ("being cleaned", "free"): "the page is cleared: ClosedUntilAddress",
}
MEANS = {
    "free": "no page, or its page is freed",
    "open": "records are placed; words may be written",
    "sealed": "below the safe read-only offset: no write",
    "in flight": "its words are on their way to the device",
    "flushed": "on the device; still read in memory",
    "closed": "below the closed offset: nobody reads",
    "being cleaned": "its words are being zeroed",
}


@dataclass
class Turn:
    """Some lines that lead from one state of frame 0 to another."""

    before: str
    after: str
    steps: list[str]
    frame: str  # as the program tells it


def state_of(state: State) -> str:
    """The state of frame 0, in which a page that was taken is told apart."""
    frame = state.frames[0]
    out = {"sealed": (state.in_flight, "in flight"), "closed": (state.cleaning, "being cleaned")}
    pages, name = out.get(frame.state, ([], ""))
    return name if frame.page in pages else frame.state


def turns(lines: list[Line]) -> list[Turn]:
    """The turns of frame 0 in a run, the first of each kind; opening and acquiring are left out."""
    found, steps = [], []
    for before, line in zip(lines, lines[1:]):
        if line.words[0] == "acquire":
            continue
        steps.append(line.text)
        one, other = state_of(before.state), state_of(line.state)
        if one == other:
            continue
        frame = line.state.frames[0]
        told = frame.state if frame.page is None else f"{frame.state}:{frame.page}"
        if (one, other) not in [(turn.before, turn.after) for turn in found]:
            found.append(Turn(one, other, steps, told))
        steps = []
    return found


def onward(lines: list[Line]) -> list[Turn]:
    """Those that lead to a state for the first time, and back to the free frame."""
    return [turn for turn in turns(lines) if (turn.before, turn.after) in FASTER]


def back(lines: list[Line]) -> list[Turn]:
    """Those that lead back: a failed flush."""
    return [turn for turn in turns(lines) if (turn.before, turn.after) not in FASTER]


def text(sizes: Sizes, lines: list[Line]) -> str:
    rows = [f"{'frame 0':<17}{'steps':<43}in FASTER's C# code", "", f"{'free':<17}({MEANS['free']})"]
    for turn in onward(lines):
        faster = FASTER[turn.before, turn.after].split("; ")
        steps = ", ".join(turn.steps)
        rows += [f"  |{'':<14}{steps:<43}{faster[0]}"]
        rows += [f"  |{'':<57}{more}" for more in faster[1:]]
        for failed in back(lines):
            if failed.before == turn.before:
                rows.append(f"  |{'':<14}({', '.join(failed.steps)}: {failed.after} again)")
        rows += ["  v", f"{turn.after:<17}({MEANS[turn.after]}; frames tells {turn.frame})"]
    return "\n".join(rows) + "\n"


def svg(sizes: Sizes, lines: list[Line]) -> str:
    going = onward(lines)
    left, wide, tall, step = 84, 270, 46, 96
    states = ["free", *(turn.after for turn in going)]
    it = Drawing(940, step * len(states) + 20, TITLE)
    top = {place: 48 + step * place for place in range(len(states))}
    middle = left + wide // 2
    for x, name in ((left + 8, "the frame of page 0"), (middle + 160, "steps"), (middle + 380, "in FASTER's C# code")):
        it.words(x, 28, name, "soft strong")
    kinds = {"in flight": "sealed", "being cleaned": "closed"}
    for place, state in enumerate(states):
        edge = "line rule dashed" if state in kinds or state == "free" else "line rule"
        it.box(left, top[place], wide, tall, kinds.get(state, state), 8)
        it.box(left, top[place], wide, tall, edge, 8)
        it.words(left + wide // 2, top[place] + 20, state, "strong", "middle")
        it.words(left + wide // 2, top[place] + 37, MEANS[state], "small", "middle")
    for place, turn in enumerate(going):
        y = top[place] + tall
        it.arrow(f"M{middle} {y}V{top[place + 1] - 6}", middle, top[place + 1], "down")
        it.paragraph(middle + 160, y + 20, ", ".join(turn.steps), 28, "step")
        for line, name in enumerate(FASTER[turn.before, turn.after].split("; ")):
            it.words(middle + 380, y + 20 + 17 * line, name, "soft other")
    for turn in back(lines):
        one, other = (top[states.index(state)] + tall // 2 for state in (turn.before, turn.after))
        it.arrow(f"M{left} {one}H{left - 24}V{other}H{left - 6}", left, other, "right")
        it.words(left - 16, (one + other) // 2 + 5, ", ".join(turn.steps), "step small")
    return str(it)
