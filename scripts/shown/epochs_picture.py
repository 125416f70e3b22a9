"""Epochs on a line: slots, the current and the safe epoch, and the tickets that wait, with why."""

from drawing import Drawing
from reasons import in_the_way, listed
from told import Action, Line, Sizes, State

TITLE = "Epochs on a line: the slots, the safe and the current epoch, and why tickets wait"
KINDS = {"user": "job of tag", "settle": "settle to", "close": "close to"}


def stands(state: State, epoch: int) -> str:
    return "current" if epoch == state["epoch"] else "safe" if epoch <= state["safe"] else "not safe"


def slots_at(state: State, epoch: int) -> list[str]:
    return [f"slot {number}" for number, slot in enumerate(state.slots) if slot and slot.epoch == epoch]


def why(state: State, action: Action) -> str:
    """Whether an action may be taken, or for whom it waits."""
    waits = in_the_way(state, action.ticket)
    return f"waits for {listed('slot', waits, verb=False)}" if waits else "may be taken: every slot is above it"


def bare(lines: list[Line]) -> list[int]:
    """The epochs that bare bumps ended, as the program answered."""
    return [int(line.answer.split(" ")[1]) for line in lines if line.text == "bare" and not line.fault]


def named(action: Action) -> str:
    return f"ticket {action.ticket}, {KINDS[action.kind]} {action.number}"


def text(sizes: Sizes, lines: list[Line]) -> str:
    state = lines[-1].state
    epochs = range(1, state["epoch"] + 1)
    column = {epoch: 10 * epoch for epoch in epochs}
    ended = {epoch: "bare bump" for epoch in bare(lines)} | {it.ticket: str(it.ticket) for it in state.pending}

    def row(label: str, cells: dict[int, str]) -> str:
        it = f"{label:<10}"
        for epoch, cell in cells.items():
            it = f"{it:<{column[epoch]}}{cell}"
        return it.rstrip()

    rows = [
        row("epoch", {epoch: str(epoch) for epoch in epochs}),
        row("", {epoch: stands(state, epoch) for epoch in epochs}),
        row("slots", {epoch: ", ".join(slots_at(state, epoch)) for epoch in epochs}),
        row("tickets", {epoch: ended[epoch] for epoch in epochs if epoch in ended}),
    ]
    for place, action in reversed(list(enumerate(state.pending))):
        before = {it.ticket: "|" for it in state.pending[:place]}
        rows.append(row("", before | {action.ticket: "|"}))
        rows.append(row("", before | {action.ticket: f"`- {said(state, action)}"}))
    return "\n".join(rows) + "\n"


def said(state: State, action: Action) -> str:
    return f"{named(action)}: {why(state, action)}"


def svg(sizes: Sizes, lines: list[Line]) -> str:
    state = lines[-1].state
    left, wide, top = 84, 120, 24
    last = state["epoch"]
    starts = {action.ticket: left + wide * (action.ticket - 1) + wide // 2 for action in state.pending}
    ends = [starts[action.ticket] + 18 + 13 * len(said(state, action)) // 2 for action in state.pending]
    it = Drawing(max(left + wide * last, *ends) + 24, top + 176 + 28 * len(state.pending), TITLE)
    it.words(16, top + 22, "epoch", "soft strong")
    it.words(16, top + 76, "slots", "soft strong")
    it.words(16, top + 132, "tickets", "soft strong")
    for epoch in range(1, last + 1):
        x = left + wide * (epoch - 1)
        it.box(x, top, wide, 150, "track" if epoch <= state["safe"] else "ground")
        it.line(f"M{x} {top}h{wide}v150h{-wide}z", "rule")
        it.words(x + wide // 2, top + 22, str(epoch), "strong", "middle")
        of = "the safe epoch" if epoch == state["safe"] else stands(state, epoch)
        it.words(x + wide // 2, top + 39, of, "small soft", "middle")
        for place, slot in enumerate(slots_at(state, epoch)):
            it.box(x + 25, top + 58 + 30 * place, 70, 26, "flushed", 13)
            it.words(x + wide // 2, top + 76 + 30 * place, slot, "", "middle")
    for epoch in bare(lines):
        it.words(left + wide * (epoch - 1) + wide // 2, top + 132, "bare bump", "small soft", "middle")
    for place, action in enumerate(state.pending):
        x, y = starts[action.ticket], top + 172 + 28 * (len(state.pending) - 1 - place)
        waits = bool(in_the_way(state, action.ticket))
        it.line(f"M{x} {top + 140}V{y}h12", "rule dashed" if waits else "rule")
        it.box(x - 17, top + 114, 34, 26, "sealed" if waits else "open", 4)
        it.words(x, top + 132, str(action.ticket), "strong", "middle")
        it.words(x + 18, y + 4, said(state, action))
    return str(it)
