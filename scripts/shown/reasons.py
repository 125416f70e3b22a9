"""Who or what stands in the way of a refused step, in one sentence, by what the program told of that moment."""

import re

from told import Action, Line, Sizes, State


def reason(sizes: Sizes | None, line: Line) -> str | None:
    """The sentence for a refused line, or for one that is no step."""
    if line.state is None:
        return "No script may have this line here, and nothing after it was run: docs/FORMATS.md tells the lines."
    if line.fault is None:
        return None
    return sentence_of(line.fault)(sizes, line.state, line)


def sentence_of(fault: str):
    """The function that makes a fault's sentence, if there is one: it has the fault's name, as Python spells names."""
    return globals().get(re.sub(r"(?<!^)(?=[A-Z])", "_", fault).lower())


def slots_in_the_way(sizes: Sizes | None, line: Line) -> list[int]:
    """The slots that a refused line waits for."""
    match line.fault:
        case "NotReady":
            return in_the_way(line.state, line.fields["front"])
        case "WindowFull":
            return in_the_way(line.state, line.state["safe"] + 1)
        case "Busy":
            frame = line.state.frames[frame_in_the_way(sizes, line)]
            awaited = {"open": "settle", "flushed": "close"}.get(frame.state)
            waiting = reaching(line.state.pending, awaited, (frame.page + 1) * sizes.page)
            return in_the_way(line.state, waiting.ticket) if waiting else []
    return []


def frame_in_the_way(sizes: Sizes | None, line: Line) -> int | None:
    """The frame that a refused record's page would lie in."""
    return line.fields["page"] % sizes.frames if line.fault == "Busy" else None


def no_slot(sizes, state, line):
    return f"The slots are 0 to {sizes.slots - 1}."


def occupied(sizes, state, line):
    slot = int(line.words[1])
    return f"Slot {slot} is protected, at epoch {state.slots[slot].epoch}: it may refresh or leave."


def not_protected(sizes, state, line):
    return f"Nobody is protected in slot {line.words[1]}: acquire it first."


def stale(sizes, state, line):
    view = state.slots[int(line.words[1])]
    return f"Slot {line.words[1]} saw the read-only offset {view.read_only} and the head {view.head} before."


def drain_full(sizes, state, line):
    held = [f"{listed('ticket', tickets(actions))} {what}" for actions, what in
            ((state.pending, "pending"), (state.taken, "taken and not done")) if actions]
    return f"No place of the drain list is left: {', '.join(held)}."


def window_full(sizes, state, line):
    ended = state["epoch"] - 1 - state["safe"]
    return f"{ended} epochs have ended and are not safe: {held_back(state, state['safe'] + 1)}."


def epochs_spent(sizes, state, line):
    return f"The current epoch is {state['epoch']}, and there is none after it."


def empty(sizes, state, line):
    if state.taken:
        return f"Nothing is pending; {listed('ticket', tickets(state.taken))} taken already, and not done."
    return "Nothing is pending: a bump, a settle or a close stores an action."


def not_ready(sizes, state, line):
    front = line.fields["front"]
    return f"Ticket {front} waits until every protected slot is above epoch {front}: {held_back(state, front)}."


def not_taken(sizes, state, line):
    ticket = int(line.words[1])
    if ticket in tickets(state.pending):
        return f"Ticket {ticket} is pending: a take comes first."
    if state.taken:
        return f"Taken and not done: {listed('ticket', tickets(state.taken), verb=False)}."
    return "No action is taken and not done."


def not_above(sizes, state, line):
    if line.words[0] == "raise":
        return f"The read-only offset is {state['read_only']} already, and never falls."
    return f"The head is {state['head']} already, and never falls."


def above_tail(sizes, state, line):
    return f"The tail is {state['tail']}: no record was placed above it."


def not_page(sizes, state, line):
    return f"A page begins at each multiple of {sizes.page}."


def above_flushed(sizes, state, line):
    offset = state["flushed"]
    page = offset // sizes.page
    holder = state.frames[page % sizes.frames]
    if holder.page != page:
        return f"The flushed offset is {offset}: page {page} is not entered yet."
    return f"The flushed offset is {offset}: page {page} {still_wants(sizes, state, page, 'flushed')}."


def size(sizes, state, line):
    return f"A record has 1 to {sizes.page} words, and lies on one page."


def busy(sizes, state, line):
    page = line.fields["page"]
    frame = page % sizes.frames
    holder = state.frames[frame].page
    return f"Page {page} wants frame {frame}, which has page {holder}: it {still_wants(sizes, state, holder, 'freed')}."


def space_spent(sizes, state, line):
    return f"The tail is {state['tail']}, and addresses end at {2**48}."


def below(sizes, state, line):
    return f"Slot {line.words[1]} saw the read-only offset {line.fields['read_only']}, and may not write below it."


def beyond(sizes, state, line):
    slot, tail = line.words[1], line.fields["tail"]
    if tail < state["tail"]:
        return f"Slot {slot} saw the tail {tail}, and it is {state['tail']} by now: a refresh shows it."
    return f"The tail is {tail}: no record was placed above it."


def evicted(sizes, state, line):
    return f"Slot {line.words[1]} saw the head {line.fields['head']}, and may not read below it."


def none_sealed(sizes, state, line):
    return (f"Each page that ends at or below the safe read-only offset, {state['safe_read_only']}, "
            f"is flushed{or_out(state.in_flight, 'in flight')}.")


def not_in_flight(sizes, state, line):
    return told_pages(state.in_flight, "in flight")


def none_closed(sizes, state, line):
    return (f"Each page that ends at or below the closed offset, {state['closed']}, "
            f"is freed{or_out(state.cleaning, 'being cleaned')}.")


def not_cleaning(sizes, state, line):
    return told_pages(state.cleaning, "being cleaned")


def no_job(sizes, state, line):
    tag = int(line.words[1])
    if tag > 999:
        return "Jobs have the tags 0 to 999."
    for action in state.pending + state.taken:
        if (action.kind, action.number) == ("user", tag):
            return f"The job of tag {tag} went with ticket {action.ticket}, and each goes once."
    return f"The job of tag {tag} is done already, and each goes once."


def in_the_way(state: State, ticket: int) -> list[int]:
    """The protected slots whose epoch is at most a ticket: it waits for them."""
    return [number for number, slot in enumerate(state.slots) if slot and slot.epoch <= ticket]


def held_back(state: State, ticket: int) -> str:
    """Who holds a ticket back, and by which epoch."""
    slots = in_the_way(state, ticket)
    if not slots:
        return "nobody holds it back"
    epochs = sorted({state.slots[slot].epoch for slot in slots})
    return f"{listed('slot', slots)} at {listed('epoch', epochs, verb=False)}, and must refresh or leave"


def still_wants(sizes: Sizes, state: State, page: int, wanted: str) -> str:
    """What a page that a frame has still wants until it is flushed, or freed."""
    place, step = next_step(sizes, state, page)
    last = STEPS.index("flush" if wanted == "flushed" else "clean")
    return f"still wants {joined([step] + [f'a {later}' for later in STEPS[place + 1 : last + 1]])}"


STEPS = ["raise", "settle", "flush", "shift", "close", "clean"]


def next_step(sizes: Sizes, state: State, page: int) -> tuple[int, str]:
    """Which of the steps a page wants next, and where that step stands."""
    end = (page + 1) * sizes.page
    match state.frames[page % sizes.frames].state:
        case "open" if state["read_only"] < end:
            return 0, f"a raise to {end}"
        case "open":
            return 1, f"a settle{stored(state, 'settle', end)}"
        case "sealed":
            return 2, f"the end of its flush (flush done {page})" if page in state.in_flight else "a flush"
        case "flushed" if state["flushed"] < end:
            return 2, f"page {state['flushed'] // sizes.page} to be flushed before it"
        case "flushed" if state["head"] < end:
            return 3, f"a shift to {end}"
        case "flushed":
            return 4, f"a close{stored(state, 'close', end)}"
        case "closed":
            return 5, f"the end of its cleaning (clean done {page})" if page in state.cleaning else "a clean"
    raise ValueError(page)


def stored(state: State, kind: str, end: int) -> str:
    """Where a settle or a close that goes far enough is stored already: its ticket, and why it isn't done."""
    if taken := reaching(state.taken, kind, end):
        return f" (ticket {taken.ticket} is taken: done {taken.ticket})"
    if pending := reaching(state.pending, kind, end):
        waits = in_the_way(state, pending.ticket)
        why = f"waits: {held_back(state, pending.ticket)}" if waits else "may be taken"
        return f" (ticket {pending.ticket} {why})"
    return ""


def reaching(actions: list[Action], kind: str | None, end: int) -> Action | None:
    """The first of these settles, or closes, that goes as far as an address."""
    return next((action for action in actions if action.kind == kind and action.number >= end), None)


def tickets(actions: list[Action]) -> list[int]:
    return [action.ticket for action in actions]


def told_pages(pages: list[int], what: str) -> str:
    return f"{listed('page', pages).capitalize()} {what}." if pages else f"No page is {what}."


def or_out(pages: list[int], what: str) -> str:
    return f" or {what} ({listed('page', pages, verb=False)})" if pages else ""


def listed(what: str, numbers: list[int], verb: bool = True) -> str:
    """Numbers with their word: slot 1 is; slots 0, 2 and 3 are."""
    be = (" is" if len(numbers) == 1 else " are") if verb else ""
    return f"{what}{'' if len(numbers) == 1 else 's'} {joined(numbers)}{be}"


def joined(parts: list) -> str:
    words = [str(part) for part in parts]
    return words[0] if len(words) == 1 else f"{', '.join(words[:-1])} and {words[-1]}"
