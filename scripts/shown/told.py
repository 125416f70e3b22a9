"""Runs a script through the built program and asks it, after each line, where it stands.

Nothing here knows the rules of the steps. Each state is put together from the program's own answers: each line of the
script is followed by `status`, `pending` and `frames`, and for each slot by a read at the greatest number, which is
always refused and so changes nothing: as `NotProtected`, or as `Beyond` with the tail of the slot's view. What no
question asks for was answered before: a slot's epoch and view when it was acquired, refreshed or looked, an action
that was taken when it was taken, a page in flight or being cleaned likewise.
"""

import os
import re
import subprocess
import sys
from dataclasses import dataclass, replace

GREATEST = 2**64 - 1
QUERIES = ["status", "pending", "frames"]
CONFIG = re.compile(rb"config (\d{1,4}) (\d{1,3}) (\d{1,2}) (\d{1,2})")


@dataclass(frozen=True)
class Sizes:
    page: int  # words a page
    frames: int
    slots: int
    places: int  # in the drain list


@dataclass(frozen=True)
class Slot:
    """A protected slot: its epoch and its view."""

    epoch: int
    read_only: int
    head: int
    tail: int


@dataclass(frozen=True)
class Action:
    ticket: int
    kind: str  # user, settle or close
    number: int  # a job's tag, or the stored offset


@dataclass(frozen=True)
class Frame:
    state: str  # free, open, sealed, flushed or closed
    page: int | None


@dataclass(frozen=True)
class State:
    """What the program has told by the end of a line."""

    quantities: dict[str, int]  # by the labels of `status`
    pending: list[Action]
    taken: list[Action]  # not done
    frames: list[Frame]
    slots: list[Slot | None]  # None where nobody is protected
    in_flight: list[int]  # pages
    cleaning: list[int]

    def __getitem__(self, label: str) -> int:
        return self.quantities[label]


@dataclass(frozen=True)
class Line:
    """A line of a script, its answer, and the state after it: none at a line that is no step."""

    number: int
    text: str
    answer: str
    state: State | None

    @property
    def words(self) -> list[str]:
        return self.text.split(" ")

    @property
    def fault(self) -> str | None:
        """The name of the fault that refused it."""
        words = self.answer.split(" ")
        return words[2] if words[0] == "fault" else None

    @property
    def fields(self) -> dict[str, int]:
        """The fields of its fault."""
        words = self.answer.split(" ")[3:]
        return {name: int(number) for name, number in zip(words[::2], words[1::2])}


class Failed(Exception):
    """A script can't be shown: the status to end with, and why, where the program hasn't said so itself."""

    def __init__(self, status: int, why: str = ""):
        super().__init__(why)
        self.status = status


def run(main, usage: str, words: list[str], count: int) -> int:
    """Calls a main function with so many words, and answers its status: also where it can't go on."""
    if len(words) != count:
        print(f"usage: {usage}", file=sys.stderr)
        return 2
    if sys.stdout is None:
        print("hl: standard output is closed", file=sys.stderr)
        return 1
    try:
        status = main(*words)
        sys.stdout.flush()
        return status
    except Failed as failed:
        if str(failed):
            print(f"hl: {failed}", file=sys.stderr)
        return failed.status
    except BrokenPipeError:
        os.dup2(os.open(os.devnull, os.O_WRONLY), sys.stdout.fileno())
        return 1
    except OSError as error:
        print(f"hl: {error.filename or 'a standard stream'}: {error.strerror}", file=sys.stderr)
        return 1


def standard_input() -> bytes:
    with open(0, "rb", closefd=False) as stream:
        return stream.read()


def sizes_of(script: bytes) -> Sizes | None:
    """The sizes that the first line tells, where it looks like a config. Whether it is one the program says."""
    found = CONFIG.fullmatch(script.split(b"\n", 1)[0])
    return Sizes(*map(int, found.groups())) if found else None


def lines_of(script: bytes) -> list[bytes]:
    """The lines that the program reads: what follows the last LF is one too where it isn't empty."""
    lines = script.split(b"\n")
    return lines if lines[-1] else lines[:-1]


def told(program: str, script: bytes) -> tuple[Sizes | None, list[Line]]:
    """Each line of a script up to the first bad one, with what the program told at it."""
    sizes = sizes_of(script)
    questions = QUERIES + [f"read {slot} {GREATEST}" for slot in range(min(sizes.slots, 64) if sizes else 0)]
    asked = b"".join(b"%s\n%s\n" % (line, "\n".join(questions).encode()) for line in lines_of(script))
    ran = subprocess.run([program, "run"], input=asked, stdout=subprocess.PIPE, check=False)
    if ran.returncode not in (0, 2):
        raise Failed(ran.returncode)
    answers = iter(ran.stdout.decode("ascii").splitlines())
    lines, state = [], None
    for number, (line, answer) in enumerate(zip(lines_of(script), answers), 1):
        text = "".join(it if it.isprintable() else "\ufffd" for it in line.decode(errors="replace"))
        if answer.endswith(": not a step"):
            lines.append(Line(number, text, f"line {number}: not a step", None))
            break
        asked_of = [next(answers) for _ in questions]
        state = after(state, text, answer, asked_of) if state else first(sizes, asked_of)
        lines.append(Line(number, text, answer, state))
    return sizes, lines


def first(sizes: Sizes, answers: list[str]) -> State:
    """Where the program stands after the config."""
    nothing = State({}, [], [], [], [None] * sizes.slots, [], [])
    return asked(nothing, answers)


def after(state: State, text: str, answer: str, answers: list[str]) -> State:
    """Where it stands after one line more: by the line's own answer, then by those to the questions."""
    if not answer.startswith("fault "):
        state = noted(state, text.split(" "), answer.split(" "))
    state = asked(state, answers)
    if len(state.taken) != state["taken"]:
        raise Failed(1, f"'{text}': {state['taken']} actions are taken, and {len(state.taken)} were told")
    return state


def noted(state: State, words: list[str], answer: list[str]) -> State:
    """What the answer to an accepted step tells, and no question asks for."""
    match words, answer:
        case ["acquire" | "refresh", slot], ["epoch", epoch, "view", read_only, head, tail]:
            return with_slot(state, int(slot), Slot(int(epoch), int(read_only), int(head), int(tail)))
        case ["look", slot, *_], ["view", read_only, head, tail]:
            epoch = state.slots[int(slot)].epoch
            return with_slot(state, int(slot), Slot(epoch, int(read_only), int(head), int(tail)))
        case ["take"], ["taken", ticket]:
            taken = [action for action in state.pending if action.ticket == int(ticket)]
            return replace(state, taken=state.taken + taken)
        case ["done", ticket], _:
            return replace(state, taken=[action for action in state.taken if action.ticket != int(ticket)])
        case ["flush", "take"], ["page", page]:
            return replace(state, in_flight=state.in_flight + [int(page)])
        case ["flush", "done", page, _], _:
            return replace(state, in_flight=[other for other in state.in_flight if other != int(page)])
        case ["clean", "take"], ["page", page]:
            return replace(state, cleaning=state.cleaning + [int(page)])
        case ["clean", "done", page], _:
            return replace(state, cleaning=[other for other in state.cleaning if other != int(page)])
    return state


def with_slot(state: State, slot: int, it: Slot | None) -> State:
    return replace(state, slots=[it if number == slot else other for number, other in enumerate(state.slots)])


def asked(state: State, answers: list[str]) -> State:
    """What the answers to the questions tell."""
    status, pending, frames, *reads = (answer.split(" ") for answer in answers)
    return replace(
        state,
        quantities={label: int(number) for label, number in zip(status[1::2], status[2::2])},
        pending=[action(*word.split(":")) for word in pending[1:]],
        frames=[frame(*word.split(":")) for word in frames[1:]],
        slots=[tailed(slot, read) for slot, read in zip(state.slots, reads)],
    )


def action(ticket: str, kind: str, number: str) -> Action:
    return Action(int(ticket), kind, int(number))


def frame(state: str, page: str | None = None) -> Frame:
    return Frame(state, None if page is None else int(page))


def tailed(slot: Slot | None, answer: list[str]) -> Slot | None:
    """A slot by the answer to its read at the greatest number."""
    match answer:
        case ["fault", _, "NotProtected"]:
            return None
        case ["fault", _, "Beyond", "tail", tail]:
            return slot if slot.tail == int(tail) else replace(slot, tail=int(tail))
    raise Failed(1, f"a read at the greatest number was answered '{' '.join(answer)}'")


def print_answers(program: str) -> int:
    """Answers a script as the program does: what it is asked between the lines changes nothing."""
    for line in told(program, standard_input())[1]:
        print(line.answer)
    return 0


if __name__ == "__main__":
    sys.exit(run(print_answers, "told.py PROGRAM < SCRIPT", sys.argv[1:], 1))
