"""Natural scripts: lines of all kinds of docs/FORMATS.md, most of which are accepted.

A `Log` follows docs/RULES.md as far as it takes to choose such lines. It answers nothing: what a program answers is
compared with what another one does.
"""

from collections import deque
from random import Random

# What stands in a line: words, and numbers.
Words = tuple[str | int, ...]

QUESTIONS = ("status", "pending", "frames")
TAGS = 1000  # of the program's jobs
PAGES = (4, 4, 4, 4, 8, 8, 16, 32, 64, 256, 4096)
FRAMES = (2, 2, 2, 3, 3, 4, 4, 5, 8, 17, 64, 256)
SLOTS = (1, 2, 2, 3, 3, 4, 5, 8, 63, 64)
PLACES = (1, 1, 2, 2, 3, 4, 5, 8, 63, 64)
LENGTHS = (5, 10, 20, 20, 30, 50, 50, 100, 100, 200, 200, 900)  # of a script, at most


class Log:
    """Where a script stands. A step that is refused changes nothing."""

    def __init__(self, page: int, frames: int, slots: int, places: int) -> None:
        self.page, self.frames, self.slots, self.places = page, frames, slots, places
        self.epoch = 1
        self.epochs: dict[int, int] = {}
        self.views: dict[int, list[int]] = {}  # read-only offset, head, tail
        self.pending: deque[tuple[int, str, int]] = deque()
        self.taken: dict[int, tuple[str, int]] = {}
        self.tags: set[int] = set()  # of jobs that are stored or done
        self.closed = self.head = self.safe_read_only = self.read_only = self.tail = 0
        self.first_unflushed = 0
        self.in_flight: set[int] = set()
        self.flushed: set[int] = set()
        self.cleaning: set[int] = set()
        self.freed: set[int] = set()

    def step(self, words: Words) -> None:
        if words[0] in ("flush", "clean"):
            getattr(self, f"make_{words[0]}_{words[1]}")(*words[2:])
        elif words[0] not in QUESTIONS:
            getattr(self, f"make_{words[0]}")(*words[1:])

    def safe(self) -> int:
        return min(self.epochs.values(), default=self.epoch) - 1

    def is_pending(self, kind: str) -> bool:
        return any(action[1] == kind for action in self.pending)

    def sealed(self) -> list[int]:
        """The pages that a flush may take."""
        pages = range(self.first_unflushed, self.safe_read_only // self.page)
        return [page for page in pages if page not in self.in_flight and page not in self.flushed]

    def to_clean(self) -> list[int]:
        return [page for page in range(self.closed // self.page) if page not in self.cleaning | self.freed]

    def start(self, words: int) -> int:
        """Where a record of so many words would lie."""
        fits = self.tail % self.page + words <= self.page
        return self.tail if fits else (self.tail // self.page + 1) * self.page

    def may_enter(self, start: int) -> bool:
        page = start // self.page
        is_entered = start == self.tail and start % self.page != 0
        return is_entered or page < self.frames or page - self.frames in self.freed

    # ---- The steps ----

    def make_acquire(self, slot: int) -> None:
        if slot < self.slots and slot not in self.views:
            self.enter(slot)

    def make_refresh(self, slot: int) -> None:
        if slot in self.views:
            self.enter(slot)

    def enter(self, slot: int) -> None:
        self.epochs[slot] = self.epoch
        self.views[slot] = [self.read_only, self.head, self.tail]

    def make_release(self, slot: int) -> None:
        self.epochs.pop(slot, None)
        self.views.pop(slot, None)

    def store(self, kind: str, value: int) -> bool:
        if len(self.pending) + len(self.taken) >= self.places:
            return False
        self.pending.append((self.epoch, kind, value))
        self.epoch += 1
        return True

    def make_bump(self, tag: int) -> None:
        if tag < TAGS and tag not in self.tags and self.store("job", tag):
            self.tags.add(tag)

    def make_settle(self) -> None:
        self.store("settle", self.read_only)

    def make_close(self) -> None:
        self.store("close", self.head)

    def make_bare(self) -> None:
        self.epoch += 1

    def make_take(self) -> None:
        if self.pending and self.pending[0][0] <= self.safe():
            ticket, kind, value = self.pending.popleft()
            self.taken[ticket] = kind, value

    def make_done(self, ticket: int) -> None:
        kind, value = self.taken.pop(ticket, ("none", 0))
        if kind == "settle":
            self.safe_read_only = max(self.safe_read_only, value)
        elif kind == "close":
            self.closed = max(self.closed, value)

    def make_raise(self, address: int) -> None:
        if self.read_only < address <= self.tail:
            self.read_only = address

    def make_shift(self, address: int) -> None:
        if self.head < address <= self.first_unflushed * self.page and address % self.page == 0:
            self.head = address

    def make_alloc(self, slot: int, words: int) -> None:
        start = self.start(words)
        if slot in self.views and 1 <= words <= self.page and self.may_enter(start):
            self.tail = start + words
            self.views[slot][2] = self.tail

    def make_look(self, slot: int, read_only: int, head: int) -> None:
        view = self.views.get(slot)
        if view and read_only >= view[0] and head >= view[1]:
            view[:2] = read_only, head

    def make_write(self, slot: int, address: int, value: int) -> None:
        """Where the script stands stays the same."""

    def make_read(self, slot: int, address: int) -> None:
        """Where the script stands stays the same."""

    def make_flush_take(self) -> None:
        self.in_flight.update(self.sealed()[:1])

    def make_flush_done(self, page: int, ended: str) -> None:
        if page in self.in_flight:
            self.in_flight.remove(page)
            if ended == "ok":
                self.flushed.add(page)
            while self.first_unflushed in self.flushed:
                self.first_unflushed += 1

    def make_clean_take(self) -> None:
        self.cleaning.update(self.to_clean()[:1])

    def make_clean_done(self, page: int) -> None:
        if page in self.cleaning:
            self.cleaning.remove(page)
            self.freed.add(page)


# ---- Lines ----


def due(log: Log, dice: Random) -> Words:
    """A step by which actions and pages go on, if there is one."""
    steps: list[Words] = [("done", ticket) for ticket in log.taken]
    steps += [("flush", "done", page, dice.choice(("ok", "ok", "ok", "failed"))) for page in log.in_flight]
    steps += [("clean", "done", page) for page in log.cleaning]
    if log.pending and log.pending[0][0] <= log.safe():
        steps.append(("take",))
    elif log.pending and log.epochs:
        steps.append(("refresh", min(log.epochs, key=lambda slot: log.epochs[slot])))
    if log.sealed():
        steps.append(("flush", "take"))
    if log.to_clean():
        steps.append(("clean", "take"))
    page_start = log.tail // log.page * log.page
    if log.read_only < page_start:
        steps.append(("raise", dice.choice((page_start, dice.randint(log.read_only + 1, log.tail)))))
    if log.safe_read_only < log.read_only and not log.is_pending("settle"):
        steps.append(("settle",))
    if log.head < log.first_unflushed * log.page:
        steps.append(("shift", dice.randint(log.head // log.page + 1, log.first_unflushed) * log.page))
    if log.closed < log.head and not log.is_pending("close"):
        steps.append(("close",))
    return dice.choice(steps) if steps else asked(log, dice)


def asked(log: Log, dice: Random) -> Words:
    return (dice.choice(QUESTIONS),)


def bumped(log: Log, dice: Random) -> Words:
    kind = dice.choice(("bump", "bump", "bump", "bare", "settle", "close"))
    return (kind, dice.randrange(TAGS)) if kind == "bump" else (kind,)


def acquired(log: Log, dice: Random) -> Words:
    free = [slot for slot in range(log.slots) if slot not in log.views]
    return ("acquire", dice.choice(free)) if free else refreshed(log, dice)


def refreshed(log: Log, dice: Random) -> Words:
    if not log.views:
        return acquired(log, dice)
    return (dice.choice(("refresh", "refresh", "refresh", "release")), dice.choice(list(log.views)))


def placed(log: Log, dice: Random) -> Words:
    if not log.views:
        return acquired(log, dice)
    words = dice.randint(1, log.page)
    if not log.may_enter(log.start(words)) and dice.random() < 0.9:
        return due(log, dice)
    return ("alloc", dice.choice(list(log.views)), words)


def touched(log: Log, dice: Random) -> Words:
    if not log.views:
        return acquired(log, dice)
    slot = dice.choice(list(log.views))
    read_only, head, tail = log.views[slot]
    kind = dice.choice(("write", "write", "read", "read", "look"))
    if kind == "look":
        return (kind, slot, max(read_only, log.read_only), max(head, log.head))
    first = read_only if kind == "write" else head
    if first >= tail:
        return placed(log, dice)
    address = dice.randrange(first, tail)
    value = (dice.getrandbits(dice.choice((4, 20, 64))),) if kind == "write" else ()
    return (kind, slot, address, *value)


WEIGHTS = {due: 30, asked: 5, bumped: 6, acquired: 4, refreshed: 8, placed: 16, touched: 20}
MAKERS = [make for make, weight in WEIGHTS.items() for _ in range(weight)]
STEPS = (("take",), ("flush", "take"), ("clean", "take"), ("settle",), ("close",), ("bare",))  # without numbers


def missed(words: Words, dice: Random) -> Words:
    """The words with another number in the place of one, or another step if there is none."""
    places = [place for place, word in enumerate(words) if isinstance(word, int)]
    if not places:
        return dice.choice(STEPS)
    place = dice.choice(places)
    near = max(words[place] + dice.randint(-3, 3), 0)
    other = dice.choice((near, dice.randrange(70), dice.getrandbits(dice.choice((12, 48, 64)))))
    return (*words[:place], other, *words[place + 1 :])


def natural(dice: Random) -> bytes:
    """A script whose lines are steps or questions, each spelled well."""
    sizes = tuple(dice.choice(row) for row in (PAGES, FRAMES, SLOTS, PLACES))
    log = Log(*sizes)
    lines = [("config", *sizes)]
    for _ in range(dice.randrange(dice.choice(LENGTHS))):
        words = dice.choice(MAKERS)(log, dice)
        if dice.random() < 0.06:
            words = missed(words, dice)
        log.step(words)
        lines.append(words)
    return "".join(" ".join(map(str, words)) + "\n" for words in lines).encode()
