"""Scripts with a line changed at random."""

import re
from random import Random

NUMBER = re.compile(rb"\d+")
NEAR_LIMITS = [
    limit + distance for limit in (1, 2**48 - 1, 2**62, 2**63, 2**64 - 1, 10**18) for distance in (-1, 0, 1)
]
# How long a line is made: the most that a line may have is 80 bytes.
LENGTHS = (79, 80, 81, 82, 100, 160, 1000, 8192, 9000)
USUAL_BYTES = (b"0123456789", b" ", b"abcdefghijklmnopqrstuvwxyz", b"\n", b"\r\t+-.", bytes(range(256)))


def usual_byte(dice: Random) -> bytes:
    return bytes([dice.choice(dice.choice(USUAL_BYTES))])


def strange_byte(dice: Random) -> bytes:
    return bytes([dice.choice((0, dice.randrange(128, 256)))])


def some_number(dice: Random) -> bytes:
    digits = dice.choice((0, 0, 19, 20))
    number = dice.randrange(10 ** (digits - 1), 10**digits) if digits else dice.choice(NEAR_LIMITS)
    return (b"0" if dice.random() < 0.1 else b"") + str(number).encode()


# ---- A line with a change, made with the help of another line ----


def with_byte_replaced(line: bytes, other: bytes, dice: Random) -> bytes:
    place = dice.randrange(len(line) or 1)
    return line[:place] + usual_byte(dice) + line[place + 1 :]


def with_byte_removed(line: bytes, other: bytes, dice: Random) -> bytes:
    place = dice.randrange(len(line) or 1)
    return line[:place] + line[place + 1 :]


def with_byte_inserted(line: bytes, other: bytes, dice: Random) -> bytes:
    place = dice.randint(0, len(line))
    return line[:place] + usual_byte(dice) + line[place:]


def with_byte_doubled(line: bytes, other: bytes, dice: Random) -> bytes:
    place = dice.randrange(len(line) or 1)
    return line[: place + 1] + line[place:]


def with_strange_byte(line: bytes, other: bytes, dice: Random) -> bytes:
    place = dice.randint(0, len(line))
    return line[:place] + strange_byte(dice) + line[place + dice.randrange(2) :]


def with_number(line: bytes, other: bytes, dice: Random) -> bytes:
    numbers = list(NUMBER.finditer(line))
    if not numbers:
        return line + b" " + some_number(dice)
    first, end = dice.choice(numbers).span()
    return line[:first] + some_number(dice) + line[end:]


def with_word(line: bytes, other: bytes, dice: Random) -> bytes:
    words = line.split(b" ")
    words[dice.randrange(len(words))] = dice.choice(other.split(b" "))
    return b" ".join(words)


def with_blank(line: bytes, other: bytes, dice: Random) -> bytes:
    blanks = [place for place, byte in enumerate(line) if byte == ord(" ")]
    place = dice.choice([0, len(line), *blanks])
    return line[:place] + b" " + line[place:]


def with_return(line: bytes, other: bytes, dice: Random) -> bytes:
    return line + b"\r"


def made_long(line: bytes, other: bytes, dice: Random) -> bytes:
    filling = dice.choice((b" ", b"0", b"9", b"a", b"\0"))
    return line + filling * (dice.choice(LENGTHS) - len(line))


CHANGES = (
    with_byte_replaced,
    with_byte_removed,
    with_byte_inserted,
    with_byte_doubled,
    with_strange_byte,
    with_number,
    with_number,
    with_number,
    with_word,
    with_word,
    with_blank,
    with_return,
    made_long,
)


def changed(script: bytes, dice: Random) -> bytes:
    """The script with one of its lines changed, or without its last LF."""
    if dice.randrange(len(CHANGES) + 1) == 0:
        return script[:-1]
    *lines, rest = script.split(b"\n")
    if not lines:
        lines, rest = [rest], b""
    place = dice.randrange(len(lines))
    lines[place] = dice.choice(CHANGES)(lines[place], dice.choice(lines), dice)
    return b"\n".join([*lines, rest])
