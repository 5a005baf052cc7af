"""The instructions of a WebAssembly module, by their numbers: those that the module of coop may have."""
from collections.abc import Iterator

# An instruction is followed by so many numbers, or by so many bytes. Others have nothing behind them.
NUMBERS = {
    **dict.fromkeys((0x02, 0x03, 0x04, 0x0C, 0x0D, 0x10), 1),  # block, loop, if, br, br_if, call
    **dict.fromkeys(range(0x20, 0x25), 1),  # local.get, .set, .tee, global.get, .set
    **dict.fromkeys(range(0x28, 0x3F), 2),  # loads and stores: an alignment and an offset
    **dict.fromkeys((0x3F, 0x40, 0x41, 0x42), 1),  # memory.size, memory.grow, i32.const, i64.const
}
BYTES = {0x43: 4, 0x44: 8}  # f32.const, f64.const
BARE = {0x00, 0x01, 0x05, 0x0B, 0x0F, 0x1A, 0x1B, *range(0x45, 0xC5)}
BR_TABLE, LONG = 0x0E, 0xFC
# Behind LONG stands a number of its own: truncations without a trap, memory.copy and memory.fill.
LONG_NUMBERS = {**dict.fromkeys(range(8), 0), 10: 2, 11: 1}
MEMORY_SIZE = 0x3F


class Unknown(Exception):
    """The module isn't of the form that its host takes."""


def instructions(section: bytes) -> Iterator[int]:
    """The number of each instruction of a code section."""
    count, at = number_at(section, 0)
    for _ in range(count):
        size, at = number_at(section, at)
        yield from instructions_of(section, at, at + size)
        at += size


def instructions_of(section: bytes, at: int, end: int) -> Iterator[int]:
    """Those of one function, behind its locals."""
    groups, at = number_at(section, at)
    at = behind_numbers(section, at, 2 * groups)
    while at < end:
        number = section[at]
        yield number
        at = behind(section, number, at + 1)
    if at != end:
        raise Unknown("an instruction reaches out of its function")


def behind(section: bytes, number: int, at: int) -> int:
    """The place behind an instruction."""
    if number in BARE:
        return at
    if number in NUMBERS:
        return behind_numbers(section, at, NUMBERS[number])
    if number in BYTES:
        return at + BYTES[number]
    count, at = number_at(section, at)
    if number == BR_TABLE:
        return behind_numbers(section, at, count + 1)
    if number == LONG and count in LONG_NUMBERS:
        return behind_numbers(section, at, LONG_NUMBERS[count])
    raise Unknown(f"the instruction {number:#x}")


def behind_numbers(section: bytes, at: int, count: int) -> int:
    """The place behind so many numbers, each of any length."""
    for _ in range(count):
        while section[at] >= 0x80:
            at += 1
        at += 1
    return at


def number_at(section: bytes, at: int) -> tuple[int, int]:
    """A number of any length, seven bits a byte, and the place behind it."""
    number = shift = 0
    while True:
        byte = section[at]
        number |= (byte & 0x7F) << shift
        at, shift = at + 1, shift + 7
        if byte < 0x80:
            return number, at
