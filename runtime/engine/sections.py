"""The parts of a WebAssembly module: what it asks of its host and gives to it, and who made it."""
from collections.abc import Iterable, Iterator

from instructions import MEMORY_SIZE, Unknown, instructions

# The sections by their numbers.
OWN, IMPORTS, TABLES, MEMORIES, GLOBALS, EXPORTS, ELEMENTS, CODE = 0, 2, 4, 5, 6, 7, 9, 10
FUNCTION = 0
CONSTANTS, END = (0x41, 0x42), 0x0B
# The host lays its blocks behind the base.
GIVEN = ("__heap_base", "memory")
MAKERS = "made-by"


class Reader:
    """Numbers and names out of the bytes of a module."""

    def __init__(self, data: bytes, at: int = 0) -> None:
        self.data, self.at = data, at

    def number(self) -> int:
        """A number of any length, seven bits a byte."""
        number = shift = 0
        while True:
            byte = self.data[self.at]
            self.at += 1
            number |= (byte & 0x7F) << shift
            shift += 7
            if byte < 0x80:
                return number

    def bytes(self, count: int) -> bytes:
        """The next bytes."""
        self.at += count
        return self.data[self.at - count:self.at]

    def name(self) -> str:
        """A name, behind its length."""
        return self.bytes(self.number()).decode()


def coded(number: int) -> bytes:
    """A number as a module has it."""
    parts = [number & 0x7F]
    while number >= 0x80:
        number >>= 7
        parts.append(number & 0x7F)
    return bytes([part | 0x80 for part in parts[:-1]] + [parts[-1]])


def sections(module: bytes) -> Iterator[tuple[int, bytes]]:
    """The number and the bytes of each section."""
    reader = Reader(module, 8)
    while reader.at < len(module):
        number = reader.number()
        yield number, reader.bytes(reader.number())


def imports_in(section: bytes) -> Iterator[tuple[str, str, int]]:
    """The module, the name and the kind of each import, where all are functions."""
    reader = Reader(section)
    for _ in range(reader.number()):
        module, name, kind = reader.name(), reader.name(), reader.number()
        yield module, name, kind
        if kind != FUNCTION:
            return
        reader.number()


def exports_in(section: bytes) -> Iterator[str]:
    """The name of each export."""
    reader = Reader(section)
    for _ in range(reader.number()):
        yield reader.name()
        reader.number()
        reader.number()


def globals_in(section: bytes) -> Iterator[bool]:
    """Whether each global may change, where all begin as a constant."""
    reader = Reader(section)
    for _ in range(reader.number()):
        _, may_change, constant, _, end = (reader.number() for _ in range(5))
        if constant not in CONSTANTS or end != END:
            raise Unknown("a global doesn't begin as a constant")
        yield bool(may_change)


def stop_on_kept(of: dict[int, bytes]) -> None:
    """Stops where a call may find what an earlier one left, though the host has wiped the memory (runtime/engine/host.js):
    the memory's length, or a global. One may change, the stack pointer, which a call that returns puts back."""
    if sum(globals_in(of.get(GLOBALS, b"\0"))) > 1:
        raise Unknown("more than one global may change")
    if MEMORY_SIZE in instructions(of.get(CODE, b"\0")):
        raise Unknown("the module asks for the length of its memory")


def stop_on_unknown(module: bytes, functions: Iterable[str], export: str) -> None:
    """Stops where the module has no memory of 32 bits, asks its host for other functions or gives it other things."""
    of = dict(sections(module))
    if {TABLES, ELEMENTS} & set(of):
        raise Unknown("the module has a table of functions")
    count, flags = (of.get(MEMORIES, b"") + b"\0\0")[:2]
    if (count, flags & ~1) != (1, 0):
        raise Unknown("the module doesn't have one memory of 32 bits of its own")
    asked, given = (list(imports_in(of.get(IMPORTS, b"\0"))), sorted(exports_in(of.get(EXPORTS, b"\0"))))
    if not set(asked) <= {("heap", name, FUNCTION) for name in functions}:
        raise Unknown(f"the module asks its host for {asked}")
    if given != sorted((*GIVEN, export)):
        raise Unknown(f"the module gives {given}")
    stop_on_kept(of)


def with_makers(module: bytes, said: str) -> bytes:
    """The module with a section that says by which versions it was made."""
    name = MAKERS.encode()
    part = coded(len(name)) + name + said.encode()
    return module + bytes([OWN]) + coded(len(part)) + part


def makers_of(module: bytes) -> str:
    """What that section says, or nothing."""
    for number, part in sections(module):
        reader = Reader(part)
        if number == OWN and reader.name() == MAKERS:
            return part[reader.at:].decode()
    return ""
