"""wasm.py: sections and instructions of a WebAssembly module, for dist/lower and dist/portable.

It reads the modules of dist/make: numbers and vectors of 16 bytes, no floating point, no tables, no imports. Anything
else raises Unknown, with the instruction or section in its text."""
import itertools
from typing import Iterable, Iterator, List, NamedTuple, Optional, Tuple

I32, I64, V128 = 0x7F, 0x7E, 0x7B
HEADER = b"\0asm\1\0\0\0"
NO_RESULT = 0x40  # the type of a block without a result
FUNCTION = 0x60  # in front of the type of a function
MOST_ALIGN = 4  # 16 bytes; in larger numbers a bit says that another memory is meant

# Kinds of sections, and the kinds that have an order of their own, as the standard numbers them.
CUSTOM, TYPES, FUNCTIONS, MEMORY, GLOBALS, EXPORTS, CODE, DATA = 0, 1, 3, 5, 6, 7, 10, 11

# Opcodes that this file or both of its users name. One with a prefix is PREFIX << 8 | NUMBER.
UNREACHABLE, NOP, BLOCK, LOOP, IF, ELSE, END = 0x00, 0x01, 0x02, 0x03, 0x04, 0x05, 0x0B
BRANCH, BRANCH_IF, BRANCH_TABLE, RETURN, CALL = 0x0C, 0x0D, 0x0E, 0x0F, 0x10
DROP, SELECT, GET, SET, TEE, GLOBAL_GET, GLOBAL_SET = 0x1A, 0x1B, 0x20, 0x21, 0x22, 0x23, 0x24
CONST32, CONST64, WRAP, COPY, FILL = 0x41, 0x42, 0xA7, 0xFC0A, 0xFC0B
VECTOR = 0xFD00
VECTOR_LOAD, VECTOR_STORE, VECTOR_CONST, SHUFFLE = VECTOR, VECTOR + 0x0B, VECTOR + 0x0C, VECTOR + 0x0D

_PLAIN = {UNREACHABLE, NOP, ELSE, END, RETURN, DROP, SELECT, WRAP, *range(0x45, 0x5B), *range(0x67, 0x8B), 0xAC, 0xAD,
          *range(0xC0, 0xC5)}
INDEXED = {BRANCH, BRANCH_IF, CALL, GET, SET, TEE, GLOBAL_GET, GLOBAL_SET}
_FLOATS = {0x2A, 0x2B, 0x38, 0x39}
_LANES_OF_MEMORY = range(VECTOR + 0x54, VECTOR + 0x5C)  # loads and stores of one lane
# The type of the value that lies above the address: of a store, or of a load that changes one lane.
ABOVE_ADDRESS = {0x36: I32, 0x37: I64, 0x3A: I32, 0x3B: I32, 0x3C: I64, 0x3D: I64, 0x3E: I64, VECTOR_STORE: V128,
                 **dict.fromkeys(_LANES_OF_MEMORY, V128)}


class Unknown(Exception):
    """A module has a part that is not translated."""


class Reader:
    """Reads bytes in order."""

    def __init__(self, data: bytes) -> None:
        self.data, self.at = data, 0

    @property
    def ended(self) -> bool:
        return self.at >= len(self.data)

    def take(self, count: int) -> bytes:
        if self.at + count > len(self.data):
            raise Unknown("it ends too early")
        self.at += count
        return self.data[self.at - count : self.at]

    def byte(self) -> int:
        return self.take(1)[0]

    def number(self) -> int:
        """Returns an unsigned number in LEB128."""
        value = shift = 0
        while True:
            byte = self.byte()
            value |= (byte & 127) << shift
            shift += 7
            if byte < 128:
                return value

    def signed(self) -> int:
        """Returns a signed number in LEB128."""
        start = self.at
        value, bits = self.number(), 7 * (self.at - start)
        return value - (1 << bits) if self.data[self.at - 1] & 64 else value


def number(value: int) -> bytes:
    """Returns an unsigned number in LEB128, as short as it can be."""
    out = bytearray()
    while value > 127:
        out.append(value & 127 | 128)
        value >>= 7
    return bytes([*out, value])


def signed(value: int) -> bytes:
    """Returns a signed number in LEB128, as short as it can be."""
    out = bytearray()
    while not -64 <= value < 64:
        out.append(value & 127 | 128)
        value >>= 7
    return bytes([*out, value & 127])


def sections(data: bytes) -> Iterator[Tuple[int, bytes]]:
    """Yields the kind and the content of each section."""
    reader = Reader(data)
    if reader.take(len(HEADER)) != HEADER:
        raise Unknown("it is no WebAssembly module")
    while not reader.ended:
        kind = reader.byte()
        yield kind, reader.take(reader.number())


def module(parts: Iterable[Tuple[int, bytes]]) -> bytes:
    """Returns the module that has these sections."""
    return HEADER + b"".join(bytes([kind]) + number(len(content)) + content for kind, content in parts)


def unnamed(data: bytes) -> bytes:
    """Returns a module without the names of its functions, which calls do not need."""
    return module(part for part in sections(data) if part[0] != CUSTOM or not part[1].startswith(b"\4name"))


class Memory(NamedTuple):
    """What an instruction says about the address that it takes."""

    align: int
    offset: int
    bytes_of_offset: int  # that spell the offset; a linker spells an address of data with as many as it may have


class Instruction(NamedTuple):
    opcode: int
    text: bytes  # all of its bytes
    values: Tuple[int, ...] = ()  # its numbers: an index, targets, a constant, lanes
    memory: Optional[Memory] = None


def _memory(reader: Reader) -> Memory:
    align = reader.number()
    if align > MOST_ALIGN:
        raise Unknown("a second memory")
    start = reader.at
    offset = reader.number()
    return Memory(align, offset, reader.at - start)


def _vector(reader: Reader, opcode: int) -> Tuple[Tuple[int, ...], Optional[Memory]]:
    if opcode <= VECTOR_STORE or opcode in (VECTOR + 0x5C, VECTOR + 0x5D):
        return (), _memory(reader)
    if opcode in _LANES_OF_MEMORY:
        memory = _memory(reader)
        return (reader.byte(),), memory
    if opcode in (VECTOR_CONST, SHUFFLE):
        return tuple(reader.take(16)), None
    return ((reader.byte(),), None) if VECTOR + 0x15 <= opcode <= VECTOR + 0x22 else ((), None)


def _operands(reader: Reader, opcode: int) -> Tuple[Tuple[int, ...], Optional[Memory]]:
    if opcode in _PLAIN:
        return (), None
    if opcode in INDEXED:
        return (reader.number(),), None
    if opcode in (BLOCK, LOOP, IF):
        of = reader.byte()
        if of not in (NO_RESULT, I32, I64, V128):
            raise Unknown("a block with arguments")
        return (of,), None
    if opcode == BRANCH_TABLE:
        return tuple(reader.number() for _ in range(reader.number() + 1)), None
    if opcode in (CONST32, CONST64):
        return (reader.signed(),), None
    if 0x28 <= opcode <= 0x3E and opcode not in _FLOATS:
        return (), _memory(reader)
    if opcode in (COPY, FILL):
        return tuple(reader.take(2 if opcode == COPY else 1)), None
    if opcode >= VECTOR:
        return _vector(reader, opcode)
    raise Unknown(f"instruction {opcode:02X}")


def instruction(reader: Reader) -> Instruction:
    """Reads the next instruction."""
    start, opcode = reader.at, reader.byte()
    if opcode in (0xFC, 0xFD):
        sub = reader.number()
        if sub > 0xFF:
            raise Unknown(f"instruction {opcode:02X} {sub:X}")
        opcode = opcode << 8 | sub
    values, memory = _operands(reader, opcode)
    return Instruction(opcode, reader.data[start : reader.at], values, memory)


def spelled(opcode: int) -> bytes:
    """Returns the bytes of an opcode."""
    return bytes([opcode]) if opcode < 0x100 else bytes([opcode >> 8]) + number(opcode & 0xFF)


def local_types(reader: Reader) -> List[int]:
    """Reads the types of the locals of a body, which come before its instructions."""
    types: List[int] = []
    for _ in range(reader.number()):
        count = reader.number()
        types += [reader.byte()] * count
    return types


def spelled_locals(types: List[int]) -> bytes:
    """Returns the bytes that declare locals of these types, in this order."""
    groups = [(of, len(list(same))) for of, same in itertools.groupby(types)]
    return number(len(groups)) + b"".join(number(count) + bytes([of]) for of, count in groups)
