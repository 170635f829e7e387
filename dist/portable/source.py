"""source.py: the parts of a module that are translated: functions, exports and data."""
from typing import Dict, List, NamedTuple, Set

import wasm
from wasm import I32, I64, V128, Reader, Unknown

POINTER_BYTES = 8
WIDE_MEMORY = 4  # the flag of a memory of 64 bits


class Signature(NamedTuple):
    takes: List[int]
    gives: List[int]


class Source:
    """A module with 64-bit memory."""

    def __init__(self, data: bytes) -> None:
        self.types: List[Signature] = []
        self.functions: List[Signature] = []
        self.bodies: List[bytes] = []
        self.exports: Dict[str, int] = {}
        self.globals: List[int] = []
        self.base, self.data = 0, b""
        readers = {wasm.TYPES: self.read_types, wasm.FUNCTIONS: self.read_functions, wasm.MEMORY: self.read_memory,
                   wasm.GLOBALS: self.read_globals, wasm.EXPORTS: self.read_exports, wasm.CODE: self.read_code,
                   wasm.DATA: self.read_data, wasm.CUSTOM: lambda reader: None}
        for kind, content in wasm.sections(data):
            if kind not in readers:
                raise Unknown(f"section {kind}")
            readers[kind](Reader(content))
        if len(self.bodies) != len(self.functions):
            raise Unknown("another number of bodies than of functions")
        self.tables = self.find_tables()

    def read_types(self, reader: Reader) -> None:
        for _ in range(reader.number()):
            if reader.byte() != wasm.FUNCTION:
                raise Unknown("a type that is no function's")
            one = Signature(list(reader.take(reader.number())), list(reader.take(reader.number())))
            if len(one.gives) > 1 or not set(one.takes + one.gives) <= {I32, I64, V128}:
                raise Unknown(f"a function of the types {one}")
            self.types.append(one)

    def read_functions(self, reader: Reader) -> None:
        self.functions = [self.types[reader.number()] for _ in range(reader.number())]

    def read_memory(self, reader: Reader) -> None:
        if reader.number() != 1 or not reader.number() & WIDE_MEMORY:
            raise Unknown("another memory than one of 64 bits")

    def read_globals(self, reader: Reader) -> None:
        for _ in range(reader.number()):
            of, _is_mutable, opcode = reader.byte(), reader.byte(), reader.byte()
            if (of, opcode) not in ((I64, wasm.CONST64), (I32, wasm.CONST32)):
                raise Unknown("a global without a constant")
            reader.signed()
            self.globals.append(of)
            if reader.byte() != wasm.END:
                raise Unknown("a global without a constant")

    def read_exports(self, reader: Reader) -> None:
        for _ in range(reader.number()):
            name, kind, index = reader.take(reader.number()).decode("ascii"), reader.byte(), reader.number()
            if kind == 0:
                self.exports[name] = index

    def read_code(self, reader: Reader) -> None:
        self.bodies = [reader.take(reader.number()) for _ in range(reader.number())]

    def read_data(self, reader: Reader) -> None:
        if reader.take(3) != bytes([1, 0, wasm.CONST64]):
            raise Unknown("other data than one piece at a constant address")
        self.base = reader.signed()
        if reader.byte() != wasm.END:
            raise Unknown("other data than one piece at a constant address")
        self.data = reader.take(reader.number())

    def find_tables(self) -> Set[int]:
        """Returns the offsets of the data at which addresses of the data stand."""
        found = set()
        for at in range(len(self.data) - POINTER_BYTES + 1):
            value = int.from_bytes(self.data[at : at + POINTER_BYTES], "little")
            if self.base <= value <= self.base + len(self.data):
                if at % POINTER_BYTES:
                    raise Unknown(f"data that may be an address, at {at}")
                found.add(at)
        return found
