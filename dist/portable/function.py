"""function.py: a function of a module as C.

An address of the module is an address of the process. The linker spells an address of data with all ten bytes that it
may have, and a number is spelled in its shortest form. So the data can lie anywhere: DATA(k) is the address of its byte
k. Global 0, the stack pointer, is `sp`, the first argument of each function. Global 1 says that a call is running in
this instance of the module; each call in C has a stack of its own, so it is always 0 and never written."""
import re
from typing import Dict, FrozenSet, List, NamedTuple, Optional, Set

import wasm
from source import Source
from wasm import I32, I64, V128, Instruction, Reader, Unknown

C_TYPE = {I32: "u32", I64: "u64", V128: "v128"}
STACK_POINTER, RUNNING = 0, 1  # globals
SP = -1  # in place of a local's number, in what a value reads
LONGEST = 72  # an expression with more characters gets a name
ADD64, SUB64 = 0x7C, 0x7D
DATA_LOAD = 0x29  # the load of 64 bits, which loads addresses of data too

BINARY = {0x6A: "+", 0x6B: "-", 0x6C: "*", 0x71: "&", 0x72: "|", 0x73: "^"}
CALLED = {0x6D: "div_s", 0x6E: "div_u", 0x6F: "rem_s", 0x70: "rem_u", 0x75: "sar", 0x77: "rotl", 0x78: "rotr"}
SHIFTS = {0x74: "<<", 0x76: ">>"}
COUNTS = {0x67: "clz", 0x68: "ctz"}
FROM_32_TO_64 = 0x79 - 0x67  # between the opcodes of the same arithmetic
COMPARE = ("==", "!=", "s<", "<", "s>", ">", "s<=", "<=", "s>=", ">=")
CONVERT = {0xA7: ("(u32){0}", I32), 0xAC: ("(u64)(s64)(s32){0}", I64), 0xAD: ("(u64){0}", I64),
           0xC0: ("(u32)(s32)(s8){0}", I32), 0xC1: ("(u32)(s32)(s16){0}", I32), 0xC2: ("(u64)(s64)(s8){0}", I64),
           0xC3: ("(u64)(s64)(s16){0}", I64), 0xC4: ("(u64)(s64)(s32){0}", I64)}
LOADS = {0x28: "32", 0x29: "64", 0x2C: "s8", 0x2D: "8", 0x2E: "s16", 0x2F: "16", 0x30: "s8", 0x31: "8", 0x32: "s16",
         0x33: "16", 0x34: "s32", 0x35: "32"}
WIDE_LOADS = {0x29, 0x30, 0x31, 0x32, 0x33, 0x34, 0x35}
STORES = {0x36: 32, 0x37: 64, 0x3A: 8, 0x3B: 16, 0x3C: 8, 0x3D: 16, 0x3E: 32}
# Instructions of vectors, by their numbers: the name in machine.h and the types of the operands.
TWO = (V128, V128)
VECTORS = {0x0F: ("i8x16_splat", (I32,)), 0x12: ("i64x2_splat", (I64,)), 0x23: ("i8x16_eq", TWO),
           0x24: ("i8x16_ne", TWO), 0x25: ("i8x16_lt_s", TWO), 0x26: ("i8x16_lt_u", TWO), 0x28: ("i8x16_gt_u", TWO),
           0x4E: ("v128_and", TWO), 0x50: ("v128_or", TWO), 0x51: ("v128_xor", TWO), 0x6B: ("i8x16_shl", (V128, I32)),
           0x6E: ("i8x16_add", TWO), 0x71: ("i8x16_sub", TWO), 0x73: ("i8x16_sub_sat_u", TWO),
           0x77: ("i8x16_min_u", TWO), 0x79: ("i8x16_max_u", TWO), 0xCD: ("i64x2_shr_u", (V128, I32)),
           0xCE: ("i64x2_add", TWO), 0xD5: ("i64x2_mul", TWO)}
VECTOR_TESTS = {0x53: "v128_any", 0x64: "i8x16_bitmask"}
VECTOR_LOADS = {0x00: "load_v128", 0x0A: "v128_load64_splat", 0x5C: "v128_load32_zero", 0x5D: "v128_load64_zero"}
LANES = {0x16: ("i8x16_lane", I32), 0x1B: ("i32x4_lane", I32), 0x1D: ("i64x2_lane", I64)}
LANES_SET = {0x17: "i8x16_with", 0x1E: "i64x2_with"}
LANE_LOADS = {0x56: 32, 0x57: 64}
LANE_STORE8 = 0x58


class Value(NamedTuple):
    """A value on the stack as C: its type, the locals that it reads, and its number if it is a constant. The text is a
    name, a number, a call, an expression in brackets, or a cast of one of these, so a cast can stand in front of it. It
    reads no memory: what does gets a name at once."""

    text: str
    of: int
    reads: FrozenSet[int] = frozenset()
    constant: Optional[int] = None


class Block(NamedTuple):
    """A block that is open: a body, a block, a loop or an if. `height` is that of the stack below it."""

    opcode: int
    label: str
    height: int
    result: Optional[Value]


BODY = -1  # in place of the opcode of a block


def is_padded(text: bytes, shortest: bytes) -> bool:
    """Whether a linker spelled a number, with more bytes than it needs."""
    return len(text) > len(shortest)


class Function:
    """Translates a function. `frame` is the stack that it takes itself, and `calls` the functions that it calls."""

    def __init__(self, source: Source, index: int) -> None:
        self.source, self.index = source, index
        self.takes, self.gives = source.functions[index]
        self.reader = Reader(source.bodies[index])
        self.locals = [*self.takes, *wasm.local_types(self.reader)]
        self.lines: List[str] = []
        self.temps: List[Value] = []
        self.stack: List[Value] = []
        self.blocks: List[Block] = []
        self.used: Set[str] = set()
        self.named: Set[int] = set()  # the locals that instructions name
        self.calls: Set[int] = set()
        self.frame = self.labels = 0
        self.is_dead = False  # what follows cannot be reached

    # ---- the stack ----

    def push(self, text: str, of: int, reads: FrozenSet[int] = frozenset(), constant: Optional[int] = None) -> None:
        self.stack.append(Value(text, of, reads, constant))

    def pop(self, of: Optional[int] = None) -> Value:
        value = self.stack.pop()
        if of not in (None, value.of):
            raise Unknown(f"function {self.index} takes a value of another type from the stack")
        return value

    def temp(self, of: int) -> Value:
        self.temps.append(Value(f"t{len(self.temps)}", of))
        return self.temps[-1]

    def put(self, line: str) -> None:
        self.lines.append(line)

    def assign(self, name: str, text: str) -> None:
        if name != text:
            self.put(f"{name} = {text};")

    def keep(self, text: str, of: int) -> None:
        """Pushes what may not be put off, such as a load."""
        name = self.temp(of)
        self.assign(name.text, text)
        self.stack.append(name)

    def settle(self, read: Optional[int] = None) -> None:
        """Names the values on the stack that read a local which is written now, or all that read any."""
        for at, value in enumerate(self.stack):
            if value.reads if read is None else read in value.reads:
                name = self.temp(value.of)
                self.assign(name.text, value.text)
                self.stack[at] = name

    def operate(self, form: str, of: int, *types: int) -> None:
        """Pushes an expression of the operands, which is named if it is long."""
        values = [self.pop(one) for one in reversed(types)][::-1]
        text = form.format(*(value.text for value in values))
        if len(text) > LONGEST:
            self.keep(text, of)
        else:
            self.push(text, of, frozenset().union(*(value.reads for value in values)))

    # ---- addresses ----

    def data_at(self, address: int) -> str:
        at = address - self.source.base
        if not 0 <= at <= len(self.source.data):
            raise Unknown(f"function {self.index} has an address {address} outside the data")
        if at in self.source.tables:
            raise Unknown(f"function {self.index} has the address of a table of addresses, {address}")
        return f"DATA({at})"

    def address(self, ins: Instruction) -> str:
        """Returns the address of a load or a store as C."""
        assert ins.memory
        offset, at = ins.memory.offset, self.pop(I64).text
        if ins.memory.bytes_of_offset > len(wasm.number(offset)):
            return f"{at} + {self.data_at(offset)}"
        if self.source.base <= offset:
            raise Unknown(f"function {self.index} has an offset of {offset} that may be an address")
        return f"{at} + {offset}" if offset else at

    def load(self, ins: Instruction) -> None:
        of, what = I64 if ins.opcode in WIDE_LOADS else I32, LOADS[ins.opcode]
        assert ins.memory
        at = ins.memory.offset - self.source.base
        if ins.opcode == DATA_LOAD and at in self.source.tables:
            # The address of data that the table has is one of the module, and becomes one of the process.
            where = f"{self.pop(I64).text} + DATA({at})"
            return self.keep(f"load_64({where}) - BASE + DATA(0)", I64)
        at_c = self.address(ins)
        if what[0] != "s":
            return self.keep(f"load_{what}({at_c})", of)
        return self.keep(f"({C_TYPE[of]})(s{64 if of == I64 else 32})({what})load_{what[1:]}({at_c})", of)

    def store(self, ins: Instruction) -> None:
        bits = STORES[ins.opcode]
        value = self.pop(wasm.ABOVE_ADDRESS[ins.opcode]).text
        self.put(f"store_{bits}({self.address(ins)}, (u{bits}){value});")

    # ---- blocks ----

    def open(self, opcode: int, of: int) -> Block:
        self.settle()
        self.labels += 1
        result = None if of == wasm.NO_RESULT else self.temp(of)
        self.blocks.append(Block(opcode, f"L{self.labels}", len(self.stack), result))
        return self.blocks[-1]

    def leave(self, depth: int) -> str:
        """Returns what a branch out of `depth` blocks does."""
        block = self.blocks[-1 - depth]
        if block.opcode == BODY:
            return f"return {self.stack[-1].text};" if self.gives else "return;"
        self.used.add(block.label)
        jump = f"goto {block.label};"
        if block.result and block.opcode != wasm.LOOP:
            return f"{block.result.text} = {self.stack[-1].text}; {jump}"
        return jump

    def give(self, block: Block) -> None:
        """Ends a way through a block, with its result."""
        if not self.is_dead:
            if block.result:
                self.assign(block.result.text, self.pop(block.result.of).text)
            self.settle()
        del self.stack[block.height :]
        self.is_dead = False

    def end(self) -> None:
        block = self.blocks.pop()
        if block.opcode == BODY:
            if self.gives and not self.is_dead:
                self.put(f"return {self.pop(self.gives[0]).text};")
            return
        self.give(block)
        if block.opcode == wasm.IF:
            self.put("}")
        if block.opcode != wasm.LOOP:
            self.put(f"{block.label}:;")
        if block.result:
            self.stack.append(block.result)

    def skip(self) -> None:
        """Goes on to the end of the block, or to its else, past what cannot be reached."""
        depth = 0
        while True:
            start, ins = self.reader.at, wasm.instruction(self.reader)
            if ins.opcode in (wasm.BLOCK, wasm.LOOP, wasm.IF):
                depth += 1
            elif depth == 0 and ins.opcode in (wasm.END, wasm.ELSE):
                self.reader.at = start
                return
            elif ins.opcode == wasm.END:
                depth -= 1

    def branch_table(self, targets: List[int]) -> None:
        self.put(f"switch ({self.pop(I32).text}) {{")
        for at, target in enumerate(targets[:-1]):
            self.put(f"case {at}: {self.leave(target)}")
        self.put(f"default: {self.leave(targets[-1])}")
        self.put("}")
        self.is_dead = True

    # ---- instructions ----

    def control(self, ins: Instruction) -> bool:
        opcode = ins.opcode
        if opcode == wasm.UNREACHABLE:
            self.put("TRAP;")
        elif opcode == wasm.BLOCK:
            self.open(opcode, ins.values[0])
        elif opcode == wasm.LOOP:
            self.put(f"{self.open(opcode, ins.values[0]).label}:;")
        elif opcode == wasm.IF:
            condition = self.pop(I32).text
            self.open(opcode, ins.values[0])
            self.put(f"if ({condition}) {{")
        elif opcode == wasm.BRANCH:
            self.put(self.leave(ins.values[0]))
        elif opcode == wasm.BRANCH_IF:
            condition = self.pop(I32).text
            self.settle()
            self.put(f"if ({condition}) {{ {self.leave(ins.values[0])} }}")
        elif opcode == wasm.BRANCH_TABLE:
            self.branch_table(list(ins.values))
        elif opcode == wasm.RETURN:
            self.put(f"return {self.pop(self.gives[0]).text};" if self.gives else "return;")
        else:
            return False
        self.is_dead = opcode in (wasm.UNREACHABLE, wasm.BRANCH, wasm.BRANCH_TABLE, wasm.RETURN)
        return True

    def call(self, ins: Instruction) -> None:
        to = ins.values[0]
        takes, gives = self.source.functions[to]
        self.calls.add(to)
        words = [self.pop(one).text for one in reversed(takes)][::-1]
        text = f"f{to}({', '.join(['sp', *words])})"
        if gives:
            self.keep(text, gives[0])
        else:
            self.put(f"{text};")

    def variable(self, ins: Instruction) -> bool:
        opcode = ins.opcode
        if opcode in (wasm.GET, wasm.SET, wasm.TEE):
            local = ins.values[0]
            self.named.add(local)
            if opcode != wasm.GET:
                text = self.pop(self.locals[local]).text
                self.settle(local)
                self.assign(f"l{local}", text)
            if opcode != wasm.SET:
                self.push(f"l{local}", self.locals[local], frozenset([local]))
        elif opcode in (wasm.GLOBAL_GET, wasm.GLOBAL_SET):
            self.global_variable(opcode, ins.values[0])
        else:
            return False
        return True

    def global_variable(self, opcode: int, which: int) -> None:
        if which not in (STACK_POINTER, RUNNING) or self.source.globals[which] != (I32 if which else I64):
            raise Unknown(f"global {which} in function {self.index}")
        if opcode == wasm.GLOBAL_GET and which == RUNNING:
            self.push("0u", I32, constant=0)
        elif opcode == wasm.GLOBAL_GET:
            self.push("sp", I64, frozenset([SP]))
        elif which == STACK_POINTER:
            text = self.pop(I64).text
            self.settle(SP)
            self.assign("sp", text)
        elif self.pop(I32).constant is None:
            raise Unknown(f"global {which} is set to more than a constant in function {self.index}")

    def note_frame(self, opcode: int) -> None:
        """Notes how much stack an addition to the stack pointer or a subtraction takes."""
        base, step = self.stack[-2:]
        if opcode not in (ADD64, SUB64) or base.text != "sp":
            return
        if step.constant is None:
            raise Unknown(f"function {self.index} takes stack of no constant size")
        self.frame = max(self.frame, step.constant if opcode == SUB64 else -step.constant)

    def arithmetic(self, opcode: int) -> bool:
        if opcode in (0x45, 0x50):
            self.operate("(u32)({0} == 0)", I32, I32 if opcode == 0x45 else I64)
        elif 0x46 <= opcode <= 0x4F or 0x51 <= opcode <= 0x5A:
            of = I32 if opcode < 0x50 else I64
            sign = COMPARE[opcode - (0x46 if of == I32 else 0x51)]
            cast = f"({'s32' if of == I32 else 's64'})" if sign[0] == "s" else ""
            self.operate(f"(u32)({cast}{{0}} {sign.lstrip('s')} {cast}{{1}})", I32, of, of)
        elif 0x67 <= opcode <= 0x8A:
            self.of_width(opcode, I32 if opcode < 0x79 else I64)
        elif opcode in CONVERT:
            form, of = CONVERT[opcode]
            self.operate(form, of, I64 if opcode == 0xA7 or opcode >= 0xC2 else I32)
        else:
            return False
        return True

    def of_width(self, opcode: int, of: int) -> None:
        """Arithmetic that there is of 32 and of 64 bits."""
        bits, kind = (32, opcode) if of == I32 else (64, opcode - FROM_32_TO_64)
        if kind in BINARY:
            self.note_frame(opcode)
            self.operate(f"({{0}} {BINARY[kind]} {{1}})", of, of, of)
        elif kind in SHIFTS:
            self.operate(f"({{0}} {SHIFTS[kind]} ({{1}} & {bits - 1}))", of, of, of)
        elif kind in COUNTS:
            self.operate(f"{COUNTS[kind]}{bits}({{0}})", of, of)
        elif kind in CALLED:
            second, first = self.pop(of).text, self.pop(of).text
            self.keep(f"{CALLED[kind]}{bits}({first}, {second})", of)
        else:
            raise Unknown(f"instruction {opcode:02X}")

    def constant(self, ins: Instruction) -> None:
        value = ins.values[0]
        if ins.opcode == wasm.CONST32:
            return self.push(f"{value & 0xFFFFFFFF}u", I32, constant=value)
        if is_padded(ins.text[1:], wasm.signed(value)):
            return self.push(self.data_at(value), I64)
        return self.push(f"N({value & 0xFFFFFFFFFFFFFFFF})", I64, constant=value)

    def bulk(self, ins: Instruction) -> None:
        size = self.pop(I64).text
        second = self.pop(I64 if ins.opcode == wasm.COPY else I32).text
        name = "memory_copy" if ins.opcode == wasm.COPY else "memory_fill"
        self.put(f"{name}({self.pop(I64).text}, {second}, {size});")

    def vector(self, ins: Instruction) -> None:
        number = ins.opcode - wasm.VECTOR
        if number in VECTOR_LOADS:
            self.keep(f"{VECTOR_LOADS[number]}({self.address(ins)})", V128)
        elif ins.opcode == wasm.VECTOR_STORE:
            value = self.pop(V128).text
            self.put(f"store_v128({self.address(ins)}, {value});")
        elif ins.opcode == wasm.VECTOR_CONST:
            low, high = (int.from_bytes(bytes(ins.values[at : at + 8]), "little") for at in (0, 8))
            self.push(f"V128(N({low}), N({high}))", V128)
        elif ins.opcode == wasm.SHUFFLE:
            self.operate(f"SHUFFLE({{0}}, {{1}}, {', '.join(map(str, ins.values))})", V128, V128, V128)
        elif number in VECTORS:
            name, types = VECTORS[number]
            self.operate(f"{name}({', '.join(f'{{{at}}}' for at in range(len(types)))})", V128, *types)
        elif number in VECTOR_TESTS:
            self.operate(f"{VECTOR_TESTS[number]}({{0}})", I32, V128)
        else:
            self.lane(ins, number)

    def lane(self, ins: Instruction, number: int) -> None:
        if number in LANES:
            name, of = LANES[number]
            self.operate(f"{name}({{0}}, {ins.values[0]})", of, V128)
        elif number in LANES_SET:
            name = LANES_SET[number]
            self.operate(f"{name}({{0}}, {ins.values[0]}, {{1}})", V128, V128, I32 if name == "i8x16_with" else I64)
        elif number in LANE_LOADS:
            value, bits = self.pop(V128).text, LANE_LOADS[number]
            load = f"load_{bits}({self.address(ins)})"
            self.keep(f"i{bits}x{128 // bits}_with({value}, {ins.values[0]}, {load})", V128)
        elif number == LANE_STORE8:
            value = self.pop(V128).text
            self.put(f"store_8({self.address(ins)}, (u8)i8x16_lane({value}, {ins.values[0]}));")
        else:
            raise Unknown(f"instruction FD {number:X}")

    def step(self) -> None:
        ins = wasm.instruction(self.reader)
        if ins.opcode == wasm.END:
            self.end()
        elif ins.opcode == wasm.ELSE:
            self.give(self.blocks[-1])
            self.put("} else {")
        elif self.control(ins):
            if self.is_dead:
                self.skip()
        elif not self.variable(ins) and not self.arithmetic(ins.opcode):
            self.other(ins)

    def other(self, ins: Instruction) -> None:
        if ins.opcode == wasm.CALL:
            self.call(ins)
        elif ins.opcode == wasm.DROP:
            self.put(f"(void){self.pop().text};")
        elif ins.opcode == wasm.SELECT:
            of = self.stack[-2].of
            self.operate("({2} ? {0} : {1})", of, of, of, I32)
        elif ins.opcode in (wasm.CONST32, wasm.CONST64):
            self.constant(ins)
        elif ins.opcode in LOADS:
            self.load(ins)
        elif ins.opcode in STORES:
            self.store(ins)
        elif ins.opcode in (wasm.COPY, wasm.FILL):
            self.bulk(ins)
        elif ins.opcode >= wasm.VECTOR:
            self.vector(ins)
        elif ins.opcode != wasm.NOP:
            raise Unknown(f"instruction {ins.opcode:02X}")

    # ---- the text ----

    def head(self) -> str:
        takes = "".join(f", {C_TYPE[of]} l{at}" for at, of in enumerate(self.takes))
        return f"static {C_TYPE[self.gives[0]] if self.gives else 'void'} f{self.index}(u64 sp{takes})"

    def declarations(self) -> List[str]:
        names: Dict[int, List[str]] = {}
        for value in self.temps:
            names.setdefault(value.of, []).append(value.text)
        for at, of in enumerate(self.locals[len(self.takes) :], len(self.takes)):
            names.setdefault(of, []).append(f"l{at} = ZERO" if of == V128 else f"l{at} = 0")
        return [f"{C_TYPE[of]} {', '.join(some)};" for of, some in names.items()]

    def text(self) -> List[str]:
        """Returns the lines of the function."""
        self.blocks.append(Block(BODY, "", 0, None))
        while self.blocks:
            self.step()
        if not self.reader.ended:
            raise Unknown(f"function {self.index} goes on after its end")
        label = re.compile(r"(L\d+):;")
        lines = [line for line in self.lines
                 if not (found := label.fullmatch(line)) or found[1] in self.used]
        unread = [f"(void)l{at};" for at in range(len(self.takes)) if at not in self.named]
        return [f"{self.head()} {{", *self.declarations(), "(void)sp;", *unread, *lines, "}"]
