"""calls.py: the calls of squitter.h over the functions of the module, as C."""
import importlib.machinery
import importlib.util
import os
import re
import sys
from typing import Any, Dict, Iterator, List, NamedTuple, Set

from function import C_TYPE
from source import Source
from wasm import I64, Unknown

HERE = os.path.dirname(os.path.abspath(__file__))
OWN = {"squitter_tracker", "squitter_log", "squitter_feed", "squitter_order"}  # of the library alone
BYTES = {"char", "uint8_t"}
# The view of each array that is only read, on a big-endian processor: an array of numbers, of structs that have numbers
# of 64 bits alone, and of entries.
VIEWS = {"uint64_t": "VIEW_U64", "uint32_t": "VIEW_U32", "squitter_position": "VIEW_U64",
         "squitter_entry": "VIEW_ENTRY"}
RESULTS = ("squitter_fault", "void", "size_t", "uint32_t")


class Parameter(NamedTuple):
    """A parameter: how it is declared, its name and type, and what it is."""

    text: str
    name: str
    of: str
    is_const: bool
    is_pointer: bool
    is_array: bool  # with a length after it


class Call(NamedTuple):
    gives: str
    name: str
    parameters: List[Parameter]


def bindings() -> Any:
    """Returns clib/bindings, which reads the structs of squitter.h."""
    path = f"{HERE}/../../clib/bindings"
    loader = importlib.machinery.SourceFileLoader("bindings", path)
    spec = importlib.util.spec_from_loader("bindings", loader)
    assert spec
    module = importlib.util.module_from_spec(spec)
    sys.modules["bindings"] = module  # its data classes look themselves up
    loader.exec_module(module)
    return module


def parameters_of(text: str) -> List[Parameter]:
    words = [] if text == "void" else re.split(r", (?![^(]*\))", text)
    names: List[str] = []
    for word in words:
        found = re.search(r"BYTES\((\w+), \d+\)$|\(\*(?:SQUITTER_RESTRICT )?(\w+)\)\[14\]$|(\w+)$", word)
        if not found:
            raise Unknown(f"squitter.h: a parameter {word}")
        names.append(found[1] or found[2] or found[3])
    made = []
    for word, name in zip(words, names):
        kind = re.match(r"(const )?(\w+)", word)
        assert kind
        made.append(Parameter(word, name, kind[2], bool(kind[1]), "*" in word or "BYTES" in word,
                              f"{name}_count" in names))
    return made


def calls_of(header: str) -> Iterator[Call]:
    """Yields the calls that the header declares."""
    plain = " ".join(re.sub(r"/\*.*?\*/", "", header, flags=re.S).split())
    for gives, name, text in re.findall(r"(\w+) (squitter_\w+)\(((?:[^();{}]|\([^();{}]*\))*)\)"
                                        r" SQUITTER_(?:CALL|WRITE|PURE);", plain):
        if gives not in RESULTS:
            raise Unknown(f"squitter.h: {name} returns {gives}")
        yield Call(gives, name, parameters_of(text))


class Wrapper:
    """The body of a call: statements before and after the call of the module's function, and its arguments."""

    def __init__(self, call: Call) -> None:
        self.call = call
        self.before: List[str] = []
        self.after: List[str] = []
        self.words: List[str] = []
        self.turned: Set[str] = set()
        self.faults = next((one for one in call.parameters if one.name == "faults"), None)
        self.done = next((one for one in call.parameters if one.of == "squitter_done"), None)

    def turn(self, of: str, at: str, count: str, good: bool = False) -> str:
        self.turned.add(of)
        return f"TURN_GOOD({of}, {at}, faults, {count});" if good else f"TURN({of}, {at}, {count});"

    def written(self, array: Parameter) -> str:
        """Returns how many elements of an array the call has written."""
        if self.done or self.faults:
            return "written" if self.done else "much"
        return f"much < {array.name}_count ? much : {array.name}_count"

    def add_array(self, one: Parameter) -> None:
        if one.is_const:
            if one.of not in VIEWS:
                raise Unknown(f"squitter.h: an array {one.text} that is read")
            self.words.append(f"VIEWED({VIEWS[one.of]}, {one.name})")
            return
        self.words.append(f"AT({one.name})")
        is_good = self.faults is not None and one is not self.faults
        self.after.append(self.turn(one.of, one.name, self.written(one), good=is_good))

    def add(self, one: Parameter) -> None:
        if one.of == "squitter_block" and not one.is_pointer:
            self.before.append(f"BLOCK({one.name});")
            self.words.append(f"AT({one.name}_here)")
        elif one.of == "squitter_done":
            self.before.append(f"DONE({one.name});")
            self.words.append(f"AT({one.name}_here)")
        elif not one.is_pointer:
            self.words.append(one.name)
        elif one.of in BYTES or one.of in OWN:
            self.words.append(f"AT({one.name})")
        elif one.is_array:
            self.add_array(one)
        elif one.is_const:
            self.turned.add(one.of)
            self.before.append(f"READ({one.of}, {one.name});")
            self.words.append(f"{one.name}_at")
        else:
            self.before.append(self.turn(one.of, one.name, "1"))
            self.words.append(f"AT({one.name})")
            self.after.append(self.turn(one.of, one.name, "1"))

    def text(self, index: int, source: Source, stack: int) -> Iterator[str]:
        """Yields the lines of the call."""
        gives = self.call.gives
        if gives == "squitter_fault":
            self.before.insert(0, "squitter_fault fault = {0, 0, 0};")
            self.words.append("AT(&fault)")
            self.turned.add(gives)
        for one in self.call.parameters:
            self.add(one)
        takes, results = source.functions[index]
        if len(takes) != len(self.words) or [C_TYPE[of] for of in results] != {
                "squitter_fault": [], "void": [], "size_t": ["u64"], "uint32_t": ["u32"]}[gives]:
            raise Unknown(f"squitter.h: {self.call.name} is another function than the module's")
        words = [word if re.search(r"\(|_at$", word) and of == I64 else f"({C_TYPE[of]}){word}"
                 for word, of in zip(self.words, takes)]
        call = f"f{index}({', '.join(['sp', *words])});"
        # Of faults, the array is turned before it is read.
        self.after.sort(key=lambda line: not line.startswith("TURN(squitter_fault"))
        yield f"{gives} {self.call.name}({', '.join(one.text for one in self.call.parameters) or 'void'}) {{"
        yield f"STACK({stack});"
        yield from self.before
        yield call if not results else f"const {C_TYPE[results[0]]} much = {call}"
        if self.done:
            array = any(one.is_array and one.of not in BYTES for one in self.call.parameters)
            taken = f"take_done(AT({self.done.name}_here), {self.done.name});"
            yield f"const u64 written = {taken}" if array else f"(void){taken}"
        yield from self.after
        yield from self.end(gives)
        yield "}"

    def end(self, gives: str) -> Iterator[str]:
        if gives == "squitter_fault":
            yield "TURN(squitter_fault, &fault, 1);"
            yield "return fault;"
        elif gives == "size_t":
            is_size = self.call.name.endswith("_size")
            yield "return size_of_block(much);" if is_size else "return (size_t)much;"
        elif gives == "uint32_t":
            yield "return much;"


def turns(header: str, wanted: Set[str]) -> Iterator[str]:
    """Yields the functions that turn the bytes of each member of these types."""
    reader = bindings()
    structs = reader.Parser(header).read().structs
    sizes = {name: number.size for name, number in reader.NUMBERS.items()}
    made: Set[str] = set()

    def of_type(of: str) -> Iterator[str]:
        if of in made or sizes.get(of) == 1:
            return
        made.add(of)
        if of in sizes:
            yield f"static void turn_{of}({of} *it) {{ turn(it, {sizes[of]}); }}"
            return
        members = [one for one in structs[of.replace("squitter_", "", 1)].members if sizes.get(one.type) != 1]
        for one in members:
            yield from of_type(one.type)
        yield f"static void turn_{of}({of} *it) {{"
        for one in members:
            if one.count:
                yield f"for (int k = 0; k < {one.count}; k++) turn_{one.type}(it->{one.name} + k);"
            else:
                yield f"turn_{one.type}(&it->{one.name});"
        yield "}"

    for of in sorted(wanted):
        yield from of_type(of)


def written(header: str, source: Source, stacks: Dict[str, int]) -> Iterator[List[str]]:
    """Yields the lines of each function: first those that turn what calls take, for big-endian processors, then the
    calls."""
    found = list(calls_of(header))
    names = {call.name for call in found}
    lacking = names ^ set(source.exports)
    if lacking:
        raise Unknown(f"squitter.h and the module do not both have {', '.join(sorted(lacking))}")
    wrappers = [Wrapper(call) for call in found]
    texts = [list(one.text(source.exports[one.call.name], source, rounded(stacks[one.call.name]))) for one in wrappers]
    turned = set().union(*(one.turned for one in wrappers))
    yield ["#if !LITTLE", *turns(header, turned), "#endif"]
    yield from texts


def rounded(stack: int) -> int:
    return -(-stack // 16) * 16
