"""Reads terms: what they name, and how they are laid out."""
import re
from collections.abc import Callable, Iterator, Set

TOKEN = re.compile(r'"(?:\\.|[^"\\])*"|\[\]|[(){}\[\],;]|[^\s(){}\[\],;"]+')
CLOSE = {"(": ")", "{": "}", "[": "]"}
# Words of the language of terms, and what takes no name: a projection, a number, a text.
SYNTAX = set("→ × : = ; , λ let in where record as at data Type . _ ( ) { } [ ] [] |".split())
PLAIN = re.compile(r'["\d.]|[\[\](){};,]')
WIDTH = 116
ARROWS = tuple("→×⊎↔")

Tree = list["str | Group"]


class Group:
    """What stands between two brackets."""

    def __init__(self, opening: str, inner: Tree) -> None:
        self.opening, self.inner = opening, inner


def tree(text: str) -> Tree:
    """The tokens of a text, with what stands in brackets as a group."""
    stack: list[Tree] = [[]]
    for token in TOKEN.findall(text):
        if token in CLOSE:
            stack.append([token])
        elif token in CLOSE.values() and len(stack) > 1:
            opening, *inner = stack.pop()
            stack[-1].append(Group(opening, inner))
        else:
            stack[-1].append(token)
    return stack[0]


def split(inner: Tree, at: str) -> list[Tree]:
    """The parts between the words `at` outside brackets."""
    parts: list[Tree] = [[]]
    for one in inner:
        if one == at:
            parts.append([])
        else:
            parts[-1].append(one)
    return parts


def words(inner: Tree) -> Iterator[str]:
    for one in inner:
        yield from words(one.inner) if isinstance(one, Group) else [one]


def written(inner: Tree) -> str:
    """The tokens on one line."""
    line = ""
    for one in inner:
        word = one if isinstance(one, str) else one.opening + written(one.inner) + CLOSE[one.opening]
        line += word if not line or word in (",", ";") else f" {word}"
    return line


def laid_out(text: str, front: str = "", indent: str = "    ") -> list[str]:
    """A text on lines of at most 116 columns, if no quoted text is longer. A line ends where few brackets are open, and
    best before an arrow."""
    lines = []
    while len(front + text) > WIDTH:
        room = WIDTH - len(front)
        ends = [(depth, at) for depth, at in spaces(text) if at <= room] or list(spaces(text))[:1]
        if not ends:
            break
        late = [(2 * depth + (text[at + 1] not in ARROWS), -at) for depth, at in ends if at > room // 2]
        best = -min(late)[1] if late else ends[-1][1]
        lines.append(front + text[:best])
        text, front = text[best + 1:], indent
    return [*lines, front + text]


def spaces(text: str) -> Iterator[tuple[int, int]]:
    """The spaces of a text outside quotes: how many brackets are open there, and where they are."""
    depth, is_quoted = 0, False
    for at, sign in enumerate(text):
        depth += (sign in "({[") - (sign in ")}]")
        is_quoted ^= sign == '"'
        if sign == " " and not is_quoted:
            yield depth, at


def equation(left: Tree, right: Tree) -> list[str]:
    """An equation: on one line, or its right side below its left one."""
    line = written([*left, "=", *right])
    if len(line) <= WIDTH:
        return [line]
    return laid_out(written([*left, "="]), "", "      ") + laid_out(written(right), "    ", "    ")


class Walk:
    """Goes through terms. Each word that no variable hides is named by a call, and replaced by the result."""

    def __init__(self, named: Callable[[str], str], variables: frozenset[str] = frozenset()) -> None:
        self.named = named
        self.variables = variables
        self.all_variables = set(variables)

    def bind(self, names: Set[str]) -> frozenset[str]:
        self.all_variables |= names
        return frozenset(names)

    def text(self, text: str, bound: frozenset[str] = frozenset()) -> str:
        """Goes through a term, and returns it on one line."""
        inner = tree(text)
        self.term(inner, bound | self.variables)
        return written(inner)

    def term(self, inner: Tree, bound: frozenset[str]) -> frozenset[str]:
        """Goes through a term; returns the variables that are bound behind it."""
        lets: list[frozenset[str]] = []
        at = 0
        while at < len(inner):
            one = inner[at]
            if isinstance(one, Group):
                bound |= self.group(one, bound)
            elif one.startswith("λ"):
                end = next(k for k in range(at, len(inner)) if isinstance(inner[k], str) and inner[k].endswith("."))
                bound |= self.binders([one.lstrip("λ"), *inner[at + 1:end + 1]], bound)
                at = end
            elif one == "let":
                end = next(k for k in range(at, len(inner)) if inner[k] in (":", "="))
                lets.append(self.binders(inner[at + 1:end], bound))
                at = end
            elif one == "in" and lets:
                bound |= lets.pop()
            else:
                inner[at] = self.word(one, bound)
            at += 1
        return bound

    def binders(self, inner: Tree, bound: frozenset[str]) -> frozenset[str]:
        """The variables that these words bind; the types of those in brackets are gone through."""
        names: set[str] = set()
        for one in inner:
            if isinstance(one, Group):
                names |= self.group(one, bound) or set(words(one.inner))
            else:
                names.add(one.rstrip("."))
        return self.bind(names)

    def group(self, group: Group, bound: frozenset[str]) -> frozenset[str]:
        """Goes through what stands in brackets; returns the variables that it binds for what follows."""
        inner = group.inner
        names: frozenset[str] = frozenset()
        if ":" in inner and inner[0] != "let":
            at = inner.index(":") + 1
            names = self.bind(set(words(inner[:at - 1])))
            inner[at:] = self.parts(inner[at:], "\0", bound)
        elif group.opening == "{" and "=" in inner:
            parts = []
            for part in split(inner, ";"):
                at = part.index("=") + 1 if "=" in part else 0
                parts += [*part[:at], *self.parts(part[at:], "\0", bound), ";"]
            group.inner = parts[:-1]
        else:
            group.inner = self.parts(inner, ",", bound)
        return names

    def parts(self, inner: Tree, at: str, bound: frozenset[str]) -> Tree:
        found: Tree = []
        for part in split(inner, at):
            self.term(part, bound)
            found += [*part, at]
        return found[:-1]

    def word(self, word: str, bound: frozenset[str]) -> str:
        is_free = word not in SYNTAX and not PLAIN.match(word) and word.partition(".")[0] not in bound
        return self.named(word) if is_free else word

    def pattern(self, inner: Tree, is_variable: Callable[[str], bool], own: set[str]) -> frozenset[str]:
        """Goes through the left side of an equation of `own` name; returns its variables."""
        names: set[str] = set()
        for at, one in enumerate(inner):
            if isinstance(one, Group):
                names |= self.pattern(one.inner, is_variable, own)
            elif is_variable(one):
                names.add(one)
            elif one not in own:
                inner[at] = self.word(one, frozenset())
        return self.bind(names)
