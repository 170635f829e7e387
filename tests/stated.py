"""Tests docs/statement.py on two made-up crates: the whole page is as written here, each edit of what is promised
shows in it, and edits that change nothing do not. An edit of the repository's own page is found too."""
import re
import sys
from collections.abc import Iterator
from pathlib import Path

TOP = Path(__file__).resolve().parent.parent
sys.path.insert(0, str(TOP / "docs"))
import statement  # noqa: E402

FILES = {
    "crates/low/specs/Sizes.antt": """-- Sizes (ICAO Annex 1).
use Rattle.std.specs.Prelude.{ℕ, ◌≤◌, ◌+◌}
use Rattle.low.specs.declared.lib.Side.{Side}
use Rattle.low.specs.declared.lib.Side.TheVariants as sides
use Rattle.low.specs.declared.lib.Other.{Other}
use Rattle.low.specs.declared.lib.Other.TheVariants as others

-- below the limit, and
-- a half
abbrev pub IsSmall : ℕ → Type 0
IsSmall size = size + half ≤ 10

abbrev half : ℕ
half = 5 -- no comment above

-- a size by its side
abbrev pub size_of : Side → ℕ
size_of sides.Left = 1
size_of (sides.Right size) = side_of (others.Left sides.Left)

abbrev side_of : Other → ℕ
side_of (others.Left side) = shade_of Light

abbrev told : ℕ
told = 1 + 2 + 3 + 4 "LONG" ""

pub data Shade : Type 0 where
  Dark : Shade
  Light : Shade

abbrev shade_of : Shade → ℕ
shade_of Dark = told
shade_of Light = 2

pub record Box (a : ℕ) : Type 0 where
  pub width : ℕ
  pub wide : IsSmall width
  pub length : IsSmall a

abbrev pub unused : ℕ
unused = 3
""",
    "crates/low/src/lib.rt": """#![tactic(auto)]
ghost use Rattle.low.specs.Sizes.{size_of};
ghost use Rattle.std.specs.Prelude.{ℕ, ◌≡◌, ◌+◌};
pub mod laws;
/// A side.
#[derive(Clone, Debug, PartialEq, Eq)]
pub enum Side {
    Left,
    Right(u8),
}
/// Another side.
pub enum Other {
    Left(Side),
}
/// A type with a model.
pub struct Kept {
    at: u8,
}
impl Model for Kept {
    ghost use Rattle.std.specs.Prelude.{ℕ, ◌≤◌};
    ghost Value = { ℕ };
    ghost view = { λ kept. kept.at };
    ghost invariant = { λ kept. kept ≤ 3 };
}
/// A trait.
pub trait Sized {
    ghost size: { ℕ };
    fn grow(&mut self, by: u8) -> u8
        ensures { result ≡ size + by };
}
impl Sized for Kept {
    ghost size = { size_of Side.Left };
    fn grow(&mut self, by: u8) -> u8 {
        1 + by
    }
}
""",
    "crates/low/src/laws.rt": """ghost use Rattle.std.specs.Prelude.{◌≡◌, ℕ};
ghost use Rattle.low.specs.Sizes.{IsSmall, Box};
/// Small is small.
pub fn small_is_small()
    ensures whole { (size other : ℕ) → IsSmall size → size ≡ other → IsSmall other }
    ensures boxes { (a : ℕ) → Box a → IsSmall a }
{}
/// Nothing.
pub fn nothing()
    ensures { IsSmall 1 }
{}
""",
    "crates/high/specs/Big.antt": """use Rattle.std.specs.Prelude.{ℕ, Option, None, Some, ⊤, ◌+◌}
use Rattle.low.specs.Sizes.{IsSmall as IsLittle, half, half as middle}
abbrev pub IsSmall : (big : Option ℕ) → Type 0
IsSmall None = ⊤
IsSmall (Some half) = IsLittle half × IsLittle (plus half)

abbrev plus : ℕ → ℕ
plus half = (λ size. half + size) (let two = half in two) + middle
""",
    "crates/high/src/main.rt": """ghost use Rattle.high.specs.Big.{IsSmall};
ghost use Rattle.std.specs.Prelude.{◌≡◌};
use low::{Kept, Side, Sized};
/// Runs.
pub fn run<S: Sized>(side: &Side, kept: &mut Kept) -> Option<u8>
    requires { side.now ≡ Side.Left }
    ensures small { IsSmall result }
    ensures grown { kept.new ≡ kept.old → S.size ≡ ⟦<Kept as Sized>⟧.size }
{
    None
}
""",
}
LONG = "a long text " * 11
FILES = {name: text.replace("LONG", LONG) for name, text in FILES.items()}
ROOTS = {"Laws": (["low::laws::small_is_small"], "The laws."), "Calls": (["high::run"], "The calls.")}
PAGE = """## Laws

The laws.

```text
-- Small is small.
fn low::small_is_small()
  ensures whole: (size other : ℕ) → low.IsSmall size → size ≡ other → low.IsSmall other
  ensures boxes: (a : ℕ) → Box a → low.IsSmall a
--- Sizes (ICAO Annex 1).
low.IsSmall (size : ℕ) = size + half ≤ 10  -- below the limit, and a half
half : ℕ = 5
record Box (a : ℕ) where width : ℕ; wide : low.IsSmall width; length : low.IsSmall a
```

## Calls

The calls.

```text
-- Runs.
fn high::run<S: Sized>(side: &Side, kept: &mut Kept) -> Option<u8>
  requires: side.now ≡ Side.Left
  ensures small: high.IsSmall result
  ensures grown: kept.new ≡ kept.old → S.size ≡ ⟦<Kept as Sized>⟧.size
-- A trait.
trait Sized
  ghost size : ℕ
  fn grow(&mut self, by: u8) -> u8
    ensures: result ≡ size + by
impl Sized for Kept where ghost size = size_of Side.Left
struct Kept  -- A type with a model.
impl Model for Kept where ghost Value = ℕ; ghost invariant = λ kept. kept ≤ 3
-- a size by its side
size_of : Side → ℕ
size_of Side.Left = 1
size_of (Right size) = side_of (Other.Left Side.Left)
enum Side {Left, Right(u8)} derives PartialEq, Eq  -- A side.
side_of : Other → ℕ
side_of (Other.Left side) = shade_of Light
enum Other {Left(Side)}  -- Another side.
shade_of : Shade → ℕ
shade_of Dark = told
shade_of Light = 2
data Shade where Dark : Shade; Light : Shade
told : ℕ =
    1 + 2 + 3 + 4
    "LONG"
    ""
high.IsSmall : (big : Option ℕ) → Type 0
high.IsSmall None = ⊤
high.IsSmall (Some half) = low.IsSmall half × low.IsSmall (plus half)
plus (half : ℕ) : ℕ = (λ size. half + size) (let two = half in two) + low.half
```
""".replace("LONG", LONG)
LOW, LIB, LAWS = "crates/low/specs/Sizes.antt", "crates/low/src/lib.rt", "crates/low/src/laws.rt"
BIG, MAIN = "crates/high/specs/Big.antt", "crates/high/src/main.rt"
# Edits of the sources: a file, the old and the new text, and what the first difference names, or nothing.
EDITS = (
    (LOW, "size + half ≤ 10", "size + half ≤ 11", "Sizes.IsSmall"),
    (LOW, "half = 5", "half = 6", "Sizes.half"),
    (LOW, "size_of sides.Left = 1\n", "", "Sizes.size_of"),
    (LOW, "others.Left sides.Left", "others.Left (sides.Right 1)", "Sizes.size_of"),
    (LOW, "  pub wide : IsSmall width\n", "", "Sizes.Box"),
    (LOW, "pub length : IsSmall a", "pub length : IsSmall width", "Sizes.Box"),
    (LOW, "shade_of Dark = told\nshade_of Light", "shade_of Light = told\nshade_of Dark", "Sizes.shade_of"),
    (LOW, "= shade_of Light", "= shade_of Dark", "Sizes.side_of"),
    (LOW, "  Light : Shade\n", "  Light : Shade\n  Dim : Shade\n", "Sizes.Shade"),
    (LOW, "below the limit", "above the limit", "Sizes.IsSmall"),
    (LOW, "ICAO Annex 1", "ICAO Annex 2", "only one"),
    (LAWS, "    ensures boxes { (a : ℕ) → Box a → IsSmall a }\n", "", "the sources say"),
    (LAWS, "→ IsSmall size → size ≡ other", "→ size ≡ other → IsSmall size", "small_is_small"),
    (LAWS, "size ≡ other → IsSmall other", "size ≡ other → IsSmall size", "small_is_small"),
    (LAWS, "(size other : ℕ) → IsSmall size → size ≡ other → IsSmall other",
     "(size size : ℕ) → IsSmall size → size ≡ size → IsSmall size", "small_is_small"),
    (LAWS, "(size other : ℕ) →", "(size other : ℕ) → 1 ≤ 0 →", "small_is_small"),
    (LAWS, "/// Nothing.\npub fn nothing()\n    ensures { IsSmall 1 }\n{}\n", "", "laws"),
    (LAWS, "IsSmall 1", "IsSmall 2", "laws"),
    (LIB, "PartialEq, Eq", "PartialEq", "the sources say"),
    (LIB, "Right(u8)", "Right(u16)", "low::Side"),
    (LIB, "kept ≤ 3", "kept ≤ 4", "Model for Kept"),
    (LIB, "size_of Side.Left", "size_of (Side.Right 1)", "Sized for Kept"),
    (LIB, "ensures { result ≡ size + by }", "ensures { result ≡ size }", "the sources say"),
    (MAIN, "requires { side.now ≡ Side.Left }", "requires { side.now ≡ side.now }", "high::run"),
    (MAIN, "≡ ⟦<Kept as Sized>⟧.size", "≡ ⟦<Side as Sized>⟧.size", "high::run"),
    (MAIN, "run<S: Sized>", "run<S>", "high::run"),
    (MAIN, "side: &Side, kept: &mut Kept", "kept: &mut Kept, side: &Side", "high::run"),
    (BIG, "{IsSmall as IsLittle, half,", "{IsOther as IsLittle, half,", "unknown"),
    (BIG, "{IsSmall as IsLittle, half,", "{half,", "unknown"),
    (BIG, "◌+◌}", "◌*◌ as ◌+◌}", "unknown"),
    (MAIN, "Prelude.{◌≡◌}", "Prelude.{◌≢◌ as ◌≡◌}", "unknown"),
    (BIG, "None, Some,", "None as Some, Some as None,", "Big.IsSmall"),
    (BIG, "half as middle", "unused as middle", "Big.plus"),
    (BIG, "in two) + middle", "in two) + half", "Big.plus"),
    (BIG, "(λ size. half + size)", "(λ size. middle + size)", "Big.plus"),
    (BIG, "(λ size. half + size)", "(λ size. size + half)", "Big.plus"),
    (BIG, "(λ size. half + size)", "(λ half. half + half)", "Big.plus"),
    (BIG, "let two = half in two", "let two = middle in two", "Big.plus"),
    (BIG, "IsLittle half × IsLittle", "IsLittle half ⊎ IsLittle", "Big.IsSmall"),
    # variables of other names, other lines, a comment in a body, and what the page does not show
    (LAWS, "(size other : ℕ) → IsSmall size → size ≡ other → IsSmall other",
     "(other size : ℕ)\n        → IsSmall other → other ≡ size → IsSmall size", ""),
    (LOW, "IsSmall size = size + half ≤ 10", "IsSmall half' =\n    half' + half ≤ 10", ""),
    (BIG, "(Some half) = IsLittle half × IsLittle (plus half)", "(Some it) = IsLittle it × IsLittle (plus it)", ""),
    (BIG, "as IsLittle,", "as IsTiny,", "unknown"),
    (BIG, "(λ size. half + size) (let two = half in two)", "(λ it. half + it) (let half' = half in half')", ""),
    (MAIN, "    None\n", "    // no comment\n    None\n", ""),
    (LOW, "unused = 3", "unused = 4", ""),
    (LIB, "kept.at }", "kept.at + 1 }", ""),
)
# Edits of the repository's page.
OWN = (
    ("  ensures written_again: WrittenAgain\n", "", "headline"),
    ("SameZones (kind : sq_message.Kind) =\n", "SameZones (kind : sq_message.Kind) =\n    1 ≤ 0 →\n", "SameZones"),
    ("`fewer_towards_poles`", "`fewer_towards_pole`", "the laws"),
    ("(p q : Point) (f g : Frame)\n", "(f g : Point) (p q : Frame)\n", "SameZones"),
    ("```\n\n## Worlds", "-- more\n```\n\n## Worlds", "The headline"),
)

# The quote of the headline, phrase by phrase, and what says it: a definition, and a part of its chain of arrows. The
# parts of a definition, after its variables, make up the whole.
QUOTE = (
    ("Two positions in the same latitude and longitude zones of a parity's grid", (
        ("Sending.SameZones", "PositionIsInZones (span_of kind) parity here zones"),
        ("Sending.SameZones", "PositionIsInZones (span_of kind) parity there zones"))),
    ("are written as the same frame exactly if they round to the same grid point;", (
        ("Sending.SameZones", "sq_message.IsSent kind head parity here p f"),
        ("Sending.SameZones", "sq_message.IsSent kind head parity there q g"),
        ("Sending.SameZones", "(f ≡ g) ↔ (p ≡ q)"))),
    ("a frame read with a reference strictly within half a zone of that point in both coordinates", (
        ("Headline.NearReference", "sq_message.IsSent kind head parity position point frame"),
        ("Headline.NearReference", "IsStrictlyNearPosition (span_of kind) reference point"))),
    ("gives that point exactly,", (
        ("Headline.NearReference", "IsReadNear frame reference (place_at kind point)"),)),
    ("as does a close even and odd pair with equal zone counts;", (
        ("Headline.ClosePair", "even_head.address ≡ odd_head.address"),
        ("Headline.ClosePair", "sq_message.IsSent kind even_head Even even_position a even"),
        ("Headline.ClosePair", "sq_message.IsSent kind odd_head Odd odd_position b odd"),
        ("Headline.ClosePair", "AreClosePoints (span_of kind) a b"),
        ("Headline.ClosePair", "LieAt kind site a b"),
        ("Headline.ClosePair", "IsReadAsPair (of_parity newest odd even) (of_parity newest even odd) site "
                               "(place_at kind (of_parity newest a b))"))),
    ("writing any decoded point again gives the same frame.", (
        ("Headline.WrittenAgain", "IsFrame frame"),
        ("Headline.WrittenAgain", "sq_message.Spells frame squitter"),
        ("Headline.WrittenAgain", "IsDecoded (squitter_parts squitter) place"),
        ("Headline.WrittenAgain", "IsSentAt (squitter_parts squitter) place (squitter_parts sent)"),
        ("Headline.WrittenAgain", "IsFrame again"),
        ("Headline.WrittenAgain", "sq_message.Spells again sent"),
        ("Headline.WrittenAgain", "again ≡ frame"),
        ("Headline.SentAgain", "IsFrame frame"),
        ("Headline.SentAgain", "sq_message.Spells frame squitter"),
        ("Headline.SentAgain", "squitter_parts squitter ≡ sq_message.squitter_of kind head parity code"),
        ("Headline.SentAgain", "IsDecoded (squitter_parts squitter) (place_at kind point)"),
        ("Headline.SentAgain", "IsPositionOf (place_at kind point) position"),
        ("Headline.SentAgain", "sq_message.IsSent kind head parity position rounded again"),
        ("Headline.SentAgain", "again ≡ frame"))),
)
CLAUSES = [f"{name} {kind}" for name in ("SameZones", "NearReference", "ClosePair") for kind in ("InAir", "OnGround")]
CLAUSES += ["WrittenAgain", "SentAgain InAir", "SentAgain OnGround"]


def tree(folder: str) -> Path:
    for name, text in FILES.items():
        path = Path(folder, name)
        path.parent.mkdir(parents=True, exist_ok=True)
        path.write_text(text, encoding="utf-8")
    return Path(folder)


def first_difference(top: Path, page: str) -> str:
    """What the script says first of these crates."""
    made = statement.Page(top, ROOTS)
    told = next(made.differences(page), "")
    return f"unknown: {list(made.statement.unknown)}" if made.statement.unknown else told


def differences(folder: str) -> Iterator[str]:
    """Yields what the script says otherwise than written above."""
    top = tree(folder)
    page = statement.Page(top, ROOTS).text
    inner = "## Laws" + page.partition("## Laws")[2].partition("\n## All laws")[0]
    if inner != PAGE:
        lines = zip(inner.splitlines(), PAGE.splitlines())
        yield f"the page: {next((pair for pair in lines if pair[0] != pair[1]), 'its end')}"
    for name, old, new, wanted in EDITS:
        (top / name).write_text(FILES[name].replace(old, new, 1), encoding="utf-8")
        told, other = first_difference(top, page), statement.Page(top, ROOTS).text
        if old not in FILES[name] or bool(told) != bool(wanted) or wanted not in told.partition("\n")[0]:
            yield f"{name}: {new!r}: {told.partition(chr(10))[0]!r}, where expected is: {wanted!r}"
        (top / name).write_text(FILES[name], encoding="utf-8")
        back = "" if wanted == "unknown" else first_difference(top, other)
        if bool(back) != bool(wanted) and wanted != "unknown":
            yield f"{name}: {new!r}: as a page: {back.partition(chr(10))[0]!r}"
    sides = FILES[LOW][FILES[LOW].index("abbrev side_of"):FILES[LOW].index("pub record")]
    head = re.sub("(?s)\n-- below.*|^--.*?\n", "", FILES[LOW])
    (top / "crates/low/specs/Moved.antt").write_text(f"{head}\n{sides}", encoding="utf-8")
    rest = FILES[LOW].replace(sides, "").replace("\nuse", "\nuse Rattle.low.specs.Moved.{side_of}\nuse", 1)
    (top / LOW).write_text(rest, encoding="utf-8")
    yield from (f"a move: {told}" for told in [first_difference(top, page)] if told)
    if not first_difference(top, page.rpartition(" ")[0]):
        yield "the end of the page is not missed"


def quote_differences(quote: str, made: statement.Page) -> Iterator[str]:
    """Yields where a quote of the headline does not say what its clauses say."""
    phrases = " ".join(phrase for phrase, _ in QUOTE)
    if quote != phrases:
        yield f"the quote is: {quote}"
    headline, *_ = made.parts["The headline"]
    clauses = [line.partition(": ")[2] for line in headline.lines[1:]]
    if clauses != CLAUSES:
        yield f"the headline is: {clauses}"
    parts = [part for _, parts in QUOTE for part in parts]
    for name in dict.fromkeys(name for name, _ in parts):
        lines = made.statement.entry(f"Rattle.sq_message.specs.{name}").lines
        body = " ".join(" ".join(lines).split()).partition(" = ")[2]
        chain = "".join(f" → {part}" for one, part in parts if one == name)
        if not body.endswith(chain) or not re.fullmatch(r"(\([\w ]+ : [\w. ]+\) ?)+", body[:-len(chain)]):
            yield f"{name} is: {body}"


def own_differences(page: str, quote: str) -> Iterator[str]:
    """Yields what the script says of the repository's page, and each edit of it that the script does not find. The
    quote of the headline says what its clauses say; one with other words does not, and none says what others say."""
    made = statement.Page()
    yield from quote_differences(quote, made)
    same = made.statement.entry("Rattle.sq_message.specs.Sending.SameZones")
    for wrong, line in (quote.replace("strictly ", ""), ""), (quote, "→ 1 ≤ 0"):
        same.lines.insert(2, line)
        if not list(quote_differences(wrong, made)):
            yield f"a quote of another headline is not found: {line or wrong}"
        del same.lines[2]
    yield from made.statement.unknown
    yield from made.differences(page)
    for old, new, wanted in OWN:
        told = next(made.differences(page.replace(old, new, 1)), "")
        if old not in page or wanted not in told.partition("\n")[0] or not told:
            yield f"{new!r}: {told.partition(chr(10))[0]!r}, where expected is: {wanted!r}"
    front, law, rest = page.partition("SameZones (kind : sq_message.Kind) =")
    law += rest[:rest.index("--")]
    renamed = front + re.sub(r"\bhere\b", "near", law).replace("(zones", "\n  (zones") + rest[rest.index("--"):]
    yield from (f"another name: {told}" for told in made.differences(renamed))
