"""Tests docs/rules.py on a made-up crate, in which nothing is wrong, and with each rule broken in turn."""
import sys
from collections.abc import Iterator
from pathlib import Path

TOP = Path(__file__).resolve().parent.parent
sys.path.insert(0, str(TOP / "docs"))
import rules  # noqa: E402

FILES = {
    "specs/Says.antt": """use Rattle.std.specs.Prelude.{ℕ, List, ◌≤◌, ◌<◌, ◌≢◌, ⊤}
abbrev pub IsSmall : ℕ → Type 0
IsSmall size = size ≤ 10

pub record Told (Found : Type 0) : Type 0 where
  pub of : (n : ℕ) → IsSmall n

-- parts
pub record IsBetween (low high : ℕ) : Type 0 where
  pub some : 1 ≤ low
  pub many : low < high
  pub between : ℕ
  pub small : IsSmall between

-- values, which say nothing
pub record Held (n : ℕ) : Type 0 where
  pub at : ℕ

abbrev pub HeadOf : ℕ → Type 0
HeadOf n = Held n

abbrev pub IsCase : List ℕ → ℕ → Type 0
IsCase xs 0 = ⊥
IsCase xs n = (n ≤ 5) × IsSmall n

abbrev pub Worked : Type 0
Worked = IsSmall 1 × IsBetween 1 2

abbrev pub Says : Type 0
Says = (told : Told ℕ) (head : HeadOf 5) (f : ℕ → ℕ) (low high : ℕ) → IsBetween low high → (low ≤ 3) × (high ≤ 4)
    → ((n : ℕ) → n ≤ low → IsSmall n) → IsSmall low
""",
    "src/lib.rt": """ghost use Rattle.std.specs.Prelude.{ℕ, ◌≤◌};
ghost use Rattle.squitter_c.specs.Says.{IsSmall};
pub mod laws;
pub trait Kind {
    fn kind(&self) -> u8;
}
pub trait Size: Kind {
    fn size(&self) -> u8;
}
pub struct One;
impl Kind for One {}
impl Size for One {}
pub struct Two;
impl Kind for Two {}
/// An export.
#[unsafe(no_mangle)]
pub extern "C" fn squitter_call(size: u8) -> u8
    ensures { (n : ℕ) → n ≤ size → IsSmall n }
{
    size
}
/// A call.
pub fn call(size: u8) -> u8
    requires { size ≤ 5 }
    ensures { IsSmall result }
{
    size
}
""",
    "src/laws.rt": """ghost use Rattle.squitter_c.specs.Says.{Says, Worked};
use crate::{Kind, Size};
/// A law.
pub fn says<T: Kind + Size>()
    ensures { Says }
    ensures worked { Worked }
{}
""",
}
SAYS, LIB, LAWS = "specs/Says.antt", "src/lib.rt", "src/laws.rt"
# Edits: a file, the old and the new text, and what is found.
EDITS = (
    (LIB, "    ensures { (n : ℕ)", "    requires { size ≤ 5 }\n    ensures { (n : ℕ)", "squitter_call asks something"),
    (LAWS, "    ensures { Says }", "    requires { Says }\n    ensures { Says }", "says asks something"),
    (LAWS, "ensures { Says }", "ensures { 1 ≤ 0 → Says }", "says: the premise 1 ≤ 0"),
    (SAYS, "→ IsBetween low high →", "→ 1 ≤ 0 → IsBetween low high →", "Says: the premise 1 ≤ 0"),
    (SAYS, "→ IsBetween low high →", "→ ⊥ → IsBetween low high →", "Says: the premise ⊥"),
    (SAYS, "→ IsBetween low high →", "→ (never : 1 ≤ 0) → IsBetween low high →", "Says: the premise 1 ≤ 0"),
    (SAYS, "→ IsBetween low high →", "→ (never : IsSmall 11) → IsBetween low high →", "Says: the premise IsSmall 11"),
    (SAYS, "(low ≤ 3) × (high ≤ 4)", "(low ≤ 3) × IsBetween 3 2", "Says: the premise IsBetween 3 2"),
    (SAYS, "(low ≤ 3) ×", "(low < low) ×", "Says: the premise (low < low)"),
    (SAYS, "→ IsBetween low high →", "→ high ≢ high → IsBetween low high →", "Says: the premise high ≢ high"),
    (SAYS, "n ≤ low → IsSmall n)", "n ≤ low → 2 ≤ 1 → IsSmall n)", "Says: the premise 2 ≤ 1"),
    (SAYS, "→ IsBetween low high →", "→ Worked → IsBetween low high →", "Says: the premise Worked"),
    (SAYS, "  pub many : low < high", "  pub many : 5 < 3", "IsBetween: the part 5 < 3"),
    (SAYS, "(n ≤ 5) × IsSmall n", "(n ≤ 5) × IsSmall 11", "IsCase: the part IsSmall 11"),
    (SAYS, "→ IsBetween low high →", "→ (IsSmall low → IsSmall high) → List ℕ → IsBetween low high →", ""),
    (SAYS, "  pub of : (n : ℕ) → IsSmall n", "  pub of : (n : ℕ) → 1 ≤ 0 → IsSmall n", "Told: the premise 1 ≤ 0"),
    (LIB, "requires { size ≤ 5 }", "requires { 6 ≤ 5 }", "call: requires 6 ≤ 5"),
    (LIB, "→ n ≤ size →", "→ 1 ≤ 0 → n ≤ size →", "squitter_call: the premise 1 ≤ 0"),
    (LIB, "impl Size for One {}", "impl Size for Two {}", ""),
    (LIB, "impl Kind for One {}\nimpl Size for One {}", "impl Size for One {}", "no type meets T: Kind + Size"),
    (LIB, "impl Size for One {}\n", "", "no type meets T: Kind + Size"),
)


def found_in(top: Path, name: str, text: str) -> str:
    path = top / "crates/squitter_c" / name
    path.parent.mkdir(parents=True, exist_ok=True)
    path.write_text(text, encoding="utf-8")
    return "\n".join(rules.faults(top))


def differences(folder: str) -> Iterator[str]:
    """Yields each edit that the script judges otherwise than written above."""
    top, told = Path(folder), ""
    for name, text in FILES.items():
        told = found_in(top, name, text)
    if told:
        yield f"nothing is wrong, and found is: {told}"
    for name, old, new, wanted in EDITS:
        told = found_in(top, name, FILES[name].replace(old, new, 1))
        if old not in FILES[name] or bool(told) != bool(wanted) or wanted not in told:
            yield f"{name}: {new!r}: {told!r}, where expected is: {wanted!r}"
        found_in(top, name, FILES[name])
