"""Tests docs/guarded.py on a made-up crate: what guards a definition, and what does not."""
import sys
from collections.abc import Iterator
from pathlib import Path

TOP = Path(__file__).resolve().parent.parent
sys.path.insert(0, str(TOP / "docs"))
import guarded  # noqa: E402

NAMES = ("IsExact IsEqual IsPromised IsIn IsInNumbers IsBelow IsFree IsAsked IsOfTests exact promised within numbered "
         "free IsDeep IsOut IsConcluded IsSelf IsThere instanced").split()
FILES = {
    "crates/low/specs/Says.antt": "use Rattle.std.specs.Prelude.{ℕ, ◌≤◌, ◌≡◌, ◌↔◌}\n" + "".join(
        f"abbrev pub {name} : ℕ → Type 0\n{name} n = n ≤ 5\n\n" if name[0].isupper() else
        f"abbrev pub {name} : ℕ → ℕ\n{name} n = n + 1\n\n" for name in NAMES) + """
-- promised whole, with what stands in it; what stands left of an arrow in it is not promised
abbrev pub IsWhole : ℕ → Type 0
IsWhole n = IsIn (within n) × (IsFree n → IsPromised n)

abbrev pub Statement : Type 0
Statement = All (λ n. (n ≤ 5) ↔ IsDeep n) × IsInNumbers (numbered 5)

abbrev pub Left : Type 0
Left = (n : ℕ) → IsExact n → IsEqual n → IsPromised n → IsIn n → IsInNumbers n → IsBelow (free n) → IsDeep n → IsFree n
    → IsAsked n → IsOfTests n → exact n ≤ promised n → within n ≤ numbered n → IsOut n → IsConcluded n
    → IsSelf n → IsThere (instanced n) → n ≤ 5
""",
    "crates/low/src/lib.rt": """ghost use Rattle.low.specs.Says.{IsWhole, IsAsked, IsOut, promised, instanced, free};
pub struct One;
impl One {
    ghost other = { λ one. free 1 };
}
impl Size for One {
    ghost size = { λ one. instanced 1 };
}
pub fn call(n: u8) -> u8
    requires { IsAsked n }
    ensures value { result ≡ promised n }
    ensures whole { IsAsked n → IsWhole result }
    ensures input { IsOut n }
{
    n
}
""",
    "crates/low/src/laws.rt": """ghost use Rattle.std.specs.Prelude.{ℕ, ◌≤◌, ◌↔◌};
ghost use Rattle.low.specs.Says.{Left, IsExact, IsEqual, IsBelow, Statement, IsConcluded, IsSelf, IsThere};
ghost use Rattle.low.specs.Says.{exact};
pub fn left()
    ensures { Left }
    ensures exactly { (n : ℕ) → IsExact n ↔ (n ≤ 5) }
    ensures equal { (n : ℕ) → (IsEqual n) ↔ IsBelow n }
    ensures one_value { (n : ℕ) → n + 1 ≡ exact n }
    ensures statement { Statement }
    ensures concluded { (n : ℕ) → IsExact n → IsConcluded n }
    ensures itself { (n : ℕ) → IsSelf n → IsSelf n }
    ensures there { (n : ℕ) → (there : IsThere n) × (n ≤ 5) }
{}
""",
    "crates/low_tests/src/laws.rt": """ghost use Rattle.std.specs.Prelude.{ℕ, ◌≤◌, ◌↔◌};
ghost use Rattle.low.specs.Says.{IsOfTests};
pub fn exactly()
    ensures { (n : ℕ) → IsOfTests n ↔ (n ≤ 5) }
{}
""",
}
MISSING = {"IsFree", "IsAsked", "IsOfTests", "IsSelf", "free"}


def differences(folder: str) -> Iterator[str]:
    """Yields each definition that the script judges otherwise than written above."""
    for name, text in {**FILES, "docs/guarded.txt": "low.Says.IsFree low.Says.IsExact low.Says.gone\n"}.items():
        path = Path(folder, name)
        path.parent.mkdir(parents=True, exist_ok=True)
        path.write_text(text, encoding="utf-8")
    guards = guarded.Guards(Path(folder))
    missing = {name[2] for name in guards.missing()}
    yield from (f"guarded: {name}" for name in sorted(MISSING - missing))
    yield from (f"not guarded: {name}" for name in sorted(missing - MISSING))
    yield from (f"not left of an arrow: {name}" for name in NAMES
               if ("low", "Says", name) not in guards.wanted())
    told = list(guarded.faults(Path(folder)))
    wanted = [f"nothing guards low.Says.{name}" for name in ("IsAsked", "IsOfTests", "IsSelf", "free")]
    wanted += [f"docs/guarded.txt lists low.Says.{name}, which is guarded or gone" for name in ("IsExact", "gone")]
    if told != wanted:
        yield f"told: {told}"
