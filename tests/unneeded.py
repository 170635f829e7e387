"""Tests docs/dead.py on a crate with items that are needed in each way, and items that nothing needs."""
import shutil
import subprocess
import sys
from collections.abc import Iterator
from pathlib import Path

TOP = Path(__file__).resolve().parent.parent
FILES = {
    "src/lib.rt": """ghost use Rattle.low.specs.Says.{IsOne, «record», ◌~◌, imported};
ghost use Rattle.low.specs.Says.{IsTwo as Two};
// commented
#[tactic(auto, unfolding(crate::specs::Says::cell))]
pub fn one() -> u8
    ensures { IsOne result → Two 2 ~ «record» }
""",
    "src/inner/more.rt": "ghost use Rattle.low.specs.Again as again;\n    ensures { again.passed result }\n",
    "specs/Says.antt": """-- IsOne needs commented
use Rattle.low.specs.Kinds.{Leaf, Bare as Bald}
abbrev pub IsOne : ℕ → Type 0
IsOne n = below n -- commented
abbrev below : ℕ → Type 0
below n = (Leaf n).1 ≡ 1
pub record IsTwo (n : ℕ) : Type 0 where
  pub text : codes "unread -- unread" ≡ λBald
abbrev pub «record» : ℕ
«record» = 1
unfoldable pub ◌~◌ : ℕ → ℕ → Type 0
a ~ b = a else b
abbrev pub cell : ℕ
cell = 1
abbrev pub imported : ℕ
imported = imported
abbrev pub unread : ℕ
unread = 1
pub commented : ℕ
commented = 2
pub ◌~~◌ : ℕ
a ~~ b = 2
pub ◌~~◌else◌ : ℕ
a ~~ b else c = cell
""",
    "specs/Kinds.antt": """pub data Tree : Type 0 where
  Leaf : ℕ → Tree
pub data Other : Type 0 where
  Bare : Other
pub data Alone : Type 0 where
  Lone : Alone
""",
    "specs/Again.antt": "pub use Rattle.low.specs.Once.{handed as passed, lost}\n",
    "specs/Once.antt": "pub use Rattle.low.specs.Under.{kept as handed, lost}\n",
    "specs/Under.antt": "abbrev pub kept : ℕ\nkept = 1\n\nabbrev pub lost : ℕ\nlost = 1\n",
    "proofs/More.antt": """use Rattle.low.proofs.Rules.{rules}
module _ (n : ℕ)
    (of : in_head n) where
  pub lemma : ℕ
  lemma = helper . step
    where
      helper : ℕ
      helper = rules
  module _ (m : inner_head) where
    deep : ℕ
    deep = 1
  step : ℕ
  step = @at_name
pub in_head : ℕ
in_head = 1
pub inner_head : ℕ
inner_head = 2
pub at_name : ℕ
at_name = 2
first : ℕ
first = second
second : ℕ
second = first
""",
    "proofs/Rules.antt": "pub ruleset rules = (ruled)\npub ruled : ℕ\nruled = 1\npub helper : ℕ\nhelper = 1\n",
    "proofs/one/Answers.antt": """use Rattle.low.proofs.More.{lemma}
pub returns : goal.returns
returns = lemma
stays : ℕ
stays = 1
""",
}
DEAD = {"imported", "unread", "commented", "◌~~◌", "◌~~◌else◌", "Alone", "lost", "deep", "first", "second", "helper",
        "stays"}


def differences(folder: str) -> Iterator[str]:
    """Runs the script below a folder. Yields each item that it judges wrongly."""
    top = Path(folder)
    for name, text in FILES.items():
        path = top / "crates/low" / name
        path.parent.mkdir(parents=True, exist_ok=True)
        path.write_text(text, encoding="utf-8")
    (top / "docs").mkdir()
    for name in ("antt.py", "dead.py"):
        shutil.copy(TOP / "docs" / name, top / "docs")
    done = subprocess.run([sys.executable, f"{folder}/docs/dead.py"], capture_output=True, text=True)
    told = {line.rpartition(" ")[2]: line for line in done.stderr.splitlines()}
    yield from (f"{name} is not named" for name in sorted(DEAD - set(told)))
    yield from (line for name, line in told.items() if name not in DEAD)
    wanted = "crates/low/specs/Says.antt:17: nothing needs unread"
    if told.get("unread") != wanted or done.returncode != 1:
        yield f"{told.get('unread')}, status {done.returncode}, where expected is: {wanted}"
