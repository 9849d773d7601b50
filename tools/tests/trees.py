"""A small tree that both tools pass, with copies of them in it. A test changes it and runs a tool there."""
import pathlib
import shutil
import subprocess
import sys
import tempfile
import unittest

TOOLS = pathlib.Path(__file__).resolve().parent.parent

FILES = {
    "crates.txt": "le:\nword: le  # sums\n\ntranslation: word\nhilofanur staticlib: word translation\n",
    "crates/le/specs/Le.antt": """\
use Rattle.std.specs.Prelude.{ℕ, ◌+◌}

-- a sum
abbrev pub add : ℕ → ℕ → ℕ
add m n = m + n
""",
    "crates/word/specs/Word.antt": """\
use Rattle.std.specs.Prelude.{ℕ}
use Rattle.le.specs.Le.{add}

-- a number
-- and itself
abbrev pub twice : ℕ → ℕ
twice n = add n n

abbrev pub lonely : ℕ
lonely = seven
  where
  seven : ℕ
  seven = 7
""",
    "crates/word/must-fail/sum-wrong.edit": "file: specs/Word.antt\nold: add n n\nnew: n\n",
    "crates/word/must-fail/sum-lost.edit": "file: specs/Word.antt\nold: add n n\nnew: 0\n",
    "crates/translation/specs/Demand3.antt": """\
use Rattle.std.specs.Prelude.{ℕ}
use mathlib.Core.Path.{◌≡◌}

-- what is left
pub record Ends (n r : ℕ) : Type 0 where
  -- the end
  pub end : r ≡ n

  pub x0 : n ≡ r

abbrev pub Demand3 : ℕ → ℕ → Type 0
Demand3 n r = Ends n r
""",
    "crates/hilofanur/src/lib.rt": """\
ghost use Rattle.std.specs.Prelude.{◌≡◌};
ghost use Rattle.word.specs.Word.{twice};
ghost use Rattle.translation.specs.Demand3.{Demand3};

pub struct Answer {
    pub value: u64,
}

#[unsafe(no_mangle)]
pub extern "C" fn hilofanur_twice(n: u64) -> Answer
    ensures { result.value ≡ twice n }
{
    Answer { value: n + n }
}

#[unsafe(no_mangle)]
pub extern "C" fn hilofanur_same(n: u64) -> u64
    ensures same { result ≡ n }
    ensures demand3 { Demand3 n result }
{
    n
}
""",
    "include/small.h": """\
#define SMALL_SIZE 4
enum small_end { SMALL_LAST = 1, SMALL_SPENT = 2 };
struct small_answer {
    uint32_t refusal; /* not a_field; */
};
struct small_answer small_twice(uint64_t number);
""",
    "rust/one/src/lib.rs": """\
mod inner;
macro_rules! counted { () => {}; }
pub const MOST: u32 = 4;
/// `struct Other { field: u8 }` is text.
pub struct One<'a> {
    pub first: &'a [u8; 4],
}
pub enum Kind {
    Plain = 1,
    Held(u32, u64),
}
impl<'a> One<'a> {
    pub const fn begin(&self) -> u8 { let local: u8 = outer(0); local }
}
""",
    "README.md": "# Small\n\nSee [the guarantees](docs/GUARANTEES.md#what-is-proved) and `docs/CRATES.md`.\n",
    "docs/GUARANTEES.md": """\
# Guarantees

## What is proved

`hilofanur_twice` in `crates/hilofanur/src/lib.rt` equals `twice`, `lonely` in
`crates/word/specs/Word.antt`. `Ends` in `crates/translation/specs/Demand3.antt` has `end` and `x0` of
`Ends`; edits `sum-wrong`.

- `SMALL_SIZE`, `SMALL_SPENT`, `small_answer`, `refusal` and `small_twice` in `include/small.h`.
- `inner`, `counted`, `MOST`, `One`, `first`, `Kind`, and `begin` in `rust/one/src/lib.rs`; `first` of `One`;
  `Plain` and `Held` of `Kind`.
- `value` of `Answer` in `crates/hilofanur/src`, `a = b` in `include/small.h`, `word` in `crates.txt`; `sum-*` in
  `crates/word/must-fail`, `One::begin` and `counted!` in `rust/one`, `x` in `word`, `y` of `word`.

| what | where |
|---|---|
| `add` | `crates/le/specs/Le.antt`, `specs/Le.antt` |

<!-- believed -->
| group | lines | text |
|---|---|---|
| the manuals, demand 3 and helper blocks | 14 | 9 |
| the Rust | 0 | 0 |
| Translate, Place and List, the boundary, limits and refusals | 3 | 0 |
| the index | 0 | 0 |
<!-- /believed -->
""",
    "docs/CRATES.md": """\
# Crates

| crate | holds |
|---|---|
| `le`, `word` | numbers |
| `translation` | the demand |
| `hilofanur` | the operations |
""",
    "docs/LANDINGS.md": "# Landings\n\n- [1](landings/01.md): `crates/gone/src/lib.rt`\n",
    "docs/landings/01.md": "# 1\n\n`gone` in `crates/gone/src/lib.rt`.\n",
    "rust/one/README.md": "# One\n\n`One` in `src/lib.rs`, and `include/small.h`.\n",
    "machines/README.md": "# Machines\n\nNothing.\n",
}


class TreeTest(unittest.TestCase):
    def setUp(self):
        folder = tempfile.TemporaryDirectory()
        self.addCleanup(folder.cleanup)
        self.root = pathlib.Path(folder.name)
        for path, text in FILES.items():
            self.write(path, text)
        (self.root / "tools").mkdir()
        for tool in ("believed", "papers"):
            shutil.copy(TOOLS / tool, self.root / "tools")

    def write(self, path, text):
        file = self.root / path
        file.parent.mkdir(parents=True, exist_ok=True)
        file.write_text(text)

    def change(self, path, old, new):
        text = (self.root / path).read_text()
        self.assertEqual(text.count(old), 1, f"{path} has {old!r} not once")
        self.write(path, text.replace(old, new))

    def run_tool(self, name, *arguments):
        command = [sys.executable, self.root / "tools" / name, *arguments]
        return subprocess.run(command, capture_output=True, text=True)
