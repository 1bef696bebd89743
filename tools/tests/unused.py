#!/usr/bin/env python3
"""bench/unused and bench/names on a small repository, in which what they are to find is planted, beside things that
look like it and are used. Nothing is proved and no program is run. On this repository they are run by hand."""
import os
import pathlib
import subprocess
import sys
import tempfile

BENCH = pathlib.Path(os.path.abspath(__file__)).parents[2] / "bench"
sys.dont_write_bytecode = True

TREE = {
    "crates.txt": "low:\nmiddle: low\nhigh: low middle thiserror # the program\n",
    "crates/low/src/lib.rt": """\
// Numbers.
ghost use Rattle.low.specs.Numbers.{is_small, spare_definition};

pub const MOST: u8 = 9;
const SPARE: u8 = 3;

/// Whether a number is small, `spare(2)` aside.
pub fn is_small(number: u8) -> bool
    ensures { result ≡ is_small number }
{
    [number].iter().all(|each| below(*each)) && "spare()".len() == 7
}

fn below(number: u8) -> bool
    ensures { result ≡ is_small number }
{
    number < MOST
}

pub fn spare(number: u8) -> bool {
    only_of_spare(number)
}

fn only_of_spare(number: u8) -> bool {
    number == 2
}

/// A law.
pub fn numbers_are_small()
    ensures { (n : ℕ) → is_small n ≡ true }
{}
""",
    "crates/low/specs/Numbers.antt": """\
-- Numbers, and not spare_definition.
use Rattle.std.specs.Prelude.{ℕ, Bool, true, false, ◌<◌, ◌+◌}

abbrev pub is_small : ℕ → Bool
is_small n = inner n

inner : ℕ → Bool
inner zero = true
inner (suc n) = inner n

abbrev pub spare_definition : ℕ → Bool
spare_definition n = spare_inner n

spare_inner : ℕ → Bool
spare_inner zero = false
spare_inner (suc n) = spare_inner n

pub record IsTwice (n : ℕ) : Type 0 where
  pub spare_field : n < n
""",
    "crates/low/proofs/Lemmas.antt": """\
-- Lemmas.
use Rattle.low.specs.Numbers.{is_small, IsTwice}
use Rattle.std.specs.Prelude.{ℕ, ◌≡◌, ◌+◌, true, refl}

module _ (n : ℕ) (twice : IsTwice
    n) where
  pub used : is_small n ≡ true
  used = go n
    where
      go : ℕ → is_small n ≡ true
      go m = refl

      spare_go : ℕ → is_small n ≡ true
      spare_go m = go m

pub spare_lemma : (n : ℕ) → is_small n ≡ true
spare_lemma zero = refl
spare_lemma (suc n) = spare_lemma n
    where
      inside_spare : ℕ
      inside_spare = zero
""",
    "crates/low/proofs/Spare.antt": "-- Nothing of it.\nfirst_spare : ℕ\nfirst_spare = second_spare\n\n"
    "second_spare : ℕ\nsecond_spare = first_spare\n",
    "crates/low/proofs/Handed.antt": "-- Handed on.\npub use Lemmas.{used as handed}\n",
    "crates/low/proofs/Worked.antt": "-- A worked example.\nuse Rattle.low.specs.Numbers.{is_small}\n"
    "example : is_small 2\nexample = refl\n",
    "crates/low/proofs/below/Answers.antt": "use Rattle.low.proofs.Lemmas as lemmas\n"
    "use Rattle.low.proofs.below.Goals as goal\n\npub returns : goal.returns\nreturns c = lemmas.used c.n\n",
    "crates/middle/src/lib.rt": "// In the middle.\npub struct Unnamed {\n    number: u8,\n}\n",
    "crates/high/src/main.rt": """\
use low::is_small;

const SAID: u8 = 3;

fn main() {
    println!("{SAID} {}", is_small(SAID));
}
""",
    "tools/tool": "#!/usr/bin/env python3\nimport re, os\nfrom here import main as begin\nSPARE = 1\n\n\n"
    "def see_all():\n    return getattr(os, f\"see_{re.I}\")\n\n\ndef spare_too():\n    pass\n",
}
UNUSED = """\
crates/low/proofs/Lemmas.antt:13: local name spare_go
crates/low/proofs/Lemmas.antt:16: lemma spare_lemma
crates/low/proofs/Spare.antt: no declaration is used
crates/low/specs/Numbers.antt:11: definition spare_definition
crates/low/specs/Numbers.antt:14: definition spare_inner
crates/low/src/lib.rt:5: const SPARE
crates/low/src/lib.rt:20: fn spare
crates/low/src/lib.rt:24: fn only_of_spare
crates/middle/src/lib.rt: no declaration is used
crates/low/specs/Numbers.antt:2: import ◌+◌
crates/low/proofs/Lemmas.antt:3: import ◌+◌
crates/low/src/lib.rt:2: import spare_definition
crates/low/proofs/Handed.antt:2: import handed, handed on to nobody
crates.txt: middle does not use low
crates.txt: high does not use middle
crates.txt: high does not use thiserror
tools/tool:4: SPARE
tools/tool:11: spare_too
tools/tool:3: import begin
"""

NOTION = """\
-- A notion.
use Rattle.std.specs.Prelude.{{ℕ, ◌+◌}}

abbrev pub {} : ℕ → ℕ → ℕ
{} {} {} = {} + {} + {}
"""
STATED = """\
-- Lemmas.
use Rattle.std.specs.Prelude.{{ℕ, ◌+◌, ◌≡◌, refl}}

{} : ({} other : ℕ) → {} + other ≡ {}
{} = {}
"""
NAMED = {
    "crates.txt": "a:\nb: a\nc: a b\n",
    "crates/a/specs/Notion.antt": NOTION.format("number", "number", "x", "y", "x", "y", "1"),
    "crates/b/specs/Notion.antt": NOTION.format("number", "number", "x", "y", "x", "y", "2"),
    "crates/c/specs/Notion.antt": NOTION.format("number", "number", "x", "y", "x", "x", "1"),
    "crates/c/specs/Other.antt": NOTION.format("amount", "amount", "one", "two", "one", "two", "1"),
    "crates/a/src/lib.rt": "pub enum Refused {\n    Long,\n    Bad(u32),\n    NoMemory,\n}\n",
    "crates/b/src/lib.rt": "pub enum Wrong {\n    Long,\n    Bad(u64),\n    NoMemory,\n}\n",
    "crates/c/src/lib.rt": "pub enum Other {\n    Long,\n    Bad(u64),\n    NoName,\n}\n",
    "crates/a/proofs/Lemma.antt": STATED.format("sum", "n", "n", "n", "sum n other", "refl"),
    "crates/b/proofs/Lemma.antt": STATED.format("added", "k", "k", "k", "added k other", "cc"),
    "crates/c/proofs/Lemma.antt": STATED.format("turned", "k", "other", "k", "turned k other", "cc"),
}
NAMES = """\
shared: number: 3 crates: a/specs/Notion.antt:4 b/specs/Notion.antt:4 c/specs/Notion.antt:4
doubled: number a/specs/Notion.antt:4 = amount c/specs/Other.antt:4
doubled: Refused a/src/lib.rt:1 = Wrong b/src/lib.rt:1
stated: sum a/proofs/Lemma.antt:4 = added b/proofs/Lemma.antt:4
1 shared, 2 doubled, 1 stated
"""
# the same with a table of what stays, in which the last row is out of date
ACCEPTED = NAMED | {
    "bench/accepted_names.txt": "# What stays.\n\nshared a.number b.number c.number: each counts its own things\n"
    "doubled a.Refused b.Wrong: each is its crate's answer\ndoubled a.Gone b.Gone: not there\n",
}
LEFT = """\
doubled: number a/specs/Notion.antt:4 = amount c/specs/Other.antt:4
doubled: bench/accepted_names.txt has a.Gone b.Gone, which is no longer so
stated: sum a/proofs/Lemma.antt:4 = added b/proofs/Lemma.antt:4
0 shared, 2 doubled, 1 stated
"""


def ended(script, tree):
    """The status of a script on a small repository, and what it wrote."""
    with tempfile.TemporaryDirectory(prefix="rtic-unused-") as folder:
        for path, text in tree.items():
            file = pathlib.Path(folder, path)
            file.parent.mkdir(parents=True, exist_ok=True)
            file.write_text(text, encoding="utf8")
        done = subprocess.run([sys.executable, BENCH / script, folder], stdin=subprocess.DEVNULL, encoding="utf8",
                              stdout=subprocess.PIPE, stderr=subprocess.STDOUT, check=False)
    return done.returncode, done.stdout


def main():
    """Ends with 1 where a script does not write what it is to write."""
    clean = {"crates.txt": "high:\n", "crates/high/src/main.rt": "fn main() {}\n"}
    wanted = [("unused", TREE, (1, UNUSED)), ("unused", clean, (0, "")), ("names", NAMED, (0, NAMES)),
              ("names", ACCEPTED, (0, LEFT))]
    wrong = 0
    for script, tree, due in wanted:
        found = ended(script, tree)
        if found != due:
            wrong += 1
            print(f"unused: bench/{script}: status {found[0]}, not {due[0]}:\n{found[1]}instead of\n{due[1]}")
    print(f"unused: {len(wanted)} repositories, {wrong} wrong")
    return 1 if wrong else 0


if __name__ == "__main__":
    sys.exit(main())
