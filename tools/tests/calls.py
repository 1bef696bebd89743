"""Tries tools/calls: that it prints a row for each public call with its needs and causes, that it names each call that
may wait, by a search of its own in the sources, and that it tells of a call that lacks a clause."""
import pathlib
import re
import subprocess
import sys

TOOLS = pathlib.Path(__file__).resolve().parents[1]
sys.path.insert(0, str(TOOLS))
sys.dont_write_bytecode = True

from calling import sources, table

PLAIN = sources.Call("crate", "cut", ["&mut self", "alloc: Global"], "Result<(), NoMemory>", "", [])
OK = sources.Clause("ensures", "done", "OnOk result (self.new ≡ [])")
LEFT = sources.Clause("ensures", "left", "OnErr result (self.new ≡ self.old)")
WHEN = sources.Clause("ensures", "when", "IsErr result ↔ (self.old ≡ [])")
TWO = ["first: &mut Core", "second: &mut Core"]
NEXT = sources.Clause("ensures", "next", "MatchOption result (self.old ≡ []) (λ t. self.old ≡ t ∷ self.new)")


def lacks(answer, *clauses, parameters=PLAIN.parameters):
    """Whether a call with an answer and clauses is told to lack one."""
    return bool(table.wrong(PLAIN._replace(answer=answer, clauses=list(clauses), parameters=parameters)))


# rows as a person reads them off the sources
ROWS = (
    "| `Names::add_irq` | `named`, `unknown`, `room` | `NoMemory` | `unchanged` |",
    "| `Nvic::enter` | `enabled`, `pending`, `room` |  |  |",
    "| `Nvic::pick` |  | `None`: `value` |  |",
    "| `Irq::new` |  | `None`: `in_range`, `value` |  |",
)
WAITS = re.compile(r"^ *pub fn (\w+)<[^(]*\b(?:Threads|Gate)\b", re.M)


def printed(*words):
    """What tools/calls prints, and its status."""
    done = subprocess.run([sys.executable, str(TOOLS / "calls"), *words], capture_output=True, text=True, check=False)
    return done.stdout, done.returncode


def unprinted(text):
    """What a print of all calls lacks: a crate, a row, or a call that may wait."""
    crates = sources.below(sources.PROGRAM)
    front = text.split("\n\n", 1)[0].replace("\n", " ")
    lacking = [crate for crate in sorted({call.crate for call in table.tabled()}) if f"\n### {crate}\n" not in text]
    lacking += [row for row in ROWS if row not in text]
    for crate in crates:
        for path in sorted((sources.ROOT / "crates" / crate / "src").rglob("*.rt")):
            lacking += [f"{crate} {name}" for name in WAITS.findall(path.read_text(encoding="utf8"))
                        if not re.search(rf"`(?:\w+::)?{name}` of `{crate}`", front)]
    return lacking


def main():
    said, status = printed("check")
    text, ended = printed()
    lacking = unprinted(text)
    tried = [
        ("want of memory that leaves something unsaid", lacks("Result<(), NoMemory>", OK), True),
        ("want of memory that leaves all as it was", lacks("Result<(), NoMemory>", OK, LEFT), False),
        ("an error without a cause",
         lacks("Result<(), Refused>", OK, LEFT._replace(text="self.new ≡ self.old")), True),
        ("an error with its cause, and what it leaves", lacks("Result<(), Refused>", WHEN, LEFT), False),
        ("None without a cause", lacks("Option<u8>"), True),
        ("None where nothing is left", lacks("Option<u8>", NEXT), False),
        ("false without a cause", lacks("bool", LEFT._replace(text="self.new ≡ self.old")), True),
        ("a call that always answers", lacks("u32", parameters=["&self"]), False),
        ("a call that leaves something unsaid", lacks("u32"), True),
        ("want of memory that leaves the second argument unsaid",
         lacks("Result<(), NoMemory>", LEFT._replace(text="OnErr result (first.new ≡ first.old)"), parameters=TWO),
         True),
        ("a row that is missing", unprinted(text.replace(ROWS[0], "")) == lacking + [ROWS[0]], True),
        ("a call that may wait and is not named", "rt_soak soak" in unprinted(text.replace("`soak` of", "`sok` of")),
         True),
        ("a crate that is missing", "rt_dual" in unprinted(text.replace("### rt_dual", "### rt_other")), True),
        ("a crate alone", "rt_nvic" in printed("rt_nvic")[0] and "rt_core" not in printed("rt_nvic")[0], True),
        ("a crate that is none", printed("rt_none")[1], 2),
    ]
    wrong = [name for name, is_told, wanted in tried if is_told != wanted]
    print(said, end="")
    for name in lacking:
        print(f"calls: not printed: {name}")
    for name in wrong:
        print(f"calls: {name}: not told as it is to be")
    return 1 if status or ended or lacking or wrong else 0


if __name__ == "__main__":
    sys.exit(main())
