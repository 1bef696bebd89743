"""Tries bench/planted: each edit fits the sources, also those of the gate, and what rt says is read as it is meant."""
import importlib.machinery
import importlib.util
import pathlib
import sys

ROOT = pathlib.Path(__file__).resolve().parents[2]
sys.dont_write_bytecode = True

TEXT = """\
rt: must-fail rt_run/one.edit: refused, as it must be: note: src/writing.rt:30:1: it is not proved that what the \
function ensures holds when it returns (`returns-clause-ok`); the facts known there
rt: must-fail rt_run/two.edit: refused, as it must be (only because a proof file names what the edit took away): a name
rt: must-fail rt_run/three.edit: NOT REFUSED: the crate is still proved with this edit
rt: must-fail rt_run/four.edit: BAD EDIT: it did not reach the prover; the first lines of what it said:
error[E0425]: no such name
rt: must-fail rt_core/five.edit: refused, as it must be: note: src/step.rt:1:1: of another crate
rt: FAILED: rt_run/three.edit
"""


def script():
    """bench/planted as a module."""
    loader = importlib.machinery.SourceFileLoader("planted", str(ROOT / "bench" / "planted"))
    module = importlib.util.module_from_spec(importlib.util.spec_from_loader("planted", loader))
    loader.exec_module(module)
    return module


def main():
    planted = script()
    wrong = []
    for path in [*ROOT.glob("bench/wrong_bodies/*/*.edit"), *ROOT.glob("crates/*/must-fail/*.edit")]:
        crate = path.parent.name if path.parent.name != "must-fail" else path.parents[1].name
        why = planted.misfit(crate, path.read_text(encoding="utf8"))
        wrong += [f"{path.relative_to(ROOT)}: {why}"] if why else []
    found = planted.results("rt_run", TEXT.split("\n"))
    tried = [
        ("a folder of no crate", {path.name for path in planted.BODIES.iterdir()} == set(planted.crates())),
        ("an old text that is not there", planted.misfit("rt_run", "file: src/event.rt\nold: no such line\nnew: 1\n")),
        ("an old text that is there twice", planted.misfit("rt_run", "file: src/event.rt\nold: core\nnew: 1\n")),
        ("a file that is not there", planted.misfit("rt_run", "file: src/none.rt\nold: a\nnew: b\n")),
        ("a definition in place of a body", planted.misfit("rt_run", "file: specs/Done.antt\nold: a\nnew: b\n")),
        ("an edit without a pair", planted.misfit("rt_run", "file: src/event.rt\n")),
        ("the function and the clause", found["one"] == (planted.REFUSED, "by put_held `ok`, src/writing.rt:30")),
        ("a refusal by a name alone", found["two"][0] == planted.BAD),
        ("what is still proved", found["three"][0] == planted.MISSED),
        ("what does not compile, with its error", "no such name" in found["four"][1]),
        ("an edit of another crate", "five" not in found),
    ]
    wrong += [f"{name}: not told as it is to be" for name, is_so in tried if not is_so]
    for line in wrong:
        print(f"planted: {line}")
    return 1 if wrong else 0


if __name__ == "__main__":
    sys.exit(main())
