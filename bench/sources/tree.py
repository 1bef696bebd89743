"""The crates with the libraries that each uses, and their files."""
import pathlib

ROOT = pathlib.Path(__file__).resolve().parents[2]


class Tree:
    """A repository: crates.txt, and the folders src, specs and proofs of each crate."""

    def __init__(self, root=ROOT):
        self.root = pathlib.Path(root)
        self.uses = dict(map(split_line, filter(is_crate, self.text("crates.txt").splitlines())))
        self.crates = list(self.uses)

    def text(self, path):
        """The text of a file, by its path from the root."""
        return (self.root / path).read_text(encoding="utf8")

    def files(self, crate, folder, ending):
        """The files of a crate's folder with an ending, each by its path from the root."""
        found = (self.root / "crates" / crate / folder).rglob(f"*{ending}")
        return sorted(str(path.relative_to(self.root)) for path in found)

    def below(self, crate):
        """A crate, and all of the repository that it stands on."""
        found, left = set(), [crate]
        while left:
            name = left.pop()
            left += [each for each in self.uses.get(name, []) if each in self.uses and each not in found]
            found.add(name)
        return found


def is_crate(line):
    """Whether a line of crates.txt names a crate."""
    return ":" in line.split("#")[0]


def split_line(line):
    """The crate of a line of crates.txt, and the libraries that it uses."""
    name, libraries = line.split("#")[0].split(":", 1)
    return name.split()[0], libraries.split()


def module_of(path):
    """The module of a file, by its path from the root: `rt_ids.specs.Lists` of crates/rt_ids/specs/Lists.antt."""
    return path.removeprefix("crates/").rpartition(".")[0].replace("/", ".")
