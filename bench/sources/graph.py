"""What the sources reach, from programs, tests, laws and answers on: a graph of what is declared, by names.

A definition or lemma is a node by its module and name, and leads to what its text names: what its file declares, and
what the file takes from others. An item of code is a node by its crate and name, and leads to all that is declared
under a name in its code, in its crate and those below. A name stands for each of several that share it, so what is left
over is without a user, and some of the rest may be too."""
from collections import namedtuple

from sources import antt, code

Node = namedtuple("Node", "path line kind name is_local")


class Graph:
    """The declarations of a tree, where each leads, and where a walk begins."""

    def __init__(self, tree):
        self.tree = tree
        self.proofs = [antt.File(tree, path) for crate in tree.crates for folder in ("specs", "proofs")
                       for path in tree.files(crate, folder, ".antt")]
        self.code = [code.File(tree, path) for crate in tree.crates for path in tree.files(crate, "src", ".rt")]
        self.modules = {file.module: file for file in self.proofs}
        self.nodes, self.leads, self.roots, self.owners = {}, {}, set(), {}
        # an item of code may name one of a file that comes later
        for file in self.code:
            self.add_items(file)
        for file in self.code:
            self.lead_from_code(file)
        for file in self.proofs:
            self.add_proofs(file)

    def add_items(self, file):
        """The nodes of a file of code."""
        for item in file.items:
            key = (item.crate, item.name)
            self.nodes.setdefault(key, []).append(Node(file.path, item.line, item.kind, item.name, False))
            self.owners.setdefault(item.name, set()).add(item.crate)
            self.roots |= {key} if item.is_root else set()

    def lead_from_code(self, file):
        """Where the nodes of a file of code lead, and what it cites."""
        below = self.tree.below(file.crate)
        for item in file.items:
            self.leads.setdefault((item.crate, item.name), set()).update(self.items(item, below))
        self.roots |= set(file.cited) | self.taken(file.imports, file.names, file.paths)
        self.roots |= {(file.crate, name) for name in file.in_clauses if not self.is_called((file.crate, name))}

    def is_called(self, key):
        """Whether all that a name stands for in a crate are functions, which are named where they are called."""
        return all(node.kind == "fn" for node in self.nodes.get(key, ()))

    def items(self, item, below):
        """The keys of what an item of code may name."""
        keys = ((crate, name) for name in item.words & self.owners.keys() for crate in self.owners[name] & below)
        return {(crate, name) for crate, name in keys if name in item.calls or not self.is_called((crate, name))}

    def add_proofs(self, file):
        """The nodes of a file of definitions or lemmas, and where they lead."""
        own, is_answer = {declared.name for declared in file.declared}, file.is_answer()
        for declared in file.declared:
            key, kind = (file.module, declared.name), kind_of(file, declared)
            self.nodes.setdefault(key, []).append(
                Node(file.path, declared.line, kind, declared.name, declared.is_local))
            leads = self.leads.setdefault(key, set())
            leads.update((file.module, name) for name in declared.names & own)
            leads.update(self.taken(file.imports, declared.names, declared.paths))
            self.roots |= {key} if is_answer and declared.is_public or file.is_worked else set()

    def taken(self, imports, names, paths):
        """The keys of what a text names of what its file takes."""
        found = set()
        for taken in imports:
            if taken.item and is_named(taken.name, names):
                found.add(self.key(taken.module, taken.item))
            module = f"{taken.module}.{taken.item}" if taken.item else taken.module
            found |= {self.key(module, name) for front, name in paths if front == taken.name}
        return found - {None}

    def taken_from(self, imports, paths):
        """Each module from which a file takes a name, with the name, whether by itself or by a path."""
        for taken in imports:
            yield self.named(taken.module), taken.item
            module = self.named(f"{taken.module}.{taken.item}" if taken.item else taken.module)
            yield from ((module, name) for front, name in paths if front == taken.name)

    def named(self, module):
        """The module of the file in which a module is, or itself."""
        parts = module.split(".")
        while parts and ".".join(parts) not in self.modules:
            parts.pop()
        return ".".join(parts) or module

    def key(self, module, name):
        """The key of what a module exports under a name, or None where that is no declaration of the tree."""
        parts = module.split(".")
        if "declared" in parts:
            words = [*parts[parts.index("declared") + 1 :], name]
            return next(((parts[0], word) for word in reversed(words) if parts[0] in self.owners.get(word, ())), None)
        file = self.modules.get(self.named(module))
        if file is None:
            return None
        for taken in file.imports:
            if taken.is_public and taken.name == name and taken.item:
                inner = f"{file.module}.{taken.module}"
                return self.key(inner if inner in self.modules else taken.module, taken.item)
        return file.module, name

    def reached(self):
        """The keys that are reached."""
        found, left = set(), list(self.roots)
        while left:
            key = left.pop()
            if key not in found:
                found.add(key)
                left += self.leads.get(key, ())
        return found


def is_named(name, names):
    """Whether a text has a name: that of an operator, or all its signs."""
    return name in names or "◌" in name and all(part in names for part in name.split("◌") if part)


def kind_of(file, declared):
    """What a declaration of a file is called."""
    if declared.is_local:
        return "local name"
    return "definition" if file.folder == "specs" or declared.kind != "term" else "lemma"
