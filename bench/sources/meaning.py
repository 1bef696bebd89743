"""What a declaration says, without the names that it could have in another way: its own, and those of its variables."""
import re

SIGN = re.compile(r"[^\s(){}\[\].,;]+|[(){}\[\].,;]")
MODIFIERS = {"pub", "abbrev", "unfoldable", "opaque"}
# a variable begins with a small letter; what begins with a capital one is a constructor or a type
VARIABLE = re.compile(r"[a-z_]")
# what the end of a type has that is a statement and no type of numbers, lists and the like
STATES = re.compile(r"[≡≢<≤↔⊎⊥¬]|^ *(?:Is|Are|Has|Have|May|Can|Keeps|Fits|All|Any|Contains)")


def meaning(graph, file, declared):
    """The signs of a declaration. Fields and constructors keep their names, because they are what it means."""
    return plain(graph, file, declared, declared.text, declared.kind == "term")


def statement(graph, file, declared):
    """The signs of the type of a lemma; nothing of what states nothing."""
    lines = declared.text.split("\n")
    indentation = lines[0][: len(lines[0]) - len(lines[0].lstrip())]
    clause = re.compile(rf"{indentation}(?:unfolding |{re.escape(declared.name)}(?=[\s({{]))")
    end = next((number for number, line in enumerate(lines) if number and clause.match(line)), len(lines))
    text = "\n".join(lines[:end])
    is_lemma = "abbrev" not in lines[0].split(":")[0].split() and STATES.search(last_part(text))
    return plain(graph, file, declared, text, True) if is_lemma else ()


def last_part(text):
    """What a type says behind its last arrow outside of brackets."""
    level, start = 0, 0
    for place, sign in enumerate(text):
        level += (sign in "([{") - (sign in ")]}")
        if level == 0 and sign in ":→":
            start = place + 1
    return text[start:]


def plain(graph, file, declared, text, renames):
    """The signs of a text: what others declare under their places, and variables under numbers, where it `renames`."""
    taken = {each.name: each for each in file.imports if each.item}
    aliases = {each.name: each.module for each in file.imports if not each.item}
    own, variables, found, before = {each.name for each in file.declared}, {}, [], ""
    signs = SIGN.findall(" ".join([*declared.heads, text]))
    for sign, behind in zip(signs, [*signs[1:], ""]):
        if sign in MODIFIERS and before != ".":
            continue
        if sign == declared.name:
            found.append("@")
        elif before == "." or behind == "=" and before in ("{", ";"):
            # a field behind a point, or the label of one
            found.append(sign)
        elif sign in taken:
            found.append(item_named(graph, taken[sign]))
        elif sign in aliases or sign in own:
            found.append(aliases.get(sign, f"{file.module}.{sign}"))
        elif renames and VARIABLE.match(sign):
            found.append(f"v{variables.setdefault(sign, len(variables))}")
        else:
            found.append(sign)
        before = sign
    return tuple(found)


def item_named(graph, import_):
    """What an import stands for: its key, and its own name, which tells the constructors of one type apart."""
    return f"{graph.key(import_.module, import_.item) or import_.module} {import_.item}"
