"""What is said of the commands of a program: by its usage line, which all other places are held against, by the help of
the launcher, by a page, by the man page and by the completions."""
import re

from documenting.tree import text_of

# the operands that are numbers, and how the names of files usually end that others are
NUMBERS = ("NUMBER", "COUNT", "WORKERS", "N")
ENDINGS = {
    "APP": "rtic", "APP1": "rtic", "APP2": "rtic", "SCRIPT": "script", "TRACE": "trace", "LIMITS": "limits",
    "IMAGE": "listing", "BOARD": "board",
}
# the programs, each with the source of its top call and the page that has its tables of commands and of statuses
PROGRAMS = {"rtic": ("crates/rt_top/src/top.rt", "README.md"), "rticx": ("crates/rt_topx/src/top.rt", "docs/RTICX.md")}
FORM = r"\w+(?: \[?[A-Z]+\d?\]?)*"


def usage_line(program="rtic"):
    """The usage line in the source of the top call."""
    source = text_of(PROGRAMS[program][0])
    return re.search(rf'b"(usage: {program} .*?)\\n";', source, re.S)[1].replace("\\\n", "")


def split_forms(forms):
    """The operands of each command, from its words."""
    return {command: tuple(operands) for command, *operands in map(str.split, forms)}


def of_usage(program="rtic"):
    """The operands of each command, by the usage line."""
    return split_forms(usage_line(program).removeprefix(f"usage: {program} ").split(" | "))


def files_in(operands):
    """How many operands are files."""
    return sum(operand not in NUMBERS for operand in operands)


def help_text(program="rtic"):
    """What the option --help writes, as it is in the launcher."""
    return re.search(rf"^help_of_{program}\(\) {{\n    cat <<END\n(.*?)^END\n", text_of("rtic"), re.M | re.S)[1]


def part_of_help(head, program="rtic"):
    """The lines below a head of the help: a pair of words and what is said of them for each."""
    lines = re.search(rf"^{head}:\n((?:  .*\n)*)", help_text(program), re.M)[1].splitlines()
    return [tuple(re.split(r"\s{2,}", line.strip(), maxsplit=1)) for line in lines]


def of_page(program="rtic"):
    """The words of each command in the table of the program's page."""
    return re.findall(rf"^\| `({FORM})` \|", text_of(PROGRAMS[program][1]), re.M)


def statuses_of_page(program="rtic"):
    """The statuses in the table of the program's page, with what each means."""
    return re.findall(r"^\| (\d) \| ([^|]*?) \|", text_of(PROGRAMS[program][1]), re.M)


def section_of_man_page(head, program):
    """The text of a section of the man page."""
    return re.search(rf"^\.SH {head}\n(.*?)(?=^\.SH |\Z)", text_of(f"man/{program}.1"), re.M | re.S)[1]


def of_man_page(program="rtic"):
    """The words of each command in the man page, with what is said of them first."""
    rows = re.findall(r'^\.TP\n\.BI (\w+) "( .*)"\n(.*)$', section_of_man_page("COMMANDS", program), re.M)
    return [(command + operands, said) for command, operands, said in rows]


def statuses_of_man_page(program="rtic"):
    """The statuses in the man page, with what each means."""
    return re.findall(r"^\.TP\n\.B (\d+)\n(.*)$", section_of_man_page('"EXIT STATUS"', program), re.M)


def of_completion(name, program="rtic"):
    """The commands in a completion, with what is said of each: those of each program stand together."""
    blocks = re.findall(r"((?:^ +'\w+:.*'(?: \\)?\n)+)", text_of(f"completion/{name}"), re.M)
    rows = re.findall(r"^ +'(\w+):(.*)'(?: \\)?$", blocks[list(PROGRAMS).index(program)], re.M)
    return [(command, re.sub(r"'\\''|\\'", "'", said)) for command, said in rows]
