"""The section of the documents that says what a refusal is about: each answer ends with one."""
GRAMMAR, FORMS = ("LANGUAGE", "Applications"), ("LANGUAGE", "Each form by an example")
NAMES, USERS = ("LANGUAGE", "What names mean"), ("LANGUAGE", "Who may use a resource")
REFUSALS = ("LANGUAGE", "Refusals")
RESPOND = ("RESPOND", "The report")
OF_RULES = {
    5: NAMES, 6: NAMES, 7: USERS, 8: USERS, 9: USERS, 10: USERS, 11: USERS, 12: FORMS, 13: USERS, 14: USERS, 15: USERS,
    16: ("LANGUAGE", "Messages that wait"), 17: ("BOUNDS", "Costs: core steps of a run that is not interrupted"),
    18: USERS,
}
OF_LINES = {
    "script": ("LANGUAGE", "Scripts"), "limits": ("LANGUAGE", "Limits"), "trace": ("LANGUAGE", "Traces"),
    "image": ("LANGUAGE", "Listings"), "board": ("RTICX", "A board, a script and a trace"), "limits beside": RESPOND,
}
AUDITS, COMMANDS = ("LANGUAGE", "Audits"), ("LANGUAGE", "What each command takes")
OF_FORMS = {"times": ("TIMES", "For which applications"), "deepest": ("BOUNDS", "For which applications of `deepest`"),
            "rticx respond": RESPOND}
VERIFY, VERIFY_TIMES = ("VERIFY", "The seven rules"), ("VERIFY", "How long it takes: `rticx bounds`")


def of_refusal(number, in_body):
    """The section on a refusal of this number, in a body or outside of all."""
    if number in (1, 4):
        return REFUSALS
    return OF_RULES.get(number) or (FORMS if in_body else GRAMMAR)


def of_line(which, is_beside):
    """The section on the lines of a text, which may be one of the second program."""
    if is_beside:
        which = {"image": "image", "limits": "limits beside"}.get(which, "board")
    return OF_LINES[which]


def named(section):
    """A section as it is told."""
    page, heading = section
    return f'docs/{page}.md, "{heading}"'


def all_sections():
    """Every section that is told of."""
    rows = [GRAMMAR, FORMS, REFUSALS, AUDITS, COMMANDS, VERIFY, VERIFY_TIMES]
    return rows + [row for table in (OF_RULES, OF_LINES, OF_FORMS) for row in table.values()]
