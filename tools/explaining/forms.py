"""Applications for which `times`, `deepest` and `rticx respond` have no answer: which condition fails, and where."""
from dataclasses import dataclass

from .costs import Costs
from .tokens import Token
from .walk import uses_of

DEEPEST_INIT = 900_000
NEEDS = {
    "software": "all tasks bind an interrupt",
    "monotonic": "there is no monotonic",
    "pend": {"times": "no body has a `pend`", "deepest": "`init` has no `pend`"},
    "cost": f"`init` costs at most {DEEPEST_INIT:,} core steps",
    "turn": "no body has a `pend` of a dispatcher's interrupt",
}
WHY = {
    "software": {
        "times": "a message comes from a body, and not from outside with a least distance",
        "deepest": "only a run says whether a software task ever starts on top of the others",
    },
    "monotonic": {
        "times": "the timer's requests come from ticks, and not with a least distance in core steps",
        "deepest": "the timer's interrupt comes from ticks and messages, and not from the script's requests alone",
        "rticx respond": "it has no numbers for the timer",
    },
    "pend": {
        "times": "requests are to come only from outside",
        "deepest": "such a request would fill the stack in an order of its own",
    },
    "cost": {"deepest": "a script has 1,000,000 events at most, and `init` takes its steps first"},
    "turn": {"rticx respond": "it has no numbers for a dispatcher that finds no message"},
}


@dataclass
class Failed:
    """A condition that fails: its key, and what is in its way, a token and a sentence for each place."""

    key: str
    places: list


def failed(app, command):
    """The conditions of a command that an application does not meet."""
    rows = [("software", software(app))] if command in WHY["software"] else []
    rows += [("monotonic", monotonic(app))]
    rows += [("pend", pends(app, command))] if command in NEEDS["pend"] else []
    rows += [("cost", cost(app))] if command == "deepest" else []
    rows += [("turn", turns(app))] if command in WHY["turn"] else []
    return [Failed(key, places) for key, places in rows if places]


def software(app):
    return [(task.name, f"`{task.name.text}` binds no interrupt, so it is a software task")
            for task in app.tasks if task.is_software]


def monotonic(app):
    return [(app.monotonic[0], f"the monotonic binds `{app.monotonic[1].text}`")] if app.monotonic else []


def pends_of(body):
    """The places of a body that pend, by the interrupt."""
    return [(use.token.text, (Token("word", "pend", use.node.at),
                              f"`{body.name.text}` requests `{use.token.text}` here"))
            for use in uses_of(body) if use.role == "pend"]


def pends(app, command):
    bodies = [body for body in app.bodies if command != "deepest" or body.kind == "init"]
    return [place for body in bodies for _, place in pends_of(body)]


def turns(app):
    """The places that pend the interrupt of a dispatcher in use."""
    used = {token.text for token, _ in zip(app.dispatchers, app.levels())}
    return [place for body in app.bodies for name, place in pends_of(body) if name in used]


def cost(app):
    init = app.body("init")
    steps = Costs(app, 0).body(init) if init else 0
    return [(init.name, f"`init` costs {steps:,} core steps")] if steps > DEEPEST_INIT else []


def need(key, command):
    """What a condition asks, and why, in words."""
    asked = NEEDS[key] if isinstance(NEEDS[key], str) else NEEDS[key][command]
    return f"`{command}` asks that {asked}, because {WHY[key][command]}"
