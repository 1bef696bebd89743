"""The table of public calls: what each needs, when it answers something else than success, and what it then leaves."""
import re
import textwrap

from calling.sources import calls

HEAD = "| Call | Needs | Other answers, and their cause | Left |\n|---|---|---|---|\n"
# Types of answers of which each value is a cause of its own.
TELLING = ("Status", "Verdict", "Verified", "Pended", "Measure")
FAILS = re.compile(
    r"\b(OnErr|IfErr|IsErr|IsErrOf|Err|HasEffect|RepliesOrStops|HasCause|MatchResult|Reads|ReadsBytes)\b"
)
SUCCEEDS = re.compile(r"^(OnOk|IfOk|OnSome|IfSome)\b")
DECIDES = re.compile(r"\bresult\b.*(≡|↔)|(≡|↔).*\bresult\b|MatchOption|IsTrue result|IsFalse result"
                     r"|^(YieldsFirst|StepsToItem|Passes|TotalJudged)|\bIs(FirstBroken|Decoding)\b.* result$")
# Calls of which no clause says what is left where memory is used up: each adds to what its caller then lets go.
LEFT_UNSAID = {
    "rt_ids push_bytes", "rt_ids push_number", "rt_outside LineSink::take", "rt_gen_queue fill",
    "rt_baker_work begin_body", "rt_baker_work answer", "rt_baker_work Store::effect", "rt_baker_work settle",
    "rt_baker_work Work::begin", "rt_listing push_first_line", "rt_listing push_cell", "rt_listing push_irq",
    "rt_listing push_body", "rt_listing push_spaced", "rt_listing push_count", "rt_listing push_instr",
    "rt_listing push_section", "rt_listing push_note", "rt_elf push_words", "rt_native push_stub",
    "rt_native push_sequence", "rt_native push_tick", "rt_judge Sections::take", "rt_judge Findings::take_point",
    "rt_judge Nestings::behind", "rt_judge NestingTable::put", "rt_judge walk_from", "rt_judge Walk::take_in",
    "rt_judge look_at_thread", "rt_judge look_at_handler",
    "rt_baker judge_item", "rt_inputs_audit InputsAuditor::end",
}
# Arguments of which no clause says what is left: the sink of a text has had lines of it, a buffer may have had bytes,
# and a judge is done with.
ARGUMENTS_UNSAID = {
    ("rt_outside read_lines", "sink"), ("rt_outside Source::read", "buffer"), ("rt_baker Judge::verdict", "self"),
    ("rt_baker judge_total", "state"), ("rt_inputs_audit InputsJudge::verdict", "self"),
    ("rt_inputs_audit InputsAuditor::end", "self"),
}


def is_law(call):
    """Whether a call is a statement alone: it takes nothing and answers nothing."""
    return not call.parameters and not call.answer


def needs(call):
    return [clause.name or "its condition" for clause in call.clauses if clause.kind == "requires"]


def promised(call):
    return [clause for clause in call.clauses if clause.kind == "ensures"]


def names(clauses):
    return [clause.name or "its clause" for clause in clauses]


def error_of(call):
    """The type of a call's error, or an empty text."""
    found = re.match(r"Result<(.*)>$", call.answer)
    return found[1].rsplit(",", 1)[-1].strip() if found else ""


def changes(call):
    """The parameters that a call may change."""
    return [each for each in call.parameters if re.match(r"&(?:'\w+ )?mut |\w+: &(?:'\w+ )?mut ", each)]


def name_of(parameter):
    """The name by which clauses speak of a parameter."""
    return "self" if parameter.startswith("&") else parameter.split(":")[0].split()[-1]


def unsaid(call):
    """The arguments lent to be changed of which no clause says what is left, of a call with an error where it fails."""
    clauses = [clause for clause in promised(call) if not error_of(call) or is_of_failure(clause)]
    return [name for name in map(name_of, changes(call)) if (key(call), name) not in ARGUMENTS_UNSAID
            and not any(tells_of(clause, name) for clause in clauses)]


def tells_of(clause, name):
    """Whether a clause speaks of an argument as it is left. What an iterator gives tells of the iterator itself."""
    return clause.name == "next_gives" or re.search(rf"\b{name}\.(new|entry)\b", clause.text)


def causes(call):
    """What a call may answer besides success, and the clauses that say when; None where no clause does."""
    error = error_of(call)
    whole = [clause for clause in promised(call) if clause.text.startswith("result ≡")]
    if error in ("NoMemory", "AllocError"):
        return f"`{error}`", []
    if error:
        found = names([clause for clause in promised(call) if FAILS.search(clause.text)] or whole)
        return f"`{error}`", found or None
    for word, other in (("Option<", "`None`"), ("bool", "`false`")):
        if call.answer.startswith(word):
            found = names([clause for clause in promised(call) if DECIDES.search(clause.text)] or whole)
            return other, found or None
    if call.answer in TELLING:
        return f"`{call.answer}`", names(promised(call)) or None
    return "", []


def is_of_failure(clause):
    """Whether a clause says something of what is left where the call does not succeed."""
    return ".new" in clause.text and not SUCCEEDS.match(clause.text)


def left(call):
    """The clauses that say what is left where a call with an error changes what is lent to it; None where none does."""
    if not error_of(call) or not changes(call):
        return []
    return names([clause for clause in promised(call) if is_of_failure(clause)]) or None


def may_wait(call):
    return bool(re.search(r"\b(Threads|Gate)\b", call.bounds))


def listed(found):
    return ", ".join(f"`{name}`" if " " not in name else name for name in dict.fromkeys(found))


def key(call):
    return f"{call.crate} {call.name}"


def row(call):
    """A call's row."""
    answer, found = causes(call)
    other = f"{answer}: {listed(found)}" if found else answer
    stays = left(call)
    kept = "not said" if stays is None else listed(stays)
    return f"| `{call.name}` | {listed(needs(call))} | {other} | {kept} |\n"


def wrong(call):
    """What a call lacks, or an empty text."""
    if causes(call)[1] is None:
        return f"{key(call)}: no clause says when it answers {causes(call)[0]}"
    if unsaid(call) and key(call) not in LEFT_UNSAID:
        when = " where it fails" if error_of(call) else ""
        return f"{key(call)}: no clause says what is left of {', '.join(unsaid(call))}{when}"
    return ""


def tabled():
    """The public calls that have a row: all but laws."""
    return (call for call in calls() if not is_law(call))


def printed(found):
    """What is said of some calls: which of them may wait, and a table for each crate."""
    found = list(found)
    text, crate = [], None
    waiting = ", ".join(f"`{call.name}` of `{call.crate}`" for call in found if may_wait(call)) or "none"
    front = f"These may wait for threads that they started, or in a test's gate: {waiting}."
    for call in found:
        if call.crate != crate:
            crate = call.crate
            text.append(f"\n### {crate}\n\n{HEAD}")
        text.append(row(call))
    return textwrap.fill(front, 120) + "\n" + "".join(text)
