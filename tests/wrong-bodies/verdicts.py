"""What a check's answer says of a wrong body."""
import re

# A clause, what a call asks, or what a type says isn't proved; a loop isn't shown to end; an answer
# by hand doesn't fit, or names what is gone; the prover met a limit of its own; the compiler refuses
# it; it is proved; nothing is known.
CLAUSE, MEASURE, ANSWER, NAMES = "clause", "measure", "answer", "names"
LIMIT, COMPILER, ACCEPTED, UNTRIED = "limit", "compiler", "accepted", "untried"

FRONT_END = re.compile(r"error\[[\w-]+\]")
# Goals of the code that search is at: those with no answer, and those whose answer is a tactic.
GOAL = re.compile(
    r"^(?:note: )?(?:src/\S+: (?:error: )?.*(?:not proved that|`search` found no proof)"
    r"|(?:\./)?proofs/\S+: error: `[^`]+`: `(?:search|grind|omega)`"
    r"|fn \S+: no proof: expected answers in .* did not prove)"
)
ENDLESS = re.compile(r"^fn \S+: no proof: expected a measure")
IN_PROOF = re.compile(r"^(?:note: )?(?:\./)?proofs/\S+: error: ")
GONE = re.compile(r"has no field|is not in scope|has no `|was not admitted|is no name")
LIMITS = re.compile(r"ran out of (?:stack|the (?:steps|memory))|the memory limit|step limit")
BROKEN = re.compile(r"\berror\b")
GOAL_NAME = re.compile(r"error: `([^`]+)`|\(`([^`]+)`\)")
FALSE = "the facts known there allow values at which this goal is false"


def told(lines):
    """The first of the lines, and the goals that the others name."""
    names = [it[1] or it[2] for it in map(GOAL_NAME.search, lines) if it]
    more = [f"`{name}`" for name in dict.fromkeys(names[1:]) if name != names[0]]
    first = re.sub(r" of `goal\..*", " was found", lines[0].removeprefix("note: "))[:240]
    return first + ("; also " + ", ".join(more[:4]) if more else "")


def verdict(status, said):
    """Which of these it is, and the line that says so."""
    lines = said.splitlines()
    of = lambda pattern: [line for line in lines if pattern.search(line)]
    in_proofs = of(IN_PROOF)
    # A goal that is shown to be false says most.
    goals = sorted(of(GOAL), key=lambda line: FALSE not in line)
    fitting = [line for line in in_proofs if not GONE.search(line)]
    if status == 0:
        found = ACCEPTED, ["it is proved"]
    elif status == 1 and of(FRONT_END):
        found = COMPILER, of(FRONT_END)
    elif status in (1, 3) and goals:
        found = CLAUSE, goals
    elif status == 1 and of(ENDLESS):
        found = MEASURE, of(ENDLESS)
    elif status == 1 and in_proofs:
        found = (ANSWER, fitting) if fitting else (NAMES, in_proofs)
    elif status == 3 and of(LIMITS):
        found = LIMIT, of(LIMITS)
    else:
        found = UNTRIED, of(BROKEN) or lines[-1:] or ["it says nothing"]
    return found[0], told(found[1])
