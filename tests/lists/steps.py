"""What a line is answered, and the table after it."""
from . import making, reading, writing
from .forms import FORMS, command, is_for
from .table import Undecided

# A form that makes a window of what it brings has a function of its name behind `make_`, and most others have one of
# their name. Splits go by the window's role.
STEPS = {
    **{word: getattr(making, f"make_{word}", None) for word in FORMS},
    **{word: getattr(reading, word) for word in FORMS if hasattr(reading, word)},
    **{word: getattr(writing, word) for word in FORMS if hasattr(writing, word)},
    "len": reading.length,
}
WRITERS_STEPS = {"off": writing.off_writer, "to": writing.to_writer}


def step(table, line):
    """The reply to a line, by the tests in their order: its form, the windows, their roles, and then the rest."""
    said = command(line)
    if said is None:
        return "bad line"
    word, operands = said
    if not FORMS[word][1]:
        return STEPS[word](table, *operands)
    numbers = [it for sort, it in zip(FORMS[word][0], operands) if sort == "w"]
    rows = [table.rows.get(it) for it in numbers]
    if None in rows:
        return "no window"
    if not all(is_for(word, row.role) for row in rows) or len(set(numbers)) < len(numbers):
        return "kind"
    steps = {**STEPS, **WRITERS_STEPS} if rows[0].role == "s" else STEPS
    return steps[word](table, numbers[0], rows[0], *operands[1:])


def outcomes(table, line):
    """Each reply that the definitions allow, with the table after it."""
    pending = [[]]
    while pending:
        answers = pending.pop()
        after = table.trial(answers)
        try:
            reply = step(after, line)
        except Undecided:
            pending += [answers + [False], answers + [True]]
        else:
            yield reply, after
