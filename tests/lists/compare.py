"""The replies of a program to a script, compared with those of the table of lists; and a script made shorter."""
import subprocess
from dataclasses import dataclass, replace

from .forms import FORMS, command
from .steps import outcomes
from .table import Table
from .writing import Places

SECONDS = 60


@dataclass
class Difference:
    """The first line of a script that is answered otherwise."""

    number: int
    line: bytes
    wanted: str
    found: str


def replies(program, word, lines):
    """What the program writes for a script, line by line, and what ends otherwise than it should, or None."""
    script = b"".join(it + b"\n" for it in lines)
    ran = subprocess.run([program, word], input=script, capture_output=True, env={}, timeout=SECONDS)
    found = ran.stdout.decode("latin-1").split("\n")
    ended = (ran.returncode, found[-1], ran.stderr[-300:])
    return found[:-1], None if ended == (0, "", b"") else "status {}, {!r}, {!r}".format(*ended)


def fitting(reply, table, found):
    """The table after a line where the reply fits what was found, else None."""
    if not isinstance(reply, Places):
        return table if reply == found else None
    block = table.blocks[reply.block]
    if not found.isdigit() or found != str(int(found)):
        return None
    places = int(found) + reply.offset
    if places < block.least or (block.most is not None and places > block.most):
        return None
    table.blocks[reply.block] = replace(block, least=places, most=places)
    return table


def told(reply, table):
    """A reply as a text."""
    if not isinstance(reply, Places):
        return f"`{reply}`"
    block = table.blocks[reply.block]
    if block.least == block.most:
        return f"`{block.least - reply.offset}`"
    most = "" if block.most is None else f" and at most {block.most - reply.offset}"
    return f"a number of at least {max(0, block.least - reply.offset)}{most}"


def difference(word, lines, found, end):
    """The first difference between these replies and those of the table of lists, or None. As long as the
    definitions leave a number of places open there are several tables, of which each reply leaves those that fit."""
    tables = [Table(word)]
    for number, line in enumerate(lines, 1):
        possible = [it for table in tables for it in outcomes(table, line)]
        reply = found[number - 1] if number <= len(found) else None
        wanted = " or ".join(sorted({told(*it) for it in possible}))
        if reply is None:
            return Difference(number, line, wanted, f"no reply ({end})")
        fit, tables = [fitting(*it, reply) for it in possible], []
        for table in fit:
            if table and table not in tables:
                tables.append(table)
        if not tables:
            return Difference(number, line, wanted, f"`{reply}`")
    if end or len(found) > len(lines):
        more = end or f"`{found[len(lines)]}`"
        return Difference(len(lines), lines[-1] if lines else b"", "the end of the output", more)
    return None


def compared(program, word, lines):
    found, end = replies(program, word, lines)
    return difference(word, lines, found, end), found


def without(lines, found, gone):
    """A script without some lines, and without those that name a window which these made; the others are named
    by the numbers that they have then."""
    made = {int(reply[1:]): at for at, reply in enumerate(found) if reply[:1] == "h"}
    left, numbers = [], {}
    for at, line in enumerate(lines):
        if at in gone:
            continue
        said = command(line)
        if said:
            words, sorts = line.split(b" "), FORMS[said[0]][0]
            for place, sort in enumerate(sorts, 1):
                if sort == "w" and int(words[place]) in made:
                    words[place] = numbers.get(int(words[place]))
            if None in words:
                continue
            line = b" ".join(words)
        for number in [it for it, where in made.items() if where == at]:
            numbers[number] = b"%d" % len(numbers)
        left.append(line)
    return left


def shrunken(program, word, lines):
    """A script that still differs, of which no line can go."""
    differs, found = compared(program, word, lines)
    lines = lines[: differs.number]
    size = len(lines)
    while size:
        at = 0
        while at < len(lines):
            fewer = without(lines, found, range(at, at + size))
            other, replied = compared(program, word, fewer)
            if other:
                lines, found = fewer[: other.number], replied
            else:
                at += size
        size //= 2
    return lines
