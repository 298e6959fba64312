"""Random scripts. Which windows there are is followed by the table of lists, so that most lines name one."""
import random

from .forms import FORMS, is_for, is_had
from .steps import outcomes
from .table import LAYOUTS, Table

LARGEST = 10**18 - 1

# How often a form is taken beside the others.
WEIGHTS = {
    **dict.fromkeys(FORMS, 4),
    **dict.fromkeys(["vec", "mbuf", "push", "ext", "res", "adv", "clone", "mut"], 8),
    **dict.fromkeys(["room", "rec", "off", "to", "sub", "uniq", "trunc", "takebuf", "share", "join", "show"], 6),
    **dict.fromkeys(["takestatic", "static", "len", "new"], 2),
}

# On what a window stands for which a form is not refused at once.
WANTED = {"mut": "vector", "take": "vector", "takebox": "vector", "takebuf": "buffer", "takeraw": "raw"}


class Script:
    """The lines so far, and the windows that there are after them, by the first choice of each that is open. Each
    script takes some forms more often than others do and some never, so that what seldom meets does meet."""

    def __init__(self, seed):
        self.random = random.Random(seed)
        self.table = Table(self.random.choice(sorted(LAYOUTS)))
        self.lines = []
        self.before = None  # the window that was named last
        self.most_alive = self.random.choice([3, 6, 12, 20])
        self.few = self.random.choice([2, 4, 9])
        self.weights = {it: WEIGHTS[it] * self.random.choice([0, 1, 1, 4]) for it in FORMS if is_had(it)}
        making = [it for it in self.weights if not FORMS[it][1]]
        self.weights[self.random.choice(making)] = 16

    def add(self, line):
        self.lines.append(line)
        self.table = next(outcomes(self.table, line))[1]

    def window(self, word, beside):
        """The number of a window: mostly of one that the form is for, and of a late one; or of one that stands on
        the block of another."""
        chance = self.random.random()
        if chance < 0.04 or not self.table.rows:
            return self.random.choice([self.table.made, self.random.randrange(self.table.made + 1), LARGEST])
        alive = sorted(self.table.rows)
        fit = [it for it in alive if is_for(word, self.table.rows[it].role)]
        if word in WANTED and self.random.random() < 0.6:
            fit = [it for it in fit if self.table.sort(self.table.rows[it]) == WANTED[word]] or fit
        if beside:
            fit = [it for it in fit if self.table.rows[it].block == beside.block]
        numbers = alive if chance < 0.08 or not fit else fit
        self.before = self.random.choice(numbers[-5:] if self.random.random() < 0.5 else numbers)
        return self.before

    def items(self):
        """Few bytes; about as many as small windows have in themselves; many."""
        kind = self.random.random()
        count = self.random.randint(0, self.few) if kind < 0.9 else self.random.randint(20, 33)
        if kind > 0.98:
            count = self.random.randint(34, 600)
        return self.random.randbytes(count).hex() or "-"

    def number(self, row):
        """About a length, or places that a window has or lacks; few; the largest, and past what memory has."""
        few = [0, 1, 2, 8, self.random.randint(0, 40)]
        if row:
            count = len(row.items)
            few += [count, count, max(0, count - 1), count + 1, count // 2] * 2
            few += [self.random.randint(0, count)] * 4
            if self.table.is_on_block(row):
                places = self.table.blocks[row.block].least
                spare = places - row.offset - count
                few += [it for it in (spare, spare + 1, places - count, places, 2 * places - count) if it >= 0]
        many = [LARGEST, LARGEST // 7, self.random.randint(0, 3000)]
        return self.random.choice(many if self.random.random() < 0.03 else few)

    def form(self):
        """A form, and the window that was named last where the form is for that and is to be on it again."""
        words, again = list(self.weights), self.before
        if again in self.table.rows and self.random.random() < 0.5:
            words = [it for it in words if is_for(it, self.table.rows[again].role)]
        else:
            again = None
            if len(self.table.rows) >= self.most_alive:
                words = ["drop"] if self.random.random() < 0.6 else ["take", "takebox", "takebuf", "takeraw"]
        return self.random.choices(words, [self.weights[it] + 0.01 for it in words])[0], again

    def good(self):
        """A line of a form."""
        word, again = self.form()
        operands, row = [], None
        for sort in FORMS[word][0]:
            if sort == "w":
                number = again if again is not None else self.window(word, row)
                again = None
                row = self.table.rows.get(number)
                operands.append(str(number))
            elif sort == "n":
                operands.append(str(self.number(row)))
            else:
                operands.append(self.random.randbytes(1).hex() if sort == "b" else self.items())
        return " ".join([word] + operands).encode()

    def bad(self):
        """A line that is nearly one of a form: a byte more, less or other, or a word more, less or twice."""
        line = self.good()[:200]
        at, byte = self.random.randrange(len(line) + 1), self.random.choice(b" 0f9AgG-+\t\r\0\xff\xc3_")
        words = line.split(b" ")
        one = self.random.randrange(len(words))
        lines = [
            line[:at] + bytes([byte]) + line[at:],
            line[:at] + line[at + 1 :],
            line[:at] + bytes([byte]) + line[at + 1 :],
            b" ".join(words[:one] + words[one + 1 :]),
            b" ".join(words[: one + 1] + words[one:]),
            b" ".join(words[:one] + [b"0" + words[one]] + words[one + 1 :]),
            b" ".join(words[:one] + [b"1" + b"0" * self.random.randint(16, 19)] + words[one + 1 :]),
            line.upper(),
            words[0] + b" " + b" ".join(words[1:]).upper(),
            b"",
        ]
        return self.random.choice(lines)

    def longest(self):
        """A line as long as one may be, or longer."""
        return b"slice " + b"00" * self.random.choice([32_765, 32_766, 40_000])


def script(seed, count):
    """So many lines. The same seed gives the same ones, and a longer script begins with the shorter one."""
    made = Script(seed)
    while len(made.lines) < count:
        chance = made.random.random()
        line = made.longest() if chance < 0.0005 else made.bad() if chance < 0.06 else made.good()
        if b"\n" not in line:
            made.add(line)
    return made.lines
