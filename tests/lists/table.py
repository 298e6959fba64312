"""A table of plain lists: windows by number, the blocks on which they stand, and what is said of these."""
from dataclasses import dataclass, replace

STATIC = "static"

# By the program's word: whether an Arc is a block by itself.
LAYOUTS = {"arc": False, "boxed": False, "vec": False, "raw": True}

# How many bytes a small window has in itself at most.
INLINE_LIMIT = 30

# Requests for memory up to so many places are served here; from so many on no machine can serve them.
SERVED, UNSERVED = 1 << 24, 1 << 47


@dataclass(frozen=True)
class Row:
    """A window: its list, where it stands, how many places it may write, and its role.

    It stands on nothing (None), on static bytes, or on a block (its number) from an offset on. A writer
    whose places reach to its block's end has the capacity None."""

    items: bytes
    block: object
    offset: int
    role: str
    capacity: object = 0


@dataclass(frozen=True)
class Block:
    """A block: its sort (native, vector, buffer, raw), how many places it has at least and at most (None: any
    number), a buffer's own length, whether a buffer may be written, and metadata."""

    sort: str
    least: int
    most: object
    full: int = 0
    writable: bool = True
    metadata: object = None


class Undecided(Exception):
    """The definitions leave open what comes next."""


class Table:
    """The windows and blocks, and how the choices that the definitions leave open are made: by `answers`, one
    after the other."""

    def __init__(self, word):
        self.by_itself = LAYOUTS[word]
        self.rows, self.blocks, self.made, self.begun, self.answers = {}, {}, 0, 0, []

    def __eq__(self, other):
        return (self.rows, self.blocks, self.made) == (other.rows, other.blocks, other.made)

    def trial(self, answers):
        other = object.__new__(Table)
        other.__dict__.update(self.__dict__)
        other.rows, other.blocks, other.answers = dict(self.rows), dict(self.blocks), list(answers)
        return other

    def make(self, row):
        """A window more, under the next number."""
        self.rows[self.made] = row
        self.made += 1
        return f"h{self.made - 1}"

    def begin(self, sort, least, most, **more):
        """A block more, and its number."""
        self.blocks[self.begun] = Block(sort, least, most, **more)
        self.begun += 1
        return self.begun - 1

    def is_on_block(self, row):
        return row.block is not None and row.block is not STATIC

    def sort(self, row):
        return self.blocks[row.block].sort if self.is_on_block(row) else None

    def is_alone(self, row):
        """Whether the row stands on a block on which no other does."""
        return self.is_on_block(row) and sum(it.block == row.block for it in self.rows.values()) == 1

    def choose(self):
        if not self.answers:
            raise Undecided
        return self.answers.pop(0)

    def has_places(self, number, count):
        """Whether the block has so many places; which it was found to have is kept."""
        block = self.blocks[number]
        if block.least >= count:
            return True
        if block.most is not None and block.most < count:
            return False
        found = self.choose()
        self.blocks[number] = replace(block, least=count) if found else replace(block, most=count - 1)
        return found

    def is_served(self, places):
        """Whether a request for memory for so many places is granted."""
        return places <= SERVED or (places < UNSERVED and self.choose())
