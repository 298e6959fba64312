"""Windows that are written: their places, room for more, and splits and joins of several writers. Each function of a
table is one of its window's number and row and of the line's operands: it changes the table, and answers the reply."""
from dataclasses import dataclass, replace

from .making import writer
from .table import Row

FIRST_PLACES = 8


@dataclass(frozen=True)
class Places:
    """A reply that says how many places there are from an offset on: any number that the block may have."""

    block: int
    offset: int


def has_capacity(table, row, places):
    """Whether a writer has so many places."""
    if not table.is_on_block(row):
        return places == 0
    if row.capacity is None:
        return table.has_places(row.block, row.offset + places)
    return places <= row.capacity


def to_split(table, i, row):
    """Where a writer of several stands to be split: of a vector's he moves to a native block of as many places as
    he has."""
    if table.sort(row) != "vector":
        return row
    block = table.blocks[row.block]
    most = None if block.most is None else block.most - row.offset
    number = table.begin("native", max(0, block.least - row.offset), most)
    return replace(row, block=number, offset=0)


def front(row, at):
    return replace(row, items=row.items[:at], capacity=0 if row.block is None else at)


def back(row, at):
    rest = row.capacity if row.capacity is None or row.block is None else row.capacity - at
    offset = 0 if row.block is None else row.offset + at
    return replace(row, items=row.items[at:], offset=offset, capacity=rest)


def off_writer(table, i, row, at):
    if not has_capacity(table, row, at):
        return "out of range"
    row = to_split(table, i, row)
    table.rows[i] = front(row, at)
    return table.make(back(row, at))


def to_writer(table, i, row, at):
    if at > len(row.items):
        return "out of range"
    row = to_split(table, i, row)
    table.rows[i] = back(row, at)
    return table.make(front(row, at))


def room(table, i, row):
    if table.is_on_block(row) and row.capacity is None:
        return Places(row.block, row.offset)
    return str(row.capacity)


def reserved(table, row, more):
    """A writer with room for so many bytes more where that takes no memory, or why there is none."""
    count = len(row.items)
    if has_capacity(table, row, count + more):
        return row
    if not table.is_on_block(row):
        return "first"
    if row.role == "s" and not table.is_alone(row):
        return "not unique"
    if table.has_places(row.block, row.offset + count + more):
        return replace(row, capacity=None)
    if row.offset >= count and table.has_places(row.block, count + more):
        return replace(row, offset=0, capacity=None)
    return "growth"


def grown(table, row, more):
    """The writer in a larger block, or None where memory for it was refused. A block grows to the larger of twice its
    places and what is needed; a caller's buffer to any number that is enough."""
    block = table.blocks[row.block]
    needed = row.offset + len(row.items) + more
    if not table.is_served(needed):
        return None
    if block.sort == "buffer":
        least, most = needed, None
    else:
        least = max(2 * block.least, needed)
        most = None if block.most is None else max(2 * block.most, needed)
    table.blocks[row.block] = replace(block, least=least, most=most)
    return replace(row, capacity=None)


def filled(table, i, row, more, items):
    """Room for so many bytes more, and then these behind the others."""
    found = reserved(table, row, more)
    if found == "not unique":
        return found
    if found == "first":
        places = max(FIRST_PLACES, more)
        if not table.is_served(places):
            return "allocation error"
        found = replace(writer(table, b"", places), role=row.role)
    elif found == "growth":
        found = grown(table, row, more)
        if found is None:
            return "allocation error"
    table.rows[i] = replace(found, items=found.items + items)
    if table.sort(found) == "buffer" and items:
        block = table.blocks[found.block]
        end = found.offset + len(found.items) + len(items)
        table.blocks[found.block] = replace(block, full=max(block.full, end))
    return "ok"


def res(table, i, row, more):
    return filled(table, i, row, more, b"")


def push(table, i, row, item):
    return filled(table, i, row, 1, item)


def ext(table, i, row, items):
    return filled(table, i, row, len(items), items)


def rec(table, i, row, more):
    found = reserved(table, row, more)
    if not isinstance(found, Row):
        return "no"
    table.rows[i] = found
    return "yes"


def share(table, i, row):
    if table.sort(row) == "buffer":
        return "refused"
    table.rows[i] = replace(row, role="s")
    return "ok"


def unique(table, i, row):
    if not table.is_alone(row):
        return "refused"
    table.rows[i] = replace(row, role="u")
    return "ok"


def join(table, i, row, j):
    """The other's places begin where this one's end, each of which has an item; or both stand on nothing."""
    other, count = table.rows[j], len(row.items)
    is_beside = row.block == other.block and (row.block is None or row.offset + count == other.offset)
    if not is_beside or has_capacity(table, row, count + 1):
        return "refused"
    capacity = None if other.capacity is None else count + other.capacity
    table.rows[i] = replace(row, items=row.items + other.items, capacity=capacity)
    del table.rows[j]
    return "ok"


def freeze(table, i, row):
    table.rows[i] = replace(row, role="r", capacity=0)
    return "ok"
