"""Windows that are read: cuts, splits, being alone, and taking back; and what each window may be asked. Each function
of a table is one of its window's number and row and of the line's operands: it changes the table, and answers the
reply."""
from dataclasses import replace

from .forms import text
from .table import Row


def part(row, start, end):
    """A window over a part: with no items it stands on nothing."""
    items = row.items[start:end]
    if not items:
        return replace(row, items=b"", block=None, offset=0)
    return replace(row, items=items, offset=row.offset + start)


def cut(row, start, end):
    """The window itself, cut: it stays where it stands, also with no items."""
    return replace(row, items=row.items[start:end], offset=row.offset + start)


def clone(table, i, row):
    return table.make(row)


def sub(table, i, row, start, end):
    if end > len(row.items):
        return "out of range"
    return "invalid range" if start > end else table.make(part(row, start, end))


def off(table, i, row, at):
    if at > len(row.items):
        return "out of range"
    if at == 0:
        table.rows[i] = part(row, 0, 0)
        return table.make(row)
    table.rows[i] = cut(row, 0, at)
    return table.make(part(row, at, len(row.items)))


def to(table, i, row, at):
    if at > len(row.items):
        return "out of range"
    if at == len(row.items):
        table.rows[i] = part(row, at, at)
        return table.make(row)
    table.rows[i] = cut(row, at, len(row.items))
    return table.make(part(row, 0, at))


def uniq(table, i, row):
    return "yes" if table.is_alone(row) and table.sort(row) != "raw" else "no"


def mut(table, i, row):
    """A writer has all places up to the block's end; what stands on no block has to be empty."""
    if not table.is_on_block(row):
        if row.items:
            return "refused"
        table.rows[i] = Row(b"", None, 0, "u")
        return "ok"
    if not table.blocks[row.block].writable or not table.is_alone(row):
        return "refused"
    table.rows[i] = replace(row, role="u", capacity=None)
    return "ok"


def taken(table, i, row, is_wanted):
    """The list of a window whose block goes with it."""
    if not is_wanted:
        return "refused"
    del table.rows[i]
    return text(row.items)


def take(table, i, row):
    return taken(table, i, row, table.sort(row) == "vector" and table.is_alone(row))


def takebox(table, i, row):
    if table.sort(row) != "vector" or not table.is_alone(row) or row.offset:
        return "refused"
    count = len(row.items)
    return taken(table, i, row, table.has_places(row.block, count) and not table.has_places(row.block, count + 1))


def is_whole(table, row):
    return row.offset == 0 and len(row.items) == table.blocks[row.block].full


def takebuf(table, i, row):
    return taken(table, i, row, table.sort(row) == "buffer" and table.is_alone(row) and is_whole(table, row))


def takeraw(table, i, row):
    is_free = table.by_itself or table.is_alone(row)
    return taken(table, i, row, table.sort(row) == "raw" and is_free and is_whole(table, row))


def takestatic(table, i, row):
    return taken(table, i, row, not table.is_on_block(row))


def meta(table, i, row):
    metadata = table.blocks[row.block].metadata if table.is_on_block(row) else None
    return "none" if metadata is None else str(metadata)


def adv(table, i, row, by):
    if by > len(row.items):
        return "out of range"
    row = cut(row, by, len(row.items))
    table.rows[i] = replace(row, capacity=row.capacity and row.capacity - by)
    return "ok"


def trunc(table, i, row, count):
    if count < len(row.items):
        table.rows[i] = replace(row, items=row.items[:count])
    return "ok"


def length(table, i, row):
    return str(len(row.items))


def show(table, i, row):
    return text(row.items)


def drop(table, i, row):
    del table.rows[i]
    return "ok"
