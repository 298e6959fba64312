"""Windows that are made of what a line brings. Each function changes the table, and answers the reply."""
from dataclasses import replace

from .table import INLINE_LIMIT, STATIC, Row

STATIC_ITEMS = b"abcd"


def reader(table, items):
    """A reader of a copy of a list: of no items on nothing."""
    block = table.begin("native", len(items), len(items)) if items else None
    return Row(items, block, 0, "r")


def writer(table, items, places):
    """A writer on a new native block of so many places: of none on nothing."""
    if not places:
        return Row(b"", None, 0, "u")
    return Row(items, table.begin("native", places, places), 0, "u", None)


def make_slice(table, items):
    return table.make(reader(table, items))


def make_small(table, items):
    """Up to the limit the bytes are in the window itself, and past that it stands where a reader does."""
    inline = len(items) <= INLINE_LIMIT
    row = Row(items, None, 0, "i") if inline else replace(reader(table, items), role="i")
    return table.make(row)


def make_vec(table, items):
    """A vector has at least its items' places, and without items none."""
    block = table.begin("vector", len(items), None) if items else None
    return table.make(Row(items, block, 0, "r"))


def make_raw(table, items):
    return table.make(Row(items, table.begin("raw", len(items), None, full=len(items), writable=False), 0, "r"))


def buffer(table, items, writable, metadata):
    most = None if items else 0
    more = {"full": len(items), "writable": writable, "metadata": metadata}
    return table.begin("buffer", len(items), most, **more)


def make_buf(table, items, metadata):
    return table.make(Row(items, buffer(table, items, False, metadata), 0, "r"))


def make_mbuf(table, items, metadata):
    return table.make(Row(items, buffer(table, items, True, metadata), 0, "u", None))


def make_static(table):
    return table.make(Row(STATIC_ITEMS, STATIC, 0, "r"))


def make_new(table):
    return table.make(Row(b"", None, 0, "u"))


def make_cap(table, places):
    return table.make(writer(table, b"", places)) if table.is_served(places) else "allocation error"


def make_zero(table, count):
    return table.make(writer(table, bytes(count), count)) if table.is_served(count) else "allocation error"


def make_mslice(table, items):
    return table.make(writer(table, items, len(items)))
