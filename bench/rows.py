"""The tables of bench/ops: what each row runs, and over what. The words are those of both programs,
bench/operations and bench/rust."""
from typing import NamedTuple

# How often a loop runs, the fewer times and the more.
SHORT, ROUNDS, LARGE = (1_000, 11_000), (10, 210), (1, 3)
STEPS = 1_024


class Row(NamedTuple):
    """An operation. `off` is the loop whose number is taken off, and `steps` into how many a turn
    is divided; `wanted` is at most so many."""

    word: str
    text: str
    off: str = "window_loop"
    steps: int = 1
    runs: tuple = SHORT
    wanted: str = ""


class Column(NamedTuple):
    """What the loops run over, by the programs' word, and whether each stands twice in them."""

    head: str
    side: str
    is_two: bool = False


class Table(NamedTuple):
    """A table, by the word that picks it."""

    word: str
    title: str
    columns: list
    rows: list


BLOCK = [Column("on a block", "block"), Column("two call sites", "block", True)]

READING = Table(
    "reading",
    "Read",
    [
        *BLOCK,
        Column("a vector", "vector"),
        Column("a buffer", "buffer"),
        Column("static", "static"),
        Column("an `Arc`", "arc"),
        Column("kit's `Bytes`", "kit"),
    ],
    [
        Row("clone", "clone and release, local window", wanted="20"),
        Row("clone_shared", "clone and release, behind `&`", wanted="27"),
        Row("clone_hint", "clone, dropped by the hint"),
        Row("empty_cut", "empty cut, local window"),
        Row("empty_cut_shared", "empty cut, behind `&`"),
        Row("short_cut", "short cut and release, local window", wanted="33"),
        Row("short_cut_shared", "short cut and release, behind `&`", wanted="52"),
        Row("split_off", "clone, `split_off` and release of both"),
        Row("read", "the items, again", "loop", wanted="6"),
        Row("unique", "`is_unique`", "loop"),
        Row("advance", "a byte less at the front (`advance`)"),
        Row("make", "128 bytes copied in, and release", wanted="205"),
        Row("make_hint", "128 bytes copied in, dropped by the hint"),
        Row("array", "an array of 32 as a window, and back", "loop"),
        Row("back", "a vector or buffer as a window, and back", wanted="1,096"),
    ],
)

WRITING = Table(
    "writing",
    "Written",
    [
        *BLOCK,
        Column("a vector", "vector"),
        Column("a buffer", "buffer"),
        Column("`Vec<u8>`", "std"),
        Column("kit's `BytesMut`", "kit"),
    ],
    [
        Row("push", "a byte pushed, something else after it", "rounds", STEPS, ROUNDS, "8"),
        Row("push_row", "a byte pushed, nothing between two", "loop", STEPS, ROUNDS, "9.6"),
        Row("grow", "1,024 bytes pushed from empty, and release", "loop", 1, ROUNDS, "14,000"),
        Row("grow_million", "a million bytes, for each byte", "loop", 1_000_000, LARGE),
        Row("extend", "64 bytes copied in where there is room", "rounds", STEPS, ROUNDS, "30"),
        Row("extend_odd", "63 bytes", "rounds", STEPS, ROUNDS, "30"),
        Row("extend_long", "1,000 bytes", "rounds", STEPS, ROUNDS, "170"),
        Row("truncate", "a byte less at the end (`truncate`)", "loop", wanted="7"),
        Row("advance_writer", "a byte less at the front (`advance`)", "loop", wanted="9"),
        Row("reserve_room", "`reserve` with room", "loop", wanted="7"),
        Row("write", "`as_mut_slice`, and the first byte set", "loop", wanted="7"),
        Row("read_back", "`as_slice`, again", "loop", wanted="3"),
        Row("freeze", "`try_freeze` and `try_into_mut`", "loop", wanted="25"),
        Row("make_writer", "64 places made, and release", "loop", wanted="205"),
        Row("reserve", "64 bytes, room for 64 more, and release", "loop", wanted="640"),
        Row("back_writer", "a vector or buffer as a window, and back", "loop"),
    ],
)

SEVERAL = Table(
    "several",
    "One of several writers",
    [
        Column("on a block", "several"),
        Column("two call sites", "several", True),
    ],
    [
        Row("several_split_off", "the back half split off, and joined", wanted="50"),
        Row("several_split_to", "the front half split off, and joined"),
        Row("several_push", "a byte pushed, something else after it", "rounds", STEPS, ROUNDS),
        Row("several_extend", "64 bytes copied in", "rounds", STEPS, ROUNDS),
        Row("several_truncate", "a byte less at the end (`truncate`)"),
        Row("several_advance", "a byte less at the front (`advance`)"),
        Row("several_reserve", "`reserve` with room"),
        Row("several_reclaim", "`try_reclaim` with room", "loop"),
        Row("several_write", "`as_mut_slice`, and the first byte set", "loop"),
        Row("several_read", "`as_slice`, again", "loop"),
        Row("several_unique", "`try_into_unique` and `into_shared`"),
        Row("several_freeze", "frozen, written again, `into_shared`"),
    ],
)

OWNED = Table(
    "owned",
    "Owned items",
    [
        Column("on a block", "owned"),
        Column("two call sites", "owned", True),
    ],
    [
        Row("owned_clone", "clone and release"),
        Row("owned_cut", "cut of two, and release"),
        Row("owned_make", "eight moved in, and release"),
        Row("owned_array", "eight moved in, and out again"),
        Row("owned_push", "1,024 pushed into room, for each", "rounds", STEPS, ROUNDS),
        Row("owned_freeze", "`try_freeze` and `try_into_mut`"),
    ],
)

LAYOUTS = Table(
    "layouts",
    "Layout",
    [
        Column("default", "block"),
        Column("`BoxedSliceLayout`", "boxed_block"),
        Column("`VecLayout`", "vec_block"),
        Column("`RawLayout`", "raw_block"),
        Column("a vector, default", "vector"),
        Column("`BoxedSliceLayout`", "boxed_vector"),
        Column("`VecLayout`", "vec_vector"),
        Column("`RawLayout`", "raw_vector"),
    ],
    [
        Row("clone_shared", "clone and release, behind `&`"),
        Row("short_cut_shared", "short cut and release, behind `&`"),
        Row("unique", "`is_unique`", "loop"),
        Row("make", "128 bytes copied in, and release"),
        Row("back", "a vector as a window, and back"),
        Row("back_cloned", "the same, with a clone between"),
    ],
)

SMALL = Table(
    "small",
    "Small",
    [
        Column("20 bytes", "inline"),
        Column("two call sites", "inline", True),
        Column("128 bytes", "small"),
    ],
    [
        Row("clone_shared", "clone and release, behind `&`", wanted="15"),
        Row("short_cut_shared", "short cut and release, behind `&`"),
        Row("make", "its bytes copied in, and release"),
        Row("read", "the bytes, again", "loop"),
    ],
)

TRAITS = Table(
    "traits",
    "Traits over 1,000 bytes",
    [Column("on a block", "block"), Column("kit's `Bytes`", "kit")],
    [
        Row("debug", "`{:?}` into a text that is there", "loop", 1, ROUNDS),
        Row("hex", "two hexadecimal digits a byte, into the same", "loop", 1, ROUNDS),
        Row("numbers", "a clone, and 500 times `get_u16`", "loop", 1, ROUNDS),
    ],
)

TABLES = [READING, WRITING, SEVERAL, OWNED, LAYOUTS, SMALL, TRAITS]
