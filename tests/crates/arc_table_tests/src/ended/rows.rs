//! Rows: commands one after the other, what each is answered, and how many owners each value has
//! then, before the table ends. They come from the rules of places, room and taking back, and never
//! from what a run shows.
use super::sent::{Call, Line};
use crate::tables::Said;
use arc_owners::error::TryReserveError;

/// A row.
#[derive(Clone, Copy)]
pub struct Row {
    pub lines: &'static [Line],
    /// How many owners each value has before the table ends.
    pub living: [usize; 4],
}

/// What is cut off a native block stays in it, and a value that is refused is dropped.
const WRITTEN: Row = Row {
    lines: &[
        (Call::New, Said::New(0)),
        (Call::Push(0, 0), Said::Ok),
        (Call::Push(0, 1), Said::Ok),
        (Call::Push(0, 2), Said::Ok),
        (Call::Trunc(0, 2), Said::Ok),
        (
            Call::Push(0, 3),
            Said::Reserve(TryReserveError::Unsupported),
        ),
        (Call::Freeze(0), Said::Ok),
        (Call::Clone(0), Said::New(1)),
        (Call::Adv(1, 1), Said::Ok),
        (Call::Drop(0), Said::Ok),
    ],
    living: [2, 2, 2, 1],
};

/// A block that grows moves its items, and drops none.
const GROWN: Row = Row {
    lines: &[
        (Call::New, Said::New(0)),
        (Call::Push(0, 0), Said::Ok),
        (Call::Push(0, 1), Said::Ok),
        (Call::Push(0, 2), Said::Ok),
        (Call::Push(0, 3), Said::Ok),
        (Call::Room(0), Said::Number(4)),
        (Call::Res(0, 1), Said::Ok),
        (Call::Room(0), Said::Number(8)),
        (Call::Adv(0, 1), Said::Ok),
    ],
    living: [2; 4],
};

/// A vector comes back once it is alone, and its items end with it; another one is written.
const VECTOR: Row = Row {
    lines: &[
        (Call::Vec, Said::New(0)),
        (Call::Clone(0), Said::New(1)),
        (Call::Sub(1, 1, 2), Said::New(2)),
        (Call::Take(0, &[]), Said::Refused),
        (Call::Drop(0), Said::Ok),
        (Call::Drop(2), Said::Ok),
        (Call::Take(1, &[0, 1, 2]), Said::Vec),
        (Call::Vec, Said::New(3)),
        (Call::Mut(3), Said::Ok),
        (Call::Push(3, 3), Said::Ok),
        (Call::Take(3, &[0, 1, 2, 3]), Said::Vec),
        (Call::Vec, Said::New(4)),
        (Call::Mut(4), Said::Ok),
        (Call::Push(4, 3), Said::Ok),
    ],
    living: [2; 4],
};

/// A vector comes back as a box; a part of another one keeps all its items.
const BOXED: Row = Row {
    lines: &[
        (Call::Vec, Said::New(0)),
        (Call::TakeBox(0, &[0, 1, 2]), Said::Boxed),
        (Call::Vec, Said::New(1)),
        (Call::Sub(1, 3, 3), Said::New(2)),
        (Call::TakeStatic(2, &[]), Said::Static),
        (Call::Off(1, 1), Said::New(3)),
        (Call::Drop(3), Said::Ok),
    ],
    living: [2, 2, 2, 1],
};

/// A buffer that is read isn't given beside other windows, and the last of them keeps all of it.
const BUFFER: Row = Row {
    lines: &[
        (Call::Buf, Said::New(0)),
        (Call::Clone(0), Said::New(1)),
        (Call::TakeBuf(0, &[]), Said::Refused),
        (Call::To(1, 1), Said::New(2)),
        (Call::Drop(0), Said::Ok),
        (Call::Drop(1), Said::Ok),
    ],
    living: [2, 2, 2, 1],
};

/// What is pushed into a buffer ends with it, in the last window or where it is given.
const BUFFER_WRITTEN: Row = Row {
    lines: &[
        (Call::MBuf, Said::New(0)),
        (Call::Push(0, 3), Said::Ok),
        (Call::TakeBuf(0, &[0, 1, 2, 3]), Said::Buffer),
        (Call::MBuf, Said::New(1)),
        (Call::Push(1, 3), Said::Ok),
        (Call::Freeze(1), Said::Ok),
        (Call::Off(1, 3), Said::New(2)),
        (Call::Drop(1), Said::Ok),
    ],
    living: [2; 4],
};

/// An `Arc` of a buffer comes back; another one stays with a part of it.
const RAW: Row = Row {
    lines: &[
        (Call::Raw, Said::New(0)),
        (Call::Clone(0), Said::New(1)),
        (Call::Drop(0), Said::Ok),
        (Call::TakeRaw(1, &[0, 1, 2]), Said::Raw),
        (Call::Raw, Said::New(2)),
        (Call::Sub(2, 0, 1), Said::New(3)),
        (Call::Drop(2), Said::Ok),
    ],
    living: [2, 2, 2, 1],
};

/// Windows that have all ended leave nothing to the table's end.
const ENDED: Row = Row {
    lines: &[
        (Call::Vec, Said::New(0)),
        (Call::Clone(0), Said::New(1)),
        (Call::Off(0, 1), Said::New(2)),
        (Call::Drop(2), Said::Ok),
        (Call::Drop(1), Said::Ok),
        (Call::Drop(0), Said::Ok),
        (Call::Drop(0), Said::NoWindow),
    ],
    living: [1; 4],
};

/// Values are moved in and cut, and never copied: a list to be copied is dropped, and none is
/// shown.
const NOT_COPIED: Row = Row {
    lines: &[
        (Call::Slice, Said::Kind),
        (Call::MSlice, Said::Kind),
        (Call::Small, Said::Kind),
        (Call::Zero(1), Said::Kind),
        (Call::New, Said::New(0)),
        (Call::Push(0, 0), Said::Ok),
        (Call::Push(0, 1), Said::Ok),
        (Call::Ext(0), Said::Kind),
        (Call::Show(0), Said::Kind),
        (Call::Freeze(0), Said::Ok),
        (Call::Sub(0, 1, 2), Said::New(1)),
        (Call::Len(1), Said::Number(1)),
        (Call::Uniq(1), Said::No),
        (Call::Drop(0), Said::Ok),
    ],
    living: [2, 2, 1, 1],
};

/// They have one writer.
const ONE_WRITER: Row = Row {
    lines: &[
        (Call::Cap(2), Said::New(0)),
        (Call::Share(0), Said::Kind),
        (Call::Unique(0), Said::Kind),
        (Call::Join(0, 0), Said::Kind),
        (Call::Join(0, 1), Said::NoWindow),
    ],
    living: [1; 4],
};

/// A vector and a buffer come back as all of their values alone.
const PARTS: Row = Row {
    lines: &[
        (Call::Vec, Said::New(0)),
        (Call::Sub(0, 1, 2), Said::New(1)),
        (Call::Drop(0), Said::Ok),
        (Call::Take(1, &[]), Said::Refused),
        (Call::Drop(1), Said::Ok),
        (Call::MBuf, Said::New(2)),
        (Call::Push(2, 3), Said::Ok),
        (Call::Freeze(2), Said::Ok),
        (Call::Trunc(2, 3), Said::Ok),
        (Call::TakeBuf(2, &[]), Said::Refused),
    ],
    living: [2; 4],
};

/// All rows.
pub const ROWS: &[Row] = &[
    WRITTEN,
    GROWN,
    VECTOR,
    BOXED,
    BUFFER,
    BUFFER_WRITTEN,
    RAW,
    ENDED,
    NOT_COPIED,
    ONE_WRITER,
    PARTS,
];
