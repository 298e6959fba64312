//! Rows: commands one after the other, and what each is answered. They come from the rules of
//! places, room and edges, and never from what a run shows.
use super::sent::Call;
use crate::tables::Said;
use arc_owners::error::{RangeError, TryReserveError};

/// A command, and what it is to be answered.
pub type Line = (Call, Said);

/// Text is copied whole, from a string, and cut between characters. No byte is pushed into it, and
/// none is made of a buffer, which may hold any bytes.
const COPIED: &[Line] = &[
    (Call::Raw(b"Hello"), Said::Kind),
    (Call::Buf(b"Hello"), Said::Kind),
    (Call::MBuf(b"Hello"), Said::Kind),
    (Call::Slice("h\u{e9}llo"), Said::New(0)),
    (Call::MSlice("abc"), Said::New(1)),
    (Call::Static("xyz"), Said::New(2)),
    (Call::Zero(2), Said::New(3)),
    (Call::Sub(0, 0, 3), Said::New(4)),
    (Call::Sub(0, 0, 2), Said::Range(RangeError::NotBoundary)),
    (Call::Push(1, 100), Said::Kind),
    (Call::Ext(1, "d"), Said::Ok),
    (Call::Len(1), Said::Number(4)),
    (Call::Show(1, "abcd"), Said::Items),
    (Call::Show(2, "xyz"), Said::Items),
    (Call::Show(3, "\0\0"), Said::Items),
    (Call::Show(4, "h\u{e9}"), Said::Items),
    (Call::TakeStatic(4, ""), Said::Refused),
    (Call::Adv(2, 1), Said::Ok),
    (Call::TakeStatic(2, "yz"), Said::Static),
];

/// A string comes in, and goes out as one.
const STRING: &[Line] = &[
    (Call::Vec("h\u{e9}llo"), Said::New(0)),
    (Call::Adv(0, 3), Said::Ok),
    (Call::Show(0, "llo"), Said::Items),
    (Call::TakeBuf(0), Said::Refused),
    (Call::TakeRaw(0), Said::Refused),
    (Call::Take(0, "llo"), Said::Vec),
    (Call::Take(0, ""), Said::NoWindow),
    (Call::Vec("h\u{e9}llo"), Said::New(1)),
    (Call::Mut(1), Said::Ok),
    (Call::Trunc(1, 2), Said::Range(RangeError::NotBoundary)),
    (Call::Trunc(1, 3), Said::Ok),
    (Call::Ext(1, "y"), Said::Ok),
    (Call::Take(1, "h\u{e9}y"), Said::Vec),
];

/// It goes out as a box where the window has all of its places, and no other one stands there.
const BOXED: &[Line] = &[
    (Call::Vec("h\u{e9}llo"), Said::New(0)),
    (Call::Clone(0), Said::New(1)),
    (Call::TakeBox(0, ""), Said::Refused),
    (Call::Drop(1), Said::Ok),
    (Call::TakeBox(0, "h\u{e9}llo"), Said::Boxed),
    (Call::Drop(0), Said::NoWindow),
    (Call::Vec("h\u{e9}llo"), Said::New(2)),
    (Call::Trunc(2, 3), Said::Ok),
    (Call::TakeBox(2, ""), Said::Refused),
    (Call::Take(2, "h\u{e9}"), Said::Vec),
    (Call::Vec("abc"), Said::New(3)),
    (Call::Adv(3, 1), Said::Ok),
    (Call::TakeBox(3, ""), Said::Refused),
    (Call::Mut(3), Said::Ok),
    (Call::TakeBox(3, ""), Said::Kind),
    (Call::Take(3, "bc"), Said::Vec),
];

/// A text that was written is read, cut between characters, and written again once it is alone.
const FROZEN: &[Line] = &[
    (Call::MSlice("h\u{e9}"), Said::New(0)),
    (Call::Ext(0, "llo"), Said::Ok),
    (Call::Freeze(0), Said::Ok),
    (Call::Freeze(0), Said::Kind),
    (Call::Ext(0, "!"), Said::Kind),
    (Call::Room(0), Said::Kind),
    (Call::Sub(0, 1, 2), Said::Range(RangeError::NotBoundary)),
    (Call::Sub(0, 1, 3), Said::New(1)),
    (Call::Take(0, ""), Said::Refused),
    (Call::TakeBox(0, ""), Said::Refused),
    (Call::Mut(0), Said::Refused),
    (Call::Show(1, "\u{e9}"), Said::Items),
    (Call::Drop(1), Said::Ok),
    (Call::Mut(0), Said::Ok),
    (Call::Ext(0, "!"), Said::Ok),
    (Call::Show(0, "h\u{e9}llo!"), Said::Items),
];

/// It is split between characters alone, and behind its bytes anywhere; split places are joined
/// again, and beside another writer there is no room more.
const SEVERAL: &[Line] = &[
    (Call::Cap(8), Said::New(0)),
    (Call::Ext(0, "h\u{e9}"), Said::Ok),
    (Call::Share(0), Said::Ok),
    (Call::Off(0, 2), Said::Range(RangeError::NotBoundary)),
    (Call::Off(0, 9), Said::Range(RangeError::OutOfRange)),
    (Call::Off(0, 6), Said::New(1)),
    (
        Call::Ext(0, "abcde"),
        Said::Reserve(TryReserveError::NotUnique),
    ),
    (Call::Join(0, 1), Said::Refused),
    (Call::Ext(0, "abc"), Said::Ok),
    (Call::Ext(1, "de"), Said::Ok),
    (Call::Unique(0), Said::Refused),
    (Call::Join(0, 1), Said::Ok),
    (Call::Len(0), Said::Number(8)),
    (Call::Room(0), Said::Number(8)),
    (Call::Unique(0), Said::Ok),
    (Call::Unique(0), Said::Kind),
    (Call::Show(0, "h\u{e9}abcde"), Said::Items),
];

/// The places of a string move to a block of our own where they are split, so no string comes back.
const SPLIT: &[Line] = &[
    (Call::Vec("h\u{e9}llo"), Said::New(0)),
    (Call::Mut(0), Said::Ok),
    (Call::Share(0), Said::Ok),
    (Call::To(0, 2), Said::Range(RangeError::NotBoundary)),
    (Call::To(0, 3), Said::New(1)),
    (Call::Show(1, "h\u{e9}"), Said::Items),
    (Call::Show(0, "llo"), Said::Items),
    (Call::Drop(1), Said::Ok),
    (Call::Take(0, ""), Said::Refused),
];

/// A word in a small window itself and a line that is shared are cloned, and cut between
/// characters.
const SMALL: &[Line] = &[
    (Call::Small("h\u{e9}llo"), Said::New(0)),
    (Call::Small("\u{e9} is more than the limit"), Said::New(1)),
    (Call::Clone(1), Said::New(2)),
    (Call::Sub(0, 0, 3), Said::New(3)),
    (Call::Sub(0, 0, 2), Said::Range(RangeError::NotBoundary)),
    (Call::Adv(2, 1), Said::Range(RangeError::NotBoundary)),
    (Call::Uniq(1), Said::Kind),
    (Call::Trunc(0, 1), Said::Kind),
    (Call::Adv(2, 3), Said::Ok),
    (Call::Drop(1), Said::Ok),
    (Call::Show(3, "h\u{e9}"), Said::Items),
    (Call::Show(2, "is more than the limit"), Said::Items),
];

/// All rows.
pub const ROWS: &[&[Line]] = &[COPIED, STRING, BOXED, FROZEN, SEVERAL, SPLIT, SMALL];
