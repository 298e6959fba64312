//! Rows of windows that several write, as those of others.
use super::call::{Ask, Call, Change, Line, Make, Part, Reply, Turn};

/// Two halves of a full window are joined again.
const SPLIT_AND_JOINED: &[Line] = &[
    (Call::Make(Make::WrittenSlice("1234")), Reply::Done),
    (Call::Turn(0, Turn::Share), Reply::Done),
    (Call::Turn(0, Turn::Rejoin(2, "", "")), Reply::Done),
    (Call::Ask(0, Ask::Show("1234")), Reply::Done),
    (Call::Ask(0, Ask::Room), Reply::Number(4)),
    (Call::Part(0, Part::To(1)), Reply::Done),
    (Call::Ask(1, Ask::Show("1")), Reply::Done),
    (Call::Ask(0, Ask::Show("234")), Reply::Done),
    (Call::Turn(1, Turn::Hint), Reply::Done),
    (Call::Turn(0, Turn::Hint), Reply::Done),
];

/// Three parts of a block end in each order, and the last one gives the memory back.
const PARTS_ENDED: &[Line] = &[
    (Call::Make(Make::WrittenSlice("123")), Reply::Done),
    (Call::Turn(0, Turn::Share), Reply::Done),
    (Call::Part(0, Part::Off(1)), Reply::Done),
    (Call::Part(1, Part::Off(1)), Reply::Done),
    (Call::Turn(0, Turn::Drop), Reply::Done),
    (Call::Turn(1, Turn::Drop), Reply::Done),
    (Call::Turn(2, Turn::Drop), Reply::Done),
    (Call::Make(Make::WrittenSlice("123")), Reply::Done),
    (Call::Turn(3, Turn::Share), Reply::Done),
    (Call::Part(3, Part::Off(1)), Reply::Done),
    (Call::Part(4, Part::Off(1)), Reply::Done),
    (Call::Turn(3, Turn::Drop), Reply::Done),
    (Call::Turn(5, Turn::Drop), Reply::Done),
    (Call::Turn(4, Turn::Drop), Reply::Done),
    (Call::Make(Make::WrittenSlice("123")), Reply::Done),
    (Call::Turn(6, Turn::Share), Reply::Done),
    (Call::Part(6, Part::Off(1)), Reply::Done),
    (Call::Part(7, Part::Off(1)), Reply::Done),
    (Call::Turn(7, Turn::Drop), Reply::Done),
    (Call::Turn(6, Turn::Drop), Reply::Done),
    (Call::Turn(8, Turn::Drop), Reply::Done),
    (Call::Make(Make::WrittenSlice("123")), Reply::Done),
    (Call::Turn(9, Turn::Share), Reply::Done),
    (Call::Part(9, Part::Off(1)), Reply::Done),
    (Call::Part(10, Part::Off(1)), Reply::Done),
    (Call::Turn(10, Turn::Drop), Reply::Done),
    (Call::Turn(11, Turn::Drop), Reply::Done),
    (Call::Turn(9, Turn::Drop), Reply::Done),
    (Call::Make(Make::WrittenSlice("123")), Reply::Done),
    (Call::Turn(12, Turn::Share), Reply::Done),
    (Call::Part(12, Part::Off(1)), Reply::Done),
    (Call::Part(13, Part::Off(1)), Reply::Done),
    (Call::Turn(14, Turn::Drop), Reply::Done),
    (Call::Turn(12, Turn::Drop), Reply::Done),
    (Call::Turn(13, Turn::Drop), Reply::Done),
    (Call::Make(Make::WrittenSlice("123")), Reply::Done),
    (Call::Turn(15, Turn::Share), Reply::Done),
    (Call::Part(15, Part::Off(1)), Reply::Done),
    (Call::Part(16, Part::Off(1)), Reply::Done),
    (Call::Turn(17, Turn::Drop), Reply::Done),
    (Call::Turn(16, Turn::Drop), Reply::Done),
    (Call::Turn(15, Turn::Drop), Reply::Done),
];

/// What isn't full isn't joined, and once it is, it is.
const JOINED_WHERE_FULL: &[Line] = &[
    (Call::Make(Make::WrittenPlaces(8)), Reply::Done),
    (Call::Change(0, Change::Extend("abc")), Reply::Done),
    (Call::Turn(0, Turn::Share), Reply::Done),
    (Call::Turn(0, Turn::Rejoin(5, "de", "")), Reply::Done),
    (Call::Ask(0, Ask::Show("abcde")), Reply::Done),
    (Call::Ask(0, Ask::Room), Reply::Number(8)),
    (Call::Turn(0, Turn::Rejoin(6, "", "gh")), Reply::Refused),
    (Call::Ask(0, Ask::Show("abcde")), Reply::Done),
    (Call::Ask(0, Ask::Room), Reply::Number(6)),
];

/// Each part has what is put into it, in its own places. What isn't joined leaves a window that may
/// become the only writer once the part behind has ended.
const PARTS_WRITTEN: &[Line] = &[
    (Call::Make(Make::WrittenPlaces(4)), Reply::Done),
    (Call::Change(0, Change::Extend("a")), Reply::Done),
    (Call::Turn(0, Turn::Share), Reply::Done),
    (Call::Turn(0, Turn::Rejoin(2, "b", "cd")), Reply::Done),
    (Call::Ask(0, Ask::Show("abcd")), Reply::Done),
    (Call::Ask(0, Ask::Room), Reply::Number(4)),
    (Call::Make(Make::WrittenPlaces(8)), Reply::Done),
    (Call::Change(1, Change::Extend("abc")), Reply::Done),
    (Call::Turn(1, Turn::Share), Reply::Done),
    (Call::Turn(1, Turn::Rejoin(5, "", "")), Reply::Refused),
    (Call::Ask(1, Ask::Show("abc")), Reply::Done),
    (Call::Ask(1, Ask::Room), Reply::Number(5)),
    (Call::Turn(1, Turn::Unique), Reply::Done),
    (Call::Change(1, Change::Reclaim(4)), Reply::Yes),
    (Call::Ask(1, Ask::Room), Reply::Number(8)),
];

/// A part without items keeps its places, and the other becomes the only writer once it has ended.
const SPLIT_BEHIND: &[Line] = &[
    (Call::Make(Make::WrittenPlaces(8)), Reply::Done),
    (Call::Change(0, Change::Extend("abc")), Reply::Done),
    (Call::Turn(0, Turn::Share), Reply::Done),
    (Call::Part(0, Part::Off(5)), Reply::Done),
    (Call::Ask(0, Ask::Show("abc")), Reply::Done),
    (Call::Ask(0, Ask::Room), Reply::Number(5)),
    (Call::Ask(1, Ask::Show("")), Reply::Done),
    (Call::Ask(1, Ask::Room), Reply::Number(3)),
    (Call::Turn(0, Turn::Unique), Reply::Refused),
    (Call::Turn(1, Turn::Drop), Reply::Done),
    (Call::Turn(0, Turn::Unique), Reply::Done),
    (Call::Change(0, Change::Reclaim(4)), Reply::Yes),
    (Call::Ask(0, Ask::Show("abc")), Reply::Done),
    (Call::Ask(0, Ask::Room), Reply::Number(8)),
];

/// Beside another writer there is no room but in the window's own places, and none is made.
const ROOM_BESIDE: &[Line] = &[
    (Call::Make(Make::WrittenSlice("1234")), Reply::Done),
    (Call::Turn(0, Turn::Share), Reply::Done),
    (Call::Part(0, Part::Off(2)), Reply::Done),
    (Call::Change(0, Change::Push(b'5')), Reply::NotUnique),
    (Call::Change(0, Change::Extend("xyz")), Reply::NotUnique),
    (Call::Change(0, Change::Reserve(1)), Reply::NotUnique),
    (Call::Change(0, Change::Reclaim(1)), Reply::No),
    (Call::Change(0, Change::Put("x")), Reply::Number(0)),
    (Call::Change(1, Change::Advance(1)), Reply::Done),
    (Call::Change(1, Change::Truncate(0)), Reply::Done),
    (Call::Change(1, Change::Reserve(1)), Reply::Done),
    (Call::Change(1, Change::Reserve(2)), Reply::NotUnique),
    (Call::Change(1, Change::Push(b'6')), Reply::Done),
    (Call::Ask(1, Ask::Show("6")), Reply::Done),
    (Call::Ask(1, Ask::Room), Reply::Number(1)),
    (Call::Turn(1, Turn::Drop), Reply::Done),
    (Call::Change(0, Change::Push(b'5')), Reply::Done),
    (Call::Ask(0, Ask::Show("125")), Reply::Done),
    (Call::Ask(0, Ask::Room), Reply::Number(4)),
    (Call::Change(0, Change::Extend("xyz")), Reply::Done),
    (Call::Ask(0, Ask::Show("125xyz")), Reply::Done),
    (Call::Ask(0, Ask::Room), Reply::Number(8)),
];

/// The last of several writers has the places in front of its own too.
const LAST_RECLAIMS: &[Line] = &[
    (Call::Make(Make::WrittenSlice("12345678")), Reply::Done),
    (Call::Turn(0, Turn::Share), Reply::Done),
    (Call::Part(0, Part::Off(6)), Reply::Done),
    (Call::Change(1, Change::Reclaim(4)), Reply::No),
    (Call::Turn(0, Turn::Hint), Reply::Done),
    (Call::Change(1, Change::Reclaim(4)), Reply::Yes),
    (Call::Ask(1, Ask::Show("78")), Reply::Done),
    (Call::Ask(1, Ask::Room), Reply::Number(8)),
    (Call::Change(1, Change::Reserve(7)), Reply::Done),
    (Call::Ask(1, Ask::Room), Reply::Number(16)),
];

/// The block of the last of several writers grows behind the places that are gone.
const LAST_GROWS: &[Line] = &[
    (Call::Make(Make::WrittenSlice("12345678")), Reply::Done),
    (Call::Turn(0, Turn::Share), Reply::Done),
    (Call::Part(0, Part::Off(6)), Reply::Done),
    (Call::Turn(0, Turn::Drop), Reply::Done),
    (Call::Change(1, Change::Reserve(7)), Reply::Done),
    (Call::Ask(1, Ask::Show("78")), Reply::Done),
    (Call::Ask(1, Ask::Room), Reply::Number(10)),
];

/// A vector moves to a native block when it is split, and then no vector comes back.
const VECTOR_SPLIT: &[Line] = &[
    (Call::Make(Make::WrittenVec("12")), Reply::Done),
    (Call::Turn(0, Turn::Share), Reply::Done),
    (Call::Part(0, Part::Off(1)), Reply::Done),
    (Call::Ask(0, Ask::Show("1")), Reply::Done),
    (Call::Ask(1, Ask::Show("2")), Reply::Done),
    (Call::Make(Make::WrittenVec("34")), Reply::Done),
    (Call::Turn(2, Turn::Share), Reply::Done),
    (Call::Turn(2, Turn::Rejoin(1, "", "")), Reply::Done),
    (Call::Ask(2, Ask::Show("34")), Reply::Done),
    (Call::Turn(2, Turn::TakeVec("34")), Reply::Refused),
    (Call::Make(Make::WrittenVec("567")), Reply::Done),
    (Call::Turn(3, Turn::Share), Reply::Done),
    (Call::Part(3, Part::To(1)), Reply::Done),
    (Call::Ask(4, Ask::Show("5")), Reply::Done),
    (Call::Ask(3, Ask::Show("67")), Reply::Done),
];

/// One that isn't split comes back, also as a box, and grows; a buffer has one writer.
const VECTOR_SHARED: &[Line] = &[
    (Call::Make(Make::WrittenVec("123")), Reply::Done),
    (Call::Turn(0, Turn::Share), Reply::Done),
    (Call::Turn(0, Turn::TakeBuffer("123")), Reply::Refused),
    (Call::Turn(0, Turn::TakeVec("123")), Reply::Done),
    (Call::Make(Make::WrittenVec("23")), Reply::Done),
    (Call::Turn(1, Turn::Share), Reply::Done),
    (Call::Turn(1, Turn::TakeBoxed("23")), Reply::Done),
    (Call::Make(Make::WrittenVec("ab")), Reply::Done),
    (Call::Turn(2, Turn::Share), Reply::Done),
    (Call::Change(2, Change::Extend("cdefgh")), Reply::Done),
    (Call::Turn(2, Turn::Unique), Reply::Done),
    (Call::Turn(2, Turn::TakeVec("abcdefgh")), Reply::Done),
    (Call::Make(Make::WrittenBuffer("ab")), Reply::Done),
    (Call::Turn(3, Turn::Share), Reply::Refused),
    (Call::Turn(3, Turn::TakeBuffer("ab")), Reply::Done),
];

/// One part is frozen beside the other, and written again once it is alone.
const FROZEN_BESIDE: &[Line] = &[
    (Call::Make(Make::WrittenZeros(4)), Reply::Done),
    (Call::Turn(0, Turn::Share), Reply::Done),
    (Call::Part(0, Part::Off(2)), Reply::Done),
    (Call::Turn(0, Turn::Freeze), Reply::Done),
    (Call::Part(0, Part::Clone), Reply::Done),
    (Call::Change(1, Change::Truncate(0)), Reply::Done),
    (Call::Change(1, Change::Put("ab")), Reply::Number(2)),
    (Call::Change(1, Change::Push(b'c')), Reply::NotUnique),
    (Call::Ask(0, Ask::Show("\0\0")), Reply::Done),
    (Call::Ask(0, Ask::IsUnique), Reply::No),
    (Call::Turn(0, Turn::Mut), Reply::Refused),
    (Call::Turn(1, Turn::Freeze), Reply::Done),
    (Call::Ask(1, Ask::Show("ab")), Reply::Done),
    (Call::Turn(1, Turn::Drop), Reply::Done),
    (Call::Turn(2, Turn::Drop), Reply::Done),
    (Call::Turn(0, Turn::Mut), Reply::Done),
    (Call::Ask(0, Ask::Room), Reply::Number(4)),
];

/// A part that is frozen outlives the one that writes: alone, it gives the memory back, or is written
/// again with all places.
const FROZEN_LAST: &[Line] = &[
    (Call::Make(Make::WrittenPlaces(4)), Reply::Done),
    (Call::Change(0, Change::Extend("12")), Reply::Done),
    (Call::Turn(0, Turn::Share), Reply::Done),
    (Call::Part(0, Part::Off(2)), Reply::Done),
    (Call::Turn(0, Turn::Freeze), Reply::Done),
    (Call::Turn(1, Turn::Drop), Reply::Done),
    (Call::Ask(0, Ask::IsUnique), Reply::Yes),
    (Call::Ask(0, Ask::Show("12")), Reply::Done),
    (Call::Turn(0, Turn::Drop), Reply::Done),
    (Call::Make(Make::WrittenPlaces(4)), Reply::Done),
    (Call::Change(2, Change::Extend("12")), Reply::Done),
    (Call::Turn(2, Turn::Share), Reply::Done),
    (Call::Part(2, Part::Off(2)), Reply::Done),
    (Call::Turn(2, Turn::Freeze), Reply::Done),
    (Call::Turn(3, Turn::Hint), Reply::Done),
    (Call::Turn(2, Turn::Mut), Reply::Done),
    (Call::Ask(2, Ask::Show("12")), Reply::Done),
    (Call::Ask(2, Ask::Room), Reply::Number(4)),
    (Call::Turn(2, Turn::Hint), Reply::Done),
];

/// A front longer than the items is split off: it has them all, and empty places behind them.
const SPLIT_IN_ROOM: &[Line] = &[
    (Call::Make(Make::WrittenPlaces(8)), Reply::Done),
    (Call::Change(0, Change::Extend("abc")), Reply::Done),
    (Call::Turn(0, Turn::Share), Reply::Done),
    (Call::Part(0, Part::To(5)), Reply::Done),
    (Call::Ask(1, Ask::Show("abc")), Reply::Done),
    (Call::Ask(1, Ask::Room), Reply::Number(5)),
    (Call::Ask(0, Ask::Show("")), Reply::Done),
    (Call::Ask(0, Ask::Room), Reply::Number(3)),
];

/// On nothing parts are joined, and none becomes an only writer; each has a block of its own then.
const SPLIT_ON_NOTHING: &[Line] = &[
    (Call::Make(Make::Written), Reply::Done),
    (Call::Turn(0, Turn::Share), Reply::Done),
    (Call::Turn(0, Turn::Rejoin(0, "", "")), Reply::Done),
    (Call::Ask(0, Ask::Show("")), Reply::Done),
    (Call::Turn(0, Turn::Unique), Reply::Refused),
    (Call::Part(0, Part::Off(0)), Reply::Done),
    (Call::Change(0, Change::Push(b'1')), Reply::Done),
    (Call::Ask(0, Ask::Room), Reply::Number(8)),
    (Call::Change(1, Change::Extend("23")), Reply::Done),
    (Call::Ask(0, Ask::Show("1")), Reply::Done),
    (Call::Ask(1, Ask::Show("23")), Reply::Done),
    (Call::Turn(0, Turn::Unique), Reply::Done),
];

/// An array comes back where it is the whole block, and the only writer left.
const ARRAYS_SHARED: &[Line] = &[
    (Call::Make(Make::WrittenArray([1, 2, 3])), Reply::Done),
    (Call::Turn(0, Turn::Share), Reply::Done),
    (Call::Part(0, Part::Off(3)), Reply::Done),
    (Call::Turn(0, Turn::TakeThree([1, 2, 3])), Reply::Refused),
    (Call::Turn(1, Turn::Drop), Reply::Done),
    (Call::Turn(0, Turn::TakeThree([1, 2, 3])), Reply::Done),
    (Call::Make(Make::WrittenArray([4, 5, 6])), Reply::Done),
    (Call::Turn(2, Turn::Share), Reply::Done),
    (Call::Change(2, Change::Truncate(2)), Reply::Done),
    (Call::Turn(2, Turn::TakeThree([4, 5, 6])), Reply::Refused),
    (Call::Ask(2, Ask::Show("\x04\x05")), Reply::Done),
];

/// Rows of several writers, under each layout.
pub const SEVERAL: &[&[Line]] = &[
    SPLIT_AND_JOINED,
    PARTS_ENDED,
    JOINED_WHERE_FULL,
    PARTS_WRITTEN,
    SPLIT_BEHIND,
    ROOM_BESIDE,
    LAST_RECLAIMS,
    LAST_GROWS,
    VECTOR_SPLIT,
    VECTOR_SHARED,
    FROZEN_BESIDE,
    FROZEN_LAST,
    SPLIT_IN_ROOM,
    SPLIT_ON_NOTHING,
    ARRAYS_SHARED,
];
