//! Rows: calls one after the other, and what each is answered. Replies come from the rules of
//! places, room and taking back, and never from what a run shows.
use super::call::{Ask, Call, Change, Line, Make, Part, Reply, Turn};

/// A first block is as large as what comes, and a frozen window is cut.
const EXTENDED_AND_FROZEN: &[Line] = &[
    (Call::Make(Make::Written), Reply::Done),
    (Call::Change(0, Change::Extend("Hello world")), Reply::Done),
    (Call::Ask(0, Ask::Room), Reply::Number(11)),
    (Call::Turn(0, Turn::Freeze), Reply::Done),
    (Call::Part(0, Part::Sub(0, 5)), Reply::Done),
    (Call::Ask(1, Ask::Show("Hello")), Reply::Done),
    (Call::Part(0, Part::To(6)), Reply::Done),
    (Call::Ask(2, Ask::Show("Hello ")), Reply::Done),
    (Call::Ask(0, Ask::Show("world")), Reply::Done),
];

/// A first block has eight places, and the next one sixteen.
const PUSHED: &[Line] = &[
    (Call::Make(Make::Written), Reply::Done),
    (Call::Change(0, Change::Push(b'1')), Reply::Done),
    (Call::Ask(0, Ask::Room), Reply::Number(8)),
    (Call::Change(0, Change::Extend("2345678")), Reply::Done),
    (Call::Ask(0, Ask::Room), Reply::Number(8)),
    (Call::Change(0, Change::Push(b'9')), Reply::Done),
    (Call::Ask(0, Ask::Room), Reply::Number(16)),
    (Call::Ask(0, Ask::Show("123456789")), Reply::Done),
];

/// A first block has room for what is asked, and one that is full grows to twice its places or to
/// what is needed.
const ROOM_MADE: &[Line] = &[
    (Call::Make(Make::Written), Reply::Done),
    (Call::Change(0, Change::Reserve(3)), Reply::Done),
    (Call::Ask(0, Ask::Room), Reply::Number(8)),
    (Call::Ask(0, Ask::Show("")), Reply::Done),
    (Call::Make(Make::WrittenSlice("ab")), Reply::Done),
    (Call::Change(1, Change::Extend("cde")), Reply::Done),
    (Call::Ask(1, Ask::Show("abcde")), Reply::Done),
    (Call::Ask(1, Ask::Room), Reply::Number(5)),
    (Call::Make(Make::WrittenSlice("ab")), Reply::Done),
    (Call::Change(2, Change::Reclaim(1)), Reply::No),
    (Call::Change(2, Change::Reserve(1)), Reply::Done),
    (Call::Ask(2, Ask::Show("ab")), Reply::Done),
    (Call::Ask(2, Ask::Room), Reply::Number(4)),
];

/// The items move to the front where they fit before it.
const RECLAIMED: &[Line] = &[
    (Call::Make(Make::WrittenSlice("12345678")), Reply::Done),
    (Call::Change(0, Change::Advance(6)), Reply::Done),
    (Call::Change(0, Change::Reclaim(4)), Reply::Yes),
    (Call::Ask(0, Ask::Show("78")), Reply::Done),
    (Call::Ask(0, Ask::Room), Reply::Number(8)),
];

/// They don't where the room before them is too small, and then the block grows behind them.
const NOT_RECLAIMED: &[Line] = &[
    (Call::Make(Make::WrittenArray([1, 2, 3])), Reply::Done),
    (Call::Turn(0, Turn::Drop), Reply::Done),
    (Call::Make(Make::WrittenSlice("12345678")), Reply::Done),
    (Call::Change(1, Change::Advance(3)), Reply::Done),
    (Call::Change(1, Change::Reclaim(1)), Reply::No),
    (Call::Ask(1, Ask::Room), Reply::Number(5)),
    (Call::Change(1, Change::Push(b'9')), Reply::Done),
    (Call::Ask(1, Ask::Show("456789")), Reply::Done),
    (Call::Ask(1, Ask::Room), Reply::Number(13)),
    (Call::Change(1, Change::Reserve(7)), Reply::Done),
    (Call::Ask(1, Ask::Room), Reply::Number(13)),
    (Call::Change(1, Change::Reserve(8)), Reply::Done),
    (Call::Ask(1, Ask::Room), Reply::Number(29)),
    (Call::Ask(1, Ask::Show("456789")), Reply::Done),
];

/// Room at the end of a block and in front of the items is found without memory.
const ROOM_FOUND: &[Line] = &[
    (Call::Make(Make::WrittenPlaces(8)), Reply::Done),
    (Call::Change(0, Change::Extend("abc")), Reply::Done),
    (Call::Change(0, Change::Advance(3)), Reply::Done),
    (Call::Ask(0, Ask::Room), Reply::Number(5)),
    (Call::Change(0, Change::Reclaim(8)), Reply::Yes),
    (Call::Ask(0, Ask::Room), Reply::Number(8)),
    (Call::Change(0, Change::Reclaim(9)), Reply::No),
    (Call::Change(0, Change::Reserve(9)), Reply::Done),
    (Call::Ask(0, Ask::Room), Reply::Number(16)),
];

/// Zeros have a block of as many places.
const ZEROS: &[Line] = &[
    (Call::Make(Make::WrittenZeros(3)), Reply::Done),
    (Call::Ask(0, Ask::Show("\0\0\0")), Reply::Done),
    (Call::Ask(0, Ask::Room), Reply::Number(3)),
    (Call::Change(0, Change::Push(b'1')), Reply::Done),
    (Call::Ask(0, Ask::Show("\0\0\01")), Reply::Done),
    (Call::Ask(0, Ask::Room), Reply::Number(6)),
];

/// A frozen window is written again once no other owner lives.
const WRITTEN_AGAIN: &[Line] = &[
    (Call::Make(Make::WrittenSlice("12")), Reply::Done),
    (Call::Turn(0, Turn::Freeze), Reply::Done),
    (Call::Change(0, Change::Push(b'3')), Reply::NoCall),
    (Call::Part(0, Part::Clone), Reply::Done),
    (Call::Turn(0, Turn::Mut), Reply::Refused),
    (Call::Turn(1, Turn::Drop), Reply::Done),
    (Call::Turn(0, Turn::Mut), Reply::Done),
    (Call::Change(0, Change::Push(b'3')), Reply::Done),
    (Call::Ask(0, Ask::Show("123")), Reply::Done),
    (Call::Ask(0, Ask::Room), Reply::Number(4)),
];

/// So is a part of one that is alone, and its block grows behind the places in front of it.
const PART_WRITTEN: &[Line] = &[
    (Call::Make(Make::Slice("abcd")), Reply::Done),
    (Call::Part(0, Part::Sub(1, 3)), Reply::Done),
    (Call::Turn(0, Turn::Drop), Reply::Done),
    (Call::Turn(1, Turn::Mut), Reply::Done),
    (Call::Ask(1, Ask::Room), Reply::Number(3)),
    (Call::Change(1, Change::Extend("xy")), Reply::Done),
    (Call::Ask(1, Ask::Show("bcxy")), Reply::Done),
    (Call::Ask(1, Ask::Room), Reply::Number(7)),
];

/// An array comes back where it is the whole block, and alone.
const ARRAYS: &[Line] = &[
    (Call::Make(Make::Array([1, 2, 3])), Reply::Done),
    (Call::Turn(0, Turn::TakeTwo), Reply::Refused),
    (Call::Part(0, Part::Clone), Reply::Done),
    (Call::Turn(0, Turn::TakeThree([1, 2, 3])), Reply::Refused),
    (Call::Turn(1, Turn::Hint), Reply::Done),
    (Call::Turn(0, Turn::TakeThree([1, 2, 3])), Reply::Done),
    (Call::Make(Make::WrittenArray([4, 5, 6])), Reply::Done),
    (Call::Turn(2, Turn::TakeThree([4, 5, 6])), Reply::Done),
    (Call::Make(Make::Written), Reply::Done),
    (Call::Turn(3, Turn::TakeNone), Reply::Done),
];

/// `write` fills the places that are there, and makes none.
const PUT: &[Line] = &[
    (Call::Make(Make::WrittenPlaces(4)), Reply::Done),
    (Call::Change(0, Change::Extend("abc")), Reply::Done),
    (Call::Change(0, Change::Put("defgh")), Reply::Number(1)),
    (Call::Change(0, Change::Put("x")), Reply::Number(0)),
    (Call::Ask(0, Ask::Show("abcd")), Reply::Done),
    (Call::Ask(0, Ask::Room), Reply::Number(4)),
];

/// Owners of one block read it, and the last one ends it.
const CLONED: &[Line] = &[
    (Call::Make(Make::Slice("abcd")), Reply::Done),
    (Call::Ask(0, Ask::IsUnique), Reply::Yes),
    (Call::Part(0, Part::Clone), Reply::Done),
    (Call::Part(0, Part::Borrowed(1, 3)), Reply::Done),
    (Call::Part(0, Part::Sub(1, 4)), Reply::Done),
    (Call::Part(0, Part::Off(2)), Reply::Done),
    (Call::Ask(0, Ask::Show("ab")), Reply::Done),
    (Call::Ask(1, Ask::Show("abcd")), Reply::Done),
    (Call::Ask(2, Ask::Show("bc")), Reply::Done),
    (Call::Ask(3, Ask::Show("bcd")), Reply::Done),
    (Call::Ask(4, Ask::Show("cd")), Reply::Done),
    (Call::Ask(4, Ask::IsUnique), Reply::No),
    (Call::Turn(0, Turn::Drop), Reply::Done),
    (Call::Turn(1, Turn::Hint), Reply::Done),
    (Call::Turn(2, Turn::Drop), Reply::Done),
    (Call::Turn(3, Turn::Drop), Reply::Done),
    (Call::Ask(4, Ask::IsUnique), Reply::Yes),
];

/// Any part of a vector of bytes comes back, moved to its front.
const VECTOR_CUT: &[Line] = &[
    (Call::Make(Make::Vec("0123")), Reply::Done),
    (Call::Change(0, Change::Advance(2)), Reply::Done),
    (Call::Turn(0, Turn::TakeBoxed("23")), Reply::Refused),
    (Call::Turn(0, Turn::TakeBuffer("23")), Reply::Refused),
    (Call::Turn(0, Turn::TakeVec("23")), Reply::Done),
    (Call::Make(Make::Vec("23")), Reply::Done),
    (Call::Change(1, Change::Truncate(1)), Reply::Done),
    (Call::Turn(1, Turn::TakeVec("2")), Reply::Done),
];

/// A vector comes back once no other owner lives.
const VECTOR_CLONED: &[Line] = &[
    (Call::Make(Make::Vec("*")), Reply::Done),
    (Call::Ask(0, Ask::IsUnique), Reply::Yes),
    (Call::Part(0, Part::Clone), Reply::Done),
    (Call::Ask(0, Ask::IsUnique), Reply::No),
    (Call::Turn(0, Turn::TakeVec("*")), Reply::Refused),
    (Call::Turn(0, Turn::TakeBoxed("*")), Reply::Refused),
    (Call::Turn(1, Turn::Drop), Reply::Done),
    (Call::Ask(0, Ask::IsUnique), Reply::Yes),
    (Call::Turn(0, Turn::TakeBoxed("*")), Reply::Done),
];

/// A vector is cut in each way, written, frozen, and comes back.
const VECTOR_PARTS: &[Line] = &[
    (Call::Make(Make::Vec("123")), Reply::Done),
    (Call::Part(0, Part::Sub(0, 2)), Reply::Done),
    (Call::Ask(1, Ask::Show("12")), Reply::Done),
    (Call::Make(Make::Vec("123")), Reply::Done),
    (Call::Part(2, Part::Off(1)), Reply::Done),
    (Call::Ask(3, Ask::Show("23")), Reply::Done),
    (Call::Make(Make::Vec("123")), Reply::Done),
    (Call::Part(4, Part::To(1)), Reply::Done),
    (Call::Ask(5, Ask::Show("1")), Reply::Done),
    (Call::Make(Make::Vec("123")), Reply::Done),
    (Call::Part(6, Part::Borrowed(0, 2)), Reply::Done),
    (Call::Ask(7, Ask::Show("12")), Reply::Done),
    (Call::Make(Make::Vec("123")), Reply::Done),
    (Call::Turn(8, Turn::Mut), Reply::Done),
    (Call::Make(Make::WrittenVec("123")), Reply::Done),
    (Call::Turn(9, Turn::Freeze), Reply::Done),
    (Call::Ask(9, Ask::Show("123")), Reply::Done),
    (Call::Turn(9, Turn::TakeVec("123")), Reply::Done),
];

/// A vector's block grows, is frozen, and comes back.
const VECTOR_WRITTEN: &[Line] = &[
    (Call::Make(Make::WrittenVec("ab")), Reply::Done),
    (Call::Change(0, Change::Extend("cdefghij")), Reply::Done),
    (Call::Ask(0, Ask::Show("abcdefghij")), Reply::Done),
    (Call::Change(0, Change::Reserve(1000)), Reply::Done),
    (Call::Ask(0, Ask::Show("abcdefghij")), Reply::Done),
    (Call::Turn(0, Turn::TakeBoxed("abcdefghij")), Reply::Refused),
    (Call::Turn(0, Turn::Freeze), Reply::Done),
    (Call::Part(0, Part::Clone), Reply::Done),
    (Call::Turn(0, Turn::Mut), Reply::Refused),
    (Call::Turn(1, Turn::Drop), Reply::Done),
    (Call::Turn(0, Turn::Mut), Reply::Done),
    (Call::Change(0, Change::Push(b'k')), Reply::Done),
    (Call::Turn(0, Turn::TakeVec("abcdefghijk")), Reply::Done),
];

/// A box comes back where no place is to spare.
const BOXES: &[Line] = &[
    (Call::Make(Make::Boxed("01")), Reply::Done),
    (Call::Part(0, Part::Clone), Reply::Done),
    (Call::Turn(0, Turn::TakeBoxed("01")), Reply::Refused),
    (Call::Turn(1, Turn::Drop), Reply::Done),
    (Call::Turn(0, Turn::TakeBoxed("01")), Reply::Done),
    (Call::Make(Make::WrittenVec("23")), Reply::Done),
    (Call::Turn(2, Turn::TakeBoxed("23")), Reply::Done),
];

/// A buffer comes back whole and alone, with its metadata dropped.
const BUFFER: &[Line] = &[
    (Call::Make(Make::BufferWith("*", 7)), Reply::Done),
    (Call::Part(0, Part::Clone), Reply::Done),
    (Call::Ask(1, Ask::Metadata), Reply::Number(7)),
    (Call::Turn(0, Turn::TakeBuffer("*")), Reply::Refused),
    (Call::Turn(1, Turn::Drop), Reply::Done),
    (Call::Turn(0, Turn::Mut), Reply::Refused),
    (Call::Turn(0, Turn::TakeBuffer("*")), Reply::Done),
    (Call::Make(Make::Buffer("ab")), Reply::Done),
    (Call::Ask(2, Ask::Metadata), Reply::No),
    (Call::Change(2, Change::Advance(1)), Reply::Done),
    (Call::Turn(2, Turn::TakeBuffer("b")), Reply::Refused),
    (Call::Turn(2, Turn::TakeVec("b")), Reply::Refused),
    (Call::Make(Make::BufferWith("123", 5)), Reply::Done),
    (Call::Ask(3, Ask::IsUnique), Reply::Yes),
    (Call::Part(3, Part::Sub(1, 3)), Reply::Done),
    (Call::Ask(4, Ask::Metadata), Reply::Number(5)),
    (Call::Turn(3, Turn::Drop), Reply::Done),
    (Call::Turn(4, Turn::TakeBuffer("23")), Reply::Refused),
    (Call::Ask(4, Ask::Show("23")), Reply::Done),
];

/// A buffer that came in to be written grows, and comes back.
const BUFFER_WRITTEN: &[Line] = &[
    (Call::Make(Make::WrittenBufferWith("ab", 9)), Reply::Done),
    (Call::Change(0, Change::Push(b'c')), Reply::Done),
    (Call::Ask(0, Ask::Metadata), Reply::Number(9)),
    (Call::Turn(0, Turn::Freeze), Reply::Done),
    (Call::Turn(0, Turn::Mut), Reply::Done),
    (Call::Change(0, Change::Extend("defghij")), Reply::Done),
    (Call::Turn(0, Turn::TakeBuffer("abcdefghij")), Reply::Done),
    (Call::Make(Make::WrittenBuffer("ab")), Reply::Done),
    (Call::Change(1, Change::Advance(1)), Reply::Done),
    (Call::Turn(1, Turn::TakeBuffer("b")), Reply::Refused),
    (Call::Change(1, Change::Push(b'c')), Reply::Done),
    (Call::Ask(1, Ask::Show("bc")), Reply::Done),
];

/// Each block is given back by the hint that its owner is alone, where that is so and where not.
const HINTS: &[Line] = &[
    (Call::Make(Make::Slice("ab")), Reply::Done),
    (Call::Part(0, Part::Clone), Reply::Done),
    (Call::Turn(0, Turn::Hint), Reply::Done),
    (Call::Turn(1, Turn::Hint), Reply::Done),
    (Call::Make(Make::Vec("ab")), Reply::Done),
    (Call::Part(2, Part::Clone), Reply::Done),
    (Call::Turn(2, Turn::Hint), Reply::Done),
    (Call::Ask(3, Ask::IsUnique), Reply::Yes),
    (Call::Turn(3, Turn::Hint), Reply::Done),
    (Call::Make(Make::BufferWith("ab", 7)), Reply::Done),
    (Call::Turn(4, Turn::Hint), Reply::Done),
    (Call::Make(Make::Raw("ab")), Reply::Done),
    (Call::Turn(5, Turn::Hint), Reply::Done),
    (Call::Make(Make::WrittenSlice("ab")), Reply::Done),
    (Call::Turn(6, Turn::Hint), Reply::Done),
    (Call::Make(Make::WrittenVec("ab")), Reply::Done),
    (Call::Turn(7, Turn::Hint), Reply::Done),
    (Call::Make(Make::WrittenBufferWith("ab", 7)), Reply::Done),
    (Call::Turn(8, Turn::Hint), Reply::Done),
    (Call::Make(Make::WrittenVec("ab")), Reply::Done),
    (Call::Turn(9, Turn::Share), Reply::Done),
    (Call::Turn(9, Turn::Hint), Reply::Done),
    (Call::Make(Make::WrittenSlice("ab")), Reply::Done),
    (Call::Turn(10, Turn::Share), Reply::Done),
    (Call::Turn(10, Turn::Hint), Reply::Done),
];

/// An `Arc` that is counted once more comes back alone.
const RAW_COUNTED: &[Line] = &[
    (Call::Make(Make::Raw("*")), Reply::Done),
    (Call::Ask(0, Ask::IsUnique), Reply::No),
    (Call::Turn(0, Turn::TakeBuffer("*")), Reply::Refused),
    (Call::Part(0, Part::Clone), Reply::Done),
    (Call::Ask(0, Ask::IsUnique), Reply::No),
    (Call::Turn(0, Turn::TakeRaw("*")), Reply::Refused),
    (Call::Turn(1, Turn::Drop), Reply::Done),
    (Call::Turn(0, Turn::TakeRaw("*")), Reply::Done),
];

/// One that is a block by itself comes back beside a clone.
const RAW_BY_ITSELF: &[Line] = &[
    (Call::Make(Make::Raw("123")), Reply::Done),
    (Call::Part(0, Part::Clone), Reply::Done),
    (Call::Part(0, Part::Sub(1, 3)), Reply::Done),
    (Call::Ask(0, Ask::IsUnique), Reply::No),
    (Call::Turn(2, Turn::TakeRaw("23")), Reply::Refused),
    (Call::Turn(0, Turn::TakeRaw("123")), Reply::Done),
    (Call::Ask(1, Ask::Show("123")), Reply::Done),
    (Call::Ask(2, Ask::Show("23")), Reply::Done),
];

/// Parts without items stand on nothing, and the vector comes back beside them. So do vectors and
/// boxes without places.
const EMPTY_ON_NOTHING: &[Line] = &[
    (Call::Make(Make::Vec("0123")), Reply::Done),
    (Call::Part(0, Part::To(0)), Reply::Done),
    (Call::Part(0, Part::Off(4)), Reply::Done),
    (Call::Part(0, Part::Sub(1, 1)), Reply::Done),
    (Call::Part(0, Part::Off(0)), Reply::Done),
    (Call::Part(4, Part::To(4)), Reply::Done),
    (Call::Ask(4, Ask::Show("")), Reply::Done),
    (Call::Turn(5, Turn::TakeVec("0123")), Reply::Done),
    (Call::Ask(1, Ask::IsUnique), Reply::No),
    (Call::Make(Make::Boxed("")), Reply::Done),
    (Call::Ask(6, Ask::IsUnique), Reply::No),
    (Call::Make(Make::Vec("")), Reply::Done),
    (Call::Ask(7, Ask::IsUnique), Reply::No),
    (Call::Turn(7, Turn::TakeVec("")), Reply::Refused),
    (Call::Make(Make::WrittenVec("")), Reply::Done),
    (Call::Ask(8, Ask::Room), Reply::Number(0)),
    (Call::Turn(8, Turn::TakeVec("")), Reply::Refused),
];

/// They are owners of their block, and the vector comes back after they have ended.
const EMPTY_ON_BLOCK: &[Line] = &[
    (Call::Make(Make::Vec("0123")), Reply::Done),
    (Call::Part(0, Part::To(0)), Reply::Done),
    (Call::Turn(0, Turn::TakeVec("0123")), Reply::Refused),
    (Call::Ask(1, Ask::Show("")), Reply::Done),
    (Call::Turn(1, Turn::Drop), Reply::Done),
    (Call::Turn(0, Turn::TakeVec("0123")), Reply::Done),
];

/// Windows without items that are read have a block of no places.
const NOTHING_ON_BLOCK: &[Line] = &[
    (Call::Make(Make::Slice("")), Reply::Done),
    (Call::Ask(0, Ask::IsUnique), Reply::Yes),
    (Call::Make(Make::Written), Reply::Done),
    (Call::Turn(1, Turn::Freeze), Reply::Done),
    (Call::Ask(1, Ask::IsUnique), Reply::Yes),
    (Call::Make(Make::Vec("")), Reply::Done),
    (Call::Ask(2, Ask::IsUnique), Reply::Yes),
    (Call::Turn(2, Turn::Mut), Reply::Done),
    (Call::Ask(2, Ask::Room), Reply::Number(0)),
    (Call::Change(2, Change::Push(b'1')), Reply::Done),
    (Call::Ask(2, Ask::Show("1")), Reply::Done),
    (Call::Make(Make::Boxed("")), Reply::Done),
    (Call::Ask(3, Ask::IsUnique), Reply::Yes),
    (Call::Turn(3, Turn::TakeVec("")), Reply::Refused),
];

/// Any layout holds a native block; a vector, a buffer and its metadata go where buffers are held,
/// and nowhere else.
const MOVED: &[Line] = &[
    (Call::Make(Make::Slice("abc")), Reply::Done),
    (Call::Turn(0, Turn::Over), Reply::Done),
    (Call::Turn(0, Turn::OverNative), Reply::Done),
    (Call::Ask(0, Ask::Show("abc")), Reply::Done),
    (Call::Make(Make::Vec("0123")), Reply::Done),
    (Call::Turn(1, Turn::Over), Reply::Done),
    (Call::Turn(1, Turn::OverNative), Reply::Refused),
    (Call::Turn(1, Turn::TakeVec("0123")), Reply::Done),
    (Call::Make(Make::BufferWith("*", 7)), Reply::Done),
    (Call::Turn(2, Turn::Over), Reply::Done),
    (Call::Ask(2, Ask::Metadata), Reply::Number(7)),
    (Call::Turn(2, Turn::OverNative), Reply::Refused),
    (Call::Turn(2, Turn::TakeBuffer("*")), Reply::Done),
];

/// So do windows that are written.
const MOVED_WRITTEN: &[Line] = &[
    (Call::Make(Make::WrittenSlice("abc")), Reply::Done),
    (Call::Change(0, Change::Advance(1)), Reply::Done),
    (Call::Turn(0, Turn::Over), Reply::Done),
    (Call::Turn(0, Turn::OverNative), Reply::Done),
    (Call::Ask(0, Ask::Show("bc")), Reply::Done),
    (Call::Ask(0, Ask::Room), Reply::Number(2)),
    (Call::Make(Make::WrittenBufferWith("ab", 9)), Reply::Done),
    (Call::Turn(1, Turn::Over), Reply::Done),
    (Call::Ask(1, Ask::Metadata), Reply::Number(9)),
    (Call::Ask(1, Ask::Show("ab")), Reply::Done),
    (Call::Ask(1, Ask::Room), Reply::Number(2)),
    (Call::Turn(1, Turn::OverNative), Reply::Refused),
    (Call::Change(1, Change::Push(b'c')), Reply::Done),
    (Call::Turn(1, Turn::TakeBuffer("abc")), Reply::Done),
    (Call::Make(Make::WrittenVec("ab")), Reply::Done),
    (Call::Turn(2, Turn::Share), Reply::Done),
    (Call::Turn(2, Turn::Over), Reply::Done),
    (Call::Turn(2, Turn::OverNative), Reply::Refused),
    (Call::Turn(2, Turn::TakeVec("ab")), Reply::Done),
    (Call::Make(Make::WrittenPlaces(3)), Reply::Done),
    (Call::Turn(3, Turn::Share), Reply::Done),
    (Call::Turn(3, Turn::Over), Reply::Done),
    (Call::Turn(3, Turn::OverNative), Reply::Done),
    (Call::Ask(3, Ask::Room), Reply::Number(3)),
    (Call::Make(Make::WrittenVec("ab")), Reply::Done),
    (Call::Turn(4, Turn::Over), Reply::Done),
    (Call::Turn(4, Turn::OverNative), Reply::Refused),
    (Call::Turn(4, Turn::TakeVec("ab")), Reply::Done),
];

/// An `Arc` that is a block by itself is counted once more under another layout, which takes
/// memory, and comes back beside a clone.
const RAW_MOVED: &[Line] = &[
    (Call::Make(Make::Raw("123")), Reply::Done),
    (Call::Part(0, Part::Clone), Reply::Done),
    (Call::Turn(0, Turn::Over), Reply::Done),
    (Call::Turn(0, Turn::OverNative), Reply::Refused),
    (Call::Ask(0, Ask::Show("123")), Reply::Done),
    (Call::Turn(0, Turn::TakeRaw("123")), Reply::Done),
];

/// A window on nothing has a block of no places where there is no static data, and keeps it. One
/// that is written is frozen on nothing, and written again.
const NOTHING_MOVED: &[Line] = &[
    (Call::Make(Make::Slice("")), Reply::Done),
    (Call::Ask(0, Ask::IsUnique), Reply::No),
    (Call::Turn(0, Turn::OverNative), Reply::Done),
    (Call::Ask(0, Ask::IsUnique), Reply::No),
    (Call::Turn(0, Turn::Over), Reply::Done),
    (Call::Ask(0, Ask::IsUnique), Reply::Yes),
    (Call::Make(Make::Written), Reply::Done),
    (Call::Turn(1, Turn::Freeze), Reply::Done),
    (Call::Ask(1, Ask::IsUnique), Reply::No),
    (Call::Turn(1, Turn::Mut), Reply::Done),
    (Call::Ask(1, Ask::Room), Reply::Number(0)),
];

/// Rows of windows that are read, and of those that are written alone, under each layout.
pub const READ_OR_WRITTEN: &[&[Line]] = &[
    EXTENDED_AND_FROZEN,
    PUSHED,
    ROOM_MADE,
    RECLAIMED,
    NOT_RECLAIMED,
    ROOM_FOUND,
    ZEROS,
    WRITTEN_AGAIN,
    PART_WRITTEN,
    ARRAYS,
    CLONED,
    PUT,
    MOVED,
    MOVED_WRITTEN,
    HINTS,
];

/// Rows of windows on vectors, boxes and callers' buffers, under each layout.
pub const GIVEN: &[&[Line]] = &[
    VECTOR_CUT,
    VECTOR_CLONED,
    VECTOR_PARTS,
    VECTOR_WRITTEN,
    BOXES,
    BUFFER,
    BUFFER_WRITTEN,
];

/// Rows under layouts that count an `Arc` once more.
pub const COUNTED: &[&[Line]] = &[RAW_COUNTED];

/// Rows under the layout that doesn't.
pub const BY_ITSELF: &[&[Line]] = &[RAW_BY_ITSELF, RAW_MOVED];

/// Rows under layouts whose windows may stand on nothing.
pub const WITH_NOTHING: &[&[Line]] = &[EMPTY_ON_NOTHING];

/// Rows under those whose readers may not.
pub const WITHOUT_NOTHING: &[&[Line]] = &[EMPTY_ON_BLOCK, NOTHING_ON_BLOCK];

/// Rows of vectors, and of others, that go from one layout that holds vectors to another.
pub const VECTORS: &[&[Line]] = &[VECTOR_PARTS, VECTOR_WRITTEN, MOVED];

/// Rows of readers that may stand on nothing beside writers whose layout has no static data.
pub const TO_BLOCK: &[&[Line]] = &[NOTHING_MOVED];
