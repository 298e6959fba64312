//! Rows: commands one after the other, and what each is answered. They come from the rules of
//! places and room, and never from what a run shows.
use super::sent::Call;
use crate::tables::Said;
use arc_owners::error::TryReserveError;

/// A command, and what it is to be answered.
pub type Line = (Call, Said);

/// Four numbers.
const FOUR: &[i32] = &[7, -8, 9, 10];

/// Forty numbers.
const FORTY: &[i32] = &[7; 40];

/// More places than there are numbers for.
const MOST: usize = 18_446_744_073_709_551_615;

/// No window stands on static data: one on nothing gets a block of no places when it is read, which
/// it has alone, and an empty cut is an owner of its source's. More room than a block can have is
/// refused.
const NO_STATIC_DATA: &[Line] = &[
    (Call::Static(FOUR), Said::Kind),
    (Call::TakeStatic(0), Said::NoWindow),
    (Call::New, Said::New(0)),
    (Call::Freeze(0), Said::Ok),
    (Call::Uniq(0), Said::Yes),
    (Call::Len(0), Said::Number(0)),
    (Call::Room(0), Said::Kind),
    (Call::Mut(0), Said::Ok),
    (Call::Room(0), Said::Number(0)),
    (Call::Push(0, 7), Said::Ok),
    (Call::Room(0), Said::Number(1)),
    (
        Call::Res(0, MOST),
        Said::Reserve(TryReserveError::CapacityOverflow),
    ),
    (Call::Room(0), Said::Number(1)),
    (Call::Slice(FOUR), Said::New(1)),
    (Call::Sub(1, 4, 4), Said::New(2)),
    (Call::Uniq(1), Said::No),
];

/// What asks for memory: a first block, a larger one, a window over each of what makes one, a list
/// that is shown, and a list of windows that grows. Only kinds of bytes have small windows.
const NEEDS: &[Line] = &[
    (Call::Cap(2), Said::New(0)),
    (Call::Res(0, 40), Said::Ok),
    (Call::Room(0), Said::Number(40)),
    (Call::Cap(2), Said::New(1)),
    (Call::Ext(1, FORTY), Said::Ok),
    (Call::Len(1), Said::Number(40)),
    (Call::MSlice(FOUR), Said::New(2)),
    (Call::Len(2), Said::Number(4)),
    (Call::Zero(4), Said::New(3)),
    (Call::Len(3), Said::Number(4)),
    (Call::Show(3), Said::Items),
    (Call::Vec(FOUR), Said::New(4)),
    (Call::Len(4), Said::Number(4)),
    (Call::Clone(4), Said::New(5)),
    (Call::Small(FORTY), Said::Kind),
];

/// A first block has room for four numbers, and one that grows for twice as many.
const PUSHES: &[Line] = &[
    (Call::New, Said::New(0)),
    (Call::Push(0, 1), Said::Ok),
    (Call::Room(0), Said::Number(4)),
    (Call::Push(0, 2), Said::Ok),
    (Call::Push(0, 3), Said::Ok),
    (Call::Push(0, 4), Said::Ok),
    (Call::Push(0, 5), Said::Ok),
    (Call::Room(0), Said::Number(8)),
];

/// All rows.
pub const ROWS: &[&[Line]] = &[NO_STATIC_DATA, NEEDS, PUSHES];
