//! Commands of rows, and the numbers that go in with them.
use arc_block::static_slice::StaticSlice;
use arc_buffer::kinds::Plain;
use arc_table::command::Cmd;
use arc_table::kinds::TableCmd;
use counting_heap::CountingHeap;
use std::alloc::Global;

/// A heap that counts. The memory of the table, of its windows and of the vectors on which they
/// stand comes from it.
pub type Heap<'a> = &'a CountingHeap<Global>;

/// A vector of numbers.
pub type Numbers<'a> = Vec<i32, Heap<'a>>;

/// A command of a table of numbers.
pub type Sent<'a> = TableCmd<Plain<i32>, Numbers<'a>, (), Heap<'a>>;

/// A command, with the numbers that it brings. Windows go by their numbers.
#[derive(Clone, Copy)]
pub enum Call {
    Slice(&'static [i32]),
    MSlice(&'static [i32]),
    Small(&'static [i32]),
    Vec(&'static [i32]),
    /// These numbers behind the others.
    Ext(usize, &'static [i32]),
    Static(&'static [i32]),
    /// A writer on nothing.
    New,
    /// A writer with so many places.
    Cap(usize),
    /// A writer over so many zeros.
    Zero(usize),
    /// This number behind the others.
    Push(usize, i32),
    /// Room for so many more.
    Res(usize, usize),
    /// How many places there are.
    Room(usize),
    Len(usize),
    Show(usize),
    Uniq(usize),
    Clone(usize),
    Sub(usize, usize, usize),
    Freeze(usize),
    Mut(usize),
    TakeStatic(usize),
}

/// A vector of these numbers, unless memory for it is refused.
fn vector<'a>(heap: Heap<'a>, numbers: &[i32]) -> Option<Numbers<'a>> {
    Vec::from_slice(heap, numbers).ok()
}

/// A command that brings a vector, unless memory for it is refused.
fn bringing<'a>(heap: Heap<'a>, call: Call) -> Option<Sent<'a>> {
    match call {
        Call::Slice(numbers) => Some(Cmd::Slice(vector(heap, numbers)?)),
        Call::MSlice(numbers) => Some(Cmd::MSlice(vector(heap, numbers)?)),
        Call::Small(numbers) => Some(Cmd::Small(vector(heap, numbers)?)),
        Call::Vec(numbers) => Some(Cmd::Vec(vector(heap, numbers)?)),
        Call::Ext(window, numbers) => {
            let items = vector(heap, numbers)?;
            Some(Cmd::Ext { window, items })
        }
        _ => None,
    }
}

/// The command, unless memory for the vector that it brings is refused.
pub fn command<'a>(heap: Heap<'a>, call: Call) -> Option<Sent<'a>> {
    let told = match call {
        Call::Static(numbers) => Cmd::Static(StaticSlice::new(numbers)),
        Call::New => Cmd::New,
        Call::Cap(places) => Cmd::Cap { places },
        Call::Zero(count) => Cmd::Zero { count },
        Call::Push(window, item) => Cmd::Push { window, item },
        Call::Res(window, additional) => Cmd::Res { window, additional },
        Call::Room(window) => Cmd::Room { window },
        Call::Len(window) => Cmd::Len { window },
        Call::Show(window) => Cmd::Show { window },
        Call::Uniq(window) => Cmd::Uniq { window },
        Call::Clone(window) => Cmd::Clone { window },
        Call::Sub(window, start, end) => Cmd::Sub { window, start, end },
        Call::Freeze(window) => Cmd::Freeze { window },
        Call::Mut(window) => Cmd::Mut { window },
        Call::TakeStatic(window) => Cmd::TakeStatic { window },
        _ => return bringing(heap, call),
    };
    Some(told)
}
