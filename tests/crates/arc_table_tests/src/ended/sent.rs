//! Commands of rows, and the values that go in with them.
use crate::tables::Said;
use arc_block::static_slice::StaticSlice;
use arc_buffer::kinds::Owned;
use arc_table::command::{Cmd, Given, Reply};
use arc_table::kinds::TableCmd;
use counting_heap::CountingHeap;
use std::alloc::{Allocator, Global};
use std::boxed::BoxedSlice;
use std::sync::Arc;

/// A heap that counts. The memory of the table, of its windows, and of the vectors and buffers on
/// which they stand, comes from it.
pub type Heap<'a> = &'a CountingHeap<Global>;

/// A vector of values, which is also a buffer.
pub type Items<'a> = Vec<Arc<u8>, Heap<'a>>;

/// A command of a table of values.
pub type Sent<'a> = TableCmd<Owned<Arc<u8>>, Items<'a>, u8, Heap<'a>>;

/// Four values. How many owners each has tells whether those that went in were dropped, and that
/// none was twice.
pub type Values = [Arc<u8>; 4];

/// Four values with one owner each.
pub fn values(alloc: Global) -> Option<Values> {
    Some([
        Arc::new(alloc, 0).ok()?,
        Arc::new(alloc, 1).ok()?,
        Arc::new(alloc, 2).ok()?,
        Arc::new(alloc, 3).ok()?,
    ])
}

/// How many owners each has.
pub fn living(values: &Values) -> [usize; 4] {
    [
        Arc::strong_count(&values[0]),
        Arc::strong_count(&values[1]),
        Arc::strong_count(&values[2]),
        Arc::strong_count(&values[3]),
    ]
}

/// A vector of the first three, unless memory for it is refused.
fn first_three<'a>(heap: Heap<'a>, values: &Values) -> Option<Items<'a>> {
    let items = [
        Arc::try_clone(&values[0]).ok()?,
        Arc::try_clone(&values[1]).ok()?,
        Arc::try_clone(&values[2]).ok()?,
    ];
    Vec::from_array(heap, items).ok()
}

/// A command without what it brings, with what it is to give. Windows go by their numbers, and
/// values by theirs.
#[derive(Clone, Copy)]
pub enum Call {
    /// A copy of the first three values, to be read.
    Slice,
    /// The same, to be written.
    MSlice,
    /// The same, as a small window.
    Small,
    /// A copy of the first three values behind the others.
    Ext(usize),
    /// A writer over so many zeros.
    Zero(usize),
    /// A vector of the first three values.
    Vec,
    /// A buffer of them, to be read, with metadata.
    Buf,
    /// The same, to be written.
    MBuf,
    /// An `Arc` of such a buffer.
    Raw,
    /// A writer on nothing.
    New,
    /// A writer with so many places.
    Cap(usize),
    /// This value behind the others.
    Push(usize, usize),
    /// Room for so many more.
    Res(usize, usize),
    /// How many places there are.
    Room(usize),
    Clone(usize),
    Sub(usize, usize, usize),
    Off(usize, usize),
    To(usize, usize),
    Adv(usize, usize),
    Trunc(usize, usize),
    Show(usize),
    Len(usize),
    Uniq(usize),
    Freeze(usize),
    Mut(usize),
    Share(usize),
    Unique(usize),
    Join(usize, usize),
    Drop(usize),
    /// These values come back, as a vector; none where that is refused.
    Take(usize, &'static [u8]),
    /// The same, as a box.
    TakeBox(usize, &'static [u8]),
    /// The same, as a buffer.
    TakeBuf(usize, &'static [u8]),
    /// The same, as an `Arc` of a buffer.
    TakeRaw(usize, &'static [u8]),
    /// The same, as those that lie there for good.
    TakeStatic(usize, &'static [u8]),
}

/// The values that a command is to give.
pub fn wanted(call: Call) -> &'static [u8] {
    match call {
        Call::Take(_, values)
        | Call::TakeBox(_, values)
        | Call::TakeBuf(_, values)
        | Call::TakeRaw(_, values)
        | Call::TakeStatic(_, values) => values,
        _ => &[],
    }
}

/// Whether items are these values.
fn are_values(items: &[Arc<u8>], values: &[u8]) -> bool {
    if items.len() != values.len() {
        return false;
    }
    for (item, value) in items.iter().zip(values) {
        if **item != *value {
            return false;
        }
    }
    true
}

/// Whether a reply gives these values.
pub fn has_values<
    A: Allocator,
    G: Given<
        Vector = Vec<Arc<u8>, A>,
        Boxed = BoxedSlice<Arc<u8>, A>,
        Buffer = Vec<Arc<u8>, A>,
        Raw = Arc<Vec<Arc<u8>, A>, A>,
        Static = StaticSlice<Arc<u8>>,
    >,
>(reply: &Reply<G>, values: &[u8]) -> bool {
    match reply {
        Reply::Vec(items) => are_values(items.as_slice(), values),
        Reply::Boxed(items) => are_values(items.as_slice(), values),
        Reply::Buffer(items) => are_values(items.as_slice(), values),
        Reply::Raw(shared) => are_values(shared.as_slice(), values),
        Reply::Static(items) => are_values(items.as_slice(), values),
        _ => false,
    }
}

/// A command, and what it is to be answered.
pub type Line = (Call, Said);

/// A command that brings values to be copied, unless memory for them is refused.
fn copying<'a>(heap: Heap<'a>, values: &Values, call: Call) -> Option<Sent<'a>> {
    match call {
        Call::Slice => Some(Cmd::Slice(first_three(heap, values)?)),
        Call::MSlice => Some(Cmd::MSlice(first_three(heap, values)?)),
        Call::Small => Some(Cmd::Small(first_three(heap, values)?)),
        Call::Ext(window) => {
            let items = first_three(heap, values)?;
            Some(Cmd::Ext { window, items })
        }
        _ => None,
    }
}

/// A command that brings values, unless memory for them is refused.
fn bringing<'a>(heap: Heap<'a>, values: &Values, call: Call) -> Option<Sent<'a>> {
    let metadata = 7;
    match call {
        Call::Vec => Some(Cmd::Vec(first_three(heap, values)?)),
        Call::Buf => {
            let buffer = first_three(heap, values)?;
            Some(Cmd::Buf { buffer, metadata })
        }
        Call::MBuf => {
            let buffer = first_three(heap, values)?;
            Some(Cmd::MBuf { buffer, metadata })
        }
        Call::Raw => Some(Cmd::Raw(first_three(heap, values)?)),
        Call::Push(window, value) => {
            let item = Arc::try_clone(values.get(value)?).ok()?;
            Some(Cmd::Push { window, item })
        }
        _ => copying(heap, values, call),
    }
}

/// The command, unless memory for the values that it brings is refused.
pub fn command<'a>(heap: Heap<'a>, values: &Values, call: Call) -> Option<Sent<'a>> {
    let told = match call {
        Call::New => Cmd::New,
        Call::Cap(places) => Cmd::Cap { places },
        Call::Zero(count) => Cmd::Zero { count },
        Call::Res(window, additional) => Cmd::Res { window, additional },
        Call::Room(window) => Cmd::Room { window },
        Call::Clone(window) => Cmd::Clone { window },
        Call::Sub(window, start, end) => Cmd::Sub { window, start, end },
        Call::Off(window, at) => Cmd::Off { window, at },
        Call::To(window, at) => Cmd::To { window, at },
        Call::Adv(window, by) => Cmd::Adv { window, by },
        Call::Trunc(window, len) => Cmd::Trunc { window, len },
        Call::Show(window) => Cmd::Show { window },
        Call::Len(window) => Cmd::Len { window },
        Call::Uniq(window) => Cmd::Uniq { window },
        Call::Freeze(window) => Cmd::Freeze { window },
        Call::Mut(window) => Cmd::Mut { window },
        Call::Share(window) => Cmd::Share { window },
        Call::Unique(window) => Cmd::Unique { window },
        Call::Join(window, other) => Cmd::Join { window, other },
        Call::Drop(window) => Cmd::Drop { window },
        Call::Take(window, _) => Cmd::Take { window },
        Call::TakeBox(window, _) => Cmd::TakeBox { window },
        Call::TakeBuf(window, _) => Cmd::TakeBuf { window },
        Call::TakeRaw(window, _) => Cmd::TakeRaw { window },
        Call::TakeStatic(window, _) => Cmd::TakeStatic { window },
        _ => return bringing(heap, values, call),
    };
    Some(told)
}
