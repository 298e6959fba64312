//! Items that are dropped one by one, callers' buffers and metadata, over a heap that counts:
//! whichever request for memory is refused, each is dropped once or comes back, and all memory is
//! given back.
mod buffers;

use self::buffers::{ENDS, End, MADE, Made};
use crate::living::{Values, all_five, first_three, living, values};
use crate::shelf::Shelf;
use arc_block::layout::{DefaultLayout, DefaultLayoutMut};
use arc_buffer::buffer::AsMutBuffer;
use arc_buffer::kinds::Owned;
use arc_owners::error::TryReserveError;
use arc_read::slice::ArcSlice;
use arc_write::slice_mut::ArcSliceMut;
use counting_heap::CountingHeap;
use std::alloc::Global;
use std::sync::{Arc, Wait};
use std::test::Fail;

type Heap<'a> = &'a CountingHeap<Global>;

type Reader<'a> = ArcSlice<Owned<Arc<u8>>, DefaultLayout, AsMutBuffer<Shelf>, Arc<u8>, Heap<'a>>;

type Writer<'a> = ArcSliceMut<
    Owned<Arc<u8>>,
    DefaultLayoutMut,
    1,
    AsMutBuffer<Shelf>,
    Arc<u8>,
    Heap<'a>,
>;

/// What a window is made of and how it ends.
#[derive(Clone, Copy)]
enum Row {
    /// A writer that is cut short.
    CutShort,
    /// A writer whose items move to a larger block.
    Grown,
    /// A writer to which an iterator brings items.
    Extended,
    /// A writer that is cut short and frozen, and ends beside others.
    Frozen,
    /// Items that are taken back as an array.
    Array,
    /// Items that are taken back as their vector.
    Vector,
    /// The second of two windows that end gets the vector.
    LastVector,
    /// A part of a vector, which isn't given for it.
    Part,
    /// A caller's buffer.
    Buffer(Made, End),
}

/// All rows but those of buffers.
const ROWS: &[Row] = &[
    Row::CutShort,
    Row::Grown,
    Row::Extended,
    Row::Frozen,
    Row::Array,
    Row::Vector,
    Row::LastVector,
    Row::Part,
];

/// How many owners there are of values of which the first three are somewhere else too.
const THREE: [usize; 5] = [2, 2, 2, 1, 1];

/// A writer of the first three values. Where memory is refused they come back, and go in again.
fn written<'a>(heap: Heap<'a>, values: &Values) -> Option<Writer<'a>> {
    match Writer::try_from_array(heap, first_three(values)?) {
        Ok(window) => Some(window),
        Err(back) => {
            if living(values) != THREE {
                return None;
            }
            Writer::try_from_array(heap, back).ok()
        }
    }
}

/// Whether an item is refused behind two of three, and comes back.
fn is_refused(window: &mut Writer<'_>, values: &Values) -> Option<bool> {
    window.truncate(2);
    let sizes = [window.len(), window.capacity()];
    let (e, back) = window.try_push(Arc::try_clone(&values[3]).ok()?).err()?;
    let with = living(values);
    drop(back);
    let wanted = ([2, 2], TryReserveError::Unsupported, [2, 2, 2, 2, 1], THREE);
    Some((sizes, e, with, living(values)) == wanted)
}

fn cut_short(heap: Heap<'_>, values: &Values) -> Option<bool> {
    let mut window = written(heap, values)?;
    is_refused(&mut window, values)
}

/// Puts an item behind the others. Where memory is refused it comes back, and is put there again.
fn pushed(window: &mut Writer<'_>, item: &Arc<u8>) -> Option<()> {
    match window.try_push(Arc::try_clone(item).ok()?) {
        Ok(()) => Some(()),
        Err((TryReserveError::AllocError, back)) => {
            if Arc::strong_count(item) != 2 {
                return None;
            }
            window.try_push(back).ok()
        }
        Err(_) => None,
    }
}

/// Whether all five items are in a window, which is then cut to two of them and has dropped none.
fn grown(heap: Heap<'_>, values: &Values) -> Option<bool> {
    let mut window = Writer::new(heap);
    for value in values.as_slice() {
        pushed(&mut window, value)?;
    }
    let places = window.capacity();
    if window.check_at(1).is_err() {
        return None;
    }
    window.advance(1);
    window.truncate(2);
    let sizes = [places, window.len(), window.capacity()];
    Some((sizes, living(values)) == ([8, 2, 2], [2; 5]))
}

/// Whether a window has all five items that an iterator brings. Where memory is refused it keeps
/// what it had taken, the item that was refused comes back, and the others go with the iterator.
fn extended(heap: Heap<'_>, values: &Values) -> Option<bool> {
    let mut window = Writer::new(heap);
    let (e, back) = match window.try_extend(all_five(values)?) {
        Ok(()) => return Some(living(values) == [2; 5]),
        Err(refused) => refused,
    };
    let with = living(values);
    drop(back);
    let told = (window.len(), e, with, living(values));
    let none = (0, TryReserveError::AllocError, [2, 1, 1, 1, 1], [1; 5]);
    let four = (4, TryReserveError::AllocError, [2; 5], [2, 2, 2, 2, 1]);
    Some(told == none || told == four)
}

/// Whether a window, its clone and a part of it keep all items until the last one ends.
fn ended_in_turn(rt: &impl Wait, window: Reader<'_>, values: &Values) -> Option<bool> {
    let clone = window.try_clone(rt).ok()?;
    if window.check_range(1, 2).is_err() {
        return None;
    }
    let part = window.try_subslice(rt, 1, 2).ok()?;
    drop(window);
    let one = living(values);
    drop(clone);
    let two = living(values);
    drop(part);
    Some([one, two, living(values)] == [THREE, THREE, [1; 5]])
}

/// The item behind the first two stays in the block until the last owner ends.
fn frozen(rt: &impl Wait, heap: Heap<'_>, values: &Values) -> Option<bool> {
    let mut window = written(heap, values)?;
    window.truncate(2);
    ended_in_turn(rt, window.try_freeze::<DefaultLayout>().ok()?, values)
}

/// Whether the items that come back are the window's, and are then the caller's.
fn array(heap: Heap<'_>, values: &Values) -> Option<bool> {
    let window = written(heap, values)?.try_freeze::<DefaultLayout>().ok()?;
    let items = window.try_into_array::<3>().ok()?;
    let with = living(values);
    drop(items);
    Some((with, living(values)) == (THREE, [1; 5]))
}

/// A vector of the first three values, which is made anew where memory is refused.
fn of_vector_items<'a>(heap: Heap<'a>, values: &Values) -> Option<Vec<Arc<u8>, Heap<'a>>> {
    match Vec::from_array(heap, first_three(values)?) {
        Ok(items) => Some(items),
        Err(_) => Vec::from_array(heap, first_three(values)?).ok(),
    }
}

/// A window of a vector of the first three values. Where memory is refused it comes back, and goes
/// in again.
fn of_vector<'a>(heap: Heap<'a>, values: &Values) -> Option<Reader<'a>> {
    match Reader::try_from_vec(heap, of_vector_items(heap, values)?) {
        Ok(window) => Some(window),
        Err(back) => {
            if living(values) != THREE {
                return None;
            }
            Reader::try_from_vec(heap, back).ok()
        }
    }
}

/// Whether the vector isn't given beside a clone, and then is, with all items.
fn vector(rt: &impl Wait, heap: Heap<'_>, values: &Values) -> Option<bool> {
    let window = of_vector(heap, values)?;
    let clone = window.try_clone(rt).ok()?;
    let window = window.try_into_vec().err()?;
    drop(clone);
    let beside = living(values);
    let items = window.try_into_vec().ok()?;
    let with = living(values);
    drop(items);
    Some([beside, with, living(values)] == [THREE, THREE, [1; 5]])
}

/// Whether the second of two windows that end gets the vector, with all items.
fn last_vector(rt: &impl Wait, heap: Heap<'_>, values: &Values) -> Option<bool> {
    let window = of_vector(heap, values)?;
    let clone = window.try_clone(rt).ok()?;
    if window.into_vec_if_last().ok()?.is_some() {
        return None;
    }
    let beside = living(values);
    let items = clone.into_vec_if_last().ok()??;
    let with = living(values);
    drop(items);
    Some([beside, with, living(values)] == [THREE, THREE, [1; 5]])
}

/// Whether a part of a vector comes back where the vector is asked for, and drops all items.
fn part(rt: &impl Wait, heap: Heap<'_>, values: &Values) -> Option<bool> {
    let window = of_vector(heap, values)?;
    if window.check_range(1, 2).is_err() {
        return None;
    }
    let part = window.try_subslice(rt, 1, 2).ok()?;
    drop(window);
    let part = part.try_into_vec().err()?;
    let with = living(values);
    drop(part);
    Some((with, living(values)) == (THREE, [1; 5]))
}

/// Whether all went as it is to go.
fn run(rt: &impl Wait, alloc: Global, heap: Heap<'_>, values: &Values, row: Row) -> Option<bool> {
    match row {
        Row::CutShort => cut_short(heap, values),
        Row::Grown => grown(heap, values),
        Row::Extended => extended(heap, values),
        Row::Frozen => frozen(rt, heap, values),
        Row::Array => array(heap, values),
        Row::Vector => vector(rt, heap, values),
        Row::LastVector => last_vector(rt, heap, values),
        Row::Part => part(rt, heap, values),
        Row::Buffer(made, end) => buffers::run(rt, alloc, heap, values, made, end),
    }
}

/// Whether it does with each request refused in turn, at least one of them, and all items and
/// memory are given back each time.
fn in_turn(rt: &impl Wait, alloc: Global, heap: Heap<'_>, values: &Values, row: Row) -> bool {
    for request in 1..1000u64 {
        heap.refuse(request);
        let told = run(rt, alloc, heap, values, row);
        if (told, living(values), heap.pieces()) != (Some(true), [1; 5], 0) {
            return false;
        }
        if heap.refusals() == 0 {
            return request > 1;
        }
    }
    false
}

/// Which of these rows don't go as they are to go, by their numbers.
fn missed(rt: &impl Wait, alloc: Global, heap: Heap<'_>, rows: &[Row]) -> Option<Vec<usize>> {
    let mut missed = Vec::new(alloc);
    for i in 0..rows.len() {
        let values = values(alloc)?;
        if !in_turn(rt, alloc, heap, &values, rows[i]) {
            missed.push(i).ok()?;
        }
    }
    Some(missed)
}

/// The rows of buffers, by how a window is made, and then by how it ends.
fn of_buffers(alloc: Global) -> Option<Vec<Row>> {
    let mut rows = Vec::new(alloc);
    for made in MADE {
        for end in ENDS {
            rows.push(Row::Buffer(*made, *end)).ok()?;
        }
    }
    Some(rows)
}

#[test]
fn given_back(rt: HostRuntime) -> Result<(), Fail> {
    let heap = CountingHeap::new(rt.alloc());
    let Some(missed) = missed(&rt, rt.alloc(), &heap, ROWS) else {
        return Err("no memory".into());
    };
    assert!(rt; missed.is_empty(), "rows {missed:?}");
    Ok(())
}

#[test]
fn buffers_given_back(rt: HostRuntime) -> Result<(), Fail> {
    let heap = CountingHeap::new(rt.alloc());
    let Some(rows) = of_buffers(rt.alloc()) else {
        return Err("no memory".into());
    };
    let Some(missed) = missed(&rt, rt.alloc(), &heap, rows.as_slice()) else {
        return Err("no memory".into());
    };
    assert!(rt; missed.is_empty(), "rows {missed:?}");
    Ok(())
}
