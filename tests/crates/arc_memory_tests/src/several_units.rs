//! Parts of several writers whose items have no size. All memory is given back.

use arc_buffer::kinds::Plain;
use arc_owners::owners::Pass;
use arc_writer_parts::role::WriterParts;
use arc_writer_parts::shared::SharedParts;
use arc_writer_parts::sole::SoleParts;
use counting_heap::CountingHeap;
use std::alloc::Global;
use std::sync::Wait;
use std::test::Fail;

type Heap<'a> = &'a CountingHeap<Global>;

/// One of several writers of items of any type.
type Writer<'a, T> = SharedParts<Plain<T>, Vec<T>, (), Heap<'a>>;

/// The only writer.
type Sole<'a, T> = SoleParts<Plain<T>, Vec<T>, (), Heap<'a>>;

/// One of several writers of a copy of these items.
fn writer<'a, T: Copy + Drop>(heap: Heap<'a>, items: &[T]) -> Option<Writer<'a, T>> {
    let sole = Sole::try_from_slice_as(heap, items, &mut Pass::none()).ok()?;
    sole.into_shared().ok()
}

/// The places behind the first `at`, split off.
fn split_off<'a, T: Copy + Drop>(
    rt: &impl Wait,
    parts: &mut Writer<'a, T>,
    at: usize,
) -> Option<Writer<'a, T>> {
    if parts.capacity() < at {
        return None;
    }
    let mut pass = parts.pass();
    parts.try_split_as::<true>(rt, at, &mut pass).ok()
}

/// Whether the other parts are put behind the first ones.
fn is_joined<'a, T: Copy + Drop>(parts: &mut Writer<'a, T>, other: Writer<'a, T>) -> bool {
    let mut pass = parts.pass();
    match parts.try_unsplit_as(other, &mut pass) {
        Ok(()) => true,
        Err(other) => {
            let mut its = other.pass();
            other.release_as(&mut its);
            false
        }
    }
}

/// How many items and places there are.
fn sizes<T: Copy + Drop>(parts: &Writer<'_, T>) -> [usize; 2] {
    [parts.len(), parts.capacity()]
}

/// The sizes of the parts of three items of no size, whether they are joined, and the sizes then.
fn units(rt: &impl Wait, heap: Heap<'_>) -> Option<([[usize; 2]; 3], bool)> {
    let mut front = writer(heap, &[(); 3])?;
    let back = split_off(rt, &mut front, 1)?;
    let split = [sizes(&front), sizes(&back)];
    let is_joined = is_joined(&mut front, back);
    Some(([split[0], split[1], sizes(&front)], is_joined))
}

#[test]
fn split_and_joined(rt: HostRuntime) -> Result<(), Fail> {
    let heap = CountingHeap::new(rt.alloc());
    let wanted = Some(([[1, 1], [2, 2], [3, 3]], true));
    assert!(rt; (units(&rt, &heap), heap.pieces()) == (wanted, 0));
    Ok(())
}
