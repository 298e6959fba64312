//! Rows of small windows with each request for memory refused in turn: the first, then the second,
//! until a run meets no refusal.
use arc_slice::layout::{
    AnyBufferLayout, ArcLayout, BoxedSliceLayout, DefaultLayout, RawLayout, VecLayout,
};
use counting_heap::CountingHeap;
use rows::{ALL, Line};
use run::run;
use std::alloc::{AllocError, Global};
use std::sync::Wait;
use std::test::Fail;
use window::Heap;

mod make;
mod rows;
mod run;
mod turn;
mod window;

/// Whether a row goes as it is to go with each request refused in turn, at least one of them, and
/// all memory comes back each time.
fn in_turn<L: AnyBufferLayout>(
    rt: &impl Wait,
    alloc: Global,
    heap: Heap<'_>,
    row: &[Line],
) -> Result<bool, AllocError> {
    for request in 1..1000u64 {
        heap.refuse(request);
        let missed = run::<L>(rt, alloc, heap, row)?;
        if (missed, heap.pieces()) != (None, 0) {
            return Ok(false);
        }
        if heap.refusals() == 0 {
            return Ok(request > 1);
        }
    }
    Ok(false)
}

/// The first row that doesn't, by its place among these.
fn missed<L: AnyBufferLayout>(
    rt: &impl Wait,
    alloc: Global,
    heap: Heap<'_>,
    rows: &[&[Line]],
) -> Result<Option<usize>, AllocError> {
    for (at, row) in rows.iter().enumerate() {
        if !in_turn::<L>(rt, alloc, heap, row)? {
            return Ok(Some(at));
        }
    }
    Ok(None)
}

/// The default layout without static data.
type Any = ArcLayout<true, false>;

/// The rows under each layout.
fn missed_by_layout(
    rt: &impl Wait,
    alloc: Global,
    heap: Heap<'_>,
) -> Result<[Option<usize>; 5], AllocError> {
    Ok([
        missed::<DefaultLayout>(rt, alloc, heap, ALL)?,
        missed::<Any>(rt, alloc, heap, ALL)?,
        missed::<BoxedSliceLayout>(rt, alloc, heap, ALL)?,
        missed::<VecLayout>(rt, alloc, heap, ALL)?,
        missed::<RawLayout>(rt, alloc, heap, ALL)?,
    ])
}

/// A refused call says so, or gives back what went in; all windows are as before; made again it is
/// answered as if nothing had been refused; and at the end all memory is given back. Short lists
/// ask for none.
#[test]
fn refused_in_turn(rt: HostRuntime) -> Result<(), Fail> {
    let heap = CountingHeap::new(rt.alloc());
    assert!(rt; missed_by_layout(&rt, rt.alloc(), &heap)? == [None; 5]);
    Ok(())
}
