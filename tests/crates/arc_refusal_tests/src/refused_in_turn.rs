//! Rows of windows with each request for memory refused in turn: the first, then the second, until
//! a run meets no refusal.
use arc_block::layout::{
    AnyBufferLayout, ArcLayout, BoxedSliceLayout, DefaultLayout, DefaultLayoutMut, LayoutMut,
    RawLayout, VecLayout,
};
use call::Line;
use counting_heap::CountingHeap;
use kept::{TAKINGS, Taking, takes};
use rows::{
    BY_ITSELF, COUNTED, GIVEN, READ_OR_WRITTEN, TO_BLOCK, VECTORS, WITH_NOTHING, WITHOUT_NOTHING,
};
use run::run;
use several_rows::SEVERAL;
use std::alloc::{AllocError, Global};
use std::sync::Wait;
use std::test::Fail;
use text::rows::{TEXTS, TextLine};
use text::run_text;
use window::Heap;

mod call;
mod change;
mod kept;
mod make;
mod over;
mod part;
mod rows;
mod run;
mod several;
mod several_rows;
mod text;
mod turn;
mod window;

/// What went otherwise in a row, if something did.
#[derive(Clone, Copy, PartialEq, Eq)]
enum Miss {
    /// Nothing: so many requests were refused, each once.
    Refused(u64),
    /// A line, by its place in the row, with this request refused.
    Line(usize, u64),
    /// Memory that didn't come back with this request refused.
    Kept(u64),
    /// Too many requests.
    Endless,
}

/// Runs a row with its first request refused, then with its second, and so on.
fn in_turn<L: AnyBufferLayout, K: LayoutMut + AnyBufferLayout>(
    rt: &impl Wait,
    alloc: Global,
    heap: Heap<'_>,
    row: &[Line],
) -> Result<Miss, AllocError> {
    for request in 1..1000u64 {
        heap.refuse(request);
        if let Some(at) = run::<L, K>(rt, alloc, heap, row)? {
            return Ok(Miss::Line(at, request));
        }
        if heap.pieces() != 0 {
            return Ok(Miss::Kept(request));
        }
        if heap.refusals() == 0 {
            return Ok(Miss::Refused(request - 1));
        }
    }
    Ok(Miss::Endless)
}

/// Whether a row went as it is to go, with at least one request refused.
fn is_passed(miss: Miss) -> bool {
    match miss {
        Miss::Refused(count) => count > 0,
        _ => false,
    }
}

/// The first row that went otherwise, by its place among these, and how.
fn missed<L: AnyBufferLayout, K: LayoutMut + AnyBufferLayout>(
    rt: &impl Wait,
    alloc: Global,
    heap: Heap<'_>,
    rows: &[&[Line]],
) -> Result<Option<(usize, Miss)>, AllocError> {
    for (at, row) in rows.iter().enumerate() {
        let miss = in_turn::<L, K>(rt, alloc, heap, row)?;
        if !is_passed(miss) {
            return Ok(Some((at, miss)));
        }
    }
    Ok(None)
}

/// The default layout without static data.
type Any = ArcLayout<true, false>;

/// What went otherwise under each layout in these rows. They come as an argument, since a list that
/// a proof names is written out there.
fn missed_by_layout(
    rt: &impl Wait,
    alloc: Global,
    heap: Heap<'_>,
    rows: &[&[Line]],
) -> Result<[Option<(usize, Miss)>; 7], AllocError> {
    Ok([
        missed::<DefaultLayout, DefaultLayoutMut>(rt, alloc, heap, rows)?,
        missed::<Any, Any>(rt, alloc, heap, rows)?,
        missed::<BoxedSliceLayout, DefaultLayoutMut>(rt, alloc, heap, rows)?,
        missed::<VecLayout, VecLayout>(rt, alloc, heap, rows)?,
        missed::<RawLayout, DefaultLayoutMut>(rt, alloc, heap, rows)?,
        missed::<RawLayout, Any>(rt, alloc, heap, rows)?,
        missed::<Any, DefaultLayoutMut>(rt, alloc, heap, rows)?,
    ])
}

/// What went otherwise in rows that hang on the layout.
fn missed_by_row(
    rt: &impl Wait,
    alloc: Global,
    heap: Heap<'_>,
) -> Result<[Option<(usize, Miss)>; 11], AllocError> {
    Ok([
        missed::<DefaultLayout, DefaultLayoutMut>(rt, alloc, heap, COUNTED)?,
        missed::<Any, Any>(rt, alloc, heap, COUNTED)?,
        missed::<VecLayout, VecLayout>(rt, alloc, heap, COUNTED)?,
        missed::<RawLayout, DefaultLayoutMut>(rt, alloc, heap, BY_ITSELF)?,
        missed::<BoxedSliceLayout, DefaultLayoutMut>(rt, alloc, heap, WITH_NOTHING)?,
        missed::<VecLayout, VecLayout>(rt, alloc, heap, WITH_NOTHING)?,
        missed::<Any, Any>(rt, alloc, heap, WITHOUT_NOTHING)?,
        missed::<Any, DefaultLayoutMut>(rt, alloc, heap, WITHOUT_NOTHING)?,
        missed::<RawLayout, Any>(rt, alloc, heap, TO_BLOCK)?,
        missed::<VecLayout, DefaultLayoutMut>(rt, alloc, heap, VECTORS)?,
        missed::<DefaultLayout, VecLayout>(rt, alloc, heap, VECTORS)?,
    ])
}

/// Whether a call takes all that comes with each request refused in turn, at least one of them.
fn takes_in_turn(heap: Heap<'_>, taking: Taking) -> bool {
    for request in 1..1000u64 {
        heap.refuse(request);
        if (takes(heap, taking), heap.pieces()) != (Some(true), 0) {
            return false;
        }
        if heap.refusals() == 0 {
            return request > 1;
        }
    }
    false
}

/// How many calls take all that comes.
fn takings_counted(heap: Heap<'_>) -> usize {
    let mut count = 0usize;
    for taking in TAKINGS {
        if takes_in_turn(heap, *taking) {
            count = count.saturating_add(1);
        }
    }
    count
}

/// Whether a row of texts goes as it is to go with each request refused in turn, at least one of
/// them.
fn text_in_turn<L: AnyBufferLayout>(
    rt: &impl Wait,
    alloc: Global,
    heap: Heap<'_>,
    row: &[TextLine],
) -> Result<bool, AllocError> {
    for request in 1..1000u64 {
        heap.refuse(request);
        let missed = run_text::<L>(rt, alloc, heap, row)?;
        if (missed, heap.pieces()) != (None, 0) {
            return Ok(false);
        }
        if heap.refusals() == 0 {
            return Ok(request > 1);
        }
    }
    Ok(false)
}

/// How many rows of texts do.
fn texts_counted<L: AnyBufferLayout>(
    rt: &impl Wait,
    alloc: Global,
    heap: Heap<'_>,
) -> Result<usize, AllocError> {
    let mut count = 0usize;
    for row in TEXTS {
        if text_in_turn::<L>(rt, alloc, heap, row)? {
            count = count.saturating_add(1);
        }
    }
    Ok(count)
}

/// A refused call says so, or gives back what went in; all windows are as before; made again it is
/// answered as if nothing had been refused; and at the end all memory is given back.
#[test]
fn refused_in_turn(rt: HostRuntime) -> Result<(), Fail> {
    let heap = CountingHeap::new(rt.alloc());
    assert!(rt; missed_by_layout(&rt, rt.alloc(), &heap, READ_OR_WRITTEN)? == [None; 7]);
    assert!(rt; missed_by_layout(&rt, rt.alloc(), &heap, GIVEN)? == [None; 7]);
    assert!(rt; missed_by_layout(&rt, rt.alloc(), &heap, SEVERAL)? == [None; 7]);
    assert!(rt; missed_by_row(&rt, rt.alloc(), &heap)? == [None; 11]);
    assert!(rt; takings_counted(&heap) == TAKINGS.len());
    assert!(rt; texts_counted::<DefaultLayout>(&rt, rt.alloc(), &heap)? == TEXTS.len());
    assert!(rt; texts_counted::<BoxedSliceLayout>(&rt, rt.alloc(), &heap)? == TEXTS.len());
    assert!(rt; texts_counted::<VecLayout>(&rt, rt.alloc(), &heap)? == TEXTS.len());
    Ok(())
}
