//! Read windows: calls with a pass, threads, and memory that is counted, refused or given back.

use arc_block::layout::DefaultLayout;
use arc_buffer::kinds::Plain;
use arc_owners::error::{OwnerError, RangeError};
use arc_owners::mark::{Open, Stepping, Whole};
use arc_owners::owners::Pass;
use arc_read::slice::ArcSlice;
use linked_list_allocator::LocalHeap;
use std::alloc::Global;
use std::sync::Wait;
use std::test::Fail;
use std::thread;

/// Windows whose memory comes from a heap of its own.
type InHeap<'a, T, H = Open> = ArcSlice<Plain<T>, DefaultLayout, Vec<T>, (), &'a LocalHeap, H>;

#[test]
fn cut_and_cloned(rt: HostRuntime) -> Result<(), Fail> {
    let text: ArcSlice<Plain<u8>> = ArcSlice::try_from_slice(rt.alloc(), b"Hello world")?;
    assert!(rt; text.check_range(0, 12) == Err(RangeError::OutOfRange));
    assert!(rt; text.check_range(0, 5) == Ok(()));
    let front = text.try_subslice(&rt, 0, 5)?;
    let clone = front.try_clone(&rt)?;
    drop(text);
    drop(front);
    assert!(rt; clone.as_slice() == b"Hello".as_slice());
    Ok(())
}

/// What a clone and a cut with a pass made is released, and whether the window is alone after each.
fn alone_after_parts_as(rt: &impl Wait, alloc: Global) -> Result<[bool; 2], Fail> {
    let mut pass = Pass::none();
    let window: ArcSlice<Plain<u8>> = ArcSlice::try_from_slice_as(
        alloc,
        b"Hello world",
        &mut pass,
    )?;
    window.try_clone_as(rt, &mut pass)?.release_as(&mut pass);
    let after_clone = window.is_unique_as(&mut pass);
    window
        .try_subslice_as(rt, 2, 5, &mut pass)?
        .release_as(&mut pass);
    Ok([after_clone, window.is_unique_as(&mut pass)])
}

/// The same of splits.
fn alone_after_splits_as(rt: &impl Wait, alloc: Global) -> Result<[bool; 2], Fail> {
    let mut pass = Pass::none();
    let mut window: ArcSlice<Plain<u8>> = ArcSlice::try_from_slice_as(
        alloc,
        b"Hello world",
        &mut pass,
    )?;
    window
        .try_split_off_as(rt, 6, &mut pass)?
        .release_as(&mut pass);
    let after_back = window.is_unique_as(&mut pass);
    window
        .try_split_to_as(rt, 2, &mut pass)?
        .release_as(&mut pass);
    Ok([after_back, window.is_unique_as(&mut pass)])
}

/// How many items a window has that is made of a borrowed part with a pass, and is then released;
/// whether the window from which it was borrowed is alone then, and how many owners its block may
/// have.
fn alone_after_borrowed_as(rt: &impl Wait, alloc: Global) -> Result<(usize, bool, u64), Fail> {
    let mut pass = Pass::none();
    let window: ArcSlice<Plain<u8>> = ArcSlice::try_from_slice_as(
        alloc,
        b"Hello world",
        &mut pass,
    )?;
    let part = window.borrow(2, 5).try_clone_arc_as(rt, &mut pass)?;
    let len = part.len();
    part.release_as(&mut pass);
    Ok((len, window.is_unique_as(&mut pass), window.max_owners()))
}

/// Calls on windows that stand on no block, and make none: the pass is as it was, as the contract
/// says. How many items the windows have that were made.
fn called_on_no_block<R: Wait>(
    rt: &R,
    alloc: Global,
    pass: Pass<Open>,
) -> Result<(Pass<Open>, usize), OwnerError> {
    let mut pass = pass;
    let none: ArcSlice<Plain<u32>> = ArcSlice::new(alloc);
    let clone = none.try_clone_as(rt, &mut pass)?;
    let part = none.try_subslice_as(rt, 0, 0, &mut pass)?;
    let len = clone.len() + part.len();
    none.release_as(&mut pass);
    clone.drop_with_unique_hint_as(&mut pass);
    Ok((pass, len))
}

/// The same of calls that make, ask, learn and take back.
fn asked_on_no_block(alloc: Global, pass: Pass<Open>) -> Result<(Pass<Open>, usize), OwnerError> {
    let mut pass = pass;
    let none: ArcSlice<Plain<u32>> = ArcSlice::new(alloc);
    let empty: ArcSlice<Plain<u32>> = ArcSlice::try_from_slice_as(alloc, &[], &mut pass)?;
    let unique = none.is_unique_as(&mut pass);
    none.learn(&mut pass, &Pass::none());
    let taken = none.try_into_array_as::<0>(&mut pass).is_ok();
    Ok((pass, if unique || taken { 1 } else { empty.len() }))
}

/// Three values in each of their six orders.
fn in_order<T>(order: u32, a: T, b: T, c: T) -> (T, T, T) {
    match order {
        0 => (a, b, c),
        1 => (a, c, b),
        2 => (b, a, c),
        3 => (b, c, a),
        4 => (c, a, b),
        _ => (c, b, a),
    }
}

/// Ends a window in one of three ways.
fn end(way: u32, window: InHeap<'_, u32>) {
    match way {
        0 => drop(window),
        1 => window.drop_with_unique_hint(),
        _ => {
            let mut pass = window.pass();
            window.release_as(&mut pass);
        }
    }
}

/// Whether as much is taken as before after the first and the second of three windows on one block
/// have ended, in this order, and nothing after the third.
fn given_back_at_last<'a>(
    heap: &LocalHeap,
    order: u32,
    windows: (InHeap<'a, u32>, InHeap<'a, u32>, InHeap<'a, u32>),
) -> bool {
    let taken = heap.used();
    let (a, b, c) = windows;
    let (first, second, third) = in_order(order, a, b, c);
    drop(first);
    let after_first = heap.used();
    second.drop_with_unique_hint();
    let after_second = heap.used();
    end(order % 3, third);
    [after_first, after_second, heap.used()] == [taken, taken, 0]
}

/// Whether a window takes some memory, a clone and a cut none, and all is given back once.
fn given_back_once(rt: &impl Wait, heap: &LocalHeap, order: u32) -> Option<[bool; 3]> {
    let window: InHeap<'_, u32> = ArcSlice::try_from_slice(heap, &[1, 2, 3]).ok()?;
    let taken = heap.used();
    let clone = window.try_clone(rt).ok()?;
    if window.check_range(1, 3).is_err() {
        return None;
    }
    let cut = window.try_subslice(rt, 1, 3).ok()?;
    let is_all = heap.used() == taken;
    let is_back = given_back_at_last(heap, order, (window, clone, cut));
    Some([0 < taken, is_all, is_back])
}

/// A window, a clone and a cut end in each order, and the block is given back with the last.
#[test]
fn memory_given_back_once(rt: HostRuntime) -> Result<(), Fail> {
    let heap = LocalHeap::new(rt.alloc(), 1024)?;
    for order in 0..6u32 {
        assert!(rt; given_back_once(&rt, &heap, order) == Some([true; 3]));
    }
    Ok(())
}

/// Whether a window was made under `Whole`, which is then dropped.
fn forgotten(heap: &LocalHeap) -> bool {
    let mut pass = Pass::none();
    InHeap::<'_, u32, Whole>::try_from_slice_as(heap, &[1, 2, 3], &mut pass).is_ok()
}

/// A window under `Whole` that is dropped keeps its block for good: its items and a count.
#[test]
fn memory_of_forgotten_windows(rt: HostRuntime) -> Result<(), Fail> {
    let heap = LocalHeap::new(rt.alloc(), 1024)?;
    assert!(rt; forgotten(&heap));
    assert!(rt; 3 * 4 < heap.used());
    Ok(())
}

/// A clone of the window, with a pass of its own.
fn cloned<R: Wait>(
    rt: &R,
    window: &ArcSlice<Plain<u32>>,
) -> Result<(ArcSlice<Plain<u32>>, Pass<Open>), OwnerError> {
    let clone = window.try_clone(rt)?;
    let pass = clone.pass();
    Ok((clone, pass))
}

/// Ends a window that stands where the first one does, and hands the pass back.
fn ended(
    first: &ArcSlice<Plain<u32>>,
    window: ArcSlice<Plain<u32>>,
    pass: Pass<Open>,
) -> Pass<Open> {
    let _ = first;
    let mut pass = pass;
    window.release_as(&mut pass);
    pass
}

/// A second thread ends a clone with a pass of its own, from which this one learns at the join that
/// it is alone.
#[test]
fn ended_by_another_thread(rt: HostRuntime) -> Result<(), Fail> {
    let window: ArcSlice<Plain<u32>> = ArcSlice::try_from_slice(rt.alloc(), &[1, 2, 3])?;
    let (clone, other) = cloned(&rt, &window)?;
    let mut own = window.pass();
    let (other, len) = thread::join(
        &rt,
        || -> Pass<Open> { ended(&window, clone, other) },
        || window.as_slice().len(),
    );
    assert!(rt; len == 3);
    window.learn(&mut own, &other);
    assert!(rt; window.is_unique_as(&mut own));
    Ok(())
}

/// No call leaves an owner more than it hands out: no clause can say so, since an owner that a
/// second pass makes is as good as another thread's. The plain calls stand in rows.
#[test]
fn each_call_leaves_what_it_should(rt: HostRuntime) -> Result<(), Fail> {
    assert!(rt; alone_after_parts_as(&rt, rt.alloc())? == [true; 2]);
    assert!(rt; alone_after_splits_as(&rt, rt.alloc())? == [true; 2]);
    let told = alone_after_borrowed_as(&rt, rt.alloc())?;
    assert!(rt; told == (3, true, 9_223_372_036_854_775_807));
    let (_, made) = called_on_no_block(&rt, rt.alloc(), Pass::none())?;
    let (_, asked) = asked_on_no_block(rt.alloc(), Pass::none())?;
    assert!(rt; (made, asked) == (0, 0));
    Ok(())
}
