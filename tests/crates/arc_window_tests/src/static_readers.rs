//! Windows over static slices, and parts that are dropped: memory that is counted, and callers that
//! are generic in kind and layout.

use arc_block::layout::{DefaultLayout, RawLayout, StaticLayout};
use arc_buffer::kinds::{AnyItems, Owned, Plain, Subsliceable};
use arc_owners::error::OwnerError;
use arc_read::slice::ArcSlice;
use counting_heap::CountingHeap;
use std::alloc::Global;
use std::sync::Wait;
use std::test::Fail;

/// A window over bytes, whose memory is counted.
type Counted<'a> = ArcSlice<Plain<u8>, DefaultLayout, Vec<u8>, (), &'a CountingHeap<Global>>;

/// An empty cut of any window whose layout has static data.
fn empty_cut<S: Subsliceable, L: StaticLayout>(
    rt: &impl Wait,
    window: &ArcSlice<S, L>,
) -> Result<ArcSlice<S, L>, OwnerError> {
    window.try_subslice(rt, 0, 0)
}

/// How often memory was asked for once a static window was cloned and cut.
fn requests_beside_parts(rt: &impl Wait, heap: &CountingHeap<Global>) -> Option<u64> {
    let text: Counted<'_> = ArcSlice::from_static(heap, b"abcd");
    let clone = text.try_clone(rt).ok()?;
    if clone.check_range(1, 3).is_err() {
        return None;
    }
    let part = clone.try_subslice(rt, 1, 3).ok()?;
    drop(part);
    Some(heap.requests())
}

/// A static window takes no memory, nor does a clone, a part or an end of one.
#[test]
fn no_memory_taken(rt: HostRuntime) -> Result<(), Fail> {
    let heap = CountingHeap::new(rt.alloc());
    assert!(rt; requests_beside_parts(&rt, &heap) == Some(0));
    Ok(())
}

/// A window over static items of any kind: what is taken back of a part of it.
fn made_and_taken_back<S: AnyItems + Subsliceable, L: StaticLayout>(
    rt: &impl Wait,
    alloc: Global,
    items: &'static [S::Item],
    start: usize,
    end: usize,
) -> Result<Option<&'static [S::Item]>, OwnerError>
where
    S::Item: 'static,
{
    let window: ArcSlice<S, L> = ArcSlice::from_static(alloc, items);
    // The borrow checker doesn't cover a `?` here.
    match window.try_subslice(rt, start, end) {
        Ok(part) => match part.try_into_static() {
            Ok(part) => Ok(Some(part)),
            Err(_) => Ok(None),
        },
        Err(e) => Err(e),
    }
}

/// Items that lie there for good.
const NUMBERS: [u32; 4] = [2, 3, 5, 7];

#[test]
fn cut_and_taken_back(rt: HostRuntime) -> Result<(), Fail> {
    let text: ArcSlice<Plain<u8>> = ArcSlice::from_static(rt.alloc(), b"abcd");
    assert!(rt; text.check_range(0, 0) == Ok(()));
    assert!(rt; empty_cut(&rt, &text)?.is_empty());
    let part = made_and_taken_back::<Owned<u32>, RawLayout>(&rt, rt.alloc(), &NUMBERS, 0, 3)?;
    assert!(rt; part == Some([2u32, 3, 5].as_slice()));
    Ok(())
}

/// Whether as much is held as before once the parts of a window beside a clone are dropped, and
/// whether the clone is alone then, whose parts are dropped too.
fn parts_dropped(rt: &impl Wait, heap: &CountingHeap<Global>) -> Option<[bool; 2]> {
    let window: Counted<'_> = ArcSlice::try_from_slice(heap, b"abcd").ok()?;
    let clone = window.try_clone(rt).ok()?;
    drop(window.into_parts());
    let told = [heap.pieces() == 1, clone.is_unique()];
    drop(clone.into_parts());
    Some(told)
}

/// Parts that are dropped end as their window would, and the block is given back once.
#[test]
fn parts_given_back(rt: HostRuntime) -> Result<(), Fail> {
    let heap = CountingHeap::new(rt.alloc());
    assert!(rt; (parts_dropped(&rt, &heap), heap.pieces()) == (Some([true; 2]), 0));
    Ok(())
}
