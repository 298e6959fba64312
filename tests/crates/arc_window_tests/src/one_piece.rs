//! A native block is one piece of memory, which its last owner gives back; what comes in as it is
//! takes one more for its count.
use arc_block::layout::{AnyBufferLayout, DefaultLayout, DefaultLayoutMut, RawLayout};
use arc_buffer::kinds::Plain;
use arc_read::slice::ArcSlice;
use arc_write::slice_mut::{ArcSliceMut, IntoMut};
use counting_heap::CountingHeap;
use std::alloc::Global;
use std::sync::{Arc, Wait};
use std::test::Fail;

/// A heap that counts.
type Heap<'a> = &'a CountingHeap<Global>;

type Under<'a, L> = ArcSlice<Plain<u8>, L, Vec<u8, Heap<'a>>, (), Heap<'a>>;

type Reader<'a> = Under<'a, DefaultLayout>;

type Writer<'a> = ArcSliceMut<Plain<u8>, DefaultLayoutMut, 1, Vec<u8, Heap<'a>>, (), Heap<'a>>;

/// How often memory was asked for, and how many pieces are held.
fn told(heap: Heap<'_>) -> [u64; 2] {
    [heap.requests(), heap.pieces()]
}

/// What is told once a window is made, once it is cloned, when one of the two has ended, and when
/// both have.
fn ended(rt: &impl Wait, heap: Heap<'_>, clone_first: bool) -> Option<[[u64; 2]; 4]> {
    let window = Reader::try_from_slice(heap, &[1, 2, 3]).ok()?;
    let made = told(heap);
    let clone = window.try_clone(rt).ok()?;
    let cloned = told(heap);
    if clone_first {
        drop(clone);
        let beside = told(heap);
        drop(window);
        return Some([made, cloned, beside, told(heap)]);
    }
    drop(window);
    let beside = told(heap);
    drop(clone);
    Some([made, cloned, beside, told(heap)])
}

/// What is told once a writer is made, once it has grown, once it is frozen and written again, and
/// when it has ended.
fn written(heap: Heap<'_>) -> Option<[[u64; 2]; 4]> {
    let mut writer = Writer::try_with_capacity(heap, 2).ok()?;
    let made = told(heap);
    writer.try_extend_from_slice(&[1, 2, 3]).ok()?;
    let grown = told(heap);
    let window = writer.try_freeze::<DefaultLayout>().ok()?;
    let writer = window.try_into_mut::<DefaultLayoutMut>().ok()?;
    let frozen = told(heap);
    drop(writer);
    Some([made, grown, frozen, told(heap)])
}

/// What is told once a clone of a window was let go, and once the window was.
fn let_go(rt: &impl Wait, heap: Heap<'_>) -> Option<[[u64; 2]; 2]> {
    let window = Reader::try_from_slice(heap, &[1, 2, 3]).ok()?;
    let clone = window.try_clone(rt).ok()?;
    let _ = clone.let_go();
    let beside = told(heap);
    let _ = window.let_go();
    Some([beside, told(heap)])
}

/// What is told once a writer was let go.
fn sole_let_go(heap: Heap<'_>) -> Option<[u64; 2]> {
    let writer = Writer::try_from_slice(heap, &[1, 2, 3]).ok()?;
    let _ = writer.let_go();
    Some(told(heap))
}

/// The same of one of several writers.
fn shared_let_go(heap: Heap<'_>) -> Option<[u64; 2]> {
    let writer = Writer::try_from_slice(heap, &[1, 2, 3]).ok()?;
    let shared = writer.into_shared().ok()?;
    let _ = shared.let_go();
    Some(told(heap))
}

#[test]
fn let_go_at_last(rt: HostRuntime) -> Result<(), Fail> {
    let heap = CountingHeap::new(rt.alloc());
    assert!(rt; let_go(&rt, &heap) == Some([[1, 1], [1, 0]]));
    assert!(rt; sole_let_go(&heap) == Some([2, 0]));
    assert!(rt; shared_let_go(&heap) == Some([3, 0]));
    Ok(())
}

#[test]
fn one_piece(rt: HostRuntime) -> Result<(), Fail> {
    let wanted = Some([[1, 1], [1, 1], [1, 1], [1, 0]]);
    let heap = CountingHeap::new(rt.alloc());
    assert!(rt; ended(&rt, &heap, true) == wanted);
    let heap = CountingHeap::new(rt.alloc());
    assert!(rt; ended(&rt, &heap, false) == wanted);
    let heap = CountingHeap::new(rt.alloc());
    assert!(rt; written(&heap) == Some([[1, 1], [2, 1], [2, 1], [2, 0]]));
    Ok(())
}

/// What is told of what comes in, once a window is made of it, once the window has given it back,
/// and when it has ended.
macro_rules! in_and_out {
    ($heap:ident, $given:expr, $window:ty, $make:ident, $take:ident) => {{
        let items = $given;
        let given = told($heap);
        let window = <$window>::$make($heap, items).ok()?;
        let made = told($heap);
        let items = window.$take().ok()?;
        let taken = told($heap);
        drop(items);
        Some([given, made, taken, told($heap)])
    }};
}

/// A vector of three bytes, without places to spare.
fn three<'a>(heap: Heap<'a>) -> Option<Vec<u8, Heap<'a>>> {
    Vec::from_slice(heap, &[1, 2, 3]).ok()
}

fn of_vector(heap: Heap<'_>) -> Option<[[u64; 2]; 4]> {
    in_and_out!(heap, three(heap)?, Reader, try_from_vec, try_into_vec)
}

fn of_box(heap: Heap<'_>) -> Option<[[u64; 2]; 4]> {
    let items = three(heap)?.into_boxed_slice();
    in_and_out!(heap, items, Reader, try_from_boxed, try_into_boxed)
}

/// A box whose memory has places to spare.
fn of_box_with_room(heap: Heap<'_>) -> Option<[[u64; 2]; 4]> {
    let mut items = Vec::with_capacity(heap, 8).ok()?;
    items.extend_from_slice(&[1, 2, 3]).ok()?;
    let items = items.into_boxed_slice();
    in_and_out!(heap, items, Reader, try_from_boxed, try_into_boxed)
}

/// A vector as a caller's buffer.
fn of_buffer(heap: Heap<'_>) -> Option<[[u64; 2]; 4]> {
    in_and_out!(heap, three(heap)?, Reader, try_from_buffer, try_into_buffer)
}

/// A vector behind an `Arc`.
fn of_arc<L: AnyBufferLayout>(heap: Heap<'_>) -> Option<[[u64; 2]; 4]> {
    let shared = Arc::new(heap, three(heap)?).ok()?;
    in_and_out!(heap, shared, Under<L>, try_from_raw_buffer, try_into_raw_buffer)
}

fn writer_of_vector(heap: Heap<'_>) -> Option<[[u64; 2]; 4]> {
    in_and_out!(heap, three(heap)?, Writer, try_from_vec, try_into_vec)
}

fn writer_of_buffer(heap: Heap<'_>) -> Option<[[u64; 2]; 4]> {
    in_and_out!(heap, three(heap)?, Writer, try_from_buffer, try_into_buffer)
}

/// The same heap, which counts its requests anew.
fn anew(heap: Heap<'_>) -> Heap<'_> {
    heap.refuse(0);
    heap
}

/// What is told of each that is one piece of memory, of readers first.
fn of_each(heap: Heap<'_>) -> [Option<[[u64; 2]; 4]>; 5] {
    [
        of_vector(anew(heap)),
        of_box(anew(heap)),
        of_buffer(anew(heap)),
        writer_of_vector(anew(heap)),
        writer_of_buffer(anew(heap)),
    ]
}

/// What is told of an `Arc`, that is counted once more and that is a block by itself.
fn of_arcs(heap: Heap<'_>) -> [Option<[[u64; 2]; 4]>; 2] {
    [
        of_arc::<DefaultLayout>(anew(heap)),
        of_arc::<RawLayout>(anew(heap)),
    ]
}

/// What comes in takes one request more, for the count, and none where an `Arc` is a block by
/// itself: its items aren't copied, but those of a box with places to spare. It is given back
/// without one.
#[test]
fn one_request(rt: HostRuntime) -> Result<(), Fail> {
    let heap = CountingHeap::new(rt.alloc());
    assert!(rt; of_box_with_room(&heap) == Some([[1, 1], [3, 2], [3, 1], [3, 0]]));
    assert!(rt; of_each(&heap) == [Some([[1, 1], [2, 2], [2, 1], [2, 0]]); 5]);
    let counted = Some([[2, 2], [3, 3], [3, 2], [3, 0]]);
    let by_itself = Some([[2, 2], [2, 2], [2, 2], [2, 0]]);
    assert!(rt; of_arcs(&heap) == [counted, by_itself]);
    Ok(())
}
