//! Windows of each sort read to their end, and with memory for the vector refused.
use arc_slice::buffer::Plain;
use arc_slice::inlined::{SmallArcBytes, SmallArcSlice, SmallBytes, SmallSlice};
use arc_slice::{ArcBytes, ArcBytesMut, ArcBytesShared, ArcSlice, ArcSliceMut};
use counting_heap::CountingHeap;
use std::alloc::Global;
use std::io;
use std::io::ErrorKind;
use std::test::Fail;

type Heap<'a> = &'a CountingHeap<Global>;

/// The bytes of a window, which is shared where it is small.
const LONG: [u8; 40] = [7; 40];

/// What a call told: so many bytes, or an error, which is of kind `OutOfMemory` or not.
#[derive(Clone, Copy, PartialEq, Eq)]
enum Told {
    Count(usize),
    Refused(bool),
}

/// After a call: what it told, how many bytes the window has, and whether the vector is as it is to
/// be.
type Seen = (Told, usize, bool);

fn told(read: io::Result<usize>) -> Told {
    match read {
        Ok(count) => Told::Count(count),
        Err(e) => Told::Refused(e.kind() == ErrorKind::OutOfMemory),
    }
}

/// A vector of one byte, 9. The next request is refused, or none is.
fn begun<'a>(heap: Heap<'a>, is_refused: bool) -> Option<Vec<u8, Heap<'a>>> {
    heap.refuse(0);
    let mut all = Vec::new(heap);
    all.push(9).ok()?;
    heap.refuse(u64::from(is_refused));
    Some(all)
}

/// Whether the vector has its 9 and so many times 7 behind it.
fn has(all: &[u8], count: usize) -> bool {
    all.len() == count + 1 && all[0] == 9 && all[1..].iter().all(|byte| *byte == 7)
}

fn reader(alloc: Global, heap: Heap<'_>, is_refused: bool) -> Option<Seen> {
    let mut window: ArcBytes = ArcSlice::try_from_slice(alloc, &LONG).ok()?;
    let mut all = begun(heap, is_refused)?;
    let told = told(window.read_to_end(&mut all));
    Some((told, window.len(), has(&all, LONG.len() - window.len())))
}

fn writer(alloc: Global, heap: Heap<'_>, is_refused: bool) -> Option<Seen> {
    let mut window: ArcBytesMut = ArcSliceMut::try_from_slice(alloc, &LONG).ok()?;
    let mut all = begun(heap, is_refused)?;
    let told = told(window.read_to_end(&mut all));
    Some((told, window.len(), has(&all, LONG.len() - window.len())))
}

fn one_of_several(alloc: Global, heap: Heap<'_>, is_refused: bool) -> Option<Seen> {
    let sole: ArcBytesMut = ArcSliceMut::try_from_slice(alloc, &LONG).ok()?;
    let mut window: ArcBytesShared = sole.into_shared().ok()?;
    let mut all = begun(heap, is_refused)?;
    let told = told(window.read_to_end(&mut all));
    Some((told, window.len(), has(&all, LONG.len() - window.len())))
}

fn small(alloc: Global, heap: Heap<'_>, is_refused: bool) -> Option<Seen> {
    let mut window: SmallArcBytes = SmallArcSlice::try_from_slice(alloc, &LONG).ok()?;
    let mut all = begun(heap, is_refused)?;
    let told = told(window.read_to_end(&mut all));
    Some((told, window.len(), has(&all, LONG.len() - window.len())))
}

fn inline(heap: Heap<'_>, is_refused: bool) -> Option<Seen> {
    let mut window: SmallBytes = SmallSlice::new(&LONG[..30])?;
    let mut all = begun(heap, is_refused)?;
    let told = told(window.read_to_end(&mut all));
    Some((told, window.len(), has(&all, 30 - window.len())))
}

#[test]
fn read_to_end(rt: HostRuntime) -> Result<(), Fail> {
    let alloc = rt.alloc();
    let heap = CountingHeap::new(alloc);
    let all = Some((Told::Count(40), 0, true));
    assert!(rt; reader(alloc, &heap, false) == all);
    assert!(rt; writer(alloc, &heap, false) == all);
    assert!(rt; one_of_several(alloc, &heap, false) == all);
    assert!(rt; small(alloc, &heap, false) == all);
    assert!(rt; inline(&heap, false) == Some((Told::Count(30), 0, true)));
    let none = Some((Told::Refused(true), 40, true));
    assert!(rt; reader(alloc, &heap, true) == none);
    assert!(rt; writer(alloc, &heap, true) == none);
    assert!(rt; one_of_several(alloc, &heap, true) == none);
    assert!(rt; small(alloc, &heap, true) == none);
    assert!(rt; inline(&heap, true) == Some((Told::Refused(true), 30, true)));
    assert!(rt; heap.pieces() == 0);
    Ok(())
}
