//! The heap at work: a request is refused and counted, and what was handed out comes back.
use crate::CountingHeap;
use std::alloc::Global;
use std::test::Fail;

/// Whether the second of three boxes is refused, and how many pieces are out then.
fn boxed(heap: &CountingHeap<Global>) -> Option<(bool, u64)> {
    let one = Box::new(heap, 1u8).ok()?;
    let is_refused = Box::new(heap, 2u8).is_err();
    let three = Box::new(heap, 3u8).ok()?;
    let out = heap.pieces();
    drop(one);
    drop(three);
    Some((is_refused, out))
}

/// How many pieces are out with a list that has grown.
fn grown(heap: &CountingHeap<Global>) -> Option<u64> {
    let mut list = Vec::with_capacity(heap, 1).ok()?;
    list.push(1u8).ok()?;
    list.push(2u8).ok()?;
    Some(heap.pieces())
}

#[test]
fn counts_and_refuses(rt: HostRuntime) -> Result<(), Fail> {
    let heap = CountingHeap::new(rt.alloc());
    heap.refuse(2);
    assert!(rt; boxed(&heap) == Some((true, 2)));
    assert!(rt; (heap.requests(), heap.refusals(), heap.pieces()) == (3, 1, 0));
    heap.refuse(0);
    assert!(rt; grown(&heap) == Some(1));
    assert!(rt; (heap.requests(), heap.refusals(), heap.pieces()) == (2, 0, 0));
    heap.refuse(2);
    assert!(rt; grown(&heap) == None);
    assert!(rt; (heap.requests(), heap.refusals(), heap.pieces()) == (2, 1, 0));
    Ok(())
}
