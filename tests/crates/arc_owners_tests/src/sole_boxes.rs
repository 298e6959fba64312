//! A value whose only owner has its memory: taken back, lent anew, and given back once on each
//! path.

use arc_owners::error::AllocError;
use arc_owners::mark::{Mark, Open, Whole};
use arc_owners::owners::{CountedBox, SoleBox};
use linked_list_allocator::LocalHeap;
use std::alloc::{Allocator, Global};
use std::sync::Wait;
use std::test::Fail;
use std::thread::join;

/// What two owners get at their ends to whom a value is lent anew, which its first owner took back.
fn lent_anew(rt: &impl Wait, alloc: Global) -> Option<[Option<u64>; 2]> {
    let Ok((first, mut pass)) = CountedBox::<u64, _, 3, Open>::new(alloc, 7) else {
        return None;
    };
    let Ok(sole) = first.try_into_sole_as(&mut pass) else {
        return None;
    };
    let first = sole.lend();
    let second = first.try_clone_as(rt, &mut pass).ok()?;
    let early = first.release_as(&mut pass);
    Some([early, second.release_as(&mut pass)])
}

#[test]
fn taken_back_and_lent_anew(rt: HostRuntime) -> Result<(), Fail> {
    assert!(rt; lent_anew(&rt, rt.alloc()) == Some([None, Some(7)]));
    Ok(())
}

/// What is written through `get_mut` is the value afterwards, of the same owner.
fn set<A: Allocator + Copy, H: Mark>(sole: &mut SoleBox<u64, A, 3, H>, value: u64) {
    *sole.get_mut() = value;
}

/// Changed by its only owner, it is read so by the owners that it is lent to. It answers what they
/// read, and what its only owner reads and ends with, after it had it back and changed it again.
fn changed<R: Wait>(rt: &R, heap: &LocalHeap) -> Result<[u64; 3], Fail> {
    let Ok((mut sole, mut pass)) = SoleBox::<u64, _, 3, Whole>::new(heap, 7) else {
        return Err(AllocError.into());
    };
    set(&mut sole, 8);
    let first = sole.lend();
    let second = first.try_clone_as(rt, &mut pass)?;
    let lent = *second.get();
    if first.release_as(&mut pass).is_some() {
        return Err("beside another owner".into());
    }
    let Ok(mut sole) = second.try_into_sole_as(&mut pass) else {
        return Err("alone".into());
    };
    set(&mut sole, 9);
    let back = *sole.get();
    Ok([lent, back, sole.into_value_as(&mut pass)])
}

#[test]
fn changed_and_lent_anew(rt: HostRuntime) -> Result<(), Fail> {
    let heap = LocalHeap::new(rt.alloc(), 256)?;
    let before = heap.used();
    assert!(rt; changed(&rt, &heap)? == [8, 9, 9]);
    assert!(rt; heap.used() == before);
    Ok(())
}

#[test]
fn sole_from_the_beginning(rt: HostRuntime) -> Result<(), Fail> {
    let heap = LocalHeap::new(rt.alloc(), 256)?;
    let before = heap.used();
    let Ok((sole, mut pass)) = SoleBox::<u64, _, 3, Open>::new(&heap, 7) else {
        return Err(AllocError.into());
    };
    assert!(rt; (*sole.get(), sole.is_unique_as(&mut pass)) == (7, true));
    let first = sole.lend();
    assert!(rt; first.is_unique_as(&mut pass));
    assert!(rt; first.release_as(&mut pass) == Some(7));
    assert!(rt; heap.used() == before);
    Ok(())
}

/// Dropped under `Open` it gives the memory back; under `Whole` it is forgotten, with the memory.
#[test]
fn memory_after_a_drop(rt: HostRuntime) -> Result<(), Fail> {
    let heap = LocalHeap::new(rt.alloc(), 256)?;
    let before = heap.used();
    let Ok((open, _pass)) = SoleBox::<u64, _, 3, Open>::new(&heap, 7) else {
        return Err(AllocError.into());
    };
    let taken = heap.used();
    assert!(rt; before < taken);
    drop(open);
    assert!(rt; heap.used() == before);
    let Ok((whole, _pass)) = SoleBox::<u64, _, 3, Whole>::new(&heap, 7) else {
        return Err(AllocError.into());
    };
    drop(whole);
    assert!(rt; heap.used() == taken);
    Ok(())
}

/// It goes to another thread, which ends it with a pass of its own.
#[test]
fn ended_in_another_thread(rt: HostRuntime) -> Result<(), Fail> {
    let Ok((sole, _pass)) = SoleBox::<u64, _, 3, Open>::new(rt.alloc(), 7) else {
        return Err(AllocError.into());
    };
    let (value, ()) = join(
        &rt,
        move || {
            let mut pass = sole.pass();
            sole.into_value_as(&mut pass)
        },
        || (),
    );
    assert!(rt; value == 7);
    Ok(())
}
