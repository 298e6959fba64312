//! A value in memory of its own: who gets it back, and which memory is taken and kept.

use arc_owners::error::AllocError;
use arc_owners::mark::{Open, Whole};
use arc_owners::owners::{CountedBox, Pass};
use linked_list_allocator::LocalHeap;
use std::alloc::Global;
use std::test::Fail;
use std::thread::{Threads, join};

/// Of two owners the second one reads the value, is alone after the first one's end, and gets it.
#[test]
fn last_owner_gets_the_value(rt: HostRuntime) -> Result<(), Fail> {
    let Ok((first, mut pass)) = CountedBox::<u64, _, 3, Open>::new(rt.alloc(), 7) else {
        return Err(AllocError.into());
    };
    let second = first.try_clone_as(&rt, &mut pass)?;
    let early = first.release_as(&mut pass);
    let alone = second.is_unique_as(&mut pass);
    let kept = *second.get();
    let late = second.release_as(&mut pass);
    assert!(rt; (kept, alone, early, late) == (7, true, None, Some(7)));
    Ok(())
}

/// Beside another owner the value isn't given, and alone it is.
#[test]
fn taken_back_where_alone(rt: HostRuntime) -> Result<(), Fail> {
    let Ok((first, mut pass)) = CountedBox::<u64, _, 3, Whole>::new(rt.alloc(), 7) else {
        return Err(AllocError.into());
    };
    let second = first.try_clone_as(&rt, &mut pass)?;
    let Err(first) = first.try_into_value_as(&mut pass) else {
        return Err("beside another owner".into());
    };
    assert!(rt; second.release_as(&mut pass).is_none());
    let Ok(value) = first.try_into_value_as(&mut pass) else {
        return Err("alone".into());
    };
    assert!(rt; value == 7);
    Ok(())
}

#[test]
fn value_handed_back_without_memory(rt: HostRuntime) -> Result<(), Fail> {
    let heap = LocalHeap::new(rt.alloc(), 48)?;
    let Ok((first, mut pass)) = CountedBox::<[u64; 3], _, 3, Open>::new(&heap, [1, 2, 3]) else {
        return Err(AllocError.into());
    };
    let used = heap.used();
    let Err(back) = CountedBox::<[u64; 3], _, 3, Open>::new(&heap, [4, 5, 6]) else {
        return Err("two pieces in the room of one".into());
    };
    let left = heap.used();
    let value = first.release_as(&mut pass);
    assert!(rt; left == used);
    assert!(rt; (value, back) == (Some([1, 2, 3]), [4, 5, 6]));
    Ok(())
}

/// Dropped under `Whole`, an owner is forgotten, and the memory stays taken.
#[test]
fn memory_kept_by_forgotten_owner(rt: HostRuntime) -> Result<(), Fail> {
    let heap = LocalHeap::new(rt.alloc(), 256)?;
    let before = heap.used();
    let Ok((first, _pass)) = CountedBox::<u64, _, 3, Whole>::new(&heap, 7) else {
        return Err(AllocError.into());
    };
    let taken = heap.used();
    drop(first);
    assert!(rt; (before < taken, heap.used()) == (true, taken));
    Ok(())
}

/// Two owners end in two threads, each with a pass of its own: one of them gets the value,
/// whichever is later.
#[test]
fn released_by_two_threads(rt: HostRuntime) -> Result<(), Fail> {
    for round in 0..64u64 {
        let Ok((first, mut pass)) = CountedBox::<u64, _, 3, Open>::new(rt.alloc(), round) else {
            return Err(AllocError.into());
        };
        let second = first.try_clone_as(&rt, &mut pass)?;
        let (one, two) = join(
            &rt,
            move || {
                let mut pass = first.pass();
                first.release_as(&mut pass)
            },
            move || {
                let mut pass = second.pass();
                second.release_as(&mut pass)
            },
        );
        assert!(rt; (one.is_some() != two.is_some(), one.or(two)) == (true, Some(round)));
    }
    Ok(())
}

/// Ends an owner with a pass of its own, and hands that back.
fn ended(piece: CountedBox<u64, Global, 3, Open>) -> Pass<Open> {
    let mut pass = piece.pass();
    piece.release_as(&mut pass);
    pass
}

/// Two threads read through one owner, and one of them ends another one, whose pass is handed back.
fn read_by_two<R: Threads>(
    rt: &R,
    first: &CountedBox<u64, Global, 3, Open>,
    second: CountedBox<u64, Global, 3, Open>,
) -> (u64, u64, Pass<Open>) {
    let (one, (two, pass)) = join(
        rt,
        || *first.get(),
        || -> (u64, Pass<Open>) { (*first.get(), ended(second)) },
    );
    (one, two, pass)
}

#[test]
fn read_in_another_thread(rt: HostRuntime) -> Result<(), Fail> {
    let Ok((first, mut pass)) = CountedBox::<u64, _, 3, Open>::new(rt.alloc(), 7) else {
        return Err(AllocError.into());
    };
    let second = first.try_clone_as(&rt, &mut pass)?;
    assert!(rt; !first.is_unique_as(&mut pass));
    let (one, two, other) = read_by_two(&rt, &first, second);
    assert!(rt; (one, two) == (7, 7));
    first.learn(&mut pass, &other);
    assert!(rt; first.is_unique_as(&mut pass));
    Ok(())
}
