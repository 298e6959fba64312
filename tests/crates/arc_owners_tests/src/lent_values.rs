//! Memory of a caller's own, lent to the owners of a count.
use arc_owners::error::AllocError;
use arc_owners::lend::LentValue;
use arc_owners::mark::Open;
use arc_owners::owners::{Owners, Release};
use linked_list_allocator::LocalHeap;
use std::process::Abort;
use std::sync::Wait;
use std::test::Fail;
use std::thread::join;

/// One owner lends a box, another one reads it, and it comes back for the end of the last one.
fn lent_and_had_back<R: Wait + Abort>(rt: &R, heap: &LocalHeap) -> Result<u64, Fail> {
    let (owners, first, mut pass) = Owners::<3, Open>::new();
    let memory = Box::new(heap, 7u64)?;
    let (lent, alloc) = LentValue::lend(memory, &first);
    let second = owners.up_as(rt, &first, &mut pass)?;
    let other = lent.again();
    assert!(rt; *lent.get(&first) == 7);
    let Release::NotLast = owners.down_as(first, &mut pass) else {
        return Err("beside another owner".into());
    };
    assert!(rt; *other.get(&second) == 7);
    let Release::Last(end) = owners.down_as(second, &mut pass) else {
        return Err("the last owner".into());
    };
    Ok(*other.take_back(alloc, end))
}

/// Its memory is given back then.
#[test]
fn lent_read_and_had_back(rt: HostRuntime) -> Result<(), Fail> {
    let heap = LocalHeap::new(rt.alloc(), 256)?;
    let before = heap.used();
    assert!(rt; lent_and_had_back(&rt, &heap)? == 7);
    assert!(rt; heap.used() == before);
    Ok(())
}

/// Owners in two threads read it at once, and the last of them has it back.
#[test]
fn read_in_two_threads(rt: HostRuntime) -> Result<(), Fail> {
    let (owners, first, mut pass) = Owners::<3, Open>::new();
    let Ok(memory) = Box::new(rt.alloc(), 7u64) else {
        return Err(AllocError.into());
    };
    let (lent, alloc) = LentValue::lend(memory, &first);
    let second = owners.up_as(&rt, &first, &mut pass)?;
    let other = lent.again();
    let (one, two) = join(&rt, || *lent.get(&first), || *other.get(&second));
    assert!(rt; (one, two) == (7, 7));
    let Release::NotLast = owners.down_as(first, &mut pass) else {
        return Err("beside another owner".into());
    };
    let Release::Last(end) = owners.down_as(second, &mut pass) else {
        return Err("the last owner".into());
    };
    assert!(rt; *lent.take_back(alloc, end) == 7);
    Ok(())
}
