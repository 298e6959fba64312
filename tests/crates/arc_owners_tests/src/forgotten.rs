//! A value with memory of its own: it ends, and gives that back, with the last owner's drop.

use arc_owners::error::{AllocError, OwnerError};
use arc_owners::mark::Open;
use arc_owners::owners::CountedBox;
use linked_list_allocator::LocalHeap;
use std::alloc::Allocator;
use std::sync::Wait;
use std::test::Fail;

/// An owner of a number in a box, whose memory is from the same allocator as the owners' own.
type Boxed<A> = CountedBox<Box<u64, A>, A, 3, Open>;

/// Two owners of a boxed number.
fn two_owners<R: Wait, A: Allocator + Copy>(
    rt: &R,
    alloc: A,
) -> Result<(Boxed<A>, Boxed<A>), OwnerError> {
    let Ok(value) = Box::new(alloc, 7u64) else {
        return Err(AllocError.into());
    };
    let Ok((first, mut pass)) = Boxed::<A>::new(alloc, value) else {
        return Err(AllocError.into());
    };
    let second = first.try_clone_as(rt, &mut pass)?;
    Ok((first, second))
}

/// Two owners are dropped, in either order: the first leaves all as it is, the last ends the value.
#[test]
fn value_ends_with_last_drop(rt: HostRuntime) -> Result<(), Fail> {
    let heap = LocalHeap::new(rt.alloc(), 256)?;
    let before = heap.used();
    for order in 0..2u32 {
        let (first, second) = two_owners(&rt, &heap)?;
        let taken = heap.used();
        assert!(rt; before < taken);
        let (early, late) = if order == 0 {
            (first, second)
        } else {
            (second, first)
        };
        drop(early);
        assert!(rt; heap.used() == taken);
        drop(late);
        assert!(rt; heap.used() == before);
    }
    Ok(())
}
