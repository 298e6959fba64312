//! Memory of a vector: taken apart, edited by a vector that lodges in a part, and put together.
//! Empty places.

use arc_memory::{Allocation, Lodging, put_together, take_apart};
use linked_list_allocator::LocalHeap;
use std::alloc::Allocator;
use std::test::Fail;

/// A vector of three items.
fn three_of<T: Copy + Drop, A: Allocator>(alloc: A, items: [T; 3]) -> Option<Vec<T, A>> {
    match Vec::from_slice(alloc, &items) {
        Ok(items) => Some(items),
        Err(_) => None,
    }
}

/// Cut, edited by a vector that lodges in a part, and joined again: the last item, and the vector
/// with another one in its place.
fn last_replaced<T, A: Allocator>(items: Vec<T, A>, item: T) -> (T, Vec<T, A>) {
    let (base, allocation, places) = take_apart(items);
    let (front, back) = places.split(1);
    let room = allocation.count() - 1;
    let (mut lodger, under) = unsafe { Lodging::house(back, base, 1, 2, room) };
    let last = lodger.take_last();
    lodger.push_reserved(item);
    let places = front.join(under.vacate(lodger));
    (last, put_together(allocation, places))
}

/// The last number of a vector, and whether another one is in its place.
fn number_replaced(heap: &LocalHeap) -> Option<(u64, bool)> {
    let (last, numbers) = last_replaced(three_of(heap, [1u64, 2, 3])?, 4);
    Some((last, numbers.as_slice() == [1, 2, 4].as_slice()))
}

/// Whether memory is taken by four empty places, which are given back. None where more than there
/// is is had.
fn given_back(heap: &LocalHeap) -> Option<bool> {
    if let Ok((_base, allocation, places)) = Allocation::<u64, _>::new(heap, usize::MAX) {
        allocation.free(places);
        return None;
    }
    let Ok((_base, allocation, places)) = Allocation::<u64, _>::new(heap, 4) else {
        return None;
    };
    let used = heap.used();
    allocation.free(places);
    Some(0 < used)
}

#[test]
fn edited_and_given_back(rt: HostRuntime) -> Result<(), Fail> {
    let heap = LocalHeap::new(rt.alloc(), 256)?;
    let told = (number_replaced(&heap), given_back(&heap), heap.used());
    assert!(rt; told == (Some((3, true)), Some(true), 0));
    Ok(())
}
