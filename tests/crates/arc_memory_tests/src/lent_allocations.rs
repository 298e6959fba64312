//! All places of an allocation, lent: written, frozen and read, had back and lent anew, and given
//! back.
use arc_memory::{
    Allocation, FrozenPlaces, LentPlaces, LifetimeToken, Lodging, Places, PlacesInheritance,
};
use arc_owners::error::AllocError;
use linked_list_allocator::LocalHeap;
use std::alloc::Allocator;
use std::test::Fail;

/// What is left of an allocation while its places are lent: all of the lifetime, that they come
/// back at its end, and the right to free them.
struct Lent<T, A: Allocator> {
    lifetime: LifetimeToken,
    inheritance: PlacesInheritance<T>,
    allocation: Allocation<T, A>,
}

impl<T, A: Allocator> Lent<T, A> {
    /// All places of an allocation, lent for a new lifetime.
    fn lend(allocation: Allocation<T, A>, places: Places<T>) -> (LentPlaces<T>, Self) {
        let lifetime = LifetimeToken::new();
        let (part, inheritance) = LentPlaces::lend(places, &lifetime);
        let lent = Lent {
            lifetime,
            inheritance,
            allocation,
        };
        (part, lent)
    }

    /// Ends the lifetime: all places, with the items of the part of all of them.
    fn regain(self, part: LentPlaces<T>) -> (Places<T>, Allocation<T, A>) {
        let Lent {
            lifetime,
            inheritance,
            allocation,
        } = self;
        let (before, places, behind) = inheritance.regain(lifetime.end(), part);
        (before.join(places.join(behind)), allocation)
    }

    /// The same with the items of a frozen range of them.
    fn regain_frozen(self, range: &FrozenPlaces<T>) -> (Places<T>, Allocation<T, A>) {
        let Lent {
            lifetime,
            inheritance,
            allocation,
        } = self;
        let (before, places, behind) = inheritance.regain_frozen(lifetime.end(), range);
        (before.join(places.join(behind)), allocation)
    }

    /// Ends the lifetime, and gives the memory back. What lies there is forgotten.
    fn free(self) {
        let Lent {
            lifetime,
            inheritance,
            allocation,
        } = self;
        let places = inheritance.regain_empty(lifetime.end());
        allocation.free(places);
    }
}

/// Memory with these two items, which are frozen, and where it begins.
fn frozen<T: Drop, A: Allocator>(
    alloc: A,
    first: T,
    second: T,
) -> Result<(*const T, FrozenPlaces<T>, Lent<T, A>), AllocError> {
    let (base, allocation, places) = Allocation::new(alloc, 2)?;
    let (part, lent) = Lent::lend(allocation, places);
    let Lent {
        lifetime,
        inheritance,
        allocation,
    } = lent;
    let (room, left) = part.open(lifetime);
    let (mut lodger, under) = unsafe { Lodging::house(room, base, 0, 0, 2) };
    lodger.push_reserved(first);
    lodger.push_reserved(second);
    let (part, lifetime) = left.close(under.vacate(lodger));
    let range = part.freeze(&lifetime);
    let lent = Lent {
        lifetime,
        inheritance,
        allocation,
    };
    Ok((base, range, lent))
}

/// The same memory, lent for another lifetime, with the same items frozen there.
fn lent_again<T, A: Allocator>(
    lent: Lent<T, A>,
    range: &FrozenPlaces<T>,
) -> (FrozenPlaces<T>, Lent<T, A>) {
    let (places, allocation) = lent.regain_frozen(range);
    let (part, lent) = Lent::lend(allocation, places);
    (part.freeze(&lent.lifetime), lent)
}

/// Whether two numbers are read that were had back and lent anew, for another lifetime.
fn lent_anew<A: Allocator>(alloc: A) -> Option<bool> {
    let Ok((base, range, lent)) = frozen(alloc, 7u64, 8) else {
        return None;
    };
    let (range, lent) = lent_again(lent, &range);
    let seen = unsafe { range.as_slice(&lent.lifetime, base, 0, 2) };
    let is_same = seen == [7, 8].as_slice();
    lent.free();
    Some(is_same)
}

/// What is lent can be given back without its part.
#[test]
fn read_and_lent_anew(rt: HostRuntime) -> Result<(), Fail> {
    let heap = LocalHeap::new(rt.alloc(), 256)?;
    assert!(rt; (lent_anew(&heap), heap.used()) == (Some(true), 0));
    Ok(())
}

#[test]
fn no_places_lent_and_regained(rt: HostRuntime) -> Result<(), Fail> {
    let (_base, allocation, places) = Allocation::<u64, _>::new(rt.alloc(), 0)?;
    let (part, lent) = Lent::lend(allocation, places);
    let (places, allocation) = lent.regain(part);
    allocation.free(places);
    Ok(())
}
