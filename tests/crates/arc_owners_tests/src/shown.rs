//! The slice that a lent value shows: asked for once, and read through every owner.

use arc_owners::error::AllocError;
use arc_owners::lend::LentValue;
use arc_owners::mark::Open;
use arc_owners::owners::{CountedBox, Owners, Release, Shows, SoleBox};
use linked_list_allocator::LocalHeap;
use std::alloc::{Allocator, Global};
use std::sync::Wait;
use std::test::Fail;
use std::thread::join;

/// An array, which lies in the value itself.
#[derive(Drop)]
struct InPlace {
    items: [u8; 4],
}

impl Shows<u8> for InPlace {
    ghost shown = { λ f. f.items };

    fn show(&self) -> &[u8] {
        &self.items
    }
}

/// A slice that is borrowed, and not for good.
#[derive(Drop)]
struct Borrowed<'a> {
    items: &'a [u8],
}

impl<'a> Shows<u8> for Borrowed<'a> {
    ghost shown = { λ b. b.items.now };

    fn show(&self) -> &[u8] {
        self.items
    }
}

/// Where items begin, for another thread.
#[derive(Drop)]
struct Start {
    at: *const u8,
}

impl Start {
    fn place(&self) -> *const u8 {
        self.at
    }
}

// Who has an address can't read there by it.
unsafe impl Send for Start {}

unsafe impl Sync for Start {}

/// The value is asked at its first owner; a second one reads on after the first one ended.
fn read_by_two<V: Shows<u8> + Drop, A: Allocator + Copy>(
    rt: &impl Wait,
    alloc: A,
    value: V,
) -> Result<[u8; 2], Fail> {
    let Ok((sole, mut pass)) = SoleBox::<V, A, 3, Open>::new(alloc, value) else {
        return Err(AllocError.into());
    };
    let first = sole.lend();
    let (base, shown) = first.show();
    let second = first.try_clone_as(rt, &mut pass)?;
    let other = shown.again();
    let whole = first.range(base, &shown, 0, 4)[0];
    drop(first);
    let part = second.range(base, &other, 1, 3)[1];
    Ok([whole, part])
}

#[test]
fn array_read_by_two(rt: HostRuntime) -> Result<(), Fail> {
    let heap = LocalHeap::new(rt.alloc(), 256)?;
    let before = heap.used();
    let value = InPlace {
        items: [2, 3, 5, 7],
    };
    assert!(rt; read_by_two(&rt, &heap, value)? == [2, 5]);
    assert!(rt; heap.used() == before);
    Ok(())
}

/// The value's own lifetime is no longer than that of the vector on which it stands.
#[test]
fn borrowed_read_by_two(rt: HostRuntime) -> Result<(), Fail> {
    let mut items = Vec::new(rt.alloc());
    items.extend_from_slice(&[2, 3, 5, 7])?;
    let answers = read_by_two(&rt, rt.alloc(), Borrowed { items: &items })?;
    items.push(11)?;
    assert!(rt; answers == [2, 5]);
    Ok(())
}

/// Two threads read at once by the place that the value answered once, each through an owner of its
/// own.
#[test]
fn read_in_two_threads(rt: HostRuntime) -> Result<(), Fail> {
    let value = InPlace {
        items: [2, 3, 5, 7],
    };
    let Ok((first, mut pass)) = CountedBox::<InPlace, _, 3, Open>::new(rt.alloc(), value) else {
        return Err(AllocError.into());
    };
    let (at, shown) = first.show();
    let start = Start { at };
    let second = first.try_clone_as(&rt, &mut pass)?;
    let other = shown.again();
    let (one, two) = join(
        &rt,
        || first.range(start.place(), &shown, 0, 2)[1],
        || second.range(start.place(), &other, 2, 4)[1],
    );
    assert!(rt; (one, two) == (3, 7));
    Ok(())
}

/// Memory of one's own shows its slice as well, to whoever has the lease by a share alone.
#[test]
fn lent_value_shows(rt: HostRuntime) -> Result<(), Fail> {
    let (owners, first, mut pass) = Owners::<3, Open>::new();
    let Ok(memory) = Box::new(
        rt.alloc(),
        InPlace {
            items: [2, 3, 5, 7],
        },
    ) else {
        return Err(AllocError.into());
    };
    let (lent, alloc) = LentValue::lend(memory, &first);
    let (base, shown) = lent.show(&first);
    let seen = shown.range(base, &first, 1, 4)[1];
    let Release::Last(end) = owners.down_as(first, &mut pass) else {
        return Err("the last owner".into());
    };
    let back = lent.take_back(alloc, end);
    assert!(rt; (seen, back.items[3]) == (5, 7));
    Ok(())
}
