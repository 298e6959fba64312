//! Windows in other threads, which read, write and end them: over items, callers' buffers and
//! metadata that may go there.
use crate::living::{Values, first_three, living, values};
use crate::standing::{Bytes, Sort, standing};
use arc_block::layout::{DefaultLayout, DefaultLayoutMut, RawLayout};
use arc_buffer::kinds::{Owned, Plain};
use arc_read::slice::ArcSlice;
use arc_write::slice_mut::{ArcBytesMut, ArcSliceMut};
use std::alloc::Global;
use std::sync::{Arc, Wait};
use std::test::Fail;
use std::thread::{self, Threads};

/// Texts that are read, beside metadata of a type of their own.
type Texts = ArcSlice<Owned<String>, DefaultLayout, Vec<String>, Vec<String>>;

/// Texts that are written.
type TextsMut = ArcSliceMut<Owned<String>, DefaultLayoutMut, 1>;

/// Bytes on an `Arc` that is a block by itself.
type RawBytes = ArcSlice<Plain<u8>, RawLayout>;

/// Values on such an `Arc`, which have more owners.
type RawValues = ArcSlice<Owned<Arc<u8>>, RawLayout>;

/// Two texts.
fn texts(alloc: Global) -> Option<[String; 2]> {
    Some([
        String::from_str(alloc, "Hello").ok()?,
        String::from_str(alloc, "world").ok()?,
    ])
}

/// How many items a reader of bytes has in another thread, which ends it, and one here.
fn bytes_counted(rt: &impl Threads, there: Bytes, here: &Bytes) -> (usize, usize) {
    thread::join(rt, move || there.len(), || here.len())
}

/// A writer that another thread gives a byte more.
fn byte_pushed(rt: &impl Threads, window: ArcBytesMut) -> (ArcBytesMut, bool) {
    let (pushed, ()) = thread::join(
        rt,
        move || {
            let mut window = window;
            let is_pushed = window.try_push(3).is_ok();
            (window, is_pushed)
        },
        || (),
    );
    pushed
}

/// Whether a thread of a scope has ended a reader and a writer.
fn ended_there<R: Threads + Wait>(rt: &R, reader: Texts, writer: TextsMut) -> bool {
    thread::scope(thread::scope_env(), rt, move |scope| {
        scope
            .spawn(move || {
                drop(reader);
                drop(writer);
            })
            .is_ok()
    })
}

/// What both threads count of bytes, and whether the window here is alone then.
fn bytes_told<R: Threads + Wait>(
    rt: &R,
    alloc: Global,
    sort: Sort,
) -> Option<((usize, usize), bool)> {
    let bytes = standing(alloc, sort, &[1, 2])?;
    let counted = bytes_counted(rt, bytes.try_clone(rt).ok()?, &bytes);
    Some((counted, bytes.is_unique()))
}

/// A writer of two bytes that stands on this. None writes on others' Arcs, or on what lies there
/// for good.
fn written_on(alloc: Global, sort: Sort) -> Option<ArcBytesMut> {
    let bytes = Vec::from_slice(alloc, &[1, 2]).ok()?;
    match sort {
        Sort::Native => ArcBytesMut::try_from_slice(alloc, &[1, 2]).ok(),
        Sort::Vector => ArcBytesMut::try_from_vec(alloc, bytes).ok(),
        Sort::Buffer => ArcBytesMut::try_from_buffer(alloc, bytes).ok(),
        Sort::Shared | Sort::Lasting => None,
    }
}

/// Whether another thread gave a writer a byte more, and the bytes are there.
fn pushed_told(rt: &impl Threads, alloc: Global, sort: Sort) -> Option<(bool, bool)> {
    let (bytes, is_pushed) = byte_pushed(rt, written_on(alloc, sort)?);
    Some((is_pushed, bytes.as_slice() == [1, 2, 3].as_slice()))
}

/// Whether a thread has ended a clone of a reader of texts and a writer of texts, and whether the
/// reader is alone then.
fn ended_told<R: Threads + Wait>(rt: &R, alloc: Global) -> Option<[bool; 2]> {
    let writer = TextsMut::try_from_array(alloc, texts(alloc)?).ok()?;
    let reader = Texts::try_from_array(alloc, texts(alloc)?).ok()?;
    let is_ended = ended_there(rt, reader.try_clone(rt).ok()?, writer);
    Some([is_ended, reader.is_unique()])
}

#[test]
fn items_go_to_threads(rt: HostRuntime) -> Result<(), Fail> {
    assert!(rt; ended_told(&rt, rt.alloc()) == Some([true; 2]));
    Ok(())
}

/// Over each sort of block, and over what lies there for good: alone afterwards are those that a
/// count tells of.
#[test]
fn sorts_go_to_threads(rt: HostRuntime) -> Result<(), Fail> {
    for (sort, is_alone) in [
        (Sort::Native, true),
        (Sort::Vector, true),
        (Sort::Buffer, true),
        (Sort::Shared, false),
        (Sort::Lasting, false),
    ] {
        assert!(rt; bytes_told(&rt, rt.alloc(), sort) == Some(((2, 2), is_alone)));
    }
    for sort in [Sort::Native, Sort::Vector, Sort::Buffer] {
        assert!(rt; pushed_told(&rt, rt.alloc(), sort) == Some((true, true)));
    }
    Ok(())
}

/// How often each thread clones.
const CLONED: u32 = 100;

/// How many of the clones that are made of a window, and end at once, have its two bytes.
fn cloned(rt: &impl Wait, window: &RawBytes) -> u32 {
    let mut found = 0u32;
    for _ in 0..CLONED {
        if let Ok(clone) = window.try_clone(rt) {
            if clone.as_slice() == [1, 2].as_slice() {
                found = found.wrapping_add(1);
            }
        }
    }
    found
}

/// The same in two threads.
fn cloned_by_two<R: Threads + Wait + Sync>(rt: &R, window: &RawBytes) -> (u32, u32) {
    thread::join(rt, || cloned(rt, window), || cloned(rt, window))
}

/// What two threads tell of clones of a window on an `Arc` by itself, and how many owners that has
/// when they have ended.
fn cloned_told<R: Threads + Wait + Sync>(rt: &R, alloc: Global) -> Option<((u32, u32), usize)> {
    let bytes = Vec::from_slice(alloc, &[1, 2]).ok()?;
    let window = RawBytes::try_from_raw_buffer(alloc, Arc::new(alloc, bytes).ok()?).ok()?;
    let found = cloned_by_two(rt, &window);
    let shared = window.try_into_raw_buffer().ok()?;
    Some((found, Arc::strong_count(&shared)))
}

/// How many values two windows have, of which another thread ends one and this one the other.
fn ended_by_two(rt: &impl Threads, there: RawValues, here: RawValues) -> (usize, usize) {
    thread::join(rt, move || there.len(), move || here.len())
}

/// The same of a window over one value and of its clone, and how many owners the value has then.
fn ended_by_two_told<R: Threads + Wait>(rt: &R, alloc: Global) -> Option<((usize, usize), usize)> {
    let value = Arc::new(alloc, 7u8).ok()?;
    let values = Vec::from_array(alloc, [Arc::try_clone(&value).ok()?]).ok()?;
    let here = RawValues::try_from_raw_buffer(alloc, Arc::new(alloc, values).ok()?).ok()?;
    let there = here.try_clone(rt).ok()?;
    let counted = ended_by_two(rt, there, here);
    Some((counted, Arc::strong_count(&value)))
}

/// An `Arc` that is a block by itself is cloned by several threads, and what it holds is dropped
/// once, in whichever thread ends its last window.
#[test]
fn arcs_go_to_threads(rt: HostRuntime) -> Result<(), Fail> {
    assert!(rt; cloned_told(&rt, rt.alloc()) == Some(((CLONED, CLONED), 1)));
    for _ in 0..100u32 {
        assert!(rt; ended_by_two_told(&rt, rt.alloc()) == Some(((1, 1), 1)));
    }
    Ok(())
}

/// Values on a block of ours.
type OwnValues = ArcSlice<Owned<Arc<u8>>>;

/// A reader of the first three values, which a writer had.
fn frozen(alloc: Global, values: &Values) -> Option<OwnValues> {
    let items = first_three(values)?;
    let writer = ArcSliceMut::<Owned<Arc<u8>>, DefaultLayoutMut, 1>::try_from_array(
        alloc, items,
    ).ok()?;
    writer.try_freeze::<DefaultLayout>().ok()
}

/// How many values a window and another one have, which another thread ends, and a third, which
/// this one ends.
fn ended_apart(
    rt: &impl Threads,
    there: (OwnValues, OwnValues),
    here: OwnValues,
) -> ([usize; 2], usize) {
    thread::join(
        rt,
        move || [there.0.len(), there.1.len()],
        move || here.len(),
    )
}

/// The same of a clone and a cut of the first three values' window, and of that itself; and how
/// many owners each value has before and then.
fn ended_apart_told<R: Threads + Wait>(
    rt: &R,
    alloc: Global,
    values: &Values,
) -> Option<(([usize; 2], usize), [[usize; 5]; 2])> {
    let here = frozen(alloc, values)?;
    let clone = here.try_clone(rt).ok()?;
    if here.check_range(1, 3).is_err() {
        return None;
    }
    let part = here.try_subslice(rt, 1, 3).ok()?;
    let before = living(values);
    let counted = ended_apart(rt, (clone, part), here);
    Some((counted, [before, living(values)]))
}

/// How often of so many rounds the windows of one block end in two threads, and each item of it is
/// dropped once.
fn rounds_passed<R: Threads + Wait>(rt: &R, alloc: Global, rounds: u32) -> Option<u32> {
    let values = values(alloc)?;
    let wanted = (([3, 2], 3), [[2, 2, 2, 1, 1], [1; 5]]);
    let mut passed = 0u32;
    for _ in 0..rounds {
        if ended_apart_told(rt, alloc, &values) == Some(wanted) {
            passed = passed.wrapping_add(1);
        }
    }
    Some(passed)
}

/// Items that are dropped one by one are dropped once, whichever thread ends the last window.
#[test]
fn items_dropped_once(rt: HostRuntime) -> Result<(), Fail> {
    assert!(rt; rounds_passed(&rt, rt.alloc(), 100) == Some(100));
    Ok(())
}
