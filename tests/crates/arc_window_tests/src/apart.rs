//! Two threads that write at once, each the places of its own window on one block; or of which one
//! writes and the other reads.

use arc_block::layout::{DefaultLayout, DefaultLayoutMut};
use arc_buffer::kinds::Plain;
use arc_read::slice::ArcSlice;
use arc_write::slice_mut::{ArcBytesMut, ArcBytesShared};
use bytes::Buf;
use std::alloc::Global;
use std::sync::Wait;
use std::sync::atomic::AtomicU64;
use std::sync::atomic::Ordering::SeqCst;
use std::test::Fail;
use std::thread::{Threads, join, yield_now};

/// How often a thread yields at most until the other has written an item.
const TURNS: u32 = 1_000_000;

/// Whether the other thread has written an item, within so many turns.
fn met(other: &AtomicU64) -> bool {
    for _ in 0..TURNS {
        if other.load(SeqCst) > 0 {
            return true;
        }
        yield_now();
    }
    false
}

/// Writes the byte into each place, and waits after the first one until the other thread has
/// written one. Whether it has.
fn written(items: &mut [u8], byte: u8, own: &AtomicU64, other: &AtomicU64) -> bool {
    let mut has_met = true;
    for (at, item) in items.iter_mut().enumerate() {
        *item = byte;
        if at == 0 {
            own.store(1, SeqCst);
            has_met = met(other);
        }
    }
    has_met
}

/// Two parts of one block, written at once. Whether each thread met the other.
fn written_at_once<R: Threads + Wait + Sync>(
    rt: &R,
    front: &mut [u8],
    back: &mut [u8],
) -> (bool, bool) {
    let first = AtomicU64::new(0);
    let second = AtomicU64::new(0);
    join(
        rt,
        || written(front, 1, &first, &second),
        || written(back, 2, &second, &first),
    )
}

/// Eight zeros, split in the middle, written by two threads and joined: whether each met the other,
/// and the bytes.
fn split_written_joined<R: Threads + Wait + Sync>(
    rt: &R,
    alloc: Global,
) -> Option<((bool, bool), [u8; 8])> {
    let zeros = ArcBytesMut::<DefaultLayoutMut>::try_zeroed(alloc, 8).ok()?;
    let mut front: ArcBytesShared = zeros.into_shared().ok()?;
    front.check_split_off(4).ok()?;
    let Ok(mut back) = front.try_split_off(rt, 4) else {
        return None;
    };
    let told = written_at_once(rt, front.as_mut_slice(), back.as_mut_slice());
    front.try_unsplit(back).ok()?;
    let mut bytes = [0; 8];
    front.try_copy_to_slice(&mut bytes).ok()?;
    Some((told, bytes))
}

/// Each thread writes while the other has written and hasn't ended: neither waits 1,000,000 turns
/// in vain, and what both wrote stands there.
#[test]
fn writers_apart(rt: HostRuntime) -> Result<(), Fail> {
    let told = split_written_joined(&rt, rt.alloc());
    assert!(rt; told == Some(((true, true), [1, 1, 1, 1, 2, 2, 2, 2])));
    Ok(())
}

/// A byte more, where there is a place for it. Whether there was.
fn pushed_within(window: &mut ArcBytesShared, byte: u8) -> bool {
    if window.capacity() <= window.len() {
        return false;
    }
    window.try_push(byte).is_ok()
}

/// Pushes a byte, and another one once the other thread has come as far. Whether both had a place,
/// and it has.
fn pushed(window: &mut ArcBytesShared, byte: u8, own: &AtomicU64, other: &AtomicU64) -> [bool; 3] {
    let first = pushed_within(window, byte);
    own.store(1, SeqCst);
    let has_met = met(other);
    [first, has_met, pushed_within(window, byte)]
}

/// A window that a thread hands back, and what it tells of its pushes.
type Written = (ArcBytesShared, [bool; 3]);

/// The same of a window that is handed back.
fn handed_back(window: ArcBytesShared, byte: u8, own: &AtomicU64, other: &AtomicU64) -> Written {
    let mut window = window;
    let told = pushed(&mut window, byte, own, other);
    (window, told)
}

/// Two parts of one block, to each of which a thread of its own pushes two bytes.
fn pushed_at_once<R: Threads + Wait + Sync>(
    rt: &R,
    front: ArcBytesShared,
    back: ArcBytesShared,
) -> (Written, Written) {
    let first = AtomicU64::new(0);
    let second = AtomicU64::new(0);
    join(
        rt,
        || -> Written { handed_back(front, 1, &first, &second) },
        || -> Written { handed_back(back, 2, &second, &first) },
    )
}

/// Two of several writers, with so many places in front and as many behind.
fn two_of(
    rt: &impl Wait,
    alloc: Global,
    places: usize,
) -> Option<(ArcBytesShared, ArcBytesShared)> {
    let all = places.checked_mul(2)?;
    let window = ArcBytesMut::<DefaultLayoutMut>::try_with_capacity(alloc, all).ok()?;
    let mut front: ArcBytesShared = window.into_shared().ok()?;
    front.check_split_off(places).ok()?;
    match front.try_split_off(rt, places) {
        Ok(back) => Some((front, back)),
        Err(_) => None,
    }
}

/// What both threads tell that push to two parts of two places each, and the bytes of both.
fn pushed_and_joined<R: Threads + Wait + Sync>(
    rt: &R,
    alloc: Global,
) -> Option<([[bool; 3]; 2], [u8; 4])> {
    let (front, back) = two_of(rt, alloc, 2)?;
    let (there, here) = pushed_at_once(rt, front, back);
    let (mut front, one) = there;
    let (back, two) = here;
    front.try_unsplit(back).ok()?;
    let mut bytes = [0; 4];
    front.try_copy_to_slice(&mut bytes).ok()?;
    Some(([one, two], bytes))
}

/// Each thread pushes while the other has pushed and hasn't ended, and hands its window back; and
/// both are one window again.
#[test]
fn pushed_apart(rt: HostRuntime) -> Result<(), Fail> {
    let told = pushed_and_joined(&rt, rt.alloc());
    assert!(rt; told == Some(([[true; 3]; 2], [1, 1, 2, 2])));
    Ok(())
}

/// Whether a window has these bytes, whether the other thread comes as far then, and whether a
/// clone has them that is made when it has.
fn read(
    rt: &impl Wait,
    window: ArcSlice<Plain<u8>>,
    bytes: &[u8],
    own: &AtomicU64,
    other: &AtomicU64,
) -> Option<[bool; 3]> {
    let is_read = window.as_slice() == bytes;
    own.store(1, SeqCst);
    let has_met = met(other);
    let clone = window.try_clone(rt).ok()?;
    drop(window);
    Some([is_read, has_met, clone.as_slice() == bytes])
}

/// A part that is read by one thread, beside one to which another pushes two bytes.
fn read_and_pushed<R: Threads + Wait + Sync>(
    rt: &R,
    front: ArcSlice<Plain<u8>>,
    back: ArcBytesShared,
) -> (Option<[bool; 3]>, Written) {
    let first = AtomicU64::new(0);
    let second = AtomicU64::new(0);
    join(
        rt,
        || read(rt, front, &[1, 1], &first, &second),
        || handed_back(back, 2, &second, &first),
    )
}

/// What both threads tell, whether what was pushed is there, and whether who pushed it is alone
/// once the others have ended.
fn read_beside<R: Threads + Wait + Sync>(
    rt: &R,
    alloc: Global,
) -> Option<(Option<[bool; 3]>, [bool; 3], [bool; 2])> {
    let (mut front, back) = two_of(rt, alloc, 2)?;
    front.try_extend_from_slice(&[1, 1]).ok()?;
    let window = front.try_freeze::<DefaultLayout>().ok()?;
    let (was_read, written) = read_and_pushed(rt, window, back);
    let (back, was_pushed) = written;
    let is_there = back.as_slice() == [2, 2].as_slice();
    Some((
        was_read,
        was_pushed,
        [is_there, back.try_into_unique().is_ok()],
    ))
}

/// A part is read, and cloned, while another thread pushes behind it.
#[test]
fn read_and_written_apart(rt: HostRuntime) -> Result<(), Fail> {
    let told = read_beside(&rt, rt.alloc());
    assert!(rt; told == Some((Some([true; 3]), [true; 3], [true; 2])));
    Ok(())
}
