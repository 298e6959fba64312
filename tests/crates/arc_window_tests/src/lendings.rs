//! Callers' buffers that grow as they will, under windows whose memory a heap counts. Where memory
//! for a window is refused its buffer comes back as it was, and goes in again.
use crate::callers::{Growing, Lent, vector};
use arc_block::layout::{AnyBufferLayout, ArcLayout, DefaultLayoutMut, LayoutMut, VecLayout};
use arc_buffer::buffer::{AsMutBuffer, Buffer, BufferMut};
use arc_owners::error::TryReserveError;
use arc_write::slice_mut::ArcBytesMut;
use counting_heap::CountingHeap;
use std::alloc::Global;

/// A heap that counts, from which the windows' memory comes.
type Heap<'a> = &'a CountingHeap<Global>;

/// Writers of bytes beside buffers of this type.
type Over<'a, L, B> = ArcBytesMut<L, B, (), Heap<'a>>;

/// Buffers of a caller.
#[derive(Clone, Copy)]
enum Lending {
    /// One that never has more places.
    NoRoom,
    /// One whose first request for places is refused.
    Later,
    /// One that gets as much room as is asked for.
    Ample,
    /// Bytes that are lent, and have no place more.
    Lent,
}

/// All of them.
const LENDINGS: &[Lending] = &[
    Lending::NoRoom,
    Lending::Later,
    Lending::Ample,
    Lending::Lent,
];

/// A writer over a buffer, which has these bytes.
fn over<'a, L: LayoutMut + AnyBufferLayout, B: BufferMut<u8> + Drop>(
    heap: Heap<'a>,
    buffer: B,
    bytes: &[u8],
) -> Option<Over<'a, L, B>> {
    match Over::<L, B>::try_from_buffer(heap, buffer) {
        Ok(window) => Some(window),
        Err(back) => {
            if back.as_slice() != bytes {
                return None;
            }
            Over::<L, B>::try_from_buffer(heap, back).ok()
        }
    }
}

/// Whether two of four bytes go into the places that are left, no byte is asked for behind the one
/// that is refused, and the buffer comes back full.
fn no_room<L: LayoutMut + AnyBufferLayout>(alloc: Global, heap: Heap<'_>) -> Option<bool> {
    let bytes = vector(alloc, 5, &[1, 2, 3])?;
    let mut window = over::<L, Growing>(heap, Growing::no_room(bytes), &[1, 2, 3])?;
    let mut coming = 4..8u8;
    let refusal = window.try_extend(&mut coming).err()?;
    let told = (refusal, coming.next());
    let buffer = window.try_into_buffer().ok()?;
    let full = [1, 2, 3, 4, 5];
    let wanted = ((TryReserveError::Unsupported, 6), Some(7));
    Some((told, buffer.bytes.as_slice()) == (wanted, full.as_slice()))
}

/// Whether a byte is refused once, and then taken.
fn later<L: LayoutMut + AnyBufferLayout>(alloc: Global, heap: Heap<'_>) -> Option<bool> {
    let bytes = vector(alloc, 1, &[1])?;
    let mut window = over::<L, Growing>(heap, Growing::later(bytes), &[1])?;
    let refusal = window.try_push(2).err()?;
    window.try_push(2).ok()?;
    let both = [1, 2];
    Some((refusal, window.as_slice()) == ((TryReserveError::AllocError, 2), both.as_slice()))
}

/// Whether a buffer of a hundred places that has three bytes, of which the window wrote two, was
/// asked for room where the window makes so much.
fn asked_for<L: LayoutMut + AnyBufferLayout>(
    alloc: Global,
    heap: Heap<'_>,
    room: usize,
) -> Option<bool> {
    let bytes = vector(alloc, 100, &[1])?;
    let mut window = over::<L, Growing>(heap, Growing::ample(bytes), &[1])?;
    window.try_extend_from_slice(&[2, 3]).ok()?;
    window.try_reserve(room).ok()?;
    window.try_push(4).ok()?;
    let buffer = window.try_into_buffer().ok()?;
    if buffer.bytes.as_slice() != [1, 2, 3, 4].as_slice() {
        return None;
    }
    Some(buffer.asked)
}

/// Whether a buffer is asked for more places than it has, and for no others.
fn ample<L: LayoutMut + AnyBufferLayout>(alloc: Global, heap: Heap<'_>) -> Option<bool> {
    let within = asked_for::<L>(alloc, heap, 97)?;
    let past = asked_for::<L>(alloc, heap, 98)?;
    Some([within, past] == [false, true])
}

/// Whether a byte is refused behind two that are lent, goes in once the first has gone, and stands
/// in the buffer then; where the first that is left is set in the buffer itself.
fn lent<L: LayoutMut + AnyBufferLayout>(alloc: Global, heap: Heap<'_>) -> Option<bool> {
    let bytes = vector(alloc, 2, &[1, 2])?;
    let buffer = AsMutBuffer::new(Lent { bytes, number: 0 });
    let mut window = over::<L, AsMutBuffer<Lent>>(heap, buffer, &[1, 2])?;
    let refusal = window.try_push(3).err()?;
    if window.check_at(1).is_err() {
        return None;
    }
    window.advance(1);
    window.try_push(3).ok()?;
    let told = (refusal, window.capacity(), window.eq_slice(&[2, 3]));
    if let Some(first) = window.get_mut(0) {
        *first = 9;
    }
    let buffer = window.try_into_buffer().ok()?;
    let both = [9, 3];
    let wanted = ((TryReserveError::Unsupported, 3), 2, true);
    Some((told, buffer.as_slice()) == (wanted, both.as_slice()))
}

/// Whether a buffer takes what it is to take.
fn lends<L: LayoutMut + AnyBufferLayout>(
    alloc: Global,
    heap: Heap<'_>,
    lending: Lending,
) -> Option<bool> {
    match lending {
        Lending::NoRoom => no_room::<L>(alloc, heap),
        Lending::Later => later::<L>(alloc, heap),
        Lending::Ample => ample::<L>(alloc, heap),
        Lending::Lent => lent::<L>(alloc, heap),
    }
}

/// Whether a caller's buffer takes what it is to take with each request refused in turn, at least
/// one of them.
fn lends_in_turn<L: LayoutMut + AnyBufferLayout>(
    alloc: Global,
    heap: Heap<'_>,
    lending: Lending,
) -> bool {
    for request in 1..1000u64 {
        heap.refuse(request);
        if (lends::<L>(alloc, heap, lending), heap.pieces()) != (Some(true), 0) {
            return false;
        }
        if heap.refusals() == 0 {
            return request > 1;
        }
    }
    false
}

/// Each buffer takes what it is to take, under each layout of writers that holds buffers, whichever
/// request for memory is refused.
#[test]
fn lent_in_turn(rt: HostRuntime) {
    let heap = CountingHeap::new(rt.alloc());
    for lending in LENDINGS {
        assert!(rt; lends_in_turn::<DefaultLayoutMut>(rt.alloc(), &heap, *lending));
        assert!(rt; lends_in_turn::<VecLayout>(rt.alloc(), &heap, *lending));
        assert!(rt; lends_in_turn::<ArcLayout<true, false>>(rt.alloc(), &heap, *lending));
    }
}
