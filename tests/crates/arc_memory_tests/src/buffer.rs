//! Buffers that are read, and those that are written at one place.

use crate::page::Page;
use arc_buffer::buffer::{AsMutBuffer, AsRefBuffer, Buffer, BufferMut, Lend, LendMut};
use bstr::BString;
use std::alloc::{AllocError, Global};
use std::boxed::BoxedSlice;
use std::sync::Arc;
use std::test::Fail;

/// The buffer with an item in the place of the one at `i`: its other items and its places stay.
fn set<T: Drop, B: BufferMut<T>>(buffer: &mut B, i: usize, item: T) {
    buffer.as_mut_slice()[i] = item;
}

/// The value with an item in the place of the one at `i`, written while a buffer had it.
fn set_lent<T: Drop, B: LendMut<T>>(value: B, i: usize, item: T) -> B {
    let mut buffer = AsMutBuffer::new(value);
    set(&mut buffer, i, item);
    buffer.into_inner()
}

/// Whether a page of two bytes, of which the second one is set to the item, has those that are
/// wanted; and its number.
fn second_set(
    alloc: Global,
    bytes: [u8; 2],
    item: u8,
    wanted: &[u8],
) -> Result<(bool, u32), AllocError> {
    let page = set_lent(Page::new(alloc, &bytes, 7)?, 1, item);
    Ok((page.lend() == wanted, page.number))
}

#[test]
fn lent_byte_is_set(rt: HostRuntime) -> Result<(), Fail> {
    assert!(rt; second_set(rt.alloc(), [1, 2], 9, &[1, 9])? == (true, 7));
    Ok(())
}

/// Bytes as one number, two hexadecimal digits each.
fn digits(bytes: &[u8]) -> u64 {
    let mut digits = 0u64;
    for byte in bytes {
        digits = digits << 8 | u64::from(*byte);
    }
    digits
}

/// How many bytes a buffer has, which ones, and whether it is unique.
type Seen = (usize, u64, bool);

fn seen<B: Buffer<u8>>(buffer: &B) -> Seen {
    let bytes = buffer.as_slice();
    (bytes.len(), digits(bytes), buffer.is_unique())
}

fn vec_seen(alloc: Global, bytes: &[u8]) -> Result<Seen, AllocError> {
    Ok(seen(&Vec::from_slice(alloc, bytes)?))
}

fn string_seen(alloc: Global, text: &str) -> Result<Seen, AllocError> {
    Ok(seen(&String::from_str(alloc, text)?))
}

fn bstring_seen(alloc: Global, bytes: &[u8]) -> Result<Seen, AllocError> {
    Ok(seen(&BString::from_slice(alloc, bytes)?))
}

fn boxed_seen(alloc: Global, bytes: &[u8]) -> Result<Seen, AllocError> {
    Ok(seen(&BoxedSlice::from_slice(alloc, bytes)?))
}

fn arc_seen(alloc: Global, bytes: &[u8]) -> Result<Seen, AllocError> {
    let vec = Vec::from_slice(alloc, bytes)?;
    Ok(seen(&Arc::new(alloc, vec)?))
}

fn page_seen(alloc: Global, bytes: &[u8]) -> Result<Seen, AllocError> {
    Ok(seen(&AsRefBuffer(Page::new(alloc, bytes, 7)?)))
}

fn page_mut_seen(alloc: Global, bytes: &[u8]) -> Result<Seen, AllocError> {
    Ok(seen(&AsMutBuffer::new(Page::new(alloc, bytes, 7)?)))
}

/// What is seen of each buffer that is read.
fn all_seen(alloc: Global, fixed: &'static [u8]) -> Result<[Seen; 9], AllocError> {
    Ok([
        vec_seen(alloc, &[1, 2, 3])?,
        vec_seen(alloc, &[])?,
        string_seen(alloc, "aé")?,
        bstring_seen(alloc, &[0xa9, 0xc3])?,
        boxed_seen(alloc, &[4, 5])?,
        seen(&fixed),
        arc_seen(alloc, &[42])?,
        page_seen(alloc, &[1, 2])?,
        page_mut_seen(alloc, &[1, 2])?,
    ])
}

#[test]
fn buffers_that_are_read(rt: HostRuntime) -> Result<(), Fail> {
    let wanted = [
        (3, 0x010203, true),
        (0, 0, true),
        (3, 0x61c3a9, true),
        (2, 0xa9c3, true),
        (2, 0x0405, true),
        (4, 0x61626364, false),
        (1, 42, false),
        (2, 0x0102, false),
        (2, 0x0102, false),
    ];
    assert!(rt; all_seen(rt.alloc(), b"abcd")? == wanted);
    Ok(())
}
