//! Windows over bytes whose memory a heap counts, and what is seen of them.
use arc_block::layout::{Layout, LayoutMut};
use arc_buffer::kinds::Plain;
use arc_read::slice::ArcSlice;
use arc_write::slice_mut::ArcSliceMut;
use counting_heap::CountingHeap;
use std::alloc::{AllocError, Global};

/// A heap that counts. The windows' memory, and that of the vectors and buffers on which they
/// stand, comes from it.
pub type Heap<'a> = &'a CountingHeap<Global>;

/// A vector of bytes, which is also a buffer.
pub type Bytes<'a> = Vec<u8, Heap<'a>>;

/// A window that is read.
pub type Reader<'a, L> = ArcSlice<Plain<u8>, L, Bytes<'a>, u8, Heap<'a>>;

/// A window that is written.
pub type Writer<'a, K> = ArcSliceMut<Plain<u8>, K, 1, Bytes<'a>, u8, Heap<'a>>;

/// A window of one of several writers.
pub type Several<'a, K> = ArcSliceMut<Plain<u8>, K, 0, Bytes<'a>, u8, Heap<'a>>;

/// A window that is read, one that is written, or one of several writers.
#[derive(Drop)]
pub enum Role<R, W, S> {
    Read(R),
    Write(W),
    Share(S),
}

/// A window.
pub type Window<'a, L, K> = Role<Reader<'a, L>, Writer<'a, K>, Several<'a, K>>;

/// The windows of a row, by number. Nothing stands where one has ended.
pub type Windows<'a, L, K> = Vec<Option<Window<'a, L, K>>>;

/// Metadata as a number: 0 is none.
fn metadata_number(metadata: Option<&u8>) -> usize {
    match metadata {
        Some(metadata) => usize::from(*metadata).saturating_add(1),
        None => 0,
    }
}

/// The bytes, each as a number.
fn tell_items(items: &[u8], out: &mut Vec<usize>) -> Result<(), AllocError> {
    for item in items {
        out.push(usize::from(*item))?;
    }
    Ok(())
}

/// What is seen of a window that is read: its length, whether it is alone, its metadata, its items.
fn tell_reader<L: Layout>(window: &Reader<'_, L>, out: &mut Vec<usize>) -> Result<(), AllocError> {
    let numbers = [
        1,
        window.len(),
        usize::from(window.is_unique()),
        metadata_number(window.metadata()),
    ];
    out.extend_from_slice(&numbers)?;
    tell_items(window.as_slice(), out)
}

/// The same of one that is written, with its places.
fn tell_writer<K: LayoutMut>(
    window: &Writer<'_, K>,
    out: &mut Vec<usize>,
) -> Result<(), AllocError> {
    let numbers = [
        2,
        window.len(),
        window.capacity(),
        metadata_number(window.metadata()),
    ];
    out.extend_from_slice(&numbers)?;
    tell_items(window.as_slice(), out)
}

/// The same of one of several writers.
fn tell_several<K: LayoutMut>(
    window: &Several<'_, K>,
    out: &mut Vec<usize>,
) -> Result<(), AllocError> {
    let numbers = [
        3,
        window.len(),
        window.capacity(),
        metadata_number(window.metadata()),
    ];
    out.extend_from_slice(&numbers)?;
    tell_items(window.as_slice(), out)
}

/// What is seen of all windows.
pub fn seen<L: Layout, K: LayoutMut>(
    alloc: Global,
    windows: &Windows<'_, L, K>,
) -> Result<Vec<usize>, AllocError> {
    let mut out = Vec::new(alloc);
    for window in windows {
        match window {
            Some(Role::Read(window)) => tell_reader(window, &mut out)?,
            Some(Role::Write(window)) => tell_writer(window, &mut out)?,
            Some(Role::Share(window)) => tell_several(window, &mut out)?,
            None => out.push(0)?,
        }
    }
    Ok(out)
}
