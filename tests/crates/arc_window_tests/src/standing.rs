//! Windows of bytes by what they stand on.
use arc_buffer::kinds::Plain;
use arc_read::slice::ArcSlice;
use std::alloc::Global;
use std::sync::Arc;

/// Bytes that are read.
pub type Bytes = ArcSlice<Plain<u8>>;

/// What bytes stand on.
#[derive(Clone, Copy)]
pub enum Sort {
    /// A block of ours.
    Native,
    /// A vector.
    Vector,
    /// A caller's buffer.
    Buffer,
    /// An `Arc` of one.
    Shared,
    /// What lies there for good.
    Lasting,
}

/// A window of these bytes that stands on this.
pub fn standing(alloc: Global, sort: Sort, bytes: &'static [u8]) -> Option<Bytes> {
    let items = Vec::from_slice(alloc, bytes).ok()?;
    match sort {
        Sort::Native => Bytes::try_from_slice(alloc, bytes).ok(),
        Sort::Vector => Bytes::try_from_vec(alloc, items).ok(),
        Sort::Buffer => Bytes::try_from_buffer(alloc, items).ok(),
        Sort::Shared => Bytes::try_from_raw_buffer(alloc, Arc::new(alloc, items).ok()?).ok(),
        Sort::Lasting => Some(Bytes::from_static(alloc, bytes)),
    }
}
