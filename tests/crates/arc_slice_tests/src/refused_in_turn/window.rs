//! Small windows whose memory a heap counts, and what is seen of them.
use arc_slice::buffer::{Plain, Slice, Text};
use arc_slice::inlined::SmallArcSlice;
use arc_slice::layout::Layout;
use counting_heap::CountingHeap;
use either::{Left, Right};
use std::alloc::{AllocError, Global};

/// A heap that counts.
pub type Heap<'a> = &'a CountingHeap<Global>;

/// A small window of a kind.
pub type Small<'a, S, L> = SmallArcSlice<S, L, Vec<u8>, (), Heap<'a>>;

/// One over bytes.
pub type SmallBytes<'a, L> = Small<'a, Plain<u8>, L>;

/// One over text.
pub type SmallText<'a, L> = Small<'a, Text, L>;

/// A small window over bytes, or one over text.
#[derive(Drop)]
pub enum Kind<B, T> {
    Bytes(B),
    Text(T),
}

/// A window.
pub type Window<'a, L> = Kind<SmallBytes<'a, L>, SmallText<'a, L>>;

/// The windows of a row, by number. Nothing stands where one has ended.
pub type Windows<'a, L> = Vec<Option<Window<'a, L>>>;

/// Whether a window has its bytes in itself.
pub fn is_inline<S: Slice<Item = u8>, L: Layout>(window: &Small<'_, S, L>) -> bool {
    window.as_either().is_left()
}

/// Whether it is the only owner of its block.
fn is_unique<S: Slice<Item = u8>, L: Layout>(window: &Small<'_, S, L>) -> bool {
    match window.as_either() {
        Left(_) => false,
        Right(window) => window.is_unique(),
    }
}

/// What is seen of a window: whether it has its bytes in itself, whether it is alone, and its
/// bytes.
fn tell<S: Slice<Item = u8>, L: Layout>(
    window: &Small<'_, S, L>,
    out: &mut Vec<usize>,
) -> Result<(), AllocError> {
    let numbers = [
        usize::from(is_inline(window)),
        usize::from(is_unique(window)),
        window.len(),
    ];
    out.extend_from_slice(&numbers)?;
    for item in window.as_slice() {
        out.push(usize::from(*item))?;
    }
    Ok(())
}

/// What is seen of all windows.
pub fn seen<L: Layout>(alloc: Global, windows: &Windows<'_, L>) -> Result<Vec<usize>, AllocError> {
    let mut out = Vec::new(alloc);
    for window in windows {
        match window {
            Some(Kind::Bytes(window)) => tell(window, &mut out)?,
            Some(Kind::Text(window)) => tell(window, &mut out)?,
            None => out.push(2)?,
        }
    }
    Ok(out)
}
