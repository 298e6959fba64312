//! A window of a run, which is read or written.
use crate::layouts::Held;
use crate::words::Word;
use arc_read::slice::ArcSlice;
use arc_write::slice_mut::ArcSliceMut;

/// A window that is read, or one that is written.
#[derive(Drop)]
pub enum Role<R, W> {
    /// One that is read.
    Read(R),
    /// One that is written.
    Write(W),
}

/// A window of a kind and a layout.
pub type Window<S, L> = Role<ArcSlice<S, L>, Sole<S, <L as Held>::Mut>>;

/// The windows of a run, by number. Nothing stands where one has ended.
pub type Windows<S, L> = Vec<Option<Window<S, L>>>;

/// A window that is written, whose writer is the only one.
pub type Sole<S, K> = ArcSliceMut<S, K, 1>;

/// A window that is read, or the word for why there is none.
pub type Read<S, L> = Result<ArcSlice<S, L>, Word>;

/// A window that is written, or the word for why there is none.
pub type Written<S, K> = Result<Sole<S, K>, Word>;
