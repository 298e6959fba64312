//! Windows that are made of nothing.
use crate::call::{Make, Operands};
use crate::kinds::Spelled;
use crate::layouts::Held;
use crate::window::{Role, Window};
use crate::words::{Word, or_no_memory};
use arc_write::slice_mut::ArcSliceMut;
use std::alloc::Global;

/// As a window that is read.
fn read<R, W>(made: Result<R, Word>) -> Result<Role<R, W>, Word> {
    match made {
        Ok(window) => Ok(Role::Read(window)),
        Err(word) => Err(word),
    }
}

/// As a window that is written.
fn written<R, W>(made: Result<W, Word>) -> Result<Role<R, W>, Word> {
    match made {
        Ok(window) => Ok(Role::Write(window)),
        Err(word) => Err(word),
    }
}

/// The window that a call makes.
pub fn make<S: Spelled, L: Held>(
    alloc: Global,
    what: Make,
    operands: &Operands,
) -> Result<Window<S, L>, Word> {
    let text = operands.text.as_slice();
    match what {
        Make::Slice | Make::Array | Make::Bytes => read(S::reader(alloc, what, text)),
        Make::Empty | Make::Static => read(L::on_no_block(alloc, what, text)),
        Make::New => Ok(Role::Write(ArcSliceMut::new(alloc))),
        Make::Cap => written(or_no_memory(ArcSliceMut::try_with_capacity(alloc, operands.first))),
        Make::Zero | Make::Mslice | Make::Marray | Make::Miter | Make::Mbytes => {
            written(S::writer(alloc, what, operands))
        }
    }
}
