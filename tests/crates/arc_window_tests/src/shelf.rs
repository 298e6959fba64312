//! A caller's buffer of items that are dropped one by one, with a value of its own.
ghost use Rattle.std.specs.Vec.{vec_items, with_items, with_items_from};
ghost use Rattle.std.proofs.Common.{sym, ◌∙◌};
ghost use Rattle.std.proofs.lemmas.List.{with_items_is};
ghost use Rattle.arc_buffer.specs.Buffers.{vec_written};

use crate::living::{Values, first_three, last_two};
use arc_buffer::buffer::{AsMutBuffer, BufferMut, Lend, LendMut};
use std::alloc::Global;
use std::sync::Arc;

/// Items, and a value of the buffer's own.
#[derive(Drop)]
pub struct Shelf {
    pub items: Vec<Arc<u8>>,
    pub own: Arc<u8>,
}

impl Lend<Arc<u8>> for Shelf {
    ghost lent = { λ shelf. vec_items shelf.items };

    fn lend(&self) -> &[Arc<u8>] {
        self.items.as_slice()
    }
}

impl LendMut<Arc<u8>> for Shelf {
    ghost with_lent = { λ shelf xs. record shelf { items = with_items shelf.items xs } };

    fn lend_mut(&mut self) -> &mut [Arc<u8>] {
        self.items.as_mut_slice()
    }

    ghost with_lent_part = { λ shelf start xs.
        record shelf { items = with_items_from shelf.items start xs } };

    fn lend_mut_part(&mut self, start: usize, end: usize) -> &mut [Arc<u8>] {
        self.items.as_mut_part(start, end)
    }

    ghost agrees_part = { λ shelf start xs. vec_written shelf.items start xs };

    ghost agrees = { λ shelf xs same. with_items_is shelf.items xs (same ∙ sym shelf.items.ok.0) };
}

/// A buffer of the first three values with the fourth as its own, and the fifth as metadata.
pub fn filled(alloc: Global, values: &Values) -> Option<(AsMutBuffer<Shelf>, Arc<u8>)> {
    let items = Vec::from_array(alloc, first_three(values)?).ok()?;
    let [own, metadata] = last_two(values)?;
    Some((AsMutBuffer::new(Shelf { items, own }), metadata))
}
