//! Callers' buffers: one that grows as it will, never, at the second request or always; one that is
//! only read; and one that lends what it has.
ghost use Rattle.std.specs.Prelude.{◌≡◌, ◌≤◌, ◌+◌, length, true, false, refl};
ghost use Rattle.std.specs.Vec.{vec_items, vec_capacity, with_items, with_items_from};
ghost use Rattle.std.proofs.Common.{sym, ◌∙◌};
ghost use Rattle.std.proofs.lemmas.List.{with_items_is};
ghost use Rattle.arc_owners.specs.declared.error.TryReserveError.TheVariants.{
  AllocError,
  NotUnique,
  Unsupported,
};
ghost use Rattle.arc_buffer.specs.Buffers.{vec_written};

use arc_buffer::buffer::{BorrowMetadata, Buffer, BufferMut, Lend, LendMut};
use arc_owners::error::TryReserveError;
use std::alloc::Global;

/// A vector of these bytes with so many places.
pub fn vector(alloc: Global, places: usize, bytes: &[u8]) -> Option<Vec<u8>> {
    let mut vector = Vec::with_capacity(alloc, places).ok()?;
    vector.extend_from_slice(bytes).ok()?;
    Some(vector)
}

/// Bytes that get more places as they will.
#[derive(Drop)]
pub struct Growing {
    pub bytes: Vec<u8>,
    /// Whether they may get more; else each request is unsupported.
    pub may_grow: bool,
    /// Whether the next request is refused for want of memory.
    pub is_late: bool,
    /// Whether there was a request, where they may get more.
    pub asked: bool,
}

impl Growing {
    /// Bytes whose places are all that they have.
    pub fn no_room(bytes: Vec<u8>) -> Growing {
        Growing {
            bytes,
            may_grow: false,
            is_late: false,
            asked: false,
        }
    }

    /// Bytes whose first request is refused.
    pub fn later(bytes: Vec<u8>) -> Growing {
        Growing {
            bytes,
            may_grow: true,
            is_late: true,
            asked: false,
        }
    }

    /// Bytes that get as much room as is asked for.
    pub fn ample(bytes: Vec<u8>) -> Growing {
        Growing {
            bytes,
            may_grow: true,
            is_late: false,
            asked: false,
        }
    }
}

impl Buffer<u8> for Growing {
    ghost list = { λ b. vec_items b.bytes };

    ghost places = { λ b. vec_capacity b.bytes };

    fn as_slice(&self) -> &[u8] {
        Buffer::as_slice(&self.bytes)
    }

    ghost says_unique = { λ _ answer. answer ≡ true };

    fn is_unique(&self) -> bool {
        true
    }
}

impl BufferMut<u8> for Growing {
    ghost with_list = { λ b xs. record b { bytes = with_items b.bytes xs } };

    fn as_mut_slice(&mut self) -> &mut [u8] {
        self.bytes.as_mut_slice()
    }

    ghost with_part = { λ b start xs. record b { bytes = with_items_from b.bytes start xs } };

    fn as_mut_part(&mut self, start: usize, end: usize) -> &mut [u8] {
        self.bytes.as_mut_part(start, end)
    }

    fn capacity(&self) -> usize {
        BufferMut::capacity(&self.bytes)
    }

    ghost refuses = { λ b _ e. (NotUnique ≡ e → ⊥)
        × (b.may_grow ≡ true → e ≡ AllocError) × (b.may_grow ≡ false → e ≡ Unsupported) };

    ghost grows = { λ b additional places. (b.may_grow ≡ true)
        × (length (vec_items b.bytes) + additional ≤ places) };

    fn try_reserve(&mut self, additional: usize) -> Result<(), TryReserveError> {
        if !self.may_grow {
            return Err(TryReserveError::Unsupported);
        }
        self.asked = true;
        if self.is_late {
            self.is_late = false;
            return Err(TryReserveError::AllocError);
        }
        match BufferMut::try_reserve(&mut self.bytes, additional) {
            Ok(()) => Ok(()),
            Err(_) => Err(TryReserveError::AllocError),
        }
    }

    fn try_push(&mut self, item: u8) -> Result<(), u8> {
        self.bytes.try_push(item)
    }

    ghost keeps = { λ b xs same. (with_items_is b.bytes xs (same ∙ sym b.bytes.ok.0), refl) };

    ghost keeps_part = { λ b start xs. (vec_written b.bytes start xs, refl) };

    ghost names_no_owner = { λ _ _ refused. refused.0 refl };
}

/// Bytes that are only read, and say themselves whether nobody else has a part of them.
#[derive(Drop)]
pub struct Answering {
    pub bytes: Vec<u8>,
    pub is_alone: bool,
}

impl Buffer<u8> for Answering {
    ghost list = { λ b. vec_items b.bytes };

    ghost places = { λ b. vec_capacity b.bytes };

    fn as_slice(&self) -> &[u8] {
        Buffer::as_slice(&self.bytes)
    }

    ghost says_unique = { λ b answer. answer ≡ b.is_alone };

    fn is_unique(&self) -> bool {
        self.is_alone
    }
}

/// A type that lends its bytes to be written, and a number.
#[derive(Drop)]
pub struct Lent {
    pub bytes: Vec<u8>,
    pub number: u32,
}

impl Lend<u8> for Lent {
    ghost lent = { λ b. vec_items b.bytes };

    fn lend(&self) -> &[u8] {
        self.bytes.as_slice()
    }
}

impl LendMut<u8> for Lent {
    ghost with_lent = { λ b xs. record b { bytes = with_items b.bytes xs } };

    fn lend_mut(&mut self) -> &mut [u8] {
        self.bytes.as_mut_slice()
    }

    ghost with_lent_part = { λ b start xs. record b { bytes = with_items_from b.bytes start xs } };

    fn lend_mut_part(&mut self, start: usize, end: usize) -> &mut [u8] {
        self.bytes.as_mut_part(start, end)
    }

    ghost agrees_part = { λ b start xs. vec_written b.bytes start xs };

    ghost agrees = { λ b xs same. with_items_is b.bytes xs (same ∙ sym b.bytes.ok.0) };
}

impl BorrowMetadata for Lent {
    type Metadata = u32;

    ghost metadata = { λ b. b.number };

    fn borrow_metadata(&self) -> &u32 {
        &self.number
    }
}
