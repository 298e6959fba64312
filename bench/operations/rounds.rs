//! Rounds of writing: so often a small step is done before the window is emptied again.
use crate::keep::Keep;

/// How many bytes are pushed in a round, or pieces copied.
pub const ROUND: usize = 1024;

/// How many bytes a short piece has.
pub const PIECE: usize = 64;

/// How many bytes a long piece has.
pub const LONG: usize = 1000;

/// How many places hold all long pieces of a round.
pub const PLACES: usize = 1_048_576;

/// How many bytes growth to a million pushes.
pub const MILLION: usize = 1_000_000;

/// Nothing but the rounds and their steps.
#[inline(never)]
pub fn empty_rounds(count: usize, keep: &dyn Keep) {
    for _ in 0..count {
        for i in 0..ROUND {
            keep.number(i);
        }
    }
}
