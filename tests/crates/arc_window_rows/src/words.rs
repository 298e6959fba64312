//! Replies, and the words of those that are always the same.
use arc_owners::error::{OwnerError, RangeError, TryReserveError};

/// A reply that is always the same.
pub type Word = &'static str;

/// A call that answers nothing did what it does.
pub const OK: Word = "ok";

/// A value came back.
pub const REFUSED: Word = "refused";

/// Memory was refused.
pub const NO_MEMORY: Word = "allocation error";

/// No window of this number is there.
pub const NO_WINDOW: Word = "no window";

/// The call is for windows of the other role, or the kind or layout doesn't have it.
pub const NO_CALL: Word = "no such call";

/// The line has no call that the rows know.
pub const BAD_LINE: Word = "bad line";

/// What a line is answered.
#[derive(Clone, Copy)]
pub enum Reply {
    /// A word.
    Word(Word),
    /// A number.
    Number(usize),
    /// The number of a window that was made.
    Made(usize),
    /// What was written beside it.
    Shown,
}

/// The word for an answer of yes or no.
pub fn yes_or_no(answer: bool) -> Word {
    if answer { "yes" } else { "no" }
}

/// The word for a range that is refused.
pub fn range_word(e: RangeError) -> Word {
    match e {
        RangeError::OutOfRange => "out of range",
        RangeError::InvalidRange => "invalid range",
        RangeError::NotBoundary => "not a char boundary",
    }
}

/// The word for the answer of a test.
pub fn tested(answer: Result<(), RangeError>) -> Word {
    match answer {
        Ok(()) => OK,
        Err(e) => range_word(e),
    }
}

/// The word for an owner that isn't made.
pub fn owner_word(e: OwnerError) -> Word {
    match e {
        OwnerError::AllocError => NO_MEMORY,
        OwnerError::CountFull => "count full",
    }
}

/// The word for room that isn't made.
pub fn room_word(e: TryReserveError) -> Word {
    match e {
        TryReserveError::NotUnique => "not unique",
        TryReserveError::Unsupported => "unsupported",
        TryReserveError::AllocError => NO_MEMORY,
        TryReserveError::CapacityOverflow => "capacity overflow",
    }
}

/// The word for room that is made or not.
pub fn room_made(made: Result<(), TryReserveError>) -> Word {
    match made {
        Ok(()) => OK,
        Err(e) => room_word(e),
    }
}

/// What was made, or the word that memory was refused.
pub fn or_no_memory<W, E: Drop>(made: Result<W, E>) -> Result<W, Word> {
    match made {
        Ok(window) => Ok(window),
        Err(_) => Err(NO_MEMORY),
    }
}
