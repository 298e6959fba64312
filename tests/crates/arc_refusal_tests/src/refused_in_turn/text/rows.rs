//! Rows of texts, and their calls. Replies come from the rules of cuts, of valid text and of taking
//! back, and never from what a run shows.
use super::super::call::Reply;

/// A call. Windows have numbers from 0, in the order in which they are made.
#[derive(Clone, Copy)]
pub enum TextCall {
    /// A text over a copy of this one.
    Copied(&'static str),
    /// A text over a string.
    Owned(&'static str),
    /// A text over a boxed text.
    Boxed(&'static str),
    /// Bytes over a copy of these.
    Bytes(&'static [u8]),
    /// Bytes over a string as a caller's buffer, with metadata.
    Buffer(&'static str, u8),
    /// A clone of a text.
    Clone(usize),
    /// The range of a text from the first place to the second.
    Sub(usize, usize, usize),
    /// What is behind a place of a text, split off.
    Off(usize, usize),
    /// What is in front of a place of a text, split off.
    To(usize, usize),
    /// Whether its bytes are those of this text.
    Show(usize, &'static str),
    /// A text's metadata.
    Metadata(usize),
    /// From bytes to text.
    AsText(usize),
    /// From text to bytes.
    AsBytes(usize),
    /// A text as its string, which is this one.
    TakeString(usize, &'static str),
    /// A text as a boxed one, which is this one.
    TakeBoxed(usize, &'static str),
    /// The string as a caller's buffer, which is this one.
    TakeBuffer(usize, &'static str),
    /// Its end.
    Drop(usize),
}

/// A call, and what it is to be answered.
pub type TextLine = (TextCall, Reply);

/// A text isn't cut within a character.
const CUT: &[TextLine] = &[
    (TextCall::Copied("aéb"), Reply::Done),
    (TextCall::Sub(0, 3, 9), Reply::NoCall),
    (TextCall::Sub(0, 3, 1), Reply::NoCall),
    (TextCall::Off(0, 2), Reply::NoCall),
    (TextCall::Off(0, 3), Reply::Done),
    (TextCall::Show(0, "aé"), Reply::Done),
    (TextCall::Show(1, "b"), Reply::Done),
    (TextCall::To(0, 2), Reply::NoCall),
    (TextCall::To(0, 1), Reply::Done),
    (TextCall::Show(0, "é"), Reply::Done),
    (TextCall::Show(2, "a"), Reply::Done),
];

/// Bytes become text exactly where they are valid, and come back else.
const VALID: &[TextLine] = &[
    (TextCall::Bytes(b"a\xc3"), Reply::Done),
    (TextCall::AsText(0), Reply::Refused),
    (TextCall::Drop(0), Reply::Done),
    (TextCall::Bytes(b"a\xc3\xa9b"), Reply::Done),
    (TextCall::AsText(1), Reply::Done),
    (TextCall::Show(1, "aéb"), Reply::Done),
    (TextCall::AsBytes(1), Reply::Done),
    (TextCall::Show(1, "aéb"), Reply::Done),
    (TextCall::Clone(1), Reply::NoCall),
];

/// A string comes back once no other owner lives, and a boxed text does.
const STRINGS: &[TextLine] = &[
    (TextCall::Owned("aéb"), Reply::Done),
    (TextCall::Clone(0), Reply::Done),
    (TextCall::TakeString(0, "aéb"), Reply::Refused),
    (TextCall::TakeBoxed(0, "aéb"), Reply::Refused),
    (TextCall::Drop(1), Reply::Done),
    (TextCall::TakeString(0, "aéb"), Reply::Done),
    (TextCall::Boxed("ab"), Reply::Done),
    (TextCall::AsBytes(2), Reply::Done),
    (TextCall::AsText(2), Reply::Done),
    (TextCall::Sub(2, 0, 1), Reply::Done),
    (TextCall::TakeBoxed(2, "ab"), Reply::Refused),
    (TextCall::Drop(3), Reply::Done),
    (TextCall::TakeBoxed(2, "ab"), Reply::Done),
];

/// A string as a caller's buffer is seen as text with its metadata, and comes back whole and alone.
const BUFFER: &[TextLine] = &[
    (TextCall::Buffer("aéb", 7), Reply::Done),
    (TextCall::AsText(0), Reply::Done),
    (TextCall::Show(0, "aéb"), Reply::Done),
    (TextCall::Metadata(0), Reply::Number(7)),
    (TextCall::Clone(0), Reply::Done),
    (TextCall::Metadata(1), Reply::Number(7)),
    (TextCall::TakeBuffer(0, "aéb"), Reply::Refused),
    (TextCall::TakeString(0, "aéb"), Reply::Refused),
    (TextCall::Off(1, 1), Reply::Done),
    (TextCall::Drop(0), Reply::Done),
    (TextCall::Drop(1), Reply::Done),
    (TextCall::TakeBuffer(2, "éb"), Reply::Refused),
    (TextCall::Show(2, "éb"), Reply::Done),
    (TextCall::Buffer("é", 9), Reply::Done),
    (TextCall::AsText(3), Reply::Done),
    (TextCall::TakeBuffer(3, "é"), Reply::Done),
];

/// All rows.
pub const TEXTS: &[&[TextLine]] = &[CUT, VALID, STRINGS, BUFFER];
