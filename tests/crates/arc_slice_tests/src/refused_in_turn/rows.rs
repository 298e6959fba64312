//! Rows of small windows: calls one after the other, and what each is answered. Replies come from
//! the rules of what lies in a window itself, and never from what a run shows.

/// A window that is made of nothing else. Texts are the bytes that go in.
#[derive(Clone, Copy)]
pub enum Make {
    /// Of a slice.
    Slice(&'static str),
    /// Of an array of 30 letters `a`.
    Array30,
    /// Of an array of 31 letters `a`.
    Array31,
    /// Of a vector.
    Vec(&'static str),
    /// Of a box.
    Boxed(&'static str),
    /// Of a text, as text.
    Str(&'static str),
    /// Of a string, as text.
    String(&'static str),
    /// Of a boxed text, as text.
    BoxedStr(&'static str),
}

/// A window that is made of another one.
#[derive(Clone, Copy)]
pub enum Part {
    /// A clone.
    Clone,
    /// The range from the first place to the second.
    Sub(usize, usize),
}

/// A question to a window.
#[derive(Clone, Copy)]
pub enum Ask {
    /// Whether its bytes are those of this text.
    Show(&'static str),
    /// Whether it has its bytes in itself.
    IsInline,
}

/// A call that takes the window, and may give it back.
#[derive(Clone, Copy)]
pub enum Turn {
    /// Its bytes, which are these, as the vector or string that it stands on.
    TakeVec(&'static str),
    /// Its end.
    Drop,
}

/// A call. Windows have numbers from 0, in the order in which they are made.
#[derive(Clone, Copy)]
pub enum Call {
    Make(Make),
    Part(usize, Part),
    Ask(usize, Ask),
    /// The first so many bytes go.
    Advance(usize, usize),
    Turn(usize, Turn),
}

/// What a call is answered.
#[derive(Clone, Copy, PartialEq, Eq)]
pub enum Reply {
    /// It did what it does, and what it shows is as it is to be.
    Done,
    /// What it shows, or what came back, is otherwise.
    Wrong,
    /// Yes.
    Yes,
    /// No.
    No,
    /// What went in came back.
    Refused,
    /// Memory was refused.
    NoMemory,
    /// There is no such window, or it has no such call, or the range isn't there.
    NoCall,
}

/// A call, and what it is to be answered.
pub type Line = (Call, Reply);

/// Done where this holds.
pub fn done_where(is_right: bool) -> Reply {
    if is_right { Reply::Done } else { Reply::Wrong }
}

/// What came back is as it was, or isn't.
pub fn back_where(is_same: bool) -> Reply {
    if is_same {
        Reply::Refused
    } else {
        Reply::Wrong
    }
}

/// Yes or no.
pub fn yes_or_no(answer: bool) -> Reply {
    if answer { Reply::Yes } else { Reply::No }
}

/// Whether a reply is that of a call whose memory was refused: it says so, or what went in came
/// back as it was.
pub fn is_refusal(reply: Reply) -> bool {
    match reply {
        Reply::NoMemory | Reply::Refused => true,
        _ => false,
    }
}

/// 31 letters.
const LETTERS: &str = "abcdefghijklmnopqrstuvwxyzabcde";

/// The same as an array has them.
const ARRAY: &str = "aaaaaaaaaaaaaaaaaaaaaaaaaaaaaaa";

/// The first 23 of the letters.
const TWENTY_THREE: &str = "abcdefghijklmnopqrstuvw";

/// The first 30.
const THIRTY: &str = "abcdefghijklmnopqrstuvwxyzabcd";

/// 31 bytes stand on a block, which clones and cuts share; none lie in the window.
const LONG: &[Line] = &[
    (Call::Make(Make::Slice(LETTERS)), Reply::Done),
    (Call::Ask(0, Ask::IsInline), Reply::No),
    (Call::Part(0, Part::Clone), Reply::Done),
    (Call::Part(0, Part::Sub(1, 3)), Reply::Done),
    (Call::Part(0, Part::Sub(3, 99)), Reply::NoCall),
    (Call::Turn(0, Turn::TakeVec(LETTERS)), Reply::Refused),
    (Call::Turn(0, Turn::Drop), Reply::Done),
    (Call::Ask(1, Ask::Show(LETTERS)), Reply::Done),
    (Call::Ask(2, Ask::Show("bc")), Reply::Done),
    (Call::Ask(2, Ask::IsInline), Reply::No),
    (Call::Advance(2, 1), Reply::Done),
    (Call::Ask(2, Ask::Show("c")), Reply::Done),
    (Call::Make(Make::Slice("")), Reply::Done),
    (Call::Ask(3, Ask::IsInline), Reply::Yes),
];

/// So do 31 items of an array, which comes back where memory is refused; 30 lie in the window.
const ARRAYS: &[Line] = &[
    (Call::Make(Make::Array31), Reply::Done),
    (Call::Ask(0, Ask::Show(ARRAY)), Reply::Done),
    (Call::Ask(0, Ask::IsInline), Reply::No),
    (Call::Make(Make::Array30), Reply::Done),
    (Call::Ask(1, Ask::IsInline), Reply::Yes),
    (Call::Turn(1, Turn::TakeVec("")), Reply::NoCall),
];

/// Vectors and boxes are never copied into the window, and come back.
const VECTORS: &[Line] = &[
    (Call::Make(Make::Vec("ab")), Reply::Done),
    (Call::Ask(0, Ask::IsInline), Reply::No),
    (Call::Part(0, Part::Clone), Reply::Done),
    (Call::Turn(0, Turn::TakeVec("ab")), Reply::Refused),
    (Call::Turn(1, Turn::Drop), Reply::Done),
    (Call::Turn(0, Turn::TakeVec("ab")), Reply::Done),
    (Call::Make(Make::Boxed(LETTERS)), Reply::Done),
    (Call::Ask(2, Ask::IsInline), Reply::No),
    (Call::Turn(2, Turn::TakeVec(LETTERS)), Reply::Done),
    (Call::Make(Make::Vec(LETTERS)), Reply::Done),
    (Call::Ask(3, Ask::Show(LETTERS)), Reply::Done),
    (Call::Make(Make::Vec("")), Reply::Done),
    (Call::Ask(4, Ask::IsInline), Reply::No),
];

/// The same of text.
const TEXTS: &[Line] = &[
    (Call::Make(Make::Str(LETTERS)), Reply::Done),
    (Call::Ask(0, Ask::Show(LETTERS)), Reply::Done),
    (Call::Ask(0, Ask::IsInline), Reply::No),
    (Call::Part(0, Part::Sub(0, 2)), Reply::Done),
    (Call::Ask(1, Ask::Show("ab")), Reply::Done),
    (Call::Make(Make::Str("aéb")), Reply::Done),
    (Call::Ask(2, Ask::IsInline), Reply::Yes),
    (Call::Part(2, Part::Sub(0, 2)), Reply::NoCall),
    (Call::Part(2, Part::Sub(1, 3)), Reply::Done),
    (Call::Ask(3, Ask::Show("é")), Reply::Done),
    (Call::Make(Make::String(LETTERS)), Reply::Done),
    (Call::Ask(4, Ask::IsInline), Reply::No),
    (Call::Turn(4, Turn::TakeVec(LETTERS)), Reply::Done),
    (Call::Make(Make::BoxedStr(LETTERS)), Reply::Done),
    (Call::Turn(5, Turn::TakeVec(LETTERS)), Reply::Done),
];

/// Up to 30 bytes lie in the window, and ask for no memory; 31 stand on a block.
const SHORT: &[Line] = &[
    (Call::Make(Make::Slice(TWENTY_THREE)), Reply::Done),
    (Call::Ask(0, Ask::IsInline), Reply::Yes),
    (Call::Make(Make::Str(TWENTY_THREE)), Reply::Done),
    (Call::Ask(1, Ask::IsInline), Reply::Yes),
    (Call::Part(1, Part::Clone), Reply::Done),
    (Call::Turn(1, Turn::Drop), Reply::Done),
    (Call::Ask(2, Ask::Show(TWENTY_THREE)), Reply::Done),
    (Call::Make(Make::Str(LETTERS)), Reply::Done),
    (Call::Ask(3, Ask::IsInline), Reply::No),
    (Call::Make(Make::Slice(THIRTY)), Reply::Done),
    (Call::Ask(4, Ask::IsInline), Reply::Yes),
    (Call::Make(Make::Slice(LETTERS)), Reply::Done),
    (Call::Ask(5, Ask::IsInline), Reply::No),
    (Call::Make(Make::Str(THIRTY)), Reply::Done),
    (Call::Ask(6, Ask::IsInline), Reply::Yes),
];

/// Rows, which go the same way under each layout.
pub const ALL: &[&[Line]] = &[LONG, ARRAYS, VECTORS, TEXTS, SHORT];
