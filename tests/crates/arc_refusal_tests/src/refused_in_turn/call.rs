//! Calls of rows, and what they are answered.

/// A window that is made of nothing else. A name that begins with `Written` makes one that is
/// written. Texts are the bytes that go in.
#[derive(Clone, Copy)]
pub enum Make {
    /// Of a slice.
    Slice(&'static str),
    /// Of an array.
    Array([u8; 3]),
    /// Of a vector.
    Vec(&'static str),
    /// Of a box.
    Boxed(&'static str),
    /// Of a caller's buffer.
    Buffer(&'static str),
    /// Of a caller's buffer with metadata.
    BufferWith(&'static str, u8),
    /// Of an `Arc` of a caller's buffer.
    Raw(&'static str),
    /// Of nothing.
    Written,
    /// With so many places.
    WrittenPlaces(usize),
    /// Of so many zeros.
    WrittenZeros(usize),
    /// Of a slice.
    WrittenSlice(&'static str),
    /// Of an array.
    WrittenArray([u8; 3]),
    /// Of a vector.
    WrittenVec(&'static str),
    /// Of a caller's buffer.
    WrittenBuffer(&'static str),
    /// Of a caller's buffer with metadata.
    WrittenBufferWith(&'static str, u8),
}

/// A window that is made of one that is read, or of one of several writers, which can only be
/// split.
#[derive(Clone, Copy)]
pub enum Part {
    /// A clone.
    Clone,
    /// The range from the first place to the second.
    Sub(usize, usize),
    /// The same range, borrowed and then cloned.
    Borrowed(usize, usize),
    /// What is behind a place, split off.
    Off(usize),
    /// What is in front of a place, split off.
    To(usize),
}

/// A question to a window.
#[derive(Clone, Copy)]
pub enum Ask {
    /// Whether its items are these.
    Show(&'static str),
    /// How many places it has.
    Room,
    /// Whether it is alone.
    IsUnique,
    /// Its metadata.
    Metadata,
}

/// A change of a window.
#[derive(Clone, Copy)]
pub enum Change {
    /// The first so many items go.
    Advance(usize),
    /// Only the first so many items stay.
    Truncate(usize),
    /// An item more.
    Push(u8),
    /// A list more.
    Extend(&'static str),
    /// As much of a list as there are places for, by `write`.
    Put(&'static str),
    /// Room for so many more.
    Reserve(usize),
    /// The same without memory.
    Reclaim(usize),
}

/// A call that takes the window, and may give it back.
#[derive(Clone, Copy)]
pub enum Turn {
    /// From written to read.
    Freeze,
    /// From read to written.
    Mut,
    /// From an only writer to one of several.
    Share,
    /// Back again.
    Unique,
    /// One of several writers is split behind so many places, each part gets a text more in its
    /// places, and the parts are joined again; else the one behind ends.
    Rejoin(usize, &'static str, &'static str),
    /// To another layout and back: of one that is read to that of those that are written.
    Over,
    /// The same by the layout that holds no vectors and buffers.
    OverNative,
    /// Its items, which are these, as its vector.
    TakeVec(&'static str),
    /// Its items, which are these, as a box.
    TakeBoxed(&'static str),
    /// Its buffer, which has these items.
    TakeBuffer(&'static str),
    /// The `Arc` of its buffer, which has these items.
    TakeRaw(&'static str),
    /// Its items, of which there are none, as an array; only of one that is written.
    TakeNone,
    /// Its items as an array of two; only of one that is read.
    TakeTwo,
    /// Its items as an array of three, which are these.
    TakeThree([u8; 3]),
    /// Its end.
    Drop,
    /// Its end by the hint that it is alone.
    Hint,
}

/// A call. Windows have numbers from 0, in the order in which they are made.
#[derive(Clone, Copy)]
pub enum Call {
    Make(Make),
    Part(usize, Part),
    Ask(usize, Ask),
    Change(usize, Change),
    Turn(usize, Turn),
}

/// What a call is answered.
#[derive(Clone, Copy, PartialEq, Eq)]
pub enum Reply {
    /// It did what it does, and what it shows is as it is to be.
    Done,
    /// What it shows, or what came back, is otherwise.
    Wrong,
    /// Yes.
    Yes,
    /// No.
    No,
    /// A number.
    Number(usize),
    /// What went in came back.
    Refused,
    /// Memory was refused.
    NoMemory,
    /// Another owner lives.
    NotUnique,
    /// The block can't grow.
    Unsupported,
    /// More than a block can have.
    TooLarge,
    /// There is no such window, or it has no such call, or the range isn't there.
    NoCall,
}

/// A call, and what it is to be answered.
pub type Line = (Call, Reply);

/// Done where this holds.
pub fn done_where(is_right: bool) -> Reply {
    if is_right { Reply::Done } else { Reply::Wrong }
}

/// What came back is as it was, or isn't.
pub fn back_where(is_same: bool) -> Reply {
    if is_same {
        Reply::Refused
    } else {
        Reply::Wrong
    }
}

/// Yes or no.
pub fn yes_or_no(answer: bool) -> Reply {
    if answer { Reply::Yes } else { Reply::No }
}

/// Whether a reply is that of a call whose memory was refused: it says so, or what went in came
/// back as it was.
pub fn is_refusal(reply: Reply) -> bool {
    match reply {
        Reply::NoMemory | Reply::Refused => true,
        _ => false,
    }
}
