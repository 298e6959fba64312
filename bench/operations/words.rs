//! The words of the program.
use std::env::FillError;
use std::rt::Env;
use std::str;

/// How long a word may be, in bytes.
const WORD: usize = 32;

/// What is run in a loop.
#[derive(Clone, Copy)]
pub enum Operation {
    /// Nothing but the loop.
    Loop,
    /// Nothing but the loop, which hands a window on.
    WindowLoop,
    /// A clone of a local window, and its release.
    Clone,
    /// A clone of a window behind a reference, and its release.
    CloneShared,
    /// The same, dropped by the hint that it may be the only one.
    CloneHint,
    /// The window's length and first byte.
    Read,
    /// 128 bytes copied into a new block, and its release.
    Make,
    /// The same, dropped by the hint that it may be the only one.
    MakeHint,
    /// A cut with no items of a local window, and its release.
    EmptyCut,
    /// The same of a window behind a reference.
    EmptyCutShared,
    /// A cut of 8 bytes of a local window, and its release.
    ShortCut,
    /// The same of a window behind a reference.
    ShortCutShared,
    /// The back split off a clone, and the release of both.
    SplitOff,
    /// Whether the window is alone.
    Unique,
    /// A window that loses a byte at its front each time.
    Advance,
    /// An array of 32 bytes as a window, and back.
    Array,
    /// A vector, or a caller's buffer, as a window, and back.
    Back,
    /// The same, with a clone made and released between.
    BackCloned,
    /// A trait over 1,000 bytes.
    Reading(Reading),
    /// One on windows that are written.
    Writer(Writing),
    /// One on windows of several writers.
    Sharing(Sharing),
    /// One on windows of items that are dropped one by one.
    Owning(Owning),
}

/// What is run in a loop over 1,000 bytes.
#[derive(Clone, Copy)]
pub enum Reading {
    /// Printed by `{:?}`.
    Debug,
    /// Printed as two hexadecimal digits a byte.
    Hex,
    /// A clone, which is read as 500 numbers of two bytes.
    Numbers,
}

/// What is run in a loop on windows that are written. A round is 1,024 of the steps.
#[derive(Clone, Copy)]
pub enum Writing {
    /// Nothing but rounds of steps.
    Rounds,
    /// Rounds of one byte pushed into places that are there, and something else after each push.
    Push,
    /// Rounds of one byte pushed into places that are there, with nothing between them.
    PushRow,
    /// A round of bytes pushed into a new window with no places, and its release.
    Grow,
    /// A million bytes pushed into a new window with no places, and its release.
    GrowMillion,
    /// Rounds of 64 bytes copied into places that are there.
    Extend,
    /// Rounds of 63 bytes copied into places that are there.
    ExtendOdd,
    /// Rounds of 1,000 bytes copied into places that are there.
    ExtendLong,
    /// A window cut by a byte each time.
    Truncate,
    /// A window that loses a byte at its front each time.
    Advance,
    /// A window with 64 places, and its release.
    Make,
    /// A window that is read from then on, and back.
    Freeze,
    /// All items to be written, of which the first is.
    Write,
    /// All items to be read.
    ReadBack,
    /// A vector, or a caller's buffer, as a window that is written, and back.
    Back,
    /// A window with 64 bytes, room for 64 more, and its release.
    Reserve,
    /// Room asked for that is there.
    ReserveRoom,
}

/// What is run in a loop on windows of several writers.
#[derive(Clone, Copy)]
pub enum Sharing {
    /// The back half of the places, split off, and joined.
    SplitOff,
    /// The front half of the places, split off, and joined.
    SplitTo,
    /// Rounds of one byte pushed into places that are there.
    Push,
    /// Rounds of 64 bytes copied into places that are there.
    Extend,
    /// A window cut by a byte each time.
    Truncate,
    /// A window that loses a byte at its front each time.
    Advance,
    /// All items to be written, of which the first is.
    Write,
    /// All items to be read.
    Read,
    /// Room asked for that is there.
    Reserve,
    /// Room that is there, asked for without memory.
    Reclaim,
    /// A window that is read from then on, and back.
    Freeze,
    /// The only writer, and one of several again.
    Unique,
}

/// What is run in a loop on windows of items that are dropped one by one.
#[derive(Clone, Copy)]
pub enum Owning {
    /// A clone, and its release.
    Clone,
    /// A cut, and its release.
    Cut,
    /// A window over eight items, and its release.
    Make,
    /// Eight items as a window, and back.
    Array,
    /// Items pushed into a new window that has places for all, and their release.
    Push,
    /// A window that is read from then on, and back.
    Freeze,
}

/// What our windows stand on.
#[derive(Clone, Copy)]
pub enum Base {
    /// A block of their own.
    Block,
    /// A vector.
    Vector,
    /// A caller's buffer: a vector too, which answers for itself.
    Buffer,
    /// Static bytes.
    Static,
    /// An `Arc`, which is a block by itself under the layout of Arcs.
    Arc,
}

/// Under which layout our windows are.
#[derive(Clone, Copy)]
pub enum LayoutName {
    /// The default one.
    Usual,
    /// That of boxes.
    Boxed,
    /// That of vectors.
    Lone,
    /// That of Arcs.
    Raw,
}

/// What the loops run over.
#[derive(Clone, Copy)]
pub enum Side {
    /// The windows of this repository.
    Ours(LayoutName, Base),
    /// Those of the kit's `bytes`.
    Kit,
    /// The vectors of std.
    Vector,
    /// Windows of items that are dropped one by one.
    Owned,
    /// Windows of several writers.
    Several,
    /// Small windows of 20 bytes, in themselves.
    Inline,
    /// Small windows of 128 bytes, on a block.
    Small,
    /// Windows of this repository, in so many threads.
    Threads(usize),
}

/// What the words ask for.
#[derive(Clone, Copy)]
pub struct Words {
    pub side: Side,
    pub operation: Operation,
    /// How often.
    pub count: usize,
    /// Whether the loop's second copy runs.
    pub second: bool,
}

/// The operation of this name.
fn operation_named(name: &str) -> Option<Operation> {
    Some(match name {
        "loop" => Operation::Loop,
        "window_loop" => Operation::WindowLoop,
        "clone" => Operation::Clone,
        "clone_shared" => Operation::CloneShared,
        "clone_hint" => Operation::CloneHint,
        "read" => Operation::Read,
        "make" => Operation::Make,
        "make_hint" => Operation::MakeHint,
        "empty_cut" => Operation::EmptyCut,
        "empty_cut_shared" => Operation::EmptyCutShared,
        "short_cut" => Operation::ShortCut,
        "short_cut_shared" => Operation::ShortCutShared,
        "split_off" => Operation::SplitOff,
        "unique" => Operation::Unique,
        "advance" => Operation::Advance,
        "array" => Operation::Array,
        "back" => Operation::Back,
        "back_cloned" => Operation::BackCloned,
        _ => return group_named(name),
    })
}

/// The operation of this name, of those on windows of a sort of their own.
fn group_named(name: &str) -> Option<Operation> {
    Some(match name {
        "debug" => Operation::Reading(Reading::Debug),
        "hex" => Operation::Reading(Reading::Hex),
        "numbers" => Operation::Reading(Reading::Numbers),
        "owned_clone" => Operation::Owning(Owning::Clone),
        "owned_cut" => Operation::Owning(Owning::Cut),
        "owned_make" => Operation::Owning(Owning::Make),
        "owned_array" => Operation::Owning(Owning::Array),
        "owned_push" => Operation::Owning(Owning::Push),
        "owned_freeze" => Operation::Owning(Owning::Freeze),
        _ => match sharing_named(name) {
            Some(sharing) => Operation::Sharing(sharing),
            None => Operation::Writer(writing_named(name)?),
        },
    })
}

/// The operation on windows of several writers, of this name.
fn sharing_named(name: &str) -> Option<Sharing> {
    Some(match name {
        "several_split_off" => Sharing::SplitOff,
        "several_split_to" => Sharing::SplitTo,
        "several_push" => Sharing::Push,
        "several_extend" => Sharing::Extend,
        "several_truncate" => Sharing::Truncate,
        "several_advance" => Sharing::Advance,
        "several_write" => Sharing::Write,
        "several_read" => Sharing::Read,
        "several_reserve" => Sharing::Reserve,
        "several_reclaim" => Sharing::Reclaim,
        "several_freeze" => Sharing::Freeze,
        "several_unique" => Sharing::Unique,
        _ => return None,
    })
}

/// The operation on windows that are written, of this name.
fn writing_named(name: &str) -> Option<Writing> {
    Some(match name {
        "rounds" => Writing::Rounds,
        "push" => Writing::Push,
        "push_row" => Writing::PushRow,
        "grow" => Writing::Grow,
        "grow_million" => Writing::GrowMillion,
        "extend" => Writing::Extend,
        "extend_odd" => Writing::ExtendOdd,
        "extend_long" => Writing::ExtendLong,
        "truncate" => Writing::Truncate,
        "advance_writer" => Writing::Advance,
        "make_writer" => Writing::Make,
        "freeze" => Writing::Freeze,
        "write" => Writing::Write,
        "read_back" => Writing::ReadBack,
        "back_writer" => Writing::Back,
        "reserve" => Writing::Reserve,
        "reserve_room" => Writing::ReserveRoom,
        _ => return None,
    })
}

/// The side of this name.
fn side_named(name: &str) -> Option<Side> {
    Some(match name {
        "block" => Side::Ours(LayoutName::Usual, Base::Block),
        "vector" => Side::Ours(LayoutName::Usual, Base::Vector),
        "buffer" => Side::Ours(LayoutName::Usual, Base::Buffer),
        "static" => Side::Ours(LayoutName::Usual, Base::Static),
        "arc" => Side::Ours(LayoutName::Raw, Base::Arc),
        "boxed_block" => Side::Ours(LayoutName::Boxed, Base::Block),
        "boxed_vector" => Side::Ours(LayoutName::Boxed, Base::Vector),
        "vec_block" => Side::Ours(LayoutName::Lone, Base::Block),
        "vec_vector" => Side::Ours(LayoutName::Lone, Base::Vector),
        "raw_block" => Side::Ours(LayoutName::Raw, Base::Block),
        "raw_vector" => Side::Ours(LayoutName::Raw, Base::Vector),
        "kit" => Side::Kit,
        "std" => Side::Vector,
        "owned" => Side::Owned,
        "several" => Side::Several,
        "inline" => Side::Inline,
        "small" => Side::Small,
        "threads1" => Side::Threads(1),
        "threads2" => Side::Threads(2),
        "threads4" => Side::Threads(4),
        _ => return None,
    })
}

/// The word with this number in a buffer, if there is one of text that fits.
fn word<'a>(rt: &impl Env, i: usize, buf: &'a mut [u8; WORD]) -> Option<&'a str> {
    let len = match rt.arg(i, buf) {
        Ok(len) => len,
        Err(FillError::NotPresent | FillError::TooLong) => return None,
    };
    str::from_utf8(&buf[..len]).ok()
}

impl Words {
    /// Reads the three words, and whether a fourth asks for the loop's second copy.
    pub fn read(rt: &impl Env) -> Option<Words> {
        let mut buf = [0u8; WORD];
        let side = side_named(word(rt, 1, &mut buf)?)?;
        let operation = operation_named(word(rt, 2, &mut buf)?)?;
        let count = word(rt, 3, &mut buf)?.parse::<usize>().ok()?;
        let second = word(rt, 4, &mut buf).is_some();
        Some(Words {
            side,
            operation,
            count,
            second,
        })
    }
}
