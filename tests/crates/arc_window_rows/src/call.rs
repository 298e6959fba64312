//! Lines as calls.

use std::alloc::{AllocError, Global};

/// What a call makes of nothing.
#[derive(Clone, Copy)]
pub enum Make {
    Slice,
    Array,
    Empty,
    Static,
    Bytes,
    New,
    Cap,
    Zero,
    Mslice,
    Marray,
    Miter,
    Mbytes,
}

/// What a call makes of a window that is read.
#[derive(Clone, Copy)]
pub enum Part {
    Clone,
    Sub,
    Off,
    To,
    Part,
}

/// What a call asks of a window.
#[derive(Clone, Copy)]
pub enum Ask {
    Range,
    At,
    SplitAt,
    Uniq,
    Len,
    Room,
    Show,
    Debug,
    Is,
    Borrow,
}

/// How a call changes a window in its place.
#[derive(Clone, Copy)]
pub enum Change {
    Adv,
    Trunc,
    Res,
    Rec,
    Push,
    Ext,
    Each,
    Set,
    Reverse,
}

/// What becomes of a window that is taken by a call.
#[derive(Clone, Copy)]
pub enum Turn {
    Freeze,
    Mut,
    Take,
    TakeStatic,
    Drop,
    Hint,
    Parts,
    Bytes,
}

/// A call.
#[derive(Clone, Copy)]
pub enum Verb {
    Make(Make),
    Part(Part),
    Ask(Ask),
    Change(Change),
    Turn(Turn),
    Compare,
}

/// Each word, whether a window's number stands behind it, how many numbers more, and what it calls.
const FORMS: &[(&str, bool, usize, Verb)] = &[
    ("slice", false, 0, Verb::Make(Make::Slice)),
    ("array", false, 0, Verb::Make(Make::Array)),
    ("empty", false, 0, Verb::Make(Make::Empty)),
    ("static", false, 0, Verb::Make(Make::Static)),
    ("bytes", false, 0, Verb::Make(Make::Bytes)),
    ("new", false, 0, Verb::Make(Make::New)),
    ("cap", false, 1, Verb::Make(Make::Cap)),
    ("zero", false, 1, Verb::Make(Make::Zero)),
    ("mslice", false, 0, Verb::Make(Make::Mslice)),
    ("marray", false, 0, Verb::Make(Make::Marray)),
    ("miter", false, 0, Verb::Make(Make::Miter)),
    ("mbytes", false, 0, Verb::Make(Make::Mbytes)),
    ("clone", true, 0, Verb::Part(Part::Clone)),
    ("sub", true, 2, Verb::Part(Part::Sub)),
    ("off", true, 1, Verb::Part(Part::Off)),
    ("to", true, 1, Verb::Part(Part::To)),
    ("part", true, 4, Verb::Part(Part::Part)),
    ("range", true, 2, Verb::Ask(Ask::Range)),
    ("at", true, 1, Verb::Ask(Ask::At)),
    ("splitat", true, 1, Verb::Ask(Ask::SplitAt)),
    ("uniq", true, 0, Verb::Ask(Ask::Uniq)),
    ("len", true, 0, Verb::Ask(Ask::Len)),
    ("room", true, 0, Verb::Ask(Ask::Room)),
    ("show", true, 0, Verb::Ask(Ask::Show)),
    ("debug", true, 0, Verb::Ask(Ask::Debug)),
    ("is", true, 0, Verb::Ask(Ask::Is)),
    ("borrow", true, 2, Verb::Ask(Ask::Borrow)),
    ("adv", true, 1, Verb::Change(Change::Adv)),
    ("trunc", true, 1, Verb::Change(Change::Trunc)),
    ("res", true, 1, Verb::Change(Change::Res)),
    ("rec", true, 1, Verb::Change(Change::Rec)),
    ("push", true, 0, Verb::Change(Change::Push)),
    ("ext", true, 0, Verb::Change(Change::Ext)),
    ("each", true, 0, Verb::Change(Change::Each)),
    ("set", true, 1, Verb::Change(Change::Set)),
    ("reverse", true, 0, Verb::Change(Change::Reverse)),
    ("freeze", true, 0, Verb::Turn(Turn::Freeze)),
    ("mut", true, 0, Verb::Turn(Turn::Mut)),
    ("take", true, 1, Verb::Turn(Turn::Take)),
    ("takestatic", true, 0, Verb::Turn(Turn::TakeStatic)),
    ("drop", true, 0, Verb::Turn(Turn::Drop)),
    ("hint", true, 0, Verb::Turn(Turn::Hint)),
    ("parts", true, 0, Verb::Turn(Turn::Parts)),
    ("kind", true, 0, Verb::Turn(Turn::Bytes)),
    ("cmp", true, 1, Verb::Compare),
];

/// What stands behind a call's word. A number that isn't there is 0.
#[derive(Drop)]
pub struct Operands {
    /// The window that the call is made on.
    pub window: usize,
    pub first: usize,
    pub second: usize,
    pub third: usize,
    pub fourth: usize,
    /// The items, as they are written.
    pub text: Vec<u8>,
}

/// Whether a window's number stands behind a word, how many numbers more, and what it calls.
fn form(word: &str) -> Option<(bool, usize, Verb)> {
    for (name, has_window, numbers, verb) in FORMS {
        if *name == word {
            return Some((*has_window, *numbers, *verb));
        }
    }
    None
}

/// The next word of a line, and what stands behind it.
fn next_word(line: &str) -> (&str, &str) {
    match line.split_once(' ') {
        Some((word, rest)) => (word, rest),
        None => (line, ""),
    }
}

/// A number and what stands behind it, where one is to stand there, and else 0.
fn number(is_there: bool, line: &str) -> Option<(usize, &str)> {
    if !is_there {
        return Some((0, line));
    }
    let (word, rest) = next_word(line);
    match word.parse::<usize>() {
        Ok(number) => Some((number, rest)),
        Err(_) => None,
    }
}

/// The operands of a call that has so many numbers.
fn operands_of(alloc: Global, has_window: bool, numbers: usize, line: &str) -> Option<Operands> {
    let (window, line) = number(has_window, line)?;
    let (first, line) = number(numbers > 0, line)?;
    let (second, line) = number(numbers > 1, line)?;
    let (third, line) = number(numbers > 2, line)?;
    let (fourth, line) = number(numbers > 3, line)?;
    let text = unescaped(alloc, line).ok()?;
    Some(Operands {
        window,
        first,
        second,
        third,
        fourth,
        text,
    })
}

/// The value of a hexadecimal digit.
fn digit(byte: u8) -> u8 {
    match byte {
        b'0'..=b'9' => byte - b'0',
        b'a'..=b'f' => byte - b'a' + 10,
        _ => 0,
    }
}

/// The bytes that are written so: `-` is none, `\xHH` is the byte with these digits, and `\\` is a
/// backslash.
pub fn unescaped(alloc: Global, text: &str) -> Result<Vec<u8>, AllocError> {
    let mut bytes = Vec::new(alloc);
    if text == "-" {
        return Ok(bytes);
    }
    let mut rest = text.as_bytes();
    for _ in 0..text.len() {
        rest = match rest {
            [b'\\', b'x', high, low, behind @ ..] => {
                bytes.push(digit(*high) * 16 + digit(*low))?;
                behind
            }
            [b'\\', b'\\', behind @ ..] => {
                bytes.push(b'\\')?;
                behind
            }
            [byte, behind @ ..] => {
                bytes.push(*byte)?;
                behind
            }
            [] => break,
        };
    }
    Ok(bytes)
}

/// A line as a call, if it is one.
pub fn parse(alloc: Global, line: &str) -> Option<(Verb, Operands)> {
    let (word, behind) = next_word(line);
    let (has_window, numbers, verb) = form(word)?;
    let operands = operands_of(alloc, has_window, numbers, behind)?;
    Some((verb, operands))
}
