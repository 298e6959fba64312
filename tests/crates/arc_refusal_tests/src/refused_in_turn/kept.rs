//! Calls that keep what they had taken when memory is refused; text; and what is printed.
use super::window::{Heap, Writer};
use arc_block::layout::{DefaultLayout, DefaultLayoutMut};
use arc_buffer::kinds::Plain;
use arc_owners::error::TryReserveError;
use arc_read::slice::ArcSlice;
use arc_write::slice_mut::ArcStrMut;
use std::fmt::{self, Debug, LowerHex, Write};
use std::ops::Range;

/// A window that writes text, whose memory a heap counts.
type Text<'a> = ArcStrMut<DefaultLayoutMut, Vec<u8>, (), Heap<'a>>;

/// A window of bytes that are read, whose memory a heap counts.
type Bytes<'a> = ArcSlice<Plain<u8>, DefaultLayout, Vec<u8>, (), Heap<'a>>;

/// Calls that take items one by one, and text.
#[derive(Clone, Copy)]
pub enum Taking {
    /// An iterator's items behind those that are there.
    Extended,
    /// A window of an iterator's items.
    FromIter,
    /// Parts of a text, one after the other.
    Formatted,
    /// A text behind another.
    Text,
    /// Bytes as a text.
    Printed,
}

/// All of them.
pub const TAKINGS: &[Taking] = &[
    Taking::Extended,
    Taking::FromIter,
    Taking::Formatted,
    Taking::Text,
    Taking::Printed,
];

/// What comes: more than two blocks of a window that grows hold.
const COMING: [u8; 20] = [
    1, 2, 3, 4, 5, 6, 7, 8, 9, 10, 11, 12, 13, 14, 15, 16, 17, 18, 19, 20,
];

/// Whether a window has what came before an item that is refused for want of memory, and takes the
/// rest, with the item first.
fn takes_rest(window: &mut Writer<'_, DefaultLayoutMut>, e: TryReserveError, item: u8) -> bool {
    let taken = window.len();
    if COMING.get(taken) != Some(&item) {
        return false;
    }
    if window.as_slice() != &COMING[..taken] {
        return false;
    }
    let is_taken = window.try_extend(COMING[taken..].iter().copied()).is_ok();
    (is_taken, e) == (true, TryReserveError::AllocError)
}

/// Whether a window has all that came, in the third block.
fn has_all(window: &Writer<'_, DefaultLayoutMut>) -> bool {
    (window.as_slice(), window.capacity()) == (COMING.as_slice(), 32)
}

/// Whether a window takes the item that was refused for want of memory, and then what the iterator
/// still brings.
fn goes_on(
    window: &mut Writer<'_, DefaultLayoutMut>,
    e: TryReserveError,
    item: u8,
    coming: Range<u8>,
) -> bool {
    let is_taken = window.try_push(item).is_ok();
    let are_taken = window.try_extend(coming).is_ok();
    (e, is_taken, are_taken) == (TryReserveError::AllocError, true, true)
}

/// No item is asked for behind the one that is refused.
fn extended(heap: Heap<'_>) -> bool {
    let mut window = Writer::<DefaultLayoutMut>::new(heap);
    let mut coming = 1..21u8;
    match window.try_extend(&mut coming) {
        Ok(()) => has_all(&window),
        Err((e, item)) => goes_on(&mut window, e, item, coming) & has_all(&window),
    }
}

fn from_iter(heap: Heap<'_>) -> bool {
    match Writer::<DefaultLayoutMut>::try_from_iter(heap, COMING.iter().copied()) {
        Ok(window) => has_all(&window),
        Err((window, e, item)) => {
            let mut window = window;
            takes_rest(&mut window, e, item) & has_all(&window)
        }
    }
}

/// Whether a text in two parts is written. Where memory for the second one is refused the first
/// one is kept, and the second one can be written again.
fn formats(text: &mut Text<'_>) -> bool {
    let (front, back) = ("ab", "cdefghijk");
    if write!(text, "{front}{back}").is_ok() {
        return text.eq_str("abcdefghijk");
    }
    let rest = match text.len() {
        0 => "abcdefghijk",
        2 => "cdefghijk",
        _ => return false,
    };
    text.write_str(rest).is_ok() && text.eq_str("abcdefghijk")
}

fn formatted(heap: Heap<'_>) -> bool {
    let mut text = Text::new(heap);
    formats(&mut text)
}

/// A window of this text; where memory is refused it is asked for again.
fn text_of<'a>(heap: Heap<'a>, text: &str) -> Option<Text<'a>> {
    match Text::try_from_str(heap, text) {
        Ok(window) => Some(window),
        Err(_) => Text::try_from_str(heap, text).ok(),
    }
}

/// Whether a text grows by another one. Where memory is refused it has neither more text nor more
/// places.
fn grows(text: &mut Text<'_>) -> bool {
    match text.try_extend_from_str("b") {
        Ok(()) => text.eq_str("aéb"),
        Err(e) => {
            let is_kept = (e, text.capacity()) == (TryReserveError::AllocError, 3);
            let is_same = text.eq_str("aé");
            let is_written = text.try_extend_from_str("b").is_ok();
            (is_kept, is_same, is_written, text.as_str()) == (true, true, true, "aéb")
        }
    }
}

fn text(heap: Heap<'_>) -> Option<bool> {
    let mut text = text_of(heap, "aé")?;
    Some(grows(&mut text))
}

/// Whether two bytes are written in hexadecimal digits and then as a byte string; nothing where
/// memory for the text is refused.
fn as_text(heap: Heap<'_>, window: &Bytes<'_>) -> Option<bool> {
    let mut out = fmt::Formatter::new(String::new(heap));
    LowerHex::fmt(window, &mut out).ok()?;
    Debug::fmt(window, &mut out).ok()?;
    Some(out.into_inner().as_str() == "0affb\"\\n\\xff\"")
}

/// Whether bytes are printed. Where memory for the text is refused the window is as before, and is
/// printed again.
fn printed(heap: Heap<'_>) -> Option<bool> {
    let bytes = [10, 255];
    let window = match Bytes::try_from_slice(heap, &bytes) {
        Ok(window) => window,
        Err(_) => Bytes::try_from_slice(heap, &bytes).ok()?,
    };
    let is_written = match as_text(heap, &window) {
        Some(is_written) => is_written,
        None => as_text(heap, &window)?,
    };
    Some((is_written, window.as_slice()) == (true, bytes.as_slice()))
}

/// Whether a call takes all that comes.
pub fn takes(heap: Heap<'_>, taking: Taking) -> Option<bool> {
    match taking {
        Taking::Extended => Some(extended(heap)),
        Taking::FromIter => Some(from_iter(heap)),
        Taking::Formatted => Some(formatted(heap)),
        Taking::Text => text(heap),
        Taking::Printed => printed(heap),
    }
}
