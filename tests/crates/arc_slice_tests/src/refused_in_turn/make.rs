//! Small windows that are made of what a row says. What went in comes back where memory is refused.
use super::rows::{Make, Reply, back_where};
use super::window::{Heap, Kind, SmallBytes, SmallText, Window};
use arc_slice::layout::AnyBufferLayout;
use std::boxed::BoxedStr;
use std::convert::AsSlice;

/// A window over bytes, or the reply without one.
type Bytes<'a, L> = Result<SmallBytes<'a, L>, Reply>;

/// A window over text, or the reply without one.
type Words<'a, L> = Result<SmallText<'a, L>, Reply>;

/// What was made, or the reply that memory was refused.
fn or_no_memory<W, E: Drop>(made: Result<W, E>) -> Result<W, Reply> {
    match made {
        Ok(window) => Ok(window),
        Err(_) => Err(Reply::NoMemory),
    }
}

/// What was made, or the reply to bytes that came back, which are to be these.
fn or_back<W, I: AsSlice<u8> + Drop>(made: Result<W, I>, wanted: &[u8]) -> Result<W, Reply> {
    match made {
        Ok(window) => Ok(window),
        Err(back) => Err(back_where(back.as_slice() == wanted)),
    }
}

/// A vector of these bytes.
fn vector<'a>(heap: Heap<'a>, text: &str) -> Result<Vec<u8, Heap<'a>>, Reply> {
    or_no_memory(Vec::from_slice(heap, text.as_bytes()))
}

/// A text over a boxed one.
fn of_boxed_str<'a, L: AnyBufferLayout>(heap: Heap<'a>, text: &str) -> Words<'a, L> {
    let boxed = or_no_memory(BoxedStr::from_str(heap, text))?;
    match SmallText::try_from_boxed(heap, boxed) {
        Ok(window) => Ok(window),
        Err(back) => Err(back_where(back.as_str() == text)),
    }
}

/// A window over bytes.
fn bytes<'a, L: AnyBufferLayout>(heap: Heap<'a>, what: Make) -> Bytes<'a, L> {
    match what {
        Make::Slice(text) => or_no_memory(SmallBytes::try_from_slice(heap, text.as_bytes())),
        Make::Array30 => {
            let items = [b'a'; 30];
            or_back(SmallBytes::try_from_array(heap, items), &items)
        }
        Make::Array31 => {
            let items = [b'a'; 31];
            or_back(SmallBytes::try_from_array(heap, items), &items)
        }
        Make::Vec(text) => {
            let bytes = vector(heap, text)?;
            or_back(SmallBytes::try_from_vec(heap, bytes), text.as_bytes())
        }
        Make::Boxed(text) => {
            let bytes = vector(heap, text)?.into_boxed_slice();
            or_back(SmallBytes::try_from_boxed(heap, bytes), text.as_bytes())
        }
        _ => Err(Reply::NoCall),
    }
}

/// A window over text.
fn words<'a, L: AnyBufferLayout>(heap: Heap<'a>, what: Make) -> Words<'a, L> {
    match what {
        Make::Str(text) => or_no_memory(SmallText::try_from_str(heap, text)),
        Make::String(text) => {
            let string = or_no_memory(String::from_str(heap, text))?;
            or_back(SmallText::try_from_vec(heap, string), text.as_bytes())
        }
        Make::BoxedStr(text) => of_boxed_str(heap, text),
        _ => Err(Reply::NoCall),
    }
}

/// The window that a call makes.
pub fn make<'a, L: AnyBufferLayout>(heap: Heap<'a>, what: Make) -> Result<Window<'a, L>, Reply> {
    match what {
        Make::Str(_) | Make::String(_) | Make::BoxedStr(_) => Ok(Kind::Text(words(heap, what)?)),
        _ => Ok(Kind::Bytes(bytes(heap, what)?)),
    }
}
