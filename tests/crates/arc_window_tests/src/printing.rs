//! Whether a value prints so.
use std::alloc::Global;
use std::fmt::{self, LowerHex, UpperHex};

/// Whether what was printed is this text, if there was memory for it.
pub fn is_text<E: Drop>(printed: Result<String, E>, text: &str) -> Option<bool> {
    Some(printed.ok()?.as_str() == text)
}

/// In lower case digits.
pub fn in_lower_hex<T: LowerHex>(alloc: Global, value: &T, text: &str) -> Option<bool> {
    let mut out = fmt::Formatter::new(String::new(alloc));
    LowerHex::fmt(value, &mut out).ok()?;
    Some(out.into_inner().as_str() == text)
}

/// In upper case digits.
pub fn in_upper_hex<T: UpperHex>(alloc: Global, value: &T, text: &str) -> Option<bool> {
    let mut out = fmt::Formatter::new(String::new(alloc));
    UpperHex::fmt(value, &mut out).ok()?;
    Some(out.into_inner().as_str() == text)
}
