//! Traits over 1,000 bytes: printed, and as digits.
use crate::keep::{Keep, chosen};
use crate::{Usual, Words};
use arc_slice::ArcBytes;
use std::fmt::Write;

/// How many bytes there are.
const LEN: usize = 1000;

/// How many places the text has: four a byte, and those of the quotes.
const PLACES: usize = 4_100;

/// Runs an operation so often, and answers whether all was done.
pub fn run(words: &Words) -> Option<()> {
    // Each byte about as often as another: so of each class that `{:?}` writes in a way of its own.
    let mixed: Vec<u8> = (0..LEN).map(|i| (i % 256) as u8).collect();
    let window: ArcBytes<Usual> = ArcBytes::try_from_slice(&mixed).ok()?;
    let keep = chosen::<ArcBytes<Usual>>(words.count);
    match words.operation.as_str() {
        "debug" => debug(&window, words.count, keep),
        "hex" => hex(&window, words.count, keep),
        _ => None,
    }
}

/// By `{:?}`, into a text that is there.
#[inline(never)]
fn debug(window: &ArcBytes<Usual>, count: usize, keep: &dyn Keep<ArcBytes<Usual>>) -> Option<()> {
    let mut text = String::with_capacity(PLACES);
    for _ in 0..count {
        text.clear();
        write!(text, "{window:?}").ok()?;
        keep.number(text.len());
    }
    Some(())
}

/// By two hexadecimal digits a byte, into a text that is there.
#[inline(never)]
fn hex(window: &ArcBytes<Usual>, count: usize, keep: &dyn Keep<ArcBytes<Usual>>) -> Option<()> {
    let mut text = String::with_capacity(PLACES);
    for _ in 0..count {
        text.clear();
        write!(text, "{window:x}").ok()?;
        keep.number(text.len());
    }
    Some(())
}
