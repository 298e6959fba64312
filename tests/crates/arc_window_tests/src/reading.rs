//! What a window is read by.
use std::convert::AsSlice;
use std::io::{ErrorKind, Read};

/// Fills two places from a window, and then has too few bytes for them: whether that is said to be
/// the end, what stands in the places, and what is left after each.
pub fn two_read_twice<W: Read + AsSlice<u8>>(
    window: &mut W,
) -> Option<(bool, [u8; 2], [usize; 2])> {
    let mut places = [0; 2];
    window.read_exact(&mut places).ok()?;
    let left = window.as_slice().len();
    let error = window.read_exact(&mut places).err()?;
    let is_end = error.kind() == ErrorKind::UnexpectedEof;
    Some((is_end, places, [left, window.as_slice().len()]))
}
