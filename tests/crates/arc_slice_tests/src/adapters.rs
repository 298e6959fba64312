//! Small windows compared, hashed, printed, lent, and read from.
use arc_slice::buffer::ByteText;
use arc_slice::inlined::{
    SmallArcByteText, SmallArcBytes, SmallArcSlice, SmallArcStr, SmallByteText, SmallBytes,
    SmallSlice, SmallStr,
};
use bytes::Buf;
use std::alloc::Global;
use std::cmp::Ordering;
use std::convert::{AsSlice, AsStr};
use std::fmt::{self, Debug, Display, LowerHex, UpperHex};
use std::hash::{DefaultHasher, Hash, Hasher};
use std::io::{ErrorKind, Read};
use std::test::Fail;

/// What a hasher says of a value.
fn hash_of<T: Hash>(value: &T) -> u64 {
    let mut state = DefaultHasher::new();
    value.hash(&mut state);
    state.finish()
}

/// Whether two windows over these lists are equal, whether their hashes are, and their order.
fn compared(alloc: Global, one: &[u8], two: &[u8]) -> Option<([bool; 3], Ordering)> {
    let shared: SmallArcBytes = SmallArcSlice::try_from_slice(alloc, one).ok()?;
    let other: SmallArcBytes = SmallArcSlice::try_from_slice(alloc, two).ok()?;
    let is_same_hash = hash_of(&shared) == hash_of(&other);
    Some((
        [shared == other, is_same_hash, shared.eq_slice(two)],
        shared.cmp(&other),
    ))
}

/// The same of two short lists.
fn lists_compared(one: &[u8], two: &[u8]) -> Option<([bool; 3], Ordering)> {
    let one: SmallBytes = SmallSlice::new(one)?;
    let other: SmallBytes = SmallSlice::new(two)?;
    let is_same_hash = hash_of(&one) == hash_of(&other);
    Some((
        [one == other, is_same_hash, one.eq_slice(two)],
        one.cmp(&other),
    ))
}

/// How two short lists compare, and two windows over the same bytes, if they do.
fn orders_of(alloc: Global, one: &[u8], two: &[u8]) -> Option<[Option<Ordering>; 2]> {
    let small: SmallBytes = SmallSlice::new(one)?;
    let other: SmallBytes = SmallSlice::new(two)?;
    let of_lists = small.partial_cmp(&other);
    let window: SmallArcBytes = SmallArcSlice::from(small);
    let other: SmallArcBytes = SmallArcSlice::try_from_slice(alloc, two).ok()?;
    Some([of_lists, window.partial_cmp(&other)])
}

#[test]
fn compared_and_hashed(rt: HostRuntime) -> Result<(), Fail> {
    let same = Some(([true; 3], Ordering::Equal));
    let less = Some(([false; 3], Ordering::Less));
    assert!(rt; compared(rt.alloc(), b"ab", b"ab") == same);
    assert!(rt; compared(rt.alloc(), b"ab", &[b'b'; 40]) == less);
    assert!(rt; lists_compared(b"ab", b"ab") == same);
    assert!(rt; lists_compared(b"ab", b"abc") == less);
    assert!(rt; orders_of(rt.alloc(), b"ab", b"b") == Some([Some(Ordering::Less); 2]));
    Ok(())
}

/// Whether `{:?}` and `{}` of a value are these.
fn prints<T: Debug + Display>(alloc: Global, value: &T, debug: &str, text: &str) -> Option<bool> {
    let debugs = format!(in alloc; "{value:?}").ok()?;
    let displays = format!(in alloc; "{value}").ok()?;
    Some(debugs.as_str() == debug && displays.as_str() == text)
}

/// Whether `{:?}` of a value is this, and it is written so in lower case digits.
fn bytes_print<T: Debug + LowerHex>(
    alloc: Global,
    value: &T,
    debug: &str,
    hex: &str,
) -> Option<bool> {
    let debugs = format!(in alloc; "{value:?}").ok()?;
    let mut out = fmt::Formatter::new(String::new(alloc));
    LowerHex::fmt(value, &mut out).ok()?;
    Some(debugs.as_str() == debug && out.into_inner().as_str() == hex)
}

/// The same of a window and of a short list over these bytes.
fn both_print(alloc: Global, bytes: &[u8], debug: &str, hex: &str) -> Option<[bool; 2]> {
    let window: SmallArcBytes = SmallArcSlice::try_from_slice(alloc, bytes).ok()?;
    let small: SmallBytes = SmallSlice::new(bytes)?;
    Some([
        bytes_print(alloc, &window, debug, hex)?,
        bytes_print(alloc, &small, debug, hex)?,
    ])
}

/// Whether a text prints so as a window, as a short list, and as byte text.
fn text_prints(alloc: Global, text: &str, debug: &str) -> Option<[bool; 3]> {
    let window: SmallArcStr = SmallArcSlice::try_from_str(alloc, text).ok()?;
    let small: SmallStr = SmallSlice::new_str(text)?;
    let bytes: SmallArcByteText = SmallArcSlice::try_from_slice(alloc, text.as_bytes()).ok()?;
    Some([
        prints(alloc, &window, debug, text)?,
        prints(alloc, &small, debug, text)?,
        prints(alloc, &bytes, debug, text)?,
    ])
}

/// The same of a short list of byte text.
fn byte_text_prints(alloc: Global, text: &str, debug: &str) -> Option<bool> {
    let small: SmallByteText = SmallSlice::new(text.as_bytes())?;
    prints(alloc, &small, debug, text)
}

/// Whether a value is written so in upper case digits.
fn in_upper_hex<T: UpperHex>(alloc: Global, value: &T, hex: &str) -> Option<bool> {
    let mut out = fmt::Formatter::new(String::new(alloc));
    UpperHex::fmt(value, &mut out).ok()?;
    Some(out.into_inner().as_str() == hex)
}

/// So a window and a short list over these bytes.
fn both_in_upper_hex(alloc: Global, bytes: &[u8], hex: &str) -> Option<[bool; 2]> {
    let small: SmallBytes = SmallSlice::new(bytes)?;
    let window: SmallArcBytes = SmallArcSlice::try_from_slice(alloc, bytes).ok()?;
    Some([
        in_upper_hex(alloc, &window, hex)?,
        in_upper_hex(alloc, &small, hex)?,
    ])
}

#[test]
fn printed(rt: HostRuntime) -> Result<(), Fail> {
    let told = both_print(rt.alloc(), &[97, 255], "b\"a\\xff\"", "61ff");
    assert!(rt; told == Some([true; 2]));
    assert!(rt; both_in_upper_hex(rt.alloc(), &[97, 255], "61FF") == Some([true; 2]));
    assert!(rt; text_prints(rt.alloc(), "aéb", "\"aéb\"") == Some([true; 3]));
    assert!(rt; byte_text_prints(rt.alloc(), "aéb", "\"aéb\"") == Some(true));
    Ok(())
}

/// A window of three bytes is read into two places, twice: the counts, what came and what is left.
fn read_twice<R: Read>(window: &mut R) -> Option<([usize; 2], [u8; 2])> {
    let mut places = [0; 2];
    let first = window.read(&mut places).ok()?;
    let second = window.read(&mut places).ok()?;
    Some(([first, second], places))
}

/// So a window and a short list over these bytes, and what is left of them.
fn both_read(alloc: Global, bytes: &[u8]) -> Option<[([usize; 2], [u8; 2], usize); 2]> {
    let mut window: SmallArcBytes = SmallArcSlice::try_from_slice(alloc, bytes).ok()?;
    let mut small: SmallBytes = SmallSlice::new(bytes)?;
    let (counts, places) = read_twice(&mut window)?;
    let (short_counts, short_places) = read_twice(&mut small)?;
    Some([
        (counts, places, window.len()),
        (short_counts, short_places, small.len()),
    ])
}

/// A window of three bytes fills two places, and then has too few for them: whether that is said to
/// be the end, and what stands in the places.
fn read_exactly<R: Read>(window: &mut R) -> Option<(bool, [u8; 2])> {
    let mut places = [0; 2];
    window.read_exact(&mut places).ok()?;
    let error = window.read_exact(&mut places).err()?;
    Some((error.kind() == ErrorKind::UnexpectedEof, places))
}

/// So a window over these bytes, and what is left of it.
fn window_read_exactly(alloc: Global, bytes: &[u8]) -> Option<(bool, [u8; 2], usize)> {
    let mut window: SmallArcBytes = SmallArcSlice::try_from_slice(alloc, bytes).ok()?;
    let (is_end, places) = read_exactly(&mut window)?;
    Some((is_end, places, window.len()))
}

/// The same of a short list.
fn list_read_exactly(bytes: &[u8]) -> Option<(bool, [u8; 2], usize)> {
    let mut small: SmallBytes = SmallSlice::new(bytes)?;
    let (is_end, places) = read_exactly(&mut small)?;
    Some((is_end, places, small.len()))
}

/// The first byte off a window and off a short list, and how many bytes are left.
fn firsts(alloc: Global, bytes: &[u8]) -> Option<([u8; 2], [usize; 2])> {
    let mut window: SmallArcBytes = SmallArcSlice::try_from_slice(alloc, bytes).ok()?;
    let mut small: SmallBytes = SmallSlice::new(bytes)?;
    if window.remaining() < 1 || small.remaining() < 1 {
        return None;
    }
    let firsts = [window.get_u8(), small.get_u8()];
    Some((firsts, [window.chunk().len(), small.chunk().len()]))
}

/// A number of two bytes off a window and off a short list of byte text, and how many bytes are
/// left.
fn numbers(alloc: Global, bytes: &[u8]) -> Option<([u16; 2], [usize; 2])> {
    let mut window: SmallArcByteText = SmallArcSlice::try_from_slice(alloc, bytes).ok()?;
    let mut small: SmallSlice<ByteText> = SmallSlice::new(bytes)?;
    if window.remaining() < 2 || small.remaining() < 2 {
        return None;
    }
    let numbers = [window.get_u16(), small.get_u16()];
    Some((numbers, [window.chunk().len(), small.chunk().len()]))
}

/// The sum of a window's bytes by a loop, the greatest that an iterator finds, and how many a slice
/// of it has.
fn lent(alloc: Global, bytes: &[u8]) -> Option<(u64, Option<u8>, usize)> {
    let window: SmallArcBytes = SmallArcSlice::try_from_slice(alloc, bytes).ok()?;
    let mut sum = 0u64;
    for byte in &window {
        sum = sum.wrapping_add(*byte as u64);
    }
    let most = window.iter().copied().max();
    Some((sum, most, AsSlice::as_slice(&window).len()))
}

/// The same of a short list.
fn list_lent(bytes: &[u8]) -> Option<(u64, Option<u8>, usize)> {
    let small: SmallBytes = SmallSlice::new(bytes)?;
    let mut sum = 0u64;
    for byte in &small {
        sum = sum.wrapping_add(*byte as u64);
    }
    let most = small.iter().copied().max();
    Some((sum, most, AsSlice::as_slice(&small).len()))
}

/// Whether a text is lent as text by a short list, and equal to it.
fn short_text_lent(text: &str) -> Option<[bool; 2]> {
    let small: SmallStr = SmallSlice::new_str(text)?;
    Some([AsStr::as_str(&small) == text, small.eq_str(text)])
}

/// The same of a window.
fn text_lent(alloc: Global, text: &str) -> Option<[bool; 2]> {
    let window: SmallArcStr = SmallArcSlice::try_from_str(alloc, text).ok()?;
    Some([AsStr::as_str(&window) == text, window.eq_str(text)])
}

#[test]
fn lent_and_read(rt: HostRuntime) -> Result<(), Fail> {
    let told = ([2, 1], [3, 2], 0);
    assert!(rt; both_read(rt.alloc(), &[1, 2, 3]) == Some([told; 2]));
    assert!(rt; firsts(rt.alloc(), &[1, 2, 9]) == Some(([1; 2], [2; 2])));
    assert!(rt; numbers(rt.alloc(), &[1, 2, 9]) == Some(([0x0102; 2], [1; 2])));
    assert!(rt; lent(rt.alloc(), &[4, 7, 5]) == Some((16, Some(7), 3)));
    assert!(rt; text_lent(rt.alloc(), "aéb") == Some([true; 2]));
    Ok(())
}

#[test]
fn lists_lent_and_read(rt: HostRuntime) -> Result<(), Fail> {
    let told = Some((true, [3, 2], 0));
    assert!(rt; window_read_exactly(rt.alloc(), &[1, 2, 3]) == told);
    assert!(rt; list_read_exactly(&[1, 2, 3]) == told);
    assert!(rt; list_lent(&[4, 7, 5]) == Some((16, Some(7), 3)));
    assert!(rt; short_text_lent("aéb") == Some([true; 2]));
    Ok(())
}
