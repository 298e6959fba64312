//! Write windows printed, lent, read from and written to, those of one of several writers too.
use crate::printing::{in_lower_hex, in_upper_hex, is_text};
use crate::reader_adapters::hash_of;
use crate::reading::two_read_twice;
use arc_block::layout::DefaultLayoutMut;
use arc_buffer::kinds::{ByteText, Plain};
use arc_write::slice_mut::{ArcBytesMut, ArcBytesShared, ArcSliceMut, ArcStrMut, ArcStrShared};
use bytes::{Buf, BufMut};
use std::alloc::Global;
use std::cmp::Ordering;
use std::convert::{AsSlice, AsStr};
use std::fmt::{Debug, Display, LowerHex, UpperHex};
use std::hash::Hash;
use std::io::{ErrorKind, Read, Write};
use std::test::Fail;
use std::{fmt, io};

/// A window of these bytes, with so many places.
fn with_places(alloc: Global, places: usize, bytes: &[u8]) -> Option<ArcBytesMut> {
    let mut window: ArcBytesMut = ArcSliceMut::try_with_capacity(alloc, places).ok()?;
    window.try_extend_from_slice(bytes).ok()?;
    Some(window)
}

/// The same, as those of one of several writers.
fn shared_with_places(alloc: Global, places: usize, bytes: &[u8]) -> Option<ArcBytesShared> {
    with_places(alloc, places, bytes)?.into_shared().ok()
}

/// Five bytes are written to a window of three that has four places, twice: the counts, the places
/// left, and whether the first is there.
fn written_twice<W: Write + BufMut + AsSlice<u8> + Drop>(
    mut window: W,
) -> Option<([usize; 2], usize, bool)> {
    let first = io::Write::write(&mut window, &[4, 5, 6, 7, 8]).ok()?;
    let second = io::Write::write(&mut window, &[4, 5, 6, 7, 8]).ok()?;
    window.flush().ok()?;
    let is_kept = window.as_slice() == [1, 2, 3, 4].as_slice();
    Some(([first, second], window.remaining_mut(), is_kept))
}

/// Two bytes are written to a window of three that has six places, and then two more, of which one
/// fits: whether the error is of kind `WriteZero`, the places left after each, and whether what
/// fits is there.
fn written_whole<W: Write + BufMut + AsSlice<u8> + Drop>(
    mut window: W,
) -> Option<(bool, [usize; 2], bool)> {
    window.write_all(&[4, 5]).ok()?;
    let left = window.remaining_mut();
    let error = window.write_all(&[6, 7]).err()?;
    let is_kept = window.as_slice() == [1, 2, 3, 4, 5, 6].as_slice();
    let is_zero = error.kind() == ErrorKind::WriteZero;
    Some((is_zero, [left, window.remaining_mut()], is_kept))
}

/// Puts into a window of one byte that has eight places: which were taken, how many places are left
/// after each, and whether the bytes are there.
fn puts<W: BufMut + AsSlice<u8> + Drop>(mut window: W) -> ([bool; 5], [usize; 4], bool) {
    let one = window.put_u16(0x0203).is_ok();
    let places = window.remaining_mut();
    let two = window.put_bytes(9, 3).is_ok();
    let fewer = window.remaining_mut();
    let three = window.put_u32(5).is_ok();
    let same = window.remaining_mut();
    let four = window.reserve(3).is_ok();
    let five = window.put_slice(&[7, 8]).is_ok();
    let none = window.remaining_mut();
    let last = window.put_u8(1).is_ok();
    let is_there = window.as_slice() == [1, 2, 3, 9, 9, 9, 7, 8].as_slice();
    (
        [one, two, three, four, five],
        [places, fewer, same, none],
        is_there && !last,
    )
}

/// The same of byte text.
fn byte_text_put(alloc: Global) -> Option<([bool; 2], usize)> {
    let mut window: ArcSliceMut<ByteText, DefaultLayoutMut, 1> = ArcSliceMut::try_with_capacity(
        alloc, 2,
    ).ok()?;
    let one = window.put_slice(b"ab").is_ok();
    let two = window.put_slice(b"c").is_ok();
    Some(([one, two], window.len()))
}

/// A window of five bytes that has eight places is read from by a number, by a cut and into two
/// places: the number, the count, what the places hold, the length and the places left.
fn read_from<W: Buf + BufMut + Read + Drop>(
    mut window: W,
) -> Option<(u16, usize, [u8; 2], [usize; 2])> {
    if window.remaining() < 3 {
        return None;
    }
    let number = window.get_u16();
    Buf::advance(&mut window, 1);
    let mut places = [0; 2];
    let count = window.read(&mut places).ok()?;
    Some((
        number,
        count,
        places,
        [window.remaining(), window.remaining_mut()],
    ))
}

/// The first byte that is read, and how many are left.
fn first_byte<W: Buf + Drop>(mut window: W) -> Option<(u8, usize)> {
    if window.remaining() < 1 {
        return None;
    }
    let byte = window.get_u8();
    Some((byte, window.remaining()))
}

/// Whether a writer takes this text and a number.
fn formats<W: fmt::Write>(out: &mut W, text: &str, number: u32) -> bool {
    write!(out, "{text}-{number}").is_ok()
}

/// What each kind of window holds behind a formatted text.
fn formatted(alloc: Global, text: &str, number: u32, whole: &str) -> Option<[bool; 3]> {
    let mut bytes: ArcBytesMut = ArcSliceMut::new(alloc);
    let mut str: ArcStrMut = ArcSliceMut::new(alloc);
    let mut byte_text: ArcSliceMut<ByteText, DefaultLayoutMut, 1> = ArcSliceMut::new(alloc);
    let one = formats(&mut bytes, text, number) && bytes.eq_slice(whole.as_bytes());
    let two = formats(&mut str, text, number) && str.eq_str(whole);
    let three = formats(&mut byte_text, text, number) && byte_text.eq_slice(whole.as_bytes());
    Some([one, two, three])
}

/// What both roles are asked that are written to.
fn is_written_to<W: Write + BufMut + AsSlice<u8> + Drop>(
    four: Option<W>,
    six: Option<W>,
    eight: Option<W>,
) -> Option<[bool; 3]> {
    let told = ([true, true, false, false, true], [5, 2, 2, 0], true);
    Some([
        written_twice(four?) == Some(([1, 0], 0, true)),
        written_whole(six?) == Some((true, [1, 0], true)),
        puts(eight?) == told,
    ])
}

#[test]
fn written_to(rt: HostRuntime) -> Result<(), Fail> {
    let alloc = rt.alloc();
    let [four, six, eight] = [4, 6, 8];
    let sole = is_written_to(
        with_places(alloc, four, &[1, 2, 3]),
        with_places(alloc, six, &[1, 2, 3]),
        with_places(alloc, eight, &[1]),
    );
    assert!(rt; sole == Some([true; 3]));
    let several = is_written_to(
        shared_with_places(alloc, four, &[1, 2, 3]),
        shared_with_places(alloc, six, &[1, 2, 3]),
        shared_with_places(alloc, eight, &[1]),
    );
    assert!(rt; several == Some([true; 3]));
    assert!(rt; byte_text_put(alloc) == Some(([true, false], 2)));
    assert!(rt; formatted(alloc, "aé", 12, "aé-12") == Some([true; 3]));
    Ok(())
}

/// Whether a window prints so on lines of its own, and in digits of either case.
fn bytes_print<W: Debug + LowerHex + UpperHex>(
    alloc: Global,
    window: &W,
    debug: &str,
    digits: [&str; 2],
) -> Option<[bool; 3]> {
    Some([
        is_text(format!(in alloc; "{window:#?}"), debug)?,
        in_lower_hex(alloc, window, digits[0])?,
        in_upper_hex(alloc, window, digits[1])?,
    ])
}

/// Whether a window prints so, and in a column of five so.
fn text_prints<W: Display>(alloc: Global, window: &W, text: &str, wide: &str) -> Option<[bool; 2]> {
    Some([
        is_text(format!(in alloc; "{window}"), text)?,
        is_text(format!(in alloc; "{window:>5}"), wide)?,
    ])
}

/// The numbers of a window, after the first was changed: their sum by a loop, and what is lent.
fn lent(alloc: Global, numbers: &[u32]) -> Option<(u64, usize)> {
    let mut window: ArcSliceMut<Plain<u32>, DefaultLayoutMut, 1> = ArcSliceMut::try_from_slice(
        alloc, numbers,
    ).ok()?;
    if let Some(first) = window.get_mut(0) {
        *first = 10;
    }
    let mut sum = 0u64;
    for number in &window {
        sum = sum.wrapping_add(*number as u64);
    }
    Some((sum, AsSlice::as_slice(&window).len()))
}

/// The same of one of several writers, whose first place is changed by way of all.
fn lent_by_one_of_several(alloc: Global, numbers: &[u32]) -> Option<(u64, usize)> {
    let window: ArcSliceMut<Plain<u32>, DefaultLayoutMut, 1> = ArcSliceMut::try_from_slice(
        alloc, numbers,
    ).ok()?;
    let mut window = window.into_shared().ok()?;
    if let Some(first) = window.get_mut(0) {
        *first = 10;
    }
    let mut sum = 0u64;
    for number in &window {
        sum = sum.wrapping_add(*number as u64);
    }
    Some((sum, AsSlice::as_slice(&window).len()))
}

/// What both roles are asked that are read from: a window of five bytes with eight places, and one
/// of three with four.
fn is_read_from<W: Buf + BufMut + Read + AsSlice<u8> + Drop>(
    five: Option<W>,
    three: Option<W>,
) -> Option<bool> {
    let is_read = read_from(five?) == Some((0x0102, 2, [4, 5], [0, 3]));
    Some(is_read && two_read_twice(&mut three?) == Some((true, [3, 2], [1, 0])))
}

#[test]
fn read_from_both_roles(rt: HostRuntime) -> Result<(), Fail> {
    let alloc = rt.alloc();
    let sole = is_read_from(
        with_places(alloc, 8, &[1, 2, 3, 4, 5]),
        with_places(alloc, 4, &[1, 2, 3]),
    );
    assert!(rt; sole == Some(true));
    let several = is_read_from(
        shared_with_places(alloc, 8, &[1, 2, 3, 4, 5]),
        shared_with_places(alloc, 4, &[1, 2, 3]),
    );
    assert!(rt; several == Some(true));
    assert!(rt; lent(alloc, &[1, 2, 3]) == Some((15, 3)));
    assert!(rt; lent_by_one_of_several(alloc, &[1, 2, 3]) == Some((15, 3)));
    Ok(())
}

/// Byte text that one of several writers has.
fn shared_byte_text(
    alloc: Global,
    bytes: &[u8],
) -> Option<ArcSliceMut<ByteText, DefaultLayoutMut, 0>> {
    let window: ArcSliceMut<ByteText, DefaultLayoutMut, 1> = ArcSliceMut::try_from_slice(
        alloc, bytes,
    ).ok()?;
    window.into_shared().ok()
}

/// Whether byte text prints in both roles, and its first byte is read.
fn byte_text_prints(alloc: Global, bytes: &[u8], text: &str, wide: &str) -> Option<[bool; 6]> {
    let sole: ArcSliceMut<ByteText, DefaultLayoutMut, 1> = ArcSliceMut::try_from_slice(
        alloc, bytes,
    ).ok()?;
    let several = shared_byte_text(alloc, bytes)?;
    let [one, two] = text_prints(alloc, &sole, text, wide)?;
    let [three, four] = text_prints(alloc, &several, text, wide)?;
    let told = Some((*bytes.first()?, bytes.len() - 1));
    Some([
        one,
        two,
        three,
        four,
        first_byte(sole) == told,
        first_byte(several) == told,
    ])
}

/// Whether text prints in both roles, and is lent.
fn both_texts_print(alloc: Global, text: &str, wide: &str) -> Option<[bool; 6]> {
    let sole: ArcStrMut = ArcSliceMut::try_from_str(alloc, text).ok()?;
    let [one, two] = text_prints(alloc, &sole, text, wide)?;
    let is_lent = AsStr::as_str(&sole) == text;
    let several: ArcStrShared = sole.into_shared().ok()?;
    let [three, four] = text_prints(alloc, &several, text, wide)?;
    let is_lent_by_several = AsStr::as_str(&several) == text;
    Some([one, two, three, four, is_lent, is_lent_by_several])
}

#[test]
fn printed_in_both_roles(rt: HostRuntime) -> Result<(), Fail> {
    let alloc = rt.alloc();
    let digits = ["61270a00", "61270A00"];
    let debug = "b\"a\\'\\n\\x00\"";
    let sole = with_places(alloc, 9, &[97, 39, 10, 0]);
    let told = sole.and_then(|window| bytes_print(alloc, &window, debug, digits));
    assert!(rt; told == Some([true; 3]));
    let several = shared_with_places(alloc, 9, &[97, 39, 10, 0]);
    let told = several.and_then(|window| bytes_print(alloc, &window, debug, digits));
    assert!(rt; told == Some([true; 3]));
    let told = byte_text_prints(alloc, b"a\xff", "a\u{fffd}", "   a\u{fffd}");
    assert!(rt; told == Some([true; 6]));
    assert!(rt; both_texts_print(alloc, "aé\n", "  aé\n") == Some([true; 6]));
    Ok(())
}

/// How a window compares with another and with itself, and whether what a hasher says of it is what
/// it says of the slice.
fn compared<W: Ord + Hash>(one: &W, two: &W, slice: &[u8]) -> (Option<Ordering>, bool, bool) {
    let is_equal = one == one && one != two;
    (
        one.partial_cmp(two),
        is_equal,
        hash_of(one) == hash_of(&slice),
    )
}

/// The same of windows over these bytes, in both roles.
fn compared_in_both_roles(
    alloc: Global,
    one: &[u8],
    two: &[u8],
) -> Option<[(Option<Ordering>, bool, bool); 2]> {
    let sole = with_places(alloc, 4, one)?;
    let several = shared_with_places(alloc, 4, one)?;
    Some([
        compared(&sole, &with_places(alloc, 8, two)?, one),
        compared(&several, &shared_with_places(alloc, 8, two)?, one),
    ])
}

#[test]
fn compared_and_hashed(rt: HostRuntime) -> Result<(), Fail> {
    let told = compared_in_both_roles(rt.alloc(), b"ab", b"b");
    assert!(rt; told == Some([(Some(Ordering::Less), true, true); 2]));
    Ok(())
}
