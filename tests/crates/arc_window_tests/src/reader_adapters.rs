//! Read windows compared, hashed, printed, lent, and read from.
use crate::printing::{in_lower_hex, in_upper_hex, is_text};
use crate::reading::two_read_twice;
use crate::standing::{Bytes, Sort, standing};
use arc_block::layout::{ArcLayout, BoxedSliceLayout, DefaultLayout, Layout, RawLayout, VecLayout};
use arc_buffer::kinds::{ByteText, CopySlice, DebugSlice, Plain, Text};
use arc_read::slice::ArcSlice;
use bytes::Buf;
use std::alloc::Global;
use std::cmp::Ordering;
use std::collections::{BTreeMap, HashMap};
use std::convert::{AsSlice, AsStr};
use std::hash::{DefaultHasher, Hash, Hasher};
use std::io::Read;
use std::sync::Wait;
use std::test::Fail;

/// Whether a window over these bytes is written so, in lower case digits and in upper case ones.
fn in_hex(alloc: Global, bytes: &[u8], lower: &str, upper: &str) -> Option<[bool; 2]> {
    let window: ArcSlice<Plain<u8>> = ArcSlice::try_from_slice(alloc, bytes).ok()?;
    Some([
        in_lower_hex(alloc, &window, lower)?,
        in_upper_hex(alloc, &window, upper)?,
    ])
}

/// Whether `{:?}` of a window over these items is this text.
fn items_debug<S: CopySlice + DebugSlice>(
    alloc: Global,
    items: &[S::Item],
    text: &str,
) -> Option<bool>
where
    S::Item: Copy,
{
    let window: ArcSlice<S> = ArcSlice::try_from_slice(alloc, items).ok()?;
    is_text(format!(in alloc; "{window:?}"), text)
}

/// Whether `{:?}` of windows over numbers of each other width is right.
fn numbers_debug(alloc: Global) -> [Option<bool>; 8] {
    [
        items_debug::<Plain<u64>>(alloc, &[1], "[1]"),
        items_debug::<Plain<u128>>(alloc, &[1], "[1]"),
        items_debug::<Plain<usize>>(alloc, &[1], "[1]"),
        items_debug::<Plain<i8>>(alloc, &[-1], "[-1]"),
        items_debug::<Plain<i16>>(alloc, &[-1], "[-1]"),
        items_debug::<Plain<i32>>(alloc, &[-1], "[-1]"),
        items_debug::<Plain<i128>>(alloc, &[-1], "[-1]"),
        items_debug::<Plain<isize>>(alloc, &[-1], "[-1]"),
    ]
}

/// The same of floats, arrays and pairs.
fn others_debug(alloc: Global) -> [Option<bool>; 4] {
    [
        items_debug::<Plain<f32>>(alloc, &[1.5], "[1.5]"),
        items_debug::<Plain<f64>>(alloc, &[1.5], "[1.5]"),
        items_debug::<Plain<[u8; 2]>>(alloc, &[[1, 2]], "[[1, 2]]"),
        items_debug::<Plain<(u8, bool)>>(alloc, &[(1, true)], "[(1, true)]"),
    ]
}

/// The same of items that borrow.
fn borrowing_debug(alloc: Global) -> [Option<bool>; 2] {
    [
        items_debug::<Plain<&u8>>(alloc, &[&7], "[7]"),
        items_debug::<Plain<&str>>(alloc, &["ab"], "[\"ab\"]"),
    ]
}

/// Whether `{}` and `{}` in a column of a window over this text are these.
fn text_prints(alloc: Global, text: &str, wide: &str) -> Option<[bool; 2]> {
    let window: ArcSlice<Text> = ArcSlice::try_from_str(alloc, text).ok()?;
    Some([
        is_text(format!(in alloc; "{window}"), text)?,
        is_text(format!(in alloc; "{window:>5}"), wide)?,
    ])
}

/// Whether `{:?}` of the second and third of three bytes, which are borrowed, is this text.
fn part_prints(alloc: Global, text: &str) -> Option<bool> {
    let window: ArcSlice<Plain<u8>> = ArcSlice::try_from_slice(alloc, b"abc").ok()?;
    let part = window.borrow(1, 3);
    is_text(format!(in alloc; "{part:?}"), text)
}

/// Whether `{}` of a window over this byte text is that text, and in columns of five, without and
/// with an alignment, these.
fn byte_text_prints(alloc: Global, bytes: &[u8], texts: [&str; 4]) -> Option<[bool; 4]> {
    let window: ArcSlice<ByteText> = ArcSlice::try_from_slice(alloc, bytes).ok()?;
    Some([
        is_text(format!(in alloc; "{window}"), texts[0])?,
        is_text(format!(in alloc; "{window:5}"), texts[1])?,
        is_text(format!(in alloc; "{window:>5}"), texts[2])?,
        is_text(format!(in alloc; "{window:-^5}"), texts[3])?,
    ])
}

/// What a hasher says of a value.
pub fn hash_of<T: Hash>(value: &T) -> u64 {
    let mut state = DefaultHasher::new();
    value.hash(&mut state);
    state.finish()
}

/// What a hasher says of a window over these bytes under a layout.
fn hash_under<L: Layout>(alloc: Global, bytes: &[u8]) -> Option<u64> {
    let window: ArcSlice<Plain<u8>, L> = ArcSlice::try_from_slice(alloc, bytes).ok()?;
    Some(hash_of(&window))
}

/// Whether a window over text lends it, and is equal to it.
fn text_lent(alloc: Global, text: &str) -> Option<[bool; 2]> {
    let window: ArcSlice<Text> = ArcSlice::try_from_str(alloc, text).ok()?;
    Some([AsStr::as_str(&window) == text, window.eq_str(text)])
}

/// Whether what is borrowed of a text, from its first byte to this one, lends this.
fn front_lent(alloc: Global, text: &str, end: usize, front: &str) -> Option<bool> {
    let window: ArcSlice<Text> = ArcSlice::try_from_str(alloc, text).ok()?;
    if window.check_range(0, end).is_err() {
        return None;
    }
    Some(window.borrow(0, end).as_str() == front)
}

/// A window of three bytes is read into two places, three times: the counts, what came and what is
/// left.
fn read_thrice(alloc: Global) -> Option<([usize; 3], [u8; 2], [usize; 3])> {
    let mut window: ArcSlice<Plain<u8>> = ArcSlice::try_from_slice(alloc, &[1, 2, 3]).ok()?;
    let mut places = [0; 2];
    let first = window.read(&mut places).ok()?;
    let left = window.len();
    let second = window.read(&mut places).ok()?;
    let after = window.len();
    let third = window.read(&mut places).ok()?;
    Some(([first, second, third], places, [left, after, window.len()]))
}

/// A window of three bytes fills two places, and then has too few for them.
fn read_exactly(alloc: Global) -> Option<(bool, [u8; 2], [usize; 2])> {
    let mut window: ArcSlice<Plain<u8>> = ArcSlice::try_from_slice(alloc, &[1, 2, 3]).ok()?;
    two_read_twice(&mut window)
}

/// Two numbers of two bytes each, and a byte that is passed over between them; what is left.
fn numbers(alloc: Global, bytes: &[u8]) -> Option<([u16; 2], usize)> {
    let mut window: ArcSlice<Plain<u8>> = ArcSlice::try_from_slice(alloc, bytes).ok()?;
    if window.remaining() < 5 {
        return None;
    }
    let first = window.get_u16();
    Buf::advance(&mut window, 1);
    let second = window.get_u16();
    Some(([first, second], window.chunk().len()))
}

/// The same of byte text, whose first byte is read.
fn first_byte(alloc: Global, bytes: &[u8]) -> Option<(u8, usize)> {
    let mut window: ArcSlice<ByteText> = ArcSlice::try_from_slice(alloc, bytes).ok()?;
    if window.remaining() < 1 {
        return None;
    }
    let byte = window.get_u8();
    Some((byte, window.chunk().len()))
}

#[test]
fn read_from(rt: HostRuntime) -> Result<(), Fail> {
    assert!(rt; read_thrice(rt.alloc()) == Some(([2, 1, 0], [3, 2], [1, 0, 0])));
    assert!(rt; read_exactly(rt.alloc()) == Some((true, [3, 2], [1, 0])));
    let told = numbers(rt.alloc(), &[1, 2, 9, 3, 4, 5]);
    assert!(rt; told == Some(([0x0102, 0x0304], 1)));
    assert!(rt; numbers(rt.alloc(), &[1, 2, 9, 3]) == None);
    assert!(rt; first_byte(rt.alloc(), b"ab") == Some((97, 1)));
    Ok(())
}

/// Of a window over these numbers: their sum by a loop, the second of them, how many are lent, and
/// the greatest that an iterator finds.
fn lent(alloc: Global, numbers: &[u32]) -> Option<(u64, [Option<u32>; 2], usize)> {
    let window: ArcSlice<Plain<u32>> = ArcSlice::try_from_slice(alloc, numbers).ok()?;
    let mut sum = 0u64;
    for number in &window {
        sum = sum.wrapping_add(*number as u64);
    }
    let second = window.get(1).copied();
    let most = window.iter().copied().max();
    Some((sum, [second, most], AsSlice::as_slice(&window).len()))
}

/// A window that is a key.
type Key = ArcSlice<Plain<u8>>;

/// How two windows over these bytes compare, if they do.
fn order_of(alloc: Global, one: &[u8], two: &[u8]) -> Option<Option<Ordering>> {
    let one = Key::try_from_slice(alloc, one).ok()?;
    let two = Key::try_from_slice(alloc, two).ok()?;
    Some(one.partial_cmp(&two))
}

/// What an ordered map has under one window, that has a number under the other.
fn ordered(alloc: Global, key: Key, asked: &Key) -> Option<Option<u32>> {
    let mut map = BTreeMap::new(alloc);
    map.insert(key, 5u32).ok()?;
    Some(map.get(asked).copied())
}

/// The same of a map of hashes.
fn hashed(alloc: Global, key: Key, asked: &Key) -> Option<Option<u32>> {
    let mut map = HashMap::new(alloc);
    map.insert(key, 6u32).ok()?;
    Some(map.get(asked).copied())
}

/// What two maps have under a window of this text, where they have a number under that one.
fn looked_up(alloc: Global, key: &[u8], asked: &[u8]) -> Option<[Option<u32>; 2]> {
    let asked: Key = ArcSlice::try_from_slice(alloc, asked).ok()?;
    Some([
        ordered(alloc, ArcSlice::try_from_slice(alloc, key).ok()?, &asked)?,
        hashed(alloc, ArcSlice::try_from_slice(alloc, key).ok()?, &asked)?,
    ])
}

/// What a caller's struct gets of a window in it.
#[derive(Debug, PartialEq, Eq, PartialOrd, Ord, Hash, Drop)]
struct Frame {
    number: u8,
    body: ArcSlice<Plain<u8>>,
}

/// Two frames: whether they are equal, whether their hashes are, and whether the first prints so.
fn frames(alloc: Global, one: &[u8], two: &[u8], text: &str) -> Option<[bool; 3]> {
    let one = Frame {
        number: 1,
        body: ArcSlice::try_from_slice(alloc, one).ok()?,
    };
    let two = Frame {
        number: 1,
        body: ArcSlice::try_from_slice(alloc, two).ok()?,
    };
    Some([
        one == two,
        hash_of(&one) == hash_of(&two),
        is_text(format!(in alloc; "{one:?}"), text)?,
    ])
}

#[test]
fn compared_and_lent(rt: HostRuntime) -> Result<(), Fail> {
    let hash = hash_under::<DefaultLayout>(rt.alloc(), b"abc");
    let told = [
        hash_under::<ArcLayout<false, false>>(rt.alloc(), b"abc"),
        hash_under::<BoxedSliceLayout>(rt.alloc(), b"abc"),
        hash_under::<VecLayout>(rt.alloc(), b"abc"),
        hash_under::<RawLayout>(rt.alloc(), b"abc"),
    ];
    assert!(rt; hash.is_some() && told == [hash; 4]);
    assert!(rt; text_lent(rt.alloc(), "aéb") == Some([true; 2]));
    assert!(rt; front_lent(rt.alloc(), "aéb", 3, "aé") == Some(true));
    assert!(rt; order_of(rt.alloc(), b"ab", b"b") == Some(Some(Ordering::Less)));
    assert!(rt; lent(rt.alloc(), &[4, 7, 5]) == Some((16, [Some(7), Some(7)], 3)));
    assert!(rt; looked_up(rt.alloc(), b"key", b"key") == Some([Some(5), Some(6)]));
    assert!(rt; looked_up(rt.alloc(), b"key", b"kex") == Some([None; 2]));
    let text = "Frame { number: 1, body: b\"ab\" }";
    assert!(rt; frames(rt.alloc(), b"ab", b"ab", text) == Some([true; 3]));
    assert!(rt; frames(rt.alloc(), b"ab", b"ac", text) == Some([false, false, true]));
    Ok(())
}

/// Whether `{:#?}` of a window over these bytes, and of a frame with it, are these.
fn laid_out(alloc: Global, bytes: &[u8], text: &str, framed: &str) -> Option<[bool; 2]> {
    let window: ArcSlice<Plain<u8>> = ArcSlice::try_from_slice(alloc, bytes).ok()?;
    let is_laid_out = is_text(format!(in alloc; "{window:#?}"), text)?;
    let frame = Frame {
        number: 1,
        body: window,
    };
    Some([
        is_laid_out,
        is_text(format!(in alloc; "{frame:#?}"), framed)?,
    ])
}

#[test]
fn printed(rt: HostRuntime) -> Result<(), Fail> {
    let alloc = rt.alloc();
    assert!(rt; in_hex(alloc, &[10, 255], "0aff", "0AFF") == Some([true; 2]));
    let told = [
        items_debug::<Plain<u16>>(alloc, &[1, 20], "[1, 20]"),
        items_debug::<Plain<i64>>(alloc, &[-1], "[-1]"),
        items_debug::<Plain<bool>>(alloc, &[true, false], "[true, false]"),
        items_debug::<Plain<char>>(alloc, &['a'], "['a']"),
        items_debug::<Plain<Option<u8>>>(alloc, &[None, Some(1)], "[None, Some(1)]"),
    ];
    assert!(rt; told == [Some(true); 5]);
    assert!(rt; numbers_debug(alloc) == [Some(true); 8]);
    assert!(rt; others_debug(alloc) == [Some(true); 4]);
    assert!(rt; borrowing_debug(alloc) == [Some(true); 2]);
    assert!(rt; text_prints(alloc, "aéb", "  aéb") == Some([true; 2]));
    assert!(rt; part_prints(alloc, "b\"bc\"") == Some(true));
    let texts = ["aé\u{fffd}", "aé\u{fffd}", "  aé\u{fffd}", "-aé\u{fffd}-"];
    assert!(rt; byte_text_prints(alloc, b"a\xc3\xa9\xff", texts) == Some([true; 4]));
    let framed = "Frame {\n    number: 1,\n    body: b\"ab\",\n}";
    assert!(rt; laid_out(rt.alloc(), b"ab", "b\"ab\"", framed) == Some([true; 2]));
    Ok(())
}

/// Whether the three bytes behind the first of a window are equal to those of another window, and
/// whether their hashes are.
fn part_beside(rt: &impl Wait, window: Bytes, other: Bytes) -> Option<[bool; 2]> {
    if window.check_range(1, 4).is_err() {
        return None;
    }
    let part = window.try_subslice(rt, 1, 4).ok()?;
    drop(window);
    Some([part == other, hash_of(&part) == hash_of(&other)])
}

/// The same of windows that stand on these.
fn parts_beside(
    rt: &impl Wait,
    alloc: Global,
    sorts: (Sort, Sort),
    other: &'static [u8],
) -> Option<[bool; 2]> {
    part_beside(
        rt,
        standing(alloc, sorts.0, b"xabc")?,
        standing(alloc, sorts.1, other)?,
    )
}

/// Where a window's bytes stand plays no part in whether it is equal to another one, nor in its
/// hash.
#[test]
fn parts_compared(rt: HostRuntime) -> Result<(), Fail> {
    let sorts = [Sort::Native, Sort::Vector, Sort::Buffer, Sort::Shared];
    for one in sorts {
        for two in sorts {
            assert!(rt; parts_beside(&rt, rt.alloc(), (one, two), b"abc") == Some([true; 2]));
            assert!(rt; parts_beside(&rt, rt.alloc(), (one, two), b"xab") == Some([false; 2]));
        }
    }
    Ok(())
}
