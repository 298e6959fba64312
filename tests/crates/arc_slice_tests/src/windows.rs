//! Small windows: each call once, and in threads.

use arc_slice::error::{OwnerError, RangeError};
use arc_slice::inlined::{SmallArcBytes, SmallArcSlice, SmallArcStr, SmallSlice};
use arc_slice::layout::DefaultLayout;
use arc_slice::{ArcBytes, ArcSlice, Pass, Whole as WholeMark};
use either::{Left, Right};
use std::alloc::Global;
use std::sync::Wait;
use std::test::Fail;
use std::thread::{self, Threads};

/// Of a window over these bytes a clone, and the part of that from the second byte to the fourth,
/// of which the first is taken off: what is left, how many bytes the window has, and whether each
/// has its bytes in itself.
fn cut(rt: &impl Wait, alloc: Global, bytes: &[u8]) -> Option<(Option<u8>, usize, [bool; 3])> {
    let window: SmallArcBytes = SmallArcSlice::try_from_slice(alloc, bytes).ok()?;
    let clone = window.try_clone(rt).ok()?;
    if clone.check_range(1, 3).is_err() {
        return None;
    }
    let mut part = clone.try_subslice(rt, 1, 3).ok()?;
    if part.check_at(1).is_err() {
        return None;
    }
    part.advance(1);
    let left = part.as_slice().first().copied();
    Some((
        left,
        window.len(),
        [
            window.as_either().is_left(),
            clone.as_either().is_left(),
            part.as_either().is_left(),
        ],
    ))
}

/// Windows of whose block there is one pass.
type Whole = SmallArcBytes<DefaultLayout, Vec<u8>, (), Global, WholeMark>;

/// How many bytes a clone has, which is then released.
fn clone_as(
    rt: &impl Wait,
    window: &Whole,
    pass: &mut Pass<WholeMark>,
) -> Result<usize, OwnerError> {
    let clone = window.try_clone_as(rt, pass)?;
    let len = clone.len();
    clone.release_as(pass);
    Ok(len)
}

/// The same of the part from the second byte to the fourth.
fn part_as(
    rt: &impl Wait,
    window: &Whole,
    pass: &mut Pass<WholeMark>,
) -> Result<usize, OwnerError> {
    if window.check_range(1, 3).is_err() {
        return Ok(0);
    }
    let part = window.try_subslice_as(rt, 1, 3, pass)?;
    let len = part.len();
    part.release_as(pass);
    Ok(len)
}

/// Both of a window over these bytes, which is then released, with one pass; and how many bytes it
/// has.
fn called_as(rt: &impl Wait, alloc: Global, bytes: &[u8]) -> Result<[usize; 3], OwnerError> {
    let mut pass = Pass::none();
    let window = Whole::try_from_slice_as(alloc, bytes, &mut pass)?;
    let cloned = clone_as(rt, &window, &mut pass)?;
    let cut = part_as(rt, &window, &mut pass)?;
    let whole = window.len();
    window.release_as(&mut pass);
    Ok([cloned, cut, whole])
}

/// How many bytes windows have that are made of a vector and of a box of these bytes, each with a
/// pass, with which it is then released.
fn taken_as(alloc: Global, bytes: &[u8]) -> Option<[usize; 2]> {
    let mut pass = Pass::none();
    let items = Vec::from_slice(alloc, bytes).ok()?;
    let window = Whole::try_from_vec_as(alloc, items, &mut pass).ok()?;
    let of_vec = window.len();
    window.release_as(&mut pass);
    let mut pass = Pass::none();
    let items = Vec::from_slice(alloc, bytes).ok()?.into_boxed_slice();
    let window = Whole::try_from_boxed_as(alloc, items, &mut pass).ok()?;
    let of_boxed = window.len();
    window.release_as(&mut pass);
    Some([of_vec, of_boxed])
}

/// A small window of texts of whose block there is one pass.
type WholeText = SmallArcStr<DefaultLayout, Vec<u8>, (), Global, WholeMark>;

/// How many bytes windows have that are made of arrays, a short and a long one, each with a pass,
/// with which it is then released.
fn arrays_as(alloc: Global) -> Option<[usize; 2]> {
    let mut pass = Pass::none();
    let window = Whole::try_from_array_as(alloc, [1, 2, 3], &mut pass).ok()?;
    let short = window.len();
    window.release_as(&mut pass);
    let mut pass = Pass::none();
    let window = Whole::try_from_array_as(alloc, [7; 40], &mut pass).ok()?;
    let long = window.len();
    window.release_as(&mut pass);
    Some([short, long])
}

/// The same of a window over a text.
fn text_as(alloc: Global, text: &str) -> Option<usize> {
    let mut pass = Pass::none();
    let window = WholeText::try_from_str_as(alloc, text, &mut pass).ok()?;
    let len = window.len();
    window.release_as(&mut pass);
    Some(len)
}

/// A window over a text: whether it has none, and whether it is that text.
fn text_seen(alloc: Global, text: &str) -> Option<[bool; 2]> {
    let window: SmallArcStr = SmallArcSlice::try_from_str(alloc, text).ok()?;
    Some([window.is_empty(), window.as_str() == text])
}

/// What tests of places answer of a text.
fn tested(alloc: Global, text: &str) -> Option<[Result<(), RangeError>; 2]> {
    let window: SmallArcStr = SmallArcSlice::try_from_str(alloc, text).ok()?;
    Some([window.check_at(2), window.check_range(0, 99)])
}

/// A short list and a window that is read as small ones, and back: of each how many bytes it has.
fn either_way(alloc: Global, bytes: &[u8]) -> Option<[usize; 2]> {
    let small = SmallSlice::new(bytes)?;
    let read: ArcBytes = ArcSlice::try_from_slice(alloc, bytes).ok()?;
    let inline: SmallArcBytes = SmallArcSlice::from(small);
    let shared: SmallArcBytes = SmallArcSlice::from(read);
    let Left(small) = inline.into_either() else {
        return None;
    };
    let Right(read) = shared.into_either() else {
        return None;
    };
    Some([small.len(), read.len()])
}

/// What a window has once the short list in it was cut to its first byte.
fn changed(alloc: Global, bytes: &[u8]) -> Option<usize> {
    let mut window: SmallArcBytes = SmallArcSlice::try_from_slice(alloc, bytes).ok()?;
    if let Left(small) = window.as_either_mut() {
        if small.check_at(1).is_ok() {
            small.truncate(1);
        }
    }
    Some(window.len())
}

#[test]
fn cut_and_cloned(rt: HostRuntime) -> Result<(), Fail> {
    let long = [7u8; 40];
    let told = cut(&rt, rt.alloc(), &[1, 2, 3, 4]);
    assert!(rt; told == Some((Some(3), 4, [true; 3])));
    assert!(rt; cut(&rt, rt.alloc(), &long) == Some((Some(7), 40, [false; 3])));
    assert!(rt; called_as(&rt, rt.alloc(), &[1, 2, 3, 4]) == Ok([4, 2, 4]));
    assert!(rt; called_as(&rt, rt.alloc(), &long) == Ok([40, 2, 40]));
    assert!(rt; taken_as(rt.alloc(), &[1, 2, 3]) == Some([3, 3]));
    assert!(rt; arrays_as(rt.alloc()) == Some([3, 40]));
    assert!(rt; text_as(rt.alloc(), "aé") == Some(3));
    Ok(())
}

#[test]
fn seen_and_changed(rt: HostRuntime) -> Result<(), Fail> {
    assert!(rt; text_seen(rt.alloc(), "aéb") == Some([false, true]));
    assert!(rt; text_seen(rt.alloc(), "dreiundzwanzig Zeichen ") == Some([false, true]));
    let answers = [Err(RangeError::NotBoundary), Err(RangeError::OutOfRange)];
    assert!(rt; tested(rt.alloc(), "aéb") == Some(answers));
    assert!(rt; either_way(rt.alloc(), &[1, 2]) == Some([2, 2]));
    assert!(rt; changed(rt.alloc(), &[1, 2]) == Some(1));
    Ok(())
}

/// How many bytes two threads have of two windows, which they end.
fn lengths(rt: &impl Threads, one: SmallArcBytes, two: SmallArcBytes) -> (usize, usize) {
    thread::join(rt, move || one.len(), move || two.len())
}

/// The same of a window over these bytes and its clone.
fn sent<R: Threads + Wait>(rt: &R, alloc: Global, bytes: &[u8]) -> Option<(usize, usize)> {
    let window: SmallArcBytes = SmallArcSlice::try_from_slice(alloc, bytes).ok()?;
    let clone = window.try_clone(rt).ok()?;
    Some(lengths(rt, window, clone))
}

#[test]
fn ended_in_threads(rt: HostRuntime) -> Result<(), Fail> {
    assert!(rt; sent(&rt, rt.alloc(), &[1, 2]) == Some((2, 2)));
    assert!(rt; sent(&rt, rt.alloc(), &[7; 40]) == Some((40, 40)));
    Ok(())
}
