//! Short lists: each call once.
use arc_slice::buffer::{Plain, Text};
use arc_slice::error::RangeError;
use arc_slice::inlined::{SmallBytes, SmallSlice, SmallStr};
use arc_slice::layout::DefaultLayout;
use std::test::Fail;

/// Bytes 1 to 5, then without the first, then without the last: of each the first and the length.
/// Beside them a part of the whole list, and that a copy has not changed with it.
fn cut(bytes: &[u8]) -> Option<([(Option<u8>, usize); 4], bool)> {
    let whole: SmallBytes = SmallSlice::new(bytes)?;
    if whole.check_range(1, 3).is_err() || whole.check_at(1).is_err() {
        return None;
    }
    let part = whole.subslice(1, 3);
    let mut rest = whole;
    rest.advance(1);
    let front = (rest.as_slice().first().copied(), rest.len());
    if 3 < rest.len() && rest.check_at(3).is_err() {
        return None;
    }
    rest.truncate(3);
    let told = [
        (whole.as_slice().first().copied(), whole.len()),
        (part.as_slice().first().copied(), part.len()),
        front,
        (rest.as_slice().last().copied(), rest.len()),
    ];
    Some((told, whole.as_slice() == bytes))
}

/// What tests of places answer of a text.
fn tested(text: &str) -> Option<[Result<(), RangeError>; 4]> {
    let text: SmallStr = SmallSlice::new_str(text)?;
    Some([
        text.check_at(1),
        text.check_at(2),
        text.check_range(3, 9),
        text.check_range(3, 1),
    ])
}

/// A text, from its second character on.
fn behind_first(text: &str, same: &str) -> Option<bool> {
    let text: SmallStr = SmallSlice::new_str(text)?;
    if text.check_range(1, text.len()).is_err() {
        return None;
    }
    let rest = text.subslice(1, text.len());
    Some(rest.as_str() == same)
}

#[test]
fn cut_and_tested(rt: HostRuntime) -> Result<(), Fail> {
    let told = [(Some(1), 5), (Some(2), 2), (Some(2), 4), (Some(4), 3)];
    assert!(rt; cut(&[1, 2, 3, 4, 5]) == Some((told, true)));
    let answers = [
        Ok(()),
        Err(RangeError::NotBoundary),
        Err(RangeError::OutOfRange),
        Err(RangeError::InvalidRange),
    ];
    assert!(rt; tested("aéb") == Some(answers));
    assert!(rt; behind_first("aéb", "éb") == Some(true));
    let none = SmallSlice::<Plain<u8>, DefaultLayout>::empty();
    let no_text = SmallSlice::<Text, DefaultLayout>::empty();
    assert!(rt; (none.is_empty(), no_text.as_str() == "") == (true, true));
    Ok(())
}
