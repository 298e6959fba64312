//! One of several writers: text beside another owner is written in its own places alone. What is
//! written where there were no places; and bytes that go to another kind.
use arc_block::layout::DefaultLayoutMut;
use arc_buffer::kinds::ByteText;
use arc_write::slice_mut::{ArcBytesMut, ArcBytesShared, ArcSliceMut, ArcStrMut, ArcStrShared};
use std::alloc::Global;
use std::fmt::Write;
use std::sync::Wait;
use std::test::Fail;

/// Whether a text is written that has no places left, beside another owner, whether both are then
/// as before, and whether it is written once that has ended.
fn text_beside(rt: &impl Wait, alloc: Global) -> Option<[bool; 3]> {
    let text = ArcStrMut::<DefaultLayoutMut>::try_from_str(alloc, "abcd").ok()?;
    let mut front: ArcStrShared = text.into_shared().ok()?;
    front.check_split_off(2).ok()?;
    let Ok(back) = front.try_split_off(rt, 2) else {
        return None;
    };
    let is_written = front.write_str("x").is_ok();
    let is_same = front.as_str() == "ab" && back.as_str() == "cd";
    drop(back);
    Some([is_written, is_same, front.write_str("x").is_ok()])
}

#[test]
fn written_beside_others(rt: HostRuntime) -> Result<(), Fail> {
    assert!(rt; text_beside(&rt, rt.alloc()) == Some([false, true, true]));
    Ok(())
}

/// Byte text that one of several writers has.
type ByteTextShared = ArcSliceMut<ByteText, DefaultLayoutMut, 0>;

/// One of several writers of no bytes: whether it has none, whether a text is written there, and
/// whether it has that then.
fn bytes_written(alloc: Global, text: &str) -> Option<[bool; 3]> {
    let window = ArcBytesMut::<DefaultLayoutMut>::new(alloc);
    let mut shared: ArcBytesShared = window.into_shared().ok()?;
    let is_empty = shared.is_empty();
    let is_written = shared.write_str(text).is_ok();
    Some([is_empty, is_written, shared.as_slice() == text.as_bytes()])
}

/// The same of byte text.
fn byte_text_written(alloc: Global, text: &str) -> Option<[bool; 3]> {
    let window: ArcSliceMut<ByteText, DefaultLayoutMut, 1> = ArcSliceMut::new(alloc);
    let mut shared: ByteTextShared = window.into_shared().ok()?;
    let is_empty = shared.is_empty();
    let is_written = shared.write_str(text).is_ok();
    Some([is_empty, is_written, shared.as_slice() == text.as_bytes()])
}

/// Whether the bytes of an iterator are all taken, and are there then.
fn extended(alloc: Global, bytes: &[u8]) -> Option<[bool; 2]> {
    let window = ArcBytesMut::<DefaultLayoutMut>::new(alloc);
    let mut shared: ArcBytesShared = window.into_shared().ok()?;
    let is_taken = shared.try_extend(bytes.iter().copied()).is_ok();
    Some([is_taken, shared.as_slice() == bytes])
}

#[test]
fn written_from_nothing(rt: HostRuntime) -> Result<(), Fail> {
    assert!(rt; bytes_written(rt.alloc(), "aé") == Some([true; 3]));
    assert!(rt; byte_text_written(rt.alloc(), "aé") == Some([true; 3]));
    assert!(rt; extended(rt.alloc(), &[1, 2, 3]) == Some([true; 2]));
    Ok(())
}

/// A copy of these bytes, as those of one of several writers.
fn bytes_of(alloc: Global, bytes: &[u8]) -> Option<ArcBytesShared> {
    let window = ArcBytesMut::<DefaultLayoutMut>::try_from_slice(alloc, bytes).ok()?;
    window.into_shared().ok()
}

/// Whether bytes are this text, and the same bytes again.
fn as_text(alloc: Global, bytes: &[u8], text: &str) -> Option<[bool; 2]> {
    let shared = ArcStrShared::try_from_arc_slice_mut(bytes_of(alloc, bytes)?).ok()?;
    let is_text = shared.as_str() == text;
    let again = shared.into_arc_slice_mut();
    Some([is_text, again.as_slice() == bytes])
}

/// Where bytes go wrong that aren't text, and how many come back.
fn not_text(alloc: Global, bytes: &[u8]) -> Option<(usize, usize)> {
    match ArcStrShared::try_from_arc_slice_mut(bytes_of(alloc, bytes)?) {
        Ok(_) => None,
        Err((e, back)) => Some((e.valid_up_to(), back.len())),
    }
}

/// Whether bytes are the same as byte text, and the same bytes again.
fn as_byte_text(alloc: Global, bytes: &[u8]) -> Option<[bool; 2]> {
    let Ok(shared) = ByteTextShared::try_from_arc_slice_mut(bytes_of(alloc, bytes)?) else {
        return None;
    };
    let is_same = shared.as_slice() == bytes;
    let again = shared.into_arc_slice_mut();
    Some([is_same, again.as_slice() == bytes])
}

#[test]
fn of_another_kind(rt: HostRuntime) -> Result<(), Fail> {
    assert!(rt; as_text(rt.alloc(), b"a\xc3\xa9", "aé") == Some([true; 2]));
    assert!(rt; not_text(rt.alloc(), b"ab\xff") == Some((2, 3)));
    assert!(rt; as_byte_text(rt.alloc(), b"a\xff") == Some([true; 2]));
    Ok(())
}
