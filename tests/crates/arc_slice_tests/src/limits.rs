//! What lies in a small window itself, by layout and by what it is made of.
use arc_slice::buffer::{Plain, Text};
use arc_slice::inlined::{SmallArcBytes, SmallArcSlice, SmallArcStr, SmallSlice};
use arc_slice::layout::{ArcLayout, BoxedSliceLayout, DefaultLayout, Layout, RawLayout, VecLayout};
use linked_list_allocator::LocalHeap;
use std::alloc::Global;
use std::boxed::BoxedSlice;
use std::test::Fail;

/// The layout that holds all sorts and has static data.
type Any = ArcLayout<true, true>;

/// How many of these bytes a short list has, where they are one.
fn len<L: Layout>(bytes: &[u8]) -> Option<usize> {
    Some(SmallSlice::<Plain<u8>, L>::new(bytes)?.len())
}

/// The same of the first 30 of them, and of all.
fn fits<L: Layout>(bytes: &[u8]) -> (Option<usize>, Option<usize>) {
    (len::<L>(&bytes[..30]), len::<L>(bytes))
}

/// The same of text.
fn text_fits(text: &str) -> Option<usize> {
    Some(SmallSlice::<Text, DefaultLayout>::new_str(text)?.len())
}

/// Whether a window that is made of these bytes has them in itself.
fn is_inline(alloc: Global, bytes: &[u8]) -> Option<bool> {
    let window: SmallArcBytes = SmallArcSlice::try_from_slice(alloc, bytes).ok()?;
    Some(window.as_either().is_left())
}

/// The same of an array.
fn is_array_inline<const N: usize>(alloc: Global, array: [u8; N]) -> Option<bool> {
    let window: SmallArcBytes = SmallArcSlice::try_from_array(alloc, array).ok()?;
    Some(window.as_either().is_left())
}

/// The same of a text.
fn is_text_inline(alloc: Global, text: &str) -> Option<bool> {
    let window: SmallArcStr = SmallArcSlice::try_from_str(alloc, text).ok()?;
    Some(window.as_either().is_left())
}

/// The same of a vector.
fn is_vec_inline(alloc: Global, bytes: &[u8]) -> Option<bool> {
    let items = Vec::from_slice(alloc, bytes).ok()?;
    let window: SmallArcBytes = SmallArcSlice::try_from_vec(alloc, items).ok()?;
    Some(window.as_either().is_left())
}

/// The same of a box.
fn is_boxed_inline(alloc: Global, bytes: &[u8]) -> Option<bool> {
    let items = Vec::from_slice(alloc, bytes).ok()?.into_boxed_slice();
    let window: SmallArcBytes = SmallArcSlice::try_from_boxed(alloc, items).ok()?;
    Some(window.as_either().is_left())
}

/// The same of bytes and of a text that are there for good, and of no bytes by `new`.
fn is_static_inline(alloc: Global) -> [bool; 3] {
    let bytes: SmallArcBytes = SmallArcSlice::from_static(alloc, b"ab");
    let text: SmallArcStr = SmallArcSlice::from_static_str(alloc, "ab");
    let none: SmallArcBytes = SmallArcSlice::new();
    [
        bytes.as_either().is_left(),
        text.as_either().is_left(),
        none.as_either().is_left(),
    ]
}

/// Thirty bytes are one, and 31 aren't, under every layout.
#[test]
fn short_lists_by_layout(rt: HostRuntime) -> Result<(), Fail> {
    let bytes = [7u8; 31];
    let told = [
        fits::<DefaultLayout>(&bytes),
        fits::<Any>(&bytes),
        fits::<BoxedSliceLayout>(&bytes),
        fits::<VecLayout>(&bytes),
        fits::<RawLayout>(&bytes),
    ];
    assert!(rt; told == [(Some(30), None); 5]);
    let told = [
        text_fits("ein Text mit dreissig Zeichen."),
        text_fits("ein Text mit dreissig Zeichen.."),
    ];
    assert!(rt; told == [Some(30), None]);
    Ok(())
}

/// Rows of `refused_in_turn` ask it under other layouts.
#[test]
fn windows_by_what_made_them(rt: HostRuntime) -> Result<(), Fail> {
    let alloc = rt.alloc();
    let bytes = [7u8; 31];
    let told = [
        is_inline(alloc, &[1]),
        is_inline(alloc, &bytes[..30]),
        is_inline(alloc, &bytes),
        is_array_inline(alloc, [7; 30]),
        is_array_inline(alloc, [7; 31]),
        is_text_inline(alloc, "kurz"),
        is_text_inline(alloc, "ein Text mit dreissig Zeichen.."),
        is_vec_inline(alloc, &[1]),
        is_boxed_inline(alloc, &[1]),
    ];
    assert!(rt;
        told == [
            Some(true),
            Some(true),
            Some(false),
            Some(true),
            Some(false),
            Some(true),
            Some(false),
            Some(false),
            Some(false)
        ]
    );
    assert!(rt; is_static_inline(alloc) == [false, false, true]);
    Ok(())
}

/// Small windows whose memory comes from a heap of its own.
type InHeap<'a> = SmallArcBytes<DefaultLayout, Vec<u8>, (), &'a LocalHeap>;

/// Whether a window is made of a slice, and what it takes.
fn made_of_slice(heap: &LocalHeap, bytes: &[u8]) -> (bool, usize) {
    let window = InHeap::<'_>::try_from_slice(heap, bytes);
    (window.is_ok(), heap.used())
}

/// Whether a window is made of an array.
fn is_made_of_array<const N: usize>(heap: &LocalHeap, array: [u8; N]) -> bool {
    InHeap::<'_>::try_from_array(heap, array).is_ok()
}

/// Short lists take no memory; where it is refused longer ones are, and nothing is taken.
#[test]
fn memory_refused(rt: HostRuntime) -> Result<(), Fail> {
    let bytes = [7u8; 31];
    let heap = LocalHeap::new(rt.alloc(), 16)?;
    assert!(rt; made_of_slice(&heap, &bytes[..30]) == (true, 0));
    assert!(rt; made_of_slice(&heap, &bytes) == (false, 0));
    assert!(rt; is_made_of_array(&heap, [7; 30]));
    assert!(rt; (is_made_of_array(&heap, [7; 31]), heap.used()) == (false, 0));
    Ok(())
}

/// Whether 23 bytes lie in the window, and which bytes do once it is one of another layout.
fn moved_inline(alloc: Global, bytes: &[u8]) -> Option<(bool, bool)> {
    let window = SmallArcBytes::<Any>::try_from_slice(alloc, bytes).ok()?;
    let inside = window.as_either().is_left();
    let moved = window.try_with_layout::<ArcLayout<false, false>>().ok()?;
    Some((
        inside,
        moved.as_either().is_left() && moved.as_slice() == bytes,
    ))
}

/// Whether a window over bytes that are there for good comes back from a layout without such.
fn static_comes_back(alloc: Global) -> bool {
    let window = SmallArcBytes::<Any>::from_static(alloc, b"abcd");
    match window.try_with_layout::<ArcLayout<true, false>>() {
        Ok(_) => false,
        Err(back) => back.as_slice() == b"abcd".as_slice(),
    }
}

/// A short list keeps its bytes under another layout.
fn short_moves(bytes: &[u8]) -> Option<bool> {
    let short = SmallSlice::<Plain<u8>, DefaultLayout>::new(bytes)?;
    Some(short.with_layout::<RawLayout>().as_slice() == bytes)
}

/// Short lists stay in the window, and static data is handed back.
#[test]
fn layouts_of_small_windows(rt: HostRuntime) -> Result<(), Fail> {
    let alloc = rt.alloc();
    let bytes = [7u8; 30];
    assert!(rt; moved_inline(alloc, &bytes[..23]) == Some((true, true)));
    assert!(rt; static_comes_back(alloc));
    assert!(rt; short_moves(&bytes) == Some(true));
    Ok(())
}
