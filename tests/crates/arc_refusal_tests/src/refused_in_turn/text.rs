//! Rows of texts with each request refused in turn: over blocks of our own, over strings and boxed
//! texts, and over strings as callers' buffers, which bytes stand on that become text.
use super::call::{Reply, back_where, done_where, is_refusal};
use super::part::or_reply;
use super::window::Heap;
use arc_block::layout::{AnyBufferLayout, Layout};
use arc_buffer::kinds::{Plain, Text};
use arc_read::slice::ArcSlice;
use rows::{TextCall, TextLine};
use std::alloc::{AllocError, Global};
use std::boxed::BoxedStr;
use std::sync::Wait;

pub mod rows;

/// A text beside strings as callers' buffers.
type Words<'a, L> = ArcSlice<Text, L, String<Heap<'a>>, u8, Heap<'a>>;

/// Bytes beside them.
type Bytes<'a, L> = ArcSlice<Plain<u8>, L, String<Heap<'a>>, u8, Heap<'a>>;

/// A window over text, or one over bytes.
#[derive(Drop)]
enum Either<T, B> {
    Text(T),
    Bytes(B),
}

/// A window.
type Window<'a, L> = Either<Words<'a, L>, Bytes<'a, L>>;

/// The windows of a row, by number. Nothing stands where one has ended.
type Windows<'a, L> = Vec<Option<Window<'a, L>>>;

/// What stands in the window's place afterwards, and the reply.
type Turned<W> = (Option<W>, Reply);

fn of_str<'a, L: Layout>(heap: Heap<'a>, text: &str) -> Result<Words<'a, L>, Reply> {
    match Words::try_from_str(heap, text) {
        Ok(window) => Ok(window),
        Err(_) => Err(Reply::NoMemory),
    }
}

/// A string.
fn string<'a>(heap: Heap<'a>, text: &str) -> Result<String<Heap<'a>>, Reply> {
    match String::from_str(heap, text) {
        Ok(text) => Ok(text),
        Err(_) => Err(Reply::NoMemory),
    }
}

fn of_string<'a, L: AnyBufferLayout>(heap: Heap<'a>, text: &str) -> Result<Words<'a, L>, Reply> {
    match Words::try_from_vec(heap, string(heap, text)?) {
        Ok(window) => Ok(window),
        Err(back) => Err(back_where(back.as_str() == text)),
    }
}

fn of_boxed<'a, L: AnyBufferLayout>(heap: Heap<'a>, text: &str) -> Result<Words<'a, L>, Reply> {
    let Ok(boxed) = BoxedStr::from_str(heap, text) else {
        return Err(Reply::NoMemory);
    };
    match Words::try_from_boxed(heap, boxed) {
        Ok(window) => Ok(window),
        Err(back) => Err(back_where(back.as_str() == text)),
    }
}

fn of_bytes<'a, L: Layout>(heap: Heap<'a>, bytes: &[u8]) -> Result<Bytes<'a, L>, Reply> {
    match Bytes::try_from_slice(heap, bytes) {
        Ok(window) => Ok(window),
        Err(_) => Err(Reply::NoMemory),
    }
}

fn of_buffer<'a, L: AnyBufferLayout>(
    heap: Heap<'a>,
    text: &str,
    metadata: u8,
) -> Result<Bytes<'a, L>, Reply> {
    match Bytes::try_from_buffer_with_metadata(heap, string(heap, text)?, metadata) {
        Ok(window) => Ok(window),
        Err((back, found)) => Err(back_where((back.as_str(), found) == (text, metadata))),
    }
}

/// As a window over text.
fn over_text<T, B>(made: Result<T, Reply>) -> Result<Either<T, B>, Reply> {
    match made {
        Ok(window) => Ok(Either::Text(window)),
        Err(reply) => Err(reply),
    }
}

/// As one over bytes.
fn over_bytes<T, B>(made: Result<B, Reply>) -> Result<Either<T, B>, Reply> {
    match made {
        Ok(window) => Ok(Either::Bytes(window)),
        Err(reply) => Err(reply),
    }
}

fn sub<'a, L: Layout>(
    rt: &impl Wait,
    window: &Words<'a, L>,
    start: usize,
    end: usize,
) -> Result<Words<'a, L>, Reply> {
    match window.check_range(start, end) {
        Ok(()) => or_reply(window.try_subslice(rt, start, end)),
        Err(_) => Err(Reply::NoCall),
    }
}

fn off<'a, L: Layout>(
    rt: &impl Wait,
    window: &mut Words<'a, L>,
    at: usize,
) -> Result<Words<'a, L>, Reply> {
    match window.check_at(at) {
        Ok(()) => or_reply(window.try_split_off(rt, at)),
        Err(_) => Err(Reply::NoCall),
    }
}

fn to<'a, L: Layout>(
    rt: &impl Wait,
    window: &mut Words<'a, L>,
    at: usize,
) -> Result<Words<'a, L>, Reply> {
    match window.check_at(at) {
        Ok(()) => or_reply(window.try_split_to(rt, at)),
        Err(_) => Err(Reply::NoCall),
    }
}

/// The text that a call makes of the one with this number.
fn part_of<'a, L: Layout>(
    rt: &impl Wait,
    windows: &mut Windows<'a, L>,
    number: usize,
    call: TextCall,
) -> Result<Words<'a, L>, Reply> {
    let Some(Some(Either::Text(window))) = windows.get_mut(number) else {
        return Err(Reply::NoCall);
    };
    match call {
        TextCall::Clone(_) => or_reply(window.try_clone(rt)),
        TextCall::Sub(_, start, end) => sub(rt, window, start, end),
        TextCall::Off(_, at) => off(rt, window, at),
        TextCall::To(_, at) => to(rt, window, at),
        _ => Err(Reply::NoCall),
    }
}

fn text_of<'a, L: Layout>(window: Bytes<'a, L>) -> Turned<Window<'a, L>> {
    match Words::try_from_arc_slice(window) {
        Ok(window) => (Some(Either::Text(window)), Reply::Done),
        Err((_, window)) => (Some(Either::Bytes(window)), Reply::Refused),
    }
}

fn string_of<'a, L: Layout>(window: Words<'a, L>, text: &str) -> Turned<Words<'a, L>> {
    match window.try_into_vec() {
        Ok(found) => (None, done_where(found.as_str() == text)),
        Err(window) => (Some(window), Reply::Refused),
    }
}

fn boxed_of<'a, L: Layout>(window: Words<'a, L>, text: &str) -> Turned<Words<'a, L>> {
    match window.try_into_boxed() {
        Ok(found) => (None, done_where(found.as_str() == text)),
        Err(window) => (Some(window), Reply::Refused),
    }
}

fn buffer_of<'a, L: Layout>(window: Words<'a, L>, text: &str) -> Turned<Words<'a, L>> {
    match window.try_into_buffer() {
        Ok(found) => (None, done_where(found.as_str() == text)),
        Err(window) => (Some(window), Reply::Refused),
    }
}

/// A window that stays over text, if it comes back.
fn still_text<T, B>(turned: Turned<T>) -> Turned<Either<T, B>> {
    let (window, reply) = turned;
    match window {
        Some(window) => (Some(Either::Text(window)), reply),
        None => (None, reply),
    }
}

/// What becomes of a text.
fn turn_text<'a, L: Layout>(window: Words<'a, L>, call: TextCall) -> Turned<Window<'a, L>> {
    match call {
        TextCall::AsBytes(_) => (Some(Either::Bytes(window.into_arc_slice())), Reply::Done),
        TextCall::TakeString(_, text) => still_text(string_of(window, text)),
        TextCall::TakeBoxed(_, text) => still_text(boxed_of(window, text)),
        TextCall::TakeBuffer(_, text) => still_text(buffer_of(window, text)),
        TextCall::Drop(_) => {
            drop(window);
            (None, Reply::Done)
        }
        _ => (Some(Either::Text(window)), Reply::NoCall),
    }
}

/// What becomes of bytes.
fn turn_bytes<'a, L: Layout>(window: Bytes<'a, L>, call: TextCall) -> Turned<Window<'a, L>> {
    match call {
        TextCall::AsText(_) => text_of(window),
        TextCall::Drop(_) => {
            drop(window);
            (None, Reply::Done)
        }
        _ => (Some(Either::Bytes(window)), Reply::NoCall),
    }
}

/// Takes the window with this number out of its place, and puts back what becomes of it.
fn turned<L: Layout>(windows: &mut Windows<'_, L>, number: usize, call: TextCall) -> Reply {
    let Some(place) = windows.get_mut(number) else {
        return Reply::NoCall;
    };
    let Some(window) = place.take() else {
        return Reply::NoCall;
    };
    let (back, reply) = match window {
        Either::Text(window) => turn_text(window, call),
        Either::Bytes(window) => turn_bytes(window, call),
    };
    *place = back;
    reply
}

/// Whether the window with this number has these bytes.
fn shown<L: Layout>(windows: &Windows<'_, L>, number: usize, wanted: &[u8]) -> Reply {
    match windows.get(number) {
        Some(Some(Either::Text(window))) => done_where(window.as_str().as_bytes() == wanted),
        Some(Some(Either::Bytes(window))) => done_where(window.as_slice() == wanted),
        _ => Reply::NoCall,
    }
}

/// The metadata of the text with this number.
fn metadata<L: Layout>(windows: &Windows<'_, L>, number: usize) -> Reply {
    let Some(Some(Either::Text(window))) = windows.get(number) else {
        return Reply::NoCall;
    };
    match window.metadata() {
        Some(metadata) => Reply::Number(usize::from(*metadata)),
        None => Reply::No,
    }
}

/// A window that was made gets its number.
fn keep<'a, L: Layout>(
    windows: &mut Windows<'a, L>,
    made: Result<Window<'a, L>, Reply>,
) -> Result<Reply, AllocError> {
    match made {
        Ok(window) => {
            windows.push(Some(window))?;
            Ok(Reply::Done)
        }
        Err(reply) => Ok(reply),
    }
}

/// What a call is answered.
fn called<'a, L: AnyBufferLayout>(
    rt: &impl Wait,
    heap: Heap<'a>,
    windows: &mut Windows<'a, L>,
    call: TextCall,
) -> Result<Reply, AllocError> {
    match call {
        TextCall::Copied(words) => keep(windows, over_text(of_str(heap, words))),
        TextCall::Owned(words) => keep(windows, over_text(of_string(heap, words))),
        TextCall::Boxed(words) => keep(windows, over_text(of_boxed(heap, words))),
        TextCall::Bytes(items) => keep(windows, over_bytes(of_bytes(heap, items))),
        TextCall::Buffer(words, metadata) => {
            keep(windows, over_bytes(of_buffer(heap, words, metadata)))
        }
        TextCall::Clone(number)
        | TextCall::Sub(number, _, _)
        | TextCall::Off(number, _)
        | TextCall::To(number, _) => {
            let made = part_of(rt, windows, number, call);
            keep(windows, over_text(made))
        }
        TextCall::Show(number, wanted) => Ok(shown(windows, number, wanted.as_bytes())),
        TextCall::Metadata(number) => Ok(metadata(windows, number)),
        TextCall::AsText(number)
        | TextCall::AsBytes(number)
        | TextCall::TakeString(number, _)
        | TextCall::TakeBoxed(number, _)
        | TextCall::TakeBuffer(number, _)
        | TextCall::Drop(number) => Ok(turned(windows, number, call)),
    }
}

/// What is seen of a window: whether it is alone, and its bytes.
fn tell(
    is_text: bool,
    is_alone: bool,
    items: &[u8],
    out: &mut Vec<usize>,
) -> Result<(), AllocError> {
    out.extend_from_slice(&[usize::from(is_text), usize::from(is_alone), items.len()])?;
    for item in items {
        out.push(usize::from(*item))?;
    }
    Ok(())
}

/// What is seen of all windows.
fn seen<L: Layout>(alloc: Global, windows: &Windows<'_, L>) -> Result<Vec<usize>, AllocError> {
    let mut out = Vec::new(alloc);
    for window in windows {
        match window {
            Some(Either::Text(window)) => {
                tell(true, window.is_unique(), window.as_slice(), &mut out)?;
            }
            Some(Either::Bytes(window)) => {
                tell(false, window.is_unique(), window.as_slice(), &mut out)?;
            }
            None => out.push(2)?,
        }
    }
    Ok(out)
}

/// Whether a call is answered as it is to be. Where its memory is refused it says so, or gives back
/// what went in, and each window is as before; it is then made again.
fn answered<'a, L: AnyBufferLayout>(
    rt: &impl Wait,
    alloc: Global,
    heap: Heap<'a>,
    windows: &mut Windows<'a, L>,
    line: TextLine,
) -> Result<bool, AllocError> {
    let (call, wanted) = line;
    let before = seen(alloc, windows)?;
    let refusals = heap.refusals();
    let found = called(rt, heap, windows, call)?;
    if heap.refusals() == refusals {
        return Ok(found == wanted);
    }
    let after = seen(alloc, windows)?;
    if !is_refusal(found) || after.as_slice() != before.as_slice() {
        return Ok(false);
    }
    Ok(called(rt, heap, windows, call)? == wanted)
}

/// The first line that is answered otherwise, by its place in the row, if there is one.
pub fn run_text<'a, L: AnyBufferLayout>(
    rt: &impl Wait,
    alloc: Global,
    heap: Heap<'a>,
    row: &[TextLine],
) -> Result<Option<usize>, AllocError> {
    let mut windows: Windows<'a, L> = Vec::new(alloc);
    for (at, line) in row.iter().enumerate() {
        if !answered(rt, alloc, heap, &mut windows, *line)? {
            return Ok(Some(at));
        }
    }
    Ok(None)
}
