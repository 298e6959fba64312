//! Windows that are made of what a row says. What went in comes back where memory is refused.
use super::call::{Make, Reply, back_where};
use super::window::{Bytes, Heap, Reader, Role, Window, Writer};
use arc_block::layout::{AnyBufferLayout, LayoutMut};
use std::sync::Arc;

/// A window that is read, or the reply without one.
type Read<'a, L> = Result<Reader<'a, L>, Reply>;

/// A window that is written, or the reply without one.
type Written<'a, K> = Result<Writer<'a, K>, Reply>;

/// A vector of these bytes, without places to spare.
fn vector<'a>(heap: Heap<'a>, text: &str) -> Result<Bytes<'a>, Reply> {
    match Vec::from_slice(heap, text.as_bytes()) {
        Ok(bytes) => Ok(bytes),
        Err(_) => Err(Reply::NoMemory),
    }
}

fn of_slice<'a, L: AnyBufferLayout>(heap: Heap<'a>, text: &str) -> Read<'a, L> {
    match Reader::try_from_slice(heap, text.as_bytes()) {
        Ok(window) => Ok(window),
        Err(_) => Err(Reply::NoMemory),
    }
}

fn of_array<'a, L: AnyBufferLayout>(heap: Heap<'a>, items: [u8; 3]) -> Read<'a, L> {
    match Reader::try_from_array(heap, items) {
        Ok(window) => Ok(window),
        Err(back) => Err(back_where(back == items)),
    }
}

fn of_vec<'a, L: AnyBufferLayout>(heap: Heap<'a>, text: &str) -> Read<'a, L> {
    match Reader::try_from_vec(heap, vector(heap, text)?) {
        Ok(window) => Ok(window),
        Err(back) => Err(back_where(back.as_slice() == text.as_bytes())),
    }
}

fn of_boxed<'a, L: AnyBufferLayout>(heap: Heap<'a>, text: &str) -> Read<'a, L> {
    match Reader::try_from_boxed(heap, vector(heap, text)?.into_boxed_slice()) {
        Ok(window) => Ok(window),
        Err(back) => Err(back_where(back.as_slice() == text.as_bytes())),
    }
}

fn of_buffer<'a, L: AnyBufferLayout>(heap: Heap<'a>, text: &str) -> Read<'a, L> {
    match Reader::try_from_buffer(heap, vector(heap, text)?) {
        Ok(window) => Ok(window),
        Err(back) => Err(back_where(back.as_slice() == text.as_bytes())),
    }
}

fn of_buffer_with<'a, L: AnyBufferLayout>(heap: Heap<'a>, text: &str, metadata: u8) -> Read<'a, L> {
    match Reader::try_from_buffer_with_metadata(heap, vector(heap, text)?, metadata) {
        Ok(window) => Ok(window),
        Err((back, found)) => {
            let is_same = back.as_slice() == text.as_bytes();
            Err(back_where(is_same & (found == metadata)))
        }
    }
}

fn of_raw<'a, L: AnyBufferLayout>(heap: Heap<'a>, text: &str) -> Read<'a, L> {
    let Ok(shared) = Arc::new(heap, vector(heap, text)?) else {
        return Err(Reply::NoMemory);
    };
    match Reader::try_from_raw_buffer(heap, shared) {
        Ok(window) => Ok(window),
        Err(back) => Err(back_where(back.as_slice() == text.as_bytes())),
    }
}

fn written_places<'a, K: LayoutMut>(heap: Heap<'a>, places: usize) -> Written<'a, K> {
    match Writer::try_with_capacity(heap, places) {
        Ok(window) => Ok(window),
        Err(_) => Err(Reply::NoMemory),
    }
}

fn written_zeros<'a, K: LayoutMut>(heap: Heap<'a>, count: usize) -> Written<'a, K> {
    match Writer::try_zeroed(heap, count) {
        Ok(window) => Ok(window),
        Err(_) => Err(Reply::NoMemory),
    }
}

fn written_slice<'a, K: LayoutMut>(heap: Heap<'a>, text: &str) -> Written<'a, K> {
    match Writer::try_from_slice(heap, text.as_bytes()) {
        Ok(window) => Ok(window),
        Err(_) => Err(Reply::NoMemory),
    }
}

fn written_array<'a, K: LayoutMut>(heap: Heap<'a>, items: [u8; 3]) -> Written<'a, K> {
    match Writer::try_from_array(heap, items) {
        Ok(window) => Ok(window),
        Err(back) => Err(back_where(back == items)),
    }
}

fn written_vec<'a, K: LayoutMut + AnyBufferLayout>(heap: Heap<'a>, text: &str) -> Written<'a, K> {
    match Writer::try_from_vec(heap, vector(heap, text)?) {
        Ok(window) => Ok(window),
        Err(back) => Err(back_where(back.as_slice() == text.as_bytes())),
    }
}

fn written_buffer<'a, K: LayoutMut + AnyBufferLayout>(
    heap: Heap<'a>,
    text: &str,
) -> Written<'a, K> {
    match Writer::try_from_buffer(heap, vector(heap, text)?) {
        Ok(window) => Ok(window),
        Err(back) => Err(back_where(back.as_slice() == text.as_bytes())),
    }
}

fn written_buffer_with<'a, K: LayoutMut + AnyBufferLayout>(
    heap: Heap<'a>,
    text: &str,
    metadata: u8,
) -> Written<'a, K> {
    match Writer::try_from_buffer_with_metadata(heap, vector(heap, text)?, metadata) {
        Ok(window) => Ok(window),
        Err((back, found)) => {
            let is_same = back.as_slice() == text.as_bytes();
            Err(back_where(is_same & (found == metadata)))
        }
    }
}

/// As a window that is read.
fn read<R, W, S>(made: Result<R, Reply>) -> Result<Role<R, W, S>, Reply> {
    match made {
        Ok(window) => Ok(Role::Read(window)),
        Err(reply) => Err(reply),
    }
}

/// As a window that is written.
fn written<R, W, S>(made: Result<W, Reply>) -> Result<Role<R, W, S>, Reply> {
    match made {
        Ok(window) => Ok(Role::Write(window)),
        Err(reply) => Err(reply),
    }
}

/// The window that a call makes.
pub fn make<'a, L: AnyBufferLayout, K: LayoutMut + AnyBufferLayout>(
    heap: Heap<'a>,
    what: Make,
) -> Result<Window<'a, L, K>, Reply> {
    match what {
        Make::Slice(text) => read(of_slice(heap, text)),
        Make::Array(items) => read(of_array(heap, items)),
        Make::Vec(text) => read(of_vec(heap, text)),
        Make::Boxed(text) => read(of_boxed(heap, text)),
        Make::Buffer(text) => read(of_buffer(heap, text)),
        Make::BufferWith(text, metadata) => read(of_buffer_with(heap, text, metadata)),
        Make::Raw(text) => read(of_raw(heap, text)),
        Make::Written => written(Ok(Writer::new(heap))),
        Make::WrittenPlaces(places) => written(written_places(heap, places)),
        Make::WrittenZeros(count) => written(written_zeros(heap, count)),
        Make::WrittenSlice(text) => written(written_slice(heap, text)),
        Make::WrittenArray(items) => written(written_array(heap, items)),
        Make::WrittenVec(text) => written(written_vec(heap, text)),
        Make::WrittenBuffer(text) => written(written_buffer(heap, text)),
        Make::WrittenBufferWith(text, metadata) => {
            written(written_buffer_with(heap, text, metadata))
        }
    }
}
