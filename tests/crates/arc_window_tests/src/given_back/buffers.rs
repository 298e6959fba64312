//! Windows over callers' buffers, by how they came to stand there and how they end. Metadata that
//! came in beside a buffer is dropped once, where the buffer comes back and where it ends too.
use super::{Heap, Reader, Writer, of_vector_items};
use crate::living::{Values, living};
use crate::shelf::{Shelf, filled};
use arc_block::layout::{
    AnyBufferLayout, DefaultLayout, DefaultLayoutMut, Layout, RawLayout, VecLayout,
};
use arc_buffer::buffer::{AsMutBuffer, BufferMut};
use arc_buffer::kinds::Owned;
use arc_owners::error::TryReserveError;
use arc_read::slice::ArcSlice;
use arc_write::slice_mut::{ArcSliceMut, IntoMut};
use std::alloc::Global;
use std::sync::{Arc, Wait};

/// How a window came to stand on a buffer.
#[derive(Clone, Copy)]
pub enum Made {
    /// It reads it.
    Read,
    /// It wrote it, and was frozen.
    Frozen,
    /// It wrote it, was frozen, and went to another layout and back.
    Moved,
    /// It reads one behind an `Arc`, which its block counts.
    Counted,
    /// It reads one behind an `Arc` that is a block by itself.
    ByItself,
    /// It writes it.
    Written,
    /// It was frozen, and writes it again, when a clone has ended.
    WrittenAgain,
    /// It writes it, and the buffer has grown.
    Grown,
}

/// All of them.
pub const MADE: &[Made] = &[
    Made::Read,
    Made::Frozen,
    Made::Moved,
    Made::Counted,
    Made::ByItself,
    Made::Written,
    Made::WrittenAgain,
    Made::Grown,
];

/// How a window ends. The first four give the buffer back; a writer is never the last of several
/// owners of a buffer, and gives it by the first two alone.
#[derive(Clone, Copy)]
pub enum End {
    /// The buffer is taken back.
    Taken,
    /// The same with a pass.
    TakenAs,
    /// A clone ends first by the same call, and gets nothing.
    Last,
    /// The same with passes.
    LastAs,
    /// It is released.
    Released,
    /// It is dropped, and asks first whether it is alone.
    Hinted,
    /// The same with a pass.
    HintedAs,
    /// It is let go.
    LetGo,
    /// It is dropped.
    Dropped,
    /// It is dropped before its clone, which has the same metadata.
    BeforeClone,
    /// It is split, and both parts are dropped. A writer is cut instead.
    Parted,
}

/// All of them.
pub const ENDS: &[End] = &[
    End::Taken,
    End::TakenAs,
    End::Last,
    End::LastAs,
    End::Released,
    End::Hinted,
    End::HintedAs,
    End::LetGo,
    End::Dropped,
    End::BeforeClone,
    End::Parted,
];

/// How many owners there are of the values while the buffer lives without metadata, and when all
/// has ended. The last value is metadata, where there is any.
const BUFFER: [usize; 5] = [2, 2, 2, 2, 1];

const NONE: [usize; 5] = [1; 5];

/// A window that reads a buffer, under any layout.
type Window<'a, L> = ArcSlice<Owned<Arc<u8>>, L, AsMutBuffer<Shelf>, Arc<u8>, Heap<'a>>;

/// One that writes any buffer.
type WindowMut<'a, B> = ArcSliceMut<Owned<Arc<u8>>, DefaultLayoutMut, 1, B, Arc<u8>, Heap<'a>>;

/// One that writes a vector as a caller's buffer.
type Growing<'a> = WindowMut<'a, Vec<Arc<u8>, Heap<'a>>>;

/// Whether the buffer that came back lives, its metadata doesn't, and all is dropped with it.
fn is_had<V: Drop>(buffer: V, values: &Values) -> bool {
    let with = living(values);
    drop(buffer);
    (with, living(values)) == (BUFFER, NONE)
}

/// A window of a buffer with metadata, in either role. Where memory is refused both come back, and
/// go in again.
macro_rules! over_filled {
    ($role:ident, $alloc:ident, $heap:ident, $values:ident) => {{
        let (buffer, metadata) = filled($alloc, $values)?;
        match $role::try_from_buffer_with_metadata($heap, buffer, metadata) {
            Ok(window) => Some(window),
            Err((buffer, metadata)) => {
                if living($values) != [2; 5] {
                    return None;
                }
                $role::try_from_buffer_with_metadata($heap, buffer, metadata).ok()
            }
        }
    }};
}

/// One that reads.
fn reader<'a>(alloc: Global, heap: Heap<'a>, values: &Values) -> Option<Reader<'a>> {
    over_filled!(Reader, alloc, heap, values)
}

/// One that writes.
fn writer<'a>(alloc: Global, heap: Heap<'a>, values: &Values) -> Option<Writer<'a>> {
    over_filled!(Writer, alloc, heap, values)
}

/// A writer that was frozen.
fn frozen<'a>(alloc: Global, heap: Heap<'a>, values: &Values) -> Option<Reader<'a>> {
    writer(alloc, heap, values)?
        .try_freeze::<DefaultLayout>()
        .ok()
}

/// One that went to another layout and back.
fn moved<'a>(alloc: Global, heap: Heap<'a>, values: &Values) -> Option<Reader<'a>> {
    let window = frozen(alloc, heap, values)?;
    let other = window.try_with_layout::<VecLayout>().ok()?;
    other.try_with_layout::<DefaultLayout>().ok()
}

/// One that was frozen and writes again, which is refused while a clone lives.
fn again<'a>(rt: &impl Wait, alloc: Global, heap: Heap<'a>, values: &Values) -> Option<Writer<'a>> {
    let window = frozen(alloc, heap, values)?;
    let clone = window.try_clone(rt).ok()?;
    let window = window.try_into_mut::<DefaultLayoutMut>().err()?;
    drop(clone);
    window.try_into_mut::<DefaultLayoutMut>().ok()
}

/// One that writes a vector, which the fourth value makes grow.
fn grown<'a>(heap: Heap<'a>, values: &Values) -> Option<Growing<'a>> {
    let metadata = Arc::try_clone(&values[4]).ok()?;
    let items = of_vector_items(heap, values)?;
    let mut window = match Growing::try_from_buffer_with_metadata(heap, items, metadata) {
        Ok(window) => window,
        Err((items, metadata)) => {
            Growing::try_from_buffer_with_metadata(heap, items, metadata).ok()?
        }
    };
    match window.try_push(Arc::try_clone(&values[3]).ok()?) {
        Ok(()) => Some(window),
        Err((TryReserveError::AllocError, back)) => {
            window.try_push(back).ok()?;
            Some(window)
        }
        Err(_) => None,
    }
}

/// One that reads a buffer behind an `Arc`. Where memory is refused it is made anew, or goes in
/// again.
fn over_arc<'a, L: AnyBufferLayout>(
    alloc: Global,
    heap: Heap<'a>,
    values: &Values,
) -> Option<Window<'a, L>> {
    let (buffer, metadata) = filled(alloc, values)?;
    drop(metadata);
    let shared = match Arc::new(heap, buffer) {
        Ok(shared) => shared,
        Err(_) => {
            let (buffer, metadata) = filled(alloc, values)?;
            drop(metadata);
            Arc::new(heap, buffer).ok()?
        }
    };
    match Window::<L>::try_from_raw_buffer(heap, shared) {
        Ok(window) => Some(window),
        Err(back) => Window::<L>::try_from_raw_buffer(heap, back).ok(),
    }
}

/// Whether all stays until the second of two windows is dropped, and both have the metadata that
/// lives.
fn before_clone<L: Layout>(rt: &impl Wait, window: Window<'_, L>, values: &Values) -> Option<bool> {
    let clone = window.try_clone(rt).ok()?;
    let both = living(values);
    let have = [window.metadata().is_some(), clone.metadata().is_some()];
    drop(window);
    let one = living(values);
    drop(clone);
    Some((have, one, living(values)) == ([both[4] == 2; 2], both, NONE))
}

/// Whether all stays until the second part is dropped.
fn parted<L: Layout>(rt: &impl Wait, window: Window<'_, L>, values: &Values) -> Option<bool> {
    let mut window = window;
    if window.check_at(1).is_err() {
        return None;
    }
    let both = living(values);
    let back = window.try_split_off(rt, 1).ok()?;
    drop(window);
    let one = living(values);
    drop(back);
    Some(one == both && living(values) == NONE)
}

/// Whether a window that ends takes the buffer with it.
fn ended<L: Layout>(
    rt: &impl Wait,
    window: Window<'_, L>,
    values: &Values,
    end: End,
) -> Option<bool> {
    let mut pass = window.pass();
    match end {
        End::Released => window.release_as(&mut pass),
        End::Hinted => window.drop_with_unique_hint(),
        End::HintedAs => window.drop_with_unique_hint_as(&mut pass),
        End::LetGo => {
            let _ = window.let_go();
        }
        End::BeforeClone => return before_clone(rt, window, values),
        End::Parted => return parted(rt, window, values),
        _ => drop(window),
    }
    Some(living(values) == NONE)
}

/// The buffer of a window that is taken back, by this call or by that with a pass; or of the second
/// of two windows that end.
macro_rules! taken {
    ($rt:ident, $window:ident, $values:ident, $end:ident, $take:ident, $take_as:ident,
        $last:ident, $last_as:ident) => {{
        let mut pass = $window.pass();
        let had = match $end {
            End::Taken => $window.$take().ok()?,
            End::TakenAs => $window.$take_as(&mut pass).ok()?,
            End::Last => {
                let clone = $window.try_clone($rt).ok()?;
                if $window.$last().ok()?.is_some() {
                    return None;
                }
                clone.$last().ok()??
            }
            End::LastAs => {
                let clone = $window.try_clone_as($rt, &mut pass).ok()?;
                if $window.$last_as(&mut pass).ok()?.is_some() {
                    return None;
                }
                clone.$last_as(&mut pass).ok()??
            }
            _ => return ended($rt, $window, $values, $end),
        };
        Some(is_had(had, $values))
    }};
}

/// Whether a reader of a buffer ends as it is to end.
fn of_reader(rt: &impl Wait, window: Reader<'_>, values: &Values, end: End) -> Option<bool> {
    taken!(
        rt,
        window,
        values,
        end,
        try_into_buffer,
        try_into_buffer_as,
        into_buffer_if_last,
        into_buffer_if_last_as
    )
}

/// The same of a buffer behind an `Arc` that a block counts.
fn of_arc(
    rt: &impl Wait,
    window: Window<'_, DefaultLayout>,
    values: &Values,
    end: End,
) -> Option<bool> {
    taken!(
        rt,
        window,
        values,
        end,
        try_into_raw_buffer,
        try_into_raw_buffer_as,
        into_raw_buffer_if_last,
        into_raw_buffer_if_last_as
    )
}

/// The same of an `Arc` that is a block by itself: each of two windows gets one of its own.
fn of_block(
    rt: &impl Wait,
    window: Window<'_, RawLayout>,
    values: &Values,
    end: End,
) -> Option<bool> {
    let mut pass = window.pass();
    let had = match end {
        End::Taken => window.try_into_raw_buffer().ok()?,
        End::TakenAs => window.try_into_raw_buffer_as(&mut pass).ok()?,
        End::Last => {
            let clone = window.try_clone(rt).ok()?;
            drop(window.into_raw_buffer_if_last().ok()??);
            clone.into_raw_buffer_if_last().ok()??
        }
        End::LastAs => {
            let clone = window.try_clone_as(rt, &mut pass).ok()?;
            drop(window.into_raw_buffer_if_last_as(&mut pass).ok()??);
            clone.into_raw_buffer_if_last_as(&mut pass).ok()??
        }
        _ => return ended(rt, window, values, end),
    };
    Some(is_had(had, values))
}

/// Whether a part of a buffer isn't given for it, and all is dropped with its writer.
fn cut<B: BufferMut<Arc<u8>> + Drop>(window: WindowMut<'_, B>, values: &Values) -> Option<bool> {
    let mut window = window;
    let with = living(values);
    window.truncate(1);
    let window = window.try_into_buffer().err()?;
    let after = living(values);
    drop(window);
    Some(with == after && living(values) == NONE)
}

/// Whether a writer ends as it is to end.
fn of_writer<B: BufferMut<Arc<u8>> + Drop>(
    window: WindowMut<'_, B>,
    values: &Values,
    end: End,
) -> Option<bool> {
    let mut pass = window.pass();
    match end {
        End::Taken | End::Last => return Some(is_had(window.try_into_buffer().ok()?, values)),
        End::TakenAs | End::LastAs => {
            return Some(is_had(window.try_into_buffer_as(&mut pass).ok()?, values));
        }
        End::Released => window.release_as(&mut pass),
        End::Hinted => window.drop_with_unique_hint(),
        End::HintedAs => window.drop_with_unique_hint_as(&mut pass),
        End::LetGo => {
            let _ = window.let_go();
        }
        End::Parted => return cut(window, values),
        _ => drop(window),
    }
    Some(living(values) == NONE)
}

/// Whether all went as it is to go.
pub fn run(
    rt: &impl Wait,
    alloc: Global,
    heap: Heap<'_>,
    values: &Values,
    made: Made,
    end: End,
) -> Option<bool> {
    match made {
        Made::Read => of_reader(rt, reader(alloc, heap, values)?, values, end),
        Made::Frozen => of_reader(rt, frozen(alloc, heap, values)?, values, end),
        Made::Moved => of_reader(rt, moved(alloc, heap, values)?, values, end),
        Made::Counted => of_arc(rt, over_arc(alloc, heap, values)?, values, end),
        Made::ByItself => of_block(rt, over_arc(alloc, heap, values)?, values, end),
        Made::Written => of_writer(writer(alloc, heap, values)?, values, end),
        Made::WrittenAgain => of_writer(again(rt, alloc, heap, values)?, values, end),
        Made::Grown => of_writer(grown(heap, values)?, values, end),
    }
}
