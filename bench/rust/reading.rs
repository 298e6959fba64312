//! The loops over windows that are read, under each layout and over all that one may stand on.
use crate::Words;
use crate::at_site;
use crate::keep::{Keep, chosen, empty_loop, window_loop};
use arc_slice::ArcBytes;
use arc_slice::buffer::Buffer;
use arc_slice::error::AllocError;
use arc_slice::layout::{AnyBufferLayout, RawLayout, StaticLayout};
use std::any::Any;
use std::sync::Arc;

/// How many bytes the windows have.
const LEN: usize = 128;

/// How many bytes a window has that loses one each time.
const MANY: usize = 20_000;

/// The bytes of a static window.
static STATIC: [u8; MANY] = [42; MANY];

/// A caller's buffer: a vector too, which answers for itself.
pub struct Held(pub Vec<u8>);

impl Buffer<[u8]> for Held {
    fn as_slice(&self) -> &[u8] {
        &self.0
    }
}

/// A window over so many bytes, on a block of its own, a vector, a caller's buffer, static bytes
/// or an `Arc`.
fn over<L: StaticLayout + AnyBufferLayout>(base: &str, len: usize) -> Option<ArcBytes<L>> {
    match base {
        "block" => ArcBytes::try_from_slice(&STATIC[..len]).ok(),
        "vector" => ArcBytes::try_from_buffer(vec![42; len]).ok(),
        "buffer" => ArcBytes::try_from_buffer(Held(vec![42; len])).ok(),
        "static" => Some(ArcBytes::from_static(&STATIC[..len])),
        _ => {
            let shared = Arc::new(Held(vec![42; len]));
            let window: ArcBytes<RawLayout> = ArcBytes::try_from_raw_buffer(shared).ok()?;
            let any: Box<dyn Any> = Box::new(window);
            Some(*any.downcast::<ArcBytes<L>>().ok()?)
        }
    }
}

/// Runs an operation on windows under the layout L so often.
pub fn run<L: StaticLayout + AnyBufferLayout>(base: &str, words: &Words) -> Option<()> {
    let (count, second) = (words.count, words.second);
    let keep = chosen::<ArcBytes<L>>(count);
    let window = over::<L>(base, LEN)?;
    match words.operation.as_str() {
        "loop" => Ok(empty_loop(count, keep)),
        "window_loop" => Ok(window_loop(&window, count, keep)),
        "clone" => at_site!(second, clone_local[L](window, count, keep)),
        "clone_shared" => at_site!(second, clone_shared[L](&window, count, keep)),
        "clone_hint" => at_site!(second, clone_hint[L](&window, count, keep)),
        "read" => Ok(at_site!(second, read[L](&window, count, keep))),
        "make" if base == "block" => at_site!(second, make[L](count, keep)),
        "make_hint" if base == "block" => at_site!(second, make_hint[L](count, keep)),
        "empty_cut" => at_site!(second, cut_local[L](window, 7, 7, count, keep)),
        "empty_cut_shared" => at_site!(second, cut_shared[L](&window, 7, 7, count, keep)),
        "short_cut" => at_site!(second, cut_local[L](window, 7, 15, count, keep)),
        "short_cut_shared" => at_site!(second, cut_shared[L](&window, 7, 15, count, keep)),
        "split_off" => at_site!(second, split_off[L](&window, count, keep)),
        "unique" => Ok(at_site!(second, unique[L](&window, count, keep))),
        "advance" => {
            let mut window = over::<L>(base, MANY)?;
            Ok(at_site!(second, advance[L](&mut window, count, keep)))
        }
        "array" if base == "block" => at_site!(second, array[L](count, keep)),
        "back" if base == "vector" => at_site!(second, vector[L](count, keep)),
        "back" if base == "buffer" => at_site!(second, buffer[L](count, keep)),
        "back_cloned" if base == "vector" => at_site!(second, vector_cloned[L](count, keep)),
        _ => return None,
    }
    .ok()
}

/// A clone of a local window, and its release.
#[inline(never)]
fn clone_local<L: StaticLayout, const SITE: usize>(
    window: ArcBytes<L>,
    count: usize,
    keep: &dyn Keep<ArcBytes<L>>,
) -> Result<(), AllocError> {
    for _ in 0..count {
        let clone = window.try_clone()?;
        keep.window(&clone);
    }
    Ok(())
}

/// A clone of a window behind a reference, and its release.
#[inline(never)]
fn clone_shared<L: StaticLayout, const SITE: usize>(
    window: &ArcBytes<L>,
    count: usize,
    keep: &dyn Keep<ArcBytes<L>>,
) -> Result<(), AllocError> {
    for _ in 0..count {
        let clone = window.try_clone()?;
        keep.window(&clone);
    }
    Ok(())
}

/// A clone of a window behind a reference, dropped by the hint.
#[inline(never)]
fn clone_hint<L: StaticLayout, const SITE: usize>(
    window: &ArcBytes<L>,
    count: usize,
    keep: &dyn Keep<ArcBytes<L>>,
) -> Result<(), AllocError> {
    for _ in 0..count {
        let clone = window.try_clone()?;
        keep.window(&clone);
        clone.drop_with_unique_hint();
    }
    Ok(())
}

/// The window's bytes.
#[inline(never)]
fn read<L: StaticLayout, const SITE: usize>(
    window: &ArcBytes<L>,
    count: usize,
    keep: &dyn Keep<ArcBytes<L>>,
) {
    for _ in 0..count {
        keep.bytes(window.as_slice());
    }
}

/// A window over a copy of bytes, and its release.
#[inline(never)]
fn make<L: StaticLayout, const SITE: usize>(
    count: usize,
    keep: &dyn Keep<ArcBytes<L>>,
) -> Result<(), AllocError> {
    let bytes = [42; LEN];
    for _ in 0..count {
        let window: ArcBytes<L> = ArcBytes::try_from_slice(&bytes)?;
        keep.window(&window);
    }
    Ok(())
}

/// A window over a copy of bytes, dropped by the hint.
#[inline(never)]
fn make_hint<L: StaticLayout, const SITE: usize>(
    count: usize,
    keep: &dyn Keep<ArcBytes<L>>,
) -> Result<(), AllocError> {
    let bytes = [42; LEN];
    for _ in 0..count {
        let window: ArcBytes<L> = ArcBytes::try_from_slice(&bytes)?;
        keep.window(&window);
        window.drop_with_unique_hint();
    }
    Ok(())
}

/// A cut of a local window, and its release.
#[inline(never)]
fn cut_local<L: StaticLayout, const SITE: usize>(
    window: ArcBytes<L>,
    start: usize,
    end: usize,
    count: usize,
    keep: &dyn Keep<ArcBytes<L>>,
) -> Result<(), AllocError> {
    for _ in 0..count {
        let cut = window.try_subslice(start..end)?;
        keep.window(&cut);
    }
    Ok(())
}

/// A cut of a window behind a reference, and its release.
#[inline(never)]
fn cut_shared<L: StaticLayout, const SITE: usize>(
    window: &ArcBytes<L>,
    start: usize,
    end: usize,
    count: usize,
    keep: &dyn Keep<ArcBytes<L>>,
) -> Result<(), AllocError> {
    for _ in 0..count {
        let cut = window.try_subslice(start..end)?;
        keep.window(&cut);
    }
    Ok(())
}

/// The back of a clone, split off, and the release of both.
#[inline(never)]
fn split_off<L: StaticLayout, const SITE: usize>(
    window: &ArcBytes<L>,
    count: usize,
    keep: &dyn Keep<ArcBytes<L>>,
) -> Result<(), AllocError> {
    for _ in 0..count {
        let mut front = window.try_clone()?;
        let back = front.try_split_off(7)?;
        keep.window(&back);
        keep.window(&front);
    }
    Ok(())
}

/// Whether the window is alone.
#[inline(never)]
fn unique<L: StaticLayout, const SITE: usize>(
    window: &ArcBytes<L>,
    count: usize,
    keep: &dyn Keep<ArcBytes<L>>,
) {
    for _ in 0..count {
        keep.number(usize::from(window.is_unique()));
    }
}

/// A byte less each time, at the front.
#[inline(never)]
fn advance<L: StaticLayout, const SITE: usize>(
    window: &mut ArcBytes<L>,
    count: usize,
    keep: &dyn Keep<ArcBytes<L>>,
) {
    for _ in 0..count {
        window.advance(1);
        keep.window(window);
    }
}

/// An array of 32 as a window, and back.
#[inline(never)]
fn array<L: StaticLayout, const SITE: usize>(
    count: usize,
    keep: &dyn Keep<ArcBytes<L>>,
) -> Result<(), AllocError> {
    for _ in 0..count {
        let made: Result<ArcBytes<L>, [u8; 32]> = ArcBytes::try_from_array([42; 32]);
        let Ok(window) = made else {
            return Err(AllocError);
        };
        if let Ok(bytes) = <[u8; 32]>::try_from(window) {
            keep.bytes(&bytes);
        }
    }
    Ok(())
}

/// A vector as a window, and back.
#[inline(never)]
fn vector<L: AnyBufferLayout, const SITE: usize>(
    count: usize,
    keep: &dyn Keep<ArcBytes<L>>,
) -> Result<(), AllocError> {
    let mut bytes = vec![42; LEN];
    for _ in 0..count {
        let window = ArcBytes::try_from_buffer(bytes).map_err(|_| AllocError)?;
        keep.window(&window);
        bytes = window.try_into_buffer().map_err(|_| AllocError)?;
    }
    Ok(())
}

/// A vector as a window, and back, with a clone made and released between.
#[inline(never)]
fn vector_cloned<L: AnyBufferLayout, const SITE: usize>(
    count: usize,
    keep: &dyn Keep<ArcBytes<L>>,
) -> Result<(), AllocError> {
    let mut bytes = vec![42; LEN];
    for _ in 0..count {
        let window = ArcBytes::try_from_buffer(bytes).map_err(|_| AllocError)?;
        keep.window(&window);
        let clone = window.try_clone()?;
        keep.window(&clone);
        drop(clone);
        bytes = window.try_into_buffer().map_err(|_| AllocError)?;
    }
    Ok(())
}

/// A caller's buffer as a window, and back.
#[inline(never)]
fn buffer<L: AnyBufferLayout, const SITE: usize>(
    count: usize,
    keep: &dyn Keep<ArcBytes<L>>,
) -> Result<(), AllocError> {
    let mut bytes = Held(vec![42; LEN]);
    for _ in 0..count {
        let window = ArcBytes::try_from_buffer(bytes).map_err(|_| AllocError)?;
        keep.window(&window);
        bytes = window.try_into_buffer().map_err(|_| AllocError)?;
    }
    Ok(())
}
