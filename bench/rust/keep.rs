//! Where results go that nothing else reads.
use std::sync::atomic::{AtomicUsize, Ordering::Relaxed};

/// Takes results, so that the loops that make them aren't optimized away.
pub trait Keep<T> {
    /// Takes a number.
    fn number(&self, n: usize);

    /// Takes bytes.
    fn bytes(&self, bytes: &[u8]);

    /// Takes a window, which has to lie in memory for it.
    fn window(&self, window: &T);
}

/// Takes all and does nothing.
struct Silent;

impl<T> Keep<T> for Silent {
    fn number(&self, _n: usize) {}

    fn bytes(&self, _bytes: &[u8]) {}

    fn window(&self, _window: &T) {}
}

/// Counts what it is given.
struct Counting {
    given: AtomicUsize,
}

impl<T> Keep<T> for Counting {
    fn number(&self, n: usize) {
        self.given.fetch_add(n, Relaxed);
    }

    fn bytes(&self, bytes: &[u8]) {
        self.given.fetch_add(bytes.len(), Relaxed);
    }

    fn window(&self, window: &T) {
        self.given.fetch_add(size_of_val(window), Relaxed);
    }
}

static COUNTING: Counting = Counting {
    given: AtomicUsize::new(0),
};

/// Which one it is isn't known before the program runs, so that no result is optimized away.
pub fn chosen<T>(count: usize) -> &'static dyn Keep<T> {
    if count == 0 { &COUNTING } else { &Silent }
}

/// Nothing but the loop.
#[inline(never)]
pub fn empty_loop<T>(count: usize, keep: &dyn Keep<T>) {
    for i in 0..count {
        keep.number(i);
    }
}

/// Nothing but the loop, which hands a window on.
#[inline(never)]
pub fn window_loop<T>(window: &T, count: usize, keep: &dyn Keep<T>) {
    for _ in 0..count {
        keep.window(window);
    }
}

/// Nothing but rounds of steps.
#[inline(never)]
pub fn empty_rounds<T>(count: usize, keep: &dyn Keep<T>) {
    for _ in 0..count {
        for i in 0..ROUND {
            keep.number(i);
        }
    }
}

/// How many bytes are pushed in a round, or pieces copied.
pub const ROUND: usize = 1024;

/// How many bytes a short piece has.
pub const PIECE: usize = 64;

/// How many bytes a long piece has.
pub const LONG: usize = 1000;

/// How many places hold all long pieces of a round.
pub const PLACES: usize = 1_048_576;

/// How many bytes growth to a million pushes.
pub const MILLION: usize = 1_000_000;
