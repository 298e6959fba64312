//! A heap for tests: it counts what it is asked for and what comes back, and refuses one request.
//! What an atomic holds is known to no contract, so none says a count.
#![tactic(auto)]

use std::alloc::{AllocError, Allocator};
use std::sync::atomic::{AtomicU64, Ordering};

#[cfg(test)]
mod tests;

/// Requests for memory, and which of them is to be refused.
#[derive(Drop)]
struct Requests {
    /// How many there were.
    count: AtomicU64,
    /// The number of the one that is refused, or 0.
    refused: AtomicU64,
    /// How many were refused.
    refusals: AtomicU64,
}

impl Requests {
    /// Counts a request, and says whether it is to be refused.
    fn is_refused(&self) -> bool {
        let number = self.count.fetch_add(1, Ordering::SeqCst).wrapping_add(1);
        if self.refused.load(Ordering::SeqCst) != number {
            return false;
        }
        self.refusals.fetch_add(1, Ordering::SeqCst);
        true
    }
}

/// A piece more is out.
fn one_more(pieces: &AtomicU64) {
    pieces.fetch_add(1, Ordering::SeqCst);
}

/// A piece is back.
fn one_less(pieces: &AtomicU64) {
    pieces.fetch_sub(1, Ordering::SeqCst);
}

/// A heap that hands each request on to another one, counts, and refuses the request that a test
/// names. Many windows and lists can have it as their allocator by a `&`, which can be copied. A
/// list that grows asks for a piece and gives one back.
#[derive(Drop)]
pub struct CountingHeap<B: Allocator> {
    inner: B,
    requests: Requests,
    /// How many pieces of memory are out.
    pieces: AtomicU64,
}

impl<B: Allocator> CountingHeap<B> {
    /// A heap over this one, of which nothing was asked and which refuses nothing. Takes no memory.
    pub fn new(inner: B) -> CountingHeap<B> {
        CountingHeap {
            inner,
            requests: Requests {
                count: AtomicU64::new(0),
                refused: AtomicU64::new(0),
                refusals: AtomicU64::new(0),
            },
            pieces: AtomicU64::new(0),
        }
    }

    /// Counts requests and refusals anew. The request with this number from now on is refused, 1
    /// the next one, and no other; 0 is none.
    pub fn refuse(&self, request: u64) {
        self.requests.refused.store(request, Ordering::SeqCst);
        self.requests.refusals.store(0, Ordering::SeqCst);
        self.requests.count.store(0, Ordering::SeqCst);
    }

    /// How many requests there were since it was told which one to refuse, also those that were
    /// refused.
    pub fn requests(&self) -> u64 {
        self.requests.count.load(Ordering::SeqCst)
    }

    /// How many of these it refused itself.
    pub fn refusals(&self) -> u64 {
        self.requests.refusals.load(Ordering::SeqCst)
    }

    /// How many pieces of memory were handed out and haven't come back.
    pub fn pieces(&self) -> u64 {
        self.pieces.load(Ordering::SeqCst)
    }
}

unsafe impl<B: Allocator> Allocator for CountingHeap<B> {
    ghost dealloc_token = { λ heap. B.dealloc_token heap.inner };

    fn allocate(&self, size: usize, align: usize) -> Result<*mut u8, AllocError> {
        if self.requests.is_refused() {
            return Err(AllocError);
        }
        match self.inner.allocate(size, align) {
            Ok(piece) => {
                one_more(&self.pieces);
                Ok(piece)
            }
            Err(e) => Err(e),
        }
    }

    unsafe fn deallocate(&self, ptr: *mut u8, size: usize, align: usize) {
        one_less(&self.pieces);
        self.inner.deallocate(ptr, size, align);
    }
}
