//! Clones of one window by several threads at once, through one reference.
use crate::words::Operation;
use arc_owners::error::OwnerError;
use arc_slice::ArcBytes;
use std::alloc::Global;
use std::sync::Wait;
use std::thread::{self, Threads};

/// Clones the window so often, and releases each clone.
fn work(rt: &impl Wait, window: &ArcBytes, count: usize) -> Result<(), OwnerError> {
    for _ in 0..count {
        drop(window.try_clone(rt)?);
    }
    Ok(())
}

/// Lets so many threads clone one window so often each, and answers whether all was done.
pub fn run<R: Threads + Wait + Sync>(
    rt: &R,
    alloc: Global,
    workers: usize,
    operation: Operation,
    count: usize,
) -> bool {
    let Ok(window) = ArcBytes::try_from_slice(alloc, &[42; 128]) else {
        return false;
    };
    match operation {
        Operation::CloneShared => in_threads(rt, alloc, &window, workers, count),
        _ => false,
    }
}

/// The same, once there is a window.
fn in_threads<R: Threads + Wait + Sync>(
    rt: &R,
    alloc: Global,
    window: &ArcBytes,
    workers: usize,
    count: usize,
) -> bool {
    let done: Result<(), OwnerError> = thread::scope(thread::scope_env(), rt, |scope| {
        let mut started = Vec::new(alloc);
        for _ in 0..workers {
            let Ok(thread) = scope.spawn(move || work(rt, window, count)) else {
                return Err(OwnerError::AllocError);
            };
            let Ok(()) = started.push(thread) else {
                return Err(OwnerError::AllocError);
            };
        }
        for thread in started {
            let Ok(()) = thread.join(rt) else {
                return Err(OwnerError::AllocError);
            };
        }
        Ok(())
    });
    done.is_ok()
}
