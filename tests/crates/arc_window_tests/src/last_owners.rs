//! Threads that each end an owner of one block by a call that gives the last one what the block
//! keeps: of all of them exactly one gets it.
use arc_block::layout::{DefaultLayoutMut, VecLayout};
use arc_buffer::kinds::Plain;
use arc_read::slice::ArcSlice;
use arc_write::slice_mut::{ArcBytesMut, ArcBytesShared};
use std::alloc::Global;
use std::sync::atomic::AtomicU64;
use std::sync::atomic::Ordering::SeqCst;
use std::sync::{Arc, Wait};
use std::test::Fail;
use std::thread::{Threads, map_vec, yield_now};

/// Bytes over a vector, or over a vector as a caller's buffer, behind an `Arc` or not.
type Window = ArcSlice<Plain<u8>, VecLayout>;

/// How many threads end an owner of one block, and of how many blocks each does so.
const THREADS: usize = 8;

const ROUNDS: usize = 1000;

/// How often a thread yields at most until all others have come as far.
const TURNS: u32 = 1_000_000;

/// What a thread ends, an owner in each round, and what it is to have of them.
#[derive(Drop)]
struct Job<W: Drop, V: Drop> {
    owners: Vec<W>,
    had: Vec<V>,
}

/// Waits until all threads have come as far: so many of them, once for each round.
fn meet(arrived: &AtomicU64, all: u64) {
    arrived.fetch_add(1, SeqCst);
    for _ in 0..TURNS {
        if arrived.load(SeqCst) >= all {
            return;
        }
        yield_now();
    }
}

/// Ends an owner in each round, when all threads have come there. What it had of them.
fn had_of<W: Drop, V: Drop, F: Fn(W) -> Option<V>>(
    job: Job<W, V>,
    arrived: &AtomicU64,
    end: &F,
) -> Vec<V> {
    let Job { owners, mut had } = job;
    let mut all = 0u64;
    for owner in owners {
        all = all.wrapping_add(THREADS as u64);
        meet(arrived, all);
        if let Some(it) = end(owner) {
            let _ = had.push(it);
        }
    }
    had
}

/// The number of a round as two bytes.
fn bytes_of(round: usize) -> [u8; 2] {
    [(round % 256) as u8, (round / 256) as u8]
}

/// What each thread had in all rounds, where each of these many owners of a round's block is ended
/// by a thread of its own.
fn had_by_all<
    R: Threads + Wait + Sync,
    W: Send + Drop,
    V: Send + Drop,
    M: Fn(&R, Global, usize) -> Option<Vec<W>>,
    F: Fn(W) -> Option<V> + Sync,
>(rt: &R, alloc: Global, make: &M, end: &F) -> Option<Vec<Vec<V>>> {
    let mut jobs: Vec<Job<W, V>> = Vec::with_capacity(alloc, THREADS).ok()?;
    for _ in 0..THREADS {
        let owners = Vec::with_capacity(alloc, ROUNDS).ok()?;
        let had = Vec::with_capacity(alloc, ROUNDS).ok()?;
        jobs.push(Job { owners, had }).ok()?;
    }
    for round in 0..ROUNDS {
        let owners = make(rt, alloc, round)?;
        for (job, owner) in jobs.iter_mut().zip(owners) {
            job.owners.push(owner).ok()?;
        }
    }
    let arrived = AtomicU64::new(0);
    map_vec(rt, jobs, &|job: Job<W, V>| had_of(job, &arrived, end)).ok()
}

/// Whether of each round one was had, and no other. `bytes` are those of what was had.
fn is_each_once<V: Drop, G: Fn(&V) -> Option<[u8; 2]>>(had: &[Vec<V>], bytes: &G) -> bool {
    let mut times = [0u8; ROUNDS];
    for of_thread in had {
        for it in of_thread.iter() {
            let Some([low, high]) = bytes(it) else {
                return false;
            };
            let round = low as usize + 256 * high as usize;
            if round >= ROUNDS {
                return false;
            }
            times[round] = times[round].wrapping_add(1);
        }
    }
    times.iter().all(|count| *count == 1)
}

/// The bytes of a vector that has two.
fn two_of(bytes: &[u8]) -> Option<[u8; 2]> {
    match bytes {
        [low, high] => Some([*low, *high]),
        _ => None,
    }
}

/// A window, and as many clones as there are other threads.
fn with_clones<R: Wait>(rt: &R, alloc: Global, window: Window) -> Option<Vec<Window>> {
    let mut windows = Vec::with_capacity(alloc, THREADS).ok()?;
    for _ in 1..THREADS {
        let Ok(clone) = window.try_clone(rt) else {
            return None;
        };
        windows.push(clone).ok()?;
    }
    windows.push(window).ok()?;
    Some(windows)
}

/// Windows over a round's vector.
fn over_vector<R: Wait>(rt: &R, alloc: Global, round: usize) -> Option<Vec<Window>> {
    let bytes = Vec::from_slice(alloc, &bytes_of(round)).ok()?;
    with_clones(rt, alloc, Window::try_from_vec(alloc, bytes).ok()?)
}

/// Windows over a round's buffer.
fn over_buffer<R: Wait>(rt: &R, alloc: Global, round: usize) -> Option<Vec<Window>> {
    let bytes = Vec::from_slice(alloc, &bytes_of(round)).ok()?;
    with_clones(rt, alloc, Window::try_from_buffer(alloc, bytes).ok()?)
}

/// Windows over a round's `Arc` of a buffer.
fn over_arc<R: Wait>(rt: &R, alloc: Global, round: usize) -> Option<Vec<Window>> {
    let bytes = Vec::from_slice(alloc, &bytes_of(round)).ok()?;
    let shared = Arc::new(alloc, bytes).ok()?;
    with_clones(rt, alloc, Window::try_from_raw_buffer(alloc, shared).ok()?)
}

/// Several writers on a round's block, of two places each.
fn several<R: Wait>(rt: &R, alloc: Global, round: usize) -> Option<Vec<ArcBytesShared>> {
    let mut bytes = ArcBytesMut::<DefaultLayoutMut>::try_with_capacity(alloc, 2 * THREADS).ok()?;
    for _ in 0..THREADS {
        bytes.try_extend_from_slice(&bytes_of(round)).ok()?;
    }
    let mut first: ArcBytesShared = bytes.into_shared().ok()?;
    let mut writers = Vec::with_capacity(alloc, THREADS).ok()?;
    for others in 1..THREADS {
        let Ok(writer) = first.try_split_off(rt, 2 * (THREADS - others)) else {
            return None;
        };
        writers.push(writer).ok()?;
    }
    writers.push(first).ok()?;
    Some(writers)
}

/// In each of a thousand rounds eight threads end a window over one vector: one gets it.
#[test]
fn one_vector(rt: HostRuntime) -> Result<(), Fail> {
    let end = |window: Window| match window.into_vec_if_last() {
        Ok(last) => last,
        Err(_) => None,
    };
    let Some(had) = had_by_all(&rt, rt.alloc(), &over_vector, &end) else {
        return Err("no memory".into());
    };
    assert!(rt; is_each_once(&had, &|bytes: &Vec<u8>| two_of(bytes)));
    Ok(())
}

/// The same of a box.
#[test]
fn one_box(rt: HostRuntime) -> Result<(), Fail> {
    let end = |window: Window| match window.into_boxed_if_last() {
        Ok(Some(bytes)) => Some(bytes.into_vec()),
        _ => None,
    };
    let Some(had) = had_by_all(&rt, rt.alloc(), &over_vector, &end) else {
        return Err("no memory".into());
    };
    assert!(rt; is_each_once(&had, &|bytes: &Vec<u8>| two_of(bytes)));
    Ok(())
}

/// The same of a caller's buffer.
#[test]
fn one_buffer(rt: HostRuntime) -> Result<(), Fail> {
    let end = |window: Window| match window.into_buffer_if_last() {
        Ok(last) => last,
        Err(_) => None,
    };
    let Some(had) = had_by_all(&rt, rt.alloc(), &over_buffer, &end) else {
        return Err("no memory".into());
    };
    assert!(rt; is_each_once(&had, &|bytes: &Vec<u8>| two_of(bytes)));
    Ok(())
}

/// The same of an `Arc` of one.
#[test]
fn one_arc(rt: HostRuntime) -> Result<(), Fail> {
    let end = |window: Window| match window.into_raw_buffer_if_last() {
        Ok(last) => last,
        Err(_) => None,
    };
    let Some(had) = had_by_all(&rt, rt.alloc(), &over_arc, &end) else {
        return Err("no memory".into());
    };
    assert!(rt; is_each_once(&had, &|shared: &Arc<Vec<u8>>| two_of(shared)));
    Ok(())
}

/// The same of eight writers on one block, of which one is the only writer then.
#[test]
fn one_writer(rt: HostRuntime) -> Result<(), Fail> {
    let end = |writer: ArcBytesShared| match writer.into_unique_if_last() {
        Ok(last) => last,
        Err(_) => None,
    };
    let Some(had) = had_by_all(&rt, rt.alloc(), &several, &end) else {
        return Err("no memory".into());
    };
    assert!(rt; is_each_once(&had, &|writer: &ArcBytesMut| two_of(writer.as_slice())));
    Ok(())
}
