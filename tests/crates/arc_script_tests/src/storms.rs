//! Storms of clones: two workers at the gate at one time, how often each passes, and how many
//! workers the program lets in. No test sees the clones.
use crate::devices::{Pieces, Taken};
use crate::program::words_in;
use crate::rows::USAGE;
use arc_script::io::Counted;
use arc_script::program::run_args;
use arc_script::storm::{Gate, OpenGate, storm};
use std::alloc::AllocError;
use std::sync::Wait;
use std::sync::atomic::AtomicU64;
use std::sync::atomic::Ordering::SeqCst;
use std::test::Fail;
use std::thread::{Threads, yield_now};

/// How often the first worker yields at most until the second one comes.
const TURNS: u32 = 1_000_000;

/// A gate that holds worker 1 at first until worker 2 comes. It counts how often each of the two
/// passes.
#[derive(Drop)]
struct Meeting {
    first: AtomicU64,
    second: AtomicU64,
    missed: AtomicU64,
}

impl Meeting {
    /// Waits until the second worker has passed, for so many turns at most.
    fn wait_for_second(&self) {
        for _ in 0..TURNS {
            if self.second.load(SeqCst) > 0 {
                return;
            }
            yield_now();
        }
        self.missed.store(1, SeqCst);
    }
}

impl Gate for Meeting {
    fn pass(&self, worker: usize) {
        if worker == 2 {
            self.second.fetch_add(1, SeqCst);
        } else if self.first.fetch_add(1, SeqCst) == 0 {
            self.wait_for_second();
        }
    }
}

/// What the program comes to for a storm of so many workers, which pass this gate: its status, what
/// it wrote and what it told, and how often it read.
fn storm_of<R: Threads + Wait + Sync + AllocGlobal, G: Gate + Sync>(
    rt: &R,
    gate: &G,
    workers: &str,
) -> Result<(u8, Vec<u8>, Vec<u8>, usize), AllocError> {
    let mut input = Pieces::new(b"show 0\n", usize::MAX);
    let mut taken = Taken::new(rt.alloc(), usize::MAX);
    let mut told = Taken::new(rt.alloc(), usize::MAX);
    let words = words_in(rt.alloc(), &["storm", workers])?;
    let mut reader = Counted::new(&mut input);
    let mut writer = Counted::new(&mut taken);
    let mut faults = Counted::new(&mut told);
    let status = run_args(
        rt,
        gate,
        rt.alloc(),
        &words,
        &mut reader,
        &mut writer,
        &mut faults,
    );
    Ok((status, taken.bytes, told.bytes, input.calls))
}

/// Two workers of the program's storm are at the gate at one time, within 1,000,000 turns, and each
/// passes 1,000 times: one worker after the other would wait in vain.
#[test]
fn both_cloned(rt: HostRuntime) -> Result<(), Fail> {
    let gate = Meeting {
        first: AtomicU64::new(0),
        second: AtomicU64::new(0),
        missed: AtomicU64::new(0),
    };
    let (status, written, told, reads) = storm_of(&rt, &gate, "2")?;
    let passed = [
        gate.first.load(SeqCst),
        gate.second.load(SeqCst),
        gate.missed.load(SeqCst),
    ];
    let found = (status, written.as_slice(), told.as_slice(), reads, passed);
    assert!(rt; found == (0, b"2a\n".as_slice(), b"".as_slice(), 0, [1000, 1000, 0]));
    Ok(())
}

/// A gate that counts how often it is passed, and adds up by whom.
#[derive(Drop)]
struct Tally {
    passed: AtomicU64,
    workers: AtomicU64,
}

impl Gate for Tally {
    fn pass(&self, worker: usize) {
        self.passed.fetch_add(1, SeqCst);
        self.workers.fetch_add(worker as u64, SeqCst);
    }
}

/// For none, and for one more than 64, the program tells its usage, and nobody passes the gate. For
/// 1 and for 64 each worker passes 1,000 times: the numbers from 1 to 64 add up to 2,080.
#[test]
fn from_1_to_64(rt: HostRuntime) -> Result<(), Fail> {
    let (none, vector) = (b"".as_slice(), b"2a\n".as_slice());
    for (workers, status, text, line, passed) in [
        ("0", 2, none, USAGE, [0, 0]),
        ("1", 0, vector, none, [1_000, 1_000]),
        ("64", 0, vector, none, [64_000, 2_080_000]),
        ("65", 2, none, USAGE, [0, 0]),
    ] {
        let gate = Tally {
            passed: AtomicU64::new(0),
            workers: AtomicU64::new(0),
        };
        let (ended, written, told, reads) = storm_of(&rt, &gate, workers)?;
        let tally = [gate.passed.load(SeqCst), gate.workers.load(SeqCst)];
        let found = (ended, written.as_slice(), told.as_slice(), reads, tally);
        assert!(rt; found == (status, text, line, 0, passed));
    }
    Ok(())
}

/// The storm by itself, of as many workers as the program lets in, and of one.
#[test]
fn many_workers(rt: HostRuntime) -> Result<(), Fail> {
    for workers in [64, 1] {
        let bytes = storm(&rt, rt.alloc(), workers, &OpenGate)?;
        assert!(rt; bytes.as_slice() == [42].as_slice());
    }
    Ok(())
}
