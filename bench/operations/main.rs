//! Operations on windows, each run as often as the words say, for callgrind to count.
//!
//! `bench_ops SIDE OPERATION COUNT [second]`: what the sides and operations are, `words` says. The
//! loops run over windows of this repository, and over what they are compared with: `Bytes` and
//! `BytesMut` of the kit's `bytes`, and of what is written `Vec<u8>`.
#![tactic(auto)]

mod at_site;
mod back;
mod handed;
mod keep;
mod kit;
mod kit_writers;
mod ours;
mod owned;
mod rounds;
mod several;
mod small;
mod threads;
mod traits;
mod vectors;
mod words;
mod writers;

use keep::{Counting, Keep, Silent};
use std::process::ExitCode;
use std::sync::atomic::AtomicU64;
use words::{Operation, Side, Words};

fn main(rt: HostRuntime) -> ExitCode {
    let Some(words) = Words::read(&rt) else {
        return ExitCode::from(2);
    };
    // Which one it is isn't known before the program runs, so that no result is optimized away.
    let counting = Counting {
        given: AtomicU64::new(0),
    };
    let keep: &dyn Keep = if words.count == 0 { &counting } else { &Silent };
    let (alloc, count) = (rt.alloc(), words.count);
    let done = match (words.side, words.operation) {
        (Side::Kit, operation) => kit::run(alloc, operation, count, keep),
        (Side::Vector, Operation::Writer(writing)) => vectors::run(alloc, writing, count, keep),
        (Side::Vector, _) => false,
        (Side::Threads(workers), operation) => {
            threads::run(&rt, alloc, workers, operation, count)
        }
        (Side::Ours(layout, base), _) => ours::run(&rt, alloc, layout, base, words, keep),
        (Side::Owned, Operation::Owning(owning)) => owned::run(&rt, alloc, owning, words, keep),
        (Side::Several, Operation::Sharing(sharing)) => {
            several::run(&rt, alloc, sharing, words, keep)
        }
        (Side::Inline, _) => small::run(&rt, alloc, &[42; 20], words, keep),
        (Side::Small, _) => small::run(&rt, alloc, &[42; 128], words, keep),
        (Side::Owned | Side::Several, _) => false,
    };
    ExitCode::from(if done { 0 } else { 1 })
}
