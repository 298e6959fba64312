//! Runs that a fault breaks off: what is written begins the replies, and every line that had ended
//! before the last read has its whole reply.
use crate::devices::{Pieces, Taken};
use crate::rows::{LEFT, LEFT_REPLIES};
use crate::scripts::run;
use arc_script::script::ScriptError;
use counting_heap::CountingHeap;
use std::alloc::{Allocator, Global};
use std::sync::Wait;
use std::test::Fail;

/// How many bytes a call reads.
const READ: usize = 5;

/// How many bytes a call writes.
const WRITTEN: usize = 2;

/// What a run over `LEFT` comes to.
#[derive(Drop)]
struct Ended {
    ran: Result<(), ScriptError>,
    /// How many lines had ended before the last read, and how many in the end.
    before: usize,
    lines: usize,
    /// How often it read and wrote.
    calls: [usize; 2],
    text: Vec<u8>,
}

/// How many lines end in these bytes.
fn lines(bytes: &[u8]) -> usize {
    let mut count = 0usize;
    for byte in bytes {
        if *byte == b'\n' {
            count = count.saturating_add(1);
        }
    }
    count
}

/// How many lines of `LEFT` end in so many first bytes.
fn lines_within(bytes: usize) -> usize {
    lines(&LEFT[..bytes.min(LEFT.len())])
}

/// A run over `LEFT` with these devices.
fn run_of<A: Allocator + Copy>(
    rt: &impl Wait,
    alloc: A,
    mut reader: Pieces,
    mut writer: Taken,
) -> Ended {
    let ran = run(rt, alloc, &mut reader, &mut writer);
    Ended {
        ran,
        before: lines_within(READ * reader.calls.saturating_sub(1)),
        lines: lines_within(LEFT.len() - reader.input.len()),
        calls: [reader.calls, writer.calls],
        text: writer.bytes,
    }
}

/// Whether a run broke off by this fault as it has to. Written are: where a read failed, the
/// replies to all lines that had ended; where memory was refused, whole replies, to all lines that
/// had ended before the last read and to none that hadn't ended; where a write failed, a beginning
/// of the replies, which has the same in it.
fn is_right(ended: &Ended, fault: ScriptError) -> bool {
    let text = ended.text.as_slice();
    let whole = lines(text);
    let is_whole = text.is_empty() || text.ends_with(b"\n".as_slice());
    let is_cut = match fault {
        ScriptError::Read => is_whole && whole == ended.lines,
        ScriptError::Alloc => is_whole && whole <= ended.lines,
        ScriptError::Write => whole <= ended.lines,
    };
    ended.ran == Err(fault) && LEFT_REPLIES.starts_with(text) && is_cut && ended.before <= whole
}

/// A run of which no call fails, and what all its calls are.
fn unbroken(rt: &impl Wait, alloc: Global) -> Ended {
    run_of(
        rt,
        alloc,
        Pieces::new(LEFT, READ),
        Taken::new(alloc, WRITTEN),
    )
}

/// Each read in turn fails.
#[test]
fn broken_by_reads(rt: HostRuntime) {
    let [reads, _] = unbroken(&rt, rt.alloc()).calls;
    assert!(rt; reads > 10);
    for before in 0..reads {
        let failing = Pieces::failing(LEFT, READ, before + 1);
        let ended = run_of(&rt, rt.alloc(), failing, Taken::new(rt.alloc(), WRITTEN));
        assert!(rt; is_right(&ended, ScriptError::Read));
    }
}

/// Each write in turn fails, or takes nothing.
#[test]
fn broken_by_writes(rt: HostRuntime) {
    let [_, writes] = unbroken(&rt, rt.alloc()).calls;
    assert!(rt; writes > 10);
    for before in 0..writes {
        let failing = Taken::failing(rt.alloc(), WRITTEN, before + 1);
        let ended = run_of(&rt, rt.alloc(), Pieces::new(LEFT, READ), failing);
        assert!(rt; is_right(&ended, ScriptError::Write));
        let empty = Taken::empty_at(rt.alloc(), WRITTEN, before + 1);
        let ended = run_of(&rt, rt.alloc(), Pieces::new(LEFT, READ), empty);
        assert!(rt; is_right(&ended, ScriptError::Write));
    }
}

/// How many runs end at a request that is refused, each in turn; none where one ends otherwise. A
/// request whose refusal is a reply breaks no run off.
fn broken_in_turn(rt: &impl Wait, alloc: Global, heap: &CountingHeap<Global>) -> Option<u64> {
    let mut broken = 0u64;
    for request in 1..1000u64 {
        heap.refuse(request);
        let reader = Pieces::new(LEFT, READ);
        let ended = run_of(rt, heap, reader, Taken::new(alloc, WRITTEN));
        if heap.refusals() == 0 {
            return Some(broken);
        }
        if ended.ran.is_err() {
            if !is_right(&ended, ScriptError::Alloc) {
                return None;
            }
            broken = broken.saturating_add(1);
        }
    }
    None
}

/// Each request for memory in turn is refused.
#[test]
fn broken_by_need(rt: HostRuntime) -> Result<(), Fail> {
    let heap = CountingHeap::new(rt.alloc());
    let broken = broken_in_turn(&rt, rt.alloc(), &heap);
    assert!(rt; broken.unwrap_or(0) > 2);
    Ok(())
}
