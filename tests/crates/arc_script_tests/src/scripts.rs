//! Scripts and their replies, and readers and writers that give or take little or fail.
use crate::devices::{Pieces, Taken, push_digits};
use crate::rows::{HELLO, HELLO_REPLIES, LEFT, LEFT_REPLIES};
use arc_script::io::Counted;
use arc_script::layout::ScriptLayout;
use arc_script::script::{ScriptError, run_script};
use linked_list_allocator::LocalHeap;
use std::alloc::{AllocError, Allocator, Global};
use std::sync::Wait;
use std::test::Fail;

/// Runs a script over memory.
pub fn run<A: Allocator + Copy>(
    rt: &impl Wait,
    alloc: A,
    reader: &mut Pieces,
    writer: &mut Taken,
) -> Result<(), ScriptError> {
    let mut source = Counted::new(reader);
    let mut sink = Counted::new(writer);
    run_script(rt, alloc, &mut source, &mut sink, ScriptLayout::Arc)
}

/// Whether a script has these replies, where so much is read and written a call.
fn has_replies_at(
    rt: &impl Wait,
    alloc: Global,
    script: &[u8],
    replies: &[u8],
    size: usize,
) -> bool {
    let mut reader = Pieces::new(script, size);
    let mut writer = Taken::new(alloc, size);
    let ran = run(rt, alloc, &mut reader, &mut writer);
    (ran, reader.input.len(), writer.bytes.as_slice()) == (Ok(()), 0, replies)
}

/// Whether a script has these replies: read and written at once, and a byte a call.
fn has_replies(rt: &impl Wait, alloc: Global, script: &[u8], replies: &[u8]) -> bool {
    has_replies_at(rt, alloc, script, replies, usize::MAX)
        && has_replies_at(rt, alloc, script, replies, 1)
}

/// Windows on two blocks and on none, a line of no form, and a last line without its line feed.
#[test]
fn scripts(rt: HostRuntime) {
    for (script, replies) in [
        (LEFT, LEFT_REPLIES),
        (
            b"\nslice 41\nsho".as_slice(),
            b"bad line\nh0\nbad line\n".as_slice(),
        ),
        (b"".as_slice(), b"".as_slice()),
    ] {
        assert!(rt; has_replies(&rt, rt.alloc(), script, replies));
    }
}

/// How a run of `HELLO` ends, how often it read and wrote, and what was written.
fn hello_by(
    rt: &impl Wait,
    alloc: Global,
    mut reader: Pieces,
    mut writer: Taken,
) -> (Result<(), ScriptError>, [usize; 2], Vec<u8>) {
    let ran = run(rt, alloc, &mut reader, &mut writer);
    (ran, [reader.calls, writer.calls], writer.bytes)
}

/// How many bytes of replies are written where this read of `HELLO` fails, from the first on: the
/// lines end behind bytes 29, 39 and 46, and a read gives 7.
const WRITTEN: [usize; 8] = [0, 0, 0, 0, 0, 3, 6, 17];

/// Each read in turn fails: the lines that came whole are answered, and no others.
#[test]
fn failed_reads(rt: HostRuntime) {
    let all = Taken::new(rt.alloc(), usize::MAX);
    let (ran, [calls, _], _) = hello_by(&rt, rt.alloc(), Pieces::new(HELLO, 7), all);
    // 46 bytes and the end.
    assert!(rt; (ran, calls) == (Ok(()), 8));
    for call in 1..=8 {
        let failing = Pieces::failing(HELLO, 7, call);
        let all = Taken::new(rt.alloc(), usize::MAX);
        let (ran, [calls, _], bytes) = hello_by(&rt, rt.alloc(), failing, all);
        let is_exact = HELLO_REPLIES.get(..WRITTEN[call - 1]) == Some(bytes.as_slice());
        let found = (ran, calls, is_exact);
        assert!(rt; found == (Err(ScriptError::Read), call, true));
    }
}

/// Whether a run ends at this call of its writer, and has written this.
fn is_cut_at(rt: &impl Wait, alloc: Global, writer: Taken, call: usize, begun: &[u8]) -> bool {
    let all = Pieces::new(HELLO, usize::MAX);
    let (ran, [_, calls], bytes) = hello_by(rt, alloc, all, writer);
    (ran, calls, bytes.as_slice()) == (Err(ScriptError::Write), call, begun)
}

/// Each write in turn fails, or takes nothing.
#[test]
fn failed_writes(rt: HostRuntime) {
    let whole = Taken::new(rt.alloc(), 3);
    let (ran, [_, calls], _) = hello_by(&rt, rt.alloc(), Pieces::new(HELLO, usize::MAX), whole);
    // 17 bytes.
    assert!(rt; (ran, calls) == (Ok(()), 6));
    for call in 1..=6 {
        let failing = Taken::failing(rt.alloc(), 3, call);
        let empty = Taken::empty_at(rt.alloc(), 3, call);
        let begun = &HELLO_REPLIES[..3 * (call - 1)];
        let found = [
            is_cut_at(&rt, rt.alloc(), failing, call, begun),
            is_cut_at(&rt, rt.alloc(), empty, call, begun),
        ];
        assert!(rt; found == [true, true]);
    }
}

/// A script that ends with a long word: so begun, and with 20,000 digits 0.
fn long_script(
    alloc: Global,
    before: &[u8],
    word: &[u8],
    behind: &[u8],
) -> Result<Vec<u8>, AllocError> {
    let mut script = Vec::from_slice(alloc, before)?;
    script.extend_from_slice(word)?;
    push_digits(&mut script, 20_000)?;
    script.extend_from_slice(behind)?;
    Ok(script)
}

/// How a run ends that reads so much a call, and what was written.
fn written_by(
    rt: &impl Wait,
    heap: &LocalHeap,
    script: &[u8],
    step: usize,
    mut writer: Taken,
) -> (Result<(), ScriptError>, Vec<u8>) {
    let mut reader = Pieces::new(script, step);
    let ran = run(rt, heap, &mut reader, &mut writer);
    (ran, writer.bytes)
}

/// Whether a run in so much memory is refused some, with these replies, or has a failed write first
/// where one fails; and then gives all back.
fn is_refused(
    rt: &(impl Wait + AllocGlobal),
    script: &[u8],
    step: usize,
    size: usize,
    replies: &[u8],
) -> Result<bool, Fail> {
    let heap = LocalHeap::new(rt.alloc(), size)?;
    let (ran, bytes) = written_by(rt, &heap, script, step, Taken::new(rt.alloc(), usize::MAX));
    let (cut, begun) = written_by(rt, &heap, script, step, Taken::failing(rt.alloc(), 2, 2));
    let found = (ran, bytes.as_slice(), cut, begun.as_slice(), heap.used());
    let (refused, failed) = (Err(ScriptError::Alloc), Err(ScriptError::Write));
    Ok(found == (refused, replies, failed, b"h0".as_slice(), 0))
}

/// One piece of input, in the midst of which memory is refused: for a line that isn't whole in it,
/// for the items of one that is, and for the reply to one; and one of many, in which a line grows
/// whose beginning came before. The replies to the lines before come out.
#[test]
fn refused_in_a_piece(rt: HostRuntime) -> Result<(), Fail> {
    for (before, word, behind, step, size, replies) in [
        (
            HELLO,
            b"show ".as_slice(),
            b"".as_slice(),
            usize::MAX,
            80_000,
            HELLO_REPLIES,
        ),
        (
            HELLO,
            b"slice ".as_slice(),
            b"\n".as_slice(),
            usize::MAX,
            72_000,
            HELLO_REPLIES,
        ),
        (
            b"".as_slice(),
            b"slice ".as_slice(),
            b"\nshow 0\n".as_slice(),
            usize::MAX,
            90_000,
            b"h0\n".as_slice(),
        ),
        (
            HELLO,
            b"show ".as_slice(),
            b"".as_slice(),
            46,
            72_000,
            HELLO_REPLIES,
        ),
        (
            HELLO,
            b"show ".as_slice(),
            b"".as_slice(),
            46,
            80_000,
            HELLO_REPLIES,
        ),
    ] {
        let script = long_script(rt.alloc(), before, word, behind)?;
        let refused = is_refused(&rt, &script, step, size, replies)?;
        assert!(rt; refused);
    }
    Ok(())
}

/// How a run ends, whether what was written begins its replies, and how much memory is left in use.
fn left_by(
    rt: &impl Wait,
    heap: &LocalHeap,
    mut reader: Pieces,
    mut writer: Taken,
) -> (Result<(), ScriptError>, bool, usize) {
    let ran = run(rt, heap, &mut reader, &mut writer);
    let begins = LEFT_REPLIES.starts_with(&writer.bytes);
    (ran, begins, heap.used())
}

/// Every piece of memory is given back at the end of a run, whatever windows are left: after the
/// last line, and where a read or a write fails in mid-stream.
#[test]
fn given_back(rt: HostRuntime) -> Result<(), Fail> {
    let heap = LocalHeap::new(rt.alloc(), 200_000)?;
    let mut reader = Pieces::new(LEFT, 5);
    let mut writer = Taken::new(rt.alloc(), 2);
    let ran = run(&rt, &heap, &mut reader, &mut writer);
    let found = (ran, writer.bytes.as_slice(), heap.used());
    assert!(rt; found == (Ok(()), LEFT_REPLIES, 0));
    for before in 0..reader.calls {
        let call = before + 1;
        let failing = Pieces::failing(LEFT, 5, call);
        let left = left_by(&rt, &heap, failing, Taken::new(rt.alloc(), 2));
        assert!(rt; left == (Err(ScriptError::Read), true, 0));
    }
    for before in 0..writer.calls {
        let call = before + 1;
        let failing = Taken::failing(rt.alloc(), 2, call);
        let left = left_by(&rt, &heap, Pieces::new(LEFT, 5), failing);
        assert!(rt; left == (Err(ScriptError::Write), true, 0));
    }
    Ok(())
}

#[test]
fn faults_in_words(rt: HostRuntime) -> Result<(), Fail> {
    for (error, words) in [
        (ScriptError::Read, "read failed"),
        (ScriptError::Write, "write failed"),
        (ScriptError::Alloc, "allocation error"),
    ] {
        assert!(rt; error.to_string(rt.alloc())?.as_str() == words);
    }
    Ok(())
}
