//! Scripts with each request for memory refused in turn: the first, then the second, until a run
//! meets no refusal.
use crate::devices::{Pieces, Taken};
use arc_script::io::Counted;
use arc_script::layout::ScriptLayout;
use arc_script::script::{ScriptError, run_script};
use counting_heap::CountingHeap;
use rows::{Row, SCRIPTS};
use std::alloc::Global;
use std::sync::Wait;
use std::test::Fail;

mod rows;

/// A heap that counts.
type Heap<'a> = &'a CountingHeap<Global>;

/// How a run of a script ends, and what is written.
fn written(
    rt: &impl Wait,
    alloc: Global,
    heap: Heap<'_>,
    layout: ScriptLayout,
    script: &str,
) -> (Result<(), ScriptError>, Vec<u8>) {
    let mut reader = Pieces::new(script.as_bytes(), usize::MAX);
    let mut writer = Taken::new(alloc, usize::MAX);
    let mut source = Counted::new(&mut reader);
    let mut sink = Counted::new(&mut writer);
    let ran = run_script(rt, heap, &mut source, &mut sink, layout);
    (ran, writer.bytes)
}

/// How many bytes the whole lines have with which both texts begin.
fn common_lines(one: &[u8], other: &[u8]) -> usize {
    let mut common = 0usize;
    for (at, (byte, same)) in one.iter().zip(other.iter()).enumerate() {
        if byte != same {
            return common;
        }
        if *byte == b'\n' {
            common = at.saturating_add(1);
        }
    }
    common
}

/// How many lines a text has.
fn lines(text: &[u8]) -> usize {
    let mut count = 0usize;
    for byte in text {
        if *byte == b'\n' {
            count = count.saturating_add(1);
        }
    }
    count
}

/// Whether a text begins with the reply to a command that was refused memory.
fn begins_refused(text: &[u8]) -> bool {
    text.starts_with(b"allocation error\n".as_slice()) | text.starts_with(b"refused\n".as_slice())
}

/// Whether a run that was refused one request may end so: with whole replies that begin those of an
/// unbroken run, or with a refusal behind these and a reply to each line.
fn is_right(ran: Result<(), ScriptError>, text: &[u8], replies: &[u8]) -> bool {
    let common = common_lines(text, replies);
    match ran {
        Ok(()) => match text.get(common..) {
            Some(rest) => begins_refused(rest) & (lines(text) == lines(replies)),
            None => false,
        },
        Err(ScriptError::Alloc) => common == text.len(),
        Err(_) => false,
    }
}

/// Each request of a script refused in turn: how many runs ended at theirs, and how many went on.
/// None where one went otherwise, or memory didn't come back.
fn in_turn(
    rt: &impl Wait,
    alloc: Global,
    heap: Heap<'_>,
    layout: ScriptLayout,
    row: &Row,
) -> Option<(u64, u64)> {
    let replies = row.replies.as_bytes();
    let mut ended = 0u64;
    let mut went_on = 0u64;
    for request in 1..1000u64 {
        heap.refuse(request);
        let (ran, text) = written(rt, alloc, heap, layout, row.script);
        if heap.pieces() != 0 {
            return None;
        }
        if heap.refusals() == 0 {
            if (ran, text.as_slice()) != (Ok(()), replies) {
                return None;
            }
            return Some((ended, went_on));
        }
        if !is_right(ran, &text, replies) {
            return None;
        }
        if ran.is_ok() {
            went_on = went_on.saturating_add(1);
        } else {
            ended = ended.saturating_add(1);
        }
    }
    None
}

/// The first row that goes otherwise under a layout of its own, by its place and the layout's.
fn missed(rt: &impl Wait, alloc: Global, heap: Heap<'_>) -> Option<(usize, usize)> {
    for (at, row) in SCRIPTS.iter().enumerate() {
        for (under, layout) in row.layouts.iter().enumerate() {
            match in_turn(rt, alloc, heap, *layout, row) {
                Some((ended, went_on)) => {
                    if (ended > 0, went_on > 0) != (true, true) {
                        return Some((at, under));
                    }
                }
                None => return Some((at, under)),
            }
        }
    }
    None
}

/// A refused request ends the run, or is a reply, behind replies that are as without it; and all
/// memory is given back.
#[test]
fn refused_in_turn(rt: HostRuntime) -> Result<(), Fail> {
    let heap = CountingHeap::new(rt.alloc());
    assert!(rt; missed(&rt, rt.alloc(), &heap) == None);
    Ok(())
}
