//! Lines that are refused memory, in a heap that has none for them: each is told so, and nothing
//! is lost.
use crate::devices::{Pieces, Taken};
use arc_script::io::Counted;
use arc_script::layout::ScriptLayout;
use arc_script::script::{ScriptError, run_script};
use linked_list_allocator::LocalHeap;
use std::alloc::Global;
use std::sync::Wait;
use std::test::Fail;

/// Every layout.
const LAYOUTS: &[ScriptLayout] = &[
    ScriptLayout::Arc,
    ScriptLayout::Boxed,
    ScriptLayout::Vec,
    ScriptLayout::Raw,
];

/// A heap in which a piece of the input, windows and replies have room, and 100,000 bytes haven't.
const HEAP: usize = 80_000;

/// Windows of 100,000 bytes and room for as many more are asked for: of a writer that is alone, on
/// a native block, on nothing, on a vector and on a caller's buffer, and of one of several.
const WANTS: &[u8] = b"slice 4142\nzero 100000\ncap 100000\nshow 0\n\
mslice 0102\nres 1 100000\nroom 1\nshow 1\npush 1 03\nshow 1\n\
new\nres 2 100000\nroom 2\n\
vec 07\nmut 3\nres 3 100000\nshow 3\ntake 3\n\
mbuf 0809 5\nres 4 100000\ntakebuf 4\n\
share 1\noff 1 2\ndrop 5\nres 1 100000\nshow 1\nunique 1\nuniq 0\n";

const WANTS_REPLIES: &[u8] = b"h0\nallocation error\nallocation error\n4142\n\
h1\nallocation error\n2\n0102\nok\n010203\n\
h2\nallocation error\n0\n\
h3\nok\nallocation error\n07\n07\n\
h4\nallocation error\n0809\n\
ok\nh5\nok\nallocation error\n0102\nok\nyes\n";

/// How a run in a heap ends, how often it read, and what it wrote.
fn written(
    rt: &impl Wait,
    alloc: Global,
    heap: &LocalHeap,
    layout: ScriptLayout,
) -> (Result<(), ScriptError>, usize, Vec<u8>) {
    let mut reader = Pieces::new(WANTS, usize::MAX);
    let mut writer = Taken::new(alloc, usize::MAX);
    let mut source = Counted::new(&mut reader);
    let mut sink = Counted::new(&mut writer);
    let ran = run_script(rt, heap, &mut source, &mut sink, layout);
    (ran, reader.calls, writer.bytes)
}

/// Each line that wants what isn't there is answered `allocation error`, and the others as if it
/// weren't there; the heap is as before.
#[test]
fn nothing_lost(rt: HostRuntime) -> Result<(), Fail> {
    for layout in LAYOUTS {
        let heap = LocalHeap::new(rt.alloc(), HEAP)?;
        let (ran, reads, text) = written(&rt, rt.alloc(), &heap, *layout);
        let found = (ran, reads, text.as_slice(), heap.used());
        assert!(rt; found == (Ok(()), 2, WANTS_REPLIES, 0));
    }
    Ok(())
}

/// Where there is no memory for a piece of the input nothing is read, and nothing written.
#[test]
fn no_piece(rt: HostRuntime) -> Result<(), Fail> {
    for layout in LAYOUTS {
        let heap = LocalHeap::new(rt.alloc(), 65_000)?;
        let (ran, reads, text) = written(&rt, rt.alloc(), &heap, *layout);
        let found = (ran, reads, text.is_empty(), heap.used());
        assert!(rt; found == (Err(ScriptError::Alloc), 0, true, 0));
    }
    Ok(())
}
