//! The program's words and statuses, and memory that it is refused.
use crate::devices::{Pieces, Taken};
use crate::rows::{HELLO, HELLO_REPLIES, REPLIES_IN_NEED, USAGE};
use arc_script::io::Counted;
use arc_script::program::{Arguments, run_args, start, words};
use arc_script::storm::OpenGate;
use linked_list_allocator::LocalHeap;
use std::alloc::{AllocError, Allocator, Global};
use std::env::FillError;
use std::sync::Wait;
use std::test::Fail;
use std::thread::Threads;

/// Words of the program's own.
pub fn words_in(alloc: Global, words: &[&str]) -> Result<Vec<String>, AllocError> {
    let mut owned = Vec::new(alloc);
    for word in words {
        owned.push(String::from_str(alloc, word)?)?;
    }
    Ok(owned)
}

/// Runs the program over memory.
fn program<A: Allocator + Copy>(
    rt: &(impl Threads + Wait + Sync + AllocGlobal),
    alloc: A,
    words: &[&str],
    reader: &mut Pieces,
    writer: &mut Taken,
    faults: &mut Taken,
) -> Result<u8, AllocError> {
    let owned = words_in(rt.alloc(), words)?;
    let mut source = Counted::new(reader);
    let mut sink = Counted::new(writer);
    let mut told = Counted::new(faults);
    Ok(run_args(
        rt,
        &OpenGate,
        alloc,
        &owned,
        &mut source,
        &mut sink,
        &mut told,
    ))
}

/// Other words are told the usage: at once, a byte a call, and where no byte is taken. More of them
/// stand in `tests/program`.
#[test]
fn other_words(rt: HostRuntime) -> Result<(), Fail> {
    for (size, told) in [(usize::MAX, USAGE), (1, USAGE), (0, b"".as_slice())] {
        let mut reader = Pieces::new(HELLO, usize::MAX);
        let mut writer = Taken::new(rt.alloc(), usize::MAX);
        let mut faults = Taken::new(rt.alloc(), size);
        let words = &["arc", "x"];
        let status = program(
            &rt,
            rt.alloc(),
            words,
            &mut reader,
            &mut writer,
            &mut faults,
        )?;
        assert!(rt;
            (status, reader.calls, writer.calls, faults.bytes.as_slice()) == (2, 0, 0, told)
        );
    }
    Ok(())
}

/// Arguments, the program's name first.
#[derive(Clone, Copy)]
struct Given<'a> {
    arguments: &'a [&'a [u8]],
}

impl Arguments for Given<'_> {
    ghost answers = { λ _ i room answer. Unit {0} };

    fn arg(&self, i: usize, buf: &mut [u8]) -> Result<usize, FillError> {
        let Some(argument) = self.arguments.get(i) else {
            return Err(FillError::NotPresent);
        };
        if argument.len() > buf.len() {
            return Err(FillError::TooLong);
        }
        buf[..argument.len()].copy_from_slice(argument);
        Ok(argument.len())
    }
}

/// A word that isn't text, or of which only the end isn't, and one of 65 bytes are empty words.
#[test]
fn words_of_arguments(rt: HostRuntime) -> Result<(), Fail> {
    let long = [b'a'; 65];
    let given = Given {
        arguments: &[
            b"arcs",
            b"arc",
            b"\xff",
            b"arc\xc3",
            &long,
            b"",
            b"caf\xc3\xa9",
        ],
    };
    let read = words(&given, rt.alloc())?;
    assert!(rt; read.len() == 6);
    for (word, wanted) in read.iter().zip(["arc", "", "", "", "", "café"]) {
        assert!(rt; word.as_str() == wanted);
    }
    let none = words(
        &Given {
            arguments: &[b"arcs"],
        },
        rt.alloc(),
    )?;
    assert!(rt; none.is_empty());
    Ok(())
}

/// The program by its arguments: `arc` runs the script, and anything else is told the usage.
#[test]
fn started(rt: HostRuntime) -> Result<(), Fail> {
    for (arguments, wanted, replies) in [
        ([b"arcs".as_slice(), b"arc"], 0, HELLO_REPLIES),
        ([b"arcs".as_slice(), b"arc\xff"], 2, b"".as_slice()),
    ] {
        let mut input = Pieces::new(HELLO, usize::MAX);
        let mut output = Taken::new(rt.alloc(), usize::MAX);
        let mut told = Taken::new(rt.alloc(), usize::MAX);
        let status = start(
            &rt,
            rt.alloc(),
            &Given {
                arguments: &arguments,
            },
            &mut Counted::new(&mut input),
            &mut Counted::new(&mut output),
            &mut Counted::new(&mut told),
        );
        assert!(rt; (status, output.bytes.as_slice()) == (wanted, replies));
    }
    Ok(())
}

#[test]
fn statuses(rt: HostRuntime) -> Result<(), Fail> {
    for (read_fails, write_fails, wanted, told, replies) in [
        (None, None, 0, b"".as_slice(), HELLO_REPLIES),
        (
            Some(1),
            None,
            3,
            b"read failed\n".as_slice(),
            b"".as_slice(),
        ),
        (
            None,
            Some(1),
            4,
            b"write failed\n".as_slice(),
            b"".as_slice(),
        ),
        (Some(2), None, 3, b"read failed\n".as_slice(), HELLO_REPLIES),
        (
            None,
            Some(2),
            4,
            b"write failed\n".as_slice(),
            b"h0\n".as_slice(),
        ),
    ] {
        for fault_fails in [None, Some(1)] {
            let mut reader = Pieces::new(HELLO, usize::MAX);
            reader.fails_at = read_fails;
            let mut writer = Taken::new(rt.alloc(), if write_fails.is_some() { 3 } else { 100 });
            writer.fails_at = write_fails;
            let mut faults = Taken::new(rt.alloc(), 5);
            faults.fails_at = fault_fails;
            let status = program(
                &rt,
                rt.alloc(),
                &["arc"],
                &mut reader,
                &mut writer,
                &mut faults,
            )?;
            let told = if fault_fails.is_some() {
                b"".as_slice()
            } else {
                told
            };
            let found = (status, writer.bytes.as_slice(), faults.bytes.as_slice());
            assert!(rt; found == (wanted, replies, told));
        }
    }
    Ok(())
}

/// What a run over a script comes to: its status, what was written and told, and how much of the
/// script is left.
#[derive(Drop)]
struct Ended {
    status: u8,
    text: Vec<u8>,
    told: Vec<u8>,
    left: usize,
}

/// The script in an allocator of its own, of which so much is read a call.
fn run_of<A: Allocator + Copy>(
    rt: &(impl Threads + Wait + Sync + AllocGlobal),
    alloc: A,
    script: &[u8],
    size: usize,
) -> Result<Ended, AllocError> {
    let mut reader = Pieces::new(script, size);
    let mut writer = Taken::new(rt.alloc(), usize::MAX);
    let mut faults = Taken::new(rt.alloc(), usize::MAX);
    let status = program(rt, alloc, &["arc"], &mut reader, &mut writer, &mut faults)?;
    Ok(Ended {
        status,
        text: writer.bytes,
        told: faults.bytes,
        left: reader.input.len(),
    })
}

/// Whether a run may end so: with all replies, or with some of them and why it ended.
fn is_right(ended: &Ended) -> bool {
    let text = ended.text.as_slice();
    match ended.status {
        0 => {
            ended.told.is_empty()
                && ended.left == 0
                && REPLIES_IN_NEED.iter().any(|replies| *replies == text)
        }
        1 => {
            ended.told.as_slice() == b"allocation error\n".as_slice()
                && text != HELLO_REPLIES
                && REPLIES_IN_NEED
                    .iter()
                    .any(|replies| replies.starts_with(text))
        }
        _ => false,
    }
}

/// A heap of its own, larger each time: at first it has no room for a piece of the input. A refusal
/// while a command is carried out is a reply, and any other ends the run.
#[test]
fn memory_refused(rt: HostRuntime) -> Result<(), Fail> {
    let mut cut = 0u64;
    let mut whole = 0u64;
    for blocks in 4064..4352usize {
        let heap = LocalHeap::new(rt.alloc(), blocks * 16)?;
        let ended = run_of(&rt, &heap, HELLO, 1)?;
        assert!(rt; (is_right(&ended), heap.used()) == (true, 0));
        if ended.status != 0 {
            cut = cut.saturating_add(1);
        }
        if ended.text.as_slice() == HELLO_REPLIES {
            whole = whole.saturating_add(1);
        }
    }
    assert!(rt; (32 < cut, 0 < whole) == (true, true));
    Ok(())
}
