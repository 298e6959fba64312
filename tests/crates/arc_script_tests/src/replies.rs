//! Replies as they are written. The texts that a script gets stand in `tests/rows` of the
//! repository.
use arc_block::static_slice::StaticSlice;
use arc_commands::command::Reply;
use arc_forms::text::{ByteReply, push_answer};
use arc_owners::error::{AllocError, OwnerError, RangeError, TryReserveError};
use std::alloc::Global;

/// Whether a reply is written as this text, behind what is there.
fn writes(rt: &HostRuntime, reply: ByteReply<Vec<u8>, Global>, text: &[u8]) -> bool {
    let Ok(mut out) = Vec::from_slice(rt.alloc(), b">") else {
        return false;
    };
    let pushed = push_answer(&mut out, &reply);
    pushed.is_ok() && &out[1..] == text
}

/// A reply without items.
#[derive(Clone, Copy)]
enum Told {
    New(usize),
    Range(RangeError),
    Owner(OwnerError),
    Reserve(TryReserveError),
    Alloc,
}

fn reply(told: Told) -> ByteReply<Vec<u8>, Global> {
    match told {
        Told::New(window) => Reply::New(window),
        Told::Range(error) => Reply::Range(error),
        Told::Owner(error) => Reply::Owner(error),
        Told::Reserve(error) => Reply::Reserve(error),
        Told::Alloc => Reply::Alloc,
    }
}

/// Those that no script gets, or none without a refusal of memory.
const TEXTS: &[(Told, &str)] = &[
    (Told::New(usize::MAX), "h18446744073709551615\n"),
    (
        Told::Range(RangeError::NotBoundary),
        "not a char boundary\n",
    ),
    (Told::Owner(OwnerError::CountFull), "count full\n"),
    (Told::Owner(OwnerError::AllocError), "allocation error\n"),
    (
        Told::Reserve(TryReserveError::AllocError),
        "allocation error\n",
    ),
    (Told::Reserve(TryReserveError::NotUnique), "not unique\n"),
    (Told::Reserve(TryReserveError::Unsupported), "unsupported\n"),
    (
        Told::Reserve(TryReserveError::CapacityOverflow),
        "capacity overflow\n",
    ),
    (Told::Alloc, "allocation error\n"),
];

/// How many replies are written as their texts.
fn written(rt: &HostRuntime) -> usize {
    let mut count = 0usize;
    for line in TEXTS {
        let (told, text) = *line;
        if writes(rt, reply(told), text.as_bytes()) {
            count = count.saturating_add(1);
        }
    }
    count
}

#[test]
fn replies(rt: HostRuntime) {
    assert!(rt; written(&rt) == TEXTS.len());
}

#[test]
fn items(rt: HostRuntime) -> Result<(), AllocError> {
    let ends = Vec::from_slice(rt.alloc(), &[0, 255])?;
    assert!(rt; writes(&rt, Reply::Items(ends), b"00ff\n"));
    assert!(rt;
        writes(
            &rt,
            Reply::Static(StaticSlice::new(b"Hello")),
            b"48656c6c6f\n"
        )
    );
    Ok(())
}
