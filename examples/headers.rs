//! The head of a request is parsed without a copy: each part of it is a window on the vector that
//! was received.
#![tactic(auto)]

use anyhow::Context;
use arc_slice::ArcBytes;
use std::alloc::Global;
use std::sync::Wait;

/// How many headers a request has at most.
const MOST: usize = 100;

/// Takes off what is in front of the first such byte, and then the byte.
fn take_until(rt: &impl Wait, rest: &mut ArcBytes, byte: u8) -> anyhow::Result<ArcBytes> {
    let at = rest.iter().position(|it| *it == byte).context("cut short")?;
    rest.check_at(at)?;
    let part = rest.try_split_to(rt, at)?;
    rest.check_at(1)?;
    rest.advance(1);
    Ok(part)
}

/// Takes off a line, and the two bytes that end it.
fn take_line(rt: &impl Wait, rest: &mut ArcBytes) -> anyhow::Result<ArcBytes> {
    let line = take_until(rt, rest, b'\r')?;
    rest.check_at(1)?;
    rest.advance(1);
    Ok(line)
}

/// Takes off the head, and prints its parts.
fn take_head<R: Print + Wait>(rt: &R, rest: &mut ArcBytes) -> anyhow::Result<()> {
    let method = take_until(rt, rest, b' ')?;
    let path = take_until(rt, rest, b' ')?;
    let version = take_line(rt, rest)?;
    println!(rt; "{method:?} {path:?} {version:?}")?;
    for _ in 0..MOST {
        let mut line = take_line(rt, rest)?;
        if line.is_empty() {
            return Ok(());
        }
        let name = take_until(rt, &mut line, b':')?;
        println!(rt; "{name:?}: {line:?}")?;
    }
    anyhow::bail!("too many headers")
}

/// A request, in the vector that it was received in.
fn received(alloc: Global) -> anyhow::Result<ArcBytes> {
    let head = b"GET /index.html HTTP/1.1\r\nHost: example.org\r\nAccept: */*\r\n\r\nthe body";
    match ArcBytes::try_from_vec(alloc, Vec::from_slice(alloc, head)?) {
        Ok(request) => Ok(request),
        Err(_) => anyhow::bail!("no memory"),
    }
}

fn main(rt: HostRuntime) -> anyhow::Result<()> {
    let mut rest = received(rt.alloc())?;
    take_head(&rt, &mut rest)?;
    let Ok(body) = rest.try_into_vec() else {
        anyhow::bail!("a part lives");
    };
    println!(rt;
        "{} bytes of body, in the vector that was received",
        body.len()
    )?;
    Ok(())
}
