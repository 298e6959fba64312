//! A message goes to readers in other threads, and its vector comes back.
#![tactic(auto)]

use arc_slice::ArcBytes;
use arc_slice::error::OwnerError;
use std::alloc::Global;
use std::sync::Wait;
use std::thread::{self, Threads};

/// What a reader makes of the message: how often this byte is there.
fn count(message: &ArcBytes, byte: u8) -> usize {
    message.iter().filter(|it| **it == byte).count()
}

/// Two readers, each in a thread of its own, with a window of its own that ends there.
fn broadcast<R: Threads + Wait>(rt: &R, message: &ArcBytes) -> Result<(usize, usize), OwnerError> {
    let first = message.try_clone(rt)?;
    let second = message.try_clone(rt)?;
    Ok(thread::join(
        rt,
        move || count(&first, b'l'),
        move || count(&second, b'o'),
    ))
}

/// A message in its vector.
fn received(alloc: Global) -> anyhow::Result<ArcBytes> {
    match ArcBytes::try_from_vec(alloc, Vec::from_slice(alloc, b"Hello world")?) {
        Ok(message) => Ok(message),
        Err(_) => anyhow::bail!("no memory"),
    }
}

fn main(rt: HostRuntime) -> anyhow::Result<()> {
    let message = received(rt.alloc())?;
    let (first, second) = broadcast(&rt, &message)?;
    println!(rt; "{first} and {second}")?;
    let Ok(bytes) = message.try_into_vec() else {
        anyhow::bail!("a reader lives");
    };
    println!(rt; "{} bytes had back", bytes.len())?;
    Ok(())
}
