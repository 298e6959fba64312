//! The method of a request line is cut off, and the line's vector had back.
#![tactic(auto)]

use arc_slice::ArcBytes;
use std::alloc::Global;

/// A line that was received, in its vector.
fn received(alloc: Global) -> anyhow::Result<ArcBytes> {
    let bytes = Vec::from_slice(alloc, b"GET /index.html")?;
    match ArcBytes::try_from_vec(alloc, bytes) {
        Ok(line) => Ok(line),
        Err(_) => anyhow::bail!("no memory"),
    }
}

/// Prints a window, and ends it.
fn shown(rt: &impl Print, window: ArcBytes) -> anyhow::Result<()> {
    println!(rt; "{window:?}")?;
    Ok(())
}

fn main(rt: HostRuntime) -> anyhow::Result<()> {
    let line = received(rt.alloc())?;
    line.check_range(0, 3)?; // a cut asks that its range was tested
    let method = line.try_subslice(&rt, 0, 3)?; // no copy: two windows on one vector
    shown(&rt, method)?; // prints it, and ends it
    let vector = line.try_into_vec(); // the same vector, since no other window lives
    match vector {
        Ok(bytes) => println!(rt; "{} bytes had back", bytes.len())?,
        Err(_) => anyhow::bail!("another window lives"),
    }
    Ok(())
}
