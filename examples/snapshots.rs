//! A text is edited, and snapshots of it are kept.
#![tactic(auto)]

use arc_slice::error::AllocError;
use arc_slice::layout::{DefaultLayout, DefaultLayoutMut};
use arc_slice::{ArcStr, ArcStrMut, IntoMut};
use std::alloc::Global;

/// The text, to be read and cloned from now on. Nothing is copied.
fn shown(text: ArcStrMut) -> ArcStr {
    match text.try_freeze::<DefaultLayout>() {
        Ok(page) => page,
        Err(_) => unreachable!(),
    }
}

/// The text, to be written again: where it lies, or a copy where a snapshot lives.
fn edited(alloc: Global, page: ArcStr) -> Result<ArcStrMut, AllocError> {
    match page.try_into_mut::<DefaultLayoutMut>() {
        Ok(text) => Ok(text),
        Err(page) => ArcStrMut::try_from_str(alloc, page.as_str()),
    }
}

fn main(rt: HostRuntime) -> anyhow::Result<()> {
    let text: ArcStrMut = ArcStrMut::try_from_str(rt.alloc(), "Hello world")?;
    let page = shown(text);
    let snapshot = page.try_clone(&rt)?; // an owner more, and no copy
    let mut text = edited(rt.alloc(), page)?; // a copy: the snapshot lives
    text.check_at(5)?;
    text.truncate(5);
    text.try_extend_from_str(", you")?;
    println!(rt; "{text}, before: {snapshot}")?;
    drop(snapshot);
    let mut text = edited(rt.alloc(), shown(text))?; // no copy
    text.try_extend_from_str("!")?;
    println!(rt; "{text}")?;
    Ok(())
}
