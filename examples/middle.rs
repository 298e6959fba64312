//! A word is typed in the middle of a text: two writers have one block, with a gap between them.
#![tactic(auto)]

ghost use Rattle.std.specs.Prelude.{◌≡◌, IfSome, IfOk};
ghost use Rattle.arc_parts.specs.Shared.{IsOneBlock};

use anyhow::Context;
use arc_slice::layout::DefaultLayoutMut;
use arc_slice::{ArcStrMut, ArcStrShared};
use std::alloc::Global;
use std::sync::Wait;

/// Two writers on one block, of which the first has so many places and the second those behind.
fn split(rt: &impl Wait, text: ArcStrMut, places: usize) -> Option<(ArcStrShared, ArcStrShared)>
    ensures { IfSome result (λ two. IsOneBlock two.0.place two.1.place) }
{
    let mut front: ArcStrShared = text.into_shared().ok()?;
    front.check_split_off(places).ok()?;
    match front.try_split_off(rt, places) {
        Ok(back) => Some((front, back)),
        Err(_) => None,
    }
}

/// Whether a writer had the places for these words, which then stand behind his others.
fn typed(writer: &mut ArcStrShared, words: &str) -> bool
    ensures { writer.new.place ≡ writer.old.place }
{
    if writer.capacity() - writer.len() < words.len() {
        return false;
    }
    writer.try_extend_from_str(words).is_ok()
}

/// What stands before the cursor, with a gap of so many places to type in, and what stands behind.
fn opened(
    rt: &impl Wait,
    alloc: Global,
    texts: (&str, &str),
    gap: usize,
) -> anyhow::Result<(ArcStrShared, ArcStrShared)>
    ensures { IfOk result (λ two. IsOneBlock two.0.place two.1.place) }
{
    let places = texts.0.len().checked_add(gap).context("too long")?;
    let all = places.checked_add(texts.1.len()).context("too long")?;
    let text = ArcStrMut::<DefaultLayoutMut>::try_with_capacity(alloc, all)?;
    let (mut front, mut back) = split(rt, text, places).context("not split")?;
    if typed(&mut front, texts.0) && typed(&mut back, texts.1) {
        return Ok((front, back));
    }
    anyhow::bail!("no room")
}

/// One text again: joined where the gap is full, else with a copy of what stands behind it.
fn closed(mut front: ArcStrShared, back: ArcStrShared, alloc: Global) -> anyhow::Result<ArcStrMut>
    requires { IsOneBlock front.place back.place }
{
    if let Err(back) = front.try_unsplit(back) {
        let rest: ArcStrMut = ArcStrMut::try_from_str(alloc, back.as_str())?;
        drop(back);
        front.try_extend_from_str(rest.as_str())?;
    }
    front.try_into_unique().ok().context("another writer lives")
}

/// Opens a gap of so many places, types into it, and prints the text before and after it is one.
fn edited<R: Print + Wait>(rt: &R, alloc: Global, gap: usize) -> anyhow::Result<()> {
    let (mut front, back) = opened(rt, alloc, ("Hello", " world"), gap)?;
    if !typed(&mut front, ", dear") {
        anyhow::bail!("the gap is full");
    }
    println!(rt; "{front}|{back}")?;
    let text = closed(front, back, alloc)?;
    println!(rt; "{text}")?;
    Ok(())
}

fn main(rt: HostRuntime) -> anyhow::Result<()> {
    edited(&rt, rt.alloc(), 6)?;
    edited(&rt, rt.alloc(), 16)
}
