//! A page is written, frozen, and read by several owners.
#![tactic(auto)]

use arc_slice::layout::DefaultLayout;
use arc_slice::{ArcStr, ArcStrMut};
use std::alloc::Global;
use std::fmt::Write;

/// A page of a title and a number. To freeze it copies nothing.
fn written(alloc: Global, title: &str, count: u32) -> anyhow::Result<ArcStr> {
    let mut page: ArcStrMut = ArcStrMut::try_with_capacity(alloc, 64)?;
    page.try_extend_from_str(title)?;
    write!(page, ": {count} items")?;
    match page.try_freeze::<DefaultLayout>() {
        Ok(page) => Ok(page),
        Err(_) => unreachable!(),
    }
}

/// How many bytes of a text are spaces.
fn spaces(text: &ArcStr) -> usize {
    let mut count = 0usize;
    for byte in text {
        if *byte == b' ' {
            count = count.saturating_add(1);
        }
    }
    count
}

fn main(rt: HostRuntime) -> anyhow::Result<()> {
    let page = written(rt.alloc(), "Basket", 3)?;
    page.check_range(0, 6)?;
    let title = page.try_subslice(&rt, 0, 6)?;
    let clone = page.try_clone(&rt)?;
    println!(rt; "{}", page.starts_with(b"Bas"))?;
    drop(page);
    println!(rt; "{title}, {clone}, {}", spaces(&clone))?;
    Ok(())
}
