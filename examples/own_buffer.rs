//! Windows over a type of one's own, which comes back.
#![tactic(auto)]

ghost use Rattle.std.specs.Vec.{vec_items};

use arc_slice::ArcBytes;
use arc_slice::buffer::{AsRefBuffer, Lend};
use arc_slice::layout::DefaultLayout;
use std::alloc::Global;

/// Bytes of a file, and which part of it they are.
#[derive(Drop)]
struct Page {
    bytes: Vec<u8>,
    number: u32,
}

impl Lend<u8> for Page {
    ghost lent = { λ page. vec_items page.bytes };

    fn lend(&self) -> &[u8] {
        self.bytes.as_slice()
    }
}

/// Windows over pages.
type Pages = ArcBytes<DefaultLayout, AsRefBuffer<Page>>;

/// A window over a page, which has the page from then on.
fn over(alloc: Global, page: Page) -> anyhow::Result<Pages> {
    match Pages::try_from_buffer(alloc, AsRefBuffer(page)) {
        Ok(window) => Ok(window),
        Err(_) => anyhow::bail!("no memory"),
    }
}

fn main(rt: HostRuntime) -> anyhow::Result<()> {
    let bytes = Vec::from_slice(rt.alloc(), b"Hello world")?;
    let window = over(rt.alloc(), Page { bytes, number: 7 })?;
    window.check_range(6, 11)?;
    let word = window.try_subslice(&rt, 6, 11)?;
    println!(rt; "{word:?}")?;
    drop(word);
    let Ok(AsRefBuffer(page)) = window.try_into_buffer() else {
        anyhow::bail!("another window lives");
    };
    println!(rt; "page {} again", page.number)?;
    Ok(())
}
