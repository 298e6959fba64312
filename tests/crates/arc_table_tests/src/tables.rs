//! Tables of windows over bytes, and what they answer.
use arc_block::layout::DefaultLayout;
use arc_buffer::kinds::Plain;
use arc_owners::error::{OwnerError, RangeError, TryReserveError};
use arc_table::command::{Cmd, Given, Reply};
use arc_table::table::Table;
use std::alloc::Allocator;
use std::sync::Wait;

/// A table of windows over bytes.
pub type ByteTable<A> = Table<Plain<u8>, DefaultLayout, Vec<u8>, (), A>;

/// What a reply says, without the items that it hands out.
#[derive(Clone, Copy, PartialEq, Eq)]
pub enum Said {
    New(usize),
    Ok,
    Yes,
    No,
    Items,
    Vec,
    Boxed,
    Buffer,
    Raw,
    Static,
    Number(usize),
    Meta,
    None,
    NoWindow,
    Kind,
    Refused,
    Range(RangeError),
    Owner(OwnerError),
    Reserve(TryReserveError),
    Alloc,
}

impl Said {
    /// Whether such a reply has items.
    pub fn is_of_items(self) -> bool {
        match self {
            Said::Items | Said::Vec | Said::Boxed | Said::Buffer | Said::Raw | Said::Static => true,
            _ => false,
        }
    }
}

/// What a reply says. The items that it hands out are dropped.
pub fn told<G: Given>(reply: Reply<G>) -> Said
where
    G::Shown: Drop,
    G::Vector: Drop,
    G::Boxed: Drop,
    G::Buffer: Drop,
    G::Raw: Drop,
    G::Static: Drop,
    G::Meta: Drop,
{
    match reply {
        Reply::New(window) => Said::New(window),
        Reply::Ok => Said::Ok,
        Reply::Yes => Said::Yes,
        Reply::No => Said::No,
        Reply::Items(_) => Said::Items,
        Reply::Vec(_) => Said::Vec,
        Reply::Boxed(_) => Said::Boxed,
        Reply::Buffer(_) => Said::Buffer,
        Reply::Raw(_) => Said::Raw,
        Reply::Meta(_) => Said::Meta,
        Reply::None => Said::None,
        Reply::Static(_) => Said::Static,
        Reply::Number(number) => Said::Number(number),
        Reply::NoWindow => Said::NoWindow,
        Reply::Kind => Said::Kind,
        Reply::Refused => Said::Refused,
        Reply::Range(error) => Said::Range(error),
        Reply::Owner(error) => Said::Owner(error),
        Reply::Reserve(error) => Said::Reserve(error),
        Reply::Alloc => Said::Alloc,
    }
}

/// Whether a reply has these bytes as its items.
pub fn has_items<A: Allocator, G: Given<Shown = Vec<u8, A>>>(
    reply: &Reply<G>,
    items: &[u8],
) -> bool {
    match reply {
        Reply::Items(shown) => shown.as_slice() == items,
        _ => false,
    }
}

/// Whether a window shows these bytes.
pub fn shows<A: Allocator + Copy>(
    rt: &impl Wait,
    table: &mut ByteTable<A>,
    window: usize,
    items: &[u8],
) -> bool {
    has_items(&table.step(rt, Cmd::Show { window }), items)
}

/// A table with a window over the items, if there is memory.
pub fn table_of<A: Allocator + Copy>(rt: &impl Wait, alloc: A, items: &[u8]) -> ByteTable<A> {
    let mut table = Table::new(alloc);
    if let Ok(items) = Vec::from_slice(alloc, items) {
        let _ = table.step(rt, Cmd::Slice(items));
    }
    table
}
