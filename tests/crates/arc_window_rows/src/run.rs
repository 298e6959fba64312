//! A run: rows on fresh windows, of one kind under one layout.
use crate::answer::answer;
use crate::call::unescaped;
use crate::kinds::Spelled;
use crate::layouts::Held;
use crate::letters::{Name, Unit};
use crate::window::Windows;
use arc_block::layout::{ArcLayout, BoxedSliceLayout, RawLayout, VecLayout};
use arc_buffer::kinds::{ByteText, Owned, Plain, Text};
use std::alloc::{AllocError, Global};
use std::sync::Wait;

/// A row: its number in the file, a line, and what it is to be answered.
#[derive(Clone, Copy)]
pub struct Row<'a> {
    pub number: usize,
    pub line: &'a str,
    pub wanted: &'a str,
}

/// A kind of slice, as rows name it.
#[derive(Clone, Copy)]
pub enum Kind {
    Bytes,
    Numbers,
    Units,
    Owned,
    Text,
    ByteText,
}

/// The kinds by name.
pub const KINDS: &[(&str, Kind)] = &[
    ("bytes", Kind::Bytes),
    ("numbers", Kind::Numbers),
    ("units", Kind::Units),
    ("owned", Kind::Owned),
    ("text", Kind::Text),
    ("bytetext", Kind::ByteText),
];

/// A layout, as rows name it.
#[derive(Clone, Copy)]
pub enum Under {
    AnyStatic,
    Any,
    Static,
    Native,
    Boxed,
    Vec,
    Raw,
}

/// The layouts by name.
pub const LAYOUTS: &[(&str, Under)] = &[
    ("any+static", Under::AnyStatic),
    ("any", Under::Any),
    ("static", Under::Static),
    ("native", Under::Native),
    ("boxed", Under::Boxed),
    ("vec", Under::Vec),
    ("raw", Under::Raw),
];

/// The first row that is answered otherwise, by its place among them, and what it is answered.
pub type Miss = Option<(usize, Vec<u8>)>;

/// Runs rows on windows of a kind and a layout.
fn run<S: Spelled, L: Held>(
    rt: &impl Wait,
    alloc: Global,
    rows: &[Row<'_>],
) -> Result<Miss, AllocError>
where
    S::Item: 'static,
{
    let mut windows: Windows<S, L> = Vec::new(alloc);
    for (at, row) in rows.iter().enumerate() {
        let found = answer::<S, L>(rt, alloc, &mut windows, row.line)?;
        let wanted = unescaped(alloc, row.wanted)?;
        if found.as_slice() != wanted.as_slice() {
            return Ok(Some((at, found)));
        }
    }
    Ok(None)
}

/// Runs rows on windows of a kind.
fn run_kind<S: Spelled>(
    rt: &impl Wait,
    alloc: Global,
    layout: Under,
    rows: &[Row<'_>],
) -> Result<Miss, AllocError>
where
    S::Item: 'static,
{
    match layout {
        Under::AnyStatic => run::<S, ArcLayout<true, true>>(rt, alloc, rows),
        Under::Any => run::<S, ArcLayout<true, false>>(rt, alloc, rows),
        Under::Static => run::<S, ArcLayout<false, true>>(rt, alloc, rows),
        Under::Native => run::<S, ArcLayout<false, false>>(rt, alloc, rows),
        Under::Boxed => run::<S, BoxedSliceLayout>(rt, alloc, rows),
        Under::Vec => run::<S, VecLayout>(rt, alloc, rows),
        Under::Raw => run::<S, RawLayout>(rt, alloc, rows),
    }
}

/// Runs rows on windows of the kind and the layout with these names.
pub fn run_named(
    rt: &impl Wait,
    alloc: Global,
    kind: Kind,
    layout: Under,
    rows: &[Row<'_>],
) -> Result<Miss, AllocError> {
    match kind {
        Kind::Bytes => run_kind::<Plain<u8>>(rt, alloc, layout, rows),
        Kind::Numbers => run_kind::<Plain<u32>>(rt, alloc, layout, rows),
        Kind::Units => run_kind::<Plain<Unit>>(rt, alloc, layout, rows),
        Kind::Owned => run_kind::<Owned<Name>>(rt, alloc, layout, rows),
        Kind::Text => run_kind::<Text>(rt, alloc, layout, rows),
        Kind::ByteText => run_kind::<ByteText>(rt, alloc, layout, rows),
    }
}
