//! A sole writer's parts, which grow.
use arc_buffer::kinds::Plain;
use arc_owners::error::TryReserveError;
use arc_owners::owners::Pass;
use arc_writer_parts::role::WriterParts;
use arc_writer_parts::sole::SoleParts;
use std::alloc::Global;
use std::test::Fail;

type Writer = SoleParts<Plain<u8>, Vec<u8>, (), Global>;

/// A writer of a copy of the bytes.
fn bytes(alloc: Global, items: &[u8]) -> Option<Writer> {
    match Writer::try_from_slice_as(alloc, items, &mut Pass::none()) {
        Ok(writer) => Some(writer),
        Err(_) => None,
    }
}

fn push(writer: &mut Writer, item: u8) -> Result<(), (TryReserveError, u8)> {
    let mut pass = writer.pass();
    writer.try_push_as(item, &mut pass)
}

fn reserve(writer: &mut Writer, additional: usize) -> Result<(), TryReserveError> {
    let mut pass = writer.pass();
    writer.try_reserve_as(additional, &mut pass)
}

/// A writer of eight bytes without the first three, and with 9 behind the others.
fn shifted(alloc: Global) -> Option<Writer> {
    let mut writer = bytes(alloc, &[1, 2, 3, 4, 5, 6, 7, 8])?;
    if writer.len() < 3 {
        return None;
    }
    writer.advance(3);
    push(&mut writer, 9).ok()?;
    Some(writer)
}

/// Its places with room for seven bytes more, and for eight.
fn grown(writer: Writer) -> Option<[usize; 2]> {
    let mut writer = writer;
    reserve(&mut writer, 7).ok()?;
    let seven = writer.capacity();
    reserve(&mut writer, 8).ok()?;
    Some([seven, writer.capacity()])
}

/// A block grows to twice its size, or to what is needed, and the offset stays.
#[test]
fn native_growth_is_exact(rt: HostRuntime) -> Result<(), Fail> {
    let told = match shifted(rt.alloc()) {
        Some(writer) => grown(writer),
        None => None,
    };
    assert!(rt; told == Some([13, 29]));
    Ok(())
}
