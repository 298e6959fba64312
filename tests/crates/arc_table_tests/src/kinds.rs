//! Tables of byte text, of items of a user's own, and of items that borrow.
use crate::tables::{Said, told};
use arc_block::layout::{ArcLayout, DefaultLayout};
use arc_block::static_slice::StaticSlice;
use arc_buffer::kinds::{ByteText, Plain};
use arc_table::command::Cmd;
use arc_table::kinds::{NoSmall, NoZero, TableItem};
use arc_table::table::Table;
use std::test::Fail;

/// Byte text has a zero. A layout under which no block is of a caller's making has no call that
/// brings one.
#[test]
fn lacking(rt: HostRuntime) {
    let mut table: Table<ByteText, ArcLayout<false, true>, Vec<u8>, (), _> = Table::new(rt.alloc());
    let made = [
        told(table.step(&rt, Cmd::Vec(Vec::new(rt.alloc())))),
        told(table.step(&rt, Cmd::Raw(Vec::new(rt.alloc())))),
        told(table.step(
            &rt,
            Cmd::Buf {
                buffer: Vec::new(rt.alloc()),
                metadata: (),
            },
        )),
        told(table.step(&rt, Cmd::Zero { count: 2 })),
    ];
    let _ = table.end();
    assert!(rt; made == [Said::Kind, Said::Kind, Said::Kind, Said::New(0)]);
}

/// Byte text has small windows, and windows over what lies there for good.
#[test]
fn byte_text(rt: HostRuntime) -> Result<(), Fail> {
    let items = Vec::from_slice(rt.alloc(), b"ab")?;
    let mut table: Table<ByteText, DefaultLayout, Vec<u8>, (), _> = Table::new(rt.alloc());
    let small = told(table.step(&rt, Cmd::Small(items)));
    let lasting = told(table.step(&rt, Cmd::Static(StaticSlice::new(b"abcd"))));
    let _ = table.end();
    assert!(rt; [small, lasting] == [Said::New(0), Said::New(1)]);
    Ok(())
}

/// A type of a user's own, whose items have no zero.
#[derive(Clone, Copy, Drop)]
enum Color {
    Red,
    Blue,
}

impl TableItem for Color {
    type Zero = NoZero;

    type Small = NoSmall;
}

/// A kind without a zero is answered `Kind`, and what else a table does it does for it.
#[test]
fn no_zero(rt: HostRuntime) -> Result<(), Fail> {
    let items = Vec::from_slice(rt.alloc(), &[Color::Red, Color::Blue])?;
    let mut table: Table<Plain<Color>, DefaultLayout, Vec<Color>, (), _> = Table::new(rt.alloc());
    let zeros = told(table.step(&rt, Cmd::Zero { count: 2 }));
    let made = told(table.step(&rt, Cmd::MSlice(items)));
    let _ = table.end();
    assert!(rt; [zeros, made] == [Said::Kind, Said::New(0)]);
    Ok(())
}

/// The items needn't be `'static`: a window on nothing comes back as a slice of none.
#[test]
fn items_with_a_lifetime(rt: HostRuntime) -> Result<(), Fail> {
    let number = 7u32;
    let items = Vec::from_slice(rt.alloc(), &[&number])?;
    let mut table: Table<Plain<&u32>, DefaultLayout, Vec<&u32>, (), _> = Table::new(rt.alloc());
    let made = told(table.step(&rt, Cmd::Slice(items)));
    let none = told(table.step(
        &rt,
        Cmd::Sub {
            window: 0,
            start: 1,
            end: 1,
        },
    ));
    let slice = told(table.step(&rt, Cmd::TakeStatic { window: 1 }));
    let _ = table.end();
    assert!(rt; [made, none, slice] == [Said::New(0), Said::New(1), Said::Static]);
    Ok(())
}
