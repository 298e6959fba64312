//! Tables of text, which is cut, split and joined between characters alone, and has no bytes pushed
//! into it. What they answer is the same under each layout that has static data and vectors.
use crate::tables::told;
use arc_block::layout::{DefaultLayout, Layout, LayoutMut, VecLayout};
use arc_buffer::kinds::Text;
use arc_table::table::Table;
use rows::{Line, ROWS};
use sent::{command, has_text, wanted};
use std::alloc::Global;
use std::sync::Wait;

mod rows;
mod sent;

/// A table of texts under a layout.
type Texts<L> = Table<Text, L, Vec<u8>, (), Global>;

/// Whether a command is answered as it is to be, and shows or gives the text that it is to.
fn is_answered<L: Layout>(rt: &impl Wait, alloc: Global, table: &mut Texts<L>, line: Line) -> bool
where
    L::Writable: LayoutMut,
{
    let (call, answer) = line;
    match command(alloc, call) {
        Some(sent) => {
            let reply = table.step(rt, sent);
            let has_text = has_text(&reply, wanted(call));
            (told(reply), has_text) == (answer, answer.is_of_items())
        }
        None => false,
    }
}

/// How many lines of a row a table answers otherwise. The table has ended.
fn run<L: Layout>(rt: &impl Wait, alloc: Global, row: &[Line]) -> usize
where
    L::Writable: LayoutMut,
{
    let mut table: Texts<L> = Table::new(alloc);
    let mut others = 0usize;
    for line in row {
        if !is_answered(rt, alloc, &mut table, *line) {
            others = others.saturating_add(1);
        }
    }
    let _ = table.end();
    others
}

/// The first row that goes otherwise, by its place; all rows' number where none does.
fn passed<L: Layout>(rt: &impl Wait, alloc: Global) -> usize
where
    L::Writable: LayoutMut,
{
    let mut count = 0usize;
    for row in ROWS {
        if run::<L>(rt, alloc, row) != 0 {
            return count;
        }
        count = count.saturating_add(1);
    }
    count
}

#[test]
fn texts(rt: HostRuntime) {
    let passed = [
        passed::<DefaultLayout>(&rt, rt.alloc()),
        passed::<VecLayout>(&rt, rt.alloc()),
    ];
    assert!(rt; passed == [ROWS.len(); 2]);
}
