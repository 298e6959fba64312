//! Tables of numbers of four bytes, under a layout without static data that the program doesn't
//! have: whichever request for memory is refused, when the table has ended all memory is given
//! back.
use crate::tables::told;
use arc_block::layout::ArcLayout;
use arc_buffer::kinds::Plain;
use arc_table::table::Table;
use counting_heap::CountingHeap;
use rows::{Line, ROWS};
use sent::{Heap, Numbers, command};
use std::sync::Wait;

mod rows;
mod sent;

/// A table of numbers.
type Counting<'a> = Table<Plain<i32>, ArcLayout<true, false>, Numbers<'a>, (), Heap<'a>>;

/// Whether a command is answered as it is to be. It isn't where memory for it is refused.
fn is_answered<'a>(rt: &impl Wait, heap: Heap<'a>, table: &mut Counting<'a>, line: Line) -> bool {
    let (call, wanted) = line;
    match command(heap, call) {
        Some(sent) => told(table.step(rt, sent)) == wanted,
        None => false,
    }
}

/// How many lines of a row a table answers otherwise. The table has ended.
fn run<'a>(rt: &impl Wait, heap: Heap<'a>, row: &[Line]) -> usize {
    let mut table: Counting<'a> = Table::new(heap);
    let mut others = 0usize;
    for line in row {
        if !is_answered(rt, heap, &mut table, *line) {
            others = others.saturating_add(1);
        }
    }
    let _ = table.end();
    others
}

/// Whether a row goes as it is to go where nothing is refused, and leaves nothing where one request
/// is, each in turn, at least one of them.
fn in_turn(rt: &impl Wait, heap: Heap<'_>, row: &[Line]) -> bool {
    for request in 1..1000u64 {
        heap.refuse(request);
        let others = run(rt, heap, row);
        if heap.pieces() != 0 {
            return false;
        }
        if heap.refusals() == 0 {
            return request > 1 && others == 0;
        }
    }
    false
}

/// The first row that goes otherwise, by its place; all rows' number where none does.
fn passed(rt: &impl Wait, heap: Heap<'_>) -> usize {
    let mut count = 0usize;
    for row in ROWS {
        if !in_turn(rt, heap, row) {
            return count;
        }
        count = count.saturating_add(1);
    }
    count
}

/// Where nothing is refused each command is answered as it is to be.
#[test]
fn in_need(rt: HostRuntime) {
    let heap = CountingHeap::new(rt.alloc());
    let passed = passed(&rt, &heap);
    assert!(rt; passed == ROWS.len());
}
