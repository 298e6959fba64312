//! Items that are dropped one by one, and callers' buffers of such, in a table over a heap that
//! counts: what tables of such a kind answer; and whichever request for memory is refused, when the
//! table has ended each item that went in was dropped once, and all memory is given back.
use crate::tables::told;
use arc_block::layout::DefaultLayout;
use arc_buffer::kinds::Owned;
use arc_table::table::Table;
use counting_heap::CountingHeap;
use rows::{ROWS, Row};
use sent::{Heap, Items, Line, Values, command, has_values, living, values, wanted};
use std::alloc::Global;
use std::sync::{Arc, Wait};

mod rows;
mod sent;

/// A table of values.
type Owning<'a> = Table<Owned<Arc<u8>>, DefaultLayout, Items<'a>, u8, Heap<'a>>;

/// Whether a command is answered as it is to be, and gives the values that it is to. It isn't where
/// memory for it is refused.
fn is_answered<'a>(
    rt: &impl Wait,
    heap: Heap<'a>,
    table: &mut Owning<'a>,
    values: &Values,
    line: Line,
) -> bool {
    let (call, answer) = line;
    match command(heap, values, call) {
        Some(sent) => {
            let reply = table.step(rt, sent);
            let has_values = has_values(&reply, wanted(call));
            (told(reply), has_values) == (answer, answer.is_of_items())
        }
        None => false,
    }
}

/// How many lines of a row a table answers otherwise, and whether each value then has the owners
/// that it is to have. The table has ended.
fn run<'a>(rt: &impl Wait, heap: Heap<'a>, values: &Values, row: Row) -> (usize, bool) {
    let mut table: Owning<'a> = Table::new(heap);
    let mut others = 0usize;
    for line in row.lines {
        if !is_answered(rt, heap, &mut table, values, *line) {
            others = others.saturating_add(1);
        }
    }
    let is_living = living(values) == row.living;
    let _ = table.end();
    (others, is_living)
}

/// Whether a row goes as it is to go where nothing is refused, and leaves nothing where one request
/// is, each in turn, at least one of them.
fn in_turn(rt: &impl Wait, heap: Heap<'_>, values: &Values, row: Row) -> bool {
    for request in 1..1000u64 {
        heap.refuse(request);
        let ran = run(rt, heap, values, row);
        if (living(values), heap.pieces()) != ([1; 4], 0) {
            return false;
        }
        if heap.refusals() == 0 {
            return request > 1 && ran == (0, true);
        }
    }
    false
}

/// The first row that goes otherwise, by its place; all rows' number where none does.
fn passed(rt: &impl Wait, alloc: Global, heap: Heap<'_>) -> Option<usize> {
    let values = values(alloc)?;
    let mut count = 0usize;
    for row in ROWS {
        if !in_turn(rt, heap, &values, *row) {
            return Some(count);
        }
        count = count.saturating_add(1);
    }
    Some(count)
}

#[test]
fn ended(rt: HostRuntime) {
    let heap = CountingHeap::new(rt.alloc());
    let passed = passed(&rt, rt.alloc(), &heap);
    assert!(rt; passed == Some(ROWS.len()));
}
