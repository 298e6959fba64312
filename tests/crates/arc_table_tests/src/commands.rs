//! A window that is made, cut and shown, one command after the other and as a list, and a list for
//! whose replies memory runs out. The worked rows over bytes stand in `tests/rows` of the
//! repository, which `tests/program` gives to the built program.
use crate::tables::{ByteTable, Said, has_items, shows, table_of, told};
use arc_buffer::kinds::Plain;
use arc_owners::error;
use arc_table::command::{Cmd, Reply};
use arc_table::kinds::{TableCmd, TableReply};
use arc_table::table::Table;
use linked_list_allocator::LocalHeap;
use std::alloc::{AllocError, Allocator};
use std::sync::Wait;
use std::test::Fail;

#[test]
fn hello(rt: HostRuntime) {
    let mut table = table_of(&rt, rt.alloc(), b"Hello world");
    let cut = told(table.step(
        &rt,
        Cmd::Sub {
            window: 0,
            start: 0,
            end: 5,
        },
    ));
    let shown = shows(&rt, &mut table, 1, b"Hello");
    let _ = table.end();
    assert!(rt; cut == Said::New(1));
    assert!(rt; shown);
}

/// The commands of `hello`, in a list.
fn hello_commands<A: Allocator + Copy>(
    alloc: A,
) -> Result<Vec<TableCmd<Plain<u8>, Vec<u8>, (), A>, A>, AllocError> {
    let items = Vec::from_slice(alloc, b"Hello world")?;
    let mut commands = Vec::with_capacity(alloc, 3)?;
    commands.push_reserved(Cmd::Slice(items));
    commands.push_reserved(Cmd::Sub {
        window: 0,
        start: 0,
        end: 5,
    });
    commands.push_reserved(Cmd::Show { window: 1 });
    Ok(commands)
}

/// Whether these are the commands of `hello`.
fn are_hello<A: Allocator>(commands: &[TableCmd<Plain<u8>, Vec<u8>, (), A>]) -> bool {
    match commands {
        [
            Cmd::Slice(items),
            Cmd::Sub {
                window: 0,
                start: 0,
                end: 5,
            },
            Cmd::Show { window: 1 },
        ] => items.as_slice() == b"Hello world".as_slice(),
        _ => false,
    }
}

/// What comes of commands that may be refused memory.
#[derive(Clone, Copy, PartialEq, Eq)]
enum Ran {
    /// The list of commands comes back, since the replies have no room.
    Back,
    /// A command is refused memory, and nothing changes.
    Short,
    /// All is done.
    Whole,
    /// Another command is refused, or there was no memory for what is needed before.
    Other,
    /// What mustn't be.
    Wrong,
}

/// What comes of the commands of `hello`: of a table's first ones, or beside a window that is too
/// short to be cut so.
fn which<A: Allocator>(
    answered: Result<
        Vec<TableReply<Plain<u8>, Vec<u8>, (), A>, A>,
        (
            Vec<TableCmd<Plain<u8>, Vec<u8>, (), A>, A>,
            error::AllocError,
        ),
    >,
) -> Ran {
    match answered {
        Err((commands, _)) => {
            if are_hello(&commands) {
                Ran::Back
            } else {
                Ran::Wrong
            }
        }
        Ok(replies) => match replies.as_slice() {
            [Reply::Alloc, ..] => Ran::Short,
            [Reply::New(0), Reply::New(1), last] if has_items(last, b"Hello") => Ran::Whole,
            [Reply::New(1), _, last] if has_items(last, b"Hello world") => Ran::Whole,
            _ => Ran::Other,
        },
    }
}

/// A list is answered in its order.
#[test]
fn hello_as_list(rt: HostRuntime) -> Result<(), Fail> {
    let commands = hello_commands(rt.alloc())?;
    let mut table: ByteTable<_> = Table::new(rt.alloc());
    let ran = which(table.run(&rt, commands));
    let _ = table.end();
    assert!(rt; ran == Ran::Whole);
    Ok(())
}

/// Whether the first window shows `A` where it stands.
fn shows_a<A: Allocator + Copy>(table: &ByteTable<A>) -> bool {
    match table.show_in_place(0) {
        Reply::Items(items) => items == b"A".as_slice(),
        _ => false,
    }
}

/// The commands of `hello`, carried out by a table.
fn carried_out<A: Allocator + Copy>(rt: &impl Wait, table: &mut ByteTable<A>, alloc: A) -> Ran {
    let Ok(commands) = hello_commands(alloc) else {
        return Ran::Other;
    };
    which(table.run(rt, commands))
}

/// The commands of `hello`, over a table with a window. Where they come back, and are dropped, the
/// table and the heap are as before.
fn listed(rt: &impl Wait, heap: &LocalHeap) -> Ran {
    let mut table = table_of(rt, heap, b"A");
    let before = (shows_a(&table), heap.used());
    let ran = carried_out(rt, &mut table, heap);
    let after = (shows_a(&table), heap.used());
    let _ = table.end();
    match ran {
        Ran::Back if before != after => Ran::Wrong,
        Ran::Whole if !before.0 => Ran::Other,
        ran => ran,
    }
}

/// With more and more memory that for the replies to a list is refused, so that the commands come
/// back and the table is as it was, and then each request in turn. A refusal changes nothing, and
/// at the end all memory is given back.
#[test]
fn memory_refused(rt: HostRuntime) -> Result<(), Fail> {
    let mut back = 0u32;
    let mut short = 0u32;
    let mut whole = 0u32;
    for units in 1..256usize {
        let heap = LocalHeap::new(rt.alloc(), units * 16)?;
        let ran = listed(&rt, &heap);
        assert!(rt; (ran == Ran::Wrong, heap.used()) == (false, 0));
        match ran {
            Ran::Back => back = back.wrapping_add(1),
            Ran::Short => short = short.wrapping_add(1),
            Ran::Whole => whole = whole.wrapping_add(1),
            _ => {}
        }
    }
    assert!(rt; (0 < back, 0 < short, 0 < whole) == (true, true, true));
    Ok(())
}
