//! A line that says a command. All forms, and lines of none, stand in `tests/rows` of the
//! repository.
use arc_commands::command::Cmd;
use arc_forms::parse::parse;

fn slices(rt: &HostRuntime, line: &[u8], items: &[u8]) -> bool {
    match parse(rt.alloc(), line) {
        Ok(Some(Cmd::Slice(v))) => v.as_slice() == items,
        _ => false,
    }
}

#[test]
fn commands(rt: HostRuntime) {
    assert!(rt; slices(&rt, b"slice 48656c6c6f20776f726c64", b"Hello world"));
}
