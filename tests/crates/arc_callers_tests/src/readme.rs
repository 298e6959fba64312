//! The example of README.md, run.
use arc_callers::readme::hello;
use std::test::Fail;

#[test]
fn hello_is_read(rt: HostRuntime) -> Result<(), Fail> {
    assert!(rt; hello(&rt, rt.alloc())?);
    Ok(())
}
