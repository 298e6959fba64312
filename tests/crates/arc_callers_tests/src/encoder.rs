//! The encoder of frames, run.
use arc_callers::encoder::encode;
use std::test::Fail;

#[test]
fn frames_handed_out(rt: HostRuntime) -> Result<(), Fail> {
    let Ok((first, second)) = encode(&rt, rt.alloc(), b"Hello", b"") else {
        return Err("not encoded".into());
    };
    assert!(rt; first.as_slice() == b"\x00\x05Hello".as_slice());
    assert!(rt; second.as_slice() == b"\x00\x00".as_slice());
    drop(first);
    assert!(rt; second.is_unique());
    Ok(())
}
