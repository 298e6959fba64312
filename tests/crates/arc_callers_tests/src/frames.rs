//! The codec of frames, run.
use arc_callers::frames::{into_rest, receive, take_frame};
use std::test::Fail;

#[test]
fn frames_taken_off(rt: HostRuntime) -> Result<(), Fail> {
    let received = Vec::from_slice(rt.alloc(), b"\x00\x05Hello\x00\x00\x01\x00short")?;
    let Ok(mut buffer) = receive(rt.alloc(), received) else {
        return Err("no buffer".into());
    };
    let Some(first) = take_frame(&rt, &mut buffer)? else {
        return Err("no first frame".into());
    };
    let Some(second) = take_frame(&rt, &mut buffer)? else {
        return Err("no second frame".into());
    };
    assert!(rt; first.as_slice() == b"Hello".as_slice());
    assert!(rt; second.is_empty());
    assert!(rt; take_frame(&rt, &mut buffer)?.is_none());
    let Err(buffer) = into_rest(buffer) else {
        return Err("the first frame lost its block".into());
    };
    assert!(rt; first.as_slice() == b"Hello".as_slice());
    drop(first);
    drop(second);
    let Ok(rest) = into_rest(buffer) else {
        return Err("not had back".into());
    };
    assert!(rt; rest.as_slice() == b"\x01\x00short".as_slice());
    Ok(())
}
