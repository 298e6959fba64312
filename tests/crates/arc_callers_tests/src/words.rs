//! The line that is cut, run.
use arc_callers::words::{cut_at, take_all};
use arc_slice::{ArcBytes, ArcStr};
use std::test::Fail;

#[test]
fn line_cut(rt: HostRuntime) -> Result<(), Fail> {
    let line = ArcBytes::try_from_slice(rt.alloc(), b"Hello world")?;
    let (front, back) = cut_at(&rt, &line, 5)?;
    assert!(rt; front.as_slice() == b"Hello".as_slice() && back.as_slice() == b"world".as_slice());
    let mut text = ArcStr::try_from_str(rt.alloc(), "Hello")?;
    let all = take_all(&rt, &mut text)?;
    assert!(rt; all.as_str() == "Hello" && text.is_empty());
    Ok(())
}
