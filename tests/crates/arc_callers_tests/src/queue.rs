//! The queue over threads, run.
use arc_callers::queue::{Queue, read_by_two, read_part};
use std::test::Fail;

#[test]
fn buffer_had_back(rt: HostRuntime) -> Result<(), Fail> {
    let bytes = Vec::from_slice(rt.alloc(), b"Hello world")?;
    let Ok(mut queue) = Queue::new(rt.alloc(), bytes) else {
        return Err("no memory".into());
    };
    let first = queue.take(&rt, 6)?;
    let second = queue.take(&rt, 6)?;
    let Err(queue) = queue.into_buffer() else {
        return Err("though parts live".into());
    };
    let (first, second) = read_by_two(&rt, first, second);
    assert!(rt; (first.len, second.len) == (6, 5));
    assert!(rt; first.buffer.is_none() && second.buffer.is_none());
    let Ok(Some(bytes)) = queue.end() else {
        return Err("though no part lives".into());
    };
    assert!(rt; bytes.as_slice() == b"Hello world".as_slice());
    Ok(())
}

/// The queue ends before its parts: one of the two threads gets the vector, with its part's bytes.
#[test]
fn buffer_with_last_part(rt: HostRuntime) -> Result<(), Fail> {
    let bytes = Vec::from_slice(rt.alloc(), b"Hello world")?;
    let Ok(mut queue) = Queue::new(rt.alloc(), bytes) else {
        return Err("no memory".into());
    };
    let first = queue.take(&rt, 6)?;
    let second = queue.take(&rt, 6)?;
    assert!(rt; matches!(queue.end(), Ok(None)));
    let told = match read_by_two(&rt, first, second) {
        (first, second) if second.buffer.is_none() => (first.buffer, b"Hello ".as_slice()),
        (first, second) if first.buffer.is_none() => (second.buffer, b"world".as_slice()),
        _ => return Err("both have it".into()),
    };
    let (Some(bytes), part) = told else {
        return Err("neither has it".into());
    };
    assert!(rt; bytes.as_slice() == part);
    assert!(rt; bytes.capacity() == 11);
    Ok(())
}

/// A queue without places comes back when it ends.
#[test]
fn no_buffer(rt: HostRuntime) -> Result<(), Fail> {
    let Ok(queue) = Queue::new(rt.alloc(), Vec::new(rt.alloc())) else {
        return Err("no memory".into());
    };
    let Err(queue) = queue.end() else {
        return Err("though there is no vector".into());
    };
    let told = read_part(queue.whole);
    assert!(rt; told.len == 0 && told.buffer.is_none());
    Ok(())
}
