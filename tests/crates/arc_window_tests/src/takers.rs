//! Threads that each ask for the vector of their own clone, while others have the same vector.
use arc_block::layout::VecLayout;
use arc_buffer::kinds::Plain;
use arc_read::slice::ArcSlice;
use std::alloc::Global;
use std::sync::Wait;
use std::test::Fail;
use std::thread::{Threads, join};

/// Bytes over a vector.
type Window = ArcSlice<Plain<u8>, VecLayout>;

/// How often each thread asks.
const ASKED: u32 = 1000;

/// Clones a window again and again, and asks for the vector of each clone. How often it was
/// refused.
fn takings_refused(rt: &impl Wait, window: &Window) -> u32 {
    let mut refused = 0u32;
    for _ in 0..ASKED {
        if let Ok(clone) = window.try_clone(rt) {
            let mut pass = clone.pass();
            if clone.try_into_vec_as(&mut pass).is_err() {
                refused = refused.wrapping_add(1);
            }
        }
    }
    refused
}

/// The same in two threads.
fn refused_to_two<R: Threads + Wait + Sync>(rt: &R, window: &Window) -> (u32, u32) {
    join(
        rt,
        || takings_refused(rt, window),
        || takings_refused(rt, window),
    )
}

/// How often each of four threads was refused the vector that a window here stands on, and whether
/// that has it back when they have ended.
fn refused_to_four<R: Threads + Wait + Sync>(rt: &R, alloc: Global) -> Option<([u32; 4], bool)> {
    let bytes = Vec::from_slice(alloc, &[1, 2, 3]).ok()?;
    let window = Window::try_from_vec(alloc, bytes).ok()?;
    let ((one, two), (three, four)) = join(
        rt,
        || refused_to_two(rt, &window),
        || refused_to_two(rt, &window),
    );
    let bytes = window.try_into_vec().ok()?;
    let is_whole = bytes.as_slice() == [1, 2, 3].as_slice();
    Some(([one, two, three, four], is_whole))
}

/// Nobody takes a vector that another window stands on: 4,000 times none of four threads does.
#[test]
fn nobody_takes(rt: HostRuntime) -> Result<(), Fail> {
    let told = refused_to_four(&rt, rt.alloc());
    assert!(rt; told == Some(([ASKED; 4], true)));
    Ok(())
}
