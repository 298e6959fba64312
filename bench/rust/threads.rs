//! Clones of one window by several threads at once, through one reference.
use crate::{Usual, Words};
use arc_slice::ArcBytes;

/// Clones the window so often, and releases each clone.
fn work(window: &ArcBytes<Usual>, count: usize) -> Option<()> {
    for _ in 0..count {
        drop(window.try_clone().ok()?);
    }
    Some(())
}

/// Lets so many threads clone one window so often each, and answers whether all was done.
pub fn run(workers: usize, words: &Words) -> Option<()> {
    if words.operation != "clone_shared" {
        return None;
    }
    let window: ArcBytes<Usual> = ArcBytes::try_from_slice(&[42; 128]).ok()?;
    std::thread::scope(|scope| {
        let window = &window;
        let started: Vec<_> = (0..workers)
            .map(|_| scope.spawn(move || work(window, words.count)))
            .collect();
        started
            .into_iter()
            .all(|it| matches!(it.join(), Ok(Some(()))))
            .then_some(())
    })
}
