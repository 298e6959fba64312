//! Three threads that raise a count with room for two more owners.

use arc_owners::mark::Open;
use arc_owners::owners::{Owners, Share};
use std::sync::Wait;
use std::sync::atomic::AtomicU64;
use std::sync::atomic::Ordering::SeqCst;
use std::test::Fail;
use std::thread::{Threads, join, yield_now};

/// How often a thread yields at most until all three have tried.
const TURNS: u32 = 1_000_000;

/// Waits till three threads have tried, for so many turns at most. Whether they have.
fn wait_for_three(tried: &AtomicU64) -> bool {
    tried.fetch_add(1, SeqCst);
    for _ in 0..TURNS {
        if tried.load(SeqCst) == 3 {
            return true;
        }
        yield_now();
    }
    false
}

/// One raise through one owner; an owner that is made lives until three threads have tried. It
/// answers whether one was made, and whether all came.
fn raised_once<R: Wait>(
    rt: &R,
    owners: &Owners<3, Open>,
    first: &Share<Open>,
    tried: &AtomicU64,
) -> (bool, bool) {
    let mut pass = owners.pass(first);
    match owners.up_as(rt, first, &mut pass) {
        Ok(share) => {
            let came = wait_for_three(tried);
            owners.down_as(share, &mut pass);
            (true, came)
        }
        Err(_) => (false, wait_for_three(tried)),
    }
}

/// The same in two threads.
fn raised_twice<R: Threads + Wait + Sync>(
    rt: &R,
    owners: &Owners<3, Open>,
    first: &Share<Open>,
    tried: &AtomicU64,
) -> ((bool, bool), (bool, bool)) {
    join(
        rt,
        || -> (bool, bool) { raised_once(rt, owners, first, tried) },
        || -> (bool, bool) { raised_once(rt, owners, first, tried) },
    )
}

/// What three threads answer that raise at once, and whether the owner is alone afterwards.
fn raised_by_three<R: Threads + Wait + Sync>(rt: &R) -> ([(bool, bool); 3], bool) {
    let (owners, first, mut pass) = Owners::<3, Open>::new();
    let tried = AtomicU64::new(0);
    let ((one, two), three) = join(
        rt,
        || -> ((bool, bool), (bool, bool)) { raised_twice(rt, &owners, &first, &tried) },
        || -> (bool, bool) { raised_once(rt, &owners, &first, &tried) },
    );
    ([one, two, three], owners.alone_as(&first, &mut pass))
}

/// Of three raises at once where two more owners have room two are made, whichever; all are tried
/// within 1,000,000 turns.
#[test]
fn full_at_three(rt: HostRuntime) -> Result<(), Fail> {
    let (answers, alone) = raised_by_three(&rt);
    let mut made = 0u32;
    let mut came = 0u32;
    for (is_made, is_come) in answers {
        made = made.wrapping_add(u32::from(is_made));
        came = came.wrapping_add(u32::from(is_come));
    }
    assert!(rt; (made, came, alone) == (2, 3, true));
    Ok(())
}
