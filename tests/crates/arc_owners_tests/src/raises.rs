//! Raises through one owner in four threads: one that is overtaken reads the count again.

use arc_owners::mark::Open;
use arc_owners::owners::{Owners, Share};
use std::sync::Wait;
use std::sync::atomic::AtomicU64;
use std::sync::atomic::Ordering::SeqCst;
use std::test::Fail;
use std::thread::{Threads, join, yield_now};

/// How many owners each of the four threads makes.
const RAISES: u32 = 1_000_000;

/// The greatest count: the first owner, and all that the four threads make.
const MOST: u64 = 4_000_001;

/// How often a thread yields at most before all four have come. Then it begins without the others.
const TURNS: u32 = 100_000;

/// Waits till four threads have come, for so many turns at most.
fn wait_for_four(come: &AtomicU64) {
    come.fetch_add(1, SeqCst);
    for _ in 0..TURNS {
        if come.load(SeqCst) == 4 {
            return;
        }
        yield_now();
    }
}

/// Makes owners through one owner, once four threads have come. It answers how many were made.
///
/// Each is forgotten and so lives on: the number that a raise once found never comes back.
fn raised<R: Wait>(
    rt: &R,
    owners: &Owners<MOST, Open>,
    first: &Share<Open>,
    come: &AtomicU64,
) -> u32 {
    wait_for_four(come);
    let mut pass = owners.pass(first);
    let mut made = 0u32;
    for _ in 0..RAISES {
        if owners.up_as(rt, first, &mut pass).is_ok() {
            made = made.wrapping_add(1);
        }
    }
    made
}

/// The same in two threads. It answers how many owners each made.
fn raised_by_two<R: Threads + Wait + Sync>(
    rt: &R,
    owners: &Owners<MOST, Open>,
    first: &Share<Open>,
    come: &AtomicU64,
) -> (u32, u32) {
    join(
        rt,
        || -> u32 { raised(rt, owners, first, come) },
        || -> u32 { raised(rt, owners, first, come) },
    )
}

/// The same in four threads. It answers how many owners each made, and whether one more is
/// refused afterwards.
fn raised_by_four<R: Threads + Wait + Sync>(rt: &R) -> ((u32, u32), (u32, u32), bool) {
    let (owners, first, mut pass) = Owners::<MOST, Open>::new();
    let come = AtomicU64::new(0);
    let (one, two) = join(
        rt,
        || -> (u32, u32) { raised_by_two(rt, &owners, &first, &come) },
        || -> (u32, u32) { raised_by_two(rt, &owners, &first, &come) },
    );
    let full = owners.up_as(rt, &first, &mut pass).is_err();
    (one, two, full)
}

/// A raise that kept the number that it read first would go on for ever after a lost exchange.
#[test]
fn overtaken_raise_wins(rt: HostRuntime) -> Result<(), Fail> {
    let (one, two, full) = raised_by_four(&rt);
    assert!(rt; (one, two) == ((RAISES, RAISES), (RAISES, RAISES)));
    assert!(rt; full);
    Ok(())
}
