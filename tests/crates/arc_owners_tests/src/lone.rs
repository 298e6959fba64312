//! The count of a block that begins without one: while the word is lone, promoted, and lost.

use arc_owners::lone::owners::LoneOwners;
use arc_owners::mark::{Open, Whole};
use arc_owners::owners::{Pass, Release, Share};
use std::alloc::Global;
use std::sync::Wait;
use std::test::Fail;
use std::thread::{Threads, join};

/// While the word is lone its owner is alone, and ends as the last one.
#[test]
fn ended_lone(rt: HostRuntime) -> Result<(), Fail> {
    let (owners, first, mut pass) = LoneOwners::<3, Global, Whole>::new(rt.alloc());
    assert!(rt; owners.load_as(&first, &mut pass));
    assert!(rt; owners.alone_as(&first, &mut pass));
    assert!(rt; matches!(owners.down_as(first, &mut pass), Release::Last(_)));
    owners.free();
    Ok(())
}

/// An owner of a lone word takes the block back.
#[test]
fn claimed_lone(rt: HostRuntime) -> Result<(), Fail> {
    let (owners, first, mut pass) = LoneOwners::<3, Global, Whole>::new(rt.alloc());
    let Ok((sole, _term)) = owners.claim_as(first, &mut pass) else {
        assert!(rt; false);
        return Ok(());
    };
    sole.end_as(&mut pass);
    owners.free();
    Ok(())
}

/// The second owner is made by the promotion, and the third by the count, which then is full. They
/// end one by one.
#[test]
fn promoted(rt: HostRuntime) -> Result<(), Fail> {
    let (owners, first, mut pass) = LoneOwners::<3, Global, Whole>::new(rt.alloc());
    assert!(rt; owners.load_as(&first, &mut pass));
    let prepared = owners.prepare()?;
    let Ok(second) = owners.promote_as(&first, prepared, &mut pass) else {
        assert!(rt; false);
        return Ok(());
    };
    assert!(rt; !owners.load_as(&first, &mut pass));
    assert!(rt; !owners.alone_as(&first, &mut pass));
    let third = owners.up_as(&rt, &second, &mut pass)?;
    assert!(rt; owners.up_as(&rt, &second, &mut pass).is_err());
    assert!(rt; matches!(owners.down_as(first, &mut pass), Release::NotLast));
    let Err(second) = owners.claim_as(second, &mut pass) else {
        assert!(rt; false);
        return Ok(());
    };
    assert!(rt; matches!(owners.down_as(third, &mut pass), Release::NotLast));
    assert!(rt; matches!(owners.down_as(second, &mut pass), Release::Last(_)));
    owners.free();
    Ok(())
}

/// Two passes find the word lone. The exchange of the second is lost: what it prepared comes back.
#[test]
fn lost(rt: HostRuntime) -> Result<(), Fail> {
    let (owners, first, mut one) = LoneOwners::<8, Global, Open>::new(rt.alloc());
    let mut two = first.pass();
    assert!(rt; owners.load_as(&first, &mut one) && owners.load_as(&first, &mut two));
    let prepared = owners.prepare()?;
    assert!(rt; owners.promote_as(&first, prepared, &mut one).is_ok());
    let prepared = owners.prepare()?;
    let Err(prepared) = owners.promote_as(&first, prepared, &mut two) else {
        assert!(rt; false);
        return Ok(());
    };
    owners.discard(prepared);
    assert!(rt; owners.up_as(&rt, &first, &mut two).is_ok());
    Ok(())
}

/// Makes another owner as a clone does: by a promotion where the word is lone, and by the count
/// where it isn't, or no longer. It answers whether the promotion was this one's.
fn cloned<R: Wait>(
    rt: &R,
    owners: &LoneOwners<8, Global, Open>,
    first: &Share<Open>,
    pass: &mut Pass<Open>,
) -> Option<(Share<Open>, bool)> {
    if owners.load_as(first, pass) {
        let prepared = owners.prepare().ok()?;
        match owners.promote_as(first, prepared, pass) {
            Ok(share) => return Some((share, true)),
            Err(prepared) => owners.discard(prepared),
        }
    }
    Some((owners.up_as(rt, first, pass).ok()?, false))
}

/// One of four threads: it makes an owner, and ends it. It answers how many promotions were its
/// own, and 9 where it was refused.
fn one_of_four<R: Wait>(rt: &R, owners: &LoneOwners<8, Global, Open>, first: &Share<Open>) -> u32 {
    let mut pass = first.pass();
    match cloned(rt, owners, first, &mut pass) {
        Some((share, won)) => {
            owners.down_as(share, &mut pass);
            if won { 1 } else { 0 }
        }
        None => 9,
    }
}

/// Four threads clone a lone owner at once, a thousand times. Each time one of them promotes, and
/// the first owner is alone afterwards.
fn four_threads<R: Threads + Wait + Sync>(rt: &R, alloc: Global) -> u32 {
    let mut well = 0u32;
    for _ in 0..1000u32 {
        let (owners, first, mut pass) = LoneOwners::<8, Global, Open>::new(alloc);
        let ((a, b), (c, d)) = join(
            rt,
            || -> (u32, u32) {
                join(
                    rt,
                    || -> u32 { one_of_four(rt, &owners, &first) },
                    || -> u32 { one_of_four(rt, &owners, &first) },
                )
            },
            || -> (u32, u32) {
                join(
                    rt,
                    || -> u32 { one_of_four(rt, &owners, &first) },
                    || -> u32 { one_of_four(rt, &owners, &first) },
                )
            },
        );
        let alone = owners.alone_as(&first, &mut pass);
        let last = matches!(owners.down_as(first, &mut pass), Release::Last(_));
        owners.free();
        if a.wrapping_add(b).wrapping_add(c).wrapping_add(d) == 1 && alone && last {
            well = well.wrapping_add(1);
        }
    }
    well
}

#[test]
fn promoted_once_by_four(rt: HostRuntime) -> Result<(), Fail> {
    assert!(rt; four_threads(&rt, rt.alloc()) == 1000);
    Ok(())
}
