//! Owners and their count: the replies at the greatest count, and two threads.

use arc_owners::error::CountFull;
use arc_owners::mark::{Mark, Open, Whole};
use arc_owners::owners::{Owners, Pass, Release, Share};
use std::sync::Wait;
use std::test::Fail;
use std::thread::{Threads, join};

/// The replies where the word counts three owners at most: two are made, a third is refused, the
/// second one made is released, not as the last, and then there is room again. No other reply can
/// come.
fn worked_run<R: Wait>(rt: &R) -> Pass<Whole> {
    let (owners, first, mut pass) = Owners::<3, Whole>::new();
    let Ok(_second) = owners.up_as(rt, &first, &mut pass) else {
        unreachable!()
    };
    let Ok(third) = owners.up_as(rt, &first, &mut pass) else {
        unreachable!()
    };
    let Err(CountFull) = owners.up_as(rt, &first, &mut pass) else {
        unreachable!()
    };
    let Release::NotLast = owners.down_as(third, &mut pass) else {
        unreachable!()
    };
    let Ok(_fourth) = owners.up_as(rt, &first, &mut pass) else {
        unreachable!()
    };
    pass
}

#[test]
fn replies_at_three(rt: HostRuntime) -> Result<(), Fail> {
    let _pass = worked_run(&rt);
    Ok(())
}

/// Raises and releases a thousand times through one owner. It answers how many owners were made,
/// and the pass.
fn thousand<R: Wait>(
    rt: &R,
    owners: &Owners<8, Open>,
    first: &Share<Open>,
    pass: Pass<Open>,
) -> (u32, Pass<Open>) {
    let mut pass = pass;
    let mut made = 0u32;
    for _ in 0..1000u32 {
        if let Ok(share) = owners.up_as(rt, first, &mut pass) {
            owners.down_as(share, &mut pass);
            made = made.wrapping_add(1);
        }
    }
    (made, pass)
}

/// Two threads raise and release through one owner. It answers how many owners each made, and
/// whether that one is alone afterwards.
fn alone_after_two<R: Threads + Wait + Sync>(rt: &R) -> (u32, u32, bool) {
    let (owners, first, one) = Owners::<8, Open>::new();
    let two = owners.pass(&first);
    let ((ones, mut one), (twos, two)) = join(
        rt,
        || -> (u32, Pass<Open>) { thousand(rt, &owners, &first, one) },
        || -> (u32, Pass<Open>) { thousand(rt, &owners, &first, two) },
    );
    owners.learn(&mut one, &two);
    (ones, twos, owners.alone_as(&first, &mut one))
}

#[test]
fn alone_after_threads(rt: HostRuntime) -> Result<(), Fail> {
    let (ones, twos, alone) = alone_after_two(&rt);
    assert!(rt; ones == 1000 && twos == 1000 && alone);
    Ok(())
}

#[test]
fn forgotten_owner_stays(rt: HostRuntime) -> Result<(), Fail> {
    let (owners, first, mut pass) = Owners::<3, Open>::new();
    let second = owners.up_as(&rt, &first, &mut pass)?;
    drop(second);
    assert!(rt; !owners.alone_as(&first, &mut pass));
    assert!(rt; matches!(owners.down_as(first, &mut pass), Release::NotLast));
    assert!(rt; size_of::<Pass<Open>>() == 0);
    Ok(())
}

/// Ends an owner, and hands the pass back.
fn ended(owners: &Owners<8, Open>, share: Share<Open>, pass: Pass<Open>) -> Pass<Open> {
    let mut pass = pass;
    owners.down_as(share, &mut pass);
    pass
}

/// Reads whether an owner is alone, whatever that is now, and hands the pass back.
fn looked(owners: &Owners<8, Open>, share: &Share<Open>, pass: Pass<Open>) -> Pass<Open> {
    let mut pass = pass;
    owners.alone_as(share, &mut pass);
    pass
}

/// A second thread ends an owner with a pass of its own, while this one looks. After the join this
/// one learns what that pass has seen, and asks whether the first owner is alone. It answers that,
/// with its own pass and the other one.
fn alone_after_end<R: Threads>(
    rt: &R,
    owners: &Owners<8, Open>,
    first: &Share<Open>,
    second: Share<Open>,
    own: Pass<Open>,
    other: Pass<Open>,
) -> (bool, Pass<Open>, Pass<Open>) {
    let (other, mut own) = join(
        rt,
        || -> Pass<Open> { ended(owners, second, other) },
        || -> Pass<Open> { looked(owners, first, own) },
    );
    owners.learn(&mut own, &other);
    let alone = owners.alone_as(first, &mut own);
    (alone, own, other)
}

/// Whether an owner gets the block back, which then ends.
fn ended_alone<H: Mark>(owners: &Owners<3, H>, share: Share<H>, pass: &mut Pass<H>) -> bool {
    match owners.claim_as(share, pass) {
        Ok((sole, _term)) => {
            sole.end_as(pass);
            true
        }
        Err(_) => false,
    }
}

/// Beside another owner the block isn't claimed, and alone it is.
#[test]
fn sole_owner_takes_back(rt: HostRuntime) -> Result<(), Fail> {
    let (owners, first, mut pass) = Owners::<3, Open>::new();
    let second = owners.up_as(&rt, &first, &mut pass)?;
    let Err(first) = owners.claim_as(first, &mut pass) else {
        assert!(rt; false);
        return Ok(());
    };
    assert!(rt; matches!(owners.down_as(second, &mut pass), Release::NotLast));
    assert!(rt; ended_alone(&owners, first, &mut pass));
    Ok(())
}

/// A block whose first owner has it whole, lends it, has it back, and ends.
#[test]
fn sole_owner_from_the_beginning(rt: HostRuntime) -> Result<(), Fail> {
    let (owners, sole, mut pass) = Owners::<3, Whole>::new_sole();
    sole.only(&mut pass);
    let first = sole.lend();
    assert!(rt; owners.alone_as(&first, &mut pass));
    assert!(rt; ended_alone(&owners, first, &mut pass));
    Ok(())
}

#[test]
fn alone_after_other_ended(rt: HostRuntime) -> Result<(), Fail> {
    let (owners, first, mut pass) = Owners::<8, Open>::new();
    let second = owners.up_as(&rt, &first, &mut pass)?;
    let other = owners.pass(&second);
    let (alone, _own, _other) = alone_after_end(&rt, &owners, &first, second, pass, other);
    assert!(rt; alone);
    Ok(())
}
