//! The worked runs, the events that change nothing, and a refused request for memory.
use arc_owners::error::AllocError;
use arc_owners::owners::{Entry, Event, World, is_run, keeps, replay, replay_lone};
use linked_list_allocator::LocalHeap;
use std::alloc::{Allocator, Global};
use std::test::Fail;

/// A run of a word that began with a count, over all kinds of step that such a word has.
const COUNTED_RUN: [Event; 6] = [
    Event::CountUp {
        thread: 1,
        by: 0,
        seen: 1,
        new: 1,
    },
    Event::CountUp {
        thread: 1,
        by: 0,
        seen: 2,
        new: 2,
    },
    Event::FullFound { thread: 1, by: 0 },
    Event::CountDown {
        thread: 1,
        by: 1,
        seen: 3,
    },
    Event::UniquenessLoad {
        thread: 1,
        by: 0,
        seen: 2,
    },
    Event::CountUp {
        thread: 1,
        by: 0,
        seen: 5,
        new: 3,
    },
];

/// Two threads promote a lone vector at once, and the one that loses raises the winner's count.
const PROMOTION: [Event; 5] = [
    Event::Load { thread: 1, by: 0 },
    Event::Load { thread: 2, by: 0 },
    Event::ExchangeWon {
        thread: 1,
        by: 0,
        new: 1,
    },
    Event::ExchangeLost { thread: 2, by: 0 },
    Event::CountUp {
        thread: 2,
        by: 0,
        seen: 2,
        new: 2,
    },
];

#[test]
fn counted_run(rt: HostRuntime) -> Result<(), Fail> {
    let world = replay::<3, _>(rt.alloc(), &COUNTED_RUN)?;
    assert!(rt; (world.counted, world.count, world.ready.len()) == (true, 2, 0));
    assert!(rt; world.live.as_slice() == [0, 2].as_slice());
    assert!(rt;
        world.entries.as_slice()
            == [
                Entry::Up(0, 1),
                Entry::Up(0, 2),
                Entry::Full(0),
                Entry::Down(1),
                Entry::Alone(0, false)
            ]
            .as_slice()
    );
    Ok(())
}

#[test]
fn history_of_no_entries() {
    is_run::<3>(&[]);
}

#[test]
fn promotion_run(rt: HostRuntime) -> Result<(), Fail> {
    keeps::<3>(&PROMOTION);
    let world = replay_lone::<3, _>(rt.alloc(), &PROMOTION)?;
    assert!(rt; (world.counted, world.count) == (true, 3));
    assert!(rt; world.live.as_slice() == [0, 1, 2].as_slice());
    assert!(rt;
        world.entries.as_slice()
            == [Entry::Promote(0, 1), Entry::Joined(0), Entry::Up(0, 2)].as_slice()
    );
    Ok(())
}

/// The owner of the promoted vector ends, and the other one stays.
#[test]
fn first_owner_ends(rt: HostRuntime) -> Result<(), Fail> {
    let events = [
        Event::Load { thread: 2, by: 0 },
        Event::Load { thread: 1, by: 0 },
        Event::ExchangeWon {
            thread: 1,
            by: 0,
            new: 1,
        },
        Event::CountDown {
            thread: 1,
            by: 0,
            seen: 2,
        },
    ];
    let world = replay_lone::<3, _>(rt.alloc(), &events)?;
    assert!(rt; world.count == 1);
    assert!(rt; world.live.as_slice() == [1].as_slice());
    Ok(())
}

#[test]
fn number_never_live(rt: HostRuntime) -> Result<(), Fail> {
    let world = replay::<3, _>(
        rt.alloc(),
        &[Event::CountUp {
            thread: 1,
            by: 0,
            seen: 1,
            new: 7,
        }],
    )?;
    assert!(rt; world.live.as_slice() == [0, 7].as_slice());
    Ok(())
}

/// The run of these events, by a word that began with a count, or by a lone one.
fn run_of(alloc: Global, counted: bool, events: &[Event]) -> Result<World, AllocError> {
    if counted {
        replay::<3, _>(alloc, events)
    } else {
        replay_lone::<3, _>(alloc, events)
    }
}

fn with_event(
    alloc: Global,
    counted: bool,
    events: &[Event],
    event: Event,
) -> Result<World, AllocError> {
    let mut all = Vec::from_slice(alloc, events)?;
    all.push(event)?;
    run_of(alloc, counted, &all)
}

fn is_same<A: Allocator, B: Allocator>(found: &World<A>, wanted: &World<B>) -> bool {
    found.counted == wanted.counted
        && found.count == wanted.count
        && found.live.as_slice() == wanted.live.as_slice()
        && found.ready.as_slice() == wanted.ready.as_slice()
        && found.entries.as_slice() == wanted.entries.as_slice()
}

/// The first of these events that changes something after a run, by its place, if one does.
fn first_change(
    alloc: Global,
    counted: bool,
    events: &[Event],
    more: &[Event],
) -> Result<Option<usize>, AllocError> {
    let wanted = run_of(alloc, counted, events)?;
    for (at, event) in more.iter().enumerate() {
        let found = with_event(alloc, counted, events, *event)?;
        if !is_same(&found, &wanted) {
            return Ok(Some(at));
        }
    }
    Ok(None)
}

/// What may not happen after the counted run.
const NOT_ON_A_COUNT: [Event; 12] = [
    Event::Load { thread: 1, by: 0 },
    Event::ExchangeWon {
        thread: 1,
        by: 0,
        new: 3,
    },
    Event::ExchangeLost { thread: 1, by: 0 },
    Event::CountUp {
        thread: 1,
        by: 1,
        seen: 2,
        new: 3,
    },
    Event::CountUp {
        thread: 1,
        by: 0,
        seen: 1,
        new: 3,
    },
    Event::CountUp {
        thread: 1,
        by: 0,
        seen: 2,
        new: 2,
    },
    Event::CountUp {
        thread: 1,
        by: 0,
        seen: 2,
        new: 1,
    },
    Event::FullFound { thread: 1, by: 0 },
    Event::CountDown {
        thread: 1,
        by: 1,
        seen: 2,
    },
    Event::CountDown {
        thread: 1,
        by: 0,
        seen: 3,
    },
    Event::UniquenessLoad {
        thread: 1,
        by: 1,
        seen: 2,
    },
    Event::UniquenessLoad {
        thread: 1,
        by: 0,
        seen: 1,
    },
];

/// What may not happen where the word is lone and one thread has found it so.
const NOT_ON_A_LONE_WORD: [Event; 8] = [
    Event::Load { thread: 2, by: 1 },
    Event::ExchangeWon {
        thread: 2,
        by: 0,
        new: 1,
    },
    Event::ExchangeWon {
        thread: 1,
        by: 0,
        new: 0,
    },
    Event::ExchangeLost { thread: 1, by: 0 },
    Event::CountUp {
        thread: 1,
        by: 0,
        seen: 1,
        new: 1,
    },
    Event::FullFound { thread: 1, by: 0 },
    Event::CountDown {
        thread: 1,
        by: 0,
        seen: 1,
    },
    Event::UniquenessLoad {
        thread: 1,
        by: 0,
        seen: 1,
    },
];

#[test]
fn nothing_changes(rt: HostRuntime) -> Result<(), Fail> {
    let more = Event::CountUp {
        thread: 1,
        by: 0,
        seen: 3,
        new: 3,
    };
    let load = Event::Load { thread: 1, by: 0 };
    let told = [
        first_change(rt.alloc(), true, &COUNTED_RUN, &NOT_ON_A_COUNT)?,
        first_change(rt.alloc(), false, &PROMOTION, &[more])?,
        first_change(rt.alloc(), false, &[load], &NOT_ON_A_LONE_WORD)?,
    ];
    assert!(rt; told == [None; 3]);
    let world = run_of(rt.alloc(), false, &[load])?;
    assert!(rt; world.ready.as_slice() == [1].as_slice());
    Ok(())
}

/// Whether a heap of so many bytes is refused the run; none where it isn't, and the run isn't as it
/// is wanted.
fn is_refused(alloc: Global, bytes: usize, wanted: &World) -> Result<Option<bool>, AllocError> {
    let heap = LocalHeap::new(alloc, bytes)?;
    let run = replay_lone::<3, _>(&heap, &PROMOTION);
    match &run {
        Ok(found) => Ok(if is_same(found, wanted) {
            Some(false)
        } else {
            None
        }),
        Err(_) => Ok(Some(true)),
    }
}

/// A heap of its own, larger each time: a run that the heap has no room for is refused, and one
/// that fits is as ever.
#[test]
fn memory_refused(rt: HostRuntime) -> Result<(), Fail> {
    let wanted = replay_lone::<3, _>(rt.alloc(), &PROMOTION)?;
    let mut found = [false; 2];
    for blocks in 2..64usize {
        match is_refused(rt.alloc(), blocks * 16, &wanted)? {
            Some(true) => found[0] = true,
            Some(false) => found[1] = true,
            None => return Err("another run".into()),
        }
    }
    assert!(rt; found == [true; 2]);
    Ok(())
}
