//! The refusals in words.
use arc_owners::error::{AllocError, CountFull, OwnerError, RangeError, TryReserveError};
use std::alloc::Global;
use std::fmt::Display;
use std::test::Fail;

/// Whether each of these errors is in the words beside it.
fn in_words<E: Display>(alloc: Global, errors: &[(E, &str)]) -> Option<bool> {
    for (error, words) in errors {
        let said = error.to_string(alloc).ok()?;
        if said.as_str() != *words {
            return Some(false);
        }
    }
    Some(true)
}

#[test]
fn owner_errors_in_words(rt: HostRuntime) -> Result<(), Fail> {
    let errors = [
        (OwnerError::AllocError, "allocation error"),
        (OwnerError::CountFull, "count full"),
    ];
    let told = [
        in_words(rt.alloc(), &[(AllocError, "allocation error")]),
        in_words(rt.alloc(), &[(CountFull, "count full")]),
        in_words(rt.alloc(), &errors),
    ];
    assert!(rt; told == [Some(true); 3]);
    Ok(())
}

#[test]
fn room_and_range_errors_in_words(rt: HostRuntime) -> Result<(), Fail> {
    let rooms = [
        (TryReserveError::NotUnique, "not unique"),
        (TryReserveError::Unsupported, "unsupported"),
        (TryReserveError::AllocError, "allocation error"),
        (TryReserveError::CapacityOverflow, "capacity overflow"),
    ];
    let ranges = [
        (RangeError::OutOfRange, "out of range"),
        (RangeError::InvalidRange, "invalid range"),
        (RangeError::NotBoundary, "not a char boundary"),
    ];
    let told = [in_words(rt.alloc(), &rooms), in_words(rt.alloc(), &ranges)];
    assert!(rt; told == [Some(true); 2]);
    Ok(())
}
