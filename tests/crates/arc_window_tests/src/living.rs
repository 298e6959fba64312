//! Values that have an owner more each: how many owners there are tells whether those that went
//! into a window were dropped, and that none was twice.
use std::alloc::Global;
use std::sync::Arc;

/// Five values.
pub type Values = [Arc<u8>; 5];

/// Five values with one owner each.
pub fn values(alloc: Global) -> Option<Values> {
    Some([
        Arc::new(alloc, 0).ok()?,
        Arc::new(alloc, 1).ok()?,
        Arc::new(alloc, 2).ok()?,
        Arc::new(alloc, 3).ok()?,
        Arc::new(alloc, 4).ok()?,
    ])
}

/// How many owners each has.
pub fn living(values: &Values) -> [usize; 5] {
    [
        Arc::strong_count(&values[0]),
        Arc::strong_count(&values[1]),
        Arc::strong_count(&values[2]),
        Arc::strong_count(&values[3]),
        Arc::strong_count(&values[4]),
    ]
}

/// Other owners of the first three.
pub fn first_three(values: &Values) -> Option<[Arc<u8>; 3]> {
    Some([
        Arc::try_clone(&values[0]).ok()?,
        Arc::try_clone(&values[1]).ok()?,
        Arc::try_clone(&values[2]).ok()?,
    ])
}

/// Other owners of the last two.
pub fn last_two(values: &Values) -> Option<[Arc<u8>; 2]> {
    Some([
        Arc::try_clone(&values[3]).ok()?,
        Arc::try_clone(&values[4]).ok()?,
    ])
}

/// Other owners of all five.
pub fn all_five(values: &Values) -> Option<[Arc<u8>; 5]> {
    let [first, second, third] = first_three(values)?;
    let [fourth, last] = last_two(values)?;
    Some([first, second, third, fourth, last])
}
