//! Windows beside one another.
use crate::words::Word;
use std::cmp::Ordering;
use std::hash::{DefaultHasher, Hash, Hasher};

/// What a hasher says of a value.
fn hash_of<T: Hash>(value: &T) -> u64 {
    let mut state = DefaultHasher::new();
    value.hash(&mut state);
    state.finish()
}

/// How two windows compare, if equality, order and hashes say the same.
pub fn compared<W: Ord + Hash>(a: &W, b: &W) -> Word {
    let is_equal = a == b;
    if is_equal && hash_of(a) != hash_of(b) {
        return "equal, but not their hashes";
    }
    match (a.cmp(b), is_equal) {
        (Ordering::Less, false) => "less",
        (Ordering::Equal, true) => "equal",
        (Ordering::Greater, false) => "greater",
        _ => "not as equality says",
    }
}
