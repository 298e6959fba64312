//! Tests of small windows: each call once, limits by layout, memory that is counted or refused,
//! threads, and printed text.
#![tactic(auto)]

#[cfg(test)]
mod adapters;
#[cfg(test)]
mod limits;
#[cfg(test)]
mod lists;
#[cfg(test)]
mod read_out;
#[cfg(test)]
mod refused_in_turn;
#[cfg(test)]
mod windows;
