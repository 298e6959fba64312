//! Tests of the public functions of `arc_memory`, `arc_buffer`, `arc_block` and the crates of
//! parts. What windows show of these stands with the tests and rows of windows.
#![tactic(auto)]

#[cfg(test)]
mod blocks;
#[cfg(test)]
mod buffer;
#[cfg(test)]
mod kinds;
#[cfg(test)]
mod lent_allocations;
#[cfg(test)]
mod page;
#[cfg(test)]
mod places;
#[cfg(test)]
mod several_units;
#[cfg(test)]
mod static_slices;
#[cfg(test)]
mod writer_memories;
#[cfg(test)]
mod writers;
