//! Tests of `arc_forms` and `arc_script` which rows can't say: refused memory, devices that fail,
//! and what the program does with its words.
#![tactic(auto)]

#[cfg(test)]
mod broken;
pub mod devices;
#[cfg(test)]
mod lines;
#[cfg(test)]
mod program;
#[cfg(test)]
mod refused_in_turn;
#[cfg(test)]
mod replies;
pub mod rows;
#[cfg(test)]
mod scripts;
#[cfg(test)]
mod storms;
#[cfg(test)]
mod wants;
