//! Tests of the public functions of `arc_table`.
#![tactic(auto)]

#[cfg(test)]
mod commands;
#[cfg(test)]
mod ended;
#[cfg(test)]
mod kinds;
#[cfg(test)]
mod needs;
#[cfg(test)]
mod places;
pub mod tables;
#[cfg(test)]
mod texts;
