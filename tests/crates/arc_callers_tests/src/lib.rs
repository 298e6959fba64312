//! Tests of the examples of `arc_callers`.
#![tactic(auto)]

#[cfg(test)]
mod editor;
#[cfg(test)]
mod encoder;
#[cfg(test)]
mod frames;
#[cfg(test)]
mod queue;
#[cfg(test)]
mod readme;
#[cfg(test)]
mod words;
