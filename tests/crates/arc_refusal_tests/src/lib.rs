//! Rows of windows whose requests for memory are refused in turn.
#![tactic(auto)]

#[cfg(test)]
mod refused_in_turn;
