//! Tests of the public functions of `arc_owners`.
#![tactic(auto)]

#[cfg(test)]
mod counted;
#[cfg(test)]
mod counted_boxes;
#[cfg(test)]
mod errors;
#[cfg(test)]
mod forgotten;
#[cfg(test)]
mod full;
#[cfg(test)]
mod hint;
#[cfg(test)]
mod histories;
#[cfg(test)]
mod lent_values;
#[cfg(test)]
mod lone;
#[cfg(test)]
mod raises;
#[cfg(test)]
mod shown;
#[cfg(test)]
mod sole_boxes;
