//! Tests of `arc_read` and `arc_write` which rows can't say: memory that is counted or refused,
//! items that are dropped, threads, passes, and printed text. All else stands in rows of
//! `arc_window_rows`, and rows whose memory is refused in turn in `arc_refusal_tests`.
#![tactic(auto)]

#[cfg(test)]
mod apart;
#[cfg(test)]
mod callers;
#[cfg(test)]
mod extend;
#[cfg(test)]
mod given_back;
#[cfg(test)]
mod items;
#[cfg(test)]
mod last_owners;
#[cfg(test)]
mod layouts;
#[cfg(test)]
mod lendings;
#[cfg(test)]
mod living;
#[cfg(test)]
mod one_piece;
#[cfg(test)]
mod owned;
#[cfg(test)]
mod owned_buffers;
#[cfg(test)]
mod printing;
#[cfg(test)]
mod read_buffers;
#[cfg(test)]
mod reader_adapters;
#[cfg(test)]
mod readers;
#[cfg(test)]
mod reading;
#[cfg(test)]
mod several;
#[cfg(test)]
mod shelf;
#[cfg(test)]
mod standing;
#[cfg(test)]
mod static_readers;
#[cfg(test)]
mod takers;
#[cfg(test)]
mod threads;
#[cfg(test)]
mod vectors;
#[cfg(test)]
mod with_passes;
#[cfg(test)]
mod writer_adapters;
#[cfg(test)]
mod writer_numbers;
#[cfg(test)]
mod writers;
#[cfg(test)]
mod written_buffers;
