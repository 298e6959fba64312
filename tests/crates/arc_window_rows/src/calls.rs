//! The calls of windows, by what they do with the window that they are made on.
pub mod ask;
pub mod change;
pub mod compare;
pub mod make;
pub mod part;
pub mod turn;
