//! The second program: document 01, and requests 1 to 3, 5 and 6 of document 02, written once more,
//! from the documents alone.
//!
//! It was written without the desk's own code at hand, so that a mistake in one need not be
//! repeated in the other. It is meant to be read beside document 01: one file a topic, the
//! rule quoted above the lines that follow it, bit by bit rather than fast.
//!
//! - A refusal is `Err(Refusal)`, or `Err(Refused)` of a call that can say where a payload or a sheet is
//!   at fault; `answer::number` gives document 01's number of any result, `answer::with_place` number
//!   and place in one.
//! - "Lent" buffers are slices; only what document 01 lets a call write is written, so the buffers
//!   can be compared byte for byte after every call, refused ones included.
//! - A state (tray, book, desk) is a plain struct of numbers, and may hold any numbers at all:
//!   whether it is sound is judged by the calls. A call takes the old state and hands back the new.
//! - Every call is total: it answers for any input, state and buffer.

pub mod answer;
pub mod bits;
pub mod book;
pub mod checks;
pub mod desk;
pub mod entries;
pub mod frame;
pub mod generate;
pub mod groups;
pub mod kept;
pub mod payload;
pub mod prepare;
pub mod sheet;
pub mod stream;
pub mod values;
pub mod views;
