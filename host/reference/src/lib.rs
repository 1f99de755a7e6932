//! A plain reference for the block store of the scope paper: two lent byte
//! slices, the pool (untrusted blocks) and the records (trusted versions).
//!
//! The code follows the paper sentence by sentence and prefers clearness to
//! speed. Comments in quotation marks cite the paper, with the numbers that
//! request W-203 has put in it ("Raise N to 65,536 slots. Heights go to 5"), in
//! `head` the request; "reading 5" and the like cite the list of readings of its
//! open sentences.
//!
//! * `bytes`: the layout of a block and of a record
//! * `shape`: how many leaves and blocks a length has
//! * `refusals`: the twelve ways to say no
//! * `walk`: the blob check and the pool check
//! * `cells`: the model that changing calls work on, and the version rule
//! * `resize`: longer and shorter, leaf by leaf
//! * `calls`: the nine calls
//! * `head`: the reading head of request W-201
//! * `faults`: bugs that can be planted for trying a comparison
#![forbid(unsafe_code)]

mod bytes;
mod calls;
mod cells;
pub mod faults;
mod head;
mod refusals;
mod resize;
mod shape;
#[cfg(test)]
mod tests;
mod walk;

pub use calls::{audit, create, delete, length, read, resize, show, wipe, write};
pub use head::{next, open_head, Head};
pub use refusals::Refusal;
