//! Compares the proved library with the reference: the same calls over the same
//! bytes, sound and spoilt, and after every call every answer and every byte of
//! pool, records and output, and every number of the head.
//!
//! * `call`, `bench`, `sides`, `heads`, `guarded`: making a call on both sides
//! * `draw`, `hostile`, `run`: runs by chance
//! * `large`, `spoilt`, `told`: scenes of large pools, written down and always played
//! * `book`, `history`: histories of calls, and the third demand over them
//! * `reduce`: a short run for a difference
//! * `tally`: what was met
//! * `campaign`, `options`: many runs, as the command line asks
#![forbid(unsafe_code)]

pub mod bench;
pub mod book;
pub mod call;
pub mod campaign;
pub mod chance;
pub mod draw;
pub mod guarded;
pub mod heads;
pub mod history;
pub mod hostile;
pub mod large;
pub mod layout;
pub mod options;
pub mod reduce;
pub mod run;
pub mod sides;
pub mod spoilt;
pub mod tally;
pub mod told;
