//! The two sides of the comparison: a call made by the library, as C has it or
//! through its Rust crate, and by the reference.

use crate::call::Call;
use crate::heads::{self, ask_to_the_end};
use tjornsaki::raw::{self, Answer, HeadNumbers, NO_SLOT};

/// What a call is lent.
pub struct Lent<'a> {
    pub pool: &'a mut [u8],
    pub records: &'a mut [u8],
    pub head: &'a mut HeadNumbers,
    pub out: &'a mut [u8],
    pub data: &'a [u8],
}

/// The C functions themselves.
pub fn by_library(call: &Call, lent: Lent, answer: &mut Answer) {
    let Lent { pool, records, head, out, data } = lent;
    match *call {
        Call::Wipe => raw::wipe(pool, records, answer),
        Call::Create => raw::create(pool, records, answer),
        Call::Length { root } => raw::length(pool, records, root, answer),
        Call::Read { root, offset, .. } => raw::read(pool, records, root, offset, out, answer),
        Call::Write { root, offset, .. } => raw::write(pool, records, root, offset, data, answer),
        Call::Resize { root, length } => raw::resize(pool, records, root, length, answer),
        Call::Delete { root } => raw::delete(pool, records, root, answer),
        Call::Show { root, leaf } => raw::show(pool, records, root, leaf, answer),
        Call::Audit => raw::audit(pool, records, answer),
        Call::OpenHead { root } => raw::open_head(pool, records, root, head, answer),
        Call::Next { .. } => raw::next(pool, head, out, answer),
        Call::Scan { root, size } => {
            raw::open_head(pool, records, root, head, answer);
            let opened = *answer;
            let askings = ask_to_the_end(out, size, |piece| {
                raw::next(pool, head, piece, answer);
                answer[2]
            });
            *answer = opened;
            answer[3] = askings;
        }
    }
}

/// The calls of a crate, each with its two values. The two crates have
/// functions of the same names; only what a shown leaf and a head are differs.
macro_rules! two_values {
    ($store:ident, $call:expr, $lent:expr, $shown:expr, $heads:ident) => {{
        let Lent { pool, records, head, out, data } = $lent;
        match *$call {
            Call::Wipe => $store::wipe(pool, records).map(no_value),
            Call::Create => $store::create(pool, records).map(one_value),
            Call::Length { root } => $store::length(pool, records, root).map(one_value),
            Call::Read { root, offset, .. } => {
                $store::read(pool, records, root, offset, out).map(no_value)
            }
            Call::Write { root, offset, .. } => {
                $store::write(pool, records, root, offset, data).map(no_value)
            }
            Call::Resize { root, length } => {
                $store::resize(pool, records, root, length).map(no_value)
            }
            Call::Delete { root } => $store::delete(pool, records, root).map(no_value),
            Call::Show { root, leaf } => {
                $store::show(pool, records, root, leaf).map(|part| $shown(&*pool, part))
            }
            Call::Audit => $store::audit(pool, records).map(one_value),
            Call::OpenHead { root } => {
                heads::$heads::open(pool, records, root, head).map(one_value)
            }
            Call::Next { .. } => Ok(one_value(heads::$heads::next(pool, head, out))),
            Call::Scan { root, size } => {
                heads::$heads::scan(pool, records, (root, size), head, out)
            }
        }
    }};
}

/// The library through its Rust crate.
pub fn by_crate(call: &Call, lent: Lent, answer: &mut Answer) {
    let values = two_values!(tjornsaki, call, lent, place_of_part, by_crate);
    *answer = laid(values.map_err(|refusal| (refusal.number, refusal.slot)));
}

pub fn by_reference(call: &Call, lent: Lent, answer: &mut Answer) {
    let values = two_values!(reference, call, lent, place_as_said, by_reference);
    *answer = laid(values.map_err(|refusal| (refusal.number, refusal.slot)));
}

/// The eight numbers of an answer.
fn laid(values: Result<(u64, u64), (u64, Option<u64>)>) -> Answer {
    match values {
        Ok((first, second)) => [0, NO_SLOT, first, second, 0, 0, 0, 0],
        Err((number, slot)) => [number, slot.unwrap_or(NO_SLOT), 0, 0, 0, 0, 0, 0],
    }
}

fn no_value(_: ()) -> (u64, u64) {
    (0, 0)
}

fn one_value(value: u64) -> (u64, u64) {
    (value, 0)
}

/// Where a part lies in the pool, by its address.
fn place_of_part(pool: &[u8], part: &[u8]) -> (u64, u64) {
    let start = (part.as_ptr() as usize).wrapping_sub(pool.as_ptr() as usize);
    (start as u64, part.len() as u64)
}

fn place_as_said(_: &[u8], part: (usize, usize)) -> (u64, u64) {
    (part.0 as u64, part.1 as u64)
}
