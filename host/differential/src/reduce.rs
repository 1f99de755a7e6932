//! Reduces a run on which the two sides differ to a short one.

use crate::bench::{Bench, Step};
use crate::call::Call;
use crate::run::Finding;
use std::time::{Duration, Instant};
use tjornsaki::raw::HeadNumbers;

/// Leaves steps out and makes numbers smaller for as long as the two sides
/// still differ, at most this long.
pub fn reduce(finding: Finding, limit: Duration) -> Finding {
    if !finding.is_difference {
        return finding;
    }
    let until = Instant::now() + limit;
    let mut best = finding;
    loop {
        let before = (best.slots, best.steps.clone());
        leave_steps_out(&mut best, until);
        make_smaller(&mut best, until);
        if (best.slots, &best.steps) == (before.0, &before.1) || Instant::now() > until {
            return best;
        }
    }
}

/// Takes this run for the best if the sides differ on it; it ends there.
fn take_if_differing(best: &mut Finding, slots: usize, mut steps: Vec<Step>) -> bool {
    let mut bench = Bench::new(slots);
    for index in 0..steps.len() {
        if let Err(words) = bench.step(&steps[index]) {
            steps.truncate(index + 1);
            *best = Finding { slots, steps, words, is_difference: true };
            return true;
        }
    }
    false
}

/// Leaves out longer, then shorter stretches, down to single steps.
fn leave_steps_out(best: &mut Finding, until: Instant) {
    let mut stretch = best.steps.len() / 2;
    while stretch > 0 {
        let mut end = best.steps.len();
        while end > 0 && Instant::now() < until {
            let start = end.saturating_sub(stretch);
            let mut fewer = best.steps[..start].to_vec();
            fewer.extend_from_slice(&best.steps[end..]);
            take_if_differing(best, best.slots, fewer);
            end = start.min(best.steps.len());
        }
        stretch /= 2;
    }
}

/// A smaller pool, and smaller numbers in each step.
fn make_smaller(best: &mut Finding, until: Instant) {
    for slots in [1, 2, 3, 4, 6, 8, 16, 32, 64, 128, 256, 1_025, 2_000] {
        if slots < best.slots && take_if_differing(best, slots, best.steps.clone()) {
            break;
        }
    }
    let mut index = 0;
    while index < best.steps.len() && Instant::now() < until {
        let took_one = smaller(&best.steps[index]).into_iter().any(|step| {
            let mut steps = best.steps.clone();
            steps[index] = step;
            take_if_differing(best, best.slots, steps)
        });
        if !took_one {
            index += 1;
        }
    }
}

/// Simpler forms of a step, each nearer to the plainest one.
fn smaller(step: &Step) -> Vec<Step> {
    match step {
        Step::Call(call) => smaller_calls(call).into_iter().map(Step::Call).collect(),
        Step::CallOverLengths { call, pool, records } => {
            let over = |call| Step::CallOverLengths { call, pool: *pool, records: *records };
            smaller_calls(call).into_iter().map(over).collect()
        }
        Step::ForgeHead(head) => smaller_heads(*head).map(Step::ForgeHead).collect(),
        Step::Patch { area, at, bytes } if bytes.len() > 1 => {
            let (first, second) = bytes.split_at(bytes.len() / 2);
            let half = |at, bytes: &[u8]| Step::Patch { area: *area, at, bytes: bytes.to_vec() };
            vec![half(*at, first), half(*at + first.len(), second)]
        }
        _ => Vec::new(),
    }
}

fn smaller_calls(call: &Call) -> Vec<Call> {
    match *call {
        Call::Read { root, offset, size } => shrunk(offset, size as u64)
            .map(|(offset, size)| Call::Read { root, offset, size: size as usize })
            .collect(),
        Call::Write { root, offset, size, fill } => shrunk(offset, size as u64)
            .map(|(offset, size)| Call::Write { root, offset, size: size as usize, fill })
            .chain((fill > 1).then_some(Call::Write { root, offset, size, fill: 1 }))
            .collect(),
        Call::Resize { root, length } => {
            shrunk(length, 0).map(|(length, _)| Call::Resize { root, length }).collect()
        }
        Call::Show { root, leaf } if leaf > 0 => vec![Call::Show { root, leaf: 0 }],
        Call::Next { size } => {
            below(size as u64).map(|size| Call::Next { size: size as usize }).collect()
        }
        Call::Scan { root, size } => {
            let fewer = below(size as u64).filter(|size| *size > 0);
            fewer.map(|size| Call::Scan { root, size: size as usize }).collect()
        }
        _ => Vec::new(),
    }
}

/// One of the four numbers made smaller.
fn smaller_heads(head: HeadNumbers) -> impl Iterator<Item = HeadNumbers> {
    let one_smaller = move |place: usize| {
        below(head[place]).map(move |less| {
            let mut smaller = head;
            smaller[place] = less;
            smaller
        })
    };
    (0..head.len()).flat_map(one_smaller)
}

/// One of the two numbers made smaller.
fn shrunk(one: u64, other: u64) -> impl Iterator<Item = (u64, u64)> {
    let first = below(one).map(move |less| (less, other));
    let second = below(other).map(move |less| (one, less));
    first.chain(second)
}

/// Nothing, half of it, three quarters, and so on up to one less.
fn below(number: u64) -> impl Iterator<Item = u64> {
    let takes = std::iter::successors(Some(number), |take| Some(take / 2));
    takes.take_while(|take| *take > 0).map(move |take| number - take)
}
