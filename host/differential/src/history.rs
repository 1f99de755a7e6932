//! The third demand over histories by chance. A history of calls from a wipe
//! has its moments. The records of one moment are true; the pool is filled
//! with blocks of the history, of any slot and any time, or zeros. Then length,
//! read, show and a scan answer as they did at that moment exactly if every
//! block of the blob is as it was, and otherwise refuse with 4 to 7, naming the
//! first differing block in walk order. The audit passes exactly if the whole
//! pool is as it was.

use crate::bench::{Area, Bench, Step};
use crate::book::Book;
use crate::call::Call;
use crate::chance::Chance;
use crate::draw::{draw_slots, SMALL};
use crate::hostile::OldBlock;
use crate::layout::{View, BLOCK};
use crate::run::{Finding, Run};
use crate::tally::Tally;
use tjornsaki::raw::Answer;

/// A store as it was after some step of the history.
struct Moment {
    /// How many steps had been taken.
    steps: usize,
    pool: Vec<u8>,
    records: Vec<u8>,
}

impl Moment {
    fn of(view: View, steps: usize) -> Moment {
        Moment { steps, pool: view.pool.to_vec(), records: view.records.to_vec() }
    }

    fn view(&self) -> View<'_> {
        View { pool: &self.pool, records: &self.records }
    }
}

/// What a history leaves: its moments and every block that lay in the pool.
struct History {
    moments: Vec<Moment>,
    blocks: Vec<OldBlock>,
    /// The blocks by the slot that they lay in.
    at_home: Vec<Vec<OldBlock>>,
    steps: Vec<Step>,
}

/// How long a history is, and how many stores are tried for each moment.
struct Extent {
    slots: usize,
    calls: u64,
    stores: u64,
}

/// Plays the history of this seed and tries stores of its blocks.
pub fn try_history(seed: u64, tally: &mut Tally) -> Result<(), Finding> {
    let mut chance = Chance::new(seed);
    let extent =
        Extent { slots: draw_slots(&mut chance), calls: 20 + chance.below(150), stores: 8 };
    try_extent(chance, extent, tally)
}

/// The same over a large pool, not one of the largest, and with little of each.
pub fn try_large_history(seed: u64, tally: &mut Tally) -> Result<(), Finding> {
    let mut chance = Chance::new(seed);
    let slots = SMALL + 1 + chance.place(2_000);
    let extent = Extent { slots, calls: 10 + chance.below(30), stores: 2 };
    try_extent(chance, extent, tally)
}

fn try_extent(chance: Chance, extent: Extent, tally: &mut Tally) -> Result<(), Finding> {
    let mut run = Run::new(extent.slots, chance, tally);
    let history = play_history(&mut run, &extent)?;
    for moment in &history.moments {
        for _ in 0..extent.stores {
            let pool = mixed_pool(&mut run.chance, moment, &history);
            try_store(&mut run, &history, moment, &pool)?;
            run.tally.mixed_stores += 1;
        }
    }
    run.tally.runs += 1;
    Ok(())
}

/// Calls from a wipe, each held to the book.
fn play_history(run: &mut Run, extent: &Extent) -> Result<History, Finding> {
    let mut book = Book::new(extent.slots);
    let (mut moments, mut blocks) = (Vec::new(), Vec::new());
    run.step(Step::Call(Call::Wipe))?;
    while run.bench.calls < extent.calls {
        if run.chance.one_in(30) || run.bench.calls == 1 {
            moments.push(Moment::of(run.bench.view(), run.steps().len()));
        }
        let call = match run.draw_call() {
            Call::Wipe => Call::Create,
            call => call,
        };
        let before = run.bench.view().pool.to_vec();
        let answer = run.step(Step::Call(call))?.unwrap_or_default();
        let entered = book.enter(&call, &answer, &run.bench.output, run.bench.view());
        entered.map_err(|words| run.finding(words, false))?;
        blocks.extend(new_blocks(&before, run.bench.view().pool));
    }
    moments.push(Moment::of(run.bench.view(), run.steps().len()));
    let mut at_home = vec![Vec::new(); extent.slots];
    blocks.iter().for_each(|old: &OldBlock| at_home[old.slot].push(*old));
    Ok(History { moments, blocks, at_home, steps: run.steps().to_vec() })
}

/// The blocks that a call has put into the pool.
fn new_blocks(before: &[u8], after: &[u8]) -> Vec<OldBlock> {
    let pairs = before.chunks(BLOCK).zip(after.chunks(BLOCK)).enumerate();
    let changed = pairs.filter(|(_, (old, new))| old != new);
    let kept = |slot, new: &[u8]| {
        let mut bytes = [0; BLOCK];
        bytes.copy_from_slice(new);
        OldBlock { slot, bytes }
    };
    changed.map(|(slot, (_, new))| kept(slot, new)).collect()
}

/// The moment's pool with none, one, some or many of its slots filled anew.
fn mixed_pool(chance: &mut Chance, moment: &Moment, history: &History) -> Vec<u8> {
    let mut pool = moment.pool.clone();
    let view = moment.view();
    let slots = view.slots();
    let (times, live) = (chance.pick(&[0, 1, 1, 1, 2, 3, slots / 2, slots]), view.live());
    for _ in 0..times {
        let slot = match chance.pick_any(&live) {
            Some(slot) if !chance.one_in(3) => slot,
            _ => chance.place(slots),
        };
        let at_home = chance.pick_any(&history.at_home[slot]);
        let bytes = match (chance.below(5), at_home, chance.pick_any(&history.blocks)) {
            (1..=3, Some(old), _) | (4, _, Some(old)) => old.bytes,
            _ => [0; BLOCK],
        };
        pool[slot * BLOCK..(slot + 1) * BLOCK].copy_from_slice(&bytes);
    }
    pool
}

/// Makes the calls of the demand over the mixed pool and the true records.
fn try_store(run: &mut Run, history: &History, then: &Moment, pool: &[u8]) -> Result<(), Finding> {
    let view = then.view();
    let roots = view.roots();
    let mut calls = vec![Call::Audit];
    for _ in 0..3 {
        if let Some(root) = run.chance.pick_any(&roots) {
            calls.extend(calls_of_demand(&mut run.chance, root as u64));
        }
    }
    for call in calls {
        let expected = expect(&call, then, pool);
        run.bench.put(pool, &then.records);
        let held = match run.bench.step(&Step::Call(call)) {
            Err(words) => Err((words, true)),
            Ok(answer) => {
                let answer = answer.unwrap_or_default();
                run.tally.count_answer(&call, &answer, view.slots());
                run.tally.count_mixed(&answer);
                expected.meets(&answer, &run.bench.output).map_err(|words| (words, false))
            }
        };
        if let Err((words, is_difference)) = held {
            let steps = steps_to(history, then, pool, call);
            return Err(Finding { slots: view.slots(), steps, words, is_difference });
        }
    }
    Ok(())
}

fn calls_of_demand(chance: &mut Chance, root: u64) -> [Call; 4] {
    let offset = chance.pick(&[0, 0, 1, 47, 48, 100, 600]);
    [
        Call::Length { root },
        Call::Read { root, offset, size: chance.pick(&[0, 1, 10, 49, 500]) },
        Call::Show { root, leaf: chance.pick(&[0, 0, 1, 2, 11, 12]) },
        Call::Scan { root, size: chance.pick(&[100, 48, 577, 50_000]) },
    ]
}

/// What the demand says of one call.
enum Expected {
    /// The answer and the output of that moment.
    AsThen(Answer, Vec<u8>),
    /// A refusal from 4 to 7 that names this slot.
    Differing(usize),
    /// Refusal 9, naming this slot.
    Reintroduced(usize),
}

impl Expected {
    fn meets(&self, answer: &Answer, output: &[u8]) -> Result<(), String> {
        let (holds, words) = match self {
            Expected::AsThen(then, out) => {
                (answer == then && output == out, "answers as then".to_string())
            }
            Expected::Differing(slot) => {
                let names_it = answer[1] == *slot as u64;
                ((4..=7).contains(&answer[0]) && names_it, format!("4 to 7, naming {slot}"))
            }
            Expected::Reintroduced(slot) => {
                (answer[..2] == [9, *slot as u64], format!("9, naming {slot}"))
            }
        };
        match holds {
            true => Ok(()),
            false => Err(format!("demand three: expected {words}, met {answer:?}")),
        }
    }
}

fn expect(call: &Call, then: &Moment, pool: &[u8]) -> Expected {
    let view = then.view();
    let differs = |slot: &usize| view.block(*slot) != &pool[slot * BLOCK..(slot + 1) * BLOCK];
    let walked: Vec<usize> = match call {
        Call::Length { root } | Call::Read { root, .. } => view.blob(*root as usize),
        Call::Show { root, .. } | Call::Scan { root, .. } => view.blob(*root as usize),
        _ => view.roots().into_iter().flat_map(|root| view.blob(root)).collect(),
    };
    if let Some(slot) = walked.into_iter().find(differs) {
        return Expected::Differing(slot);
    }
    let stray = view.free().into_iter().find(differs);
    match (call, stray) {
        (Call::Audit, Some(slot)) => Expected::Reintroduced(slot),
        _ => as_then(call, then),
    }
}

/// The answer and output over the moment's own store.
fn as_then(call: &Call, then: &Moment) -> Expected {
    let mut bench = Bench::over(then.pool.clone(), then.records.clone());
    match bench.step(&Step::Call(*call)) {
        Ok(answer) => Expected::AsThen(answer.unwrap_or_default(), bench.output),
        Err(_) => Expected::AsThen([0; 8], Vec::new()),
    }
}

/// The history up to the moment, the blocks put in, and the call.
fn steps_to(history: &History, then: &Moment, pool: &[u8], call: Call) -> Vec<Step> {
    let mut steps = history.steps[..then.steps].to_vec();
    for block in new_blocks(&then.pool, pool) {
        let at = block.slot * BLOCK;
        steps.push(Step::Patch { area: Area::Pool, at, bytes: block.bytes.to_vec() });
    }
    steps.push(Step::Call(call));
    steps
}
