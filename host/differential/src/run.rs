//! A run by chance: stretches of calls, and raids on the store between them.

use crate::bench::{Bench, Step};
use crate::call::Call;
use crate::chance::Chance;
use crate::draw::{draw_asking, draw_call, draw_head, draw_large_slots, draw_slots};
use crate::hostile::{OldBlock, Scene, RAIDS};
use crate::layout::{BLOCK, RECORD};
use crate::tally::Tally;
use tjornsaki::raw::Answer;

/// A run on which the two sides differ, or an answer breaks a promise.
#[derive(Clone, Debug)]
pub struct Finding {
    pub slots: usize,
    pub steps: Vec<Step>,
    /// What is wrong after the last step.
    pub words: String,
    /// Whether the two sides differ, so that the steps alone show it.
    pub is_difference: bool,
}

impl Finding {
    /// A run that ended in a panic; its steps are lost, its number is not.
    pub fn of_panic() -> Finding {
        let words = "a side panicked, see above".to_string();
        Finding { slots: 0, steps: Vec::new(), words, is_difference: false }
    }
}

/// Lengths of 1,025 slots, now and then of 65,536, and the first that are too
/// long: these take their time.
const LARGE_LENGTHS: [(usize, usize); 8] = [
    (65_600, 12_300),
    (65_600, 12_300),
    (65_600, 12_300),
    (65_600, 12_300),
    (65_600, 12_288),
    (65_600, 12_312),
    (4_194_304, 786_432),
    (4_194_368, 786_444),
];

/// How many old blocks a run remembers.
const PAST_SIZE: usize = 64;

pub struct Run<'a> {
    pub bench: Bench,
    pub chance: Chance,
    pub tally: &'a mut Tally,
    slots: usize,
    steps: Vec<Step>,
    past: Vec<OldBlock>,
}

/// Plays the run of this seed.
pub fn play(seed: u64, tally: &mut Tally) -> Result<(), Finding> {
    let mut chance = Chance::new(seed);
    let slots = draw_slots(&mut chance);
    let most = 60 + chance.below(300);
    play_in(Run::new(slots, chance, tally), most, 24)
}

/// Plays the run of this seed over a large pool: few calls, as they take long.
pub fn play_large(seed: u64, tally: &mut Tally) -> Result<(), Finding> {
    let mut chance = Chance::new(seed);
    let slots = draw_large_slots(&mut chance);
    let most = 20 + chance.below(30);
    play_in(Run::new(slots, chance, tally), most, 8)
}

/// So many calls, in stretches of at most so many.
fn play_in(mut run: Run, most: u64, stretch: u64) -> Result<(), Finding> {
    if run.chance.one_in(4) {
        run.some_calls(2)?; // before there is a store
    }
    run.step(Step::Call(Call::Wipe))?;
    while run.bench.calls < most {
        run.some_calls(stretch)?;
        match run.chance.below(8) {
            0 => run.calls_over_lengths()?,
            1 => run.askings_over_lengths()?,
            _ => run.raid()?,
        }
    }
    run.tally.runs += 1;
    Ok(())
}

impl<'a> Run<'a> {
    pub fn new(slots: usize, chance: Chance, tally: &'a mut Tally) -> Run<'a> {
        let bench = Bench::new(slots);
        Run { bench, chance, tally, slots, steps: Vec::new(), past: Vec::new() }
    }

    pub fn step(&mut self, step: Step) -> Result<Option<Answer>, Finding> {
        let height = self.height_of_resized(&step);
        let head = self.bench.head;
        let height_of_head = self.height_in(head[0]);
        self.steps.push(step);
        let step = &self.steps[self.steps.len() - 1];
        let answer = match self.bench.step(step) {
            Ok(answer) => answer,
            Err(words) => return Err(self.finding(words, true)),
        };
        let called = match step {
            Step::Call(call) => Some((call, self.slots)),
            Step::CallOverLengths { call, pool, .. } => Some((call, pool / BLOCK)),
            _ => None,
        };
        if let (Some((call, slots)), Some(answer)) = (called, &answer) {
            self.tally.count_answer(call, answer, slots);
            self.tally.count_asking(call, &head);
        }
        if let (Step::Call(Call::Next { .. }), Some([_, _, handed, ..])) = (step, answer) {
            if handed > 0 {
                self.tally.count_handed_out(height_of_head);
            }
        }
        if let (Some(before), Some([0, ..])) = (height, answer) {
            let after = self.height_of_resized(step).unwrap_or(before);
            self.tally.count_resize(before, after);
        }
        Ok(answer)
    }

    /// The height that the block of the root to be resized has.
    fn height_of_resized(&self, step: &Step) -> Option<u8> {
        match step {
            Step::Call(Call::Resize { root, .. }) => self.height_in(*root),
            _ => None,
        }
    }

    /// The height that the block in this slot has, if there is such a slot.
    fn height_in(&self, slot: u64) -> Option<u8> {
        let view = self.bench.view();
        (slot < view.slots() as u64).then(|| view.height(slot as usize))
    }

    pub fn steps(&self) -> &[Step] {
        &self.steps
    }

    pub fn finding(&self, words: String, is_difference: bool) -> Finding {
        Finding { slots: self.slots, steps: self.steps.clone(), words, is_difference }
    }

    /// Up to this many calls, drawn by what the store holds.
    fn some_calls(&mut self, most: u64) -> Result<(), Finding> {
        for _ in 0..1 + self.chance.below(most) {
            self.remember_a_block();
            let call = self.draw_call();
            self.step(Step::Call(call))?;
        }
        Ok(())
    }

    pub fn draw_call(&mut self) -> Call {
        draw_call(&mut self.chance, self.bench.view(), &self.bench.head)
    }

    /// Keeps a block of the present store, to bring it back later.
    fn remember_a_block(&mut self) {
        let view = self.bench.view();
        let slot = self.chance.place(view.slots());
        let mut bytes = [0; BLOCK];
        bytes.copy_from_slice(view.block(slot));
        if bytes == [0; BLOCK] {
            return;
        }
        let old = OldBlock { slot, bytes };
        if self.past.len() < PAST_SIZE {
            self.past.push(old);
        } else {
            self.past[self.chance.place(PAST_SIZE)] = old;
        }
    }

    /// Spoils the store in one to three ways, makes calls, and as a rule
    /// brings the store back.
    fn raid(&mut self) -> Result<(), Finding> {
        self.step(Step::Keep)?;
        for _ in 0..self.chance.pick(&[1, 1, 1, 1, 2, 3]) {
            let way = self.chance.place(RAIDS.len());
            let scene = Scene { view: self.bench.view(), past: &self.past };
            if let Some(steps) = RAIDS[way].1(&mut self.chance, &scene) {
                self.tally.count_raid(way);
                for step in steps {
                    self.step(step)?;
                }
            }
        }
        self.some_calls(10)?;
        let answer = self.step(Step::Call(Call::Audit))?;
        let is_sound = answer.map_or(false, |answer| answer[0] == 0);
        if !is_sound || self.chance.one_in(2) {
            self.step(Step::GoBack)?;
        }
        Ok(())
    }

    /// Calls over slices that do not fit, or that fit a smaller store. A wipe
    /// does no harm here, so it is not as rare.
    fn calls_over_lengths(&mut self) -> Result<(), Finding> {
        for _ in 0..4 {
            let call = if self.chance.one_in(16) { Call::Wipe } else { self.draw_call() };
            let (pool, records) = self.draw_lengths();
            self.step(Step::CallOverLengths { call, pool, records })?;
        }
        Ok(())
    }

    /// A head, opened or forged, is asked over pools of any length.
    fn askings_over_lengths(&mut self) -> Result<(), Finding> {
        let view = self.bench.view();
        let opening = match self.chance.pick_any(&view.roots()) {
            Some(root) if self.chance.one_in(2) => Step::Call(Call::OpenHead { root: root as u64 }),
            _ => Step::ForgeHead(draw_head(&mut self.chance, view)),
        };
        self.step(opening)?;
        for _ in 0..4 {
            let size = draw_asking(&mut self.chance, self.bench.view(), &self.bench.head);
            let pool = self.chance.place((self.slots + 2) * BLOCK);
            let call = Call::Next { size };
            self.step(Step::CallOverLengths { call, pool, records: 0 })?;
        }
        Ok(())
    }

    fn draw_lengths(&mut self) -> (usize, usize) {
        let (pool, records) = (self.slots * BLOCK, self.slots * RECORD);
        let fewer = self.chance.place(self.slots + 1);
        match self.chance.below(10) {
            0 => (0, 0),
            1 => (0, records),
            2 => (pool, 0),
            3 => (pool + self.chance.pick(&[1, 63, 64]), records),
            4 => (pool - self.chance.pick(&[1, 63, 64]), records),
            5 => (pool, records + self.chance.pick(&[1, 11, 12])),
            6 => (pool, records - self.chance.pick(&[1, 11, 12])),
            7 => self.chance.pick(&LARGE_LENGTHS),
            _ => (fewer * BLOCK, fewer * RECORD),
        }
    }
}
