//! A run that is written down and not drawn: besides the comparison, answers are
//! held to what the paper says.

use crate::bench::Step;
use crate::call::Call;
use crate::chance::Chance;
use crate::layout::View;
use crate::run::{Finding, Run};
use crate::tally::Tally;
use tjornsaki::raw::{Answer, NO_SLOT};

pub struct Told<'a> {
    run: Run<'a>,
}

impl<'a> Told<'a> {
    /// Over slices of zeros for so many slots.
    pub fn new(slots: usize, tally: &'a mut Tally) -> Told<'a> {
        Told { run: Run::new(slots, Chance::new(0), tally) }
    }

    pub fn view(&self) -> View<'_> {
        self.run.bench.view()
    }

    /// A step that is only compared.
    pub fn step(&mut self, step: Step) -> Result<Answer, Finding> {
        Ok(self.run.step(step)?.unwrap_or_default())
    }

    /// A step that is done; answers its first value.
    pub fn done(&mut self, step: Step) -> Result<u64, Finding> {
        let answer = self.step(step)?;
        match answer[0] {
            0 => Ok(answer[2]),
            _ => Err(self.run.finding(format!("not done, but {answer:?}"), false)),
        }
    }

    /// A call that is done with this value.
    pub fn gives(&mut self, call: Call, value: u64) -> Result<(), Finding> {
        let met = self.done(Step::Call(call))?;
        match met == value {
            true => Ok(()),
            false => Err(self.run.finding(format!("gives {met}, not {value}"), false)),
        }
    }

    /// A step that is refused with this number, and names this slot or none.
    pub fn refused(&mut self, step: Step, number: u64, slot: Option<u64>) -> Result<(), Finding> {
        let answer = self.step(step)?;
        let expected = [number, slot.unwrap_or(NO_SLOT)];
        match answer[..2] == expected {
            true => Ok(()),
            false => {
                let words = format!("answers {:?}, not {expected:?}", &answer[..2]);
                Err(self.run.finding(words, false))
            }
        }
    }
}
