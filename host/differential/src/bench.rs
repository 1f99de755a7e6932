//! The bench: one store held twice, once by the library and once by the
//! reference, and a head. After every call both must be alike in every byte,
//! and in the head's numbers.

use crate::call::Call;
use crate::guarded::{Guarded, GuardedNumbers};
use crate::layout::{exchange, View, BLOCK, RECORD};
use crate::sides::{by_crate, by_library, by_reference, Lent};
use std::fmt;
use tjornsaki::raw::{self, Answer, HeadNumbers};

/// Which of the two lent slices.
#[derive(Clone, Copy, Debug, PartialEq, Eq)]
pub enum Area {
    Pool,
    Records,
}

/// What a run is made of: calls, and what is done to the bytes between them.
#[derive(Clone, Debug, PartialEq, Eq)]
pub enum Step {
    Call(Call),
    /// A call over slices of these lengths: the store's bytes, cut or with
    /// other bytes after them. The store itself stays as it is; the head goes
    /// along.
    CallOverLengths {
        call: Call,
        pool: usize,
        records: usize,
    },
    /// Puts bytes at a place; what would lie beyond the end is left out.
    Patch {
        area: Area,
        at: usize,
        bytes: Vec<u8>,
    },
    /// Lets two slots change places in a way that keeps a store sound.
    ExchangeSlots {
        one: usize,
        other: usize,
    },
    /// The numbers of the head become these.
    ForgeHead(HeadNumbers),
    /// Remembers the store.
    Keep,
    /// Goes back to the store last remembered.
    GoBack,
}

impl fmt::Display for Step {
    fn fmt(&self, out: &mut fmt::Formatter<'_>) -> fmt::Result {
        match self {
            Step::Call(call) => write!(out, "{call:?}"),
            Step::CallOverLengths { call, pool, records } => {
                write!(out, "{call:?}, over {pool} bytes of pool and {records} of records")
            }
            Step::Patch { area, at, bytes } => {
                let size = if *area == Area::Pool { BLOCK } else { RECORD };
                write!(out, "into the {area:?} at slot {} byte {}:", at / size, at % size)?;
                bytes.iter().try_for_each(|byte| write!(out, " {byte:02X}"))
            }
            Step::ExchangeSlots { one, other } => write!(out, "slots {one} and {other} exchanged"),
            Step::ForgeHead(head) => write!(out, "the head is {}", shown(head)),
            Step::Keep => write!(out, "the store is kept"),
            Step::GoBack => write!(out, "back to the store kept last"),
        }
    }
}

/// What stands in lent output before a call.
const UNREAD: u8 = 0x77;
/// What stands in a lent answer before a call.
const UNANSWERED: u64 = 0x7777_7777_7777_7777;
/// What follows the store's bytes where a call is lent longer slices.
const BEYOND: u8 = 0x11;

pub struct Bench {
    library_pool: Guarded,
    library_records: Guarded,
    pool: Vec<u8>,
    records: Vec<u8>,
    kept: Option<(Vec<u8>, Vec<u8>)>,
    /// The numbers of the head that is asked. It stays open while the store
    /// changes under it.
    pub head: HeadNumbers,
    /// How many calls were made.
    pub calls: u64,
    /// The output of the last call.
    pub output: Vec<u8>,
}

impl Bench {
    /// Slices of zeros, not yet a store.
    pub fn new(slots: usize) -> Bench {
        Bench::over(vec![0; slots * BLOCK], vec![0; slots * RECORD])
    }

    pub fn over(pool: Vec<u8>, records: Vec<u8>) -> Bench {
        Bench {
            library_pool: Guarded::new(&pool),
            library_records: Guarded::new(&records),
            pool,
            records,
            kept: None,
            head: [0; 4],
            calls: 0,
            output: Vec::new(),
        }
    }

    pub fn view(&self) -> View<'_> {
        View { pool: &self.pool, records: &self.records }
    }

    /// Takes a step; answers the call's answer if it was one, or in words how
    /// the two sides differ.
    pub fn step(&mut self, step: &Step) -> Result<Option<Answer>, String> {
        match step {
            Step::Call(call) => return self.call(call).map(Some),
            Step::CallOverLengths { call, pool, records } => {
                self.calls += 1;
                let mut other = self.with_lengths(*pool, *records);
                let answer = other.call(call);
                self.head = other.head;
                return answer.map(Some);
            }
            Step::Patch { area, at, bytes } => self.patch(*area, *at, bytes),
            Step::ExchangeSlots { one, other } => self.exchange(*one, *other),
            Step::ForgeHead(head) => self.head = *head,
            Step::Keep => self.kept = Some((self.pool.clone(), self.records.clone())),
            Step::GoBack => {
                if let Some((pool, records)) = self.kept.clone() {
                    self.put(&pool, &records);
                }
            }
        }
        Ok(None)
    }

    /// Makes the store these bytes on both sides.
    pub fn put(&mut self, pool: &[u8], records: &[u8]) {
        self.pool.copy_from_slice(pool);
        self.records.copy_from_slice(records);
        self.library_pool.inside_mut().copy_from_slice(pool);
        self.library_records.inside_mut().copy_from_slice(records);
    }

    fn with_lengths(&self, pool: usize, records: usize) -> Bench {
        let fitted = |bytes: &[u8], length: usize| {
            let mut fitted = bytes.to_vec();
            fitted.resize(length, BEYOND);
            fitted
        };
        let mut bench = Bench::over(fitted(&self.pool, pool), fitted(&self.records, records));
        bench.calls = self.calls;
        bench.head = self.head;
        bench
    }

    fn patch(&mut self, area: Area, at: usize, bytes: &[u8]) {
        let (one, other) = match area {
            Area::Pool => (&mut self.pool[..], self.library_pool.inside_mut()),
            Area::Records => (&mut self.records[..], self.library_records.inside_mut()),
        };
        let start = at.min(one.len());
        let size = bytes.len().min(one.len() - start);
        one[start..start + size].copy_from_slice(&bytes[..size]);
        other[start..start + size].copy_from_slice(&bytes[..size]);
    }

    fn exchange(&mut self, one: usize, other: usize) {
        if one.max(other) >= self.view().slots() {
            return;
        }
        exchange(&mut self.pool, &mut self.records, one, other);
        let (pool, records) = (self.pool.clone(), self.records.clone());
        self.put(&pool, &records);
    }

    /// Makes the call on both sides and compares everything.
    fn call(&mut self, call: &Call) -> Result<Answer, String> {
        self.calls += 1;
        let data = call.data();
        let library = self.call_library(call, &data)?;
        self.output = vec![UNREAD; call.output_size(self.view().slots())];
        let mut answer = [0; 8];
        let lent = Lent {
            pool: &mut self.pool,
            records: &mut self.records,
            head: &mut self.head,
            out: &mut self.output,
            data: &data,
        };
        by_reference(call, lent, &mut answer);
        alike_in_numbers("answers", &library.answer, &answer)?;
        alike_in_numbers("leaves the head", &library.head, &self.head)?;
        alike("pool", self.library_pool.inside(), &self.pool)?;
        alike("records", self.library_records.inside(), &self.records)?;
        alike("output", library.out.inside(), &self.output)?;
        if let (Call::Scan { root, .. }, [0, _, length, ..]) = (call, answer) {
            self.pieces_are_one_read(*root, length)?;
        }
        Ok(answer)
    }

    /// "the pieces joined are what one read gives", which the library makes
    /// here. The pieces are the output of the last call.
    fn pieces_are_one_read(&self, root: u64, length: u64) -> Result<(), String> {
        let (pool, records) = (self.library_pool.inside(), self.library_records.inside());
        let mut one_read = vec![UNREAD; length as usize];
        let mut answer = [UNANSWERED; 8];
        raw::read(pool, records, root, 0, &mut one_read, &mut answer);
        if answer[0] == 0 && self.output.get(..one_read.len()) == Some(&one_read) {
            return Ok(());
        }
        Err("the pieces joined are not what one read gives".to_string())
    }

    /// The library's side, with guards around all that it is lent. Every other
    /// call goes through the Rust crate.
    fn call_library(&mut self, call: &Call, data: &[u8]) -> Result<Left, String> {
        let mut out = Guarded::new(&vec![UNREAD; call.output_size(self.view().slots())]);
        let lent_data = Guarded::new(data);
        let mut head = GuardedNumbers::new(self.head);
        let mut answer = GuardedNumbers::new([UNANSWERED; 8]);
        let lent = Lent {
            pool: self.library_pool.inside_mut(),
            records: self.library_records.inside_mut(),
            head: head.inside_mut(),
            out: out.inside_mut(),
            data: lent_data.inside(),
        };
        match self.calls % 2 {
            0 => by_library(call, lent, answer.inside_mut()),
            _ => by_crate(call, lent, answer.inside_mut()),
        }
        let buffers = [&self.library_pool, &self.library_records, &out, &lent_data];
        let all_intact = buffers.iter().all(|buffer| buffer.is_intact());
        let numbers_intact = answer.is_intact() && head.is_intact();
        if !all_intact || !numbers_intact || lent_data.inside() != data {
            return Err("the library wrote outside what it was lent".to_string());
        }
        Ok(Left { answer: answer.inside(), head: head.inside(), out })
    }
}

/// What a call of the library left beside the store.
struct Left {
    answer: Answer,
    head: HeadNumbers,
    out: Guarded,
}

fn alike_in_numbers(does: &str, library: &[u64], reference: &[u64]) -> Result<(), String> {
    if library == reference {
        return Ok(());
    }
    Err(format!("the library {does} {}, the reference {}", shown(library), shown(reference)))
}

/// Numbers in short: 2^64 - 1 is written as a line.
fn shown(numbers: &[u64]) -> String {
    let word = |number: &u64| match *number {
        u64::MAX => "-".to_string(),
        number => number.to_string(),
    };
    format!("[{}]", numbers.iter().map(word).collect::<Vec<_>>().join(" "))
}

fn alike(what: &str, library: &[u8], reference: &[u8]) -> Result<(), String> {
    if library == reference {
        return Ok(());
    }
    let at = library.iter().zip(reference).position(|(one, other)| one != other).unwrap_or(0);
    let (one, other) = (library[at], reference[at]);
    Err(format!("byte {at} of {what}: the library has {one:#04X}, the reference {other:#04X}"))
}
