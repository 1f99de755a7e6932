//! Larger pools: one run over every call, store and size. host/benchmark starts
//! several, each a process of its own, and keeps what each prints.

use crate::cases::{self, Case, NAMES, OPEN, READING};
use crate::clock::Clock;
use crate::measure::{self, median, plain_copy, Times, Trial};
use crate::stores::{height, store, Fill, Store, BLOCK, FILLS, LEAF};

/// The numbers of slots.
pub const SIZES: [usize; 4] = [64, 1024, 8192, 65536];

/// One asking by a head that is open.
pub const NEXT: &str = "next, 48 bytes";

/// How many askings, spread over the blob, one sample has.
const ASKINGS: usize = 64;

/// The most samples of a case in a run, and the slots they have together, of
/// which a large store has fewer samples.
const MOST_SAMPLES: usize = 100;
const SAMPLED_SLOTS: usize = 21 * 65_536;

/// The calls in the order of the tables: reading ones first, then the others.
pub fn names() -> Vec<&'static str> {
    let (reading, changing) = NAMES.split_at(READING);
    [reading, &[OPEN, NEXT], changing].concat()
}

/// How many of them, the first, only read.
pub const READING_NAMES: usize = READING + 2;

/// Every case.
pub fn cases() -> impl Iterator<Item = (Fill, usize, &'static str)> {
    let of_size = |fill, slots| names().into_iter().map(move |name| (fill, slots, name));
    let of_fill = move |fill| SIZES.into_iter().flat_map(move |slots| of_size(fill, slots));
    FILLS.into_iter().flat_map(of_fill)
}

/// Measures everything once and prints a line for each case: call, store,
/// slots, and nanoseconds of library, reference and the two copies. The reference
/// is measured beside reading calls only.
pub fn run(number: usize) {
    for (fill, slots, name) in cases() {
        let samples = (SAMPLED_SLOTS / slots).clamp(1, MOST_SAMPLES);
        let times = match name {
            NEXT => asking(fill, slots, samples),
            _ => calling(&cases::case(name, fill, slots), number, samples),
        };
        let Times { proved, reference, copy, copy_pool } = times;
        let numbers = [proved, reference, copy, copy_pool].map(|number| number.to_string());
        println!("{}\t{}\t{}\t{}", name, fill.word(), slots, numbers.join("\t"));
    }
}

/// By the processor's clock where calls take long.
fn calling(case: &Case, number: usize, samples: usize) -> Times {
    let clock = if case.slots < SIZES[2] { Clock::Wall } else { Clock::Processor };
    let mut trial = Trial::new(case, clock);
    trial.move_on(number);
    measure::deeper(number % 16, &mut || trial.take(samples, number, !case.changes));
    trial.times()
}

/// The heads of library and reference, as each side holds them.
type Heads<'a> = (Vec<tjornsaki::Head<'a>>, Vec<[u64; 4]>);

/// Heads that stand at places spread over the blob.
fn heads(store: &Store, root: u64, leaves: usize) -> Heads<'_> {
    let first = tjornsaki::Head::open(&store.pool, &store.records, root).expect("a blob");
    let mut numbers = [0; 4];
    reference::open_head(&store.pool, &store.records, root, &mut numbers).expect("a blob");
    let at = |number: usize| {
        let place = leaves * number / ASKINGS * LEAF;
        let mut head = first.clone();
        head.next(&mut vec![0; place]);
        (head, [numbers[0], place as u64, numbers[2], numbers[3]])
    };
    (0..ASKINGS).map(at).unzip()
}

/// Each head is asked for a leaf.
fn asking(fill: Fill, slots: usize, samples: usize) -> Times {
    let (store, root, length) = store(fill, slots, 0);
    let (heads, others) = heads(&store, root, length / LEAF);
    let mut ask = |head: &tjornsaki::Head, out: &mut [u8]| {
        head.clone().next(out);
    };
    let mut ask_other = |head: &[u64; 4], out: &mut [u8]| {
        reference::next(&store.pool, &mut head.clone(), out);
    };
    assert!(pieces(&heads, &mut ask) == pieces(&others, &mut ask_other), "askings differ");
    let touched = BLOCK * (1 + height(length)) + LEAF;
    let (from, mut to, mut out) = (vec![7; touched], vec![0; touched], [0; LEAF]);
    let mut taken = [Vec::new(), Vec::new(), Vec::new()];
    let empty = Clock::Wall.empty();
    for _ in 0..samples {
        taken[0].push(timed(&heads, empty, |head| ask(head, &mut out)));
        taken[1].push(timed(&others, empty, |head| ask_other(head, &mut out)));
        taken[2].push(timed(&others, empty, |_| plain_copy(&mut to, &from)));
    }
    let [proved, reference, copy] = taken.map(|mut list| median(&mut list));
    Times { proved, reference, copy, copy_pool: copy }
}

/// What the askings give; this is also the sample that is not counted.
fn pieces<T>(heads: &[T], ask: &mut impl FnMut(&T, &mut [u8])) -> Vec<u8> {
    let mut pieces = vec![0; LEAF * heads.len()];
    heads.iter().zip(pieces.chunks_mut(LEAF)).for_each(|(head, piece)| ask(head, piece));
    pieces
}

/// Nanoseconds of one asking, of as many as there are heads.
fn timed<T>(heads: &[T], empty: f64, mut ask: impl FnMut(&T)) -> f64 {
    let time = Clock::Wall.time(|| heads.iter().for_each(&mut ask));
    (time - empty).max(0.0) / heads.len() as f64
}
