//! The parts of the comparison that a run by chance does not show to be right.

use differential::bench::{Area, Bench, Step};
use differential::call::{Call, KINDS};
use differential::chance::Chance;
use differential::draw::draw_large_slots;
use differential::layout::{blocks_of, exchange};
use differential::options::Options;
use differential::tally::Tally;
use differential::told::Told;
use std::time::Duration;

#[test]
fn block_totals_of_the_paper() {
    let totals = [(0, 1), (48, 1), (49, 3), (576, 13), (577, 16), (6_912, 157), (6_913, 161)];
    for (length, blocks) in totals {
        assert_eq!(blocks_of(length), blocks);
    }
    assert_eq!((blocks_of(44_976), blocks_of(44_977)), (1_024, 1_025));
    assert_eq!((blocks_of(2_883_456), blocks_of(2_883_457)), (65_535, 65_537));
}

/// A blob stays the same whatever slots its blocks change to.
#[test]
fn exchanged_slots_keep_a_store_sound() {
    let (mut pool, mut records) = (vec![0; 64 * 20], vec![0; 12 * 20]);
    reference::wipe(&mut pool, &mut records).unwrap();
    let root = reference::create(&mut pool, &mut records).unwrap();
    reference::resize(&mut pool, &mut records, root, 600).unwrap();
    for slot in 1..20 {
        exchange(&mut pool, &mut records, slot, (slot * 7) % 20);
        assert_eq!(reference::audit(&pool, &records), Ok(16));
    }
    exchange(&mut pool, &mut records, 0, 19);
    let roots: Vec<u64> =
        (0..20).filter(|slot| records[12 * slot + 2] == 2).map(|s| s as u64).collect();
    assert_eq!(reference::length(&pool, &records, roots[0]), Ok(600));
}

#[test]
fn steps_change_both_sides_alike() {
    let mut bench = Bench::new(4);
    let patch = Step::Patch { area: Area::Records, at: 46, bytes: vec![9; 64] };
    let audit = Step::Call(Call::Audit);
    let steps = [Step::Call(Call::Wipe), Step::Keep, patch, audit.clone(), Step::GoBack, audit];
    let answers: Vec<_> = steps.iter().map(|step| bench.step(step).unwrap()).collect();
    assert_eq!(answers[3].unwrap()[..2], [0, u64::MAX]);
    assert_eq!(answers[5].unwrap()[..2], [0, u64::MAX]);
    assert_eq!(bench.calls, 3);
}

/// A bench with a blob of 700 bytes in slot 0, and these bytes.
fn bench_with_blob() -> (Bench, Vec<u8>) {
    let mut bench = Bench::new(20);
    let write = Call::Write { root: 0, offset: 0, size: 700, fill: 300 };
    let resize = Call::Resize { root: 0, length: 700 };
    for call in [Call::Wipe, Call::Create, resize, write] {
        assert_eq!(bench.step(&Step::Call(call)).unwrap().unwrap()[0], 0);
    }
    (bench, write.data())
}

/// What the bench's head hands out when it is asked for so many bytes.
fn asked(bench: &mut Bench, size: usize) -> Vec<u8> {
    let answer = bench.step(&Step::Call(Call::Next { size })).unwrap().unwrap();
    bench.output[..answer[2] as usize].to_vec()
}

#[test]
fn a_head_goes_on_while_the_store_changes() {
    let (mut bench, bytes) = bench_with_blob();
    let opened = bench.step(&Step::Call(Call::OpenHead { root: 0 })).unwrap().unwrap();
    assert_eq!((opened[2], bench.head), (700, [0, 0, 700, 1]));
    assert_eq!(asked(&mut bench, 100), bytes[..100]);
    bench.step(&Step::Call(Call::Write { root: 0, offset: 90, size: 20, fill: 9 })).unwrap();
    assert_eq!(asked(&mut bench, 20), [&[9; 10], &bytes[110..120]].concat());
    bench.step(&Step::Call(Call::Delete { root: 0 })).unwrap();
    assert_eq!(asked(&mut bench, 1_000), [0; 580]);
    assert_eq!(bench.head, [0, 700, 700, 1]);
    assert_eq!(asked(&mut bench, 1_000), []);
}

#[test]
fn a_head_goes_along_to_other_lengths() {
    let (mut bench, bytes) = bench_with_blob();
    bench.step(&Step::ForgeHead([0, 650, 700, 1])).unwrap();
    assert_eq!(asked(&mut bench, 20), bytes[650..670]);
    let over = |pool| Step::CallOverLengths { call: Call::Next { size: 13 }, pool, records: 0 };
    for (pool, handed) in [(0, 13), (63, 13), (20 * 64 + 5, 4), (0, 0)] {
        assert_eq!(bench.step(&over(pool)).unwrap().unwrap()[..3], [0, u64::MAX, handed]);
    }
    assert_eq!(bench.head, [0, 700, 700, 1]);
    bench.step(&Step::ForgeHead([0, 650, 700, 2])).unwrap();
    assert_eq!(asked(&mut bench, 20), []);
}

#[test]
fn a_scan_gives_the_whole_blob() {
    let (mut bench, bytes) = bench_with_blob();
    for (size, pieces) in [(1, 700), (48, 15), (699, 2), (700, 1), (9_999, 1)] {
        let answer = bench.step(&Step::Call(Call::Scan { root: 0, size })).unwrap().unwrap();
        assert_eq!(answer, [0, u64::MAX, 700, pieces, 0, 0, 0, 0]);
        assert_eq!(bench.output[..700], bytes);
        assert_eq!(bench.head, [0, 700, 700, 1]);
    }
    let answer = bench.step(&Step::Call(Call::Scan { root: 1, size: 5 })).unwrap().unwrap();
    assert_eq!((answer[0], answer[3], bench.head), (3, 0, [0; 4]));
}

#[test]
fn nothing_tried_is_nothing_met() {
    let missing = Tally::default().missing();
    let refusals: usize = KINDS.iter().map(|kind| kind.refusals.len()).sum();
    assert!(missing.len() > KINDS.len() + refusals);
    assert!(Tally::default().unexpected().is_empty());
}

#[test]
fn calls_over_large_pools_are_counted() {
    let mut tally = Tally::default();
    let met = |tally: &Tally| {
        let missing = tally.missing();
        let is_missing = |what: &str| missing.iter().any(|name| name == what);
        [
            !is_missing("audit done over a large pool"),
            !is_missing("audit refused over a large pool"),
        ]
    };
    tally.count_answer(&Call::Audit, &[0; 8], 1_024);
    assert_eq!(met(&tally), [false, false]);
    tally.count_answer(&Call::Audit, &[0; 8], 1_025);
    assert_eq!(met(&tally), [true, false]);
    tally.count_answer(&Call::Audit, &[8, 0, 0, 0, 0, 0, 0, 0], 65_536);
    assert_eq!(met(&tally), [true, true]);
}

#[test]
fn large_pools_are_large() {
    let mut chance = Chance::new(3);
    let drawn: Vec<usize> = (0..1_000).map(|_| draw_large_slots(&mut chance)).collect();
    assert!(drawn.iter().all(|slots| (1_025..=65_536).contains(slots)));
    assert!(drawn.contains(&65_536) && drawn.iter().any(|slots| (20_000..60_000).contains(slots)));
    assert!(drawn.iter().filter(|slots| **slots < 4_000).count() > 500);
}

/// What a scene says is wrong is found even where both sides agree.
#[test]
fn a_told_answer_is_held_to_its_words() {
    let mut tally = Tally::default();
    let mut told = Told::new(1, &mut tally);
    let create = Step::Call(Call::Create);
    let root = Call::Length { root: 0 };
    assert!(told.done(create.clone()).is_err());
    assert!(told.done(Step::Call(Call::Wipe)).is_ok());
    assert!(told.refused(create.clone(), 11, None).is_err());
    assert!(told.refused(create.clone(), 11, Some(0)).is_err());
    assert!(told.refused(create, 11, None).is_ok());
    assert!(told.gives(root, 1).is_err());
    assert!(told.gives(root, 0).is_ok());
}

#[test]
fn askings_are_told_apart() {
    let mut tally = Tally::default();
    let askings = [
        (0, [0, 0, 5, 1]),
        (1, [0, 0, 5, 0]),
        (1, [0, 5, 5, 1]),
        (5, [0, 0, 5, 1]),
        (6, [0, 0, 5, 1]),
    ];
    for (size, head) in askings {
        let before = tally.missing().len();
        tally.count_asking(&Call::Length { root: 0 }, &head);
        assert_eq!(tally.missing().len(), before);
        tally.count_asking(&Call::Next { size }, &head);
        assert_eq!(tally.missing().len(), before - 1, "{size} of {head:?}");
    }
    // W-203: 4 and 5 are heights of their own.
    let heights = [0, 1, 2, 3, 4, 5, 255].into_iter().map(Some);
    for height in heights.chain([None]) {
        let before = tally.missing().len();
        tally.count_handed_out(height);
        assert_eq!(tally.missing().len(), before - 1, "height {height:?}");
    }
}

#[test]
fn words_of_the_command_line() {
    let read = |words: &str| {
        let words = words.split_whitespace().map(String::from);
        Options::read(words, 5, 2)
    };
    let plain = read("").unwrap();
    assert_eq!((plain.seed, plain.threads, plain.calls), (5, 2, None));
    assert_eq!(plain.time, Duration::from_secs(60));
    let long = read("--long --seed 9 --threads 3").unwrap();
    assert_eq!((long.seed, long.threads, long.calls), (9, 3, Some(10_000_000)));
    assert_eq!(read("--run 4").unwrap().run, Some(4));
    assert!(read("--scenes").unwrap().scenes_alone && !plain.scenes_alone);
    assert!(read("--seed").is_err() && read("--seed x").is_err() && read("--fast").is_err());
}
