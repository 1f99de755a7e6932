//! The eight numbers of an answer, as the C functions leave them.

use tjornsaki::raw::{self, Answer, NO_SLOT};
use tjornsaki::room;

/// What is in an answer before the call.
const BEFORE: Answer = [99; 8];

fn answer(call: impl FnOnce(&mut Answer)) -> Answer {
    let mut answer = BEFORE;
    call(&mut answer);
    answer
}

fn done(value: u64, second: u64) -> Answer {
    [0, NO_SLOT, value, second, 0, 0, 0, 0]
}

fn refused(number: u64, slot: u64) -> Answer {
    [number, slot, 0, 0, 0, 0, 0, 0]
}

#[test]
fn values() {
    let (mut pool, mut records) = room(8);
    assert_eq!(answer(|a| raw::wipe(&mut pool, &mut records, a)), done(0, 0));
    assert_eq!(answer(|a| raw::create(&mut pool, &mut records, a)), done(0, 0));
    assert_eq!(answer(|a| raw::create(&mut pool, &mut records, a)), done(1, 0));
    assert_eq!(answer(|a| raw::resize(&mut pool, &mut records, 1, 50, a)), done(0, 0));
    assert_eq!(answer(|a| raw::write(&mut pool, &mut records, 1, 48, b"ok", a)), done(0, 0));
    assert_eq!(answer(|a| raw::length(&pool, &records, 1, a)), done(50, 0));
    assert_eq!(answer(|a| raw::show(&pool, &records, 1, 1, a)), done(3 * 64 + 16, 2));
    assert_eq!(answer(|a| raw::audit(&pool, &records, a)), done(4, 0));
    let mut out = [0; 2];
    assert_eq!(answer(|a| raw::read(&pool, &records, 1, 48, &mut out, a)), done(0, 0));
    assert_eq!(&out, b"ok");
    assert_eq!(answer(|a| raw::delete(&mut pool, &mut records, 1, a)), done(0, 0));
    assert_eq!(answer(|a| raw::audit(&pool, &records, a)), done(1, 0));
}

#[test]
fn refusals() {
    let (mut pool, mut records) = room(2);
    assert_eq!(answer(|a| raw::audit(&pool, &records, a)), refused(2, 0));
    raw::wipe(&mut pool, &mut records, &mut [0; 8]);
    assert_eq!(answer(|a| raw::show(&pool, &records, 0, 0, a)), refused(3, NO_SLOT));
    pool[127] = 1;
    assert_eq!(answer(|a| raw::create(&mut pool, &mut records, a)), refused(9, 1));
    assert_eq!(answer(|a| raw::wipe(&mut [], &mut [], a)), refused(1, NO_SLOT));
}
