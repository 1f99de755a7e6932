//! Heads: however the asking is cut up, the pieces joined are what one read
//! gives; refused heads hand out nothing.

use std::io::{self, BufRead, BufReader, Read};
use tjornsaki::raw::{self, HeadNumbers, NO_SLOT};
use tjornsaki::{create, length, read, resize, room, wipe, write, Head};

type Store = (Vec<u8>, Vec<u8>);

/// Lengths on either side of a leaf, of a row, of two rows, and the longest in
/// 1,024 slots; larger stores have a test of their own.
const LENGTHS: [usize; 14] = [0, 1, 47, 48, 49, 96, 97, 575, 576, 577, 6_911, 6_912, 6_913, 44_976];

/// Bytes whose neighbours, and whose leaves, differ.
fn bytes(size: usize) -> Vec<u8> {
    (0..size).map(|at| (at * 7 + at / 48 * 5 + at / 576) as u8).collect()
}

/// A store with a blob of other bytes in slot 0, and one of these in slot 1.
fn store(bytes: &[u8]) -> (Store, u64) {
    let (mut pool, mut records) = room(1_024);
    wipe(&mut pool, &mut records).unwrap();
    assert_eq!(create(&mut pool, &mut records), Ok(0));
    resize(&mut pool, &mut records, 0, 48).unwrap();
    write(&mut pool, &mut records, 0, 0, &[0xD5; 48]).unwrap();
    let root = create(&mut pool, &mut records).unwrap();
    // The longest blob leaves no slot for another.
    if bytes.len() == 44_976 {
        tjornsaki::delete(&mut pool, &mut records, 0).unwrap();
    }
    resize(&mut pool, &mut records, root, bytes.len() as u64).unwrap();
    write(&mut pool, &mut records, root, 0, bytes).unwrap();
    ((pool, records), root)
}

/// Asks again and again, by these sizes in turn, until the end and twice more.
/// Every piece is as long as it has to be, and nothing behind it is touched.
fn joined(mut head: Head<'_>, sizes: &[usize]) -> Vec<u8> {
    let (mut all, mut at_end) = (Vec::new(), 0);
    for asked in sizes.iter().cycle() {
        let left = head.remaining() as usize;
        let mut out = vec![0xEE; asked + 3];
        let size = head.next(&mut out[..*asked]);
        assert_eq!(size, left.min(*asked));
        assert!(out[size..].iter().all(|byte| *byte == 0xEE));
        all.extend_from_slice(&out[..size]);
        assert_eq!((head.place(), head.remaining()), (all.len() as u64, (left - size) as u64));
        at_end += u32::from(left == 0);
        if at_end > 2 * sizes.len() as u32 {
            return all;
        }
    }
    all
}

#[test]
fn pieces_joined_are_one_read() {
    let cuts: [&[usize]; 10] = [
        &[7],
        &[47],
        &[48],
        &[49],
        &[576],
        &[577, 0, 1],
        &[1, 2, 3, 5, 8, 13, 21, 34, 55],
        &[0, 6_913],
        &[44_976],
        &[100_000],
    ];
    for size in LENGTHS {
        let ((pool, records), root) = store(&bytes(size));
        let mut whole = vec![0; size];
        read(&pool, &records, root, 0, &mut whole).unwrap();
        assert_eq!(whole, bytes(size));
        for cut in cuts {
            let head = Head::open(&pool, &records, root).unwrap();
            assert_eq!((head.root(), head.place(), head.length()), (root, 0, size as u64));
            assert!(joined(head, cut) == whole, "{size} bytes by {cut:?}");
        }
    }
}

/// The same over heights 4 and 5, to the longest.
#[test]
fn large_stores() {
    let (mut pool, mut records) = room(tjornsaki::MOST_SLOTS);
    wipe(&mut pool, &mut records).unwrap();
    let root = create(&mut pool, &mut records).unwrap();
    let all = bytes(2_883_456);
    for size in [82_944, 82_945, 995_328, 995_329, 2_883_456] {
        resize(&mut pool, &mut records, root, size as u64).unwrap();
        write(&mut pool, &mut records, root, 0, &all[..size]).unwrap();
        for cut in [&[10_000, 0, 47][..], &[3_000_000]] {
            let head = Head::open(&pool, &records, root).unwrap();
            assert!(joined(head, cut) == all[..size], "{size} bytes by {cut:?}");
        }
    }
}

#[test]
fn byte_by_byte() {
    let ((pool, records), root) = store(&bytes(6_913));
    assert!(joined(Head::open(&pool, &records, root).unwrap(), &[1]) == bytes(6_913));
}

/// Every place in three leaves, and every size from there.
#[test]
fn every_place_and_size() {
    let all = bytes(144);
    let ((pool, records), root) = store(&all);
    for place in 0..=144 {
        let mut from = Head::open(&pool, &records, root).unwrap();
        from.next(&mut vec![0; place]);
        for size in 0..=150 {
            let (mut head, mut out) = (from.clone(), vec![0; size]);
            let end = 144.min(place + size);
            assert_eq!(head.next(&mut out), end - place);
            assert_eq!(out[..end - place], all[place..end]);
        }
    }
}

#[test]
fn a_clone_goes_on_by_itself() {
    let ((pool, records), root) = store(&bytes(200));
    let mut head = Head::open(&pool, &records, root).unwrap();
    head.next(&mut [0; 60]);
    let mut second = head.clone();
    let mut out = [0; 100];
    second.next(&mut out);
    assert_eq!(out[..], bytes(200)[60..160]);
    assert_eq!((head.place(), second.place()), (60, 160));
    head.next(&mut out[..10]);
    assert_eq!(out[..10], bytes(200)[60..70]);
}

#[test]
fn it_tells_where_it_is_and_not_the_pool() {
    let ((pool, records), root) = store(&bytes(200));
    let mut head = Head::open(&pool, &records, root).unwrap();
    head.next(&mut [0; 60]);
    assert_eq!(format!("{head:?}"), "Head { root: 1, place: 60, length: 200, .. }");
}

#[test]
fn whatever_reads_takes_a_head() {
    for size in LENGTHS {
        let ((pool, records), root) = store(&bytes(size));
        let open = || Head::open(&pool, &records, root).unwrap();
        let mut copy = Vec::new();
        assert_eq!(io::copy(&mut open(), &mut copy).unwrap(), size as u64);
        assert!(copy == bytes(size), "{size}");
        let mut end = b"before".to_vec();
        assert_eq!(open().read_to_end(&mut end).unwrap(), size);
        assert!(end == [b"before", &bytes(size)[..]].concat(), "{size}");
        let mut part = Vec::new();
        open().take(50).read_to_end(&mut part).unwrap();
        assert_eq!(part, bytes(size)[..size.min(50)]);
        let mut out = vec![0; size];
        open().read_exact(&mut out).unwrap();
        assert!(out == bytes(size), "{size}");
        let error = open().read_exact(&mut vec![0; size + 1]).unwrap_err();
        assert_eq!(error.kind(), io::ErrorKind::UnexpectedEof);
    }
}

/// Lines that lie across leaves, through buffers of all sizes.
#[test]
fn lines() {
    let lines: Vec<String> =
        (0..400).map(|line| format!("{line:04x}  {}", "crash ".repeat(line % 17))).collect();
    let text = lines.join("\n") + "\n";
    let ((pool, records), root) = store(text.as_bytes());
    for room in [1, 7, 48, 100, 8_192, 100_000] {
        let head = Head::open(&pool, &records, root).unwrap();
        let found = BufReader::with_capacity(room, head).lines().map(Result::unwrap);
        assert!(found.eq(lines.iter().cloned()), "{room}");
    }
}

/// A refused head, as it is left, and what it then hands out.
fn refused_head(pool: &[u8], records: &[u8], root: u64) {
    let refusal = Head::open(pool, records, root).unwrap_err();
    assert_eq!(Err(refusal), length(pool, records, root));
    let (mut head, mut answer): (HeadNumbers, _) = ([7; 4], [99; 8]);
    raw::open_head(pool, records, root, &mut head, &mut answer);
    let slot = refusal.slot.unwrap_or(NO_SLOT);
    assert_eq!((head, answer), ([0; 4], [refusal.number, slot, 0, 0, 0, 0, 0, 0]));
    let mut out = [0xEE; 60];
    for _ in 0..3 {
        raw::next(pool, &mut head, &mut out, &mut answer);
        assert_eq!((head, answer), ([0; 4], [0, NO_SLOT, 0, 0, 0, 0, 0, 0]));
        assert_eq!(out, [0xEE; 60]);
    }
}

/// Each refusal of length, 1 to 9.
#[test]
fn refused_as_length_is() {
    let ((pool, records), root) = store(&bytes(100));
    refused_head(&pool[64..], &records, root);
    refused_head(&[], &[], root);
    refused_head(&pool, &records, 2);
    refused_head(&pool, &records, 1 << 32 | 1);
    let mut found = vec![];
    let spoilt_pool = [(128, 0), (128 + 4, 9), (128 + 8, 0), (128 + 8, 9), (128 + 3, 47)];
    for (at, byte) in spoilt_pool {
        let mut pool = pool.clone();
        pool[at] = byte;
        refused_head(&pool, &records, root);
        found.push(Head::open(&pool, &records, root).unwrap_err().number);
    }
    for (at, byte) in [(12 * 900, 0), (12 * 3 + 2, 0)] {
        let mut records = records.clone();
        records[at] = byte;
        refused_head(&pool, &records, root);
        found.push(Head::open(&pool, &records, root).unwrap_err().number);
    }
    assert_eq!(found, [4, 5, 6, 7, 8, 2, 9]);
}

/// The numbers as the C functions leave them.
#[test]
fn numbers_of_a_head() {
    let ((pool, records), root) = store(&bytes(100));
    let (mut head, mut answer): (HeadNumbers, _) = ([7; 4], [99; 8]);
    raw::open_head(&pool, &records, root, &mut head, &mut answer);
    assert_eq!((head, answer), ([root, 0, 100, 1], [0, NO_SLOT, 100, 0, 0, 0, 0, 0]));
    let mut out = [0; 60];
    for (size, place) in [(60, 60), (40, 100), (0, 100)] {
        raw::next(&pool, &mut head, &mut out, &mut answer);
        assert_eq!((head, answer), ([root, place, 100, 1], [0, NO_SLOT, size, 0, 0, 0, 0, 0]));
    }
}

/// Only a fourth number of 1 is an open head.
#[test]
fn a_head_that_is_not_open() {
    let ((pool, records), root) = store(&bytes(100));
    assert_eq!(length(&pool, &records, root), Ok(100));
    for open in [0, 2, 1 << 32 | 1, u64::MAX] {
        let (mut head, mut answer, mut out) = ([root, 0, 100, open], [99; 8], [0xEE; 60]);
        raw::next(&pool, &mut head, &mut out, &mut answer);
        assert_eq!((head, answer), ([root, 0, 100, open], [0, NO_SLOT, 0, 0, 0, 0, 0, 0]));
        assert_eq!(out, [0xEE; 60]);
    }
}

/// Nothing is checked again: the bytes are those that the pool has by then.
#[test]
fn a_pool_that_changes_under_a_head() {
    let ((mut pool, records), root) = store(&bytes(100));
    let (mut head, mut answer, mut out) = ([0; 4], [0; 8], [0; 48]);
    raw::open_head(&pool, &records, root, &mut head, &mut answer);
    raw::next(&pool, &mut head, &mut out, &mut answer);
    pool[3 * 64 + 8] ^= 1;
    pool[3 * 64 + 16] = 0x77;
    raw::next(&pool, &mut head, &mut out[..2], &mut answer);
    assert_eq!((answer[2], &out[..2]), (2, &[0x77, bytes(100)[49]][..]));
    raw::next(&[], &mut head, &mut out[..2], &mut answer);
    assert_eq!((answer[2], &out[..2]), (2, &[0, 0][..]));
}
