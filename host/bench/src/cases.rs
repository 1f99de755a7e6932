//! The calls that are measured, each on a store of each fill and size.

use crate::stores::{blocks, data, store, Fill, Store, BLOCK, FILLS, LEAF, RECORD, SIZES};

/// One call with its words: a number for what it answers.
pub type Call = Box<dyn Fn(&mut Store, &mut [u8]) -> u64>;

pub struct Case {
    /// Its name in tables.
    pub name: &'static str,
    pub changes: bool,
    pub fill: Fill,
    pub slots: usize,
    /// The store before the call.
    pub before: Store,
    /// How many bytes are lent for the output.
    pub output: usize,
    /// The bytes that the call has to read or write, each counted once.
    pub touched: usize,
    /// The bytes of the pool among them.
    pub pool_bytes: usize,
    pub proved: Call,
    pub reference: Call,
}

/// A whole blob by one read; and by a head that is opened and then asked once, or
/// again and again, for a leaf's bytes at a time.
pub const READ: &str = "read, whole blob";
pub const SCAN: &str = "scan, one asking";
pub const SCAN_LEAVES: &str = "scan, 48 bytes at a time";
/// The opening alone, which larger pools are measured by too.
pub const OPEN: &str = "open a head";

/// Names of the cases in the order of the tables.
pub const NAMES: [&str; 16] = [
    "length",
    READ,
    "read, 48 bytes",
    SCAN,
    SCAN_LEAVES,
    "show, last leaf",
    "audit",
    "wipe",
    "create",
    "write, whole blob",
    "write, 48 bytes",
    "resize, from 0 to all",
    "resize, all to 0",
    "resize, one leaf more",
    "resize, one leaf less",
    "delete",
];

/// How many of them, the first, only read.
pub const READING: usize = 7;

/// Every case of the first tables.
pub fn all() -> Vec<Case> {
    FILLS.into_iter().flat_map(of_fill).collect()
}

/// The cases of one fill, small stores first.
pub fn of_fill(fill: Fill) -> Vec<Case> {
    let of_size = |slots| NAMES.iter().map(move |name| case(name, fill, slots));
    SIZES.into_iter().flat_map(of_size).collect()
}

/// The same function of the two sides, over slices.
macro_rules! both {
    ($case:expr, |$store:ident, $out:ident, $side:ident| $body:expr) => {{
        let proved: Call = Box::new(move |$store, $out| {
            use tjornsaki as $side;
            $body
        });
        let reference: Call = Box::new(move |$store, $out| {
            use reference as $side;
            $body
        });
        ($case.proved, $case.reference) = (proved, reference);
    }};
}

pub fn case(name: &'static str, fill: Fill, slots: usize) -> Case {
    let spare = match name {
        "create" => 1,
        "resize, one leaf more" => 4,
        _ => 0,
    };
    let (mut before, root, length) = store(fill, slots, spare);
    if name == "resize, from 0 to all" {
        cut(&mut before, root);
    }
    let changes = NAMES[READING..].contains(&name);
    let checks_one_blob = !changes && name != "audit";
    let pool_bytes = BLOCK * if checks_one_blob { blocks(length) } else { slots };
    let lent = match name {
        READ | SCAN | SCAN_LEAVES | "write, whole blob" => length,
        "read, 48 bytes" | "write, 48 bytes" => LEAF,
        _ => 0,
    };
    let mut case = Case {
        name,
        changes,
        fill,
        slots,
        before,
        output: if changes { 0 } else { lent },
        touched: RECORD * slots + pool_bytes + lent,
        pool_bytes,
        proved: Box::new(|_, _| 0),
        reference: Box::new(|_, _| 0),
    };
    if case.changes {
        set_changing(&mut case, root, length);
    } else {
        set_reading(&mut case, root, length);
    }
    case
}

/// Makes the blob empty.
fn cut(store: &mut Store, root: u64) {
    tjornsaki::resize(&mut store.pool, &mut store.records, root, 0).expect("shorter");
}

fn set_reading(case: &mut Case, root: u64, length: usize) {
    let middle = (length / LEAF / 2 * LEAF) as u64;
    match case.name {
        "length" => both!(case, |s, _out, side| side::length(&s.pool, &s.records, root).unwrap()),
        READ => both!(case, |s, out, side| {
            side::read(&s.pool, &s.records, root, 0, out).map_or(1, |_| 0)
        }),
        "read, 48 bytes" => both!(case, |s, out, side| {
            side::read(&s.pool, &s.records, root, middle, out).map_or(1, |_| 0)
        }),
        OPEN => set_open(case, root),
        SCAN => set_scan(case, root, length),
        SCAN_LEAVES => set_scan(case, root, LEAF),
        "show, last leaf" => set_show(case, root, (length / LEAF - 1) as u64),
        _ => both!(case, |s, _out, side| side::audit(&s.pool, &s.records).unwrap()),
    }
}

/// A head, asked for so many bytes at a time until the output is full. The two
/// sides hold it differently: with its pool, and as numbers.
fn set_scan(case: &mut Case, root: u64, size: usize) {
    case.proved = Box::new(move |s, out| {
        let mut head = tjornsaki::Head::open(&s.pool, &s.records, root).unwrap();
        out.chunks_mut(size).map(|piece| head.next(piece) as u64).sum()
    });
    case.reference = Box::new(move |s, out| {
        let mut head = [0; 4];
        reference::open_head(&s.pool, &s.records, root, &mut head).unwrap();
        out.chunks_mut(size).map(|piece| reference::next(&s.pool, &mut head, piece)).sum()
    });
}

fn set_open(case: &mut Case, root: u64) {
    case.proved =
        Box::new(move |s, _| tjornsaki::Head::open(&s.pool, &s.records, root).unwrap().length());
    case.reference = Box::new(move |s, _| {
        let mut head = [0; 4];
        reference::open_head(&s.pool, &s.records, root, &mut head).unwrap();
        head[2]
    });
}

/// The two sides answer differently: a slice, and where it lies.
fn set_show(case: &mut Case, root: u64, leaf: u64) {
    case.proved = Box::new(move |s, _| {
        let part = tjornsaki::show(&s.pool, &s.records, root, leaf).unwrap();
        u64::from(part[0]) * 256 + part.len() as u64
    });
    case.reference = Box::new(move |s, _| {
        let (start, size) = reference::show(&s.pool, &s.records, root, leaf).unwrap();
        u64::from(s.pool[start]) * 256 + size as u64
    });
}

fn set_changing(case: &mut Case, root: u64, length: usize) {
    let whole = data(length, 2);
    let middle = (length / LEAF / 2 * LEAF) as u64;
    match case.name {
        "wipe" => both!(case, |s, _out, side| {
            side::wipe(&mut s.pool, &mut s.records).map_or(1, |_| 0)
        }),
        "create" => {
            both!(case, |s, _out, side| side::create(&mut s.pool, &mut s.records).unwrap())
        }
        "write, whole blob" => set_write(case, root, 0, whole),
        "write, 48 bytes" => set_write(case, root, middle, data(LEAF, 2)),
        "resize, from 0 to all" => set_resize(case, root, length),
        "resize, all to 0" => set_resize(case, root, 0),
        "resize, one leaf more" => set_resize(case, root, length + LEAF),
        "resize, one leaf less" => set_resize(case, root, length - LEAF),
        _ => both!(case, |s, _out, side| {
            side::delete(&mut s.pool, &mut s.records, root).map_or(1, |_| 0)
        }),
    }
}

fn set_write(case: &mut Case, root: u64, offset: u64, bytes: Vec<u8>) {
    let again = bytes.clone();
    case.proved = Box::new(move |s, _| {
        tjornsaki::write(&mut s.pool, &mut s.records, root, offset, &bytes).map_or(1, |_| 0)
    });
    case.reference = Box::new(move |s, _| {
        reference::write(&mut s.pool, &mut s.records, root, offset, &again).map_or(1, |_| 0)
    });
}

fn set_resize(case: &mut Case, root: u64, length: usize) {
    let length = length as u64;
    both!(case, |s, _out, side| {
        side::resize(&mut s.pool, &mut s.records, root, length).map_or(1, |_| 0)
    });
}
