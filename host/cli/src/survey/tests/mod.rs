//! The stores that the survey is tried on.

mod cases;
mod chance;

/// A store, and its pool at every step of its history.
struct Store {
    records: Vec<u8>,
    history: Vec<Vec<u8>>,
}

impl Store {
    /// Blobs of these lengths, each grown by steps; one more is deleted again.
    fn new(slots: usize, lengths: &[u64]) -> Store {
        let (mut pool, mut records) = tjornsaki::room(slots);
        tjornsaki::wipe(&mut pool, &mut records).unwrap();
        let mut history = Vec::new();
        for length in lengths {
            let root = tjornsaki::create(&mut pool, &mut records).unwrap();
            for part in [3, 2, 1] {
                tjornsaki::resize(&mut pool, &mut records, root, length / part).unwrap();
                let bytes = vec![part as u8; (length / part) as usize];
                tjornsaki::write(&mut pool, &mut records, root, 0, &bytes).unwrap();
                history.push(pool.clone());
            }
        }
        let gone = tjornsaki::create(&mut pool, &mut records).unwrap();
        history.push(pool.clone());
        tjornsaki::delete(&mut pool, &mut records, gone).unwrap();
        history.push(pool);
        Store { records, history }
    }

    fn pool(&self) -> Vec<u8> {
        self.history[self.history.len() - 1].clone()
    }
}

fn small() -> Store {
    Store::new(16, &[100, 0, 200, 40])
}

fn large() -> Store {
    Store::new(200, &[700, 48, 3_000, 577, 90])
}

/// With a root of height 4 and one of height 1.
fn tall() -> Store {
    Store::new(2_000, &[82_945, 100])
}

/// With a root of height 5.
fn tallest() -> Store {
    Store::new(22_700, &[995_329, 100])
}
