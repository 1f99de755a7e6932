//! Plays a script of test vectors over the reference store: the script comes
//! in on standard input, one line a call goes out. The commands are explained
//! at the top of each script. Nothing is shared with the store that the
//! vectors are for, so what this prints can be held against what that prints.
#![forbid(unsafe_code)]

use std::fmt::{Display, Write};
use std::io::Read;

use reference::{audit, create, delete, length, next, open_head};
use reference::{read, resize, show, wipe, write, Refusal};

/// "No slot" where a slot is a number.
const FAR: u64 = u64::MAX;

fn main() -> std::io::Result<()> {
    let mut script = String::new();
    std::io::stdin().read_to_string(&mut script)?;
    let mut player = Player::default();
    for line in script.lines() {
        if let Some(label) = line.strip_prefix("= ") {
            player.label = label.to_string();
        } else if !line.starts_with('#') {
            player.line(line);
        }
    }
    print!("{}", player.out);
    Ok(())
}

/// The store as the script has laid it out, the label, and what is printed.
#[derive(Default)]
struct Player {
    pool: Vec<u8>,
    records: Vec<u8>,
    label: String,
    out: String,
}

impl Player {
    /// Commands are letters, each followed by its numbers.
    fn line(&mut self, line: &str) {
        let mut words = line.split_whitespace().peekable();
        while let Some(name) = words.next() {
            let mut n = [0; 5];
            let mut count = 0;
            while let Some(number) = words.peek().and_then(|word| word.parse().ok()) {
                n[count] = number;
                count += 1;
                words.next();
            }
            self.command(name, n);
        }
    }

    fn command(&mut self, name: &str, n: [u64; 5]) {
        match name {
            "n" | "w" | "l" | "i" | "v" | "k" | "p" | "q" => self.lay(name, n),
            "L" | "R" | "F" | "S" | "P" | "A" | "B" | "C" | "E" => self.reading(name, n),
            "O" | "N" | "W" | "Z" | "D" | "Y" | "X" => self.changing(name, n),
            "H" => self.hex(),
            "T" => self.slot(n[0] as usize),
            "G" => self.sums(),
            _ => panic!("no command {name}"),
        }
    }

    fn lay(&mut self, name: &str, n: [u64; 5]) {
        match name {
            "n" => self.lay_wiped(n[0] as usize, n[1] as usize),
            "w" => self.lay_pair(),
            "l" => self.lay_leaf(n[0], n[1], n[2], n[3]),
            "i" => self.lay_inner(n[0], n[1], n[2], n[3], n[4]),
            "v" => self.lay_leaves(n[0], n[1]),
            "k" => self.lay_record(n[0], n[1], n[2]),
            "p" => self.pool[n[0] as usize] = n[1] as u8,
            _ => self.records[n[0] as usize] = n[1] as u8,
        }
    }

    fn lay_wiped(&mut self, pool: usize, records: usize) {
        self.pool = vec![0; pool];
        self.records = vec![0; records];
        for record in self.records.chunks_mut(12) {
            for (byte, mark) in record.iter_mut().zip([0x52, 0x31]) {
                *byte = mark;
            }
        }
    }

    fn lay_pair(&mut self) {
        self.lay_wiped(256, 48);
        self.lay_inner(0, 1, 2, 7, 1);
        self.lay_leaf(1, 1, 48, 3);
        self.lay_leaf(2, 2, 5, 5);
        self.lay_record(0, 2, 7);
        self.lay_record(1, 1, 3);
        self.lay_record(2, 1, 5);
    }

    fn lay_leaf(&mut self, place: u64, slot: u64, count: u64, version: u64) {
        let data = (0..count).map(|i| (64 * slot + i) as u8);
        self.lay_block(place, slot, 0, count, version, data.collect());
    }

    fn lay_inner(&mut self, slot: u64, height: u64, count: u64, version: u64, first: u64) {
        let row = (first..first + count).flat_map(|child| (child as u32).to_le_bytes());
        self.lay_block(slot, slot, height, count, version, row.collect());
    }

    fn lay_leaves(&mut self, first: u64, end: u64) {
        for slot in first..end {
            self.lay_leaf(slot, slot, 48, 1);
            self.lay_record(slot, 1, 1);
        }
    }

    /// The payload's other bytes stay as they are.
    fn lay_block(&mut self, place: u64, slot: u64, height: u64, count: u64, v: u64, data: Vec<u8>) {
        let mut bytes = vec![0x4C, 0x31, height as u8, count as u8];
        bytes.extend((slot as u32).to_le_bytes());
        bytes.extend(v.to_le_bytes());
        bytes.extend(data);
        put(&mut self.pool, place as usize * 64, &bytes);
    }

    fn lay_record(&mut self, slot: u64, state: u64, version: u64) {
        let mut bytes = vec![0x52, 0x31, state as u8, 0];
        bytes.extend(version.to_le_bytes());
        put(&mut self.records, slot as usize * 12, &bytes);
    }

    fn reading(&mut self, name: &str, n: [u64; 5]) {
        match name {
            "L" => self.length(n[0]),
            "R" => self.read(n[0], n[1], n[2] as usize),
            "F" => self.find(n[0], n[1]),
            "S" => self.show(n[0], n[1]),
            "P" => self.head(n[0], [n[1], n[2], n[3], n[4]]),
            "A" => self.audit(),
            "B" => {
                self.read(n[0], FAR, 2);
                self.find(n[0], FAR);
                self.show(n[0], FAR);
            }
            _ => {
                self.length(n[0]);
                self.read(n[0], 0, 1);
                self.find(n[0], 0);
                self.show(n[0], 0);
                self.head(n[0], [1, 0, 0, 0]);
                if name == "E" {
                    self.audit();
                }
            }
        }
    }

    fn length(&mut self, root: u64) {
        let answer = length(&self.pool, &self.records, root);
        self.say(format!("length {root}"), answer.map(|n| format!(" {n}")), "");
    }

    fn read(&mut self, root: u64, offset: u64, size: usize) {
        let mut out = vec![0xEE; size];
        let answer = read(&self.pool, &self.records, root, offset, &mut out);
        let call = format!("read {root} {offset} {size}");
        self.say(call, answer.map(|()| ""), &bracketed(&out));
    }

    fn find(&mut self, root: u64, leaf: u64) {
        let answer = show(&self.pool, &self.records, root, leaf);
        let place = answer.map(|(start, count)| format!(" {start} {count}"));
        self.say(format!("find {root} {leaf}"), place, "");
    }

    fn show(&mut self, root: u64, leaf: u64) {
        let answer = show(&self.pool, &self.records, root, leaf);
        let part = answer.map_or(&[][..], |(start, count)| &self.pool[start..start + count]);
        let part = bracketed(part);
        self.say(format!("show {root} {leaf}"), answer.map(|_| ""), &part);
    }

    /// A refused head is asked too.
    fn head(&mut self, root: u64, sizes: [u64; 4]) {
        let mut head = [0; 4];
        let answer = open_head(&self.pool, &self.records, root, &mut head);
        let mut pieces = String::new();
        for size in sizes {
            let mut out = vec![0xEE; size as usize];
            let count = next(&self.pool, &mut head, &mut out);
            pieces += &format!(" {count}{}", bracketed(&out));
        }
        let [a, b, c, d] = sizes;
        let call = format!("head {root} {a} {b} {c} {d}");
        self.say(call, answer.map(|n| format!(" {n}")), &pieces);
    }

    fn audit(&mut self) {
        let answer = audit(&self.pool, &self.records);
        self.say("audit".to_string(), answer.map(|n| format!(" {n}")), "");
    }

    fn changing(&mut self, name: &str, n: [u64; 5]) {
        match name {
            "O" => {
                let answer = wipe(&mut self.pool, &mut self.records);
                self.say("wipe".to_string(), answer.map(|()| ""), "");
            }
            "N" => self.create(),
            "W" => self.write(n[0], n[1], n[2], n[3]),
            "Z" => self.resize(n[0], n[1]),
            "D" => self.delete(n[0]),
            _ => {
                if name == "X" {
                    self.create();
                }
                self.write(n[0], 0, 165, 1);
                self.resize(n[0], 100);
                self.delete(n[0]);
                self.hex();
            }
        }
    }

    fn create(&mut self) {
        let answer = create(&mut self.pool, &mut self.records);
        self.say("create".to_string(), answer.map(|slot| format!(" {slot}")), "");
    }

    fn write(&mut self, root: u64, offset: u64, first: u64, count: u64) {
        let data: Vec<u8> = (0..count).map(|i| (first + i) as u8).collect();
        let answer = write(&mut self.pool, &mut self.records, root, offset, &data);
        self.say(format!("write {root} {offset} {first} {count}"), answer.map(|()| ""), "");
    }

    fn resize(&mut self, root: u64, length: u64) {
        let answer = resize(&mut self.pool, &mut self.records, root, length);
        self.say(format!("resize {root} {length}"), answer.map(|()| ""), "");
    }

    fn delete(&mut self, root: u64) {
        let answer = delete(&mut self.pool, &mut self.records, root);
        self.say(format!("delete {root}"), answer.map(|()| ""), "");
    }

    /// A call's line: the refusal's number (0 for none), its slot (- for none),
    /// the values, then what is printed either way.
    fn say<T: Display>(&mut self, call: String, answer: Result<T, Refusal>, always: &str) {
        let said = match answer {
            Ok(values) => format!("0 -{values}"),
            Err(Refusal { number, slot: None }) => format!("{number} -"),
            Err(Refusal { number, slot: Some(slot) }) => format!("{number} {slot}"),
        };
        self.print(&format!("{call} -> {said}{always}"));
    }

    fn print(&mut self, line: &str) {
        self.out += &format!("{}: {line}\n", self.label);
    }

    /// The whole store, a line a slot: record, then block.
    fn hex(&mut self) {
        let slots = self.pool.chunks(64).len().max(self.records.chunks(12).len());
        for slot in 0..slots {
            self.slot(slot);
        }
    }

    fn slot(&mut self, slot: usize) {
        let record = bracketed(self.records.chunks(12).nth(slot).unwrap_or(&[]));
        let block = bracketed(self.pool.chunks(64).nth(slot).unwrap_or(&[]));
        self.print(&format!("slot {slot}{record}{block}"));
    }

    fn sums(&mut self) {
        self.print(&format!("sums {} {}", sum(&self.records), sum(&self.pool)));
    }
}

/// From 1 on, byte by byte: 16,777,619 times the sum, plus the byte, modulo
/// the prime 4,294,967,291.
fn sum(bytes: &[u8]) -> u64 {
    bytes.iter().fold(1, |sum, byte| (sum * 16_777_619 + u64::from(*byte)) % 4_294_967_291)
}

/// Puts bytes at a place; what lies outside is left out.
fn put(bytes: &mut [u8], at: usize, new: &[u8]) {
    for (byte, new) in bytes.iter_mut().skip(at).zip(new) {
        *byte = *new;
    }
}

fn bracketed(bytes: &[u8]) -> String {
    let mut text = " [".to_string();
    for byte in bytes {
        let _ = write!(text, "{byte:02x}");
    }
    text + "]"
}
