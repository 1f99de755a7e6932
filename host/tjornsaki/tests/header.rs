//! The crate and the header of the C functions say the same.

use std::mem::size_of;
use tjornsaki::raw::{Answer, HeadNumbers};
use tjornsaki::{BLOCK_BYTES, MOST_SLOTS, RECORD_BYTES};

/// The number that the header gives this name.
fn defined(name: &str) -> usize {
    let header = include_str!("../../../include/tjornsaki.h");
    let is_it = |words: &Vec<&str>| words.starts_with(&["#define", name]);
    let mut lines = header.lines().map(|line| line.split_whitespace().collect());
    lines.find(is_it).expect(name)[2].parse().expect(name)
}

#[test]
fn one_version() {
    assert_eq!(defined("TJ_VERSION").to_string(), env!("CARGO_PKG_VERSION_MINOR"));
}

#[test]
fn the_same_sizes() {
    assert_eq!(defined("TJ_BLOCK"), BLOCK_BYTES);
    assert_eq!(defined("TJ_RECORD"), RECORD_BYTES);
    assert_eq!(defined("TJ_SLOTS"), MOST_SLOTS);
    assert_eq!(defined("TJ_ANSWER"), size_of::<Answer>() / size_of::<u64>());
    assert_eq!(defined("TJ_HEAD"), size_of::<HeadNumbers>() / size_of::<u64>());
}
