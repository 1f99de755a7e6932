//! The eleven C functions with slices in place of pointers, and the eight
//! numbers of their answer as they leave them. This is the only module with
//! unsafe code: each function hands a slice on as its pointer and its length,
//! and the library is proved to stay inside what it is lent.
//!
//! | answer | holds |
//! |---|---|
//! | 0 | the refusal's number, or 0 |
//! | 1 | the slot to blame, or [`NO_SLOT`] |
//! | 2 | the value: a slot, a length, a count of slots or of bytes, or where a shown part starts; else 0 |
//! | 3 | the length of a shown part; else 0 |
//! | 4 to 7 | 0 |
//!
//! | head | holds |
//! |---|---|
//! | 0 | the blob's root |
//! | 1 | the place: how many bytes were handed out |
//! | 2 | the blob's length |
//! | 3 | 1 if it is open |
#![allow(unsafe_code)]

/// Stands in an answer where there is no slot to blame.
pub const NO_SLOT: u64 = u64::MAX;

/// The eight numbers that every C function leaves.
pub type Answer = [u64; 8];

/// The four numbers of a head; all are 0 if opening it was refused.
pub type HeadNumbers = [u64; 4];

#[link(name = "tjornsaki", kind = "static")]
extern "C" {
    fn tj_wipe(pool: *mut u8, p: usize, records: *mut u8, r: usize, answer: *mut u64);
    fn tj_create(pool: *mut u8, p: usize, records: *mut u8, r: usize, answer: *mut u64);
    fn tj_length(
        pool: *const u8,
        p: usize,
        records: *const u8,
        r: usize,
        root: u64,
        answer: *mut u64,
    );
    fn tj_read(
        pool: *const u8,
        p: usize,
        records: *const u8,
        r: usize,
        root: u64,
        offset: u64,
        out: *mut u8,
        o: usize,
        answer: *mut u64,
    );
    fn tj_write(
        pool: *mut u8,
        p: usize,
        records: *mut u8,
        r: usize,
        root: u64,
        offset: u64,
        data: *const u8,
        d: usize,
        answer: *mut u64,
    );
    fn tj_resize(
        pool: *mut u8,
        p: usize,
        records: *mut u8,
        r: usize,
        root: u64,
        length: u64,
        answer: *mut u64,
    );
    fn tj_delete(pool: *mut u8, p: usize, records: *mut u8, r: usize, root: u64, answer: *mut u64);
    fn tj_show(
        pool: *const u8,
        p: usize,
        records: *const u8,
        r: usize,
        root: u64,
        leaf: u64,
        answer: *mut u64,
    );
    fn tj_audit(pool: *const u8, p: usize, records: *const u8, r: usize, answer: *mut u64);
    fn tj_open_head(
        pool: *const u8,
        p: usize,
        records: *const u8,
        r: usize,
        root: u64,
        head: *mut u64,
        answer: *mut u64,
    );
    fn tj_next(pool: *const u8, p: usize, head: *mut u64, out: *mut u8, o: usize, answer: *mut u64);
}

/// `tj_wipe`; see [`crate::wipe`].
pub fn wipe(pool: &mut [u8], records: &mut [u8], answer: &mut Answer) {
    let ((p, p_len), (r, r_len)) = (lend_mut(pool), lend_mut(records));
    unsafe { tj_wipe(p, p_len, r, r_len, answer.as_mut_ptr()) }
}

/// `tj_create`; see [`crate::create`].
pub fn create(pool: &mut [u8], records: &mut [u8], answer: &mut Answer) {
    let ((p, p_len), (r, r_len)) = (lend_mut(pool), lend_mut(records));
    unsafe { tj_create(p, p_len, r, r_len, answer.as_mut_ptr()) }
}

/// `tj_length`; see [`crate::length`].
pub fn length(pool: &[u8], records: &[u8], root: u64, answer: &mut Answer) {
    let ((p, p_len), (r, r_len)) = (lend(pool), lend(records));
    unsafe { tj_length(p, p_len, r, r_len, root, answer.as_mut_ptr()) }
}

/// `tj_read`; see [`crate::read`].
pub fn read(
    pool: &[u8],
    records: &[u8],
    root: u64,
    offset: u64,
    out: &mut [u8],
    answer: &mut Answer,
) {
    let ((p, p_len), (r, r_len), (o, o_len)) = (lend(pool), lend(records), lend_mut(out));
    unsafe { tj_read(p, p_len, r, r_len, root, offset, o, o_len, answer.as_mut_ptr()) }
}

/// `tj_write`; see [`crate::write`].
pub fn write(
    pool: &mut [u8],
    records: &mut [u8],
    root: u64,
    offset: u64,
    data: &[u8],
    answer: &mut Answer,
) {
    let ((p, p_len), (r, r_len), (d, d_len)) = (lend_mut(pool), lend_mut(records), lend(data));
    unsafe { tj_write(p, p_len, r, r_len, root, offset, d, d_len, answer.as_mut_ptr()) }
}

/// `tj_resize`; see [`crate::resize`].
pub fn resize(pool: &mut [u8], records: &mut [u8], root: u64, length: u64, answer: &mut Answer) {
    let ((p, p_len), (r, r_len)) = (lend_mut(pool), lend_mut(records));
    unsafe { tj_resize(p, p_len, r, r_len, root, length, answer.as_mut_ptr()) }
}

/// `tj_delete`; see [`crate::delete`].
pub fn delete(pool: &mut [u8], records: &mut [u8], root: u64, answer: &mut Answer) {
    let ((p, p_len), (r, r_len)) = (lend_mut(pool), lend_mut(records));
    unsafe { tj_delete(p, p_len, r, r_len, root, answer.as_mut_ptr()) }
}

/// `tj_show`; see [`crate::show`].
pub fn show(pool: &[u8], records: &[u8], root: u64, leaf: u64, answer: &mut Answer) {
    let ((p, p_len), (r, r_len)) = (lend(pool), lend(records));
    unsafe { tj_show(p, p_len, r, r_len, root, leaf, answer.as_mut_ptr()) }
}

/// `tj_audit`; see [`crate::audit`].
pub fn audit(pool: &[u8], records: &[u8], answer: &mut Answer) {
    let ((p, p_len), (r, r_len)) = (lend(pool), lend(records));
    unsafe { tj_audit(p, p_len, r, r_len, answer.as_mut_ptr()) }
}

/// `tj_open_head`; see [`crate::Head::open`].
pub fn open_head(
    pool: &[u8],
    records: &[u8],
    root: u64,
    head: &mut HeadNumbers,
    answer: &mut Answer,
) {
    let ((p, p_len), (r, r_len), head) = (lend(pool), lend(records), head.as_mut_ptr());
    unsafe { tj_open_head(p, p_len, r, r_len, root, head, answer.as_mut_ptr()) }
}

/// `tj_next`; see [`crate::Head::next`]. The head may have any numbers, and the
/// pool may be any: then some bytes of the pool or zeros are handed out.
pub fn next(pool: &[u8], head: &mut HeadNumbers, out: &mut [u8], answer: &mut Answer) {
    let ((p, p_len), (o, o_len)) = (lend(pool), lend_mut(out));
    unsafe { tj_next(p, p_len, head.as_mut_ptr(), o, o_len, answer.as_mut_ptr()) }
}

fn lend(bytes: &[u8]) -> (*const u8, usize) {
    (bytes.as_ptr(), bytes.len())
}

fn lend_mut(bytes: &mut [u8]) -> (*mut u8, usize) {
    (bytes.as_mut_ptr(), bytes.len())
}
