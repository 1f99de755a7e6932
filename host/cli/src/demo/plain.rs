//! A store without versions: it reads the blocks that it is handed.

use crate::layout::block;

/// The bytes of a blob, with nothing checked.
pub fn bytes(pool: &[u8], slot: usize) -> Vec<u8> {
    match block(pool, slot) {
        Some(found) if found.height() == 0 => found.data().to_vec(),
        Some(found) => {
            let rows = found.children().into_iter().map(|child| bytes(pool, child));
            rows.collect::<Vec<_>>().concat()
        }
        None => Vec::new(),
    }
}

/// The line of a blob that begins with a signature.
pub fn line(pool: &[u8], slot: usize, signature: &str) -> Option<String> {
    let bytes = bytes(pool, slot);
    let text = String::from_utf8_lossy(&bytes);
    let found = text.lines().find(|line| line.starts_with(signature));
    found.map(|line| line.trim_end().to_string())
}
