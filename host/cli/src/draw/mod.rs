//! A picture of a store: its slots in a grid and its blobs as trees. Of a large
//! store each slot is a dot, and of the trees that is drawn which stands out.

mod canvas;
mod cell;
mod fold;
mod grid;
mod map;
mod page;
mod scene;
mod tree;

use scene::Scene;
use tjornsaki::Refusal;

/// The picture as SVG text; refused where the lengths fit no store.
pub fn draw(pool: &[u8], records: &[u8]) -> Result<String, Refusal> {
    titled(pool, records, "Tjornsaki store")
}

/// The same with a title.
pub fn titled(pool: &[u8], records: &[u8], title: &str) -> Result<String, Refusal> {
    Scene::new(pool, records).map(|scene| page::page(&scene, title))
}
