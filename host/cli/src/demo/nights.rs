//! The three nights: what the carrier hands back, and who asks for what.

use super::desk::Store;
use super::plain;
use super::rig::{Rig, LIST, WITHDRAWN};

pub struct Night {
    pub name: &'static str,
    pub title: &'static str,
    pub store: Store,
    pub told: &'static str,
    /// The blob and the signature that is looked up in it.
    pub asked: (u64, &'static str),
    pub harm: &'static str,
    /// Commands on the night's files, and the status of each.
    pub commands: &'static [(&'static str, u8)],
    pub why: String,
}

impl Night {
    /// What a store without versions finds.
    pub fn without_versions(&self) -> String {
        let (blob, signature) = self.asked;
        let line = plain::line(&self.store.pool.1, blob as usize, signature);
        line.unwrap_or_else(|| format!("{signature}  is not in the list"))
    }
}

pub fn nights(rig: &Rig) -> [Night; 3] {
    let old = Night {
        name: "old",
        title: "The first night: an old block",
        store: rig.handed(1, 2, &rig.last_week, 2),
        told:
            "The carrier hands back slot 2 as it was last week.\nEvery byte is genuine, only old.",
        asked: (LIST, "a41f"),
        harm: "The stale line matches; the crash is thrown away.",
        commands: &[("get 0", 6)],
        why: rig.versions(2),
    };
    let moved = Night {
        name: "moved",
        title: "The second night: a moved block",
        store: rig.handed(2, 3, &rig.now, 1),
        told: "The carrier hands back the block of slot 1 in slot 3 as well.\nIt is genuine and new, only in the wrong place.",
        asked: (LIST, "e3b8"),
        harm: "Bug 31 is lost, and hunted a second time.",
        commands: &[("get 0", 5)],
        why: "A block carries its slot number; this one says 1.".into(),
    };
    let returned = Night {
        name: "deleted",
        title: "The third night: a deleted block is back",
        store: rig.handed(3, 4, &rig.last_week, 4),
        told: "The carrier brings back slot 4, the list that was withdrawn.",
        asked: (WITHDRAWN, "e3b8"),
        harm: "The stale line matches; bug 31 is ignored.",
        commands: &[("get 4", 3), ("audit", 9)],
        why: "By the records slot 4 is free: nothing is read there, whatever lies in it.\n  \
              A free slot must hold zeros; the audit looks and finds the block."
            .into(),
    };
    [old, moved, returned]
}
