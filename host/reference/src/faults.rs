//! Bugs that can be planted, to see that a comparison with this store finds
//! them. None is planted unless somebody asks for it, and without the feature
//! `faults` none can be.

/// A bug to plant. Most are the paper's "Easy slips on this bench".
#[derive(Clone, Copy, Debug, PartialEq, Eq)]
pub enum Fault {
    /// A slot that is used again starts at version 1.
    ReusedSlotAtVersionOne,
    /// A changed block keeps its version.
    VersionNotRaised,
    /// The record's version rises, the block's does not.
    RecordRaisedAlone,
    /// The version rule does not look at the height.
    HeightNotCompared,
    /// A blob that gets taller has its root in a new slot.
    RootMovesWhenTaller,
    /// An inner root may be left with one child.
    InnerRootWithOneChild,
    /// A cut leaf keeps its bytes after the count.
    StaleBytesAfterCut,
    /// The range is checked before the blob.
    RangeBeforeBlob,
    /// A range of no bytes passes at any offset.
    NoBytesAnywhere,
    /// The pool check ends with the last root.
    NoClosingPass,
    /// The pool check has a visited set for each root.
    VisitedNotShared,
    /// The links of a row are checked before its first child is visited.
    RowCheckedFirst,
    /// A free slot at version 2^64 - 1 is usable.
    WornSlotUsable,
    /// A blob with a worn block may be changed.
    WornBlobChanged,
    /// A head's place stays where it is.
    HeadStartsOver,
    /// A head hands out one byte past the end.
    HeadPastTheEnd,
    /// A head skips a byte after each piece.
    HeadSkipsAByte,
    /// A pool has at most 65,535 slots.
    OneSlotLess,
    /// A pool may have 65,537 slots.
    OneSlotMore,
    /// A root has at most height 4.
    OneHeightLess,
    /// A root may have height 6.
    OneHeightMore,
    /// A child slot may be N, as if there were one more free slot.
    ChildAtN,
    /// Only the lower two bytes of a child slot count.
    ShortSlotNumbers,
    /// A head goes at most 3 heights down.
    HeadOfHeight3,
}

/// The bugs that only large pools show.
pub const OF_LARGE_POOLS: [Fault; 7] = [
    Fault::OneSlotLess,
    Fault::OneSlotMore,
    Fault::OneHeightLess,
    Fault::OneHeightMore,
    Fault::ChildAtN,
    Fault::ShortSlotNumbers,
    Fault::HeadOfHeight3,
];

/// Every other bug that can be planted.
pub const ALL: [Fault; 17] = [
    Fault::ReusedSlotAtVersionOne,
    Fault::VersionNotRaised,
    Fault::RecordRaisedAlone,
    Fault::HeightNotCompared,
    Fault::RootMovesWhenTaller,
    Fault::InnerRootWithOneChild,
    Fault::StaleBytesAfterCut,
    Fault::RangeBeforeBlob,
    Fault::NoBytesAnywhere,
    Fault::NoClosingPass,
    Fault::VisitedNotShared,
    Fault::RowCheckedFirst,
    Fault::WornSlotUsable,
    Fault::WornBlobChanged,
    Fault::HeadStartsOver,
    Fault::HeadPastTheEnd,
    Fault::HeadSkipsAByte,
];

#[cfg(feature = "faults")]
mod switch {
    use super::Fault;
    use std::cell::Cell;

    thread_local! {
        static PLANTED: Cell<Option<Fault>> = const { Cell::new(None) };
    }

    /// Plants this bug in the calling thread's store, or takes it out.
    pub fn plant(fault: Option<Fault>) {
        PLANTED.with(|planted| planted.set(fault));
    }

    pub(crate) fn planted(fault: Fault) -> bool {
        PLANTED.with(|planted| planted.get() == Some(fault))
    }
}

#[cfg(feature = "faults")]
pub use switch::plant;
#[cfg(feature = "faults")]
pub(crate) use switch::planted;

#[cfg(not(feature = "faults"))]
pub(crate) fn planted(_: Fault) -> bool {
    false
}
