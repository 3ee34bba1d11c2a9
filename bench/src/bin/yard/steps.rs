//! What a recorder does to its file, step by step, as the bench's own program has it.

use crate::kept::{empty, stores, STORES};
use bench::own::ring::RING_BYTES;

/// One step.
#[derive(Clone, Copy, Debug, PartialEq, Eq)]
pub enum Step {
    /// So many bytes of an empty ring are written to a new file of another name.
    Fill(usize),
    /// That file gets the ring's name.
    Rename,
    /// A byte is written at a place of the ring.
    Write(usize, u8),
    /// The file is synced, under either name.
    Sync,
    /// The folder is synced.
    SyncFolder,
    /// Something that no recorder should do to the file.
    Other,
}

/// What a step is part of.
#[derive(Clone, Copy, Debug, PartialEq, Eq)]
pub enum Part {
    /// A missing ring is made.
    Making,
    /// What every start does before the first store.
    Start,
    /// The 754 bytes of a turn, and their sync.
    Bytes,
    /// A turn's head, and its sync.
    Head,
}

/// Steps in order, each with its part.
pub type Steps = Vec<(Part, Step)>;

/// The steps of a recorder that is given a scan and finds a ring, or none.
pub fn run(ring: Option<&[u8]>, scan: &[u8]) -> Steps {
    let mut steps = Vec::new();
    if ring.is_none() {
        let making = [Step::Fill(RING_BYTES), Step::Sync, Step::Rename, Step::SyncFolder];
        steps.extend(making.map(|step| (Part::Making, step)));
    }
    let image = ring.map_or_else(empty, <[u8]>::to_vec);
    let start = [Step::Write(0, image[0]), Step::Sync, Step::SyncFolder];
    steps.extend(start.map(|step| (Part::Start, step)));
    for turn in stores(&image, scan).chunks(STORES) {
        let (&(place, byte), bytes) = turn.split_last().expect("755 stores");
        steps.extend(bytes.iter().map(|&(place, byte)| (Part::Bytes, Step::Write(place, byte))));
        steps.push((Part::Bytes, Step::Sync));
        steps.extend([Step::Write(place, byte), Step::Sync].map(|step| (Part::Head, step)));
    }
    steps
}

/// The steps without those that are left out.
pub fn without(steps: &[(Part, Step)], left_out: impl Fn(Part, Step) -> bool) -> Steps {
    steps.iter().copied().filter(|&(part, step)| !left_out(part, step)).collect()
}
