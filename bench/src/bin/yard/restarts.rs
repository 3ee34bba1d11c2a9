//! Kills, restarts and then a failing supply, on paper: what one run left in the page cache alone is there for the next, and may be lost.

use crate::disk::Disk;
use crate::kept::{empty, recorded, Kept};
use crate::steps::{run, Part, Step, Steps};
use bench::gen::{scan, Rng};

/// The bytes that reach a disk together.
const SIZES: [usize; 3] = [1, 512, 4_096];

/// What a recorder may leave out: nothing, its start's steps, the folder's sync among these, and with it that of a making.
const LEFT_OUT: [fn(Part, Step) -> bool; 4] = [
    |_, _| false,
    |part, _| part == Part::Start,
    |part, step| (part, step) == (Part::Start, Step::SyncFolder),
    |_, step| step == Step::SyncFolder,
];

/// One to four runs that are killed and a last one whose supply fails, by all their steps in order.
struct Round {
    ring: Option<Vec<u8>>,
    steps: Steps,
    kept: Kept,
}

impl Round {
    /// A round on one of some rings, or now and then on a missing one.
    fn new(rings: &[Vec<u8>], rng: &mut Rng) -> Round {
        let ring = (!rng.one_in(3)).then(|| rings[rng.below(rings.len())].clone());
        let mut kept = Kept::of(ring.as_ref().unwrap_or(&empty()));
        let mut disk = Disk::new(ring.as_deref());
        let mut all = Vec::new();
        let kills = 1 + rng.below(4);
        for n in 0..=kills {
            let turns = 1 + rng.below(3);
            let mut steps = run(disk.cache(), &scan(rng, turns));
            steps.truncate(if n < kills { kill(&steps, rng) } else { fail(&steps, rng) });
            for &(part, step) in &steps {
                disk.take(step);
                if let (Part::Head, Step::Write(..)) = (part, step) {
                    kept.add_newest(disk.cache().expect("a ring"));
                }
            }
            all.extend(steps);
        }
        Round { ring, steps: all, kept }
    }

    /// For each size whether the disk is right, where the recorder leaves out some of the steps.
    fn are_right(&self, left_out: fn(Part, Step) -> bool, rng: &mut Rng) -> [bool; SIZES.len()] {
        let mut disk = Disk::new(self.ring.as_deref());
        for &(part, step) in &self.steps {
            if !left_out(part, step) {
                disk.take(step);
            }
        }
        SIZES.map(|size| match disk.failed(size, rng) {
            (Some(image), new) => self.kept.is_held(&image, new),
            (None, synced) => synced == 0,
        })
    }
}

/// After how many of its steps a run is killed: half of the kills are right behind a rename or a head's write, before its sync.
fn kill(steps: &[(Part, Step)], rng: &mut Rng) -> usize {
    let behind = |is_aim: fn(Step) -> bool| -> Vec<usize> {
        (1..=steps.len()).filter(|n| is_aim(steps[n - 1].1)).collect()
    };
    let renames = behind(|step| step == Step::Rename);
    let heads = behind(|step| matches!(step, Step::Write(0, _)));
    match rng.below(4) {
        0 if !renames.is_empty() => rng.pick(&renames),
        0 | 1 => rng.pick(&heads),
        _ => rng.below(steps.len() + 1),
    }
}

/// After how many of its steps the supply of a run fails: half of the times while its first turn is written.
fn fail(steps: &[(Part, Step)], rng: &mut Rng) -> usize {
    let first = steps.iter().position(|&step| step == (Part::Bytes, Step::Sync));
    let most = if rng.one_in(2) { first.unwrap_or(0) } else { steps.len() };
    rng.below(most + 1)
}

/// Plays rounds with all steps, and the same ones with some left out.
pub fn restarts(rounds: usize, rng: &mut Rng) -> bool {
    let rings: Vec<Vec<u8>> =
        (64..128).map(|turns| recorded(&empty(), &scan(rng, turns))).collect();
    let mut wrong = [[0; SIZES.len()]; LEFT_OUT.len()];
    for _ in 0..rounds {
        let round = Round::new(&rings, rng);
        for (wrong, left_out) in wrong.iter_mut().zip(LEFT_OUT) {
            for (wrong, is_right) in wrong.iter_mut().zip(round.are_right(left_out, rng)) {
                *wrong += usize::from(!is_right);
            }
        }
    }
    let [with_all, no_start, no_start_folder, no_folder] = wrong;
    for (n, size) in SIZES.into_iter().enumerate() {
        println!(
            "restarts, blocks of {size}: {rounds} rounds, {} wrong; the start's steps left out {}, its folder's sync {}, every folder's sync {}",
            with_all[n], no_start[n], no_start_folder[n], no_folder[n]
        );
    }
    with_all == [0; SIZES.len()] && wrong[1..].iter().flatten().all(|&wrong| wrong > 0)
}

#[cfg(test)]
mod tests {
    use super::*;

    #[test]
    fn rounds_are_right_and_each_step_left_out_is_seen() {
        assert!(restarts(1_000, &mut Rng::new(3)));
    }
}
