//! A disk on paper: what programs see of the ring's file, and what a failing supply may leave of it.

use crate::kept::empty;
use crate::steps::Step;
use bench::gen::Rng;
use bench::own::ring::RING_BYTES;

/// The ring's file. A kill changes nothing here: what was written stays in the page cache.
#[derive(Clone)]
pub struct Disk {
    /// What programs see, where there is a file of the ring's name.
    cache: Option<Vec<u8>>,
    /// What was synced.
    synced: Vec<u8>,
    /// How many new turns the synced head has.
    kept: usize,
    /// The writes since the last sync, in order.
    pending: Vec<(usize, u8)>,
    /// Whether the ring's name is on the disk.
    is_named: bool,
}

impl Disk {
    /// A disk on which everything is synced.
    pub fn new(ring: Option<&[u8]>) -> Disk {
        let cache = ring.map(<[u8]>::to_vec);
        let synced = cache.clone().unwrap_or_default();
        Disk { is_named: cache.is_some(), cache, synced, kept: 0, pending: Vec::new() }
    }

    /// What programs see of the ring.
    pub fn cache(&self) -> Option<&[u8]> {
        self.cache.as_deref()
    }

    /// Takes a step.
    pub fn take(&mut self, step: Step) {
        match step {
            // under its other name the file matters to nobody: each run begins a new one, and syncs it before the rename
            Step::Fill(_) => self.synced = empty(),
            Step::Rename => self.cache = Some(empty()),
            Step::Write(place, byte) => {
                self.cache.as_mut().expect("a ring")[place] = byte;
                self.pending.push((place, byte));
            }
            Step::Sync => {
                let all = vec![true; self.pending.len()];
                self.kept = arrive(&mut self.synced, self.kept, &self.pending, &all);
                self.pending.clear();
            }
            Step::SyncFolder => self.is_named = self.cache.is_some(),
            Step::Other => {}
        }
    }

    /// What a failing supply leaves: the file, where there is one, and how many new turns were kept. Of the writes since the last sync any
    /// choice has arrived, in blocks of a size: each block is as it was after some of the writes to it, in their order.
    pub fn failed(&self, size: usize, rng: &mut Rng) -> (Option<Vec<u8>>, usize) {
        let was_renamed = self.cache.is_some() && rng.one_in(2);
        if !self.is_named && !was_renamed {
            return (None, self.kept);
        }
        let mut image = self.synced.clone();
        let arrived = arrivals(&self.pending, size, rng);
        let kept = arrive(&mut image, self.kept, &self.pending, &arrived);
        (Some(image), kept)
    }
}

/// Makes those writes that arrived, and answers how many new turns are kept then: up to the newest head that arrived.
fn arrive(image: &mut [u8], kept: usize, writes: &[(usize, u8)], arrived: &[bool]) -> usize {
    let (mut head, mut made, mut newest) = (image[0], kept, kept);
    for (&(place, byte), &arrived) in writes.iter().zip(arrived) {
        // a head that was there already, as a start writes it, keeps no turn
        if place == 0 && byte != head {
            head = byte;
            made += 1;
        }
        if arrived {
            image[place] = byte;
            newest = if place == 0 { made } else { newest };
        }
    }
    newest
}

/// Which of some writes arrive, in blocks of a size: of those to a block the first ones. Half of the choices are about the head's block.
fn arrivals(writes: &[(usize, u8)], size: usize, rng: &mut Rng) -> Vec<bool> {
    let mut many = vec![0u32; RING_BYTES / size + 1];
    writes.iter().for_each(|&(place, _)| many[place / size] += 1);
    let any = if writes.is_empty() { 0 } else { rng.pick(writes).0 / size };
    let one = rng.pick(&[0, any]);
    let kind = rng.below(5);
    let mut left = vec![None; many.len()];
    let arrives = |&(place, _): &(usize, u8)| {
        let block = place / size;
        let many = many[block];
        let left = left[block].get_or_insert_with(|| match kind {
            0 => 0,
            1 => many,
            2 if block != one => 0,
            3 if block != one => many,
            _ => rng.below(many as usize + 1) as u32,
        });
        let arrives = *left > 0;
        *left -= u32::from(arrives);
        arrives
    };
    writes.iter().map(arrives).collect()
}

#[cfg(test)]
mod tests {
    use super::*;
    use crate::kept::{recorded, Kept, STORES};
    use crate::steps::{run, without, Part, Steps};
    use bench::gen::scan;

    /// A ring that has gone round, a run that is killed behind its first head, and the first half of a second run.
    fn killed_behind_the_head(rng: &mut Rng) -> (Vec<u8>, Kept, Steps) {
        let ring = recorded(&empty(), &scan(rng, 70));
        let first = &run(Some(&ring), &scan(rng, 1))[..3 + STORES + 1];
        let mut disk = Disk::new(Some(&ring));
        first.iter().for_each(|&(_, step)| disk.take(step));
        let mut kept = Kept::of(&ring);
        kept.add_newest(disk.cache().unwrap());
        let second = run(disk.cache(), &scan(rng, 1));
        (ring, kept, [first, &second[..400]].concat())
    }

    /// How many of so many disks are wrong where the supply fails behind these steps.
    fn wrong(ring: &[u8], kept: &Kept, steps: &Steps, size: usize, rng: &mut Rng) -> usize {
        let mut disk = Disk::new(Some(ring));
        steps.iter().for_each(|&(_, step)| disk.take(step));
        let is_wrong = |_: &usize| {
            let (file, new) = disk.failed(size, rng);
            !kept.is_held(&file.unwrap(), new)
        };
        (0..300).filter(is_wrong).count()
    }

    #[test]
    fn a_head_lost_under_a_later_turn_gives_a_mixture() {
        let mut rng = Rng::new(1);
        let (ring, kept, steps) = killed_behind_the_head(&mut rng);
        let trusting = without(&steps, |part, _| part == Part::Start);
        for size in [1, 512, 4_096] {
            assert_eq!(wrong(&ring, &kept, &steps, size, &mut rng), 0);
            assert!(wrong(&ring, &kept, &trusting, size, &mut rng) > 30);
        }
        let mut disk = Disk::new(Some(&ring));
        trusting.iter().for_each(|&(_, step)| disk.take(step));
        let all_but_the_head: Vec<bool> = disk.pending.iter().map(|write| write.0 != 0).collect();
        let mut mixture = disk.synced.clone();
        let new = arrive(&mut mixture, 0, &disk.pending, &all_but_the_head);
        assert_eq!((mixture[0], new), (ring[0], 0));
        assert_eq!(bench::own::ring::all_read(&mixture), Ok(()));
        assert!(!kept.is_held(&mixture, 0));
        assert!(kept.is_held(disk.cache().unwrap(), 1));
    }

    #[test]
    fn a_name_is_lost_until_the_folder_is_synced() {
        let mut rng = Rng::new(1);
        let steps = run(None, &scan(&mut rng, 2));
        let missing = |steps: &Steps, rng: &mut Rng| {
            let mut disk = Disk::new(None);
            steps.iter().for_each(|&(_, step)| disk.take(step));
            (0..100).filter(|_| disk.failed(1, rng).0.is_none()).count()
        };
        assert_eq!(missing(&steps[..2].to_vec(), &mut rng), 100);
        assert!((20..80).contains(&missing(&steps[..3].to_vec(), &mut rng)));
        assert_eq!(missing(&steps[..4].to_vec(), &mut rng), 0);
        assert_eq!(missing(&steps, &mut rng), 0);
        let unsynced = without(&steps, |_, step| step == Step::SyncFolder);
        assert!((20..80).contains(&missing(&unsynced, &mut rng)));
    }

    #[test]
    fn blocks_arrive_by_their_first_writes() {
        let mut rng = Rng::new(1);
        let writes: Vec<(usize, u8)> = (0..40).map(|n| (600 * (n % 3), n as u8)).collect();
        for _ in 0..200 {
            let arrived = arrivals(&writes, 512, &mut rng);
            for block in 0..3 {
                let of_block = writes.iter().zip(&arrived).filter(|(w, _)| w.0 / 512 == block);
                assert!(of_block.map(|(_, &arrived)| !arrived).is_sorted());
            }
        }
        assert_eq!(arrivals(&[], 1, &mut rng), []);
    }
}
