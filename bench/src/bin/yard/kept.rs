//! The turns that a ring has to hold after stores of a scan, and the stores themselves.

use bench::own::recording::record;
use bench::own::ring;

/// The serial of a recorder that is told none.
const SERIAL: [u8; 16] = [0; 16];
/// The stores of a turn: 754 bytes and the head.
pub const STORES: usize = 755;

/// The ring that a missing file is taken for.
pub fn empty() -> Vec<u8> {
    vec![0; ring::RING_BYTES]
}

/// A ring after a scan.
pub fn recorded(image: &[u8], scan: &[u8]) -> Vec<u8> {
    let mut after = image.to_vec();
    record(&mut after, scan, SERIAL, |_, _| {}).expect("a ring");
    after
}

/// The stores by which a scan is added to an image, in order.
pub fn stores(image: &[u8], scan: &[u8]) -> Vec<(usize, u8)> {
    let mut stores = Vec::new();
    let each = |place, byte| stores.push((place, byte));
    record(&mut image.to_vec(), scan, SERIAL, each).expect("a ring");
    stores
}

/// The turns that a ring held at the start, followed by those kept since.
pub struct Kept {
    turns: Vec<Vec<u8>>,
    before: usize,
}

impl Kept {
    /// Those of a ring to which nothing was added yet.
    pub fn of(image: &[u8]) -> Kept {
        let before = ring::held(image).expect("a ring");
        Kept { turns: (0..before).map(|i| ring::turn(image, i).to_vec()).collect(), before }
    }

    /// Those of a ring to which stores are made.
    pub fn by(image: &[u8], stores: &[(usize, u8)]) -> Kept {
        let mut kept = Kept::of(image);
        let mut rows = image.to_vec();
        for turn in stores.chunks(STORES) {
            for &(place, byte) in turn {
                rows[place] = byte;
            }
            kept.add_newest(&rows);
        }
        kept
    }

    /// The newest turn of an image was kept.
    pub fn add_newest(&mut self, image: &[u8]) {
        let held = ring::held(image).expect("a ring");
        self.turns.push(ring::turn(image, held - 1).to_vec());
    }

    /// Whether an image holds exactly the last of the turns held at the start and so many of the new ones.
    pub fn is_held(&self, image: &[u8], new: usize) -> bool {
        let all = &self.turns[..self.before + new];
        let last = &all[all.len().saturating_sub(ring::LARGEST_HELD)..];
        let is_turn = |(i, turn): (usize, &Vec<u8>)| ring::turn(image, i) == turn;
        ring::held(image) == Ok(last.len()) && last.iter().enumerate().all(is_turn)
    }
}

/// How many of the stores make an image of another, where so many do.
pub fn made(stores: &[(usize, u8)], before: &[u8], after: &[u8]) -> Option<usize> {
    if after.len() != before.len() {
        return None;
    }
    let mut image = before.to_vec();
    let mut differ = image.iter().zip(after).filter(|(a, b)| a != b).count();
    let mut last = (differ == 0).then_some(0);
    for (n, &(place, byte)) in (1..).zip(stores) {
        differ -= usize::from(image[place] != after[place]);
        image[place] = byte;
        differ += usize::from(image[place] != after[place]);
        // a store that changes nothing is taken as made
        if differ == 0 {
            last = Some(n);
        } else if last.is_some() {
            break;
        }
    }
    last
}

#[cfg(test)]
mod tests {
    use super::*;
    use bench::gen::{scan, Rng};

    #[test]
    fn every_number_of_stores_keeps_the_turns_whose_head_was_stored() {
        let before = empty();
        let stores = stores(&before, &scan(&mut Rng::new(1), 3));
        let kept = Kept::by(&before, &stores);
        let mut image = before.clone();
        for (n, &(place, byte)) in (1..).zip(&stores) {
            image[place] = byte;
            assert!(kept.is_held(&image, n / STORES));
        }
        assert_eq!(made(&stores, &before, &image), Some(3 * STORES));
        image[5] ^= 1;
        assert!(!kept.is_held(&image, 3));
        assert_eq!(made(&stores, &before, &image), None);
        assert_eq!(made(&stores, &before, &image[1..]), None);
    }
}
