//! Comparing the ring and its listing.

use super::shrink::Smaller;
use super::{compare, number, Compared, Pair, Plan, FILL};
use crate::own::recording::next_number;
use crate::own::ring::{self, RING_BYTES, SLOTS, SLOT_BYTES};
use crate::own::{listing, Refusal};
#[cfg(feature = "product")]
use crate::product;
use crate::{gen, smaller_case, smaller_fields};

/// A ring image in few words: one byte everywhere, a head, and bytes at the beginning of some slots.
#[derive(Clone, Debug, PartialEq)]
pub struct Image {
    /// How long it is.
    pub length: usize,
    /// The byte where nothing else is said.
    pub filler: u8,
    /// The head.
    pub head: u8,
    /// What stands at the beginning of slots, the later over the earlier.
    pub slots: Vec<(u8, Vec<u8>)>,
}

impl Image {
    /// The bytes.
    pub fn bytes(&self) -> Vec<u8> {
        let mut bytes = vec![self.filler; self.length.max(RING_BYTES)];
        bytes[0] = self.head;
        for (slot, content) in &self.slots {
            let place = 1 + SLOT_BYTES * (usize::from(*slot) % SLOTS);
            let content = &content[..content.len().min(SLOT_BYTES)];
            bytes[place..place + content.len()].copy_from_slice(content);
        }
        bytes.truncate(self.length);
        bytes
    }

    /// Which bytes are others now, and what they are.
    pub fn changes(&self, now: &[u8]) -> Vec<(usize, u8)> {
        let before = self.bytes();
        let blocks = before.chunks(64).zip(now.chunks(64)).enumerate();
        let changed = blocks.filter(|(_, (before, now))| before != now);
        changed
            .flat_map(|(block, (before, now))| {
                let pairs = before.iter().zip(now).enumerate();
                pairs
                    .filter(|(_, (before, now))| before != now)
                    .map(move |(place, (_, &now))| (64 * block + place, now))
            })
            .collect()
    }
}

/// One call.
#[derive(Clone, Debug, PartialEq)]
#[allow(missing_docs)]
pub enum Call {
    Held,
    Store { record: Vec<u8>, k: usize },
    Add { record: Vec<u8> },
    Turn { i: usize },
    AllRead,
    Erase,
    NextNumber,
    List { room: usize },
}

/// One call on one image.
#[derive(Clone, Debug, PartialEq)]
pub struct Case {
    /// The image.
    pub image: Image,
    /// The call.
    pub call: Call,
}

impl Smaller for Image {
    fn smaller(&self) -> Box<dyn Iterator<Item = Image> + '_> {
        smaller_fields!(self; slots, head, filler)
    }
}

impl Smaller for Call {
    fn smaller(&self) -> Box<dyn Iterator<Item = Call> + '_> {
        match self {
            Call::Store { record, k } => smaller_case!(Call::Store; k, record),
            Call::Add { record } => smaller_case!(Call::Add; record),
            Call::Turn { i } => smaller_case!(Call::Turn; i),
            Call::List { room } => smaller_case!(Call::List; room),
            Call::Held | Call::AllRead | Call::Erase | Call::NextNumber => {
                Box::new(std::iter::empty())
            }
        }
    }
}

impl Smaller for Case {
    fn smaller(&self) -> Box<dyn Iterator<Item = Case> + '_> {
        smaller_fields!(self; image, call)
    }
}

/// What a call gives.
#[derive(Clone, Debug, Default, PartialEq)]
pub struct Answer {
    /// The number of the refusal, 0 for none.
    pub refusal: u8,
    /// How many turns are held or the next number, where that was asked; of a listing, how many bytes it has.
    pub held: usize,
    /// Where the turn stands in the ring and how long it is; (0, 0) for the empty part.
    pub part: (usize, usize),
    /// Which bytes were changed, and what they are now.
    pub changes: Vec<(usize, u8)>,
    /// The output lent for a listing, whole, after the call.
    pub text: Vec<u8>,
}

/// The bench's own answer.
pub fn own(case: &Case) -> Answer {
    let mut bytes = case.image.bytes();
    let mut answer = Answer::default();
    let mut done: Result<(), Refusal> = Ok(());
    match &case.call {
        Call::Held => match ring::held(&bytes) {
            Ok(held) => answer.held = held,
            Err(refusal) => done = Err(refusal),
        },
        Call::Store { record, k } => done = ring::store(&mut bytes, record, *k),
        Call::Add { record } => done = ring::add(&mut bytes, record),
        Call::Turn { i } => {
            let part = ring::turn(&bytes, *i);
            if !part.is_empty() {
                let place = part.as_ptr().addr() - bytes.as_ptr().addr();
                answer.part = (place, part.len());
            }
            done = ring::turn_refusal(&bytes, *i).map_or(Ok(()), Err);
        }
        Call::AllRead => done = ring::all_read(&bytes),
        Call::Erase => done = ring::erase(&mut bytes),
        Call::NextNumber => match next_number(&bytes) {
            Ok(number) => answer.held = number as usize,
            Err(refusal) => done = Err(refusal),
        },
        Call::List { room } => {
            let text = listing(&bytes);
            let mut out = vec![FILL; *room];
            match out.get_mut(..text.len()) {
                Some(front) => {
                    front.copy_from_slice(&text);
                    answer.held = text.len();
                }
                None => done = Err(Refusal::OutputShort),
            }
            answer.text = out;
        }
    }
    answer.refusal = number(&done);
    answer.changes = case.image.changes(&bytes);
    answer
}

/// The product's answer.
#[cfg(feature = "product")]
pub fn product(case: &Case) -> Answer {
    let mut bytes = case.image.bytes();
    let mut answer = Answer::default();
    answer.refusal = match &case.call {
        Call::Held => {
            let held = product::ring_held(&bytes);
            answer.held = held.turns;
            held.refusal
        }
        Call::Store { record, k } => product::ring_store(&mut bytes, record, *k),
        Call::Add { record } => product::ring_add(&mut bytes, record),
        Call::Turn { i } => {
            let part = product::ring_turn(&bytes, *i);
            answer.part = (part.offset, part.length);
            part.refusal
        }
        Call::NextNumber => {
            let number = product::next_number(&bytes);
            answer.held = number.number as usize;
            number.refusal
        }
        Call::AllRead => product::ring_all_read(&bytes),
        Call::Erase => product::ring_erase(&mut bytes),
        Call::List { room } => {
            let mut out = vec![FILL; *room];
            let written = product::ring_list(&bytes, &mut out);
            answer.held = written.bytes;
            answer.text = out;
            written.refusal
        }
    };
    answer.changes = case.image.changes(&bytes);
    answer
}

/// Compares the other program with the bench's own.
pub fn against(plan: &Plan, other: &mut dyn FnMut(&Case) -> Answer) -> Compared<Case, Answer> {
    compare(plan, Pair { part: "ring", make: &gen::ring_case, own: &own, other })
}

#[cfg(test)]
mod tests {
    use super::*;

    #[test]
    fn the_same_program_agrees() {
        assert_eq!(against(&Plan { seed: 9, cases: 5_000 }, &mut own).unwrap(), 5_000);
    }

    #[test]
    fn changes_are_what_was_changed() {
        let image = Image { length: RING_BYTES, filler: 3, head: 5, slots: vec![(2, vec![9, 9])] };
        let mut bytes = image.bytes();
        assert_eq!(image.changes(&bytes), []);
        bytes[0] = 6;
        bytes[49_152] = 1;
        bytes[1 + 2 * 768 + 1] = 8;
        assert_eq!(image.changes(&bytes), [(0, 6), (1 + 2 * 768 + 1, 8), (49_152, 1)]);
    }

    #[test]
    fn counting_64_turns_is_found() {
        let mut wrong = |case: &Case| {
            let mut answer = own(case);
            if case.call == Call::Held && answer.held == 63 && case.image.head > 63 {
                answer.held = 64;
            }
            answer
        };
        let mismatch = against(&Plan { seed: 9, cases: 100_000 }, &mut wrong).unwrap_err();
        let image = Image { length: RING_BYTES, filler: 0, head: 64, slots: vec![] };
        assert_eq!(mismatch.case, Case { image, call: Call::Held });
    }

    #[test]
    fn reading_the_last_14_bytes_is_found() {
        let mut wrong = |case: &Case| {
            let mut answer = own(case);
            let bytes = case.image.bytes();
            if let (Call::Add { .. }, 0) = (&case.call, answer.refusal) {
                let place = 1 + SLOT_BYTES * (usize::from(case.image.head) % SLOTS) + 754;
                if bytes[place] != 0 {
                    answer.changes.insert(0, (place, 0));
                }
            }
            answer
        };
        let mismatch = against(&Plan { seed: 9, cases: 100_000 }, &mut wrong).unwrap_err();
        assert!(mismatch.case.image.filler == 1 || mismatch.case.image.slots.len() == 1);
    }
}
