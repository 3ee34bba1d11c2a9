//! The ring of turn records in the caller's memory.

use super::record::{check, RECORD_BYTES};
use super::Refusal;
use std::sync::atomic::{compiler_fence, Ordering};

/// How many slots there are; one of them is always free.
pub const SLOTS: usize = 64;
/// How many bytes a slot has, the last 14 of which are neither read nor written.
pub const SLOT_BYTES: usize = 768;
/// How many bytes the ring has: the head and the slots.
pub const RING_BYTES: usize = 1 + SLOTS * SLOT_BYTES;
/// The most turns held.
pub const LARGEST_HELD: usize = SLOTS - 1;
/// The largest head there is.
pub const LARGEST_HEAD: u8 = 127;
/// The store that sets the head: the last one of adding.
pub const HEAD_STORE: usize = RECORD_BYTES;

/// Ring memory of the right length.
type Memory = [u8; RING_BYTES];

/// A head that is one.
#[derive(Clone, Copy)]
struct Head(u8);

impl Head {
    fn of(memory: &Memory) -> Result<Head, Refusal> {
        match memory[0] {
            head @ 0..=LARGEST_HEAD => Ok(Head(head)),
            _ => Err(Refusal::BadHead),
        }
    }

    /// How many turns are held.
    fn held(self) -> usize {
        usize::from(self.0).min(LARGEST_HELD)
    }

    /// The slot of turn `i`, where there is such a turn; 0 is the oldest.
    fn slot(self, i: usize) -> Result<usize, Refusal> {
        if i >= self.held() {
            return Err(Refusal::NoSuch);
        }
        let oldest = usize::from(self.0).saturating_sub(LARGEST_HELD);
        Ok((oldest + i) % SLOTS)
    }

    /// The slot that the next turn is added to.
    fn free(self) -> usize {
        usize::from(self.0) % SLOTS
    }

    /// The head once the next turn is added.
    fn next(self) -> u8 {
        if self.0 == LARGEST_HEAD {
            SLOTS as u8
        } else {
            self.0 + 1
        }
    }
}

fn memory(ring: &[u8]) -> Result<&Memory, Refusal> {
    ring.try_into().map_err(|_| Refusal::NotRing)
}

fn memory_mut(ring: &mut [u8]) -> Result<&mut Memory, Refusal> {
    ring.try_into().map_err(|_| Refusal::NotRing)
}

/// The place of the first byte of a slot.
const fn place(slot: usize) -> usize {
    1 + SLOT_BYTES * slot
}

/// How many turns are held. Refused: 10, 11.
pub fn held(ring: &[u8]) -> Result<usize, Refusal> {
    Ok(Head::of(memory(ring)?)?.held())
}

/// Makes store `k` of adding a record: one byte of the free slot, or last of all the head.
///
/// Refused, in this order: 10, 11, 9 where the record does not read, 12 from store 755 on.
pub fn store(ring: &mut [u8], record: &[u8], k: usize) -> Result<(), Refusal> {
    let memory = memory_mut(ring)?;
    let head = Head::of(memory)?;
    let record = check(record)?;
    match k {
        0..HEAD_STORE => slot_mut(memory, head)[k] = record[k],
        HEAD_STORE => memory[0] = head.next(),
        _ => return Err(Refusal::NoSuch),
    }
    Ok(())
}

/// The place in the ring of the byte that store `k` of adding touches. Refused: 10, 11, 12.
pub fn store_place(ring: &[u8], k: usize) -> Result<usize, Refusal> {
    let head = Head::of(memory(ring)?)?;
    match k {
        0..HEAD_STORE => Ok(place(head.free()) + k),
        HEAD_STORE => Ok(0),
        _ => Err(Refusal::NoSuch),
    }
}

/// Adds a record: stores 0 to 754 in order. Refused: 10, 11, 9.
pub fn add(ring: &mut [u8], record: &[u8]) -> Result<(), Refusal> {
    let memory = memory_mut(ring)?;
    let head = Head::of(memory)?;
    let record = check(record)?;
    slot_mut(memory, head).copy_from_slice(record);
    memory[0] = head.next();
    Ok(())
}

/// Adds a record as the paper's order has it: each byte a store of its own, the head last. Refused: 10, 11, 9.
pub fn add_in_order(ring: &mut [u8], record: &[u8]) -> Result<(), Refusal> {
    let memory = memory_mut(ring)?;
    let head = Head::of(memory)?;
    let record = check(record)?;
    for (byte, &value) in slot_mut(memory, head).iter_mut().zip(record) {
        *byte = value;
        // Keeps the compiler from making one copy of all stores.
        compiler_fence(Ordering::SeqCst);
    }
    memory[0] = head.next();
    Ok(())
}

/// The part of the ring that the next record is written to.
fn slot_mut(memory: &mut Memory, head: Head) -> &mut [u8] {
    let first = place(head.free());
    &mut memory[first..first + RECORD_BYTES]
}

/// Turn `i` as a part of the ring, oldest first; empty where it is refused.
pub fn turn(ring: &[u8], i: usize) -> &[u8] {
    find(ring, i).unwrap_or(&[])
}

/// Why turn `i` is refused, where it is: 10, 11, 12, 9 in this order.
pub fn turn_refusal(ring: &[u8], i: usize) -> Option<Refusal> {
    find(ring, i).err()
}

fn find(ring: &[u8], i: usize) -> Result<&[u8], Refusal> {
    let memory = memory(ring)?;
    let first = place(Head::of(memory)?.slot(i)?);
    check(&memory[first..first + RECORD_BYTES]).map(|record| record.as_slice())
}

/// Whether every turn held reads. Refused: 10, 11, 9.
pub fn all_read(ring: &[u8]) -> Result<(), Refusal> {
    (0..held(ring)?).try_for_each(|i| find(ring, i).map(|_| ()))
}

/// Erases the ring: stores 0 at the head. Refused: 10 alone.
pub fn erase(ring: &mut [u8]) -> Result<(), Refusal> {
    memory_mut(ring)?[0] = 0;
    Ok(())
}

#[cfg(test)]
mod tests {
    use super::*;
    use crate::own::{Distance, Record};

    fn record(number: u32) -> [u8; RECORD_BYTES] {
        let cells = std::array::from_fn(|n| Distance::from_q2(number as u16 ^ n as u16));
        let mut out = [0; RECORD_BYTES];
        Record { number, samples: 1 + number as u16 % 8_192, serial: [number as u8; 16], cells }
            .write(&mut out)
            .unwrap();
        out
    }

    fn number(bytes: &[u8]) -> u32 {
        Record::read(bytes).unwrap().number
    }

    /// A ring with a head and the number of its slot in every slot, and garbage behind each.
    fn filled(head: u8) -> Vec<u8> {
        let mut ring = vec![0xEE; RING_BYTES];
        ring[0] = head;
        for slot in 0..SLOTS {
            ring[place(slot)..place(slot) + RECORD_BYTES].copy_from_slice(&record(slot as u32));
        }
        ring
    }

    #[test]
    fn the_turns_of_every_head() {
        for head in 0..=255 {
            let ring = filled(head);
            let numbers: Vec<u32> = match head {
                0..=63 => (0..u32::from(head)).collect(),
                64..=127 => (0..63).map(|i| (u32::from(head) - 63 + i) % 64).collect(),
                _ => {
                    assert_eq!(held(&ring), Err(Refusal::BadHead));
                    assert_eq!(turn(&ring, 0), []);
                    assert_eq!(turn_refusal(&ring, 0), Some(Refusal::BadHead));
                    assert_eq!(all_read(&ring), Err(Refusal::BadHead));
                    continue;
                }
            };
            assert_eq!(held(&ring), Ok(numbers.len()));
            assert!(numbers.len() <= 63);
            let read: Vec<u32> = (0..numbers.len()).map(|i| number(turn(&ring, i))).collect();
            assert_eq!(read, numbers);
            assert_eq!(all_read(&ring), Ok(()));
            if head >= 64 {
                assert!(!numbers.contains(&(u32::from(head) - 64)), "the free slot is no turn");
            }
            for i in [numbers.len(), 63, 64, usize::MAX] {
                assert_eq!(turn(&ring, i), []);
                assert_eq!(turn_refusal(&ring, i), Some(Refusal::NoSuch));
            }
        }
    }

    #[test]
    fn a_turn_is_a_part_of_the_ring() {
        let ring = filled(127);
        let part = turn(&ring, 0);
        assert!(std::ptr::eq(part, &ring[1..1 + RECORD_BYTES]));
        assert_eq!(turn_refusal(&ring, 0), None);
    }

    #[test]
    fn adding_at_every_head() {
        for head in 0..=127 {
            let mut ring = filled(head);
            let before = ring.clone();
            let added = record(1_000);
            assert_eq!(add(&mut ring, &added), Ok(()));
            let slot = usize::from(head) % 64;
            let mut expected = before.clone();
            expected[place(slot)..place(slot) + RECORD_BYTES].copy_from_slice(&added);
            expected[0] = if head == 127 { 64 } else { head + 1 };
            assert!(ring == expected);
            let count = held(&ring).unwrap();
            assert_eq!(number(turn(&ring, count - 1)), 1_000);
            // What was held before is still held, without the oldest where the ring was full.
            let old = held(&before).unwrap();
            let kept = old.min(62);
            for i in 0..kept {
                assert_eq!(turn(&ring, i), turn(&before, old - kept + i));
            }
        }
    }

    #[test]
    fn the_heads_of_the_paper() {
        let mut ring = filled(63);
        assert_eq!(add(&mut ring, &record(9)), Ok(()));
        assert_eq!(ring[0], 64);
        assert!(std::ptr::eq(turn(&ring, 0), &ring[1 + 768..1 + 768 + 754]));
        let mut ring = filled(127);
        assert_eq!(add(&mut ring, &record(9)), Ok(()));
        assert_eq!(ring[0], 64);
        let mut ring = filled(128);
        assert_eq!(add(&mut ring, &record(9)), Err(Refusal::BadHead));
        assert!(ring == filled(128));
    }

    #[test]
    fn adding_is_the_755_stores_in_order() {
        for head in [0, 1, 62, 63, 64, 65, 126, 127] {
            let mut whole = filled(head);
            let mut stores = whole.clone();
            let added = record(2_000);
            add(&mut whole, &added).unwrap();
            for k in 0..=754 {
                let before = stores.clone();
                assert_eq!(store(&mut stores, &added, k), Ok(()));
                // Each store touches one byte, and until the last one no turn is another.
                let touched = if k < 754 { place(usize::from(head) % 64) + k } else { 0 };
                assert_eq!(store_place(&before, k), Ok(touched));
                assert!(stores[..touched] == before[..touched]);
                assert!(stores[touched + 1..] == before[touched + 1..]);
                if k < 754 {
                    assert_eq!(stores[touched], added[k]);
                    assert_eq!(all_read(&stores), Ok(()));
                    assert_eq!(held(&stores), held(&before));
                }
            }
            assert!(stores == whole);
            let mut in_order = filled(head);
            add_in_order(&mut in_order, &added).unwrap();
            assert!(in_order == whole);
        }
    }

    #[test]
    fn the_order_of_refusals_in_adding() {
        let good = record(1);
        let mut bad = good;
        bad[0] = 2;
        let mut short = vec![200; RING_BYTES - 1];
        assert_eq!(store(&mut short, &bad, 755), Err(Refusal::NotRing));
        assert_eq!(add(&mut short, &bad), Err(Refusal::NotRing));
        let mut head = vec![200; RING_BYTES];
        assert_eq!(store(&mut head, &bad, 755), Err(Refusal::BadHead));
        assert_eq!(add(&mut head, &bad), Err(Refusal::BadHead));
        let mut ring = filled(5);
        for k in [0, 754, 755, usize::MAX] {
            assert_eq!(store(&mut ring, &bad, k), Err(Refusal::NotRecord));
        }
        assert_eq!(add(&mut ring, &bad), Err(Refusal::NotRecord));
        assert_eq!(add(&mut ring, &good[..753]), Err(Refusal::NotRecord));
        for k in [755, 756, usize::MAX] {
            assert_eq!(store(&mut ring, &good, k), Err(Refusal::NoSuch));
            assert_eq!(store_place(&ring, k), Err(Refusal::NoSuch));
        }
        assert!(ring == filled(5));
    }

    #[test]
    fn the_order_of_refusals_in_reading() {
        let mut ring = filled(3);
        ring[place(1)] = 9;
        assert_eq!(turn_refusal(&ring, 0), None);
        assert_eq!(turn_refusal(&ring, 1), Some(Refusal::NotRecord));
        assert_eq!(turn(&ring, 1), []);
        assert_eq!(turn_refusal(&ring, 3), Some(Refusal::NoSuch));
        assert_eq!(all_read(&ring), Err(Refusal::NotRecord));
        ring[0] = 1;
        assert_eq!(turn_refusal(&ring, 1), Some(Refusal::NoSuch));
        assert_eq!(all_read(&ring), Ok(()));
        ring[0] = 128;
        assert_eq!(turn_refusal(&ring, 99), Some(Refusal::BadHead));
        ring.push(0);
        assert_eq!(turn_refusal(&ring, 99), Some(Refusal::NotRing));
    }

    #[test]
    fn adding_asks_nothing_of_the_turns_held() {
        let mut ring = vec![0xEE; RING_BYTES];
        ring[0] = 70;
        assert_eq!(add(&mut ring, &record(4)), Ok(()));
        assert_eq!(number(turn(&ring, 62)), 4);
        assert_eq!(turn_refusal(&ring, 61), Some(Refusal::NotRecord));
    }

    #[test]
    fn erasing_checks_the_length_alone() {
        for head in 0..=255 {
            let mut ring = filled(head);
            assert_eq!(erase(&mut ring), Ok(()));
            assert!(ring == filled(0));
        }
        for length in [0, 1, RING_BYTES - 1, RING_BYTES + 1] {
            let mut ring = vec![7; length];
            assert_eq!(erase(&mut ring), Err(Refusal::NotRing));
            assert_eq!(ring, vec![7; length]);
            assert_eq!(held(&ring), Err(Refusal::NotRing));
            assert_eq!(all_read(&ring), Err(Refusal::NotRing));
        }
    }

    #[test]
    fn it_has_49153_bytes() {
        assert_eq!(RING_BYTES, 49_153);
        assert_eq!(held(&vec![0; 49_153]), Ok(0));
    }
}
