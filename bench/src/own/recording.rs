//! What `recorder` keeps of a scan: every closed turn as a record, store by store into the ring.

use super::info::SERIAL_BYTES;
use super::listing::push_refusal;
use super::record::RECORD_BYTES;
use super::ring::{self, HEAD_STORE};
use super::text::push_numbers;
use super::{Gatherer, Reader, Record, Refusal, Request, Turn};

/// The number of the first turn in an empty ring.
const FIRST_NUMBER: u32 = 1;
/// Words lent to the reader for a call.
const ROOM: usize = 3_072;

/// The number that the next turn is given: one more than the newest held, 0 after the largest.
///
/// Refused: 10, 11, and 9 where the newest turn does not read.
pub fn next_number(image: &[u8]) -> Result<u32, Refusal> {
    match ring::held(image)?.checked_sub(1) {
        Some(newest) => Ok(Record::read(ring::turn(image, newest))?.number.wrapping_add(1)),
        None => Ok(FIRST_NUMBER),
    }
}

/// All closed turns of a scan's response bytes, in order.
pub fn turns(input: &[u8]) -> Vec<Turn> {
    let mut reader = Reader::new();
    reader.tell(Request::Scan.code()).expect("one of the six");
    let mut gatherer = Gatherer::new();
    let mut turns = Vec::new();
    let mut row = [0; ROOM];
    let mut rest = input;
    while !rest.is_empty() {
        let outcome = reader.read(rest, &mut row);
        rest = &rest[outcome.taken..];
        let mut words = &row[..outcome.words];
        while !words.is_empty() {
            let mut turn = Turn::EMPTY;
            let gathered = gatherer.row(words, &mut turn).expect("samples that were read");
            words = &words[gathered.words..];
            if gathered.closed {
                turns.push(turn);
            }
        }
    }
    turns
}

/// Adds every closed turn of a scan to a ring, and answers how many; `each` is told the place and
/// the byte of every store, in order.
///
/// Refused, with nothing changed: 10, 11, and 9 where not all turns held read.
pub fn record(
    image: &mut [u8],
    input: &[u8],
    serial: [u8; SERIAL_BYTES],
    mut each: impl FnMut(usize, u8),
) -> Result<usize, Refusal> {
    ring::all_read(image)?;
    let turns = turns(input);
    for turn in &turns {
        let number = next_number(image)?;
        let mut bytes = [0; RECORD_BYTES];
        Record::new(number, serial, turn).write(&mut bytes)?;
        for k in 0..=HEAD_STORE {
            let place = ring::store_place(image, k)?;
            ring::store(image, &bytes, k)?;
            each(place, image[place]);
        }
    }
    Ok(turns.len())
}

/// The text that `recorder` prints: `kept` and how many turns, or the refusal alone.
pub fn text(recorded: Result<usize, Refusal>) -> Vec<u8> {
    let mut text = Vec::new();
    match recorded {
        Ok(kept) => {
            text.extend_from_slice(b"kept");
            push_numbers(&mut text, &[kept as u64]);
            text.push(b'\n');
        }
        Err(refusal) => push_refusal(&mut text, refusal),
    }
    text
}

#[cfg(test)]
mod tests {
    use super::*;
    use crate::own::{listing, Angle, Distance, Info, Model, Sample};

    /// A scan of so many closed turns of two samples each.
    fn scan(turns: u16) -> Vec<u8> {
        let mut model = Model::new(Info::default());
        let mut bytes = vec![0; 7];
        model.request(Request::ForceScan.code(), &mut bytes).unwrap();
        for n in 0..2 * turns + 1 {
            let sample = Sample {
                start: n % 2 == 0,
                quality: 9,
                angle: Angle::from_q6(64 * (n % 2)),
                distance: Distance::from_q2(n),
            };
            let mut out = [0; 5];
            model.sample(&sample, &mut out).unwrap();
            bytes.extend(out);
        }
        bytes
    }

    fn empty() -> Vec<u8> {
        vec![0; ring::RING_BYTES]
    }

    #[test]
    fn turns_go_into_the_ring_and_their_numbers_go_on() {
        let mut image = empty();
        assert_eq!(next_number(&image), Ok(1));
        assert_eq!(record(&mut image, &scan(2), [5; 16], |_, _| {}), Ok(2));
        assert_eq!(listing(&image), b"held 2\n1 2 1 1\n2 2 2 2\n");
        assert_eq!(record(&mut image, &scan(1), [5; 16], |_, _| {}), Ok(1));
        assert_eq!(listing(&image), b"held 3\n1 2 1 1\n2 2 2 2\n3 2 1 1\n");
        let serial = Record::read(ring::turn(&image, 2)).unwrap().serial;
        assert_eq!(serial, [5; 16]);
        assert_eq!(record(&mut image, &scan(100), [5; 16], |_, _| {}), Ok(100));
        assert_eq!(ring::held(&image), Ok(63));
        assert_eq!(next_number(&image), Ok(104));
    }

    #[test]
    fn numbers_begin_again_at_0() {
        let mut image = empty();
        let mut bytes = [0; 754];
        Record::new(u32::MAX, [0; 16], &Turn { samples: 1, ..Turn::EMPTY })
            .write(&mut bytes)
            .unwrap();
        ring::add(&mut image, &bytes).unwrap();
        assert_eq!(next_number(&image), Ok(0));
        assert_eq!(record(&mut image, &scan(2), [0; 16], |_, _| {}), Ok(2));
        assert_eq!(next_number(&image), Ok(2));
    }

    #[test]
    fn the_stores_told_are_those_made() {
        let mut image = empty();
        let mut stores = Vec::new();
        record(&mut image, &scan(66), [1; 16], |place, byte| stores.push((place, byte))).unwrap();
        assert_eq!(stores.len(), 66 * 755);
        // Cut anywhere, the ring reads and holds the turns whose last store was made.
        let mut cut = empty();
        for (n, (place, byte)) in (1..).zip(stores) {
            cut[place] = byte;
            assert_eq!(place == 0, n % 755 == 0);
            if n % 97 == 0 || place == 0 {
                assert_eq!(ring::held(&cut), Ok((n / 755).min(63)));
                assert_eq!(ring::all_read(&cut), Ok(()));
                assert_eq!(next_number(&cut), Ok(1 + n as u32 / 755));
            }
        }
        assert!(cut == image);
    }

    #[test]
    fn what_is_no_ring_stays_as_it_was() {
        let mut bad_turn = empty();
        bad_turn[0] = 1;
        let mut bad_head = empty();
        bad_head[0] = 128;
        for (mut image, refusal) in [
            (vec![0; 49_152], Refusal::NotRing),
            (Vec::new(), Refusal::NotRing),
            (bad_head, Refusal::BadHead),
            (bad_turn, Refusal::NotRecord),
        ] {
            let before = image.clone();
            let recorded = record(&mut image, &scan(3), [0; 16], |_, _| panic!("a store"));
            assert_eq!(recorded, Err(refusal));
            assert!(image == before);
        }
    }

    #[test]
    fn texts() {
        assert_eq!(text(Ok(0)), b"kept 0\n");
        assert_eq!(text(Ok(17)), b"kept 17\n");
        assert_eq!(text(Err(Refusal::NotRecord)), b"refused 9\n");
        assert_eq!(text(record(&mut empty(), &[], [0; 16], |_, _| {})), b"kept 0\n");
    }
}
