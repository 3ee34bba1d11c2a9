//! Comparing the writer and the readers of turn records.

use super::codec::Answer;
use super::shrink::Smaller;
use super::{compare, Compared, Pair, Plan};
use crate::own::{Distance, Record, Refusal};
#[cfg(feature = "product")]
use crate::product;
use crate::{gen, smaller_case};

/// One call, or for `Read` one of each reader and one for each cell.
#[derive(Clone, Debug, PartialEq)]
#[allow(missing_docs, clippy::large_enum_variant)] // few cases are alive at a time
pub enum Case {
    Write { number: u32, samples: u16, serial: [u8; 16], cells: [u16; 360], room: usize },
    Read { bytes: Vec<u8> },
    Cell { bytes: Vec<u8>, cell: usize },
    Serial { bytes: Vec<u8>, room: usize },
}

impl Smaller for Case {
    fn smaller(&self) -> Box<dyn Iterator<Item = Case> + '_> {
        match self {
            Case::Write { number, samples, serial, cells, room } => {
                smaller_case!(Case::Write; number, samples, serial, cells, room)
            }
            Case::Read { bytes } => smaller_case!(Case::Read; bytes),
            Case::Cell { bytes, cell } => smaller_case!(Case::Cell; bytes, cell),
            Case::Serial { bytes, room } => smaller_case!(Case::Serial; bytes, room),
        }
    }
}

/// The bench's own answer.
pub fn own(case: &Case) -> Answer {
    match *case {
        Case::Write { number, samples, serial, ref cells, room } => {
            let cells = cells.map(Distance::from_q2);
            Answer::write(room, |out| Record { number, samples, serial, cells }.write(out))
        }
        Case::Read { ref bytes } => Answer::read(Record::read(bytes).map(|record| {
            let mut fields = vec![u64::from(record.number), u64::from(record.samples)];
            fields.extend(record.cells.iter().map(|cell| u64::from(cell.q2())));
            fields
        })),
        Case::Cell { ref bytes, cell } => {
            let record = Record::read(bytes);
            let cell =
                record.and_then(|record| record.cells.get(cell).copied().ok_or(Refusal::NoSuch));
            Answer::read(cell.map(|cell| vec![u64::from(cell.q2())]))
        }
        Case::Serial { ref bytes, room } => Answer::write(room, |out| {
            let serial = Record::read(bytes)?.serial;
            *out.first_chunk_mut().ok_or(Refusal::OutputShort)? = serial;
            Ok(serial.len())
        }),
    }
}

/// The product's answer. Its readers are asked one by one; where they don't agree on a refusal, that is told as 255.
#[cfg(feature = "product")]
pub fn product(case: &Case) -> Answer {
    match *case {
        Case::Write { number, samples, ref serial, ref cells, room } => {
            Answer::written(room, |out| product::record_write(number, samples, serial, cells, out))
        }
        Case::Read { ref bytes } => {
            let number = product::record_number(bytes);
            let count = product::record_count(bytes);
            let mut fields = vec![u64::from(number.number), u64::from(count.count)];
            let mut refusals = vec![product::record_check(bytes), number.refusal, count.refusal];
            for c in 0..360 {
                let cell = product::record_cell(bytes, c);
                fields.push(u64::from(cell.distance.q2));
                refusals.push(cell.refusal);
            }
            let agreed = refusals.iter().all(|&refusal| refusal == refusals[0]);
            Answer::given(if agreed { refusals[0] } else { u8::MAX }, fields)
        }
        Case::Cell { ref bytes, cell } => {
            let cell = product::record_cell(bytes, cell);
            Answer::given(cell.refusal, vec![u64::from(cell.distance.q2)])
        }
        Case::Serial { ref bytes, room } => {
            Answer::written(room, |out| product::record_serial(bytes, out))
        }
    }
}

/// Compares the other program with the bench's own.
pub fn against(plan: &Plan, other: &mut dyn FnMut(&Case) -> Answer) -> Compared<Case, Answer> {
    compare(plan, Pair { part: "records", make: &gen::record_case, own: &own, other })
}

#[cfg(test)]
mod tests {
    use super::*;

    #[test]
    fn the_same_program_agrees() {
        assert_eq!(against(&Plan { seed: 1, cases: 5_000 }, &mut own).unwrap(), 5_000);
    }

    #[test]
    fn a_count_one_too_large_is_found() {
        let mut wrong = |case: &Case| match case {
            Case::Write { samples: 8_193, room: 754.., .. } => Answer::default(),
            other => own(other),
        };
        let mismatch = against(&Plan { seed: 1, cases: 100_000 }, &mut wrong).unwrap_err();
        let (serial, cells) = ([0; 16], [0; 360]);
        let smallest = Case::Write { number: 0, samples: 8_193, serial, cells, room: 754 };
        assert_eq!(mismatch.case, smallest);
    }
}
