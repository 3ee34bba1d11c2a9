//! Comparing the writers and readers of requests, descriptors, replies and samples.

use super::shrink::Smaller;
use super::{compare, number, Compared, Pair, Plan, FILL, FILL_WORD};
use crate::own::{write_request, Angle, Descriptor, Distance, Health, Info, Refusal, Sample};
#[cfg(feature = "product")]
use crate::product;
use crate::{gen, smaller_case};

/// One call of a codec. `room` is the length of the output lent.
#[derive(Clone, Debug, PartialEq)]
#[allow(missing_docs, clippy::large_enum_variant)] // few cases are alive at a time
pub enum Case {
    WriteRequest { code: u8, payload: Vec<u8>, room: usize },
    ReadDescriptor { bytes: Vec<u8> },
    WriteDescriptor { length: u32, mode: u8, kind: u8, room: usize },
    ReadInfo { bytes: Vec<u8> },
    WriteInfo { fields: [u8; 20], room: usize },
    ReadHealth { bytes: Vec<u8> },
    WriteHealth { status: u8, error: u16, room: usize },
    ReadSample { bytes: Vec<u8> },
    WriteSample { start: bool, quality: u8, angle: u16, distance: u16, room: usize },
    ReadFront { bytes: Vec<u8> },
    ToWords { start: bool, quality: u8, angle: u16, distance: u16, room: usize },
    FromWords { words: [u16; 3] },
}

impl Smaller for Case {
    fn smaller(&self) -> Box<dyn Iterator<Item = Case> + '_> {
        match self {
            Case::WriteRequest { code, payload, room } => {
                smaller_case!(Case::WriteRequest; payload, room, code)
            }
            Case::ReadDescriptor { bytes } => smaller_case!(Case::ReadDescriptor; bytes),
            Case::WriteDescriptor { length, mode, kind, room } => {
                smaller_case!(Case::WriteDescriptor; length, mode, kind, room)
            }
            Case::ReadInfo { bytes } => smaller_case!(Case::ReadInfo; bytes),
            Case::WriteInfo { fields, room } => smaller_case!(Case::WriteInfo; fields, room),
            Case::ReadHealth { bytes } => smaller_case!(Case::ReadHealth; bytes),
            Case::WriteHealth { status, error, room } => {
                smaller_case!(Case::WriteHealth; status, error, room)
            }
            Case::ReadSample { bytes } => smaller_case!(Case::ReadSample; bytes),
            Case::WriteSample { start, quality, angle, distance, room } => {
                smaller_case!(Case::WriteSample; start, quality, angle, distance, room)
            }
            Case::ReadFront { bytes } => smaller_case!(Case::ReadFront; bytes),
            Case::ToWords { start, quality, angle, distance, room } => {
                smaller_case!(Case::ToWords; start, quality, angle, distance, room)
            }
            Case::FromWords { words } => smaller_case!(Case::FromWords; words),
        }
    }
}

/// What a call of a codec gives.
#[derive(Clone, Debug, Default, PartialEq)]
pub struct Answer {
    /// The number of the refusal, 0 for none.
    pub refusal: u8,
    /// What was read, field by field in the order of the format; how many bytes were written.
    pub fields: Vec<u64>,
    /// The output lent, whole, after the call.
    pub out: Vec<u8>,
}

impl Answer {
    /// The answer of a writer of words, with the row lent.
    fn words(refusal: u8, written: usize, row: &[u16]) -> Answer {
        let fields = if refusal == 0 { vec![written as u64] } else { Vec::new() };
        Answer { refusal, fields, out: row.iter().flat_map(|word| word.to_le_bytes()).collect() }
    }

    /// The answer of a reader of the product: beside a refusal all fields are 0, and are not told.
    #[cfg(feature = "product")]
    pub fn given(refusal: u8, mut fields: Vec<u64>) -> Answer {
        if refusal != 0 && fields.iter().all(|&field| field == 0) {
            fields.clear();
        }
        Answer { refusal, fields, out: Vec::new() }
    }

    /// The answer of a writer of the product that is lent so much room.
    #[cfg(feature = "product")]
    pub fn written(room: usize, call: impl FnOnce(&mut [u8]) -> product::Written) -> Answer {
        let mut out = vec![FILL; room];
        let product::Written { bytes, refusal } = call(&mut out);
        let fields = if refusal == 0 { vec![bytes as u64] } else { Vec::new() };
        Answer { refusal, fields, out }
    }

    /// The answer of a reader.
    pub fn read(fields: Result<Vec<u64>, Refusal>) -> Answer {
        Answer { refusal: number(&fields), fields: fields.unwrap_or_default(), out: Vec::new() }
    }

    /// The answer of a writer that is lent so much room.
    pub fn write(room: usize, call: impl FnOnce(&mut [u8]) -> Result<usize, Refusal>) -> Answer {
        let mut out = vec![FILL; room];
        let written = call(&mut out);
        let fields = written.iter().map(|&written| written as u64).collect();
        Answer { refusal: number(&written), fields, out }
    }
}

fn sample(start: bool, quality: u8, angle: u16, distance: u16) -> Sample {
    let (angle, distance) = (Angle::from_q6(angle), Distance::from_q2(distance));
    Sample { start, quality, angle, distance }
}

fn fields(sample: &Sample) -> Vec<u64> {
    vec![
        u64::from(sample.start),
        u64::from(sample.quality),
        u64::from(sample.angle.q6()),
        u64::from(sample.distance.q2()),
    ]
}

/// The bench's own answer.
pub fn own(case: &Case) -> Answer {
    let wide = |bytes: &[u8]| bytes.iter().map(|&byte| u64::from(byte)).collect::<Vec<u64>>();
    match *case {
        Case::WriteRequest { code, ref payload, room } => {
            Answer::write(room, |out| write_request(code, payload, out))
        }
        Case::ReadDescriptor { ref bytes } => Answer::read(
            Descriptor::read(bytes)
                .map(|d| vec![u64::from(d.length), u64::from(d.mode), u64::from(d.kind)]),
        ),
        Case::WriteDescriptor { length, mode, kind, room } => {
            Answer::write(room, |out| Descriptor { length, mode, kind }.write(out))
        }
        Case::ReadInfo { ref bytes } => {
            Answer::read(Info::read(bytes).map(|info| wide(&info.to_bytes())))
        }
        Case::WriteInfo { ref fields, room } => {
            let info = Info::read(fields).expect("twenty bytes");
            Answer::write(room, |out| info.write(out))
        }
        Case::ReadHealth { ref bytes } => {
            Answer::read(Health::read(bytes).map(|h| vec![u64::from(h.status), u64::from(h.error)]))
        }
        Case::WriteHealth { status, error, room } => {
            Answer::write(room, |out| Health { status, error }.write(out))
        }
        Case::ReadSample { ref bytes } => Answer::read(Sample::read(bytes).map(|s| fields(&s))),
        Case::WriteSample { start, quality, angle, distance, room } => {
            Answer::write(room, |out| sample(start, quality, angle, distance).write(out))
        }
        Case::ReadFront { ref bytes } => {
            let front = bytes.get(..5).ok_or(Refusal::NotSample);
            Answer::read(front.and_then(Sample::read).map(|s| fields(&s)))
        }
        Case::ToWords { start, quality, angle, distance, room } => {
            let mut row = vec![FILL_WORD; room];
            let words = sample(start, quality, angle, distance).to_words();
            let written = words.and_then(|words| {
                let front = row.first_chunk_mut().ok_or(Refusal::OutputShort)?;
                *front = words;
                Ok(words.len())
            });
            Answer::words(number(&written), written.unwrap_or(0), &row)
        }
        Case::FromWords { ref words } => {
            Answer::read(Sample::from_words(words).map(|s| fields(&s)))
        }
    }
}

/// The product's answer.
#[cfg(feature = "product")]
pub fn product(case: &Case) -> Answer {
    let sample = product::Sample::new;
    let sample_read = |product::SampleAnswer { sample: s, refusal }| {
        let numbers = [s.start.into(), s.quality.into(), s.angle.q6, s.distance.q2];
        Answer::given(refusal, numbers.map(u64::from).to_vec())
    };
    match *case {
        Case::WriteRequest { code, ref payload, room } => {
            Answer::written(room, |out| product::request_write(code, payload, out))
        }
        Case::ReadDescriptor { ref bytes } => {
            let product::DescriptorAnswer { descriptor: d, refusal } =
                product::Descriptor::read(bytes);
            Answer::given(refusal, vec![d.length.into(), d.mode.into(), d.kind.into()])
        }
        Case::WriteDescriptor { length, mode, kind, room } => {
            Answer::written(room, |out| product::Descriptor { length, mode, kind }.write(out))
        }
        Case::ReadInfo { ref bytes } => {
            let read = product::Info::read(bytes);
            Answer::given(read.refusal, read.info.fields().map(u64::from).to_vec())
        }
        Case::WriteInfo { ref fields, room } => {
            Answer::written(room, |out| product::Info::new(fields).write(out))
        }
        Case::ReadHealth { ref bytes } => {
            let product::HealthAnswer { health: h, refusal } = product::Health::read(bytes);
            Answer::given(refusal, vec![h.status.into(), h.error.into()])
        }
        Case::WriteHealth { status, error, room } => {
            Answer::written(room, |out| product::Health { status, error }.write(out))
        }
        Case::ReadSample { ref bytes } => sample_read(product::Sample::read(bytes)),
        Case::ReadFront { ref bytes } => sample_read(product::Sample::front(bytes)),
        Case::WriteSample { start, quality, angle, distance, room } => {
            Answer::written(room, |out| sample(start.into(), quality, angle, distance).write(out))
        }
        Case::ToWords { start, quality, angle, distance, room } => {
            let mut row = vec![FILL_WORD; room];
            let written = sample(start.into(), quality, angle, distance).write_words(&mut row);
            Answer::words(written.refusal, written.bytes, &row)
        }
        Case::FromWords { words } => sample_read(product::Sample::read_words(words)),
    }
}

/// Compares the other program with the bench's own.
pub fn against(plan: &Plan, other: &mut dyn FnMut(&Case) -> Answer) -> Compared<Case, Answer> {
    compare(plan, Pair { part: "codecs", make: &gen::codec_case, own: &own, other })
}

#[cfg(test)]
mod tests {
    use super::*;

    #[test]
    fn the_same_program_agrees() {
        assert_eq!(against(&Plan { seed: 1, cases: 20_000 }, &mut own).unwrap(), 20_000);
    }

    #[test]
    fn an_angle_taken_one_too_far_is_found() {
        let mut wrong = |case: &Case| match case {
            Case::WriteSample { angle: 23_040, quality: 0..=63, room: 5.., .. } => {
                Answer::default()
            }
            other => own(other),
        };
        let mismatch = against(&Plan { seed: 1, cases: 1_000_000 }, &mut wrong).unwrap_err();
        let smallest =
            Case::WriteSample { start: false, quality: 0, angle: 23_040, distance: 0, room: 5 };
        assert_eq!(mismatch.case, smallest);
    }

    #[test]
    fn a_checksum_without_the_size_is_found() {
        let mut wrong = |case: &Case| {
            let mut answer = own(case);
            if let (Case::WriteRequest { payload, code: 0x80.., .. }, 0) = (case, answer.refusal) {
                answer.out[payload.len() + 3] ^= payload.len() as u8;
            }
            answer
        };
        let mismatch = against(&Plan { seed: 1, cases: 100_000 }, &mut wrong).unwrap_err();
        let smallest = Case::WriteRequest { code: 0x80, payload: vec![0], room: 5 };
        assert_eq!(mismatch.case, smallest);
    }
}
