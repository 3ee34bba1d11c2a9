//! Comparing the reader of the response stream.

use super::shrink::Smaller;
use super::{compare, number, Compared, Pair, Plan, FILL_WORD};
use crate::own::sample::SAMPLE_WORDS;
use crate::own::{Expected, Outcome, Phase, PlainReader, Reader, Stop};
#[cfg(feature = "product")]
use crate::product;
use crate::{gen, smaller_case, smaller_fields};
use std::fmt;

/// Bytes that a reader holds, without memory of their own: there are very many of them.
#[derive(Clone, Copy, Default, PartialEq)]
pub struct Held {
    bytes: [u8; 19],
    count: u8,
}

impl Held {
    /// These bytes, the first nineteen of them at most.
    pub fn new(held: &[u8]) -> Held {
        let mut bytes = [0; 19];
        let count = held.len().min(bytes.len());
        bytes[..count].copy_from_slice(&held[..count]);
        Held { bytes, count: count as u8 }
    }

    /// The bytes.
    pub fn bytes(&self) -> &[u8] {
        &self.bytes[..usize::from(self.count)]
    }
}

impl fmt::Debug for Held {
    fn fmt(&self, f: &mut fmt::Formatter<'_>) -> fmt::Result {
        self.bytes().fmt(f)
    }
}

impl Smaller for Held {
    fn smaller(&self) -> Box<dyn Iterator<Item = Held> + '_> {
        let smaller: Vec<Vec<u8>> = self.bytes().to_vec().smaller().collect();
        Box::new(smaller.into_iter().map(|bytes| Held::new(&bytes)))
    }
}

/// A reader's state as numbers. All zero is the fresh one.
#[derive(Clone, Copy, Debug, Default, PartialEq)]
pub struct State {
    /// 0 idle; 1, 2, 3 seeking samples, info, health; 4, 5, 6 reading them.
    pub phase: u8,
    /// The bytes held.
    pub held: Held,
    /// How many bytes were skipped.
    pub skipped: u32,
}

impl State {
    const PHASES: [Phase; 7] = [
        Phase::Idle,
        Phase::Seeking(Expected::Samples),
        Phase::Seeking(Expected::Info),
        Phase::Seeking(Expected::Health),
        Phase::Reading(Expected::Samples),
        Phase::Reading(Expected::Info),
        Phase::Reading(Expected::Health),
    ];

    /// The most bytes held in each phase.
    pub const LARGEST_HELD: [usize; 7] = [0, 6, 6, 6, 4, 19, 2];

    fn new(phase: Phase, held: &[u8], skipped: u32) -> State {
        let phase = State::PHASES.iter().position(|&other| other == phase).expect("one of seven");
        State { phase: phase as u8, held: Held::new(held), skipped }
    }

    /// The product's numbers of the seven phases.
    #[cfg(feature = "product")]
    const PRODUCT: [u8; 7] = [
        product::Reader::IDLE,
        product::Reader::SEEK_SCAN,
        product::Reader::SEEK_INFO,
        product::Reader::SEEK_HEALTH,
        product::Reader::SCANNING,
        product::Reader::INFO_REPLY,
        product::Reader::HEALTH_REPLY,
    ];

    /// The product's reader in this state; a fresh one is made by the product itself.
    #[cfg(feature = "product")]
    fn to_product(self) -> product::Reader {
        if self == State::default() {
            return product::Reader::new();
        }
        let mut held = [0; 20];
        held[..self.held.bytes().len()].copy_from_slice(self.held.bytes());
        let phase = State::PRODUCT[usize::from(self.phase)];
        product::Reader { phase, n: self.held.count, held, skipped: self.skipped }
    }

    /// The state of the product's reader. A phase that is none is told as it is.
    #[cfg(feature = "product")]
    fn of_product(reader: &product::Reader) -> State {
        let phase = State::PRODUCT.iter().position(|&phase| phase == reader.phase);
        let phase = phase.map_or(reader.phase, |phase| phase as u8);
        let held = &reader.held[..usize::from(reader.n).min(20)];
        State { phase, held: Held::new(held), skipped: reader.skipped }
    }

    /// The bench's own reader in this state.
    pub fn reader(&self) -> Reader {
        let phase = State::PHASES[usize::from(self.phase)];
        Reader::at(phase, self.held.bytes(), self.skipped).expect("so many are held")
    }
}

/// One call, or as many as it takes until all bytes are taken.
#[derive(Clone, Debug, PartialEq)]
#[allow(missing_docs)]
pub enum Step {
    Tell { code: u8 },
    Read { bytes: Vec<u8>, room: usize },
}

/// A stream cut into pieces, from a state on.
#[derive(Clone, Debug, PartialEq)]
pub struct Case {
    /// The state at the beginning.
    pub state: State,
    /// The calls.
    pub steps: Vec<Step>,
}

impl Smaller for State {
    fn smaller(&self) -> Box<dyn Iterator<Item = State> + '_> {
        smaller_fields!(self; held, skipped)
    }
}

impl Smaller for Step {
    fn smaller(&self) -> Box<dyn Iterator<Item = Step> + '_> {
        match self {
            Step::Tell { code } => smaller_case!(Step::Tell; code),
            Step::Read { bytes, room } => smaller_case!(Step::Read; bytes, room),
        }
    }
}

impl Smaller for Case {
    fn smaller(&self) -> Box<dyn Iterator<Item = Case> + '_> {
        smaller_fields!(self; steps, state)
    }
}

/// What one call gives.
#[derive(Clone, Debug, PartialEq)]
#[allow(missing_docs)]
pub enum Answer {
    Told {
        refusal: u8,
        state: State,
    },
    /// `untouched` says that the words lent beyond those written are as they were.
    Read {
        taken: usize,
        words: Vec<u16>,
        untouched: bool,
        stop: u8,
        reply: [u8; 20],
        state: State,
    },
}

/// What one call of a reader answers, the stop as its number.
pub struct Called {
    /// How many bytes were taken.
    pub taken: usize,
    /// How many words were written.
    pub words: usize,
    /// Why the call ended.
    pub stop: u8,
    /// The reply, or zeros.
    pub reply: [u8; 20],
}

impl From<Outcome> for Called {
    fn from(Outcome { taken, words, stop, reply }: Outcome) -> Called {
        Called { taken, words, stop: stop as u8, reply }
    }
}

/// Runs a case over any reader, given as three closures: tell, read, state.
///
/// Bytes not taken are handed over again, from the second call on with room for a sample; a reader
/// that never comes to an end is left after as many calls as there can be.
pub fn run<R>(
    case: &Case,
    reader: &mut R,
    tell: impl Fn(&mut R, u8) -> u8,
    read: impl Fn(&mut R, &[u8], &mut [u16]) -> Called,
    state: impl Fn(&R) -> State,
) -> Vec<Answer> {
    let mut answers = Vec::new();
    let mut row = Vec::new();
    for step in &case.steps {
        match step {
            Step::Tell { code } => {
                let refusal = tell(reader, *code);
                answers.push(Answer::Told { refusal, state: state(reader) });
            }
            Step::Read { bytes, room } => {
                let mut rest = bytes.as_slice();
                let mut room = *room;
                for _ in 0..bytes.len() + 2 {
                    row.clear();
                    row.resize(room, FILL_WORD);
                    let Called { taken, words, stop, reply } = read(reader, rest, &mut row);
                    let (words, beyond) = row.split_at_checked(words).unwrap_or((&row, &[]));
                    answers.push(Answer::Read {
                        taken,
                        words: words.to_vec(),
                        untouched: beyond.iter().all(|&word| word == FILL_WORD),
                        stop,
                        reply,
                        state: state(reader),
                    });
                    rest = rest.get(taken..).unwrap_or_default();
                    if rest.is_empty() {
                        break;
                    }
                    room = room.max(SAMPLE_WORDS);
                }
            }
        }
    }
    answers
}

/// The bench's own answers.
pub fn own(case: &Case) -> Vec<Answer> {
    let read = |reader: &mut Reader, input: &[u8], row: &mut [u16]| reader.read(input, row).into();
    run_own(case, read)
}

/// The bench's own answers, with another way to read.
fn run_own(case: &Case, read: impl Fn(&mut Reader, &[u8], &mut [u16]) -> Called) -> Vec<Answer> {
    let tell = |reader: &mut Reader, code| number(&reader.tell(code));
    run(case, &mut case.state.reader(), tell, read, |reader| {
        State::new(reader.phase(), reader.held(), reader.skipped())
    })
}

/// The answers of the reader that goes byte by byte.
pub fn plain(case: &Case) -> Vec<Answer> {
    let mut reader = PlainReader::like(&case.state.reader());
    let tell = |reader: &mut PlainReader, code| number(&reader.tell(code));
    let read =
        |reader: &mut PlainReader, input: &[u8], row: &mut [u16]| reader.read(input, row).into();
    run(case, &mut reader, tell, read, |reader| {
        State::new(reader.phase(), reader.held(), reader.skipped())
    })
}

/// The product's answers.
#[cfg(feature = "product")]
pub fn product(case: &Case) -> Vec<Answer> {
    let tell = |reader: &mut product::Reader, code| {
        let told = reader.tell(code);
        *reader = told.reader;
        told.refusal
    };
    let read = |reader: &mut product::Reader, input: &[u8], row: &mut [u16]| {
        let reading = reader.read(input, row);
        *reader = reading.reader;
        let product::Reading { taken, words, stop, reply, .. } = reading;
        Called { taken, words, stop, reply }
    };
    run(case, &mut case.state.to_product(), tell, read, State::of_product)
}

/// What a case gives whatever the cuts are.
#[derive(Clone, Debug, Default, PartialEq)]
pub struct Gist {
    /// All words of samples.
    pub words: Vec<u16>,
    /// The stops that are not for want of input or room, each with its reply.
    pub events: Vec<(u8, [u8; 20])>,
    /// The state after the last call.
    pub end: State,
}

/// The gist of all answers to a case.
pub fn gist(answers: &[Answer]) -> Gist {
    let mut gist = Gist::default();
    for answer in answers {
        match answer {
            Answer::Told { state, .. } => gist.end = *state,
            Answer::Read { words, stop, reply, state, .. } => {
                gist.words.extend_from_slice(words);
                if *stop > Stop::Room as u8 {
                    gist.events.push((*stop, *reply));
                }
                gist.end = *state;
            }
        }
    }
    gist
}

/// Compares the other program with the bench's own.
pub fn against(
    plan: &Plan,
    other: &mut dyn FnMut(&Case) -> Vec<Answer>,
) -> Compared<Case, Vec<Answer>> {
    compare(plan, Pair { part: "reader", make: &gen::stream_case, own: &own, other })
}

#[cfg(test)]
mod tests {
    use super::*;

    #[test]
    fn the_fast_reader_is_the_plain_one() {
        let compared = against(&Plan { seed: 5, cases: 60_000 }, &mut plain);
        assert_eq!(compared.unwrap_or_else(|mismatch| panic!("{mismatch}")), 60_000);
    }

    #[test]
    fn cuts_and_rooms_change_nothing() {
        let whole = |case: &Case| {
            let mut steps: Vec<Step> = Vec::new();
            for step in &case.steps {
                match (steps.last_mut(), step) {
                    (Some(Step::Read { bytes, .. }), Step::Read { bytes: more, .. }) => {
                        bytes.extend_from_slice(more);
                    }
                    (_, Step::Read { bytes, .. }) => {
                        steps.push(Step::Read { bytes: bytes.clone(), room: 3_000 });
                    }
                    _ => steps.push(step.clone()),
                }
            }
            gist(&own(&Case { state: case.state, steps }))
        };
        let compared = compare(
            &Plan { seed: 6, cases: 30_000 },
            Pair {
                part: "cuts",
                make: &gen::stream_case,
                own: &|case: &Case| gist(&own(case)),
                other: &mut |case| whole(case),
            },
        );
        assert_eq!(compared.unwrap_or_else(|mismatch| panic!("{mismatch}")), 30_000);
    }

    #[test]
    fn going_on_at_the_eighth_byte_is_found() {
        // A reader that misses a descriptor right behind the beginning of another.
        let read = |reader: &mut Reader, input: &[u8], row: &mut [u16]| {
            let outcome = reader.read(input, row);
            let missed = outcome.stop == Stop::Descriptor && input.starts_with(&[0xA5, 0xA5]);
            Outcome { stop: if missed { Stop::End } else { outcome.stop }, ..outcome }.into()
        };
        let mut wrong = |case: &Case| run_own(case, read);
        let mismatch = against(&Plan { seed: 7, cases: 1_000_000 }, &mut wrong).unwrap_err();
        let [.., Step::Read { bytes, room: 0 }] = mismatch.case.steps.as_slice() else {
            panic!("{mismatch}");
        };
        assert!(bytes.len() == 8 && mismatch.case.steps.len() <= 2, "{mismatch}");
    }
}
