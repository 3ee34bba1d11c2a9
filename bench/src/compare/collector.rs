//! Comparing the device's collector of requests.

use super::shrink::{earlier, Smaller};
#[cfg(feature = "product")]
use super::FILL;
use super::{compare, number, Compared, Pair, Plan};
use crate::own::Collector;
#[cfg(feature = "product")]
use crate::product;
use crate::{gen, smaller_fields};

/// A collector's state. Empty is the fresh one.
#[derive(Clone, Debug, Default, PartialEq)]
pub struct State {
    /// The time of the last byte accepted, 0 for none.
    pub last: u64,
    /// The time of the packet's first byte, 0 where none is begun.
    pub began: u64,
    /// The bytes of the packet begun.
    pub packet: Vec<u8>,
}

impl State {
    /// The bench's own collector in this state, where there is one.
    pub fn collector(&self) -> Option<Collector> {
        Collector::at(self.last, self.began, &self.packet)
    }
}

/// Bytes with their times, from a state on.
#[derive(Clone, Debug, PartialEq)]
pub struct Case {
    /// The state at the beginning.
    pub state: State,
    /// The bytes, each with its time.
    pub bytes: Vec<(u8, u64)>,
}

impl Smaller for State {
    fn smaller(&self) -> Box<dyn Iterator<Item = State> + '_> {
        let states: Box<dyn Iterator<Item = State>> = smaller_fields!(self; packet, began, last);
        Box::new(states.filter(|state| state.collector().is_some()))
    }
}

impl Smaller for Case {
    fn smaller(&self) -> Box<dyn Iterator<Item = Case> + '_> {
        let fields: Box<dyn Iterator<Item = Case>> = smaller_fields!(self; bytes, state);
        Box::new(fields.chain(self.earlier()))
    }
}

impl Case {
    /// All times but 0 earlier by the same.
    fn earlier(&self) -> impl Iterator<Item = Case> + '_ {
        let times = self.bytes.iter().map(|&(_, now)| now);
        earlier(times.chain([self.state.last, self.state.began])).map(move |by| {
            let mut case = self.clone();
            let times = case.bytes.iter_mut().map(|(_, now)| now);
            for time in times.chain([&mut case.state.last, &mut case.state.began]) {
                *time = time.saturating_sub(by);
            }
            case
        })
    }
}

/// What one byte gives.
#[derive(Clone, Debug, PartialEq)]
pub struct Answer {
    /// The number of the refusal, 0 for none.
    pub refusal: u8,
    /// The packet that the byte completes: its code and its payload.
    pub packet: Option<(u8, Vec<u8>)>,
    /// The state after the byte.
    pub state: State,
}

/// The bench's own answers, one for each byte.
pub fn own(case: &Case) -> Vec<Answer> {
    let mut collector = case.state.collector().expect("a beginning of a packet");
    let answers = case.bytes.iter().map(|&(byte, now)| {
        let answer = collector.push(byte, now);
        let refusal = number(&answer);
        let packet = answer.ok().flatten().map(|packet| (packet.code, packet.payload.to_vec()));
        let (last, began) = (collector.last(), collector.began().unwrap_or(0));
        Answer { refusal, packet, state: State { last, began, packet: collector.packet() } }
    });
    answers.collect()
}

/// The product's collector in a state, and the payload lent to it. A fresh one is made by the product itself.
#[cfg(feature = "product")]
fn to_product(state: &State) -> (product::Collector, [u8; 255]) {
    let mut payload = [FILL; 255];
    if *state == State::default() {
        return (product::Collector::new(), payload);
    }
    let mut stage = product::Stage::default();
    if let [_, code_and_on @ ..] = state.packet.as_slice() {
        stage.kind = product::Stage::STARTED;
        if let [code, size_and_on @ ..] = code_and_on {
            (stage.kind, stage.code) = (product::Stage::CODED, *code);
            if let [size, begin @ ..] = size_and_on {
                (stage.kind, stage.size) = (product::Stage::SIZED, *size);
                stage.count = begin.len() as u8;
                stage.sum = state.packet.iter().fold(0, |sum, byte| sum ^ byte);
                payload[..begin.len()].copy_from_slice(begin);
            }
        }
    }
    (product::Collector { stage, begun: state.began, last: state.last }, payload)
}

/// The state of the product's collector with the payload lent to it.
#[cfg(feature = "product")]
fn of_product(collector: &product::Collector, payload: &[u8; 255]) -> State {
    let product::Collector { stage, begun, last } = *collector;
    let mut packet = vec![0xA5, stage.code, stage.size];
    match stage.kind {
        product::Stage::STARTED => packet.truncate(1),
        product::Stage::CODED => packet.truncate(2),
        product::Stage::SIZED => packet.extend_from_slice(&payload[..usize::from(stage.count)]),
        _ => packet.clear(),
    }
    State { last, began: begun, packet }
}

/// The product's answers, one for each byte.
#[cfg(feature = "product")]
pub fn product(case: &Case) -> Vec<Answer> {
    let (mut collector, mut payload) = to_product(&case.state);
    let answers = case.bytes.iter().map(|&(byte, now)| {
        let collected = collector.byte(now, byte, &mut payload);
        collector = collected.collector;
        let packet = (collected.complete != 0)
            .then(|| (collected.code, payload[..usize::from(collected.size)].to_vec()));
        Answer { refusal: collected.refusal, packet, state: of_product(&collector, &payload) }
    });
    answers.collect()
}

/// Compares the other program with the bench's own.
pub fn against(
    plan: &Plan,
    other: &mut dyn FnMut(&Case) -> Vec<Answer>,
) -> Compared<Case, Vec<Answer>> {
    compare(plan, Pair { part: "collector", make: &gen::collector_case, own: &own, other })
}

#[cfg(test)]
mod tests {
    use super::*;

    #[test]
    fn the_same_program_agrees() {
        assert_eq!(against(&Plan { seed: 3, cases: 20_000 }, &mut own).unwrap(), 20_000);
    }

    #[test]
    fn a_limit_of_4999_is_found() {
        // A program that discards at exactly 5,000 ms: times beyond are stretched by one.
        let wrong = |case: &Case| {
            let mut case = case.clone();
            for (_, now) in &mut case.bytes {
                *now += u64::from(*now >= 5_000);
            }
            own(&case)
        };
        let packets = |answers: Vec<Answer>| -> Vec<_> {
            answers.into_iter().map(|answer| answer.packet).collect()
        };
        let late = |case: &Case| case.bytes.iter().any(|&(_, now)| now > u64::MAX / 2);
        let pair = Pair {
            part: "collector",
            make: &|rng| Case { state: State::default(), ..gen::collector_case(rng) },
            own: &|case: &Case| if late(case) { Vec::new() } else { packets(own(case)) },
            other: &mut |case| if late(case) { Vec::new() } else { packets(wrong(case)) },
        };
        let mismatch = compare(&Plan { seed: 3, cases: 1_000_000 }, pair).unwrap_err();
        assert_eq!(mismatch.case.bytes, [(0xA5, 0), (0, 5_000)], "{mismatch}");
    }
}
