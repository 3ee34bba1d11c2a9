//! Comparing the recorder's core: scripts of requests, streams and rows, from a fresh host or from random bytes as one.

use super::any::{
    any_cells, any_reader, gatherer_in, reader_in, reader_out, session_in, session_out, small,
};
use super::shrink::Smaller;
use super::{compare, number, Compared, Pair, Plan, FILL, FILL_WORD};
use crate::gen::{self, Rng};
use crate::own::sample::SAMPLE_WORDS;
use crate::own::{self, Distance, Turn};
use crate::product::{self, Cells};
use crate::{smaller_case, smaller_fields};

/// One call; of `Read` as many as it takes until all bytes are taken, with the words of each call gathered.
#[derive(Clone, Debug, PartialEq)]
#[allow(missing_docs)]
pub enum Step {
    Send { now: u64, code: u8, payload: Vec<u8>, room: usize },
    Read { bytes: Vec<u8>, room: usize, number: u32 },
    Gather { row: Vec<u16>, number: u32 },
}

/// Calls to a host, from a state on.
#[derive(Clone, Debug, PartialEq)]
pub struct Case {
    /// The state at the beginning.
    pub host: product::Host,
    /// The cells lent for its open turn.
    pub filling: Cells,
    /// The calls.
    pub steps: Vec<Step>,
}

impl Smaller for product::Host {
    fn smaller(&self) -> Box<dyn Iterator<Item = Self> + '_> {
        smaller_fields!(self; session, reader, gatherer, serial)
    }
}

impl Smaller for Step {
    fn smaller(&self) -> Box<dyn Iterator<Item = Step> + '_> {
        match self {
            Step::Send { now, code, payload, room } => {
                smaller_case!(Step::Send; payload, now, code, room)
            }
            Step::Read { bytes, room, number } => smaller_case!(Step::Read; bytes, room, number),
            Step::Gather { row, number } => smaller_case!(Step::Gather; row, number),
        }
    }
}

impl Smaller for Case {
    fn smaller(&self) -> Box<dyn Iterator<Item = Case> + '_> {
        smaller_fields!(self; steps, host, filling)
    }
}

/// What one call gives.
#[derive(Clone, Debug, PartialEq)]
pub struct Answer {
    /// The number of the refusal, 0 for none.
    pub refusal: u8,
    /// What else is told, in the header's order.
    pub told: Vec<usize>,
    /// The host after the call: where it is refused the very bytes, otherwise what they mean.
    pub host: product::Host,
    /// The bytes lent, after the call, or the reply.
    pub bytes: Vec<u8>,
    /// The words lent, after the call.
    pub words: Vec<u16>,
}

/// A host of either program with what it is lent.
trait Hosts {
    fn send(&mut self, now: u64, code: u8, payload: &[u8], out: &mut [u8]) -> (u8, usize);
    /// Taken, words, stop, reply.
    fn read(&mut self, input: &[u8], row: &mut [u16]) -> (usize, usize, u8, [u8; 20]);
    /// Refusal, words, samples of the turn that closed.
    fn gather(&mut self, row: &[u16], number: u32) -> (u8, usize, usize);
    fn host(&self) -> product::Host;
    fn cells(&self) -> Vec<u16>;
    fn record(&self) -> &[u8; 754];
}

struct Own {
    host: own::host::Host,
    /// The very bytes, as long as every call was refused.
    bytes: Option<product::Host>,
    turn: Turn,
    record: [u8; 754],
}

fn host_in(host: &product::Host, filling: &Cells) -> own::host::Host {
    own::host::Host {
        session: session_in(&host.session),
        reader: reader_in(&host.reader),
        gatherer: gatherer_in(host.gatherer.count, filling),
        serial: host.serial,
    }
}

fn host_out(host: &own::host::Host) -> product::Host {
    product::Host {
        session: session_out(&host.session),
        reader: reader_out(&host.reader),
        gatherer: product::Gatherer { count: host.gatherer.samples() },
        serial: host.serial,
    }
}

impl Hosts for Own {
    fn send(&mut self, now: u64, code: u8, payload: &[u8], out: &mut [u8]) -> (u8, usize) {
        let written = self.host.send(now, code, payload, out);
        if written.is_ok() {
            self.bytes = None;
        }
        (number(&written), written.unwrap_or(0))
    }

    fn read(&mut self, input: &[u8], row: &mut [u16]) -> (usize, usize, u8, [u8; 20]) {
        self.bytes = None;
        let outcome = self.host.read(input, row);
        (outcome.taken, outcome.words, outcome.stop as u8, outcome.reply)
    }

    fn gather(&mut self, row: &[u16], next: u32) -> (u8, usize, usize) {
        let gathered = self.host.gather(row, next, &mut self.turn, &mut self.record);
        if gathered.is_ok() {
            self.bytes = None;
        }
        let closed = gathered.is_ok_and(|gathered| gathered.closed);
        let samples = if closed { self.turn.samples.into() } else { 0 };
        (number(&gathered), gathered.map_or(0, |gathered| gathered.words), samples)
    }

    fn host(&self) -> product::Host {
        self.bytes.unwrap_or_else(|| host_out(&self.host))
    }

    fn cells(&self) -> Vec<u16> {
        let cells = [self.host.gatherer.cells(), self.turn.cells].concat();
        cells.into_iter().map(|cell| cell.q2()).collect()
    }

    fn record(&self) -> &[u8; 754] {
        &self.record
    }
}

struct Lent {
    host: product::Host,
    refused: bool,
    filling: Cells,
    closed: Cells,
    record: [u8; 754],
}

impl Hosts for Lent {
    fn send(&mut self, now: u64, code: u8, payload: &[u8], out: &mut [u8]) -> (u8, usize) {
        let sent = self.host.send(now, code, payload, out);
        self.host = sent.host;
        self.refused &= sent.written.refusal != 0;
        (sent.written.refusal, sent.written.bytes)
    }

    fn read(&mut self, input: &[u8], row: &mut [u16]) -> (usize, usize, u8, [u8; 20]) {
        let heard = self.host.read(input, row);
        self.host = heard.host;
        self.refused = false;
        (heard.taken, heard.words, heard.stop, heard.reply)
    }

    fn gather(&mut self, row: &[u16], next: u32) -> (u8, usize, usize) {
        let (filling, closed) = (&mut self.filling, &mut self.closed);
        let turned = self.host.gather(row, next, filling, closed, &mut self.record);
        self.host = turned.host;
        self.refused &= turned.refusal != 0;
        (turned.refusal, turned.words, turned.turn.into())
    }

    fn host(&self) -> product::Host {
        if self.refused {
            self.host
        } else {
            host_out(&host_in(&self.host, &self.filling))
        }
    }

    fn cells(&self) -> Vec<u16> {
        [self.filling, self.closed].concat()
    }

    fn record(&self) -> &[u8; 754] {
        &self.record
    }
}

/// All calls of a case.
fn run(case: &Case, hosts: &mut dyn Hosts) -> Vec<Answer> {
    let mut answers = Vec::new();
    for step in &case.steps {
        match step {
            Step::Send { now, code, payload, room } => {
                let mut out = vec![FILL; *room];
                let (refusal, written) = hosts.send(*now, *code, payload, &mut out);
                let (told, host) = (vec![written], hosts.host());
                answers.push(Answer { refusal, told, host, bytes: out, words: Vec::new() });
            }
            Step::Read { bytes, room, number } => {
                let mut rest = bytes.as_slice();
                let mut room = *room;
                for _ in 0..bytes.len() + 2 {
                    let mut row = vec![FILL_WORD; room];
                    let (taken, words, stop, reply) = hosts.read(rest, &mut row);
                    let (told, host) = (vec![taken, words, stop.into()], hosts.host());
                    let (bytes, read) = (reply.to_vec(), row[..words.min(room)].to_vec());
                    answers.push(Answer { refusal: 0, told, host, bytes, words: row });
                    gather(hosts, &read, *number, &mut answers);
                    rest = rest.get(taken..).unwrap_or_default();
                    if rest.is_empty() {
                        break;
                    }
                    room = room.max(SAMPLE_WORDS);
                }
            }
            Step::Gather { row, number } => gather(hosts, row, *number, &mut answers),
        }
    }
    answers
}

/// Gathers a row to its end, turn by turn.
fn gather(hosts: &mut dyn Hosts, mut row: &[u16], number: u32, answers: &mut Vec<Answer>) {
    loop {
        let (refusal, words, turn) = hosts.gather(row, number);
        let (told, host) = (vec![words, turn], hosts.host());
        let bytes = hosts.record().to_vec();
        answers.push(Answer { refusal, told, host, bytes, words: hosts.cells() });
        row = row.get(words..).unwrap_or_default();
        if words == 0 || row.is_empty() {
            return;
        }
    }
}

/// The bench's own answers.
pub fn own(case: &Case) -> Vec<Answer> {
    let turn = Turn { samples: 0, cells: [Distance::from_q2(FILL_WORD); 360] };
    let host = host_in(&case.host, &case.filling);
    run(case, &mut Own { host, bytes: Some(case.host), turn, record: [FILL; 754] })
}

/// The product's answers. A fresh host is made by the product itself.
pub fn product(case: &Case) -> Vec<Answer> {
    let fresh = case.host == product::Host::default();
    let host = if fresh { product::Host::new() } else { case.host };
    let (filling, closed) = (case.filling, [FILL_WORD; 360]);
    run(case, &mut Lent { host, refused: true, filling, closed, record: [FILL; 754] })
}

/// A script, from a fresh host or from random bytes as one.
pub fn make(rng: &mut Rng) -> Case {
    let mut host = product::Host::default();
    let mut filling = [FILL_WORD; 360];
    if rng.one_in(3) {
        let (last, wait) = (rng.below(1_000) as u64, rng.below(4) as u64);
        let count = rng.pick(&[0, 1, 8_191, 8_192, 8_193, u16::MAX]);
        host = product::Host {
            session: product::Session { last, wait, awaited: small(rng, 3) },
            reader: any_reader(rng),
            gatherer: product::Gatherer { count },
            serial: rng.array(),
        };
        filling = any_cells(rng);
    }
    let mut now = host.session.last;
    let steps = (0..1 + rng.below(8)).map(|n| match (n, rng.below(8)) {
        (0, _) | (_, 0..=2) => {
            if !rng.one_in(6) {
                now = now.saturating_add(2);
            }
            let time = if rng.one_in(6) { gen::time_near(rng, now) } else { now };
            let payload = if rng.one_in(20) { vec![rng.byte()] } else { Vec::new() };
            Step::Send { now: time, code: gen::code(rng), payload, room: gen::room(rng, 2) }
        }
        (_, 3) => {
            let samples = rng.below(12);
            let mut row: Vec<u16> = (0..samples)
                .flat_map(|_| gen::fit_sample(rng).to_words().expect("it fits"))
                .collect();
            if rng.one_in(5) {
                row.push(gen::edge_word(rng));
            }
            Step::Gather { row, number: rng.long() as u32 }
        }
        _ => {
            let bytes = gen::stream(rng);
            Step::Read { room: gen::row_room(rng, bytes.len()), bytes, number: rng.long() as u32 }
        }
    });
    Case { steps: steps.collect(), host, filling }
}

/// Compares the product with the bench's own program.
pub fn against_product(plan: &Plan) -> Compared<Case, Vec<Answer>> {
    compare(plan, Pair { part: "host", make: &make, own: &own, other: &mut product })
}

#[cfg(test)]
mod tests {
    use super::*;

    #[test]
    fn scripts_close_turns_end_waits_and_keep_serials() {
        let (mut closed, mut ended, mut serials, mut refused) = (0, 0, 0, 0);
        for number in 0..5_000 {
            let case = make(&mut Rng::of_case(1, number));
            let answers = own(&case);
            for (before, after) in answers.iter().zip(answers.iter().skip(1)) {
                closed += u32::from(after.told.len() == 2 && after.told[1] > 0);
                refused += u32::from(after.refusal > 0);
                let (before, after) = (before.host, after.host);
                ended += u32::from(before.session.awaited > after.session.awaited);
                serials += u32::from(before.serial != after.serial);
            }
        }
        let all = [closed, ended, serials, refused];
        assert!(all.iter().all(|&count| count > 200), "{all:?}");
    }
}
