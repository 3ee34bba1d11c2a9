//! Comparing one call on random bytes as a state: every value of a state has a meaning, which the header tells.
//!
//! States are in the product's numbers. A refused call gives back the very bytes that came in, any other call a
//! state in which each thing has one form.

use super::shrink::{earlier, Smaller};
use super::{compare, number, Compared, Pair, Plan, FILL, FILL_WORD};
use crate::gen::{self, Rng};
use crate::own::collector::{Collector, Stage};
use crate::own::model::State as Doing;
use crate::own::{self, Angle, Distance, Expected, Gatherer, Phase, Reader, Session, Turn};
use crate::product::{self, Cells};
use crate::{smaller_case, smaller_fields};

/// One call on any state.
#[derive(Clone, Debug, PartialEq)]
#[allow(missing_docs, clippy::large_enum_variant)] // few cases are alive at a time
pub enum Case {
    Tell { reader: product::Reader, code: u8 },
    Read { reader: product::Reader, bytes: Vec<u8>, room: usize },
    Drop { count: u16 },
    Sample { count: u16, sample: product::Sample, filling: Cells, closed: Cells },
    Row { count: u16, words: Vec<u16>, filling: Cells, closed: Cells },
    Send { session: product::Session, time: u64, code: u8, payload: Vec<u8>, room: usize },
    ReplyEnded { session: product::Session },
    Byte { collector: product::Collector, time: u64, byte: u8, payload: [u8; 255] },
    Ask { model: product::Model, code: u8, room: usize },
    ModelSample { model: product::Model, sample: product::Sample, room: usize },
    Fault { model: product::Model },
    Motor { model: product::Model, stable: u8 },
    Error { model: product::Model, error: u16 },
    Status { model: product::Model, status: u8 },
    Health { model: product::Model, status: u8, error: u16 },
}

/// Makes structs of the product smaller, field by field.
macro_rules! smaller_structs {
    ($($name:ident { $($field:ident),* })*) => {$(
        impl Smaller for product::$name {
            fn smaller(&self) -> Box<dyn Iterator<Item = Self> + '_> {
                smaller_fields!(self; $($field),*)
            }
        }
    )*};
}
smaller_structs! {
    Reader { n, phase, held, skipped }
    Gatherer { count }
    AngleQ6 { q6 }
    DistanceQ2 { q2 }
    Sample { start, quality, angle, distance }
    Session { last, wait, awaited }
    Stage { kind, code, size, count, sum }
    Collector { stage, begun, last }
    Info { model, minor, major, hardware, serial }
    Model { state, stable, warning, error, info }
}

impl Smaller for Case {
    fn smaller(&self) -> Box<dyn Iterator<Item = Case> + '_> {
        match self {
            Case::Tell { reader, code } => smaller_case!(Case::Tell; reader, code),
            Case::Read { reader, bytes, room } => smaller_case!(Case::Read; bytes, reader, room),
            Case::Drop { count } => smaller_case!(Case::Drop; count),
            Case::Sample { count, sample, filling, closed } => {
                smaller_case!(Case::Sample; count, sample, filling, closed)
            }
            Case::Row { count, words, filling, closed } => {
                smaller_case!(Case::Row; words, count, filling, closed)
            }
            Case::Send { session, time, code, payload, room } => {
                let fields: Box<dyn Iterator<Item = Case>> =
                    smaller_case!(Case::Send; payload, session, time, code, room);
                Box::new(fields.chain(self.earlier()))
            }
            Case::ReplyEnded { session } => smaller_case!(Case::ReplyEnded; session),
            Case::Byte { collector, time, byte, payload } => {
                let fields: Box<dyn Iterator<Item = Case>> =
                    smaller_case!(Case::Byte; collector, time, byte, payload);
                Box::new(fields.chain(self.earlier()))
            }
            Case::Ask { model, code, room } => smaller_case!(Case::Ask; model, code, room),
            Case::ModelSample { model, sample, room } => {
                smaller_case!(Case::ModelSample; model, sample, room)
            }
            Case::Fault { model } => smaller_case!(Case::Fault; model),
            Case::Motor { model, stable } => smaller_case!(Case::Motor; model, stable),
            Case::Error { model, error } => smaller_case!(Case::Error; model, error),
            Case::Status { model, status } => smaller_case!(Case::Status; model, status),
            Case::Health { model, status, error } => {
                smaller_case!(Case::Health; model, status, error)
            }
        }
    }
}

impl Case {
    /// The times of a case.
    fn times(&mut self) -> Vec<&mut u64> {
        match self {
            Case::Send { session, time, .. } => vec![&mut session.last, time],
            Case::Byte { collector, time, .. } => {
                vec![&mut collector.begun, &mut collector.last, time]
            }
            _ => Vec::new(),
        }
    }

    /// All times but 0 earlier by the same.
    fn earlier(&self) -> impl Iterator<Item = Case> + '_ {
        let times: Vec<u64> = self.clone().times().into_iter().map(|time| *time).collect();
        earlier(times.into_iter()).map(|by| {
            let mut case = self.clone();
            for time in case.times() {
                *time = time.saturating_sub(by);
            }
            case
        })
    }
}

/// The state after a call.
#[derive(Clone, Copy, Debug, PartialEq)]
#[allow(missing_docs)]
pub enum State {
    Reader(product::Reader),
    Gatherer(u16),
    Session(product::Session),
    Collector(product::Collector),
    Model(product::Model),
}

/// What a call gives.
#[derive(Clone, Debug, PartialEq)]
pub struct Answer {
    /// The number of the refusal, 0 for none.
    pub refusal: u8,
    /// What else is told, in the header's order.
    pub told: Vec<usize>,
    /// The state after the call.
    pub state: State,
    /// The bytes lent, after the call.
    pub bytes: Vec<u8>,
    /// The words lent, after the call.
    pub words: Vec<u16>,
}

impl Answer {
    fn new(refusal: u8, told: &[usize], state: State) -> Answer {
        let told = if refusal == 0 { told.to_vec() } else { vec![0; told.len()] };
        Answer { refusal, told, state, bytes: Vec::new(), words: Vec::new() }
    }

    fn bytes(mut self, bytes: &[u8]) -> Answer {
        self.bytes = bytes.to_vec();
        self
    }

    fn words(mut self, words: &[&[u16]]) -> Answer {
        self.words = words.concat();
        self
    }
}

// The bench's own program: what each state means to it, and which bytes its own states are.

const PHASES: [(u8, Phase, usize); 7] = [
    (product::Reader::IDLE, Phase::Idle, 0),
    (product::Reader::SEEK_INFO, Phase::Seeking(Expected::Info), 6),
    (product::Reader::SEEK_HEALTH, Phase::Seeking(Expected::Health), 6),
    (product::Reader::SEEK_SCAN, Phase::Seeking(Expected::Samples), 6),
    (product::Reader::INFO_REPLY, Phase::Reading(Expected::Info), 19),
    (product::Reader::HEALTH_REPLY, Phase::Reading(Expected::Health), 2),
    (product::Reader::SCANNING, Phase::Reading(Expected::Samples), 4),
];

pub(super) fn reader_in(reader: &product::Reader) -> Reader {
    let phase = PHASES.iter().find(|phase| phase.0 == reader.phase).unwrap_or(&PHASES[0]);
    let held = &reader.held[..usize::from(reader.n).min(phase.2)];
    Reader::at(phase.1, held, reader.skipped).expect("so many are held")
}

pub(super) fn reader_out(reader: &Reader) -> product::Reader {
    let phase = PHASES.iter().find(|phase| phase.1 == reader.phase()).expect("one of seven").0;
    let mut held = [0; 20];
    held[..reader.held().len()].copy_from_slice(reader.held());
    product::Reader { phase, n: reader.held().len() as u8, held, skipped: reader.skipped() }
}

pub(super) fn gatherer_in(count: u16, filling: &Cells) -> Gatherer {
    Gatherer::over(count, &filling.map(Distance::from_q2))
}

fn collector_in(collector: &product::Collector, payload: &[u8; 255]) -> Collector {
    let product::Stage { kind, code, size, count, sum } = collector.stage;
    let (stage, checksum) = match kind {
        product::Stage::STARTED => (Stage::Code, 0xA5),
        product::Stage::CODED => (Stage::Size, 0xA5 ^ code),
        product::Stage::SIZED if count < size => (Stage::Payload, sum),
        product::Stage::SIZED => (Stage::Checksum, sum),
        _ => (Stage::Start, 0),
    };
    // Size and count are nothing before the size has come.
    let (size, count) = if kind == product::Stage::SIZED { (size, count) } else { (0, 0) };
    Collector {
        stage,
        last: collector.last,
        began: collector.begun,
        code,
        size,
        got: count.min(size),
        checksum,
        payload: *payload,
    }
}

fn collector_out(collector: &Collector) -> product::Collector {
    let &Collector { code, size, got: count, checksum: sum, .. } = collector;
    let empty = product::Stage::default();
    let stage = match collector.stage {
        Stage::Start => empty,
        Stage::Code => product::Stage { kind: product::Stage::STARTED, ..empty },
        Stage::Size => product::Stage { kind: product::Stage::CODED, code, ..empty },
        Stage::Payload | Stage::Checksum => {
            product::Stage { kind: product::Stage::SIZED, code, size, count, sum }
        }
    };
    let begun = collector.began().unwrap_or(0);
    product::Collector { stage, begun, last: collector.last() }
}

const DOINGS: [(u8, Doing); 4] = [
    (product::Model::IDLE, Doing::Idle),
    (product::Model::SCANNING, Doing::Scanning { forced: false }),
    (product::Model::FORCE_SCANNING, Doing::Scanning { forced: true }),
    (product::Model::PROTECTION_STOP, Doing::Protection),
];

fn model_in(model: &product::Model) -> own::Model {
    let doing = DOINGS.iter().find(|doing| doing.0 == model.state).unwrap_or(&DOINGS[0]).1;
    let info = own::Info::read(&model.info.fields()).expect("twenty bytes");
    let status = u8::from(model.warning != 0);
    own::Model::at(doing, model.stable != 0, status, model.error, info).expect("0 or 1")
}

fn model_out(model: &own::Model, info: product::Info) -> product::Model {
    let state = DOINGS.iter().find(|doing| doing.1 == model.state()).expect("one of four").0;
    let (stable, warning) = (u8::from(model.motor_stable()), model.status_as_set());
    product::Model { info, error: model.health().error, state, stable, warning }
}

fn sample_in(sample: &product::Sample) -> own::Sample {
    own::Sample {
        start: sample.start != 0,
        quality: sample.quality,
        angle: Angle::from_q6(sample.angle.q6),
        distance: Distance::from_q2(sample.distance.q2),
    }
}

/// What gathering gives, with the cells lent after it.
fn gathered_own<T: Copy>(
    count: u16,
    (filling, closed): (&Cells, &Cells),
    call: impl FnOnce(&mut Gatherer, &mut Turn) -> Result<T, own::Refusal>,
    told: impl FnOnce(T) -> (usize, bool),
) -> Answer {
    let mut gatherer = gatherer_in(count, filling);
    let mut turn = Turn::EMPTY;
    let given = call(&mut gatherer, &mut turn);
    let (words, closes) = given.map_or((0, false), told);
    let closed = if closes { turn.cells.map(|cell| cell.q2()) } else { *closed };
    let after = if given.is_ok() { gatherer.samples() } else { count };
    let samples = usize::from(turn.samples);
    Answer::new(number(&given), &[samples, words], State::Gatherer(after))
        .words(&[&gatherer.cells().map(|cell| cell.q2()), &closed])
}

/// A call on a model, where a refusal leaves the very bytes.
fn model_own(
    model: &product::Model,
    call: impl FnOnce(&mut own::Model) -> Result<usize, own::Refusal>,
) -> Answer {
    let mut after = model_in(model);
    let given = call(&mut after);
    let state = if given.is_ok() { model_out(&after, model.info) } else { *model };
    Answer::new(number(&given), &[given.unwrap_or(0)], State::Model(state))
}

/// The bench's own answer.
pub fn own(case: &Case) -> Answer {
    match *case {
        Case::Tell { ref reader, code } => {
            let mut after = reader_in(reader);
            let told = after.tell(code);
            let state = if told.is_ok() { reader_out(&after) } else { *reader };
            Answer::new(number(&told), &[], State::Reader(state))
        }
        Case::Read { ref reader, ref bytes, room } => {
            let mut after = reader_in(reader);
            let mut row = vec![FILL_WORD; room];
            let outcome = after.read(bytes, &mut row);
            let told = [outcome.taken, outcome.words, outcome.stop as usize];
            Answer::new(0, &told, State::Reader(reader_out(&after)))
                .bytes(&outcome.reply)
                .words(&[&row])
        }
        Case::Drop { count } => {
            let mut gatherer = gatherer_in(count, &[0; 360]);
            gatherer.request_told();
            Answer::new(0, &[], State::Gatherer(gatherer.samples()))
        }
        Case::Sample { count, ref sample, ref filling, ref closed } => gathered_own(
            count,
            (filling, closed),
            |gatherer, turn| gatherer.sample(&sample_in(sample), turn),
            |closes| (0, closes),
        ),
        Case::Row { count, ref words, ref filling, ref closed } => gathered_own(
            count,
            (filling, closed),
            |gatherer, turn| gatherer.row(words, turn),
            |gathered| (gathered.words, gathered.closed),
        ),
        Case::Send { ref session, time, code, ref payload, room } => {
            let mut after = session_in(session);
            let mut out = vec![FILL; room];
            let written = after.request(time, code, payload, &mut out);
            let state = if written.is_ok() { session_out(&after) } else { *session };
            let told = [written.unwrap_or(0)];
            Answer::new(number(&written), &told, State::Session(state)).bytes(&out)
        }
        Case::ReplyEnded { ref session } => {
            let mut after = session_in(session);
            after.reply_ended();
            Answer::new(0, &[], State::Session(session_out(&after)))
        }
        Case::Byte { ref collector, time, byte, ref payload } => {
            let mut after = collector_in(collector, payload);
            let given = after.push(byte, time);
            let refusal = number(&given);
            let told = given
                .ok()
                .flatten()
                .map_or([0, 0, 0], |packet| [1, usize::from(packet.code), packet.payload.len()]);
            let state = if refusal == 0 { collector_out(&after) } else { *collector };
            Answer::new(refusal, &told, State::Collector(state)).bytes(&after.payload)
        }
        Case::Ask { ref model, code, room } => {
            let mut out = vec![FILL; room];
            model_own(model, |model| model.request(code, &mut out)).bytes(&out)
        }
        Case::ModelSample { ref model, ref sample, room } => {
            let mut out = vec![FILL; room];
            let answer = model_own(model, |model| model.sample(&sample_in(sample), &mut out));
            // The model is not handed back.
            Answer { state: State::Model(*model), ..answer }.bytes(&out)
        }
        Case::Fault { ref model } => model_own(model, |model| {
            model.fault();
            Ok(0)
        }),
        Case::Motor { ref model, stable } => model_own(model, |model| {
            model.set_motor_stable(stable != 0);
            Ok(0)
        }),
        Case::Error { ref model, error } => model_own(model, |model| {
            model.set_error(error);
            Ok(0)
        }),
        Case::Status { ref model, status } => {
            model_own(model, |model| model.set_status(status).map(|()| 0))
        }
        Case::Health { ref model, status, error } => {
            model_own(model, |model| model.set_health(status, error).map(|()| 0))
        }
    }
}

pub(super) fn session_in(session: &product::Session) -> Session {
    Session::at(session.last, session.wait, session.awaited != 0)
}

pub(super) fn session_out(session: &Session) -> product::Session {
    let (last, wait) = (session.last(), session.wait());
    product::Session { last, wait, awaited: session.awaiting().into() }
}

/// The product's answer.
pub fn product(case: &Case) -> Answer {
    let set =
        |product::HealthSet { model, refusal }| Answer::new(refusal, &[0], State::Model(model));
    let model_told = |model| Answer::new(0, &[0], State::Model(model));
    match *case {
        Case::Tell { reader, code } => {
            let told = reader.tell(code);
            Answer::new(told.refusal, &[], State::Reader(told.reader))
        }
        Case::Read { reader, ref bytes, room } => {
            let mut row = vec![FILL_WORD; room];
            let reading = reader.read(bytes, &mut row);
            let told = vec![reading.taken, reading.words, reading.stop.into()];
            let state = State::Reader(reading.reader);
            Answer { refusal: 0, told, state, bytes: reading.reply.to_vec(), words: row }
        }
        Case::Drop { count } => {
            let gatherer = product::Gatherer { count }.request();
            Answer::new(0, &[], State::Gatherer(gatherer.count))
        }
        Case::Sample { count, sample, mut filling, mut closed } => {
            let gathered = product::Gatherer { count }.sample(sample, &mut filling, &mut closed);
            let product::Gathered { gatherer, turn, refusal } = gathered;
            let told = vec![turn.into(), 0];
            let state = State::Gatherer(gatherer.count);
            Answer { refusal, told, state, bytes: vec![], words: [filling, closed].concat() }
        }
        Case::Row { count, ref words, mut filling, mut closed } => {
            let row = product::Gatherer { count }.row(words, &mut filling, &mut closed);
            let product::Gathered { gatherer, turn, refusal } = row.gathered;
            let told = vec![turn.into(), row.words];
            let state = State::Gatherer(gatherer.count);
            Answer { refusal, told, state, bytes: vec![], words: [filling, closed].concat() }
        }
        Case::Send { session, time, code, ref payload, room } => {
            let mut out = vec![FILL; room];
            let sent = session.send(time, code, payload, &mut out);
            let product::Written { bytes, refusal } = sent.written;
            let state = State::Session(sent.session);
            Answer { refusal, told: vec![bytes], state, bytes: out, words: vec![] }
        }
        Case::ReplyEnded { session } => Answer::new(0, &[], State::Session(session.reply_ended())),
        Case::Byte { collector, time, byte, mut payload } => {
            let given = collector.byte(time, byte, &mut payload);
            let told = [given.complete, given.code, given.size].map(usize::from).to_vec();
            let state = State::Collector(given.collector);
            let (refusal, bytes) = (given.refusal, payload.to_vec());
            Answer { refusal, told, state, bytes, words: vec![] }
        }
        Case::Ask { model, code, room } => {
            let mut out = vec![FILL; room];
            let product::Asked { model, written } = model.request(code, &mut out);
            let (refusal, told) = (written.refusal, vec![written.bytes]);
            Answer { refusal, told, state: State::Model(model), bytes: out, words: vec![] }
        }
        Case::ModelSample { model, sample, room } => {
            let mut out = vec![FILL; room];
            let product::Written { bytes, refusal } = model.sample(sample, &mut out);
            let (told, state) = (vec![bytes], State::Model(model));
            Answer { refusal, told, state, bytes: out, words: vec![] }
        }
        Case::Fault { model } => model_told(model.fault()),
        Case::Motor { model, stable } => model_told(model.set_motor(stable)),
        Case::Error { model, error } => model_told(model.set_error(error)),
        Case::Status { model, status } => set(model.set_status(status)),
        Case::Health { model, status, error } => set(model.set_health(status, error)),
    }
}

// Cases.

/// A byte that is mostly a small number.
pub(super) fn small(rng: &mut Rng, limit: usize) -> u8 {
    if rng.one_in(4) {
        rng.byte()
    } else {
        rng.below(limit) as u8
    }
}

pub(super) fn any_reader(rng: &mut Rng) -> product::Reader {
    let known = gen::reader_state(rng);
    let mut held = rng.array();
    let front = known.held.bytes();
    held[..front.len()].copy_from_slice(front);
    let n = if rng.one_in(2) { front.len() as u8 } else { small(rng, 22) };
    product::Reader { phase: small(rng, 9), n, held, skipped: known.skipped }
}

fn any_sample(rng: &mut Rng) -> product::Sample {
    let quality = if rng.one_in(6) { gen::edge_byte(rng) } else { rng.below(64) as u8 };
    product::Sample::new(small(rng, 3), quality, gen::angle(rng), gen::edge_word(rng))
}

fn any_model(rng: &mut Rng) -> product::Model {
    product::Model {
        info: product::Info::new(&rng.array()),
        error: gen::edge_word(rng),
        state: small(rng, 5),
        stable: small(rng, 2),
        warning: small(rng, 3),
    }
}

fn any_collector(rng: &mut Rng, last: u64) -> product::Collector {
    let begun = match rng.below(4) {
        0 => rng.long(),
        1 => gen::time_near(rng, last),
        _ => last.saturating_sub(rng.pick(&[0, 1, 4_999, 5_000, 5_001])),
    };
    let (size, count) = (small(rng, 4), small(rng, 5));
    let stage =
        product::Stage { kind: small(rng, 5), code: rng.byte(), size, count, sum: rng.byte() };
    product::Collector { stage, begun, last }
}

/// Cells, few of them with a distance, or all random.
pub(super) fn any_cells(rng: &mut Rng) -> Cells {
    if rng.one_in(2) {
        return std::array::from_fn(|_| rng.word());
    }
    let mut cells = [0; 360];
    for _ in 0..rng.below(6) {
        cells[rng.below(360)] = gen::edge_word(rng);
    }
    cells
}

/// One call on any state.
pub fn make(rng: &mut Rng) -> Case {
    let count = |rng: &mut Rng| match rng.below(3) {
        0 => rng.pick(&[0, 1, 8_191, 8_192, 8_193, u16::MAX]),
        1 => 0,
        _ => rng.word(),
    };
    let time = |rng: &mut Rng| match rng.below(3) {
        0 => rng.long(),
        1 => rng.pick(&[0, 1, 5_000, u64::MAX - 1, u64::MAX]),
        _ => rng.below(20_000) as u64,
    };
    match rng.below(20) {
        0 => Case::Tell { reader: any_reader(rng), code: gen::code(rng) },
        1..=5 => {
            let mut bytes = gen::stream(rng);
            bytes.truncate(rng.below(60));
            Case::Read { reader: any_reader(rng), room: gen::row_room(rng, bytes.len()), bytes }
        }
        6 => Case::Drop { count: count(rng) },
        7 => Case::Sample {
            count: count(rng),
            sample: any_sample(rng),
            filling: any_cells(rng),
            closed: any_cells(rng),
        },
        8 => {
            let mut words: Vec<u16> = (0..rng.below(6))
                .flat_map(|_| gen::fit_sample(rng).to_words().expect("it fits"))
                .collect();
            if rng.one_in(4) {
                words.push(gen::edge_word(rng));
            }
            let (filling, closed) = (any_cells(rng), any_cells(rng));
            Case::Row { count: count(rng), words, filling, closed }
        }
        9..=11 => {
            let last = time(rng);
            let wait = if rng.one_in(3) { rng.long() } else { rng.below(4) as u64 };
            let session = product::Session { last, wait, awaited: small(rng, 3) };
            let payload = if rng.one_in(8) { vec![rng.byte()] } else { Vec::new() };
            let room = gen::room(rng, 2);
            Case::Send {
                session,
                time: gen::time_near(rng, last),
                code: gen::code(rng),
                payload,
                room,
            }
        }
        12 => {
            let (last, wait) = (time(rng), rng.long());
            Case::ReplyEnded { session: product::Session { last, wait, awaited: small(rng, 3) } }
        }
        13..=15 => {
            let last = time(rng);
            let collector = any_collector(rng, last);
            let byte = match rng.below(3) {
                0 => 0xA5,
                1 => collector.stage.sum,
                _ => gen::edge_byte(rng),
            };
            let time = match rng.below(3) {
                0 => collector.begun.saturating_add(rng.pick(&[4_999, 5_000, 5_001])),
                _ => gen::time_near(rng, last),
            };
            Case::Byte { collector, time, byte, payload: rng.array() }
        }
        16 => {
            let needed = rng.pick(&[0, 7, 10, 27]);
            Case::Ask { model: any_model(rng), code: gen::code(rng), room: gen::room(rng, needed) }
        }
        17 => Case::ModelSample {
            model: any_model(rng),
            sample: any_sample(rng),
            room: gen::room(rng, 5),
        },
        18 => Case::Status { model: any_model(rng), status: small(rng, 4) },
        _ => match rng.below(4) {
            0 => Case::Fault { model: any_model(rng) },
            1 => Case::Motor { model: any_model(rng), stable: small(rng, 3) },
            2 => Case::Error { model: any_model(rng), error: gen::edge_word(rng) },
            _ => {
                let (status, error) = (small(rng, 4), gen::edge_word(rng));
                Case::Health { model: any_model(rng), status, error }
            }
        },
    }
}

/// Compares the product with the bench's own program.
pub fn against_product(plan: &Plan) -> Compared<Case, Answer> {
    compare(plan, Pair { part: "states", make: &make, own: &own, other: &mut product })
}
