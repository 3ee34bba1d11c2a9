//! Deterministic generators of inputs, each from a printed seed: plain values, edges, damage.

use crate::compare::{codec, collector, model, record, ring, session, stream, text, turns};
use crate::own::ring::RING_BYTES;
use crate::own::{listing, write_request, Angle, Distance, Info, Model, Record, Request, Sample};

/// A small generator of random numbers.
#[derive(Clone, Debug)]
pub struct Rng {
    state: u64,
}

impl Rng {
    /// The generator of a seed.
    pub fn new(seed: u64) -> Rng {
        Rng { state: seed }
    }

    /// The generator of one case of a seed: each case can be made again alone.
    pub fn of_case(seed: u64, number: u64) -> Rng {
        let mut rng = Rng::new(seed);
        rng.state ^= Rng::new(number.wrapping_mul(0xD1B5_4A32_D192_ED03)).long();
        rng
    }

    /// The next 64 random bits (splitmix).
    pub fn long(&mut self) -> u64 {
        self.state = self.state.wrapping_add(0x9E37_79B9_7F4A_7C15);
        let mut z = self.state;
        z = (z ^ z >> 30).wrapping_mul(0xBF58_476D_1CE4_E5B9);
        z = (z ^ z >> 27).wrapping_mul(0x94D0_49BB_1331_11EB);
        z ^ z >> 31
    }

    /// A random byte.
    pub fn byte(&mut self) -> u8 {
        (self.long() >> 56) as u8
    }

    /// A random word.
    pub fn word(&mut self) -> u16 {
        (self.long() >> 48) as u16
    }

    /// A number below a limit, which is not zero.
    pub fn below(&mut self, limit: usize) -> usize {
        ((u128::from(self.long()) * limit as u128) >> 64) as usize
    }

    /// True once in so many.
    pub fn one_in(&mut self, many: usize) -> bool {
        self.below(many) == 0
    }

    /// One of some values.
    pub fn pick<T: Copy>(&mut self, values: &[T]) -> T {
        values[self.below(values.len())]
    }

    /// So many random bytes.
    pub fn bytes(&mut self, length: usize) -> Vec<u8> {
        (0..length).map(|_| self.byte()).collect()
    }

    /// So many bytes, each one of some values.
    pub fn bytes_of(&mut self, length: usize, values: &[u8]) -> Vec<u8> {
        (0..length).map(|_| self.pick(values)).collect()
    }

    /// An array of random bytes.
    pub fn array<const N: usize>(&mut self) -> [u8; N] {
        std::array::from_fn(|_| self.byte())
    }
}

// Plain values and edges.

/// A code: mostly of the six, else one beside them or any.
pub fn code(rng: &mut Rng) -> u8 {
    match rng.below(10) {
        0 => rng.pick(&[0x00, 0x22, 0x24, 0x26, 0x41, 0x51, 0x53, 0x7F, 0x80, 0x82, 0xA5, 0xFF]),
        1 => rng.byte(),
        _ => rng.pick(&Request::ALL).code(),
    }
}

/// A byte, often one at an edge.
pub fn edge_byte(rng: &mut Rng) -> u8 {
    match rng.below(3) {
        0 => rng.pick(&[0, 1, 2, 3, 62, 63, 64, 65, 127, 128, 179, 180, 254, 255]),
        _ => rng.byte(),
    }
}

/// A word, often one at an edge.
pub fn edge_word(rng: &mut Rng) -> u16 {
    const EDGES: [u16; 22] = [
        0, 1, 2, 63, 64, 126, 127, 128, 129, 255, 256, 8_191, 8_192, 8_193, 22_976, 23_039, 23_040,
        23_041, 32_767, 32_768, 65_534, 65_535,
    ];
    match rng.below(3) {
        0 => rng.pick(&EDGES),
        _ => rng.word(),
    }
}

/// An angle that mostly fits.
pub fn angle(rng: &mut Rng) -> u16 {
    match rng.below(8) {
        0 => edge_word(rng),
        1 => rng.pick(&[0, 63, 64, 23_038, 23_039, 23_040]),
        _ => rng.below(usize::from(Angle::WHOLE_TURN)) as u16,
    }
}

/// A time around another: the same, before it, or beyond one of the paper's waits.
pub fn time_near(rng: &mut Rng, time: u64) -> u64 {
    match rng.below(24) {
        0 => time.wrapping_sub(1),
        1 => rng.pick(&[0, 1, u64::MAX - 1, u64::MAX]),
        2 => rng.long(),
        3 => time.saturating_sub(rng.below(6_000) as u64),
        4 => time.saturating_add(rng.pick(&[4_998, 4_999, 5_000, 5_001, 5_002])),
        5..=10 => time,
        11..=20 => time.saturating_add(rng.pick(&[1, 2, 3])),
        _ => time.saturating_add(rng.below(6_000) as u64),
    }
}

/// The room for an output: enough, exactly enough, one too little, any.
pub fn room(rng: &mut Rng, needed: usize) -> usize {
    match rng.below(8) {
        0 => needed.saturating_sub(1),
        1 => rng.below(needed + 4),
        2 => needed + 1 + rng.below(20),
        _ => needed,
    }
}

/// A sample that fits.
pub fn fit_sample(rng: &mut Rng) -> Sample {
    Sample {
        start: rng.one_in(8),
        quality: rng.below(64) as u8,
        angle: Angle::from_q6(rng.below(usize::from(Angle::WHOLE_TURN)) as u16),
        distance: Distance::from_q2(if rng.one_in(5) { 0 } else { edge_word(rng) }),
    }
}

/// The five bytes of a sample that fits.
pub fn sample_bytes(rng: &mut Rng) -> [u8; 5] {
    let mut bytes = [0; 5];
    fit_sample(rng).write(&mut bytes).expect("it fits");
    bytes
}

/// A record that reads.
pub fn record_bytes(rng: &mut Rng) -> Vec<u8> {
    let mut cells = [Distance::NONE; 360];
    let filled = rng.pick(&[0, 1, 2, 360]);
    for _ in 0..filled {
        cells[rng.below(360)] = Distance::from_q2(edge_word(rng));
    }
    let samples = match rng.below(4) {
        0 => rng.pick(&[1, 2, 8_191, 8_192]),
        _ => 1 + rng.below(8_192) as u16,
    };
    let number = rng.long() as u32 >> rng.below(32);
    let mut bytes = vec![0; 754];
    Record { number, samples, serial: rng.array(), cells }.write(&mut bytes).expect("it fits");
    bytes
}

/// Bytes that may be a record: right, one byte off, of another length, in another order, or noise.
pub fn near_record(rng: &mut Rng) -> Vec<u8> {
    let mut bytes = record_bytes(rng);
    match rng.below(10) {
        0 => {
            let place = rng.pick(&[0, 1, 2, 7, 8, 9, 10, 11, 12, 13, 14, 31, 32, 33]);
            bytes[place] = edge_byte(rng);
        }
        1 => {
            let count = rng.pick(&[0, 1, 8_192, 8_193, 0x2100, 0xFFFF]) as u16;
            bytes[10..12].copy_from_slice(&count.to_le_bytes());
        }
        2 => {
            let place = rng.below(754);
            bytes[place] ^= 1 << rng.below(8);
        }
        3 => bytes.truncate(rng.pick(&[0, 1, 753])),
        4 => bytes.push(rng.byte()),
        5 => bytes[..12].rotate_left(7),
        6 if rng.one_in(3) => bytes = rng.bytes(754),
        _ => {}
    }
    bytes
}

// Streams.

const DESCRIPTORS: [[u8; 7]; 3] = [
    [0xA5, 0x5A, 0x05, 0x00, 0x00, 0x40, 0x81],
    [0xA5, 0x5A, 0x14, 0x00, 0x00, 0x00, 0x04],
    [0xA5, 0x5A, 0x03, 0x00, 0x00, 0x00, 0x06],
];
/// The bytes that descriptors are made of.
const DESCRIPTOR_ALPHABET: [u8; 8] = [0xA5, 0xA5, 0x5A, 0x05, 0x00, 0x40, 0x81, 0x14];
/// Bytes of which many fives pass and many fail by one check.
const SAMPLE_ALPHABET: [u8; 8] = [0x01, 0x02, 0x3D, 0x03, 0x00, 0xB3, 0xB4, 0xFF];

/// Bytes that are nearly a descriptor: a bit off, cut short, or with its beginning doubled.
pub fn near_descriptor(rng: &mut Rng) -> Vec<u8> {
    let mut bytes = rng.pick(&DESCRIPTORS).to_vec();
    match rng.below(5) {
        0 => bytes[rng.below(7)] ^= 1 << rng.below(8),
        1 => bytes.truncate(rng.below(7)),
        2 => {
            let doubled = bytes[..rng.below(7)].to_vec();
            bytes.splice(0..0, doubled);
        }
        3 => bytes.insert(0, 0xA5),
        _ => return rng.bytes_of(7, &DESCRIPTOR_ALPHABET),
    }
    bytes
}

/// A stretch of a stream.
fn stretch(rng: &mut Rng) -> Vec<u8> {
    match rng.below(12) {
        0 => {
            let length = rng.below(40);
            rng.bytes(length)
        }
        1 => {
            let length = rng.below(20);
            rng.bytes_of(length, &DESCRIPTOR_ALPHABET)
        }
        2 => {
            let length = rng.below(30);
            rng.bytes_of(length, &SAMPLE_ALPHABET)
        }
        3 => near_descriptor(rng),
        4 => vec![rng.pick(&[0x00, 0xA5, 0x01, 0x02]); rng.below(16)],
        5 => {
            let mut bytes = DESCRIPTORS[1].to_vec();
            bytes.extend(rng.array::<20>());
            bytes
        }
        6 => {
            let mut bytes = DESCRIPTORS[2].to_vec();
            bytes.extend([rng.below(5) as u8, rng.byte(), rng.byte()]);
            bytes
        }
        7 => rng.pick(&DESCRIPTORS).to_vec(),
        _ => (0..rng.below(12)).flat_map(|_| sample_bytes(rng)).collect(),
    }
}

/// A stream of some stretches, a scan's descriptor mostly first, damaged one time in two.
pub fn stream(rng: &mut Rng) -> Vec<u8> {
    let mut bytes = Vec::new();
    if !rng.one_in(3) {
        bytes.extend(rng.pick(&DESCRIPTORS));
    }
    for _ in 0..rng.below(6) {
        bytes.extend(stretch(rng));
    }
    if rng.one_in(10) {
        // Long enough for everything that is done in blocks.
        let samples = rng.below(300);
        bytes.extend((0..samples).flat_map(|_| sample_bytes(rng)));
    }
    if rng.one_in(2) {
        let times = 1 + rng.below(1 + bytes.len() / 20);
        for _ in 0..times {
            damage(rng, &mut bytes);
        }
    }
    bytes
}

/// A scan of so many closed turns, each with samples of its own, and the sample that closes the last.
pub fn scan(rng: &mut Rng, turns: usize) -> Vec<u8> {
    let mut model = Model::new(Info::default());
    let mut bytes = vec![0; 7];
    model.request(Request::ForceScan.code(), &mut bytes).expect("a scan");
    for turn in 0..=turns {
        let samples = if turn < turns { 1 + rng.below(40) } else { 1 };
        for n in 0..samples {
            let sample = Sample {
                start: n == 0,
                quality: 9,
                angle: Angle::from_q6(rng.below(usize::from(Angle::WHOLE_TURN)) as u16),
                distance: Distance::from_q2(rng.word()),
            };
            let mut out = [0; 5];
            model.sample(&sample, &mut out).expect("a fit sample");
            bytes.extend(out);
        }
    }
    bytes
}

/// Damages a stream at one place: a bit flipped, a byte dropped, inserted, doubled or replaced.
pub fn damage(rng: &mut Rng, bytes: &mut Vec<u8>) {
    if bytes.is_empty() {
        return;
    }
    let place = rng.below(bytes.len());
    match rng.below(5) {
        0 => bytes[place] ^= 1 << rng.below(8),
        1 => {
            bytes.remove(place);
        }
        2 => bytes.insert(place, rng.byte()),
        3 => bytes.insert(place, bytes[place]),
        _ => bytes[place] = rng.byte(),
    }
}

/// Cuts a stream into pieces: whole, byte by byte, around the lengths of things, or at random.
pub fn cut(rng: &mut Rng, bytes: &[u8]) -> Vec<Vec<u8>> {
    let kind = rng.below(5);
    let mut rest = bytes;
    let mut pieces = Vec::new();
    while !rest.is_empty() {
        let size = match kind {
            0 => rest.len(),
            1 => 1,
            2 => rng.pick(&[1, 2, 3, 4, 5, 6, 7, 8, 20]),
            3 => rng.below(13),
            _ => 1 + rng.below(200),
        };
        let (piece, after) = rest.split_at(size.min(rest.len()));
        pieces.push(piece.to_vec());
        rest = after;
    }
    if rng.one_in(20) {
        pieces.push(Vec::new());
    }
    pieces
}

/// The words lent to a call of the reader: few, or enough for so many bytes.
pub fn row_room(rng: &mut Rng, bytes: usize) -> usize {
    match rng.below(4) {
        0 => rng.below(4),
        1 => rng.below(10),
        2 => rng.below(60),
        _ => bytes + 3,
    }
}

// Cases for each part.

/// A call of a codec.
pub fn codec_case(rng: &mut Rng) -> codec::Case {
    use codec::Case;
    let near = |rng: &mut Rng, mut bytes: Vec<u8>| {
        if rng.one_in(2) {
            damage(rng, &mut bytes);
        }
        bytes
    };
    let length = |rng: &mut Rng, right: usize| match rng.below(6) {
        0 => rng.below(2 * right + 2),
        _ => right,
    };
    match rng.below(12) {
        0 => {
            let code = if rng.one_in(2) { rng.byte() | 0x80 } else { code(rng) };
            let most = match rng.below(20) {
                0 => rng.pick(&[254, 255, 256, 257, 300]),
                _ => rng.below(12),
            };
            let size = if code < 0x80 && !rng.one_in(4) { 0 } else { most };
            let needed = if code < 0x80 { 2 } else { size + 4 };
            Case::WriteRequest { code, payload: rng.bytes(size), room: room(rng, needed) }
        }
        1 => {
            let bytes = if rng.one_in(4) {
                let length = length(rng, 7);
                rng.bytes_of(length, &DESCRIPTOR_ALPHABET)
            } else {
                let mut bytes = rng.pick(&DESCRIPTORS).to_vec();
                if rng.one_in(2) {
                    bytes[2..].copy_from_slice(&rng.array::<5>());
                }
                near(rng, bytes)
            };
            Case::ReadDescriptor { bytes }
        }
        2 => {
            let length = match rng.below(3) {
                0 => rng.pick(&[0, 5, 20, (1 << 30) - 1, 1 << 30, (1 << 30) + 1, u32::MAX]),
                _ => rng.long() as u32 >> rng.below(32),
            };
            let mode = rng.pick(&[0, 0, 0, 1, 1, 1, 2, 3, 4, 255]);
            Case::WriteDescriptor { length, mode, kind: rng.byte(), room: room(rng, 7) }
        }
        3 => {
            let length = length(rng, 20);
            Case::ReadInfo { bytes: rng.bytes(length) }
        }
        4 => Case::WriteInfo { fields: rng.array(), room: room(rng, 20) },
        5 => {
            let length = length(rng, 3);
            let mut bytes = rng.bytes(length);
            if let (Some(status), false) = (bytes.first_mut(), rng.one_in(4)) {
                *status = rng.below(5) as u8;
            }
            Case::ReadHealth { bytes }
        }
        6 => {
            let status = if rng.one_in(4) { edge_byte(rng) } else { rng.below(3) as u8 };
            Case::WriteHealth { status, error: edge_word(rng), room: room(rng, 3) }
        }
        7 => {
            let bytes = if rng.one_in(3) {
                let length = length(rng, 5);
                rng.bytes_of(length, &SAMPLE_ALPHABET)
            } else {
                let bytes = sample_bytes(rng).to_vec();
                near(rng, bytes)
            };
            Case::ReadSample { bytes }
        }
        8 => Case::WriteSample {
            start: rng.one_in(2),
            quality: if rng.one_in(5) { edge_byte(rng) } else { rng.below(64) as u8 },
            angle: angle(rng),
            distance: edge_word(rng),
            room: room(rng, 5),
        },
        9 => Case::ToWords {
            start: rng.one_in(2),
            quality: if rng.one_in(5) { edge_byte(rng) } else { rng.below(64) as u8 },
            angle: angle(rng),
            distance: edge_word(rng),
            room: room(rng, 3),
        },
        10 => {
            let mut words = fit_sample(rng).to_words().expect("it fits");
            if rng.one_in(2) {
                words[rng.below(3)] = edge_word(rng);
            }
            Case::FromWords { words }
        }
        _ => {
            let length = rng.below(12);
            let mut bytes = sample_bytes(rng).to_vec();
            bytes.extend(rng.bytes(length));
            bytes.truncate(length.max(4));
            Case::ReadFront { bytes: near(rng, bytes) }
        }
    }
}

/// A call with a turn record.
pub fn record_case(rng: &mut Rng) -> record::Case {
    use record::Case;
    match rng.below(5) {
        0 => Case::Read { bytes: near_record(rng) },
        1 => {
            let cell = match rng.below(3) {
                0 => rng.pick(&[0, 1, 358, 359, 360, 361, usize::MAX]),
                _ => rng.below(360),
            };
            Case::Cell { bytes: near_record(rng), cell }
        }
        2 => Case::Serial { bytes: near_record(rng), room: room(rng, 16) },
        _ => {
            let samples = if rng.one_in(3) { edge_word(rng) } else { 1 + rng.below(8_192) as u16 };
            Case::Write {
                number: rng.long() as u32,
                samples,
                serial: rng.array(),
                cells: std::array::from_fn(|_| edge_word(rng)),
                room: room(rng, 754),
            }
        }
    }
}

/// A session of some requests around every time edge, from a fresh or a random state.
pub fn session_case(rng: &mut Rng) -> session::Case {
    use session::{Case, State, Step};
    let mut state = State { last: 0, wait: 0, awaiting: false };
    if rng.one_in(2) {
        let last = match rng.below(3) {
            0 => rng.pick(&[1, 2, u64::MAX - 2, u64::MAX - 1, u64::MAX]),
            1 => rng.long(),
            _ => rng.below(10_000) as u64,
        };
        state = State { last, wait: rng.below(3) as u8, awaiting: rng.one_in(2) };
    }
    let mut time = state.last;
    let steps = (0..1 + rng.below(12)).map(|_| {
        if rng.one_in(6) {
            return Step::ReplyEnded;
        }
        let now = time_near(rng, time);
        // Times go on from most requests, also from some that are refused.
        if now >= time && !rng.one_in(8) {
            time = now;
        }
        let size = if rng.one_in(10) { rng.below(4) } else { 0 };
        Step::Request { now, code: code(rng), payload: rng.bytes(size), room: room(rng, 2) }
    });
    Case { steps: steps.collect(), state }
}

/// Bytes for a collector: packets right and damaged, with times around every edge.
pub fn collector_case(rng: &mut Rng) -> collector::Case {
    let mut stream = Vec::new();
    for _ in 0..1 + rng.below(5) {
        let code = if rng.one_in(2) { code(rng) } else { rng.byte() };
        let size = match rng.below(30) {
            _ if code < 0x80 => 0,
            0 => 250 + rng.below(6),
            _ => rng.below(6),
        };
        let mut packet = vec![0; size + 4];
        let payload = rng.bytes(size);
        let length = write_request(code, &payload, &mut packet).expect("it suits");
        packet.truncate(length);
        match rng.below(8) {
            0 => damage(rng, &mut packet),
            1 => packet.truncate(rng.below(length)),
            2 => {
                let size = rng.below(4);
                packet.splice(0..0, rng.bytes_of(size, &[0xA5, 0x00, 0x80]));
            }
            _ => {}
        }
        stream.extend(packet);
    }
    let mut time = match rng.below(4) {
        0 => rng.pick(&[0, 1, u64::MAX - 5_001, u64::MAX - 5_000, u64::MAX - 1]),
        _ => rng.below(20_000) as u64,
    };
    let mut began = time;
    let mut state = collector::State::default();
    if rng.one_in(3) {
        state = collector_state(rng, time);
        if !state.packet.is_empty() {
            began = state.began;
        }
    }
    let pace = rng.below(4);
    let bytes = stream.into_iter().map(|byte| {
        let now = match rng.below(16) {
            0 => began.saturating_add(rng.pick(&[4_999, 5_000, 5_001])),
            1 => time_near(rng, time),
            _ => time.saturating_add(match pace {
                0 => 0,
                1 => 1,
                2 => rng.below(1_300) as u64,
                _ => rng.below(4) as u64,
            }),
        };
        if byte == 0xA5 {
            began = now;
        }
        if now >= time {
            time = now;
        }
        (byte, now)
    });
    collector::Case { bytes: bytes.collect(), state }
}

/// A state of a collector that took its last byte at a given time.
pub fn collector_state(rng: &mut Rng, last: u64) -> collector::State {
    let size = rng.below(6);
    let mut packet = vec![0xA5, rng.byte() | 0x80, size as u8];
    packet.extend(rng.bytes(size));
    packet.truncate(rng.below(packet.len() + 1));
    let ago = match rng.below(3) {
        0 => rng.pick(&[0, 1, 4_999, 5_000, 5_001]),
        _ => rng.below(6_000) as u64,
    };
    let began = if packet.is_empty() { 0 } else { last.saturating_sub(ago) };
    collector::State { last, began, packet }
}

/// Calls to a model.
pub fn model_case(rng: &mut Rng) -> model::Case {
    use model::{Case, State, Step};
    let steps = (0..1 + rng.below(16)).map(|_| match rng.below(16) {
        0 => Step::Fault,
        1 | 2 => Step::MotorStable { stable: rng.one_in(2) },
        3 => Step::Status { status: if rng.one_in(4) { rng.byte() } else { rng.below(4) as u8 } },
        4 => Step::Error { error: edge_word(rng) },
        5 => Step::Health { status: rng.below(4) as u8, error: edge_word(rng) },
        6..=9 => Step::Sample {
            start: rng.one_in(2),
            quality: if rng.one_in(6) { edge_byte(rng) } else { rng.below(64) as u8 },
            angle: angle(rng),
            distance: edge_word(rng),
            room: room(rng, 5),
        },
        _ => {
            let code = code(rng);
            let needed = match Request::from_code(code) {
                Ok(Request::Scan | Request::ForceScan) => 7,
                Ok(Request::GetInfo) => 27,
                Ok(Request::GetHealth) => 10,
                _ => 0,
            };
            Step::Request { code, room: room(rng, needed) }
        }
    });
    let steps = steps.collect();
    let mut state = State::default();
    if rng.one_in(2) {
        let doing = rng.below(4) as u8;
        let (stable, status) = (rng.one_in(2), rng.below(2) as u8);
        state = State { doing, stable, status, error: edge_word(rng) };
    }
    Case { state, steps, info: rng.array() }
}

/// A state of a reader with bytes held that it can hold.
pub fn reader_state(rng: &mut Rng) -> stream::State {
    let phase = rng.below(7);
    let count = rng.below(stream::State::LARGEST_HELD[phase] + 1);
    let held = match phase {
        1..=3 => {
            let wanted = DESCRIPTORS[phase - 1];
            match rng.below(3) {
                0 => wanted[..count].to_vec(),
                _ => rng.bytes_of(count, &DESCRIPTOR_ALPHABET),
            }
        }
        4 => match rng.below(3) {
            0 => sample_bytes(rng)[..count].to_vec(),
            _ => rng.bytes_of(count, &SAMPLE_ALPHABET),
        },
        _ => rng.bytes(count),
    };
    let skipped = match rng.below(3) {
        0 => u32::MAX - rng.below(100) as u32,
        1 => rng.long() as u32,
        _ => 0,
    };
    stream::State { phase: phase as u8, held: stream::Held::new(&held), skipped }
}

/// A stream valid or damaged, cut anywhere, with rooms; from a fresh or a random state.
pub fn stream_case(rng: &mut Rng) -> stream::Case {
    use stream::{Case, Step};
    let state = if rng.one_in(3) { reader_state(rng) } else { stream::State::default() };
    let mut steps = Vec::new();
    for _ in 0..1 + rng.below(2) {
        if state == stream::State::default() || rng.one_in(2) {
            let scan = [Request::Scan.code(), Request::ForceScan.code()];
            let code = if rng.one_in(2) { rng.pick(&scan) } else { code(rng) };
            steps.push(Step::Tell { code });
        }
        let bytes = stream(rng);
        let pieces = cut(rng, &bytes);
        let fixed = rng.one_in(2).then(|| row_room(rng, 200));
        steps.extend(pieces.into_iter().map(|bytes| {
            let room = fixed.unwrap_or_else(|| row_room(rng, bytes.len()));
            Step::Read { bytes, room }
        }));
    }
    Case { state, steps }
}

/// Samples one by one and in rows, with turns short, long, and too long.
pub fn turns_case(rng: &mut Rng) -> turns::Case {
    use turns::{Case, Open, Step};
    let word_sample = |rng: &mut Rng| {
        let sample = fit_sample(rng);
        // Few cells and few distances, so that samples meet in a cell.
        let angle = if rng.one_in(2) { rng.below(200) as u16 } else { sample.angle.q6() };
        let distance = if rng.one_in(2) { rng.below(4) as u16 } else { sample.distance.q2() };
        let tag = u16::from(sample.quality) * 2 + u16::from(sample.start);
        [angle, distance, tag]
    };
    let steps = (0..1 + rng.below(8)).map(|_| match rng.below(10) {
        0 => Step::RequestTold,
        1 | 2 => Step::Sample {
            start: rng.one_in(3),
            quality: if rng.one_in(6) { edge_byte(rng) } else { rng.below(64) as u8 },
            angle: angle(rng),
            distance: edge_word(rng),
        },
        3 => {
            let mut sample = word_sample(rng);
            sample[2] &= !1;
            let count = match rng.below(3) {
                0 => rng.below(20_000),
                _ => rng.pick(&[8_189, 8_190, 8_191, 8_192, 8_193]),
            };
            Step::Repeat { sample, count }
        }
        4 => {
            let mut words: Vec<u16> = (0..rng.below(20)).flat_map(|_| word_sample(rng)).collect();
            match rng.below(3) {
                0 if !words.is_empty() => {
                    let place = rng.below(words.len());
                    words[place] = edge_word(rng);
                }
                1 => words.push(0),
                _ => {
                    words.pop();
                }
            }
            Step::Row { words }
        }
        _ => Step::Row { words: (0..rng.below(60)).flat_map(|_| word_sample(rng)).collect() },
    });
    let steps = steps.collect();
    let mut open = Open::default();
    if rng.one_in(3) {
        open.samples = rng.pick(&[1, 2, 360, 8_190, 8_191, 8_192]);
        let cells = rng.below(6);
        open.cells = (0..cells).map(|_| (rng.below(360) as u16, edge_word(rng))).collect();
    }
    Case { open, steps }
}

/// A ring image with any head and slots right, one byte off and full of garbage.
pub fn ring_image(rng: &mut Rng) -> ring::Image {
    let length = match rng.below(40) {
        0 => rng.pick(&[0, 1, 754, RING_BYTES - 1, RING_BYTES + 1, 64_513]),
        _ => RING_BYTES,
    };
    let head = match rng.below(6) {
        0 => rng.pick(&[0, 1, 2, 62, 63, 64, 65, 126, 127, 128, 129, 255]),
        1 => rng.byte(),
        _ => rng.below(128) as u8,
    };
    let full = rng.one_in(8);
    let slots =
        if full { (0..64).collect() } else { rng.bytes_of(3, &(0..64).collect::<Vec<_>>()) };
    let slots = slots.into_iter().map(|slot| {
        let mut content = near_record(rng);
        if rng.one_in(4) {
            content.resize(768, 0);
            content[754..].copy_from_slice(&rng.array::<14>());
        }
        (slot, content)
    });
    let slots = slots.collect();
    let filler = if rng.one_in(2) { 0 } else { rng.byte() };
    ring::Image { length, filler, head, slots }
}

/// One call on a ring.
pub fn ring_case(rng: &mut Rng) -> ring::Case {
    use ring::{Call, Case};
    let image = ring_image(rng);
    let call = match rng.below(11) {
        0 => Call::Held,
        10 => Call::NextNumber,
        1..=3 => {
            let k = match rng.below(4) {
                0 => rng.pick(&[0, 1, 752, 753, 754, 755, 756, 767, 768, usize::MAX]),
                _ => rng.below(755),
            };
            Call::Store { record: near_record(rng), k }
        }
        4 => Call::Add { record: near_record(rng) },
        5 | 6 => {
            let i = match rng.below(4) {
                0 => rng.pick(&[0, 61, 62, 63, 64, 65, 255, 256, usize::MAX]),
                _ => rng.below(64),
            };
            Call::Turn { i }
        }
        7 => Call::AllRead,
        8 => Call::Erase,
        _ => {
            // Mostly what is needed; or what the header says is always enough.
            let needed = listing(&image.bytes()).len();
            Call::List { room: if rng.one_in(4) { 1_710 } else { room(rng, needed) } }
        }
    };
    Case { image, call }
}

/// A run of `scanlist`.
pub fn text_case(rng: &mut Rng) -> text::Case {
    let scan = rng.one_in(2);
    text::Case {
        code: if scan { Request::Scan.code() } else { code(rng) },
        bytes: stream(rng),
        cut: 1 + rng.below(50),
        room: 3 + rng.below(40),
    }
}

#[cfg(test)]
mod tests {
    use super::*;
    use crate::own::Refusal;
    use std::collections::HashSet;

    #[test]
    fn below_is_below() {
        let mut rng = Rng::new(1);
        let seen: HashSet<usize> = (0..1_000).map(|_| rng.below(7)).collect();
        assert_eq!(seen, (0..7).collect());
        assert_eq!(rng.below(1), 0);
    }

    #[test]
    fn every_refusal_is_reached() {
        let mut seen = HashSet::new();
        for number in 0..20_000 {
            let mut rng = Rng::of_case(1, number);
            seen.insert(codec::own(&codec_case(&mut rng)).refusal);
            seen.extend(session::own(&session_case(&mut rng)).iter().map(|a| a.refusal));
            seen.extend(collector::own(&collector_case(&mut rng)).iter().map(|a| a.refusal));
            seen.extend(model::own(&model_case(&mut rng)).iter().map(|a| a.refusal));
            if number % 10 == 0 {
                seen.insert(ring::own(&ring_case(&mut rng)).refusal);
            }
        }
        let all: HashSet<u8> = (0..=13).collect();
        assert_eq!(seen, all);
        assert_eq!(all.len(), Refusal::ALL.len() + 1);
    }

    #[test]
    fn every_session_refusal_and_every_stop_is_common() {
        let mut refusals = [0; 14];
        let mut stops = [0; 5];
        for number in 0..5_000 {
            let mut rng = Rng::of_case(2, number);
            for answer in session::own(&session_case(&mut rng)) {
                refusals[usize::from(answer.refusal)] += 1;
            }
            for answer in stream::own(&stream_case(&mut rng)) {
                if let stream::Answer::Read { stop, .. } = answer {
                    stops[usize::from(stop)] += 1;
                }
            }
        }
        for refusal in [0, 1, 2, 3, 4, 5] {
            assert!(refusals[refusal] > 500, "{refusals:?}");
        }
        assert!(stops.iter().all(|&count| count > 100), "{stops:?}");
    }

    #[test]
    fn packets_are_collected_and_turns_are_closed() {
        let mut packets = 0;
        let mut with_payload = 0;
        let mut closed = 0;
        let mut largest = 0;
        for number in 0..2_000 {
            let mut rng = Rng::of_case(3, number);
            for answer in collector::own(&collector_case(&mut rng)) {
                if let Some((_, payload)) = answer.packet {
                    packets += 1;
                    with_payload += usize::from(!payload.is_empty());
                }
            }
            for answer in turns::own(&turns_case(&mut rng)) {
                if let Some((samples, _)) = answer.closed {
                    closed += 1;
                    largest = largest.max(samples);
                }
            }
        }
        assert!(packets > 2_000 && with_payload > 500, "{packets} {with_payload}");
        assert!(closed > 2_000 && largest == 8_192, "{closed} {largest}");
    }
}
