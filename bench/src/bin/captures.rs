//! Writes the captures: scanner bytes as the model sends them, and what `scanlist` prints of each.

use bench::gen::{self, Rng};
use bench::own::scanlist::{scanlist, CUT, ROOM};
use bench::own::{Angle, Distance, Info, Model, Request, Sample};
use std::path::{Path, PathBuf};
use std::process::ExitCode;
use std::{env, fs, io};

const SEED: u64 = 1;
const SAMPLES_A_TURN: usize = 240;
const SERIAL: [u8; 16] = *b"BERNKESSEL-00001";

/// A capture, and the requests whose listings are kept beside it.
struct Capture {
    name: &'static str,
    bytes: Vec<u8>,
    codes: Vec<u8>,
}

/// A hall in millimetres, the scanner at its origin, and in it a heap that grows.
struct Hall {
    floor: f64,
    ceiling: f64,
    left: f64,
    right: f64,
    heap_middle: f64,
    heap_height: f64,
    /// How far the heap rises for each millimetre inwards.
    slope: f64,
}

impl Hall {
    /// Whether a point is in the air.
    fn is_air(&self, x: f64, y: f64) -> bool {
        let heap =
            self.floor + (self.heap_height - (x - self.heap_middle).abs() * self.slope).max(0.0);
        x > self.left && x < self.right && y < self.ceiling && y > heap
    }

    /// How far it is to the first wall or to the heap, in millimetres.
    fn distance(&self, direction: (f64, f64)) -> f64 {
        const STEP: f64 = 4.0;
        let mut far = 100.0;
        while self.is_air(far * direction.0, far * direction.1) {
            far += STEP;
        }
        far
    }
}

/// Sine and cosine of an angle in q6, by Bhaskara's formula: the same on every machine.
fn direction(q6: u16) -> (f64, f64) {
    let sine = |degrees: f64| {
        let (half, sign) = if degrees < 180.0 { (degrees, 1.0) } else { (degrees - 180.0, -1.0) };
        let product = half * (180.0 - half);
        sign * 4.0 * product / (40_500.0 - product)
    };
    let degrees = f64::from(q6) / 64.0;
    (sine((degrees + 90.0) % 360.0), sine(degrees))
}

/// The samples of some turns over a heap that grows, and the first sample of the turn after them.
fn heap(rng: &mut Rng, turns: usize) -> Vec<Sample> {
    let mut samples = Vec::new();
    for turn in 0..=turns {
        let hall = Hall {
            floor: -5_200.0,
            ceiling: 1_800.0,
            left: -6_500.0,
            right: 7_400.0,
            heap_middle: 900.0,
            heap_height: 2_600.0 + 150.0 * turn as f64,
            slope: 0.7,
        };
        let count = if turn == turns { 1 } else { SAMPLES_A_TURN };
        for n in 0..count {
            // The motor is never quite even.
            let even = n * usize::from(Angle::WHOLE_TURN) / SAMPLES_A_TURN;
            let q6 = (even + rng.below(40)) as u16;
            let far = hall.distance(direction(q6)) + rng.below(21) as f64 - 10.0;
            let lost = rng.one_in(25);
            let quality = if lost { 0 } else { (58 - (far / 200.0) as usize + rng.below(6)) as u8 };
            samples.push(Sample {
                start: n == 0,
                quality,
                angle: Angle::from_q6(q6),
                distance: Distance::from_q2(if lost { 0 } else { (far * 4.0) as u16 }),
            });
        }
    }
    samples
}

/// What the model sends for a request.
fn ask(model: &mut Model, request: Request) -> Vec<u8> {
    let mut out = [0; 64];
    let sent = model.request(request.code(), &mut out).expect("there is room");
    out[..sent].to_vec()
}

/// What the model sends for SCAN and for samples after it.
fn scan(model: &mut Model, samples: &[Sample]) -> Vec<u8> {
    model.set_motor_stable(true);
    let mut bytes = ask(model, Request::Scan);
    for sample in samples {
        let mut out = [0; 5];
        let sent = model.sample(sample, &mut out).expect("it sends");
        bytes.extend_from_slice(&out[..sent]);
    }
    bytes
}

fn captures() -> Vec<Capture> {
    let info =
        Info { model: 0x18, firmware_minor: 29, firmware_major: 1, hardware: 7, serial: SERIAL };
    let mut rng = Rng::new(SEED);
    let mut model = Model::new(info);
    let [stop, scan_code, force, info_code, health_code] =
        [Request::Stop, Request::Scan, Request::ForceScan, Request::GetInfo, Request::GetHealth]
            .map(Request::code);

    let clean = scan(&mut model, &heap(&mut rng, 3));

    let mut damaged = b"\x00\xA5\xA5\x5A\x05\x00\x00\x40".to_vec();
    damaged.extend(scan(&mut model, &heap(&mut rng, 2)));
    for _ in 0..60 {
        gen::damage(&mut rng, &mut damaged);
    }
    // The descriptor is whole, so that the scan behind it is read.
    let descriptor = ask(&mut model, Request::Scan);
    damaged.splice(8..15, descriptor);

    let mut noise = rng.bytes(500);
    for _ in 0..40 {
        noise.extend(gen::near_descriptor(&mut rng));
    }
    noise.extend(ask(&mut model, Request::ForceScan));
    noise.extend(rng.bytes(2_500));

    let mut replies = vec![0x55, 0xA5];
    replies.extend(ask(&mut model, Request::GetInfo));
    replies.extend(rng.bytes(9));
    model.set_health(1, 0x8003).expect("the bench may set it");
    replies.extend(ask(&mut model, Request::GetHealth));
    model.fault();
    replies.extend(ask(&mut model, Request::GetHealth));

    let mut bad_health = ask(&mut model, Request::GetHealth);
    bad_health[7] = 3;
    bad_health.extend(ask(&mut model, Request::GetHealth));

    vec![
        Capture { name: "clean", bytes: clean, codes: vec![scan_code] },
        Capture { name: "damaged", bytes: damaged, codes: vec![scan_code] },
        Capture { name: "noise", bytes: noise, codes: vec![force] },
        Capture {
            name: "replies",
            bytes: replies,
            codes: vec![info_code, health_code, scan_code, stop],
        },
        Capture { name: "bad_health", bytes: bad_health, codes: vec![health_code] },
        Capture { name: "empty", bytes: Vec::new(), codes: vec![scan_code] },
    ]
}

fn write(folder: &Path) -> io::Result<()> {
    fs::create_dir_all(folder)?;
    for Capture { name, bytes, codes } in captures() {
        fs::write(folder.join(format!("{name}.bin")), &bytes)?;
        for code in codes {
            let text = scanlist(code, &bytes, CUT, ROOM);
            fs::write(folder.join(format!("{name}.{code:02x}.txt")), text)?;
        }
    }
    Ok(())
}

fn main() -> ExitCode {
    let mut words = env::args_os().skip(1);
    let folder = words.next().map_or_else(|| PathBuf::from("../captures"), PathBuf::from);
    if words.next().is_some() {
        eprintln!("captures [FOLDER]: writes the captures, by default to ../captures");
        return ExitCode::from(2);
    }
    println!("seed {SEED}");
    if let Err(error) = write(&folder) {
        eprintln!("captures: {}: {error}", folder.display());
        return ExitCode::from(2);
    }
    ExitCode::SUCCESS
}

#[cfg(test)]
mod tests {
    use super::*;
    use bench::own::{Gatherer, Reader, Turn};

    #[test]
    fn the_clean_capture_has_three_turns_of_a_heap() {
        let clean = &captures()[0].bytes;
        let mut reader = Reader::new();
        reader.tell(Request::Scan.code()).unwrap();
        let mut row = vec![0; 3_000];
        assert_eq!(reader.read(clean, &mut row).taken, 7);
        let outcome = reader.read(&clean[7..], &mut row);
        assert_eq!((outcome.taken, outcome.words), (3_605, 3 * 721));
        let mut gatherer = Gatherer::new();
        let mut words = &row[..outcome.words];
        let mut turns = 0;
        while !words.is_empty() {
            let mut turn = Turn::EMPTY;
            let gathered = gatherer.row(words, &mut turn).unwrap();
            words = &words[gathered.words..];
            if gathered.closed {
                turns += 1;
                assert_eq!(turn.samples, 240);
                let filled = turn.cells.iter().filter(|cell| cell.q2() > 0).count();
                assert!(filled > 200, "{filled}");
            }
        }
        assert_eq!(turns, 3);
    }

    #[test]
    fn they_are_small_and_always_the_same() {
        for (first, again) in captures().iter().zip(captures()) {
            assert_eq!(first.bytes, again.bytes);
            for &code in &first.codes {
                let text = scanlist(code, &first.bytes, CUT, ROOM);
                assert!(text.len() < 20_000 && first.bytes.len() < 20_000, "{}", first.name);
                for (cut, room) in [(1, 3), (2, 4), (5, 3_072), (7, 9), (64, 30), (4_096, 3)] {
                    assert_eq!(scanlist(code, &first.bytes, cut, room), text, "{}", first.name);
                }
            }
        }
    }

    #[test]
    fn the_files_kept_are_these() {
        let folder = Path::new(env!("CARGO_MANIFEST_DIR")).join("../captures");
        for Capture { name, bytes, codes } in captures() {
            assert!(fs::read(folder.join(format!("{name}.bin"))).unwrap() == bytes, "{name}");
            for code in codes {
                let kept = fs::read(folder.join(format!("{name}.{code:02x}.txt"))).unwrap();
                assert!(kept == scanlist(code, &bytes, CUT, ROOM), "{name} {code:02x}");
            }
        }
    }
}
