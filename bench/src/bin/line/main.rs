//! The product's collector and model of the scanner behind a pseudo terminal, for a host program to be tried against.
//!
//! `line [OPTION...] [CAPTURE]` prints the path of the terminal, then each request collected with what was sent for it,
//! and each refusal. While the model scans, a sample of the capture is sent for each pace: those before the first turn
//! once, then the whole turns over and over. The options are those of `USAGE`.

mod pty;

use bench::gen::Rng;
use bench::own::Request;
use bench::product::{Collector, Info, Model, Reader, Sample};
use pty::Pty;
use std::fs::File;
use std::io::{self, ErrorKind, Read, Write};
use std::num::NonZeroU32;
use std::ops::Range;
use std::process::ExitCode;
use std::str::FromStr;
use std::time::{Duration, Instant};
use std::{env, fs};

const USAGE: &str = "\
usage: line [OPTION...] [CAPTURE]

The proved scanner behind a pseudo terminal, whose path is printed first. While it scans it sends the samples of
CAPTURE, its whole turns over and over; captures/clean.bin where none is named.

  --pace MICROSECONDS      sends a sample each so often: 500 where not said
  --seconds N              ends after so long
  --firmware MAJOR.MINOR   the firmware that its info tells: 1.15 where not said
  --unstable               the motor is not stable: SCAN sends no samples, FORCE_SCAN does
  --fault                  begins in protection stop
  --warning                health status 1
  --error N                the error code, up to 65535
  --log FILE               writes every byte sent to FILE
  --damage N               damages one byte in N of all that is sent
  --help                   prints this";
/// The capture where none is named.
const CAPTURE: &str = concat!(env!("CARGO_MANIFEST_DIR"), "/../captures/clean.bin");
/// About two thousand samples a second, as the scanner sends them.
const PACE: Duration = Duration::from_micros(500);
/// The longest wait for a request.
const LARGEST_WAIT: Duration = Duration::from_millis(100);
/// Firmware 1.15: at 1.17 the vendor's driver asks for 0x59, and gives up where nothing answers.
const INFO: [u8; 20] = *b"\x18\x0F\x01\x04BERNKESSEL-00001";
/// The seed of what is damaged.
const DAMAGE: u64 = 1;

/// What was asked for.
struct Asked {
    pace: Duration,
    end: Option<Duration>,
    model: Model,
    capture: Capture,
    log: Option<File>,
    damage: Option<NonZeroU32>,
}

/// A number in digits alone.
fn number<T: FromStr>(word: &str) -> Option<T> {
    word.bytes().all(|byte| byte.is_ascii_digit()).then(|| word.parse().ok())?
}

/// The numbers of a firmware: major and minor.
fn firmware(word: &str) -> Option<(u8, u8)> {
    let (major, minor) = word.split_once('.')?;
    Some((number(major)?, number(minor)?))
}

/// A path, which is no option.
fn path(word: &str) -> Option<String> {
    (!word.starts_with('-')).then(|| word.into())
}

/// The word behind an option, where it reads as what the option asks for.
fn value<T>(
    option: &str,
    word: Option<String>,
    read: fn(&str) -> Option<T>,
    what: &str,
) -> Result<T, String> {
    word.as_deref().and_then(read).ok_or_else(|| format!("{option} asks for {what}"))
}

fn asked(mut words: impl Iterator<Item = String>) -> Result<Asked, String> {
    let mut model = Model::new(Info::new(&INFO)).set_motor(1);
    let (mut pace, mut end, mut damage) = (PACE, None, None);
    let (mut capture, mut log) = (None, None);
    while let Some(word) = words.next() {
        match word.as_str() {
            "--pace" => {
                let micros =
                    value(&word, words.next(), number::<NonZeroU32>, "a number from 1 on")?;
                pace = Duration::from_micros(u32::from(micros).into());
            }
            "--seconds" => {
                let seconds = value(&word, words.next(), number::<u32>, "a number")?;
                end = Some(Duration::from_secs(seconds.into()));
            }
            "--firmware" => {
                let what = "MAJOR.MINOR, each 0 to 255";
                (model.info.major, model.info.minor) = value(&word, words.next(), firmware, what)?;
            }
            "--unstable" => model = model.set_motor(0),
            "--fault" => model = model.fault(),
            "--warning" => model = model.set_status(1).model,
            "--error" => {
                model =
                    model.set_error(value(&word, words.next(), number, "a number up to 65535")?);
            }
            "--log" => log = Some(value(&word, words.next(), path, "a file")?),
            "--damage" => damage = Some(value(&word, words.next(), number, "a number from 1 on")?),
            _ if word.starts_with('-') => return Err(format!("{word} is no option: see --help")),
            _ if capture.is_some() => return Err(format!("{word} is a second capture")),
            _ => capture = Some(word),
        }
    }
    let capture = capture.unwrap_or(CAPTURE.into());
    let bytes = fs::read(&capture).map_err(|error| format!("{capture}: {error}"))?;
    let made = |log| File::create(&log).map_err(|error| format!("no log {log}: {error}"));
    let log = log.map(made).transpose()?;
    Ok(Asked { pace, end, model, capture: Capture::new(samples(&bytes)), log, damage })
}

/// The samples of a capture, as the product reads it.
fn samples(capture: &[u8]) -> Vec<Sample> {
    let mut reader = Reader::new().tell(Request::Scan.code()).reader;
    let mut row = [0; 3_072];
    let mut samples = Vec::new();
    let mut rest = capture;
    while !rest.is_empty() {
        let reading = reader.read(rest, &mut row);
        let words = row[..reading.words].as_chunks().0;
        samples.extend(words.iter().map(|&words| Sample::read_words(words).sample));
        (reader, rest) = (reading.reader, &rest[reading.taken..]);
    }
    samples
}

/// The samples that a scan sends.
struct Capture {
    samples: Vec<Sample>,
    /// The whole turns: from the first sample with S = 1 up to the last one, which only closes the turn before it.
    turns: Range<usize>,
}

impl Capture {
    fn new(samples: Vec<Sample>) -> Capture {
        let starts = |sample: &Sample| sample.start != 0;
        let first = samples.iter().position(starts).unwrap_or(samples.len());
        let last = samples.iter().rposition(starts).unwrap_or(samples.len());
        Capture { samples, turns: first..last }
    }

    /// How many turns are whole.
    fn whole_turns(&self) -> usize {
        self.samples[self.turns.clone()].iter().filter(|sample| sample.start != 0).count()
    }

    /// The sample that follows so many of a scan: the whole turns come over and over, what is before them once. Where
    /// no turn is whole, all samples come once, and then none.
    fn after(&self, count: u64) -> Option<Sample> {
        let before = self.turns.start as u64;
        let place = match self.turns.len() as u64 {
            0 => count,
            _ if count < before => count,
            turns => before + (count - before) % turns,
        };
        self.samples.get(place as usize).copied()
    }
}

/// The name of a code.
fn name(code: u8) -> String {
    Request::from_code(code).map_or("other".into(), |request| format!("{request:?}"))
}

fn hex(bytes: &[u8]) -> String {
    bytes.iter().map(|byte| format!(" {byte:02x}")).collect()
}

/// The scanner's side of the line.
struct Line {
    pty: Pty,
    begin: Instant,
    collector: Collector,
    payload: [u8; 255],
    model: Model,
    capture: Capture,
    pace: Duration,
    /// Where every byte sent is written to.
    log: Option<File>,
    /// One byte in so many is damaged.
    damage: Option<NonZeroU32>,
    /// How many bytes the terminal took.
    taken: u64,
    /// When the scan began, and how many samples were due since.
    scan: Option<(Instant, u64)>,
    sent: u64,
    /// Samples that the terminal had no room for.
    lost: u64,
    /// The refusal of a sample that was said last, so that it's said once.
    said: u8,
}

impl Line {
    fn say(&self, what: &str) {
        println!("{:>9.3} {what}", self.begin.elapsed().as_secs_f64());
    }

    /// Damages bytes as asked. Whether one is, and which of its bits, is given by how many were sent before it.
    fn damage(&self, bytes: &mut [u8]) {
        let Some(many) = self.damage else {
            return;
        };
        for (byte, place) in bytes.iter_mut().zip(self.taken..) {
            let mut rng = Rng::of_case(DAMAGE, place);
            if rng.one_in(many.get() as usize) {
                *byte ^= 1 << rng.below(8);
            }
        }
    }

    /// Sends bytes, which are then as they were sent; false where the terminal has no room for all of them.
    fn send(&mut self, bytes: &mut [u8]) -> io::Result<bool> {
        self.damage(bytes);
        let taken = match self.pty.device.write(bytes) {
            Ok(taken) => taken,
            Err(error) if error.kind() == ErrorKind::WouldBlock => 0,
            Err(error) => return Err(error),
        };
        self.taken += taken as u64;
        if let Some(log) = &mut self.log {
            let written = log.write_all(&bytes[..taken]);
            written.map_err(|error| io::Error::other(format!("the log: {error}")))?;
        }
        Ok(taken == bytes.len())
    }

    /// Takes one byte from the host.
    fn byte(&mut self, byte: u8) -> io::Result<()> {
        let time = self.begin.elapsed().as_millis() as u64;
        let collected = self.collector.byte(time, byte, &mut self.payload);
        self.collector = collected.collector;
        if collected.refusal != 0 {
            self.say(&format!("byte {byte:02x} refused {}", collected.refusal));
        }
        if collected.complete != 0 {
            let payload = hex(&self.payload[..usize::from(collected.size)]);
            self.request(collected.code, &payload)?;
        }
        Ok(())
    }

    /// Takes a request that was collected, and sends what the model has for it.
    fn request(&mut self, code: u8, payload: &str) -> io::Result<()> {
        let mut out = [0; 32];
        let asked = self.model.request(code, &mut out);
        self.model = asked.model;
        let request = format!("request {code:02x} {}{payload}", name(code));
        if asked.written.refusal != 0 {
            self.say(&format!("{request}: refused {}", asked.written.refusal));
            return Ok(());
        }
        let bytes = &mut out[..asked.written.bytes];
        let whole = self.send(bytes)?;
        self.say(&format!(
            "{request}: sent{}",
            if bytes.is_empty() { " nothing".into() } else { hex(bytes) }
        ));
        if !whole {
            self.say("the host doesn't read: that was lost");
        }
        let scans = matches!(self.model.state, Model::SCANNING | Model::FORCE_SCANNING);
        self.scan = scans.then(|| (Instant::now(), 0));
        self.said = 0;
        Ok(())
    }

    /// Sends the samples that are due.
    fn scan(&mut self) -> io::Result<()> {
        let Some((start, mut due)) = self.scan else {
            return Ok(());
        };
        let now = (start.elapsed().as_nanos() / self.pace.as_nanos()) as u64;
        while due < now {
            let Some(sample) = self.capture.after(due) else {
                self.say("the capture has run out: it has no whole turn to send again");
                self.scan = None;
                return Ok(());
            };
            due += 1;
            let mut out = [0; 5];
            let written = self.model.sample(sample, &mut out);
            if written.refusal != 0 {
                if self.said != written.refusal {
                    self.say(&format!("sample refused {}", written.refusal));
                    self.said = written.refusal;
                }
            } else if self.send(&mut out[..written.bytes])? {
                self.sent += 1;
            } else {
                self.lost += 1;
            }
        }
        self.scan = Some((start, due));
        Ok(())
    }

    /// Goes on until the end asked for.
    fn run(&mut self, end: Option<Duration>) -> io::Result<()> {
        let mut bytes = [0; 256];
        while end.is_none_or(|end| self.begin.elapsed() < end) {
            let wait = if self.scan.is_some() {
                self.pace.max(Duration::from_millis(1))
            } else {
                LARGEST_WAIT
            };
            self.pty.wait(wait.min(LARGEST_WAIT))?;
            match self.pty.device.read(&mut bytes) {
                Ok(count) => bytes[..count].iter().try_for_each(|&byte| self.byte(byte))?,
                Err(error) if error.kind() == ErrorKind::WouldBlock => {}
                Err(error) => return Err(error),
            }
            self.scan()?;
        }
        Ok(())
    }
}

fn line(asked: Asked) -> io::Result<()> {
    let Asked { pace, end, model, capture, log, damage } = asked;
    let pty = Pty::new()?;
    let (samples, turns) = (capture.samples.len(), capture.whole_turns());
    println!("line {} with {samples} samples, {turns} whole turns", pty.path);
    let mut line = Line {
        pty,
        begin: Instant::now(),
        collector: Collector::new(),
        payload: [0; 255],
        model,
        capture,
        pace,
        log,
        damage,
        taken: 0,
        scan: None,
        sent: 0,
        lost: 0,
        said: 0,
    };
    line.run(end)?;
    line.say(&format!("end: {} samples sent, {} lost", line.sent, line.lost));
    Ok(())
}

fn main() -> ExitCode {
    let words: Vec<String> =
        env::args_os().skip(1).map(|word| word.to_string_lossy().into_owned()).collect();
    if words.iter().any(|word| word == "--help") {
        println!("{USAGE}");
        return ExitCode::SUCCESS;
    }
    let done =
        asked(words.into_iter()).and_then(|asked| line(asked).map_err(|error| error.to_string()));
    match done {
        Ok(()) => ExitCode::SUCCESS,
        Err(why) => {
            eprintln!("line: {why}");
            ExitCode::from(2)
        }
    }
}
