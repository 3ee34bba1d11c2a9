//! Prints how fast the product and the bench's own program are on the same input: in turns, the best of many runs.
//!
//! `speed [NAME...]`: where names are given, the rows with one of them in it alone. A name in no row is an error.

use bench::gen::{self, Rng};
use bench::own::{self, Angle, Distance, Record, Request, Turn};
use bench::product::{self, Cells};
use std::hint::black_box;
use std::process::{Command, ExitCode};
use std::time::{Duration, Instant};
use std::{env, fs};

const SAMPLES: usize = 200_000;
/// So much of a stream is read byte by byte, and so much noise: a run is to be short, so that some go undisturbed.
const BYTE_BY_BYTE: usize = 50_000;
const NOISE: usize = 250_000;
/// How many samples a turn has.
const TURN: usize = 360;
/// A row is measured for so long, and at least for so many runs of each program.
const TIME: Duration = Duration::from_millis(400);
const LEAST_RUNS: usize = 7;
/// A product that takes longer than this times the own program is said to be behind: less than that is noise.
const BEHIND: f64 = 1.03;
/// How far the reader of a clean stream may be from a copy of its bytes.
const COPIES: f64 = 8.0;
/// The word with which the program starts itself to measure memory.
const MEMORY: &str = "--memory";

/// The shortest run of each of three programs, run in turns.
fn best(mut programs: [&mut dyn FnMut(); 3]) -> [Duration; 3] {
    let begin = Instant::now();
    let mut best = [Duration::MAX; 3];
    let mut runs = 0;
    while runs < LEAST_RUNS || begin.elapsed() < TIME {
        for (program, best) in programs.iter_mut().zip(&mut best) {
            let start = Instant::now();
            program();
            *best = start.elapsed().min(*best);
        }
        runs += 1;
    }
    best
}

/// The table so far.
#[derive(Default)]
struct Table {
    /// Rows without one of these in their names are left out; none leaves out nothing.
    asked: Vec<String>,
    /// Where rows are only named, none is measured.
    only_named: bool,
    names: Vec<String>,
    behind: Vec<String>,
}

impl Table {
    /// Measures the product and the bench's own program, and prints a row of nanoseconds for each unit. Where a copy
    /// is given, the row ends with both times in copies.
    fn row(
        &mut self,
        name: &str,
        (units, unit): (usize, &str),
        own: &mut dyn FnMut(),
        product: &mut dyn FnMut(),
        copy: Option<&mut dyn FnMut()>,
    ) {
        self.names.push(name.to_string());
        let left_out =
            !self.asked.is_empty() && !self.asked.iter().any(|asked| name.contains(asked));
        if self.only_named || left_out {
            return;
        }
        let copied = copy.is_some();
        let mut nothing = || {};
        let [own, product, copy] = best([own, product, copy.unwrap_or(&mut nothing)]);
        let each = |time: Duration| time.as_nanos() as f64 / units as f64;
        let ratio = product.as_secs_f64() / own.as_secs_f64();
        let mut notes = String::new();
        if copied {
            let copies = |time: Duration| time.as_secs_f64() / copy.as_secs_f64();
            notes = format!("{:4.1} and {:4.1} copies", copies(own), copies(product));
            if copies(product) > COPIES {
                notes += ", over 8";
            }
        }
        if ratio > BEHIND {
            notes += "  behind";
            self.behind.push(name.to_string());
        }
        println!(
            "{name:<34} {:>9.2} {:>9.2} {ratio:>7.2}  ns a {unit:<7}{notes}",
            each(own),
            each(product)
        );
    }
}

/// A scan of turns of equal length.
fn samples(turn: usize) -> Vec<own::Sample> {
    let mut rng = Rng::new(1);
    let sample = |n: usize| own::Sample {
        start: n.is_multiple_of(turn),
        quality: rng.below(64) as u8,
        angle: Angle::from_q6((n % turn * 23_040 / turn) as u16),
        distance: Distance::from_q2(rng.word()),
    };
    (0..SAMPLES).map(sample).collect()
}

fn stream(samples: &[own::Sample]) -> Vec<u8> {
    let mut bytes = vec![0; samples.len() * 5];
    for (sample, out) in samples.iter().zip(bytes.chunks_exact_mut(5)) {
        sample.write(out).expect("it fits");
    }
    bytes
}

fn words(turn: usize) -> Vec<u16> {
    samples(turn).iter().flat_map(|sample| sample.to_words().expect("it fits")).collect()
}

/// One place in two hundred flipped, dropped, inserted, doubled or replaced.
fn damaged(clean: &[u8]) -> Vec<u8> {
    let mut rng = Rng::new(2);
    let pieces = clean.chunks(200).map(|piece| {
        let mut piece = piece.to_vec();
        gen::damage(&mut rng, &mut piece);
        piece
    });
    pieces.collect::<Vec<_>>().concat()
}

/// A stream read as a scan in pieces, by both programs; `scanning` where the descriptor is behind them.
fn read(table: &mut Table, name: &str, bytes: &[u8], scanning: bool, copies: bool) {
    const DESCRIPTOR: [u8; 7] = [0xA5, 0x5A, 0x05, 0x00, 0x00, 0x40, 0x81];
    let mut row = vec![0u16; bytes.len() / 5 * 3 + 3];
    let mut row2 = row.clone();
    let mut own = own::Reader::new();
    own.tell(Request::Scan.code()).expect("one of the six");
    let mut product = product::Reader::new().tell(Request::Scan.code()).reader;
    if scanning {
        own.read(&DESCRIPTOR, &mut []);
        product = product.read(&DESCRIPTOR, &mut []).reader;
    }
    let mut target = vec![0; bytes.len()];
    for (cut, cut_name) in [(1, "1"), (64, "64"), (4_096, "4096"), (bytes.len(), "whole")] {
        let bytes = if cut == 1 { &bytes[..BYTE_BY_BYTE] } else { bytes };
        let mut by_own = || {
            let mut reader = own;
            for piece in black_box(bytes).chunks(cut) {
                let mut rest = piece;
                while !rest.is_empty() {
                    let outcome = reader.read(rest, &mut row);
                    black_box(&row);
                    rest = &rest[outcome.taken..];
                }
            }
            black_box(reader);
        };
        let mut by_product = || {
            let mut reader = product;
            for piece in black_box(bytes).chunks(cut) {
                let mut rest = piece;
                while !rest.is_empty() {
                    let reading = reader.read(rest, &mut row2);
                    reader = reading.reader;
                    black_box(&row2);
                    rest = &rest[reading.taken..];
                }
            }
            black_box(reader);
        };
        let mut copy = || black_box(&mut target[..bytes.len()]).copy_from_slice(black_box(bytes));
        let name = format!("reader, {name}, cut {cut_name}");
        let copy: Option<&mut dyn FnMut()> =
            if copies && cut >= 4_096 { Some(&mut copy) } else { None };
        table.row(&name, (bytes.len(), "byte"), &mut by_own, &mut by_product, copy);
    }
}

/// Rows of so many words gathered into turns, by both programs.
fn gather(table: &mut Table, turn: usize, room: usize) {
    let words = words(turn);
    let mut by_own = || {
        let mut gatherer = own::Gatherer::new();
        let mut turn = Turn::EMPTY;
        for mut row in black_box(&words).chunks(room) {
            while !row.is_empty() {
                let gathered = gatherer.row(row, &mut turn).expect("they fit");
                black_box(&turn);
                row = &row[gathered.words..];
            }
        }
    };
    let mut by_product = || {
        let mut gatherer = product::Gatherer::new();
        let (mut filling, mut closed): (Cells, Cells) = ([0; 360], [0; 360]);
        for mut row in black_box(&words).chunks(room) {
            while !row.is_empty() {
                let gathered = gatherer.row(row, &mut filling, &mut closed);
                gatherer = gathered.gathered.gatherer;
                black_box(&closed);
                row = &row[gathered.words..];
            }
        }
    };
    let name = format!("gatherer, turns of {turn}, row of {room}");
    table.row(&name, (SAMPLES, "sample"), &mut by_own, &mut by_product, None);
}

fn records_and_ring(table: &mut Table) {
    const TIMES: usize = 200;
    let plain: Cells = std::array::from_fn(|n| n as u16 * 3);
    let record =
        Record::new(7, [1; 16], &Turn { samples: 360, cells: plain.map(Distance::from_q2) });
    let (mut bytes, mut bytes2) = ([0; 754], [0; 754]);
    table.row(
        "record, writing",
        (TIMES, "record"),
        &mut || {
            for _ in 0..TIMES {
                let written = black_box(&record).write(black_box(&mut bytes));
                black_box(written).expect("it fits");
            }
        },
        &mut || {
            for _ in 0..TIMES {
                let (serial, cells) = black_box((&record.serial, &plain));
                let out = black_box(&mut bytes2);
                black_box(product::record_write(7, 360, serial, cells, out));
            }
        },
        None,
    );
    record.write(&mut bytes).expect("it fits");
    let bytes = bytes;
    let mut image = vec![0; own::ring::RING_BYTES];
    // full, so that each row finds the same ring, whichever others are asked for
    for _ in 0..64 {
        own::ring::add_in_order(&mut image, &bytes).expect("it fits");
    }
    let mut image2 = image.clone();
    let mut add_product = || {
        for _ in 0..TIMES {
            assert_eq!(product::ring_add(black_box(&mut image2), black_box(&bytes)), 0);
        }
    };
    table.row(
        "ring, adding",
        (TIMES, "record"),
        &mut || {
            for _ in 0..TIMES {
                let image = black_box(image.as_mut_slice());
                own::ring::add_in_order(image, black_box(&bytes)).expect("it fits");
            }
        },
        &mut add_product,
        None,
    );
    table.row(
        "ring, adding by 755 calls",
        (1, "record"),
        &mut || {
            for k in 0..755 {
                let image = black_box(image.as_mut_slice());
                own::ring::store(image, black_box(&bytes), k).expect("it fits");
            }
        },
        &mut || {
            for k in 0..755 {
                let image = black_box(image2.as_mut_slice());
                assert_eq!(product::ring_store(image, black_box(&bytes), k), 0);
            }
        },
        None,
    );
    let mut text = [0; product::LISTING_BYTES];
    table.row(
        "listing, 63 turns",
        (1, "ring"),
        &mut || {
            black_box(own::listing(black_box(&image)));
        },
        &mut || {
            black_box(product::ring_list(black_box(&image), &mut text));
        },
        None,
    );
}

/// Reads, gathers, writes, adds and lists with one of the programs, or with none, and prints the peak memory in KB.
fn memory(which: &str) {
    let clean = stream(&samples(TURN));
    let mut row = vec![0u16; 3_072];
    let mut image = vec![0; own::ring::RING_BYTES];
    match which {
        "own" => {
            let mut reader = own::Reader::at(own::Phase::Reading(own::Expected::Samples), &[], 0);
            let reader = reader.as_mut().expect("none is held");
            let mut gatherer = own::Gatherer::new();
            for piece in clean.chunks(4_096) {
                let outcome = reader.read(piece, &mut row);
                let mut words = &row[..outcome.words];
                while !words.is_empty() {
                    let mut turn = Turn::EMPTY;
                    let gathered = gatherer.row(words, &mut turn).expect("they fit");
                    words = &words[gathered.words..];
                    if gathered.closed {
                        let mut bytes = [0; 754];
                        Record::new(1, [0; 16], &turn).write(&mut bytes).expect("it fits");
                        own::ring::add(&mut image, &bytes).expect("it fits");
                    }
                }
            }
            black_box(own::listing(&image));
        }
        "product" => {
            let phase = product::Reader::SCANNING;
            let mut reader = product::Reader { phase, ..product::Reader::new() };
            let mut gatherer = product::Gatherer::new();
            let (mut filling, mut closed): (Cells, Cells) = ([0; 360], [0; 360]);
            for piece in clean.chunks(4_096) {
                let reading = reader.read(piece, &mut row);
                reader = reading.reader;
                let mut words = &row[..reading.words];
                while !words.is_empty() {
                    let gathered = gatherer.row(words, &mut filling, &mut closed);
                    gatherer = gathered.gathered.gatherer;
                    words = &words[gathered.words..];
                    if gathered.gathered.turn > 0 {
                        let mut bytes = [0; 754];
                        let turn = gathered.gathered.turn;
                        product::record_write(1, turn, &[0; 16], &closed, &mut bytes);
                        product::ring_add(&mut image, &bytes);
                    }
                }
            }
            black_box(product::ring_list(&image, &mut [0; product::LISTING_BYTES]));
        }
        _ => {}
    }
    black_box((&clean, &row, &image));
    let status = fs::read_to_string("/proc/self/status").unwrap_or_default();
    let peak = status.lines().find_map(|line| line.strip_prefix("VmHWM:"));
    println!("{}", peak.unwrap_or("unknown").trim());
}

/// The peak memory of the program started anew with one of the programs.
fn peak(which: &str) -> String {
    let output =
        env::current_exe().and_then(|own| Command::new(own).args([MEMORY, which]).output());
    output.map_or("unknown".into(), |output| String::from_utf8_lossy(&output.stdout).trim().into())
}

/// Every row of the table.
fn rows(table: &mut Table) {
    let clean = stream(&samples(TURN));
    let mut rng = Rng::new(3);
    let noise = rng.bytes(NOISE);
    read(table, "clean", &clean, true, true);
    read(table, "damaged", &damaged(&clean), true, false);
    read(table, "noise", &noise, true, false);
    read(table, "noise, seeking", &noise, false, false);
    for (turn, room) in [(TURN, 3), (TURN, 192), (TURN, 3_072), (8_000, 3_072)] {
        gather(table, turn, room);
    }
    records_and_ring(table);
}

/// Those of the names asked for that are in no row.
fn missing(asked: &[String]) -> Vec<&String> {
    let mut table = Table { only_named: true, ..Table::default() };
    rows(&mut table);
    asked.iter().filter(|&asked| !table.names.iter().any(|name| name.contains(asked))).collect()
}

fn main() -> ExitCode {
    let words: Vec<String> = env::args().skip(1).collect();
    if let [MEMORY, which] = words.iter().map(String::as_str).collect::<Vec<_>>()[..] {
        memory(which);
        return ExitCode::SUCCESS;
    }
    let missing = missing(&words);
    if !missing.is_empty() {
        for name in missing {
            eprintln!("speed: no row has {name} in its name");
        }
        return ExitCode::from(2);
    }
    let mut table = Table { asked: words, ..Table::default() };
    println!("{:<34} {:>9} {:>9} {:>7}", "", "own", "product", "ratio");
    rows(&mut table);
    println!();
    println!(
        "peak memory: own {}, product {}, with neither {}",
        peak("own"),
        peak("product"),
        peak("none")
    );
    match fs::metadata(env!("BERNKESSEL_ARCHIVE")) {
        Ok(archive) => println!("archive: {} bytes", archive.len()),
        Err(why) => println!("archive: {why}"),
    }
    if table.behind.is_empty() {
        println!("the product is behind in no row");
    } else {
        println!("the product is behind in {} rows:", table.behind.len());
        for name in &table.behind {
            println!("  {name}");
        }
    }
    ExitCode::SUCCESS
}

#[cfg(test)]
mod tests {
    use super::*;

    #[test]
    fn names_in_no_row_are_missing() {
        let words = ["listing", "NOSUCH", "cut 64", "Ring"].map(String::from);
        assert_eq!(missing(&words), ["NOSUCH", "Ring"]);
        assert!(missing(&[]).is_empty());
    }
}
