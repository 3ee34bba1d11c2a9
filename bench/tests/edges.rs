//! The texts that the gate holds the edge programs to are what the bench's own program says of the same edges.

use bench::own::{listing, ring, Angle, Distance, Gatherer, Reader, Record, Sample, Turn};
use std::fs;

const RING_BYTES: usize = 49153;
/// So many turns that the first of them are driven out.
const TURNS: u32 = 70;

fn kept(program: &str) -> String {
    let path = format!("{}/../crates/{program}/stdout", env!("CARGO_MANIFEST_DIR"));
    fs::read_to_string(&path).unwrap_or_else(|error| panic!("{path}: {error}"))
}

/// One call of a reader that was told SCAN.
fn shown(name: &str, input: &[u8]) -> String {
    let mut reader = Reader::new();
    reader.tell(0x20).unwrap();
    let r = reader.read(input, &mut [0; 6]);
    let (stop, skipped, held) = (r.stop as u8, reader.skipped(), reader.held().len());
    format!("{name}: taken {} stop {stop} skipped {skipped} held {held}\n", r.taken)
}

fn sample(start: bool, distance: u16) -> Sample {
    Sample { start, quality: 15, angle: Angle::from_q6(0), distance: Distance::from_q2(distance) }
}

#[test]
fn reads() {
    let bytes = [0xA5, 0xA5, 0x5A, 0x05, 0x00, 0x00, 0x40, 0x81];
    let mut text = shown("empty input", &[]);
    text += &shown("a descriptor from the second byte", &bytes);
    let (mut gatherer, mut closed) = (Gatherer::new(), Turn::EMPTY);
    for (start, distance) in [(true, 4000), (false, 0), (false, 1200), (true, 9)] {
        gatherer.sample(&sample(start, distance), &mut closed).unwrap();
    }
    text += &format!("nearest of 4000, 0 and 1200: {}\n", closed.cells[0].q2());
    assert_eq!(kept("edge_reads"), text);
}

fn listed(image: &[u8]) -> String {
    String::from_utf8(listing(image)).unwrap() + "\n"
}

#[test]
fn rings() {
    let mut image = vec![0; RING_BYTES + 1];
    let mut text = listed(&image[..RING_BYTES]);
    text += &listed(&image[..RING_BYTES - 1]);
    text += &listed(&image);
    image.pop();
    image[0] = 128;
    text += &listed(&image);
    image[0] = 1;
    text += &listed(&image);
    ring::erase(&mut image).unwrap();
    let mut turn = Turn { samples: 1, ..Turn::EMPTY };
    turn.cells[0] = Distance::from_q2(4);
    let record = |number| {
        let mut bytes = [0; 754];
        Record::new(number, [0; 16], &turn).write(&mut bytes).unwrap();
        bytes
    };
    for number in 0..TURNS {
        ring::add(&mut image, &record(number)).unwrap();
    }
    text += &listed(&image);
    // one turn more, broken off before its last store, and then finished
    let last = record(TURNS);
    for k in 0..754 {
        ring::store(&mut image, &last, k).unwrap();
    }
    text += &listed(&image);
    ring::store(&mut image, &last, 754).unwrap();
    text += &listed(&image);
    assert_eq!(kept("edge_rings"), text);
}
