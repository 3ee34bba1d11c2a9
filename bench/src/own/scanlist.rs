//! The text that `scanlist` prints of a response stream.

use super::listing::push_refusal;
use super::sample::SAMPLE_WORDS;
use super::text::{push_hex, push_numbers};
use super::{Expected, Phase, Reader, Stop};

/// How many bytes a piece of the input has where nothing is said.
pub const CUT: usize = 4_096;
/// How many words are lent for a call where nothing is said.
pub const ROOM: usize = 3_072;

/// Reads a stream as the answer to a request, in pieces of `cut` bytes with `room` words for each
/// call, and gives a line for each thing in it; `refused 1` alone for a code that is none of the six.
///
/// A cut of 0 is taken as 1 and a room below 3 as 3. Neither changes the text.
pub fn scanlist(code: u8, input: &[u8], cut: usize, room: usize) -> Vec<u8> {
    let mut text = Vec::new();
    let mut reader = Reader::new();
    if let Err(refusal) = reader.tell(code) {
        push_refusal(&mut text, refusal);
        return text;
    }
    let mut row = vec![0; room.max(SAMPLE_WORDS)];
    for piece in input.chunks(cut.max(1)) {
        let mut rest = piece;
        while !rest.is_empty() {
            let expected = reader.phase();
            let outcome = reader.read(rest, &mut row);
            rest = &rest[outcome.taken..];
            for words in row[..outcome.words].as_chunks::<SAMPLE_WORDS>().0 {
                push_sample(&mut text, words);
            }
            match outcome.stop {
                Stop::End | Stop::Room => {}
                Stop::Descriptor => text.extend_from_slice(b"descriptor\n"),
                Stop::BadHealth => text.extend_from_slice(b"bad health\n"),
                Stop::Reply => {
                    let size = if expected == Phase::Reading(Expected::Health) { 3 } else { 20 };
                    text.extend_from_slice(b"reply ");
                    push_hex(&mut text, &outcome.reply[..size]);
                    text.push(b'\n');
                }
            }
        }
    }
    for (word, number) in [
        ("end taken", input.len() as u64),
        (" skipped", u64::from(reader.skipped())),
        (" held", reader.held().len() as u64),
    ] {
        text.extend_from_slice(word.as_bytes());
        push_numbers(&mut text, &[number]);
    }
    text.push(b'\n');
    text
}

/// Appends the line of one sample: S, quality, angle, distance.
fn push_sample(text: &mut Vec<u8>, &[angle, distance, tag]: &[u16; SAMPLE_WORDS]) {
    text.extend_from_slice(b"sample");
    push_numbers(text, &[tag % 2, tag / 2, angle, distance].map(u64::from));
    text.push(b'\n');
}

#[cfg(test)]
mod tests {
    use super::*;

    const SCAN: [u8; 7] = [0xA5, 0x5A, 0x05, 0, 0, 0x40, 0x81];

    fn listed(code: u8, input: &[u8]) -> String {
        let whole = scanlist(code, input, CUT, ROOM);
        for cut in 1..=input.len().min(30) {
            for room in [3, 4, 5, 6, 30] {
                assert_eq!(scanlist(code, input, cut, room), whole, "cut {cut} room {room}");
            }
        }
        String::from_utf8(whole).unwrap()
    }

    #[test]
    fn a_scan() {
        let mut input = vec![0xFF; 3];
        input.extend(SCAN);
        input.extend([0x3D, 0x01, 0x2D, 0xA0, 0x0F]);
        input.extend([0x00, 0x02, 0xFF, 0xB3, 0x00, 0x00, 0x02, 0x01]);
        let text = "descriptor\nsample 1 15 5760 4000\nsample 0 0 23039 0\nend taken 23 skipped 4 held 2\n";
        assert_eq!(listed(0x20, &input), text);
        assert_eq!(listed(0x21, &input), text);
    }

    #[test]
    fn replies() {
        let mut input = vec![0xA5, 0x5A, 0x14, 0, 0, 0, 0x04];
        input.extend(0xF0..=0xFF);
        input.extend([0, 1, 2, 3]);
        input.extend([0xA5, 0x5A, 0x03, 0, 0, 0, 0x06, 2, 0x34, 0x12]);
        assert_eq!(
            listed(0x50, &input),
            "descriptor\nreply f0f1f2f3f4f5f6f7f8f9fafbfcfdfeff00010203\nend taken 37 skipped 10 held 0\n"
        );
        assert_eq!(
            listed(0x52, &input),
            "descriptor\nreply 023412\nend taken 37 skipped 27 held 0\n"
        );
        input[34] = 3;
        assert_eq!(
            listed(0x52, &input),
            "descriptor\nbad health\nend taken 37 skipped 30 held 0\n"
        );
        assert_eq!(listed(0x20, &input), "end taken 37 skipped 31 held 6\n");
        assert_eq!(listed(0x25, &input), "end taken 37 skipped 37 held 0\n");
    }

    #[test]
    fn other_codes_and_no_input() {
        for code in [0x00, 0x51, 0x82, 0xA5, 0xFF] {
            assert_eq!(listed(code, &SCAN), "refused 1\n");
        }
        assert_eq!(listed(0x20, &[]), "end taken 0 skipped 0 held 0\n");
        assert_eq!(listed(0x40, &[]), "end taken 0 skipped 0 held 0\n");
    }
}
