//! `scanlist CODE [CUT [ROOM]]` over the bench's own program: lists the stream on standard input.

use bench::own::scanlist::{scanlist, CUT, ROOM};
use std::io::{self, Read, Write};
use std::process::ExitCode;

const USAGE: &str =
    "own_scanlist CODE [CUT [ROOM]]: a code of two hex digits, 1 byte or more, 3 words or more";

struct Arguments {
    code: u8,
    cut: usize,
    room: usize,
}

/// The arguments, where they are right.
fn arguments(words: &[String]) -> Option<Arguments> {
    let number = |place: usize, least: usize, otherwise: usize| match words.get(place) {
        None => Some(otherwise),
        Some(word) if word.bytes().all(|b| b.is_ascii_digit()) => {
            word.parse().ok().filter(|&number| number >= least)
        }
        Some(_) => None,
    };
    let code = words.first()?;
    if words.len() > 3 || code.len() != 2 || !code.bytes().all(|b| b.is_ascii_hexdigit()) {
        return None;
    }
    Some(Arguments {
        code: u8::from_str_radix(code, 16).ok()?,
        cut: number(1, 1, CUT)?,
        room: number(2, 3, ROOM)?,
    })
}

fn main() -> ExitCode {
    let words: Vec<String> =
        std::env::args_os().skip(1).map(|word| word.to_string_lossy().into_owned()).collect();
    let Some(Arguments { code, cut, room }) = arguments(&words) else {
        eprintln!("{USAGE}");
        return ExitCode::from(2);
    };
    let mut input = Vec::new();
    let done = io::stdin()
        .lock()
        .read_to_end(&mut input)
        .and_then(|_| io::stdout().lock().write_all(&scanlist(code, &input, cut, room)));
    if let Err(error) = done {
        eprintln!("own_scanlist: {error}");
        return ExitCode::from(2);
    }
    ExitCode::SUCCESS
}

#[cfg(test)]
mod tests {
    use super::*;

    fn parsed(words: &[&str]) -> Option<(u8, usize, usize)> {
        let words: Vec<String> = words.iter().map(|word| word.to_string()).collect();
        arguments(&words).map(|Arguments { code, cut, room }| (code, cut, room))
    }

    #[test]
    fn right_and_wrong_arguments() {
        assert_eq!(parsed(&["20"]), Some((0x20, 4_096, 3_072)));
        assert_eq!(parsed(&["a5", "1"]), Some((0xA5, 1, 3_072)));
        assert_eq!(parsed(&["A5", "7", "3"]), Some((0xA5, 7, 3)));
        for wrong in [
            &[][..],
            &["2"],
            &["020"],
            &["+2"],
            &["2g"],
            &["20", "0"],
            &["20", "-1"],
            &["20", "+1"],
            &["20", ""],
            &["20", "1", "2"],
            &["20", "1", "x"],
            &["20", "1", "3", "4"],
        ] {
            assert_eq!(parsed(wrong), None, "{wrong:?}");
        }
    }
}
