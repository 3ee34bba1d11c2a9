//! Makes a ring image of the scan on standard input with the bench's own program, and writes it to standard output.

use bench::own::recording::record;
use bench::own::ring::RING_BYTES;
use std::io::{self, Read, Write};
use std::process::ExitCode;

fn main() -> ExitCode {
    if std::env::args_os().count() > 1 {
        eprintln!("own_record: no argument is taken, the scan is standard input");
        return ExitCode::from(2);
    }
    let mut scan = Vec::new();
    let mut image = vec![0; RING_BYTES];
    let done = io::stdin().lock().read_to_end(&mut scan).and_then(|_| {
        record(&mut image, &scan, [0; 16], |_, _| {}).expect("an empty ring takes every turn");
        io::stdout().lock().write_all(&image)
    });
    if let Err(error) = done {
        eprintln!("own_record: {error}");
        return ExitCode::from(2);
    }
    ExitCode::SUCCESS
}
