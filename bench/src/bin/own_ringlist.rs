//! `ringlist` over the bench's own program: lists the ring image on standard input.

use bench::own::listing;
use std::io::{self, Read, Write};
use std::process::ExitCode;

fn main() -> ExitCode {
    if std::env::args_os().count() > 1 {
        eprintln!("own_ringlist: no argument is taken, the ring image is standard input");
        return ExitCode::from(2);
    }
    let mut image = Vec::new();
    let done = io::stdin()
        .lock()
        .read_to_end(&mut image)
        .and_then(|_| io::stdout().lock().write_all(&listing(&image)));
    if let Err(error) = done {
        eprintln!("own_ringlist: {error}");
        return ExitCode::from(2);
    }
    ExitCode::SUCCESS
}
