//! The yard: kills `recorder` and pulls its supply, and looks at the ring that is left.
//!
//! `yard RECORDER [KILLS [CUTS [SEED]]]`. The kills are real. The supply is pulled on paper, from steps to which the recorder is held by
//! what `strace` saw of it: of the writes since the last sync any choice may have reached the disk.

mod disk;
mod kept;
mod kills;
mod log;
mod restarts;
mod steps;
mod supply;

use bench::gen::Rng;
use std::path::{Path, PathBuf};
use std::process::ExitCode;
use std::{env, fs, io, process};

/// More than twice the slots, so that the ring goes round and round again.
const TURNS: usize = 140;

fn run(recorder: &Path, folder: &Path, numbers: &[u64]) -> io::Result<bool> {
    let number = |n: usize, otherwise: u64| numbers.get(n).copied().unwrap_or(otherwise);
    let (kills, cuts) = (number(0, 200) as usize, number(1, 20_000) as usize);
    let mut rng = Rng::new(number(2, 1));
    let are_right = [
        kills::kills(recorder, folder, kills, &mut rng)?,
        supply::supply(recorder, folder, cuts, &mut rng)?,
        restarts::restarts(cuts, &mut rng),
    ];
    Ok(are_right == [true; 3])
}

fn main() -> ExitCode {
    let words: Vec<String> = env::args().skip(1).collect();
    let numbers: Option<Vec<u64>> = words.iter().skip(1).map(|word| word.parse().ok()).collect();
    let (Some(recorder), Some(numbers)) = (words.first().map(PathBuf::from), numbers) else {
        eprintln!("yard RECORDER [KILLS [CUTS [SEED]]]");
        return ExitCode::from(2);
    };
    let folder = env::temp_dir().join(format!("yard-{}", process::id()));
    let done = fs::create_dir(&folder).and_then(|()| run(&recorder, &folder, &numbers));
    let removed = fs::remove_dir_all(&folder);
    match done {
        Ok(true) if removed.is_ok() => ExitCode::SUCCESS,
        Ok(_) => ExitCode::FAILURE,
        Err(error) => {
            eprintln!("yard: {error}");
            ExitCode::from(2)
        }
    }
}
