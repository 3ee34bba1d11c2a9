//! Runs every program under bad input, and holds it to what it should say and do.
//!
//! `misuse BIN`, the folder with the programs. Prints a table of what was seen, then each thing that was wrong.

mod files;
mod folder;
mod input;
mod live;
mod making;
mod output;
mod pairs;
mod rings;
mod run;
mod table;
mod words;

use std::path::{Path, PathBuf};
use std::process::ExitCode;
use std::{env, fs, io, process};
use table::Table;

/// The programs.
const PROGRAMS: [&str; 4] = ["scanlist", "ringlist", "recorder", "ringerase"];

/// The cases, rule by rule.
const RULES: [fn(&mut Table) -> io::Result<()>; 30] = [
    words::help,
    words::options,
    words::dashes_behind_a_folder,
    words::wrong_words,
    words::refused_code,
    words::odd_names,
    input::unreadable,
    input::breaks,
    output::unwritable,
    output::closed,
    output::own_output,
    rings::refused,
    rings::erasing,
    rings::listed,
    files::unopenable,
    files::no_files,
    files::links,
    files::forbidden,
    making::names_taken,
    making::full_disk,
    making::failing_making,
    making::failing_folder,
    making::failing_calls,
    pairs::second,
    pairs::readers,
    pairs::others,
    pairs::at_once,
    live::plain,
    live::scanlist_at_once,
    live::verbose_at_once,
];

/// Runs all cases in a folder of their own.
fn run(programs: &Path, work: &Path) -> io::Result<bool> {
    let programs = programs.canonicalize()?;
    for program in PROGRAMS {
        fs::metadata(programs.join(program))
            .map_err(|e| io::Error::new(e.kind(), format!("{program} is missing")))?;
    }
    let mut table = Table::new(programs, work.to_path_buf());
    RULES.iter().try_for_each(|rule| rule(&mut table))?;
    Ok(table.end())
}

fn main() -> ExitCode {
    let words: Vec<PathBuf> = env::args_os().skip(1).map(PathBuf::from).collect();
    let [programs] = &words[..] else {
        eprintln!("misuse BIN");
        return ExitCode::from(2);
    };
    let work = env::temp_dir().join(format!("misuse-{}", process::id()));
    let done = fs::create_dir(&work).and_then(|()| run(programs, &work));
    let removed = fs::remove_dir_all(&work);
    match done {
        Ok(true) if removed.is_ok() => ExitCode::SUCCESS,
        Ok(_) => ExitCode::FAILURE,
        Err(error) => {
            eprintln!("misuse: {error}");
            ExitCode::from(2)
        }
    }
}
