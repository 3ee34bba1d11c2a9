//! The table of what was seen, and what should have been.

use crate::folder::{Files, Folder};
use crate::run::Seen;
use bench::gen::{scan, Rng};
use bench::own::recording::record;
use bench::own::ring::RING_BYTES;
use std::path::PathBuf;
use std::{fs, io};

/// What a text should be.
#[derive(Clone, Default)]
pub enum Text {
    #[default]
    Nothing,
    Is(String),
    /// One line that begins so.
    Line(String),
    /// One line that begins with one of these.
    OneOf(Vec<String>),
    /// One line or more, all of which begin so.
    Lines(String),
    Anything,
}

impl Text {
    fn is_met(&self, text: &[u8]) -> bool {
        let text = String::from_utf8_lossy(text);
        let is_line = |begin: &str| {
            text.starts_with(begin) && text.ends_with('\n') && text.lines().count() == 1
        };
        match self {
            Text::Nothing => text.is_empty(),
            Text::Is(wanted) => text == *wanted,
            Text::Line(begin) => is_line(begin),
            Text::OneOf(begins) => begins.iter().any(|begin| is_line(begin)),
            Text::Lines(begin) => {
                text.ends_with('\n') && text.lines().all(|line| line.starts_with(begin.as_str()))
            }
            Text::Anything => true,
        }
    }

    /// In words.
    fn tell(&self) -> String {
        match self {
            Text::Nothing => "nothing".to_string(),
            Text::Is(wanted) => cell(wanted.as_bytes()),
            Text::Line(begin) => format!("a line `{begin}...`"),
            Text::OneOf(begins) => format!("a line `{}...`", begins.join("...` or `")),
            Text::Lines(begin) => format!("lines `{begin}...`"),
            Text::Anything => "anything".to_string(),
        }
    }
}

/// What a run should say and do: as it stands, say nothing and leave every file as it was.
#[derive(Clone, Default)]
pub struct Should {
    pub out: Text,
    pub err: Text,
    /// The files that it leaves new or changed.
    pub files: Vec<(String, Vec<u8>)>,
}

impl Should {
    /// It prints a text, and no more.
    pub fn print(text: &str) -> Should {
        Should { out: Text::Is(text.to_string()), ..Should::default() }
    }

    /// It says one line on standard error that begins so, and no more.
    pub fn say(begin: &str) -> Should {
        Should { err: Text::Line(begin.to_string()), ..Should::default() }
    }

    /// And it leaves a file so.
    pub fn leave(mut self, name: &str, bytes: &[u8]) -> Should {
        self.files.push((name.to_string(), bytes.to_vec()));
        self
    }

    /// What is wrong with a run.
    fn wrong_in(&self, seen: &Seen) -> Vec<String> {
        let mut wrong = Vec::new();
        if !self.out.is_met(&seen.out) {
            wrong.push(format!("standard output should be {}", self.out.tell()));
        }
        if !self.err.is_met(&seen.err) {
            wrong.push(format!("standard error should be {}", self.err.tell()));
        }
        let keep = |files: Files, (name, bytes): &(String, Vec<u8>)| files.with(name, bytes);
        let wanted = self.files.iter().fold(seen.before.clone(), keep);
        if seen.after != wanted {
            wrong.push(format!("files should be: {}", wanted.changes(&seen.before)));
        }
        wrong
    }
}

/// The table, row by row.
pub struct Table {
    pub programs: PathBuf,
    pub work: PathBuf,
    folders: usize,
    cases: usize,
    wrong_cases: usize,
    wrong: Vec<String>,
}

impl Table {
    /// A table whose head is printed.
    pub fn new(programs: PathBuf, work: PathBuf) -> Table {
        println!(
            "| case | program | standard output | standard error | files |\n|---|---|---|---|---|"
        );
        Table { programs, work, folders: 0, cases: 0, wrong_cases: 0, wrong: Vec::new() }
    }

    /// A fresh folder with a scan of three turns in it.
    pub fn fresh(&mut self) -> io::Result<Folder> {
        self.folders += 1;
        let path = self.work.join(self.folders.to_string());
        fs::create_dir(&path)?;
        let folder = Folder { path, programs: self.programs.clone() };
        folder.put("scan", &turns(3))?;
        Ok(folder)
    }

    /// Holds a run to what it should say and do.
    pub fn hold(&mut self, case: &str, program: &str, seen: &Seen, should: &Should) {
        self.note(case, program, seen, should.wrong_in(seen));
    }

    /// Adds a run and what is wrong with it.
    pub fn note(&mut self, case: &str, program: &str, seen: &Seen, mut wrong: Vec<String>) {
        if !seen.has_ended {
            wrong.push("it did not end".to_string());
        }
        self.cases += 1;
        let mark = if wrong.is_empty() { "" } else { "**wrong:** " };
        let row = [
            format!("{mark}{}", case.replace('|', "\\|")),
            program.to_string(),
            self.shown(&seen.out),
            self.shown(&seen.err),
            short(&seen.after.changes(&seen.before)),
        ];
        println!("| {} |", row.join(" | "));
        self.wrong.extend(wrong.iter().map(|wrong| format!("{program}, {case}: {wrong}")));
        self.wrong_cases += usize::from(!wrong.is_empty());
    }

    /// A text with the folder's own path left out.
    fn shown(&self, text: &[u8]) -> String {
        cell(text).replace(&*self.work.to_string_lossy(), "WORK")
    }

    /// A case that cannot be had on this machine.
    pub fn not_tried(&self, case: &str, program: &str, why: &str) {
        println!("| {case} | {program} | not tried: {why} | | |");
    }

    /// Ends the table, and says whether nothing was wrong.
    pub fn end(&self) -> bool {
        println!();
        self.wrong.iter().for_each(|wrong| println!("- {wrong}"));
        println!("{} cases, {} wrong", self.cases, self.wrong_cases);
        self.wrong_cases == 0
    }
}

/// A line that is cut where it is long.
fn short(line: &str) -> String {
    match line.char_indices().nth(100) {
        Some((end, _)) => format!("{}...", &line[..end]),
        None => line.to_string(),
    }
}

/// A text as the cell of a table: its lines, those in the middle left out where there are many.
fn cell(text: &[u8]) -> String {
    let line = |line: &str| {
        let line: String = line.chars().flat_map(char::escape_debug).collect();
        format!("`{}`", short(&line).replace('|', "\\|"))
    };
    let text = String::from_utf8_lossy(text);
    let lines: Vec<&str> = text.lines().collect();
    match lines[..] {
        [first, second, .., last] if lines.len() > 4 => {
            format!("{}, {}, ... {} ({} lines)", line(first), line(second), line(last), lines.len())
        }
        _ => lines.into_iter().map(line).collect::<Vec<_>>().join(", "),
    }
}

/// A scan of so many turns, the same every time.
pub fn turns(many: usize) -> Vec<u8> {
    scan(&mut Rng::new(many as u64), many)
}

/// A ring after a scan, as the bench's own program has it.
pub fn after(ring: &[u8], scan: &[u8]) -> Vec<u8> {
    let mut image = ring.to_vec();
    record(&mut image, scan, [0; 16], |_, _| {}).expect("a ring");
    image
}

/// A ring of so many turns.
pub fn ring(many: usize) -> Vec<u8> {
    after(&[0; RING_BYTES], &turns(many))
}

#[cfg(test)]
mod tests {
    use super::*;

    #[test]
    fn texts_that_are_met_and_not() {
        let line = Text::Line("recorder: a: ".to_string());
        assert!(line.is_met(b"recorder: a: No space left on device\n"));
        let lines = Text::Lines("recorder: a: ".to_string());
        let two = b"recorder: a: one\nrecorder: a: two\n";
        assert!(lines.is_met(two) && !line.is_met(two));
        for other in [&b""[..], b"recorder: a: no end", b"recorder: b: another\n"] {
            assert!(!line.is_met(other) && !lines.is_met(other));
        }
        assert!(Text::Nothing.is_met(b"") && !Text::Nothing.is_met(b"\n"));
        assert!(Text::Is("kept 3\n".to_string()).is_met(b"kept 3\n"));
        assert!(!Text::Is("kept 3\n".to_string()).is_met(b"kept 2\n"));
    }

    #[test]
    fn what_a_run_leaves() {
        let before = Files::default().with("a", b"1");
        let seen = |after: Files| Seen {
            out: b"kept 3\n".to_vec(),
            err: Vec::new(),
            has_ended: true,
            before: before.clone(),
            after,
        };
        let should = Should::print("kept 3\n").leave("a", b"2");
        assert!(should.wrong_in(&seen(before.with("a", b"2"))).is_empty());
        assert_eq!(should.wrong_in(&seen(before.clone())), ["files should be: a changed"]);
        assert_eq!(should.wrong_in(&seen(before.with("a", b"2").with("b", b""))).len(), 1);
        assert_eq!(Should::say("recorder: ").wrong_in(&seen(before.clone())).len(), 2);
        assert_eq!(before.with("b", b"12").changes(&before), "b new, 2 bytes");
        assert_eq!(Files::default().changes(&before), "a gone");
        assert_eq!(before.with("a", b"").changes(&before), "a now 0 bytes");
    }

    #[test]
    fn cells() {
        assert_eq!(cell(b"a|b\n\xFF\n"), "`a\\|b`, `\u{FFFD}`");
        assert_eq!(cell(b"1\n2\n3\n4\n5\n"), "`1`, `2`, ... `5` (5 lines)");
        assert_eq!(cell(&[b'n'; 200]).len(), 105);
    }
}
