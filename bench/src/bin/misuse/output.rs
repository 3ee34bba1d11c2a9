//! Output that cannot be written, descriptors that are closed, and a ring as its own output.

use crate::table::{after, ring, turns, Should, Table, Text};
use std::io;

/// The ring that is there at the start, after a run of three turns.
fn kept() -> Vec<u8> {
    after(&ring(5), &turns(3))
}

fn erased() -> Vec<u8> {
    let mut image = ring(5);
    image[0] = 0;
    image
}

/// Output that cannot be written is said; the ring is as if it could.
pub fn unwritable(t: &mut Table) -> io::Result<()> {
    let lines = [
        ("recorder a < scan", Some(kept())),
        ("recorder --verbose a < scan", Some(kept())),
        ("ringlist a", None),
        ("ringlist < a", None),
        ("ringerase a", Some(erased())),
        ("scanlist 20 < scan", None),
        ("scanlist 00 < scan", None),
        ("recorder --help", None),
        ("ringlist --version", None),
        ("ringerase --help", None),
        ("scanlist --version", None),
    ];
    for (line, image) in &lines {
        let program = line.split(' ').next().unwrap_or_default();
        for to in ["> /dev/full", ">&-"] {
            let folder = t.fresh()?;
            folder.put("a", &ring(5))?;
            let seen = folder.run(&format!("{line} {to}"))?;
            let err = Text::Lines(format!("{program}: standard output: "));
            let mut should = Should { err, ..Should::default() };
            should.files.extend(image.iter().map(|image| ("a".to_string(), image.clone())));
            t.hold(&format!("`{line} {to}`"), program, &seen, &should);
        }
    }
    Ok(())
}

/// A run of which some of the descriptors 0, 1 and 2 are closed.
struct Closed {
    input: bool,
    output: bool,
    error: bool,
}

impl Closed {
    fn all() -> impl Iterator<Item = Closed> {
        let is = |n: u8, bit: u8| n & bit != 0;
        (0..8).map(move |n| Closed { input: is(n, 1), output: is(n, 2), error: is(n, 4) })
    }

    /// The line with these closed.
    fn line(&self, words: &str, input: &str) -> String {
        let mut line = format!("{words} {}", if self.input { "<&-" } else { input });
        line.push_str(if self.output { " >&-" } else { "" });
        line.push_str(if self.error { " 2>&-" } else { "" });
        line
    }
}

/// Whatever is closed, no ring is written but by its stores: it is what the run with all open makes of it, or as it was.
pub fn closed(t: &mut Table) -> io::Result<()> {
    let words = [
        "recorder a",
        "recorder new",
        "recorder --verbose a",
        "ringerase a",
        "ringlist a",
        "ringlist",
        "scanlist 20",
    ];
    // the shell's own memory cannot be read at its front: an input that opens and then breaks
    for (input, what) in [("< scan", "a scan"), ("< /proc/$$/mem", "an input that breaks")] {
        for words in words {
            let folder = t.fresh()?;
            folder.put("a", &ring(5))?;
            let open = folder.run(&format!("{words} {input}; true"))?;
            for closed in Closed::all() {
                let folder = t.fresh()?;
                folder.put("a", &ring(5))?;
                let line = closed.line(words, input);
                let seen = folder.run(&format!("{line}; true"))?;
                let mut wrong = Vec::new();
                let is_as_open = seen.after == open.after;
                if !is_as_open && !(closed.input && seen.after == seen.before) {
                    wrong.push(format!("files should be: {}", open.after.changes(&open.before)));
                }
                if !closed.error && !is_told(words, &closed, what, &seen.err) {
                    wrong.push(
                        "standard error should say what cannot be read or written".to_string(),
                    );
                }
                let program = words.split(' ').next().unwrap_or_default();
                t.note(&format!("{what}, `{line}`"), program, &seen, wrong);
            }
        }
    }
    Ok(())
}

/// Whether what cannot be read or written is said, and nothing where there is no such thing.
fn is_told(words: &str, closed: &Closed, input: &str, err: &[u8]) -> bool {
    let text = String::from_utf8_lossy(err);
    let program = words.split(' ').next().unwrap_or_default();
    let reads = program != "ringerase" && words != "ringlist a";
    let broken = reads && (closed.input || input != "a scan");
    let begins = [
        broken.then(|| format!("{program}: standard input: ")),
        closed.output.then(|| format!("{program}: standard output: ")),
    ];
    let is_one = |line: &str| begins.iter().flatten().any(|begin| line.starts_with(begin.as_str()));
    text.lines().all(is_one) && (text.is_empty() != (broken || closed.output))
}

/// A ring that is the program's own output is refused.
pub fn own_output(t: &mut Table) -> io::Result<()> {
    let lines = [
        "recorder a < scan >> a",
        "recorder a < scan 2>> a",
        "recorder a < scan >> a 2>> a",
        "recorder a < scan 1<> a",
        "recorder a < scan 2<> a",
        "recorder --verbose a < scan >> a",
        "recorder symbolic < scan >> a",
        "recorder hard < scan >> a",
        "recorder a < scan >> hard",
        "ringerase a >> a",
        "ringerase a 2>> a",
        "ringerase a >> a 2>> a",
        "ringerase a 1<> a",
        "ringerase hard 2<> a",
    ];
    for line in lines {
        let folder = t.fresh()?;
        folder.put("a", &ring(5))?;
        folder.link("a", "symbolic")?;
        folder.does("ln a hard");
        let seen = folder.run(line)?;
        let program = line.split(' ').next().unwrap_or_default();
        let begin = format!("{program}: ");
        // where standard error is the ring, standard output may say it
        let is_told_there = line.contains(" 2") && !seen.out.is_empty();
        let should = match line.contains(" 2") {
            false => Should::say(&begin),
            true if is_told_there => Should { out: Text::Line(begin), ..Should::default() },
            true => Should::default(),
        };
        t.hold(&format!("`{line}`"), program, &seen, &should);
    }
    Ok(())
}
