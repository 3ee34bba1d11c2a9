//! Programs on a live line: what came is shown at once, though more may come.

use crate::run::Live;
use crate::table::{after, ring, turns, Should, Table};
use bench::own::recording::{self, record};
use bench::own::{listing, scanlist};
use std::io;

/// How many bytes of a scan close so many turns.
pub fn closing(scan: &[u8], turns: usize) -> usize {
    let is_closed = |&many: &usize| recording::turns(&scan[..many]).len() >= turns;
    (0..=scan.len()).find(is_closed).unwrap_or(scan.len())
}

/// The lines that a listing has of the turns of a scan, which are added to a ring.
pub fn lines(ring: &[u8], scan: &[u8]) -> Vec<u8> {
    let many = recording::turns(scan).len();
    let text = listing(&after(ring, scan));
    let all: Vec<&[u8]> = text.split_inclusive(|&byte| byte == b'\n').collect();
    all[all.len() - many..].concat()
}

/// Feeds a program the parts of a scan, and looks after each whether it has printed what it should by then.
fn feed(
    live: &mut Live,
    scan: &[u8],
    parts: &[usize],
    text: impl Fn(&[u8]) -> Vec<u8>,
) -> Vec<String> {
    let mut wrong = Vec::new();
    let mut fed = 0;
    for &part in parts {
        live.feed(&scan[fed..part]);
        fed = part;
        let wanted = text(&scan[..part]);
        if live.printed(&wanted) != wanted {
            wrong.push(format!("after {part} bytes it should have printed what came"));
        }
    }
    live.feed(&scan[fed..]);
    wrong
}

/// `scanlist` lists the bytes that came.
pub fn scanlist_at_once(t: &mut Table) -> io::Result<()> {
    let scan = turns(2);
    let all = |bytes: &[u8]| scanlist(0x20, bytes, 4_096, 3_072);
    let so_far = |bytes: &[u8]| {
        let mut text = all(bytes);
        let last = text[..text.len() - 1].iter().rposition(|&byte| byte == b'\n');
        text.truncate(last.map_or(0, |place| place + 1));
        text
    };
    for words in [&["20"][..], &["20", "64"], &["20", "7", "3"], &["20", "65536", "24576"]] {
        let folder = t.fresh()?;
        let mut live = folder.start("scanlist", words)?;
        let wrong = feed(&mut live, &scan, &[7, 12, 14, 40, 41], so_far);
        let seen = live.end()?;
        let case = format!("`{}`, an input that stays open", words.join(" "));
        if wrong.is_empty() {
            let text = String::from_utf8_lossy(&all(&scan)).into_owned();
            t.hold(&case, "scanlist", &seen, &Should::print(&text));
        } else {
            t.note(&case, "scanlist", &seen, wrong);
        }
    }
    Ok(())
}

/// `recorder --verbose` prints the line of each turn that it has kept.
pub fn verbose_at_once(t: &mut Table) -> io::Result<()> {
    let scan = turns(4);
    let parts = [1, 2, 3].map(|turns| closing(&scan, turns));
    for (case, image) in [("a new ring", ring(0)), ("a ring", ring(5)), ("a full ring", ring(70))] {
        let folder = t.fresh()?;
        if case != "a new ring" {
            folder.put("a", &image)?;
        }
        let mut live = folder.start("recorder", &["--verbose", "a"])?;
        let wrong = feed(&mut live, &scan, &parts, |bytes| lines(&image, bytes));
        let seen = live.end()?;
        let text = String::from_utf8_lossy(&lines(&image, &scan)).into_owned() + "kept 4\n";
        let should = Should::print(&text).leave("a", &after(&image, &scan));
        let case = format!("{case}, `--verbose`, an input that stays open");
        if wrong.is_empty() {
            t.hold(&case, "recorder", &seen, &should);
        } else {
            t.note(&case, "recorder", &seen, wrong);
        }
    }
    Ok(())
}

/// A run as it should be: turns are kept, with a serial where one is told.
pub fn plain(t: &mut Table) -> io::Result<()> {
    let seen = t.fresh()?.run("recorder a < scan")?;
    t.hold("a new ring", "recorder", &seen, &Should::print("kept 3\n").leave("a", &ring(3)));
    let serial: [u8; 16] = std::array::from_fn(|n| 0xF0 + n as u8);
    let digits: String = serial.iter().map(|byte| format!("{byte:02x}")).collect();
    let mut image = ring(0);
    record(&mut image, &turns(3), serial, |_, _| {}).expect("a ring");
    for words in [format!("a {digits}"), format!("a {}", digits.to_uppercase())] {
        let seen = t.fresh()?.run(&format!("recorder {words} < scan"))?;
        let should = Should::print("kept 3\n").leave("a", &image);
        t.hold("a serial", "recorder", &seen, &should);
    }
    let folder = t.fresh()?;
    folder.put("a", &ring(5))?;
    let seen = folder.run("recorder a < /dev/null")?;
    t.hold("no input", "recorder", &seen, &Should::print("kept 0\n"));
    Ok(())
}
