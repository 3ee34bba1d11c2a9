//! Names that are no plain files: links, folders, FIFOs, devices, missing ones, and those that may not be written.

use crate::folder::Folder;
use crate::table::{after, ring, turns, Should, Table};
use bench::own::listing;
use std::io;

const FILE_PROGRAMS: [&str; 3] = ["recorder", "ringlist", "ringerase"];
/// Runs a program as a user who owns nothing.
const NOBODY: &str = "setpriv --reuid 65534 --regid 65534 --clear-groups";

/// What cannot be opened is said, and nothing is made of it.
pub fn unopenable(t: &mut Table) -> io::Result<()> {
    let names = [
        ("a dangling link", "dangling"),
        ("a link to itself", "loop"),
        ("a folder", "folder"),
        ("a folder with a slash", "folder/"),
        ("a missing folder", "no/a"),
        ("a file as a folder", "scan/a"),
    ];
    for (case, name) in names {
        for program in FILE_PROGRAMS {
            let folder = t.fresh()?;
            folder.link("nowhere", "dangling")?;
            folder.link("loop", "loop")?;
            folder.does("mkdir folder");
            let seen = folder.run(&format!("{program} {name} < scan"))?;
            t.hold(case, program, &seen, &Should::say(&format!("{program}: {name}: ")));
        }
    }
    for program in ["ringlist", "ringerase"] {
        let seen = t.fresh()?.run(&format!("{program} missing"))?;
        t.hold("a missing file", program, &seen, &Should::say(&format!("{program}: missing: ")));
    }
    Ok(())
}

/// What can be opened and is no file is said, or is refused by its length; nobody waits for it but `ringlist`, which reads a FIFO as it reads a pipe.
pub fn no_files(t: &mut Table) -> io::Result<()> {
    let folder = t.fresh()?;
    folder.put("a", &ring(5))?;
    folder.does("mkfifo fifo");
    let seen = folder.run("cat a > fifo & ringlist fifo")?;
    let text = String::from_utf8_lossy(&listing(&ring(5))).into_owned();
    t.hold("a FIFO that somebody writes to", "ringlist", &seen, &Should::print(&text));
    for (case, name) in [
        ("a FIFO", "fifo"),
        ("a device", "/dev/null"),
        ("a device", "/dev/zero"),
        ("a device", "/dev/full"),
    ] {
        for program in FILE_PROGRAMS {
            if (program, name) == ("ringlist", "fifo") {
                continue;
            }
            let folder = t.fresh()?;
            folder.does("mkfifo fifo");
            let seen = folder.run(&format!("{program} {name} < scan"))?;
            let is_refused = seen.err.is_empty();
            let said = Should::say(&format!("{program}: {name}: "));
            let should = if is_refused { Should::print("refused 10\n") } else { said };
            t.hold(&format!("{case}, `{name}`"), program, &seen, &should);
        }
    }
    Ok(())
}

/// A ring behind a link is a ring, and the link stays one.
pub fn links(t: &mut Table) -> io::Result<()> {
    for name in ["symbolic", "twice", "folder/symbolic"] {
        let folder = t.fresh()?;
        folder.put("a", &ring(5))?;
        folder.does("mkdir folder");
        folder.link("a", "symbolic")?;
        folder.link("symbolic", "twice")?;
        folder.link("../a", "folder/symbolic")?;
        let case = format!("a link, `{name}`");
        let mut image = after(&ring(5), &turns(3));
        let seen = folder.run(&format!("recorder {name} < scan"))?;
        t.hold(&case, "recorder", &seen, &Should::print("kept 3\n").leave("a", &image));
        let seen = folder.run(&format!("ringlist {name}"))?;
        let text = String::from_utf8_lossy(&listing(&image)).into_owned();
        t.hold(&case, "ringlist", &seen, &Should::print(&text));
        image[0] = 0;
        let seen = folder.run(&format!("ringerase {name}"))?;
        t.hold(&case, "ringerase", &seen, &Should::print("erased\n").leave("a", &image));
    }
    let folder = t.fresh()?;
    folder.put("a", &ring(5))?;
    folder.does("ln a hard");
    let image = after(&ring(5), &turns(3));
    let seen = folder.run("recorder hard < scan")?;
    let should = Should::print("kept 3\n").leave("a", &image).leave("hard", &image);
    t.hold("a hard link", "recorder", &seen, &should);
    Ok(())
}

/// The words before a line by which it is run as a user who may not write everywhere, where that can be had.
fn as_nobody(folder: &Folder) -> Option<String> {
    let is_root = folder.does("test $(id -u) = 0");
    let program = folder.programs.join("recorder");
    let sees = |words: &str| {
        folder.does(&format!("{words} test -x {} && {words} test -r scan", program.display()))
    };
    match is_root {
        false => Some(String::new()),
        true => sees(NOBODY).then(|| format!("{NOBODY} ")),
    }
}

/// What may not be read or written is said.
pub fn forbidden(t: &mut Table) -> io::Result<()> {
    let folder = t.fresh()?;
    let Some(nobody) = as_nobody(&folder) else {
        t.not_tried("what may not be written", "all", "the programs cannot be run as another user");
        return Ok(());
    };
    folder.put("readable", &ring(5))?;
    folder.put("hidden", &ring(5))?;
    folder.does("chmod 444 readable; chmod 000 hidden; mkdir -m 000 closed; mkdir -m 555 full");
    folder.does("cp readable full/a; chmod 666 full/a; cp readable closed/a");
    folder.does("chmod 555 .");
    let cases = [
        ("a new ring in a folder that may not be written", "recorder", "new"),
        ("a ring that may not be written", "recorder", "readable"),
        ("a ring that may not be written", "ringerase", "readable"),
        ("a ring that may not be read", "recorder", "hidden"),
        ("a ring that may not be read", "ringlist", "hidden"),
        ("a ring that may not be read", "ringerase", "hidden"),
        ("a ring in a folder that may not be entered", "recorder", "closed/a"),
        ("a ring in a folder that may not be entered", "ringlist", "closed/a"),
        ("a ring in a folder that may not be entered", "ringerase", "closed/a"),
    ];
    for (case, program, name) in cases {
        let seen = folder.run(&format!("{nobody}{program} {name} < scan"))?;
        t.hold(case, program, &seen, &Should::say(&format!("{program}: {name}: ")));
    }
    let seen = folder.run(&format!("{nobody}recorder full/a < scan"))?;
    let should = Should::print("kept 3\n").leave("full/a", &after(&ring(5), &turns(3)));
    t.hold("a ring that may be written in such a folder", "recorder", &seen, &should);
    folder.does("chmod 755 . closed full");
    Ok(())
}
