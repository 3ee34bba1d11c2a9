//! Standard input that is closed, a folder, or breaks in the middle.

use crate::table::{after, ring, turns, Should, Table, Text};
use std::io::{self, Write};
use std::net::{TcpListener, TcpStream};
use std::os::fd::OwnedFd;
use std::process::Stdio;

/// An input that cannot be read is said; no ring is made, and none changed.
pub fn unreadable(t: &mut Table) -> io::Result<()> {
    for line in ["recorder new", "recorder a", "recorder --verbose a", "ringlist", "scanlist 20"] {
        for from in ["<&-", "< /", "< ."] {
            let folder = t.fresh()?;
            folder.put("a", &ring(5))?;
            let seen = folder.run(&format!("{line} {from}"))?;
            let program = line.split(' ').next().unwrap_or_default();
            let should = Should::say(&format!("{program}: standard input: "));
            t.hold(&format!("`{line} {from}`"), program, &seen, &should);
        }
    }
    Ok(())
}

/// An input that gives these bytes and then breaks: a connection whose other end is closed with something unread.
fn broken_behind(bytes: &[u8]) -> io::Result<Stdio> {
    let listener = TcpListener::bind("127.0.0.1:0")?;
    let mut ours = TcpStream::connect(listener.local_addr()?)?;
    let (mut theirs, _) = listener.accept()?;
    ours.write_all(bytes)?;
    theirs.write_all(b"unread")?;
    // what was sent has arrived before the end is closed
    ours.peek(&mut [0; 6])?;
    theirs.peek(&mut [0; 1])?;
    drop(ours);
    Ok(Stdio::from(OwnedFd::from(theirs)))
}

/// The turns that came before an input breaks are kept, and the break is said.
pub fn breaks(t: &mut Table) -> io::Result<()> {
    let folder = t.fresh()?;
    folder.put("a", &ring(5))?;
    let seen = folder.run_with("recorder a", broken_behind(&turns(3))?)?;
    let should = Should {
        out: Text::Is("kept 3\n".to_string()),
        err: Text::Line("recorder: standard input: ".to_string()),
        ..Should::default()
    };
    let should = should.leave("a", &after(&ring(5), &turns(3)));
    t.hold("three turns and then a break", "recorder", &seen, &should);
    let seen = folder.run_with("scanlist 20", broken_behind(&turns(3))?)?;
    let err = Text::Line("scanlist: standard input: ".to_string());
    t.hold("a break", "scanlist", &seen, &Should { out: Text::Anything, err, ..Should::default() });
    let seen = folder.run_with("ringlist", broken_behind(&ring(5)[..9_000])?)?;
    t.hold("a break", "ringlist", &seen, &Should::say("ringlist: standard input: "));
    Ok(())
}
