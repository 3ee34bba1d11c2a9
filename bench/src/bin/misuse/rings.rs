//! Files that are no rings, rings that do not read, erasing and listing.

use crate::table::{ring, Should, Table};
use bench::own::listing;
use bench::own::ring::RING_BYTES;
use std::io;

/// A ring with another byte at a place.
fn with(place: usize, byte: u8) -> Vec<u8> {
    let mut image = ring(5);
    image[place] = byte;
    image
}

/// What is refused by its number stays as it was.
pub fn refused(t: &mut Table) -> io::Result<()> {
    let lengths = [0, 1, 754, RING_BYTES - 1, RING_BYTES + 1, 100_000];
    let mut files: Vec<(String, Vec<u8>, usize)> = Vec::new();
    files.extend(lengths.map(|many| (format!("{many} bytes"), vec![0; many], 10)));
    files.extend([128, 255].map(|head| (format!("head {head}"), with(0, head), 11)));
    files.push(("a record that does not read".to_string(), with(1 + 768, 9), 9));
    for (case, bytes, number) in &files {
        let folder = t.fresh()?;
        folder.put("a", bytes)?;
        let refused = Should::print(&format!("refused {number}\n"));
        let seen = folder.run("recorder a < scan")?;
        t.hold(case, "recorder", &seen, &refused);
        if *number == 10 {
            let seen = folder.run("ringerase a")?;
            t.hold(case, "ringerase", &seen, &refused);
        }
    }
    Ok(())
}

/// Erasing stores 0 at the head of whatever has a ring's length, and changes no other byte.
pub fn erasing(t: &mut Table) -> io::Result<()> {
    for head in [0, 5, 64, 127, 128, 255] {
        let folder = t.fresh()?;
        let mut image = vec![0xEE; RING_BYTES];
        image[0] = head;
        folder.put("a", &image)?;
        let seen = folder.run("ringerase a")?;
        image[0] = 0;
        let should = Should::print("erased\n").leave("a", &image);
        t.hold(&format!("head {head}, records that do not read"), "ringerase", &seen, &should);
    }
    Ok(())
}

/// A ring is listed alike by its name and from standard input.
pub fn listed(t: &mut Table) -> io::Result<()> {
    let files = [
        ("no turns", ring(0)),
        ("5 turns", ring(5)),
        ("a ring that has gone round", ring(70)),
        ("a record that does not read", with(1 + 768, 9)),
        ("head 128", with(0, 128)),
        ("an empty file", Vec::new()),
        ("a byte too few", vec![0; RING_BYTES - 1]),
        ("a byte too many", vec![0; RING_BYTES + 1]),
    ];
    for (case, bytes) in &files {
        let folder = t.fresh()?;
        folder.put("a", bytes)?;
        let text = String::from_utf8_lossy(&listing(bytes)).into_owned();
        for line in ["ringlist a", "ringlist < a", "cat a | ringlist"] {
            let seen = folder.run(line)?;
            let should = Should::print(&text);
            t.hold(&format!("{case}, `{line}`"), "ringlist", &seen, &should);
        }
    }
    Ok(())
}
