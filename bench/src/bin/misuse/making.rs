//! Making a ring, and keeping turns where the disk is full or a call fails.

use crate::folder::Folder;
use crate::run::Seen;
use crate::table::{ring, turns, Should, Table};
use bench::own::ring::{self, RING_BYTES};
use std::io;

/// Files of somebody's stay as they are, whatever their names: beside them there is the ring and nothing else.
pub fn names_taken(t: &mut Table) -> io::Result<()> {
    let folder = t.fresh()?;
    for name in ["a~", "a.new", "a.tmp", ".a", "a.new0", "a.new1", "a.new3"] {
        folder.put(name, b"somebody's")?;
    }
    let seen = folder.run("recorder a < scan")?;
    let should = Should::print("kept 3\n").leave("a", &ring(3));
    t.hold("`a~`, `a.new0` and more are there", "recorder", &seen, &should);
    let folder = t.fresh()?;
    folder.does("mkdir a.new0; mkfifo a.new1");
    folder.link("nowhere", "a.new2")?;
    folder.link("scan", "a.new3")?;
    let seen = folder.run("recorder a < scan")?;
    t.hold("a folder, a FIFO and links of such names", "recorder", &seen, &should);
    let folder = t.fresh()?;
    for n in 0..120 {
        folder.put(&format!("a.new{n}"), b"")?;
    }
    let seen = folder.run("recorder a < scan")?;
    t.hold("`a.new0` to `a.new119` are there", "recorder", &seen, &should);
    let folder = t.fresh()?;
    folder.does("mkdir folder");
    let seen = folder.run("recorder folder/a < scan")?;
    let should = Should::print("kept 3\n").leave("folder/a", &ring(3));
    t.hold("a new ring in another folder", "recorder", &seen, &should);
    Ok(())
}

/// A disk of 32 KB in a folder, until it is dropped.
struct SmallDisk<'a>(&'a Folder);

impl SmallDisk<'_> {
    fn new(folder: &Folder) -> Option<SmallDisk<'_>> {
        let is_there = folder.does("mkdir disk && mount -t tmpfs -o size=32k,mode=755 none disk");
        is_there.then_some(SmallDisk(folder))
    }
}

impl Drop for SmallDisk<'_> {
    fn drop(&mut self) {
        self.0.does("umount disk");
    }
}

/// What is said where the sync of the folder fails.
const FOLDER: &str = "recorder: the ring's folder: ";

/// What is wrong with a run whose ring's file failed: that is said, and the ring has gained just the turns that it says were kept.
fn wrongly_kept(seen: &Seen, name: &str, scan: &[u8]) -> Vec<String> {
    let before = seen.before.file(name).unwrap_or(&[0; RING_BYTES]);
    let Some(image) = seen.after.file(name) else {
        return vec!["the ring should be there".to_string()];
    };
    let stores = stores(before, scan);
    let mut wanted = before.to_vec();
    let mut gained = None;
    for n in 0..=stores.len() / 755 {
        // the bytes of a turn that was not kept are in the free slot
        let is_held = |i| ring::turn(image, i) == ring::turn(&wanted, i);
        if ring::held(image) == ring::held(&wanted) && (0..63).all(is_held) {
            gained = Some(n);
        }
        let rest = stores.iter().skip(755 * n).take(755);
        rest.for_each(|&(place, byte)| wanted[place] = byte);
    }
    let kept = seen.kept().unwrap_or(0);
    let mut wrong = Vec::new();
    match gained {
        None => wrong.push("the ring holds other turns".to_string()),
        Some(gained) if gained == kept => {}
        Some(gained) => wrong.push(format!("kept {kept}, and the ring has gained {gained}")),
    }
    let begins = |line: &str| seen.err.starts_with(line.as_bytes());
    if !begins(&format!("recorder: {name}: ")) && !begins(FOLDER) {
        wrong.push(format!("standard error should be a line `recorder: {name}: ...`"));
    }
    wrong
}

/// The stores of a scan.
fn stores(ring: &[u8], scan: &[u8]) -> Vec<(usize, u8)> {
    let mut stores = Vec::new();
    let each = |place, byte| stores.push((place, byte));
    bench::own::recording::record(&mut ring.to_vec(), scan, [0; 16], each).expect("a ring");
    stores
}

/// On a full disk no part of a ring is left, and of a ring that is there the turns kept are those said.
pub fn full_disk(t: &mut Table) -> io::Result<()> {
    let folder = t.fresh()?;
    let Some(disk) = SmallDisk::new(&folder) else {
        t.not_tried("a full disk", "recorder", "no disk may be mounted");
        return Ok(());
    };
    let seen = folder.run("recorder disk/a < scan")?;
    t.hold("a new ring on a full disk", "recorder", &seen, &Should::say("recorder: disk/a: "));
    folder.does("truncate -s 49153 disk/a");
    folder.put("long", &turns(60))?;
    for line in ["recorder disk/a < long", "recorder --verbose disk/a < long"] {
        let seen = folder.run(line)?;
        let wrong = wrongly_kept(&seen, "disk/a", &turns(60));
        t.note(&format!("a ring that has no room on the disk, `{line}`"), "recorder", &seen, wrong);
    }
    let seen = folder.run("ringerase disk/a")?;
    let mut image = seen.before.file("disk/a").unwrap_or_default().to_vec();
    image.first_mut().into_iter().for_each(|head| *head = 0);
    t.hold("a full disk", "ringerase", &seen, &Should::print("erased\n").leave("disk/a", &image));
    drop(disk);
    Ok(())
}

/// A line that lets call `n` of a kind fail.
fn failing(call: &str, error: &str, n: usize) -> String {
    format!("strace -o /dev/null -e inject={call}:error={error}:when={n}")
}

/// A making that fails leaves nothing.
pub fn failing_making(t: &mut Table) -> io::Result<()> {
    for (case, call, error) in [
        ("the write", "write", "ENOSPC"),
        ("the sync of the file", "fsync", "EIO"),
        ("the rename", "rename,renameat,renameat2", "EACCES"),
    ] {
        let folder = t.fresh()?;
        if !folder.does("strace -o /dev/null true") {
            t.not_tried("a making that fails", "recorder", "there is no strace");
            return Ok(());
        }
        let seen = folder.run(&format!("{} recorder a < scan", failing(call, error, 1)))?;
        let case = format!("{case} of a new ring fails");
        t.hold(&case, "recorder", &seen, &Should::say("recorder: a: "));
    }
    Ok(())
}

/// Where the folder's sync fails the new ring is there, and empty, or is not.
pub fn failing_folder(t: &mut Table) -> io::Result<()> {
    let folder = t.fresh()?;
    if !folder.does("strace -o /dev/null true") {
        t.not_tried("a folder whose sync fails", "recorder", "there is no strace");
        return Ok(());
    }
    let seen = folder.run(&format!("{} recorder a < scan", failing("fsync", "EIO", 2)))?;
    let should = Should::say(FOLDER);
    let is_there = seen.after.file("a").is_some();
    let should = if is_there { should.leave("a", &ring(0)) } else { should };
    t.hold("the sync of the folder of a new ring fails", "recorder", &seen, &should);
    Ok(())
}

/// Where a write or a sync fails that is said, and the turns kept are those that the ring has gained.
pub fn failing_calls(t: &mut Table) -> io::Result<()> {
    // one write at the start, then 755 for each turn; two syncs at the start, then two for each turn
    let mut calls = Vec::new();
    calls.extend([1, 2, 400, 755, 756, 757, 1_511].map(|n| ("pwrite64", "ENOSPC", n)));
    calls.extend([1, 2, 3, 4, 5, 6].map(|n| ("fsync", "EIO", n)));
    for (call, error, n) in calls {
        let folder = t.fresh()?;
        folder.put("a", &ring(70))?;
        if !folder.does("strace -o /dev/null true") {
            t.not_tried("a call that fails", "recorder", "there is no strace");
            return Ok(());
        }
        let seen = folder.run(&format!("{} recorder a < scan", failing(call, error, n)))?;
        let wrong = wrongly_kept(&seen, "a", &turns(3));
        t.note(&format!("`{call}` number {n} fails"), "recorder", &seen, wrong);
    }
    Ok(())
}
