//! A recorder's steps as `strace` saw them.

use crate::steps::Step;
use std::collections::HashMap;
use std::fs::{self, File};
use std::io;
use std::path::{Path, PathBuf};
use std::process::{Command, Stdio};

/// The calls that are steps, and those that open what the steps are made on.
const CALLS: &str = "trace=pwrite64,write,fsync,rename,renameat,renameat2,openat";

/// The steps of one run on a ring's file.
pub fn watched(recorder: &Path, ring: &Path, capture: &Path, log: &Path) -> io::Result<Vec<Step>> {
    let status = Command::new("strace")
        .args(["-xx", "-s", "65536", "-e", CALLS, "-o"])
        .arg(log)
        .arg(recorder)
        .arg(ring)
        .stdin(File::open(capture)?)
        .stdout(Stdio::null())
        .status()
        .map_err(|e| io::Error::new(e.kind(), "strace is needed to watch the recorder's writes"))?;
    if !status.success() {
        return Err(io::Error::other("strace failed"));
    }
    Ok(steps(&fs::read_to_string(log)?, ring))
}

/// The steps in a log.
fn steps(log: &str, ring: &Path) -> Vec<Step> {
    let mut open = Open { ring, files: HashMap::new() };
    let mut steps = Vec::new();
    for step in log.lines().filter_map(Call::read).filter_map(|call| open.step(&call)) {
        // a new file may be filled by more than one write
        if let (Step::Fill(more), Some(Step::Fill(bytes))) = (step, steps.last_mut()) {
            *bytes += more;
        } else {
            steps.push(step);
        }
    }
    steps
}

/// One line of the log, as `pwrite64(3, "\x0a", 1, 770) = 1`.
struct Call<'a> {
    name: &'a str,
    /// What stands between the parentheses.
    words: &'a str,
    result: i64,
}

impl<'a> Call<'a> {
    fn read(line: &'a str) -> Option<Call<'a>> {
        let (call, result) = line.rsplit_once(" = ")?;
        let (name, words) = call.trim_end().strip_suffix(')')?.split_once('(')?;
        Some(Call { name, words, result: result.split(' ').next()?.parse().ok()? })
    }

    /// The descriptor that the call is about.
    fn descriptor(&self) -> Option<i64> {
        self.words.split(',').next()?.parse().ok()
    }

    /// The bytes of string `n`.
    fn string(&self, n: usize) -> Option<Vec<u8>> {
        let string = self.words.split('"').nth(2 * n + 1)?;
        string.split("\\x").skip(1).map(|digits| u8::from_str_radix(digits, 16).ok()).collect()
    }

    fn path(&self, n: usize) -> Option<PathBuf> {
        Some(PathBuf::from(String::from_utf8(self.string(n)?).ok()?))
    }

    /// The write of one byte at a place.
    fn byte(&self) -> Option<Step> {
        let (place, bytes) = (self.words.rsplit(", ").next()?, self.string(0)?);
        let is_one = bytes.len() == 1 && self.result == 1;
        is_one.then_some(Step::Write(place.parse().ok()?, bytes[0]))
    }

    /// The write of zeros, all of which were taken.
    fn zeros(&self) -> Option<Step> {
        let bytes = self.string(0)?;
        let is_whole = bytes.len() as i64 == self.result && bytes.iter().all(|&byte| byte == 0);
        is_whole.then_some(Step::Fill(bytes.len()))
    }
}

/// What a descriptor is of.
#[derive(Clone, Copy, PartialEq)]
enum Of {
    Ring,
    /// A file that may become the ring.
    New,
    Folder,
}

/// What is open while a log is read.
struct Open<'a> {
    ring: &'a Path,
    files: HashMap<i64, Of>,
}

impl Open<'_> {
    /// The step that a call is, where it is one.
    fn step(&mut self, call: &Call) -> Option<Step> {
        let of = call.descriptor().and_then(|n| self.files.get(&n).copied());
        let step = match call.name {
            "openat" => {
                self.opened(call);
                return None;
            }
            "write" if of.is_none() => return None,
            "write" if of == Some(Of::New) => call.zeros(),
            "pwrite64" if of == Some(Of::Ring) => call.byte(),
            "fsync" if call.result == 0 => of.map(|of| match of {
                Of::Ring | Of::New => Step::Sync,
                Of::Folder => Step::SyncFolder,
            }),
            "rename" | "renameat" | "renameat2" => self.renamed(call),
            _ => None,
        };
        Some(step.unwrap_or(Step::Other))
    }

    /// What a path is to the recorder.
    fn of(&self, path: &Path) -> Option<Of> {
        let is_new = || {
            let number = path.to_str()?.strip_prefix(self.ring.to_str()?)?.strip_prefix(".new")?;
            number.parse::<u32>().ok()
        };
        match path {
            _ if path == self.ring => Some(Of::Ring),
            _ if Some(path) == self.ring.parent() => Some(Of::Folder),
            _ => is_new().map(|_| Of::New),
        }
    }

    /// Notes a descriptor, which may have been another file's before.
    fn opened(&mut self, call: &Call) {
        match call.path(0).and_then(|path| self.of(&path)) {
            Some(of) => self.files.insert(call.result, of),
            None => self.files.remove(&call.result),
        };
    }

    fn renamed(&self, call: &Call) -> Option<Step> {
        let is_ring = self.of(&call.path(0)?) == Some(Of::New) && call.path(1)? == self.ring;
        (is_ring && call.result == 0).then_some(Step::Rename)
    }
}

#[cfg(test)]
mod tests {
    use super::*;

    fn hex(text: &str) -> String {
        text.bytes().map(|byte| format!("\\x{byte:02x}")).collect()
    }

    fn opened(path: &str, result: &str) -> String {
        format!("openat(AT_FDCWD, \"{}\", O_RDWR|O_CLOEXEC) = {result}\n", hex(path))
    }

    #[test]
    fn a_ring_that_is_there() {
        let log = opened("/etc/ld.so.cache", "3")
            + &opened("/t/a", "3")
            + "pwrite64(3, \"\\x46\", 1, 0) = 1\n"
            + "fsync(3)                                = 0\n"
            + &opened("/t/", "4")
            + "fsync(4)                                = 0\n"
            + "pwrite64(3, \"\\x0a\", 1, 770) = 1\n"
            + "write(1, \"\\x6b\", 1) = 1\n"
            + "+++ exited with 0 +++\n";
        let right = [Step::Write(0, 0x46), Step::Sync, Step::SyncFolder, Step::Write(770, 10)];
        assert_eq!(steps(&log, Path::new("/t/a")), right);
    }

    #[test]
    fn a_ring_that_is_made() {
        let renamed = format!("rename(\"{}\", \"{}\") = 0\n", hex("/t/a.new1"), hex("/t/a"));
        let log = opened("/t/a", "-1 ENOENT (No such file or directory)")
            + &opened("/t/a.new0", "-1 EEXIST (File exists)")
            + &opened("/t/a.new1", "3")
            + "write(3, \"\\x00\\x00\", 2) = 2\n"
            + "write(3, \"\\x00\", 1) = 1\n"
            + "fsync(3) = 0\n"
            + &renamed
            + &opened("/t", "5")
            + "fsync(5) = 0\n";
        let right = [Step::Fill(3), Step::Sync, Step::Rename, Step::SyncFolder];
        assert_eq!(steps(&log, Path::new("/t/a")), right);
        let at = renamed
            .replace("rename(", "renameat2(AT_FDCWD, ")
            .replace(", \"\\x2f\\x74\\x2f\\x61\")", ", AT_FDCWD, \"\\x2f\\x74\\x2f\\x61\", 0)");
        assert_eq!(steps(&at, Path::new("/t/a")), [Step::Rename]);
    }

    #[test]
    fn what_is_no_step_of_a_recorder() {
        for line in [
            "fsync(3) = -1 EIO (Input/output error)",
            "fsync(9) = 0",
            "pwrite64(3, \"\\x0a\", 1, 770) = -1 ENOSPC (No space left on device)",
            "pwrite64(3, \"\\x0a\\x0b\", 2, 770) = 2",
            "write(3, \"\\x0a\", 1) = 1",
        ] {
            let log = opened("/t/a", "3") + line;
            assert_eq!(steps(&log, Path::new("/t/a")), [Step::Other], "{line}");
        }
        let log = opened("/t/a.new0", "3") + "write(3, \"\\x01\", 1) = 1\n";
        assert_eq!(steps(&log, Path::new("/t/a")), [Step::Other]);
    }
}
