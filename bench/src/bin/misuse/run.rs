//! Runs of a program: by a line of the shell, or held open by a pipe. One that does not end is killed.

use crate::folder::{Files, Folder};
use std::fs::{self, File};
use std::io::{self, Read, Write};
use std::os::unix::process::CommandExt;
use std::path::PathBuf;
use std::process::{Child, ChildStdin, Command, Stdio};
use std::sync::mpsc::{self, Receiver};
use std::time::{Duration, Instant};
use std::{env, thread};

/// How long a program may take.
const LIMIT: Duration = Duration::from_secs(20);

/// What a run said and left.
pub struct Seen {
    pub out: Vec<u8>,
    pub err: Vec<u8>,
    /// Whether it ended by itself.
    pub has_ended: bool,
    pub before: Files,
    pub after: Files,
}

impl Seen {
    /// Standard output as text.
    pub fn text(&self) -> String {
        String::from_utf8_lossy(&self.out).into_owned()
    }

    /// How many turns it says were kept, where it says so.
    pub fn kept(&self) -> Option<usize> {
        let text = self.text();
        text.lines().last()?.strip_prefix("kept ")?.parse().ok()
    }
}

/// Waits for a child, and kills it and all it started where it takes too long.
fn wait(child: &mut Child) -> io::Result<bool> {
    let began = Instant::now();
    while began.elapsed() < LIMIT {
        if child.try_wait()?.is_some() {
            return Ok(true);
        }
        thread::sleep(Duration::from_millis(2));
    }
    let group = format!("-{}", child.id());
    Command::new("kill").args(["-KILL", "--", &group]).status()?;
    child.wait()?;
    Ok(false)
}

impl Folder {
    /// A command in the folder, in a group of its own, with the programs first on the path.
    fn command(&self, name: &str) -> Command {
        let mut path = self.programs.clone().into_os_string();
        path.push(":");
        path.push(env::var_os("PATH").unwrap_or_default());
        let mut command = Command::new(name);
        command.current_dir(&self.path).env("PATH", path).env("LC_ALL", "C").process_group(0);
        command
    }

    /// A file beside the folder, for what is said.
    fn beside(&self, name: &str) -> PathBuf {
        self.path.with_extension(name)
    }

    /// Runs a line of the shell.
    pub fn run(&self, line: &str) -> io::Result<Seen> {
        self.run_with(line, Stdio::null())
    }

    /// Runs a line of the shell with an input.
    pub fn run_with(&self, line: &str, input: Stdio) -> io::Result<Seen> {
        let before = self.files()?;
        let (out, err) = (self.beside("out"), self.beside("err"));
        let mut child = self
            .command("sh")
            .args(["-c", line])
            .stdin(input)
            .stdout(File::create(&out)?)
            .stderr(File::create(&err)?)
            .spawn()?;
        let has_ended = wait(&mut child)?;
        let (out, err) = (fs::read(out)?, fs::read(err)?);
        Ok(Seen { out, err, has_ended, before, after: self.files()? })
    }

    /// Starts a program whose input stays open.
    pub fn start(&self, program: &str, words: &[&str]) -> io::Result<Live<'_>> {
        let before = self.files()?;
        let mut child = self
            .command(program)
            .args(words)
            .stdin(Stdio::piped())
            .stdout(Stdio::piped())
            .stderr(Stdio::piped())
            .spawn()?;
        let out = Heard::new(child.stdout.take().expect("piped"));
        let err = Heard::new(child.stderr.take().expect("piped"));
        Ok(Live { folder: self, input: child.stdin.take(), child, out, err, before })
    }
}

/// What came out of a pipe so far, and what may still come.
struct Heard {
    pieces: Receiver<Vec<u8>>,
    bytes: Vec<u8>,
}

impl Heard {
    fn new(mut from: impl Read + Send + 'static) -> Heard {
        let (sender, pieces) = mpsc::channel();
        thread::spawn(move || {
            let mut piece = [0; 4_096];
            while let Ok(many @ 1..) = from.read(&mut piece) {
                if sender.send(piece[..many].to_vec()).is_err() {
                    return;
                }
            }
        });
        Heard { pieces, bytes: Vec::new() }
    }

    /// Waits until so many bytes came, or no more comes.
    fn wait_for(&mut self, many: usize) {
        let end = Instant::now() + LIMIT;
        while self.bytes.len() < many {
            let left = end.saturating_duration_since(Instant::now());
            match self.pieces.recv_timeout(left) {
                Ok(piece) => self.bytes.extend(piece),
                Err(_) => return,
            }
        }
    }
}

/// A program whose input is fed bit by bit.
pub struct Live<'a> {
    folder: &'a Folder,
    child: Child,
    input: Option<ChildStdin>,
    out: Heard,
    err: Heard,
    before: Files,
}

impl Live<'_> {
    /// Its process.
    pub fn id(&self) -> u32 {
        self.child.id()
    }

    /// Feeds it; what it no longer takes is lost.
    pub fn feed(&mut self, bytes: &[u8]) {
        if let Some(input) = &mut self.input {
            let _ = input.write_all(bytes).and_then(|()| input.flush());
        }
    }

    /// What it has printed, once it is as long as this or too late.
    pub fn printed(&mut self, wanted: &[u8]) -> &[u8] {
        self.out.wait_for(wanted.len());
        &self.out.bytes
    }

    /// Whether it has ended.
    pub fn has_ended(&mut self) -> io::Result<bool> {
        Ok(self.child.try_wait()?.is_some())
    }

    /// Kills it.
    pub fn kill(mut self) -> io::Result<()> {
        self.child.kill()?;
        self.child.wait().map(|_| ())
    }

    /// Ends its input, waits, and gives what it said and left.
    pub fn end(mut self) -> io::Result<Seen> {
        drop(self.input.take());
        self.wait()
    }

    /// Waits until it ends by itself, though its input stays open.
    pub fn wait(mut self) -> io::Result<Seen> {
        let has_ended = wait(&mut self.child)?;
        self.out.wait_for(usize::MAX);
        self.err.wait_for(usize::MAX);
        let (out, err) = (self.out.bytes, self.err.bytes);
        Ok(Seen { out, err, has_ended, before: self.before, after: self.folder.files()? })
    }
}
