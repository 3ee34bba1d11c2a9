//! Real kills at random moments.

use crate::kept::{empty, made, stores, Kept, STORES};
use crate::TURNS;
use bench::gen::{scan, Rng};
use std::fs::{self, File};
use std::path::Path;
use std::process::{Child, Command, Stdio};
use std::time::{Duration, Instant};
use std::{io, thread};

fn start(recorder: &Path, ring: &Path, capture: &Path) -> io::Result<Child> {
    Command::new(recorder)
        .arg(ring)
        .stdin(File::open(capture)?)
        .stdout(Stdio::null())
        .stderr(Stdio::null())
        .spawn()
}

/// Removes a file where it is there, and says whether it was.
fn remove(file: &Path) -> io::Result<bool> {
    match fs::remove_file(file) {
        Err(error) if error.kind() == io::ErrorKind::NotFound => Ok(false),
        done => done.map(|()| true),
    }
}

/// Where the kills hit.
#[derive(Default)]
struct Hits {
    within: usize,
    between: usize,
    ended: usize,
    missing: usize,
    unfinished: usize,
}

impl Hits {
    /// Notes what a kill left, or says why it is wrong.
    fn note(
        &mut self,
        before: &[u8],
        after: io::Result<Vec<u8>>,
        bytes: &[u8],
    ) -> Result<(), String> {
        let Ok(after) = after else {
            self.missing += 1;
            return Ok(());
        };
        let stores = stores(before, bytes);
        let made = made(&stores, before, &after)
            .ok_or("the ring is not what any number of stores makes of it")?;
        if !Kept::by(before, &stores).is_held(&after, made / STORES) {
            return Err(format!("after store {made} the ring does not hold the turns kept"));
        }
        match made {
            _ if made == stores.len() => self.ended += 1,
            _ if made % STORES == 0 => self.between += 1,
            _ => self.within += 1,
        }
        Ok(())
    }
}

/// Kills the recorder at random moments, and says where it was hit. The ring goes on from kill to kill; now and then it is taken away, and
/// so is what a kill left of one that was being made.
pub fn kills(recorder: &Path, folder: &Path, kills: usize, rng: &mut Rng) -> io::Result<bool> {
    let (capture, ring, new) =
        (folder.join("capture"), folder.join("ring"), folder.join("ring.new0"));
    let bytes = scan(rng, TURNS);
    fs::write(&capture, &bytes)?;
    let began = Instant::now();
    start(recorder, &ring, &capture)?.wait()?;
    let whole = began.elapsed();
    let mut hits = Hits::default();
    for kill in 0..kills {
        if rng.one_in(8) {
            remove(&ring)?;
        }
        let before = fs::read(&ring).unwrap_or_else(|_| empty());
        let mut child = start(recorder, &ring, &capture)?;
        // some of the kills early, when the file is being made or read
        let most = rng.pick(&[Duration::from_millis(2), whole / 20, whole + whole / 10]);
        thread::sleep(Duration::from_nanos(rng.long() % (most.as_nanos() as u64 + 1)));
        child.kill()?;
        child.wait()?;
        hits.unfinished += usize::from(remove(&new)?);
        if let Err(why) = hits.note(&before, fs::read(&ring), &bytes) {
            println!("kill {kill}: {why}");
            return Ok(false);
        }
    }
    let Hits { within, between, ended, missing, unfinished } = hits;
    println!(
        "kills: {kills}, {within} within a turn, {between} between turns, {ended} after the last, {missing} before there was a file, \
         {unfinished} of them in its making: each ring holds exactly the last turns whose last store was made"
    );
    Ok(true)
}
