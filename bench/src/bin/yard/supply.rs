//! The supply pulled in one run, from the steps that the recorder was seen to make.

use crate::disk::Disk;
use crate::kept::{empty, recorded, stores, Kept};
use crate::log::watched;
use crate::steps::{run, without, Part, Step, Steps};
use crate::TURNS;
use bench::gen::{scan, Rng};
use bench::own::recording::turns;
use std::path::Path;
use std::{fs, io};

/// Whether the recorder makes exactly the right steps of a scan on a ring that is there, or is missing.
fn is_as_on_paper(
    recorder: &Path,
    folder: &Path,
    ring: Option<&[u8]>,
    scan: &[u8],
) -> io::Result<bool> {
    let name = if ring.is_some() { "there" } else { "missing" };
    let [file, capture, log] = ["", ".scan", ".log"].map(|end| folder.join(format!("{name}{end}")));
    fs::write(&capture, scan)?;
    if let Some(ring) = ring {
        fs::write(&file, ring)?;
    }
    let seen = watched(recorder, &file, &capture, &log)?;
    let right: Vec<Step> = run(ring, scan).into_iter().map(|(_, step)| step).collect();
    if let Some(n) = (0..seen.len().max(right.len())).find(|&n| seen.get(n) != right.get(n)) {
        let [seen, right] = [seen.get(n), right.get(n)];
        println!("supply, a ring that is {name}: step {n} is {seen:?} and should be {right:?}");
        return Ok(false);
    }
    let is_whole = fs::read(&file)? == recorded(&ring.map_or_else(empty, <[u8]>::to_vec), scan);
    if !is_whole {
        println!("supply, a ring that is {name}: the file is not what the steps make of it");
    }
    Ok(is_whole)
}

/// Cuts the supply at random places of the steps; answers how many of the disks are wrong.
fn pull(steps: &[(Part, Step)], before: &[u8], kept: &Kept, cuts: usize, rng: &mut Rng) -> usize {
    // half of them right behind the store of a head
    let is_head = |n: &usize| matches!(steps[n - 1], (Part::Head, Step::Write(..)));
    let heads: Vec<usize> = (1..=steps.len()).filter(is_head).collect();
    let mut places: Vec<usize> = (0..cuts)
        .map(|n| if n % 2 == 0 { rng.pick(&heads) } else { rng.below(steps.len() + 1) })
        .collect();
    places.sort_unstable();
    let mut disk = Disk::new(Some(before));
    let (mut wrong, mut at) = (0, 0);
    for cut in places {
        steps[at..cut].iter().for_each(|&(_, step)| disk.take(step));
        at = cut;
        let (file, new) = disk.failed(1, rng);
        wrong += usize::from(!file.is_some_and(|image| kept.is_held(&image, new)));
    }
    wrong
}

/// Pulls the supply of a recorder that fills a ring which has gone round already, and of two that leave out a sync.
pub fn supply(recorder: &Path, folder: &Path, cuts: usize, rng: &mut Rng) -> io::Result<bool> {
    let before = recorded(&empty(), &scan(rng, 70));
    let bytes = scan(rng, TURNS);
    let is_right = is_as_on_paper(recorder, folder, Some(&before), &bytes)?
        & is_as_on_paper(recorder, folder, None, &scan(rng, 2))?;
    let steps = run(Some(&before), &bytes);
    let kept = Kept::by(&before, &stores(&before, &bytes));
    let mut wrong = |steps: &Steps| pull(steps, &before, &kept, cuts, rng);
    let with_all = wrong(&steps);
    let turns = turns(&bytes).len();
    println!(
        "supply: {turns} turns, {} writes and syncs, {cuts} disks: {with_all} wrong",
        steps.len()
    );
    let before_head =
        wrong(&without(&steps, |part, step| (part, step) == (Part::Bytes, Step::Sync)));
    println!("supply, the sync before the head left out: {before_head} of {cuts} disks wrong");
    let after_head = wrong(&without(&steps, |part, step| (part, step) == (Part::Head, Step::Sync)));
    println!("supply, the sync after the head left out: {after_head} of {cuts} disks wrong");
    Ok(is_right && with_all == 0 && before_head > 0 && after_head > 0)
}
