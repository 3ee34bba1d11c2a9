//! Two programs on one ring: one recorder writes to it at a time, and readers hold nobody up.

use crate::folder::Folder;
use crate::live::{closing, lines};
use crate::run::Seen;
use crate::table::{after, ring, turns, Should, Table};
use bench::own::listing;
use std::fs::File;
use std::time::{Duration, Instant};
use std::{io, thread};

/// How often two are started at the same moment.
const ROUNDS: usize = 20;
/// The turns that each of them is fed.
const TURNS: usize = 40;
/// How long one of them may take to see the other.
const LIMIT: Duration = Duration::from_secs(5);

/// A folder with a ring of 5 turns under several names.
fn with_names(t: &mut Table) -> io::Result<Folder> {
    let folder = t.fresh()?;
    folder.put("a", &ring(5))?;
    folder.link("a", "symbolic")?;
    folder.does("ln a hard; mkdir folder");
    Ok(folder)
}

/// While a recorder runs no other one and no `ringerase` touches its ring, by any name; the first keeps all.
pub fn second(t: &mut Table) -> io::Result<()> {
    let scan = turns(4);
    let (front, rest) = scan.split_at(closing(&scan, 2));
    for first in ["a", "symbolic", "hard"] {
        let folder = with_names(t)?;
        let mut live = folder.start("recorder", &["--verbose", first])?;
        live.feed(front);
        live.printed(&lines(&ring(5), front));
        let path = folder.path.join("a").to_string_lossy().into_owned();
        for name in ["a", "./a", "folder/../a", "symbolic", "hard", &path] {
            for program in ["recorder", "ringerase"] {
                let seen = folder.run(&format!("{program} {name} < scan"))?;
                let name = if name == path { "$PWD/a" } else { name };
                let begin = format!("{program}: {name}: process {} writes to it", live.id());
                let should = Should::say(&begin.replace("$PWD/a", &path));
                t.hold(&format!("a recorder of `{first}` runs, `{name}`"), program, &seen, &should);
            }
        }
        live.feed(rest);
        let text = lines(&ring(5), &scan);
        let image = after(&ring(5), &scan);
        let should = Should::print(&(String::from_utf8_lossy(&text).into_owned() + "kept 4\n"));
        let should = should.leave("a", &image).leave("hard", &image);
        t.hold(&format!("the first one, of `{first}`"), "recorder", &live.end()?, &should);
    }
    Ok(())
}

/// A recorder and readers hold each other up in nothing; one that was killed holds up nobody.
pub fn readers(t: &mut Table) -> io::Result<()> {
    let folder = with_names(t)?;
    let mut live = folder.start("recorder", &["--verbose", "a"])?;
    live.feed(&turns(3));
    live.printed(&lines(&ring(5), &turns(3)));
    let image = after(&ring(5), &turns(3));
    let listed = Should::print(&String::from_utf8_lossy(&listing(&image)));
    for line in ["ringlist a", "ringlist < a", "ringlist hard", "cat a > /dev/null; ringlist a"] {
        let seen = folder.run(line)?;
        t.hold(&format!("a recorder runs, `{line}`"), "ringlist", &seen, &listed);
    }
    live.kill()?;
    let kept = |image: &[u8]| Should::print("kept 3\n").leave("a", image).leave("hard", image);
    let image = after(&image, &turns(3));
    let seen = folder.run("recorder a < scan")?;
    t.hold("the first one was killed", "recorder", &seen, &kept(&image));
    let reader = File::open(folder.path.join("a"))?;
    let image = after(&image, &turns(3));
    let seen = folder.run("recorder a < scan")?;
    t.hold("a reader has the ring open", "recorder", &seen, &kept(&image));
    drop(reader);
    Ok(())
}

/// Who writes to other files holds no recorder up, whatever their names.
pub fn others(t: &mut Table) -> io::Result<()> {
    let folder = t.fresh()?;
    folder.put("a", &ring(5))?;
    folder.put("ab", &ring(5))?;
    let mut live = folder.start("recorder", &["--verbose", "ab"])?;
    live.feed(&turns(3));
    live.printed(&lines(&ring(5), &turns(3)));
    let image = after(&ring(5), &turns(3));
    let seen = folder.run("recorder a < scan")?;
    let should = Should::print("kept 3\n").leave("a", &image);
    t.hold("a recorder of `ab` runs, `a`", "recorder", &seen, &should);
    live.end()?;
    for name in ["a~", "a.news", "a.new0.old", "new"] {
        let other = File::create(folder.path.join(name))?;
        folder.put("a", &ring(5))?;
        let seen = folder.run("recorder a < scan")?;
        t.hold(&format!("somebody writes to `{name}`"), "recorder", &seen, &should);
        drop(other);
    }
    Ok(())
}

/// Starts two recorders at the same moment, each of which has turns to keep and an input that stays open until one has ended.
fn moment(folder: &Folder, names: [&str; 2]) -> io::Result<[Seen; 2]> {
    let mut first = folder.start("recorder", &[names[0]])?;
    let mut second = folder.start("recorder", &[names[1]])?;
    first.feed(&turns(TURNS));
    second.feed(&turns(TURNS));
    let began = Instant::now();
    while !first.has_ended()? && !second.has_ended()? && began.elapsed() < LIMIT {
        thread::sleep(Duration::from_millis(1));
    }
    Ok([first.end()?, second.end()?])
}

/// What is wrong with two that were started at the same moment on a ring.
fn wrong_in(both: &[Seen; 2], names: [&str; 2], ring: &[u8]) -> Vec<String> {
    let kept = [0, 1].map(|n| both[n].kept().unwrap_or(0));
    let mut wrong = Vec::new();
    if !matches!(kept, [0, 0] | [0, TURNS] | [TURNS, 0]) {
        wrong.push(format!("kept {} and {}", kept[0], kept[1]));
    }
    let wanted = if kept == [0, 0] { ring.to_vec() } else { after(ring, &turns(TURNS)) };
    let names_of_it = ["a", "hard"];
    let files = &both[1].after;
    if names_of_it.iter().filter_map(|name| files.file(name)).any(|image| image != wanted) {
        wrong.push("the ring is not what the turns kept make of it".to_string());
    }
    if files.changes(&both[0].before.with("a", &wanted)).contains("new") {
        wrong.push("a file is left beside the ring".to_string());
    }
    for (seen, name) in both.iter().zip(names).filter(|(seen, _)| seen.kept().is_none()) {
        if !seen.err.starts_with(format!("recorder: {name}: ").as_bytes()) {
            wrong.push(format!("one of the two should say `recorder: {name}: ...`"));
        }
    }
    wrong
}

/// Of two that are started at the same moment one keeps its turns, and the other says so.
pub fn at_once(t: &mut Table) -> io::Result<()> {
    let there = [["a", "a"], ["a", "./a"], ["symbolic", "a"], ["a", "hard"]];
    let missing = [["a", "a"], ["a", "./a"], ["folder/../a", "a"]];
    let cases = there.map(|names| (names, true)).into_iter();
    for (names, is_there) in cases.chain(missing.map(|names| (names, false))) {
        let mut shown = None;
        let mut wrong = Vec::new();
        let mut idle = 0;
        for _ in 0..ROUNDS {
            let folder = with_names(t)?;
            if !is_there {
                folder.does("rm a hard symbolic");
            }
            let both = moment(&folder, names)?;
            let before = if is_there { ring(5) } else { ring(0) };
            wrong = wrong_in(&both, names, &before);
            idle += usize::from(both.iter().all(|seen| seen.kept().is_none()));
            let [first, second] = both;
            shown = Some(if first.kept().is_none() { first } else { second });
            if !wrong.is_empty() {
                break;
            }
        }
        let what = if is_there { "a ring" } else { "a missing ring" };
        let [one, other] = names;
        let case = format!("{ROUNDS} times at the same moment on {what}, `{one}` and `{other}`, {idle} times neither kept");
        t.note(&case, "recorder", &shown.expect("a round"), wrong);
    }
    Ok(())
}
