//! What a program is started with: help, options, too few and too many words, odd names.

use crate::table::{after, ring, turns, Should, Table, Text};
use crate::PROGRAMS;
use bench::own::listing;
use std::io;

/// Wrong use, of which a program says how it is used.
fn usage(program: &str) -> Should {
    Should::say(&format!("usage: {program}"))
}

/// `--help` and `--version` print a text, and wait for nothing.
pub fn help(t: &mut Table) -> io::Result<()> {
    for program in PROGRAMS {
        let folder = t.fresh()?;
        let seen = folder.start(program, &["--version"])?.wait()?;
        t.hold("`--version`", program, &seen, &Should::print(&format!("{program} 1.0\n")));
        for words in [&["--help"][..], &["--help", "a", "b", "c", "d"]] {
            let seen = folder.start(program, words)?.wait()?;
            let mut wrong = Vec::new();
            if !seen.out.ends_with(b"\n") || !seen.err.is_empty() || seen.after != seen.before {
                wrong.push("it should print a text, and no more".to_string());
            }
            t.note(&format!("`{}`", words.join(" ")), program, &seen, wrong);
        }
    }
    Ok(())
}

/// A word that begins with a dash is no name.
pub fn options(t: &mut Table) -> io::Result<()> {
    for program in PROGRAMS {
        for word in ["-x", "--nosuch", "-", "--"] {
            let folder = t.fresh()?;
            if program != "recorder" {
                folder.put(word, &ring(5))?;
            }
            let seen = folder.run(&format!("{program} {word} < scan"))?;
            t.hold(&format!("`{word}`"), program, &seen, &usage(program));
        }
    }
    for words in ["--verbose", "--verbose -x", "--verbose --verbose", "a --verbose", "a --help"] {
        let seen = t.fresh()?.run(&format!("recorder {words} < scan"))?;
        t.hold(&format!("`{words}`"), "recorder", &seen, &usage("recorder"));
    }
    Ok(())
}

/// `./-x` is a name.
pub fn dashes_behind_a_folder(t: &mut Table) -> io::Result<()> {
    let folder = t.fresh()?;
    let seen = folder.run("recorder ./-x < scan")?;
    let should = Should::print("kept 3\n").leave("-x", &ring(3));
    t.hold("`./-x`", "recorder", &seen, &should);
    folder.put("-x", &ring(5))?;
    let seen = folder.run("ringlist ./-x")?;
    let text = String::from_utf8_lossy(&listing(&ring(5))).into_owned();
    t.hold("`./-x`", "ringlist", &seen, &Should::print(&text));
    let seen = folder.run("ringerase ./-x")?;
    let mut erased = ring(5);
    erased[0] = 0;
    t.hold("`./-x`", "ringerase", &seen, &Should::print("erased\n").leave("-x", &erased));
    Ok(())
}

/// Too few and too many words, and words that are none.
pub fn wrong_words(t: &mut Table) -> io::Result<()> {
    let digits = "0123456789abcdef0123456789abcdef";
    let lines = [
        "recorder".to_string(),
        format!("recorder a {digits} x"),
        format!("recorder --verbose a {digits} x"),
        format!("recorder a {digits}0"),
        format!("recorder a {}", &digits[1..]),
        format!("recorder a g{}", &digits[1..]),
        "recorder a ''".to_string(),
        "ringlist a a".to_string(),
        "ringerase".to_string(),
        "ringerase a a".to_string(),
        "scanlist".to_string(),
        "scanlist 2".to_string(),
        "scanlist 020".to_string(),
        "scanlist zz".to_string(),
        "scanlist ''".to_string(),
        "scanlist 20 0".to_string(),
        "scanlist 20 65537".to_string(),
        "scanlist 20 +1".to_string(),
        "scanlist 20 99999999999999999999".to_string(),
        "scanlist 20 ''".to_string(),
        "scanlist 20 7 2".to_string(),
        "scanlist 20 7 24577".to_string(),
        "scanlist 20 7 3 4".to_string(),
    ];
    for line in lines {
        let (program, words) = line.split_once(' ').unwrap_or((&line, ""));
        let folder = t.fresh()?;
        if program != "recorder" {
            folder.put("a", &ring(5))?;
        }
        let seen = folder.run(&format!("{line} < scan"))?;
        let case = if words.is_empty() { "no word".to_string() } else { format!("`{words}`") };
        t.hold(&case, program, &seen, &usage(program));
    }
    Ok(())
}

/// A code that is none of the six is the paper's refusal, and no wrong use.
pub fn refused_code(t: &mut Table) -> io::Result<()> {
    for code in ["00", "a5", "FF"] {
        let seen = t.fresh()?.run(&format!("scanlist {code} < scan"))?;
        t.hold(&format!("`{code}`"), "scanlist", &seen, &Should::print("refused 1\n"));
    }
    Ok(())
}

/// Names that are empty or too long.
pub fn odd_names(t: &mut Table) -> io::Result<()> {
    let [long, most, room] = [5_000, 255, 250].map(|many| "n".repeat(many));
    for program in ["recorder", "ringlist", "ringerase"] {
        let begins = [format!("usage: {program}"), format!("{program}: ")];
        let should = Should { err: Text::OneOf(begins.to_vec()), ..Should::default() };
        let seen = t.fresh()?.run(&format!("{program} '' < scan"))?;
        t.hold("an empty name", program, &seen, &should);
        let seen = t.fresh()?.run(&format!("{program} {long} < scan"))?;
        t.hold("a name of 5,000 bytes", program, &seen, &should);
        let path = "./".repeat(2_500) + "a";
        let seen = t.fresh()?.run(&format!("{program} {path} < scan"))?;
        t.hold("a path of 5,001 bytes", program, &seen, &should);
    }
    let folder = t.fresh()?;
    let seen = folder.run(&format!("recorder {most} < scan"))?;
    let case = "a new ring whose name leaves no room for another";
    t.hold(case, "recorder", &seen, &Should::say("recorder: n"));
    folder.put(&most, &ring(5))?;
    let seen = folder.run(&format!("recorder {most} < scan"))?;
    let should = Should::print("kept 3\n").leave(&most, &after(&ring(5), &turns(3)));
    t.hold("a ring with a name of 255 bytes", "recorder", &seen, &should);
    let seen = t.fresh()?.run(&format!("recorder {room} < scan"))?;
    let should = Should::print("kept 3\n").leave(&room, &ring(3));
    t.hold("a new ring with a name of 250 bytes", "recorder", &seen, &should);
    Ok(())
}
