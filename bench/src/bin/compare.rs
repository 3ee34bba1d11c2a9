//! Compares the product with the bench's own program, part by part, on cases made from a seed.
//!
//! `compare [--quick] [--seed N] [--cases N] [PART...]`: without a seed the clock gives one; it is printed. The cases
//! of each part can be given, and so can the parts.

use bench::compare::{
    any, codec, collector, compare, host, model, record, ring, session, stream, text as listed,
    turns, Compared, Pair, Plan,
};
use bench::{gen, own};
use std::env;
use std::fmt::Debug;
use std::io::{self, Write};
use std::path::{Path, PathBuf};
use std::process::{Command, ExitCode, Stdio};
use std::time::{Instant, SystemTime, UNIX_EPOCH};

/// How many of the cases of a whole run a quick one has.
const QUICK: u64 = 50;

/// A part of the paper: its name, how many cases a whole run has, and its comparison.
type Part = (&'static str, u64, fn(&Plan) -> Result<u64, String>);

/// A comparison, with what it found as text.
fn text<C: Debug, A: Debug>(compared: Compared<C, A>) -> Result<u64, String> {
    compared.map_err(|mismatch| mismatch.to_string())
}

const PARTS: [Part; 12] = [
    ("codecs", 2_000_000, |plan| text(codec::against(plan, &mut codec::product))),
    ("session", 1_000_000, |plan| text(session::against(plan, &mut session::product))),
    ("collector", 500_000, |plan| text(collector::against(plan, &mut collector::product))),
    ("model", 500_000, |plan| text(model::against(plan, &mut model::product))),
    ("records", 500_000, |plan| text(record::against(plan, &mut record::product))),
    ("ring", 300_000, |plan| text(ring::against(plan, &mut ring::product))),
    ("reader", 1_000_000, |plan| text(stream::against(plan, &mut stream::product))),
    ("turns", 100_000, |plan| text(turns::against(plan, &mut turns::product))),
    ("states", 2_000_000, |plan| text(any::against_product(plan))),
    ("host", 200_000, |plan| text(host::against_product(plan))),
    ("scanlist", 5_000, scanlist),
    ("ringlist", 5_000, ringlist),
];

/// Where the product's programs are, where the repository's own are not meant.
const PROGRAMS: &str = "BERNKESSEL_BIN";

/// One of the product's programs.
fn program(name: &str) -> Result<PathBuf, String> {
    let own = concat!(env!("CARGO_MANIFEST_DIR"), "/../target/bin");
    let path = env::var_os(PROGRAMS).map_or(own.into(), PathBuf::from).join(name);
    let missing = || format!("{} is missing: tools/build {name} writes it", path.display());
    path.is_file().then_some(()).ok_or_else(missing)?;
    Ok(path)
}

/// What a program prints of an input.
fn printed(program: &Path, words: &[String], input: &[u8]) -> Vec<u8> {
    let run = || -> io::Result<Vec<u8>> {
        let mut child = Command::new(program)
            .args(words)
            .stdin(Stdio::piped())
            .stdout(Stdio::piped())
            .stderr(Stdio::null())
            .spawn()?;
        // A program that needs no input may be gone before it is written.
        let _ = child.stdin.take().map(|mut stdin| stdin.write_all(input));
        Ok(child.wait_with_output()?.stdout)
    };
    run().unwrap_or_else(|error| error.to_string().into_bytes())
}

fn scanlist(plan: &Plan) -> Result<u64, String> {
    let program = program("scanlist")?;
    text(listed::against(plan, &mut |case| {
        let words = [format!("{:02x}", case.code), case.cut.to_string(), case.room.to_string()];
        printed(&program, &words, &case.bytes)
    }))
}

fn ringlist(plan: &Plan) -> Result<u64, String> {
    let program = program("ringlist")?;
    text(compare(
        plan,
        Pair {
            part: "ringlist",
            make: &gen::ring_image,
            own: &|image: &ring::Image| own::listing(&image.bytes()),
            other: &mut |image| printed(&program, &[], &image.bytes()),
        },
    ))
}

/// What was asked for.
struct Asked {
    seed: u64,
    cases: Option<u64>,
    quick: bool,
    parts: Vec<String>,
}

fn asked(mut words: impl Iterator<Item = String>) -> Result<Asked, String> {
    let clock = SystemTime::now().duration_since(UNIX_EPOCH).unwrap_or_default();
    let mut asked =
        Asked { seed: clock.as_nanos() as u64 >> 10, cases: None, quick: false, parts: Vec::new() };
    while let Some(word) = words.next() {
        let mut number = || {
            let value = words.next().and_then(|value| value.parse().ok());
            value.ok_or_else(|| format!("{word} asks for a number"))
        };
        match word.as_str() {
            "--quick" => asked.quick = true,
            "--seed" => asked.seed = number()?,
            "--cases" => asked.cases = Some(number()?),
            name if PARTS.iter().any(|part| part.0 == name) => asked.parts.push(word),
            _ => {
                let names: Vec<&str> = PARTS.iter().map(|part| part.0).collect();
                return Err(format!("{word} is no part: {}", names.join(" ")));
            }
        }
    }
    Ok(asked)
}

fn main() -> ExitCode {
    let asked = match asked(env::args().skip(1)) {
        Ok(asked) => asked,
        Err(why) => {
            eprintln!("compare: {why}");
            return ExitCode::from(2);
        }
    };
    println!("compare: seed {}", asked.seed);
    let mut differing = 0;
    let (mut all, begin) = (0, Instant::now());
    for (part, cases, run) in PARTS {
        if !asked.parts.is_empty() && !asked.parts.iter().any(|name| name == part) {
            continue;
        }
        let whole = if asked.quick { cases / QUICK } else { cases };
        let plan = Plan { seed: asked.seed, cases: asked.cases.unwrap_or(whole) };
        let start = Instant::now();
        match run(&plan) {
            Ok(cases) => {
                all += cases;
                println!(
                    "{:<12} {cases:>9} cases agree  {:>6.1} s",
                    part,
                    start.elapsed().as_secs_f64()
                );
            }
            Err(mismatch) => {
                differing += 1;
                println!("{mismatch}");
            }
        }
    }
    let seconds = begin.elapsed().as_secs_f64();
    if differing > 0 {
        println!("compare: FAILED, {differing} parts differ (seed {})", asked.seed);
        return ExitCode::FAILURE;
    }
    println!("compare: {all} cases agree in {seconds:.1} s (seed {})", asked.seed);
    ExitCode::SUCCESS
}
