//! A host's side of the line: what the scanner behind the pseudo terminal answers.
#![cfg(feature = "product")]

use std::fs::{self, File, OpenOptions};
use std::io::{BufRead, BufReader, Read, Write};
use std::path::PathBuf;
use std::process::{Child, Command, Output, Stdio};
use std::thread;
use std::time::Duration;

const SCAN: [u8; 2] = [0xA5, 0x20];
const STOP: [u8; 2] = [0xA5, 0x25];
const INFO: [u8; 2] = [0xA5, 0x50];
const HEALTH: [u8; 2] = [0xA5, 0x52];
const DESCRIPTOR: [u8; 7] = [0xA5, 0x5A, 5, 0, 0, 0x40, 0x81];
const SCAN_TOLD: &str = "request 20 Scan: sent a5 5a 05 00 00 40 81";
const STOP_TOLD: &str = "request 25 Stop: sent nothing";
const RUN_OUT: &str = "the capture has run out: it has no whole turn to send again";

struct Line {
    child: Child,
    host: File,
    told: Box<dyn Iterator<Item = String>>,
}

impl Line {
    fn start(words: &[&str]) -> Line {
        let mut child = Command::new(env!("CARGO_BIN_EXE_line"))
            .args(words)
            .args(["--seconds", "20"])
            .stdout(Stdio::piped())
            .spawn()
            .unwrap();
        let mut told = BufReader::new(child.stdout.take().unwrap()).lines().map(Result::unwrap);
        let first = told.next().unwrap();
        let path = first.split(' ').nth(1).unwrap();
        let host = OpenOptions::new().read(true).write(true).open(path).unwrap();
        Line { child, host, told: Box::new(told) }
    }

    fn ask(&mut self, bytes: &[u8]) {
        self.host.write_all(bytes).unwrap();
    }

    fn answer<const N: usize>(&mut self) -> [u8; N] {
        let mut bytes = [0; N];
        self.host.read_exact(&mut bytes).unwrap();
        bytes
    }

    /// The next so many bytes.
    fn bytes(&mut self, count: usize) -> Vec<u8> {
        let mut bytes = vec![0; count];
        self.host.read_exact(&mut bytes).unwrap();
        bytes
    }

    /// The next line told, without its time.
    fn tells(&mut self, what: &str) {
        let line = self.told.next().unwrap();
        assert_eq!(line[10..], *what);
    }
}

impl Drop for Line {
    fn drop(&mut self) {
        let _ = self.child.kill();
        let _ = self.child.wait();
    }
}

/// The bytes of the samples of the default capture.
fn clean() -> Vec<u8> {
    let capture = fs::read(concat!(env!("CARGO_MANIFEST_DIR"), "/../captures/clean.bin")).unwrap();
    capture[DESCRIPTOR.len()..].to_vec()
}

/// A file of this name in the tests' own folder.
fn file(name: &str) -> PathBuf {
    PathBuf::from(env!("CARGO_TARGET_TMPDIR")).join(name)
}

/// A capture of some samples.
fn capture(name: &str, samples: &[u8]) -> PathBuf {
    let path = file(name);
    fs::write(&path, [&DESCRIPTOR, samples].concat()).unwrap();
    path
}

/// The turns that a host closes: each is from a sample with S = 1 up to the next one.
fn closed_turns(samples: &[u8]) -> Vec<&[[u8; 5]]> {
    let (samples, rest) = samples.as_chunks();
    assert!(rest.is_empty());
    let mut turns: Vec<_> = samples.chunk_by(|_, next: &[u8; 5]| next[0] & 1 == 0).collect();
    turns.pop();
    turns.retain(|turn| turn[0][0] & 1 == 1);
    turns
}

/// What the program says and ends with where it opens no line.
fn output(words: &[&str]) -> Output {
    Command::new(env!("CARGO_BIN_EXE_line")).args(words).output().unwrap()
}

#[test]
fn requests_are_answered_and_others_refused_in_silence() {
    let mut line = Line::start(&["--error", "4660", "--warning", "--pace", "200"]);
    line.ask(&HEALTH);
    assert_eq!(line.answer(), [0xA5, 0x5A, 3, 0, 0, 0, 6, 1, 0x34, 0x12]);
    line.tells("request 52 GetHealth: sent a5 5a 03 00 00 00 06 01 34 12");
    // None of the six: refused, and nothing comes back.
    line.ask(&[0xA5, 0xFF, 1, 7, 0xA5 ^ 0xFF ^ 1 ^ 7]);
    line.tells("request ff other 07: refused 1");
    line.ask(&[0x00, 0xA5, 0x50]);
    let info: [u8; 27] = line.answer();
    assert_eq!(info[..7], [0xA5, 0x5A, 0x14, 0, 0, 0, 4]);
    assert!(info.ends_with(b"BERNKESSEL-00001"));
    assert!(line.told.next().unwrap().contains("request 50 GetInfo: sent a5 5a 14"));
    line.ask(&SCAN);
    assert_eq!(line.answer(), DESCRIPTOR);
    assert_eq!(line.answer::<500>(), clean()[..500]);
    line.tells(SCAN_TOLD);
    line.ask(&STOP);
    line.tells(STOP_TOLD);
}

#[test]
fn a_fault_sends_no_descriptor() {
    let mut line = Line::start(&["--fault"]);
    line.ask(&SCAN);
    line.tells("request 20 Scan: sent nothing");
    line.ask(&HEALTH);
    assert_eq!(line.answer(), [0xA5, 0x5A, 3, 0, 0, 0, 6, 2, 0, 0]);
}

#[test]
fn an_unstable_motor_sends_samples_after_force_scan_alone() {
    let mut line = Line::start(&["--unstable"]);
    line.ask(&SCAN);
    assert_eq!(line.answer(), DESCRIPTOR);
    line.tells(SCAN_TOLD);
    line.tells("sample refused 13");
    line.ask(&[0xA5, 0x21]);
    assert_eq!(line.answer(), DESCRIPTOR);
    line.answer::<5>();
}

#[test]
fn the_info_tells_the_firmware_asked_for() {
    for (words, major, minor) in
        [(&[][..], 1, 15), (&["--firmware", "1.17"], 1, 17), (&["--firmware", "255.0"], 255, 0)]
    {
        let mut line = Line::start(words);
        line.ask(&INFO);
        assert_eq!(line.answer::<27>()[7..11], [0x18, minor, major, 4], "{words:?}");
    }
}

#[test]
fn every_turn_of_a_capture_that_loops_is_one_of_the_capture() {
    let clean = clean();
    let kept = closed_turns(&clean);
    assert_eq!(kept.len(), 3);
    let mut line = Line::start(&["--pace", "200"]);
    line.ask(&SCAN);
    assert_eq!(line.answer(), DESCRIPTOR);
    // The terminal has room for all of it, so that none is lost.
    let sent = line.bytes(4 * clean.len());
    let turns = closed_turns(&sent);
    assert_eq!(turns.len(), 12);
    for (turn, kept) in turns.iter().zip(kept.iter().cycle()) {
        assert_eq!(turn, kept);
    }
}

#[test]
fn what_comes_before_the_first_turn_is_sent_once_in_each_scan() {
    let clean = clean();
    let (before, looped) = (&clean[700..1_200], &clean[1_200..3_600]);
    let path = capture("before.bin", &clean[700..]);
    let mut line = Line::start(&["--pace", "300", path.to_str().unwrap()]);
    for request in [SCAN, [0xA5, 0x21]] {
        line.ask(&request);
        // The scan before it may have sent more samples than were read.
        let mut head = line.bytes(DESCRIPTOR.len());
        while head[head.len() - DESCRIPTOR.len()..] != DESCRIPTOR {
            head.extend(line.answer::<1>());
        }
        let expected = [before, looped, looped, looped].concat();
        assert_eq!(line.bytes(expected.len()), expected);
    }
}

#[test]
fn a_capture_without_a_whole_turn_runs_out_in_each_scan() {
    let clean = clean();
    let one_start = capture("one_start.bin", &clean[..400]);
    let no_start = capture("no_start.bin", &clean[5..400]);
    let nothing = capture("nothing.bin", &[]);
    for (path, samples) in [(one_start, &clean[..400]), (no_start, &clean[5..400]), (nothing, &[])]
    {
        let mut line = Line::start(&[path.to_str().unwrap()]);
        for _ in 0..2 {
            line.ask(&SCAN);
            assert_eq!(line.answer(), DESCRIPTOR);
            assert_eq!(line.bytes(samples.len()), samples);
            line.tells(SCAN_TOLD);
            line.tells(RUN_OUT);
        }
        // Nothing was sent behind the samples.
        line.ask(&HEALTH);
        assert_eq!(line.answer(), [0xA5, 0x5A, 3, 0, 0, 0, 6, 0, 0, 0]);
    }
}

#[test]
fn the_log_is_what_the_host_can_read_and_no_more() {
    // Nobody reads while 150,000 bytes are due: the terminal is full, and samples are lost.
    let path = file("full.log");
    let mut line = Line::start(&["--pace", "10", "--damage", "9", "--log", path.to_str().unwrap()]);
    line.ask(&SCAN);
    thread::sleep(Duration::from_millis(300));
    line.ask(&STOP);
    assert!(line.told.next().unwrap().contains("request 20 Scan: sent"));
    line.tells(STOP_TOLD);
    let log = fs::read(&path).unwrap();
    assert!((1_000..140_000).contains(&log.len()), "{} bytes", log.len());
    assert_eq!(line.bytes(log.len()), log);
    line.ask(&HEALTH);
    let health = line.bytes(10);
    assert!(line.told.next().unwrap().contains("request 52 GetHealth: sent"));
    assert_eq!(fs::read(&path).unwrap(), [log, health].concat());
}

#[test]
fn one_byte_in_so_many_is_damaged_and_the_same_in_every_run() {
    let clean = clean();
    let sent = [&DESCRIPTOR, &clean[..3_600], &clean[..3_600]].concat();
    let damaged = |words: &[&str]| {
        let mut line = Line::start(&[&["--pace", "200"], words].concat());
        line.ask(&SCAN);
        line.bytes(sent.len())
    };
    let some = damaged(&["--damage", "20"]);
    let bits = |bytes: &[u8]| -> Vec<u32> {
        bytes.iter().zip(&sent).map(|(byte, sent)| (byte ^ sent).count_ones()).collect()
    };
    assert!(bits(&some).iter().all(|&bits| bits <= 1));
    assert!((260..=460).contains(&bits(&some).iter().sum::<u32>()), "of {} bytes", sent.len());
    assert_eq!(damaged(&["--damage", "20"]), some);
    // One in one is every byte, the descriptor's as well.
    assert!(bits(&damaged(&["--damage", "1"])).iter().all(|&bits| bits == 1));
}

#[test]
fn help_is_printed_and_no_line_is_opened() {
    let output = output(&["--pace", "200", "--help"]);
    assert!(output.status.success() && output.stderr.is_empty());
    let usage = String::from_utf8(output.stdout).unwrap();
    assert!(usage.starts_with("usage: line [OPTION...] [CAPTURE]\n"));
    for option in [
        "--pace",
        "--seconds",
        "--firmware",
        "--unstable",
        "--fault",
        "--warning",
        "--error",
        "--log",
        "--damage",
        "--help",
    ] {
        assert!(usage.contains(&format!("\n  {option} ")), "{option}");
    }
}

#[test]
fn wrong_words_are_one_clear_line() {
    for (words, why) in [
        (&["--firmware"][..], "--firmware asks for MAJOR.MINOR, each 0 to 255"),
        (&["--firmware", "1"], "--firmware asks for MAJOR.MINOR, each 0 to 255"),
        (&["--firmware", "1.256"], "--firmware asks for MAJOR.MINOR, each 0 to 255"),
        (&["--firmware", "-1.15"], "--firmware asks for MAJOR.MINOR, each 0 to 255"),
        (&["--firmware", "1.+5"], "--firmware asks for MAJOR.MINOR, each 0 to 255"),
        (&["--firmware", "1.15.0"], "--firmware asks for MAJOR.MINOR, each 0 to 255"),
        (&["--firmware", "1."], "--firmware asks for MAJOR.MINOR, each 0 to 255"),
        (&["--damage", "0"], "--damage asks for a number from 1 on"),
        (&["--damage"], "--damage asks for a number from 1 on"),
        (&["--pace", "0"], "--pace asks for a number from 1 on"),
        (&["--pace", "fast"], "--pace asks for a number from 1 on"),
        (&["--seconds", "-1"], "--seconds asks for a number"),
        (&["--error", "65536"], "--error asks for a number up to 65535"),
        (&["--log"], "--log asks for a file"),
        (&["--log", "--fault"], "--log asks for a file"),
        (&["--log", "/nosuch/log"], "no log /nosuch/log: No such file or directory (os error 2)"),
        (&["--nosuch"], "--nosuch is no option: see --help"),
        (&["/nosuch"], "/nosuch: No such file or directory (os error 2)"),
        (&["one", "two"], "two is a second capture"),
    ] {
        let output = output(words);
        assert_eq!(output.status.code(), Some(2), "{words:?}");
        assert_eq!(String::from_utf8(output.stderr).unwrap(), format!("line: {why}\n"));
        assert!(output.stdout.is_empty(), "{words:?}");
    }
}
