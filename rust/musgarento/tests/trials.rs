//! The files in `trials`: the example `record` writes them, and what the example
//! `play` prints is the text stored beside them.

use musgarento::{Card, Record, Records};
use std::fs;
use std::io::Read;
use std::path::{Path, PathBuf};

#[allow(dead_code)]
#[path = "../examples/play.rs"]
mod play;
#[allow(dead_code)]
#[path = "../examples/record.rs"]
mod record;

/// A stored file.
fn path(name: &str) -> PathBuf {
    let package = Path::new(env!("CARGO_MANIFEST_DIR"));
    package.join("../../trials").join(name)
}

fn stored(name: &str) -> Vec<u8> {
    fs::read(path(name)).unwrap()
}

/// What is printed of a log, and how playing it ends.
fn played(log: impl Read) -> (String, Result<(), String>) {
    let mut card = Card::from_image(&stored("sonic.card")).unwrap();
    let mut out = Vec::new();
    let result = play::play(&mut card, log, &mut out);
    (String::from_utf8(out).unwrap(), result)
}

/// How playing a log ends that is not played to its end.
fn problem(log: &[u8]) -> String {
    played(log).1.unwrap_err()
}

/// Reads one byte at a time.
struct Bytes<'a>(&'a [u8]);

impl Read for Bytes<'_> {
    fn read(&mut self, buffer: &mut [u8]) -> std::io::Result<usize> {
        let length = buffer.len().min(1);
        self.0.read(&mut buffer[..length])
    }
}

#[test]
fn what_record_writes() {
    let mut log = Vec::new();
    let image = record::record(&mut log).unwrap();
    assert_eq!(image, stored("sonic.card"));
    assert_eq!(log, stored("sonic.clg"));
}

#[test]
fn what_play_prints() {
    let mut out = Vec::new();
    play::play_files(&path("sonic.card"), &path("sonic.clg"), &mut out).unwrap();
    let text = String::from_utf8(out).unwrap();
    assert_eq!(text, String::from_utf8(stored("sonic.txt")).unwrap());
}

#[test]
fn read_byte_by_byte() {
    let (text, result) = played(Bytes(&stored("sonic.clg")));
    assert_eq!(result, Ok(()));
    assert_eq!(text.as_bytes(), stored("sonic.txt"));
}

#[test]
fn refused_records_and_waiting_vectors() {
    let mut log = stored("sonic.clg");
    let last = Records::new(&log).unwrap().last().unwrap();
    log.truncate(log.len() - last.bytes().len());
    log.extend(Record::Event(4).bytes());
    let (text, result) = played(&log[..]);
    assert_eq!(result, Ok(()));
    let end = "8. event 3: Merged\n    sends nothing\n\
               9. event 4: refused with 2: event number E or more\n\
               Records: 9\nWaiting MSI vectors: none\nWaiting MSI-X vectors: 3\n";
    assert!(text.ends_with(end));
}

#[test]
fn a_log_longer_than_one_piece() {
    let mut log = stored("sonic.clg");
    log.extend([5].repeat(200_000));
    let (text, result) = played(&log[..]);
    assert_eq!(result, Ok(()));
    assert!(text.contains("\n200009. reset: accepted\n    sends nothing\nRecords: 200009\n"));
    log.push(0xAB);
    assert!(problem(&log).starts_with("byte ABh at offset 200090: refused with 30: "));
}

#[test]
fn wrong_bytes() {
    let log = stored("sonic.clg");
    for at in [0, 1, 2, 3, 4, 5, 13, 28] {
        let mut wrong = log.clone();
        wrong[at] = 0x99;
        let start = format!("byte 99h at offset {at}: refused with 30: wrong byte of mark");
        assert!(problem(&wrong).starts_with(&start));
    }
}

#[test]
fn logs_that_are_cut() {
    let log = stored("sonic.clg");
    let cut = |length| problem(&log[..length]);
    assert_eq!(cut(0), "ends inside mark and version, at offset 0");
    assert_eq!(cut(4), "ends inside mark and version, at offset 4");
    assert_eq!(cut(6), "ends inside record 1, at offset 6");
    assert_eq!(cut(12), "ends inside record 1, at offset 12");
    assert_eq!(cut(89), "ends inside record 9, at offset 89");
    let (text, result) = played(&log[..5]);
    assert_eq!(result, Ok(()));
    assert!(text.starts_with("Records: 0\n"));
}

/// The bytes that a line begins with, in hexadecimal.
fn leading_bytes(line: &str) -> Vec<u8> {
    let words = line.split_whitespace();
    let bytes = words.take_while(|word| word.len() == 2);
    bytes
        .map_while(|word| u8::from_str_radix(word, 16).ok())
        .collect()
}

/// The bytes of the example in docs/LOG.md.
fn documented() -> Vec<u8> {
    let text = String::from_utf8(stored("../docs/LOG.md")).unwrap();
    let (_, example) = text.split_once("An example, of 34 bytes:").unwrap();
    let (example, _) = example.split_once("\n## ").unwrap();
    example.lines().flat_map(leading_bytes).collect()
}

#[test]
fn the_example_of_the_document() {
    let log = documented();
    assert_eq!(log.len(), 34);
    let (text, result) = played(&log[..]);
    assert_eq!(result, Ok(()));
    let lines: Vec<&str> = text.lines().collect();
    let expected = [
        "1. configuration write, offset 0004h, width 2, value 00000006h: accepted",
        "2. BAR 0 write, offset 0000003Ch, width 4, value 0000000000000001h: accepted",
        "3. event 3: Lost",
        "4. line high: accepted",
        "5. reset: accepted",
    ];
    for line in expected {
        assert!(lines.contains(&line));
    }
}

#[test]
fn files_that_are_missing_or_refused() {
    let error = |card: &str, log: &str| {
        let result = play::play_files(&path(card), &path(log), &mut Vec::new());
        result.unwrap_err()
    };
    assert!(error("none.card", "sonic.clg").contains("none.card: "));
    assert!(error("sonic.card", "none.clg").contains("none.clg: "));
    assert!(error("sonic.clg", "sonic.clg").contains("sonic.clg: refused with 20: "));
    assert!(error("sonic.card", "sonic.card").contains("sonic.card: byte 49h at offset 0: "));
}
