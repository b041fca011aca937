//! Times of the proved card's and switch's calls and of what reads lengths and
//! packets, through the C interface, against the second model, and of a card's against a plain scan of the
//! buffers; then those of logs played against the same calls made directly.
//! Prints two Markdown tables. `--rounds R` sets the number of rounds.

mod cases;
mod extended;
mod floor;
mod log;
mod measure;
mod query;
mod state;
mod switch;

use cases::Case;
use log::LogCase;
use measure::{medians, ROUND};
use std::env;
use std::hint::black_box;
use std::process::ExitCode;

/// The numbers of vectors measured.
const VECTORS: [usize; 4] = [0, 1, 64, 2048];

/// The number of rounds that the command line asks for.
fn rounds() -> Option<usize> {
    let words: Vec<String> = env::args().skip(1).collect();
    match &words[..] {
        [] => Some(21),
        [word, number] if word == "--rounds" => number.parse().ok().filter(|&rounds| rounds > 0),
        _ => None,
    }
}

/// Measures a case and prints its row.
fn print_row(case: &mut Case, rounds: usize) {
    let vectors = case.vectors.unwrap_or(0);
    let table = vec![0_u8; 16 * vectors];
    let pending = vec![0_u8; 8 * vectors.div_ceil(64)];
    assert_eq!((case.proved)(4), 0, "{} by the proved code", case.name);
    assert_eq!((case.second)(4), 0, "{} by the second model", case.name);
    let [proved, second, floor] = medians(
        [
            &mut |calls| {
                black_box((case.proved)(calls));
            },
            &mut |calls| {
                black_box((case.second)(calls));
            },
            &mut |calls| {
                for _ in 0..calls {
                    black_box(floor::scan(black_box(&table), black_box(&pending)));
                }
            },
        ],
        rounds,
    );
    let ratio = proved / second;
    let n = case.vectors.map_or("-".to_string(), |n| n.to_string());
    let floors = match vectors {
        0 => "- | -".to_string(),
        _ => format!("{floor:.0} | {:.2}", proved / floor),
    };
    println!(
        "| {} | {n} | {proved:.0} | {second:.0} | {ratio:.2} | {floors} |",
        case.name
    );
}

/// Measures a log and prints its row.
fn print_log_row(case: &mut LogCase, rounds: usize) {
    let LogCase {
        name,
        vectors,
        played,
        calls,
        second,
    } = case;
    for work in [&mut *played, calls, second] {
        assert_eq!(work(2 * log::RECORDS as u64), 0, "{name}");
    }
    let [played, calls, second] = medians(
        [
            &mut |records| {
                black_box(played(records));
            },
            &mut |records| {
                black_box(calls(records));
            },
            &mut |records| {
                black_box(second(records));
            },
        ],
        rounds,
    );
    let (by_calls, by_second) = (played / calls, played / second);
    println!(
        "| {name} | {vectors} | {played:.0} | {calls:.0} | {by_calls:.2} | {second:.0} | {by_second:.2} |"
    );
}

/// Measures all logs and prints their table.
fn print_logs(rounds: usize) {
    let records = log::RECORDS;
    println!("\nNanoseconds for a record, measured in the same way: a log of {records} records,");
    println!("played from memory over and over, one record at each call, with all bytes behind");
    println!("it handed in; the same calls made directly, through the C interface too; and the");
    println!("log played by the second model. Each has its own card and an output of 40,976");
    println!("bytes. Twenty records of a mixed log are eleven events that are sent, held or");
    println!("merged, two lines and seven writes, some of which mask and unmask.\n");
    println!("| Log | N | Log played | Same calls, made directly | Played / calls | Second model | Proved / second |");
    println!("|---|---:|---:|---:|---:|---:|---:|");
    for case in &mut log::cases() {
        print_log_row(case, rounds);
    }
}

fn main() -> ExitCode {
    let Some(rounds) = rounds() else {
        eprintln!("usage: benchmark [--rounds R]");
        return ExitCode::from(2);
    };
    println!("Nanoseconds for a call: the median of {rounds} rounds, each of at least");
    println!("{ROUND:?}, in which the three take turns, in one run on one machine, all");
    println!("built for release. The input is the same for both models. Buffers and output");
    println!("were not cleared before a call. The proved card is called through the C");
    println!("interface with its 289 bytes, the second model with its own struct. The floor");
    println!("of the soundness check is a scan of table and pending array by 64-bit words.");
    println!("A release and a withdrawal copy card and pending array back before each call,");
    println!("in both; a withdrawal is of the last vector, whose bit is then set each time,");
    println!("if the row does not say otherwise. A switch has no N; it is called with its 10");
    println!("bytes, and copied back before each call of a port going down, in both. The row");
    println!("of 2,048 messages has half of them below 4 GiB; the nanoseconds are for all of");
    println!("them.\n");
    println!("| Call | N | Proved | Second model | Proved / second | Floor | Proved / floor |");
    println!("|---|---:|---:|---:|---:|---:|---:|");
    for vectors in VECTORS {
        for case in &mut cases::cases(vectors) {
            print_row(case, rounds);
        }
    }
    for case in &mut extended::cases() {
        print_row(case, rounds);
    }
    for case in &mut switch::cases() {
        print_row(case, rounds);
    }
    for case in &mut query::cases() {
        print_row(case, rounds);
    }
    print_logs(rounds);
    ExitCode::SUCCESS
}
