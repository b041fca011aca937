//! Plays a log on the card of an image, and prints each record, what the card
//! answered, and each packet.
//!
//!     cargo run --example play -- CARD LOG

use musgarento::{Call, Card, Packets, Player, LOG_HEADER_BYTES};
use std::env;
use std::fs::{self, File};
use std::io::{self, BufRead, BufReader, Read, Write};
use std::path::{Path, PathBuf};
use std::process::ExitCode;

/// How many bytes of the log are read together.
const PIECE: usize = 64 * 1024;

/// Where an image has the MSI waiting bits, and the table.
const MSI_WAITING: usize = 10;
const TABLE: usize = 294;

/// The packets as lines: what each is, and its bytes.
fn packets(packets: &Packets<'_>) -> String {
    if packets.bytes().is_empty() {
        return "    sends nothing\n".to_string();
    }
    let mut text = String::new();
    for (packet, bytes) in packets.clone().zip(packets.clone().slices()) {
        let hex: Vec<String> = bytes.iter().map(|byte| format!("{byte:02X}")).collect();
        text += &format!("    sends {packet}\n          {}\n", hex.join(" "));
    }
    text
}

/// A record as lines: its number, what it is, the answer and the packets.
fn record(number: u64, call: &Call<'_>) -> String {
    let (answer, packets) = match call.answer {
        Ok(None) => ("accepted".to_string(), packets(&call.packets)),
        Ok(Some(answer)) => (format!("{answer:?}"), packets(&call.packets)),
        Err(error) => (error.to_string(), String::new()),
    };
    format!("{number}. {}: {answer}\n{packets}", call.record)
}

/// The numbers of the bits that are set.
fn set_bits(bytes: &[u8]) -> String {
    let is_set = |bit: &usize| bytes[bit / 8] >> (bit % 8) & 1 != 0;
    let bits: Vec<String> = (0..8 * bytes.len())
        .filter(is_set)
        .map(|bit| bit.to_string())
        .collect();
    match bits.is_empty() {
        true => "none".to_string(),
        false => bits.join(", "),
    }
}

/// How many records were played, and which vectors wait, as lines.
fn summary(card: &Card, records: u64) -> String {
    let image = card.save();
    let msi = set_bits(&image[MSI_WAITING..MSI_WAITING + 4]);
    let msix = set_bits(&image[TABLE + 16 * card.vectors()..]);
    format!("Records: {records}\nWaiting MSI vectors: {msi}\nWaiting MSI-X vectors: {msix}\n")
}

/// Plays a log on a card and prints what it does. The error is a sentence about
/// the log.
pub fn play(card: &mut Card, log: impl Read, out: &mut impl Write) -> Result<(), String> {
    let mut print = |text: String| {
        let written = out.write_all(text.as_bytes());
        written.map_err(|error| format!("what it does cannot be printed: {error}"))
    };
    let mut log = BufReader::with_capacity(PIECE, log);
    let (mut player, mut place) = (Player::new(), 0);
    loop {
        let piece = log.fill_buf().map_err(|error| error.to_string())?;
        if piece.is_empty() {
            break;
        }
        let played = player.play(card, piece);
        place += played.taken;
        match played.call {
            Ok(Some(call)) => print(record(player.records(), &call))?,
            Ok(None) => (),
            Err(error) => {
                let byte = piece[played.taken];
                return Err(format!("byte {byte:02X}h at offset {place}: {error}"));
            }
        }
        log.consume(played.taken);
    }
    if !player.is_complete() {
        return Err(cut(place, player.records()));
    }
    print(summary(card, player.records()))
}

/// Where a log ends that is not complete.
fn cut(place: usize, records: u64) -> String {
    match place < LOG_HEADER_BYTES {
        true => format!("ends inside mark and version, at offset {place}"),
        false => format!("ends inside record {}, at offset {place}", records + 1),
    }
}

/// Plays the log of one file on the card of another.
pub fn play_files(card: &Path, log: &Path, out: &mut impl Write) -> Result<(), String> {
    let of_card = |error: String| format!("{}: {error}", card.display());
    let of_log = |error: String| format!("{}: {error}", log.display());
    let image = fs::read(card).map_err(|error| of_card(error.to_string()))?;
    let mut card = Card::from_image(&image).map_err(|error| of_card(error.to_string()))?;
    let file = File::open(log).map_err(|error| of_log(error.to_string()))?;
    play(&mut card, file, out).map_err(of_log)
}

fn main() -> ExitCode {
    let files: Vec<PathBuf> = env::args_os().skip(1).map(PathBuf::from).collect();
    let [card, log] = &files[..] else {
        eprintln!("play needs two files to read: CARD LOG");
        return ExitCode::FAILURE;
    };
    if let Err(error) = play_files(card, log, &mut io::stdout().lock()) {
        eprintln!("{error}");
        return ExitCode::FAILURE;
    }
    ExitCode::SUCCESS
}
