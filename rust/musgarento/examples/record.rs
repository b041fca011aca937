//! Records the trial of the sonic head's card (`sonic.rs`, without its save,
//! reset and restore) as two files: the card's image as it is right after the
//! start, and the log of its calls. The example `play` plays them.
//!
//!     cargo run --example record -- CARD LOG

use musgarento::{BarError, EventError, Recorded, Refusal, Start};
use std::env;
use std::error::Error;
use std::fs::{self, File};
use std::io::{self, BufWriter, Write};
use std::path::{Path, PathBuf};
use std::process::ExitCode;

/// Where the card has its MSI-X capability, table and pending array.
const MSIX: usize = 0x40;
const BAR: u8 = 0;
const PENDING_AT: u32 = 0x800;

const CHANNELS: u16 = 4;
const CHANNEL: u16 = 3;
const ENTRY: u32 = 16 * CHANNEL as u32;

/// A card with an MSI-X vector for each channel.
fn start() -> Start {
    let mut config = [0; 256];
    config[0x06] = 0x10; // Status: there is a capability list.
    config[0x34] = MSIX as u8;
    config[0x3D] = 1; // INTA
    config[MSIX] = 0x11;
    config[MSIX + 2..MSIX + 4].copy_from_slice(&(CHANNELS - 1).to_le_bytes());
    config[MSIX + 8..MSIX + 12].copy_from_slice(&(PENDING_AT | u32::from(BAR)).to_le_bytes());
    Start {
        config,
        sizes: [0x1000; 6],
        events: CHANNELS,
        requester: 0x0100,
    }
}

/// Sets or clears the mask bit of the channel's table entry.
fn mask<W: Write>(card: &mut Recorded<W>, mask: bool) -> Result<(), BarError> {
    card.bar_write(BAR, ENTRY + 12, 4, mask.into())?;
    Ok(())
}

/// Makes an event of the channel.
fn event<W: Write>(card: &mut Recorded<W>) -> Result<(), EventError> {
    card.event(CHANNEL)?;
    Ok(())
}

/// The calls of the trial.
fn trial<W: Write>(card: &mut Recorded<W>) -> Result<(), Refusal> {
    card.config_write(0x04, 2, 0x0006)?;
    card.bar_write(BAR, ENTRY, 8, 0x1_FEE0_1000)?;
    card.bar_write(BAR, ENTRY + 8, 8, 0x31)?;
    card.config_write(MSIX as u16 + 2, 2, 0x8000)?;
    event(card)?;
    mask(card, true)?;
    event(card)?;
    event(card)?;
    mask(card, false)?;
    Ok(())
}

/// Records the trial, and gives the card's image right after its start.
pub fn record(log: impl Write) -> Result<Vec<u8>, Box<dyn Error>> {
    let mut card = Recorded::start(&start(), log)?;
    let image = card.save();
    trial(&mut card)?;
    card.finish()?;
    Ok(image)
}

/// Writes the image and the log.
fn write(card: &Path, log: &Path) -> Result<(), Box<dyn Error>> {
    let named = |path: &Path, error: io::Error| format!("{}: {error}", path.display());
    let file = File::create(log).map_err(|error| named(log, error))?;
    let image = record(BufWriter::new(file))?;
    fs::write(card, image).map_err(|error| named(card, error))?;
    Ok(())
}

fn main() -> ExitCode {
    let files: Vec<PathBuf> = env::args_os().skip(1).map(PathBuf::from).collect();
    let [card, log] = &files[..] else {
        eprintln!("record needs two files to write: CARD LOG");
        return ExitCode::FAILURE;
    };
    if let Err(error) = write(card, log) {
        eprintln!("{error}");
        return ExitCode::FAILURE;
    }
    ExitCode::SUCCESS
}
