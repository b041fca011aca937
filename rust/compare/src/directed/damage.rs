//! Damaged images and unsound cards.

use super::{write, Run, Trial};
use crate::call::{Call, Damage, Image, Room, Step};
use crate::given::{plain, PLAIN_MSI, PLAIN_MSIX};
use crate::run::Runner;
use crate::world::{Part, World};

pub fn run(runner: &mut Runner<'_>) -> Run {
    for trial in cards() {
        images(runner, &trial)?;
        turned_bits(runner, &trial)?;
        wrong_lengths(runner, &trial)?;
    }
    empty_image(runner)
}

/// Cards in different states, each by the trial that makes it.
pub(super) fn cards() -> Vec<Trial> {
    let fresh = Trial::start(&plain(1, Some(0x184), Some(2)));
    let mut wire = Trial::start(&plain(4, None, None));
    wire.line(1);
    let mut quiet = Trial::start(&plain(1, Some(0x00A), None));
    quiet.write(0x04, 2, 0x400).line(1);
    let mut msi = Trial::start(&plain(1, Some(0x186), None));
    msi.write(PLAIN_MSI + 2, 2, 0x21).event(1).event(2);
    let mut msi_masked = Trial::start(&plain(1, Some(0x104), None));
    msi_masked
        .write(0x04, 2, 4)
        .write(PLAIN_MSI + 0x0C, 4, 0xFF)
        .write(PLAIN_MSI + 2, 2, 0x21)
        .event(1)
        .line(1);
    let mut msix = Trial::start(&plain(1, None, Some(3)));
    msix.write(0x04, 2, 6)
        .entry(0, 1, 5, false)
        .write(PLAIN_MSIX + 2, 2, 0x8000)
        .event(1)
        .event(2);
    let mut held = Trial::start(&plain(1, Some(0x084), Some(65)));
    held.write(0x04, 2, 6)
        .write(PLAIN_MSIX + 2, 2, 0xC000)
        .entry(64, 0, 5, false)
        .event(64)
        .event(3)
        .write(PLAIN_MSI + 2, 2, 0x21)
        .call(write(PLAIN_MSIX + 2, 2, 0x4000));
    let mut extended = Trial::start(&plain(1, Some(0x284), None));
    extended
        .write(PLAIN_MSI + 0x0C, 4, 0xABCD_49A3)
        .write(PLAIN_MSI + 2, 2, 0x421)
        .event(1);
    vec![fresh, wire, quiet, msi, msi_masked, msix, held, extended]
}

/// Every length of the card's image, and every byte of it changed.
fn images(runner: &mut Runner<'_>, card: &Trial) -> Run {
    let world = card.world();
    let length = 5 + world.card.len() + world.table.len() + world.pending.len();
    let mut trial = card.clone();
    trial.call(Call::Save(0));
    let lengths = (0..40).chain(280..length + 3).chain([2 * length, 33_318]);
    for length in lengths {
        trial.restore(0, &[Damage::Length(length)]);
    }
    trial.run(runner, "lengths of images")?;
    for change in [0x01, 0x02, 0x04, 0x08, 0x10, 0x80, 0xFF] {
        let mut trial = card.clone();
        trial.call(Call::Save(0));
        let (bytes, places) = image_bytes(&world);
        for at in places {
            let value = bytes[at] ^ change;
            trial.restore(0, &[Damage::Byte(at, value)]).read(0x04, 4);
        }
        // Then over other buffers.
        trial.length(Part::Table, world.table.len() + 16);
        trial.restore(0, &[]).restore(0, &[Damage::Byte(5, 0xFC)]);
        trial.run(runner, "bytes of images")?;
    }
    Ok(())
}

/// The image of a world's card, and the places to change: all of a small card,
/// and the first and last entries of a larger one.
pub(super) fn image_bytes(world: &World) -> (Vec<u8>, Vec<usize>) {
    let mut image = vec![0x49, 0x52, 0x51, 1, 0];
    image.extend(&world.card);
    image.extend(&world.table);
    image.extend(&world.pending);
    let last = image.len();
    let places = (0..last).filter(|&at| at < 400 || at + 64 > last).collect();
    (image, places)
}

/// Every bit of card, table and pending array turned over, and calls on that.
fn turned_bits(runner: &mut Runner<'_>, card: &Trial) -> Run {
    let world = card.world();
    for part in [Part::Card, Part::Table, Part::Pending] {
        let mut trial = card.clone();
        let bytes = world.part(part);
        for (at, byte) in bytes.iter().enumerate() {
            if at >= 300 && at + 40 < bytes.len() {
                continue;
            }
            for bit in 0..8 {
                trial.byte(part, at, byte ^ 1 << bit);
                trial.read(0x04, 4).put_back(Part::Card, &world);
                if bit == at % 8 || part != Part::Card {
                    trial.byte(part, at, byte ^ 1 << bit);
                    turned_call(&mut trial, at + bit);
                    trial.put_all_back(&world);
                }
            }
        }
        trial.run(runner, "bits of cards")?;
    }
    Ok(())
}

/// A call of the kind that comes next.
fn turned_call(trial: &mut Trial, kind: usize) {
    match kind % 7 {
        0 => trial.write(0x04, 2, 6),
        1 => trial.event(1),
        2 => trial.line(0),
        3 => trial.call(Call::Save(0)),
        4 => trial.call(Call::Reset),
        5 => trial.withdraw(1),
        _ => trial.write(PLAIN_MSIX + 2, 2, 0x8000),
    };
}

/// Each call with wrong lengths of card and buffers.
fn wrong_lengths(runner: &mut Runner<'_>, card: &Trial) -> Run {
    let world = card.world();
    let mut trial = card.clone();
    trial.call(Call::Save(7));
    for part in [Part::Card, Part::Table, Part::Pending] {
        let right = world.part(part).len();
        for length in [
            0,
            1,
            8,
            16,
            288,
            right.saturating_sub(1),
            right + 1,
            right + 8,
        ] {
            trial.length(part, length).each_call().restore(7, &[]);
            trial.restore(7, &[Damage::Length(12)]);
            trial.put_all_back(&world);
        }
    }
    trial.run(runner, "wrong lengths")
}

/// An image without a byte.
fn empty_image(runner: &mut Runner<'_>) -> Run {
    let mut trial = Trial::start(&plain(1, None, Some(1)));
    let empty = Image::Bytes(Vec::new());
    trial.step(Step::Call(Call::Restore(empty), Room::Bytes(0)));
    trial.run(runner, "an empty image")
}
