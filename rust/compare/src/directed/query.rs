//! Queries: lists and sizes of configurations, images by length and byte, and
//! packets by length, byte and what stands behind them.

use super::damage::{cards, image_bytes};
use super::{Run, Trial};
use crate::call::{Call, Damage, Image, QueryCall};
use crate::given::{plain, put_control, put_list, FIRST, MSIX_ID, PLAIN_MSIX};
use crate::packets::{
    samples, BUS_AT, CODE_AT, DEVICE_AT, LONG_ADDRESS_AT, SHORT_ADDRESS_AT, UPPER_AT,
};
use crate::run::Runner;

/// The requester ID of the packets.
const CARD: u16 = 0x0500;

pub fn run(runner: &mut Runner<'_>) -> Run {
    sizes(runner)?;
    config_bytes(runner)?;
    places(runner)?;
    long_lists(runner)?;
    for card in cards() {
        images(runner, &card)?;
    }
    large_images(runner)?;
    packet_lengths(runner)?;
    packet_bytes(runner)?;
    packet_words(runner)?;
    requesters(runner)
}

impl Trial {
    fn lengths(&mut self, config: &[u8]) -> &mut Trial {
        self.call(Call::Query(QueryCall::ConfigLengths(config.to_vec())))
    }

    fn image_lengths(&mut self, damage: &[Damage]) -> &mut Trial {
        let image = Image::Kept(0, damage.to_vec());
        self.call(Call::Query(QueryCall::ImageLengths(image)))
    }

    fn packet(&mut self, bytes: &[u8]) -> &mut Trial {
        self.call(Call::Query(QueryCall::Packet(bytes.to_vec())))
    }
}

/// Each Table Size, with the other bits of the control register 0 and 1.
fn sizes(runner: &mut Runner<'_>) -> Run {
    let mut trial = Trial::default();
    let mut config = plain(1, Some(0x184), Some(1)).config;
    for size in 0..2048 {
        for others in [0, 0x0800, 0xF800] {
            put_control(&mut config, PLAIN_MSIX, size | others);
            trial.lengths(&config);
        }
    }
    trial.run(runner, "sizes of tables")
}

/// Each value of the bytes that a list begins with, goes on with and ends with;
/// and other lengths of a configuration.
fn config_bytes(runner: &mut Runner<'_>) -> Run {
    let mut trial = Trial::default();
    let config = plain(1, Some(0x184), Some(65)).config;
    for at in [0x06, 0x0E, 0x34, 0x3D, 0x50, 0x51, 0x70, 0x71] {
        for value in 0..=255 {
            let mut config = config.clone();
            config[at] = value;
            trial.lengths(&config);
        }
    }
    for length in [0, 1, 64, 128, 255, 256, 257, 289, 294, 512] {
        let mut config = config.clone();
        config.resize(length, 0);
        trial.lengths(&config);
    }
    trial.run(runner, "bytes of configurations")
}

/// MSI-X at each place, alone, in front of another one, and behind one.
fn places(runner: &mut Runner<'_>) -> Run {
    let mut trial = Trial::default();
    for at in (FIRST..256).step_by(4) {
        let other = if at == 0x80 { 0xA0 } else { 0x80 };
        for list in [&[at][..], &[at, other], &[other, at], &[at, other, at]] {
            let mut config = vec![0; 256];
            let list: Vec<(usize, u8)> = list.iter().map(|&at| (at, MSIX_ID)).collect();
            put_list(&mut config, &list);
            put_control(&mut config, other, 0x0007);
            put_control(&mut config, at, 0x0140);
            trial.lengths(&config);
        }
    }
    trial.run(runner, "places of MSI-X")
}

/// Lists of 1 to 48 capabilities that end, or go on at each place; MSI-X is the
/// first or the last.
fn long_lists(runner: &mut Runner<'_>) -> Run {
    let mut trial = Trial::default();
    for count in [1, 2, 3, 46, 47, 48] {
        for msix in [0, count - 1] {
            let id = |i: usize| if i == msix { MSIX_ID } else { 0x09 };
            let list: Vec<(usize, u8)> = (0..count).map(|i| (FIRST + 4 * i, id(i))).collect();
            let mut config = vec![0; 256];
            put_list(&mut config, &list);
            let last = list[count - 1].0;
            for pointer in 0..=255 {
                config[last + 1] = pointer;
                trial.lengths(&config);
            }
        }
    }
    trial.run(runner, "long lists")
}

/// Every length of a card's image, and every byte of it changed.
fn images(runner: &mut Runner<'_>, card: &Trial) -> Run {
    let (bytes, places) = image_bytes(&card.world());
    let mut trial = card.clone();
    trial.call(Call::Save(0)).image_lengths(&[]);
    let around = (0..40).chain(280..bytes.len() + 3);
    for length in around.chain([2 * bytes.len(), 33_318, 33_319]) {
        trial.image_lengths(&[Damage::Length(length)]);
        trial.image_lengths(&[Damage::Byte(0, 0), Damage::Length(length)]);
        trial.image_lengths(&[Damage::Byte(4, 1), Damage::Length(length)]);
    }
    for at in places {
        for change in [0x01, 0x02, 0x04, 0x08, 0x10, 0x20, 0x40, 0x80, 0xFF] {
            trial.image_lengths(&[Damage::Byte(at, bytes[at] ^ change)]);
        }
    }
    trial.run(runner, "images to ask about")
}

/// Images of cards with numbers of vectors at the edges.
fn large_images(runner: &mut Runner<'_>) -> Run {
    for vectors in [1, 2, 63, 64, 65, 127, 128, 129, 2047, 2048] {
        let mut trial = Trial::start(&plain(1, Some(0x184), Some(vectors)));
        trial.call(Call::Save(0)).image_lengths(&[]).restore(0, &[]);
        let length = 294 + 16 * vectors + 8 * vectors.div_ceil(64);
        for length in [length - 8, length - 1, length + 1, length + 8] {
            trial.image_lengths(&[Damage::Length(length)]);
        }
        trial.run(runner, "large images")?;
    }
    Ok(())
}

/// Each packet cut, alone, with other bytes behind it, and with each packet
/// behind it.
fn packet_lengths(runner: &mut Runner<'_>) -> Run {
    let mut trial = Trial::default();
    for sample in samples(CARD) {
        for length in 0..=41 {
            for filler in [0, 0x34, 0xFF] {
                let mut bytes = sample.clone();
                bytes.resize(length, filler);
                trial.packet(&bytes);
            }
        }
        for other in samples(CARD) {
            for length in [1, 4, 15, 16, other.len()] {
                trial.packet(&[&sample[..], &other[..length]].concat());
            }
        }
    }
    trial.run(runner, "lengths of packets to read")
}

/// Each packet with each value of each byte, alone and with bytes behind it.
fn packet_bytes(runner: &mut Runner<'_>) -> Run {
    let mut trial = Trial::default();
    for sample in samples(CARD) {
        for at in 0..sample.len() {
            for value in 0..=255 {
                let mut bytes = sample.clone();
                bytes[at] = value;
                trial.packet(&bytes);
                bytes.extend([0xFF; 4]);
                trial.packet(&bytes);
            }
        }
    }
    trial.run(runner, "bytes of packets to read")
}

/// Each bit of address, upper address and data by itself, and all but one.
fn packet_words(runner: &mut Runner<'_>) -> Run {
    let [short, long, ..] = samples(CARD);
    let mut trial = Trial::default();
    let ends = [0, u32::MAX, u32::MAX - 3];
    let bits = (0..32).flat_map(|bit| [1 << bit, !(1 << bit)]);
    for word in bits.chain(ends) {
        for (sample, address) in [(&short, SHORT_ADDRESS_AT), (&long, LONG_ADDRESS_AT)] {
            for at in [address, address + 4, UPPER_AT] {
                let mut bytes = sample.clone();
                bytes[at..at + 4].copy_from_slice(&word.to_be_bytes());
                trial.packet(&bytes);
            }
        }
    }
    trial.run(runner, "words of packets")
}

/// Each requester ID with one bit set or clear, for each layout and each code.
fn requesters(runner: &mut Runner<'_>) -> Run {
    let mut trial = Trial::default();
    for sample in samples(CARD) {
        for code in [sample[CODE_AT], 0x1F, 0x20, 0x23, 0x24, 0x27, 0x28] {
            for requester in (0..16).flat_map(|bit| [1_u16 << bit, !(1 << bit)]) {
                let mut bytes = sample.clone();
                bytes[BUS_AT..=DEVICE_AT].copy_from_slice(&requester.to_be_bytes());
                bytes[CODE_AT] = code;
                trial.packet(&bytes);
            }
        }
    }
    trial.run(runner, "requesters of packets to read")
}
