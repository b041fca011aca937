//! What starts are given: valid configurations of every form, and broken ones.

use crate::call::Given;
use crate::layout::{pending_bytes, table_bytes, Layout, Place};
use crate::random::Random;

pub const MSI_ID: u8 = 0x05;
pub const MSIX_ID: u8 = 0x11;
/// The bytes of an MSI-X structure.
pub const MSIX_BYTES: usize = 12;
/// The first place of a capability.
pub const FIRST: usize = 0x40;

/// Writes a little-endian number.
fn put(config: &mut [u8], at: usize, bytes: &[u8]) {
    config[at..at + bytes.len()].copy_from_slice(bytes);
}

/// The bytes of the MSI structure with this control word.
pub fn msi_bytes(control: u16) -> usize {
    match control & 0x380 {
        0x000 => 10,
        0x080 => 14,
        0x200 => 12,
        0x280 => 16,
        0x100 | 0x300 => 20,
        _ => 24,
    }
}

/// Writes a capability list of these places and IDs.
pub fn put_list(config: &mut [u8], list: &[(usize, u8)]) {
    config[0x06] |= 0x10;
    let mut link = 0x34;
    for &(at, id) in list {
        config[link] = at as u8;
        config[at] = id;
        link = at + 1;
    }
    config[link] = 0;
}

/// Writes the control word of the capability at a place.
pub fn put_control(config: &mut [u8], at: usize, control: u16) {
    put(config, at + 2, &control.to_le_bytes());
}

/// Writes the MSI-X structure at a place, but for ID and pointer.
pub fn put_msix(config: &mut [u8], at: usize, vectors: usize, table: Place, pending: Place) {
    put_control(config, at, (vectors - 1) as u16);
    let word = |place: Place| (place.offset | u32::from(place.bar)).to_le_bytes();
    put(config, at + 4, &word(table));
    put(config, at + 8, &word(pending));
}

/// The place of the plain MSI structure, of the plain MSI-X structure, and of
/// its regions.
pub const PLAIN_MSI: usize = 0x50;
pub const PLAIN_MSIX: usize = 0x70;
pub const PLAIN_TABLE: Place = Place {
    bar: 2,
    offset: 0x1000,
};
pub const PLAIN_PENDING: Place = Place { bar: 2, offset: 0 };

/// A plain configuration: the pin, MSI by its control word, MSI-X by its
/// number of vectors.
pub fn plain(pin: u8, msi: Option<u16>, vectors: Option<usize>) -> Given {
    let mut config = vec![0; 256];
    config[0x3D] = pin;
    let mut list = Vec::new();
    if let Some(control) = msi {
        list.push((PLAIN_MSI, MSI_ID));
        put_control(&mut config, PLAIN_MSI, control);
    }
    if let Some(vectors) = vectors {
        list.push((PLAIN_MSIX, MSIX_ID));
        put_msix(&mut config, PLAIN_MSIX, vectors, PLAIN_TABLE, PLAIN_PENDING);
    }
    if !list.is_empty() {
        put_list(&mut config, &list);
    }
    Given {
        config,
        sizes: vec![0x10_0000; 6],
        events: vectors.unwrap_or(32) as u64,
        requester: 0x0100,
    }
}

/// A random number of vectors; large ones are rare.
fn random_vectors(random: &mut Random) -> usize {
    match random.below(40) {
        0 => 2048,
        1..=3 => random.pick(&[63, 64, 65]),
        4 => random.pick(&[127, 128, 129, 200]),
        5..=9 => 1,
        _ => 1 + random.below(12),
    }
}

/// A random configuration that a start accepts.
pub fn valid(random: &mut Random) -> Given {
    let mut given = Given {
        config: vec![0; 256],
        sizes: vec![0; 6],
        events: random.pick(&[1, 2, 3, 8, 33, 100, 2048]),
        requester: random.number() & 0xFFF8,
    };
    if random.once_in(2) {
        given.config = random.bytes(256);
    }
    given.config[0x0E] &= 0x80;
    given.config[0x3D] = random.pick(&[0, 1, 1, 2, 3, 4]);
    for size in &mut given.sizes {
        *size = random.pick(&[0, 0x1000, u32::MAX]);
    }
    put_random_list(random, &mut given);
    given
}

/// Writes a list of random capabilities at random places.
fn put_random_list(random: &mut Random, given: &mut Given) {
    // Bits 9 and 10 are 0 and 1 equally often, as are those without a meaning.
    let mut control = random.number() as u16 & 0xFFF1 | (random.below(6) << 1) as u16;
    control = control & !0x180 | (random.below(4) << 7) as u16;
    let mut wanted: Vec<(u8, usize)> = Vec::new();
    if !random.once_in(3) {
        wanted.push((MSI_ID, msi_bytes(control)));
    }
    if !random.once_in(3) {
        wanted.push((MSIX_ID, MSIX_BYTES));
    }
    for _ in 0..random.below(4) {
        wanted.push((random.pick(&[0x01, 0x09, 0x10, 0x00, 0xFF]), 2));
    }
    random.shuffle(&mut wanted);
    let mut list = random_places(random, &wanted);
    random.shuffle(&mut list);
    if list.is_empty() && random.once_in(2) {
        given.config[0x06] &= !0x10;
        return;
    }
    put_list(&mut given.config, &list);
    for &(at, id) in &list {
        match id {
            MSI_ID => put_control(&mut given.config, at, control),
            MSIX_ID => put_random_msix(random, given, at),
            _ => {}
        }
        given.config[at + 1] |= random.below(4) as u8;
    }
    given.config[0x34] |= random.below(4) as u8;
}

/// Places for structures of these lengths, in rising order and apart.
fn random_places(random: &mut Random, wanted: &[(u8, usize)]) -> Vec<(usize, u8)> {
    let mut places = Vec::new();
    let words: usize = wanted.iter().map(|(_, bytes)| bytes.div_ceil(4)).sum();
    let mut slack = 48 - words;
    let mut at = FIRST;
    for &(id, bytes) in wanted {
        let gap = match random.below(4) {
            0 => slack,
            1 => 0,
            _ => random.below(slack.min(8) + 1),
        };
        slack -= gap;
        at += 4 * gap;
        places.push((at, id));
        at += 4 * bytes.div_ceil(4);
    }
    places
}

/// Writes a random MSI-X structure and sizes its BARs.
fn put_random_msix(random: &mut Random, given: &mut Given, at: usize) {
    let vectors = random_vectors(random);
    let (table, pending) = random_regions(random, vectors);
    let reserved = given.config[at + 3] & 0xF8;
    put_msix(&mut given.config, at, vectors, table, pending);
    given.config[at + 3] |= reserved;
    given.events = vectors as u64;
    let table_end = table.offset + table_bytes(vectors) as u32;
    let pending_end = pending.offset + pending_bytes(vectors) as u32;
    let mut needed = [0; 6];
    for (place, end) in [(table, table_end), (pending, pending_end)] {
        let bar = usize::from(place.bar);
        needed[bar] = end.max(needed[bar]);
    }
    for (size, needed) in given.sizes.iter_mut().zip(needed) {
        if needed > 0 {
            *size = random.pick(&[needed, needed, needed.max(*size)]);
        }
    }
}

/// Random places of a table and a pending array that do not overlap.
fn random_regions(random: &mut Random, vectors: usize) -> (Place, Place) {
    let (long, short) = (table_bytes(vectors) as u32, pending_bytes(vectors) as u32);
    let bar = random.below(6) as u8;
    let base = match random.below(8) {
        0 => 0xFFFF_FFF8 - long - short - 0x40,
        1 => 0,
        _ => 8 * random.below(0x80) as u32,
    };
    let gap = 8 * random.pick(&[0, 0, 1, 5]);
    match random.below(3) {
        0 => {
            let offset = base + long + gap;
            (Place { bar, offset: base }, Place { bar, offset })
        }
        1 => {
            let offset = base + short + gap;
            (Place { bar, offset }, Place { bar, offset: base })
        }
        _ => {
            let other = (bar + 1 + random.below(5) as u8) % 6;
            let offset = random.pick(&[base, base + gap]);
            (Place { bar, offset: base }, Place { bar: other, offset })
        }
    }
}

/// Changes a few things, which mostly makes the start refuse.
pub fn spoil(random: &mut Random, given: &mut Given) {
    for _ in 0..random.pick(&[1, 1, 1, 2, 3]) {
        spoil_once(random, given);
    }
}

fn spoil_once(random: &mut Random, given: &mut Given) {
    let layout = Layout::of_config(&given.config);
    match random.below(12) {
        0 => given.config[0x0E] |= 1 << random.below(8),
        1 => given.config[0x3D] = random.pick(&[4, 5, 6, 0x80, 0xFF]),
        2 => given.config[0x06] ^= 0x10,
        3 => spoil_pointer(random, given),
        4 => put_long_list(random, given),
        5 | 6 => spoil_header(random, given),
        7 => {
            if let Some(msi) = layout.msi {
                given.config[msi.at + 2] |= random.pick(&[0x0C, 0x0E]);
            }
        }
        8 | 9 => spoil_regions(random, given, &layout),
        10 => {
            let events = given.events & 0xFFFF;
            let (less, wider) = (events.saturating_sub(1), random.wider(events));
            given.events = random.pick(&[0, less, events + 1, 2049, 0xFFFF, wider, wider]);
        }
        _ => {
            let requester = given.requester & 0xFFFF;
            let (function, wider) = (random.below(8) as u64, random.wider(requester));
            given.requester = random.pick(&[requester | function, wider]);
        }
    }
}

/// Changes a pointer of the list.
fn spoil_pointer(random: &mut Random, given: &mut Given) {
    let places = [0x34, 0x41, 0x45, 0x49, 0x4D, 0x51, 0x55];
    let value = random.number() as u8;
    given.config[random.pick(&places)] = random.pick(&[0x04, 0x3C, 0x3F, 0x40, 0x48, 0xFC, value]);
}

/// Lists 40 to 48 capabilities, or a loop.
fn put_long_list(random: &mut Random, given: &mut Given) {
    let mut places: Vec<usize> = (0..48).map(|i| FIRST + 4 * i).collect();
    random.shuffle(&mut places);
    places.truncate(40 + random.below(9));
    let id = random.pick(&[0x01, 0x01, MSI_ID, MSIX_ID]);
    let mut list: Vec<(usize, u8)> = places.into_iter().map(|at| (at, 0x09)).collect();
    list[0].1 = id;
    put_list(&mut given.config, &list);
    if random.once_in(3) {
        let last = list[list.len() - 1].0;
        given.config[last + 1] = list[random.below(list.len())].0 as u8;
    }
}

/// Puts a header at the front of the list: a second ID, or inside a structure.
fn spoil_header(random: &mut Random, given: &mut Given) {
    let layout = Layout::of_config(&given.config);
    let near = layout
        .msi
        .map(|msi| msi.at)
        .or(layout.msix.map(|msix| msix.at));
    let base = near.unwrap_or(0x80) as isize;
    let at = (base + 4 * (random.below(16) as isize - 8)).clamp(0x40, 0xFC) as usize;
    let value = given.config[at];
    given.config[at] = random.pick(&[MSI_ID, MSIX_ID, 0x09, value]);
    given.config[at + 1] = given.config[0x34];
    given.config[0x34] = at as u8;
}

/// Moves a region, or changes the size of its BAR.
fn spoil_regions(random: &mut Random, given: &mut Given, layout: &Layout) {
    let Some(msix) = layout.msix else {
        given.sizes[random.below(6)] = random.number() as u32;
        return;
    };
    let bar = usize::from(msix.table.bar.min(5));
    match random.below(5) {
        0 => given.config[msix.at + random.pick(&[4, 8])] ^= random.pick(&[1, 2, 4, 6]),
        1 => given.config[msix.at + random.pick(&[4, 5, 8, 9])] ^= 1 << random.below(8),
        2 => {
            let size = given.sizes[bar];
            given.sizes[bar] = size.wrapping_sub(random.pick(&[1, 7, 8, 16]));
        }
        3 => given.config[msix.at + 2] ^= 1 << random.below(8),
        _ => put(&mut given.config, msix.at + 7, &[0xFF]),
    }
}

/// Configuration bytes that are arbitrary but for a list of a kind.
pub fn arbitrary(random: &mut Random) -> Given {
    let mut config = random.bytes(256);
    if !random.once_in(4) {
        config[0x0E] = 0;
        config[0x3D] &= 3;
        for at in (FIRST..256).step_by(4) {
            let value = random.number() as u8;
            config[at] = random.pick(&[MSI_ID, MSIX_ID, 0x01, 0x09, 0x10]);
            config[at + 1] = random.pick(&[0, 0, 0xFC, 0xE8, value]);
        }
    }
    let large = random.pick(&[7, 0xFFF, 0xFFFF]);
    let function = random.pick(&[0xFFF8, 0xFFFF]);
    Given {
        config,
        sizes: (0..6).map(|_| random.number() as u32).collect(),
        events: random.number() & large,
        requester: random.number() & function,
    }
}
