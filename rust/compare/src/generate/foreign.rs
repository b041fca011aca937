//! Images of other cards than that of the trial.

use crate::call::{Call, Given};
use crate::given::valid;
use crate::layout::{pending_bytes, table_bytes, Layout, Msi, EXTENDED_ENABLE};
use crate::random::Random;
use crate::second;
use crate::world::{World, CARD_BYTES, ROOM};

/// Where an image has the configuration.
const CONFIG_AT: usize = 38;

/// The image of another card that was started and used a little. Now and then
/// it is one from before 32-bit data could be enabled.
pub fn image(random: &mut Random) -> Vec<u8> {
    let given = valid(random);
    let layout = Layout::of_config(&given.config);
    let mut calls = vec![Call::Start(given.clone())];
    if let Some(msi) = layout.msi {
        calls.extend(msi_calls(random, &msi));
    }
    if let (Some(msix), true) = (layout.msix, random.once_in(2)) {
        calls.push(write(msix.at + 2, 2, 0x8000));
    }
    calls.extend((0..4).map(|_| Call::Event(random.below(4) as u64)));
    calls.push(Call::Line(1));
    let mut image = saved(&layout, &calls);
    if let (Some(msi), true) = (layout.msi, random.once_in(4)) {
        put_supplied(&mut image, &given, &msi);
    }
    image
}

/// Switches MSI on, with data of any bits.
fn msi_calls(random: &mut Random, msi: &Msi) -> [Call; 2] {
    let extended = random.pick(&[0, EXTENDED_ENABLE]);
    let enable = (random.below(8) << 4) as u16;
    let data = random.number() as u32;
    [
        write(msi.at + 2, 2, u32::from(1 | enable | extended)),
        write(msi.data(), 4, data),
    ]
}

/// The image of a card after these calls.
fn saved(layout: &Layout, calls: &[Call]) -> Vec<u8> {
    let mut world = World {
        card: vec![0; CARD_BYTES],
        table: vec![0; table_bytes(layout.vectors())],
        pending: vec![0; pending_bytes(layout.vectors())],
        out: vec![0; ROOM],
        ..World::default()
    };
    for call in calls {
        second::apply(&mut world, call, &[]);
    }
    let saved = second::apply(&mut world, &Call::Save(0), &[]);
    world.out.truncate(saved.count.unwrap_or(0));
    world.out
}

/// Gives bit 10 and the upper half of the data the values that the supplier
/// gave, which they keep while they are not writable.
fn put_supplied(image: &mut [u8], given: &Given, msi: &Msi) {
    let bit_10 = (EXTENDED_ENABLE >> 8) as u8;
    let control = &mut image[CONFIG_AT + msi.at + 3];
    *control = *control & !bit_10 | given.config[msi.at + 3] & bit_10;
    let upper = msi.data() + 2;
    image[CONFIG_AT + upper..][..2].copy_from_slice(&given.config[upper..upper + 2]);
}

fn write(offset: usize, width: u64, value: u32) -> Call {
    Call::ConfigWrite {
        offset: offset as u64,
        width,
        value,
    }
}
