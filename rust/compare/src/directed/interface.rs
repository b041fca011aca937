//! What the C interface adds to document 01: cards with any flags, and numbers
//! wider than their fields. Wide numbers of starts are with the starts.

use super::{wider, Run, Trial};
use crate::call::{Call, Damage, Given};
use crate::given::{plain, put_list, MSI_ID, PLAIN_MSI, PLAIN_MSIX, PLAIN_PENDING, PLAIN_TABLE};
use crate::run::Runner;
use crate::world::Part;

pub fn run(runner: &mut Runner<'_>) -> Run {
    flags(runner)?;
    flags_of_restores(runner)?;
    flags_of_starts(runner)?;
    wide_config_accesses(runner)?;
    wide_bar_accesses(runner)?;
    wide_events(runner)?;
    levels(runner)
}

/// Every flags byte for each call, and beside a wrong length of the card.
fn flags(runner: &mut Runner<'_>) -> Run {
    let mut trial = Trial::start(&plain(1, None, Some(1)));
    trial.write(0x04, 2, 6);
    let world = trial.world();
    trial.call(Call::Save(7));
    for flags in 0..=255 {
        trial.byte(Part::Card, 0, flags).each_call();
        trial.put_all_back(&world);
        for length in [1, 288, 290] {
            trial.length(Part::Card, length).byte(Part::Card, 0, flags);
            trial.each_call().restore(7, &[]);
            trial.restore(7, &[Damage::Length(0)]);
            trial.call(Call::Start(plain(1, None, Some(1))));
            trial.put_all_back(&world);
        }
    }
    trial.run(runner, "flags")
}

/// Every flags byte under each kind of restore.
fn flags_of_restores(runner: &mut Runner<'_>) -> Run {
    let mut trial = Trial::start(&plain(1, None, Some(1)));
    let world = trial.world();
    trial.call(Call::Save(0));
    for flags in 0..=255 {
        for damage in [
            Damage::Byte(0, 0),
            Damage::Length(293),
            Damage::Byte(3, 2),
            Damage::Byte(5, flags),
            Damage::Length(294),
        ] {
            trial.byte(Part::Card, 0, flags).restore(0, &[damage]);
        }
        trial.byte(Part::Card, 0, flags).length(Part::Table, 17);
        trial.restore(0, &[]).put_all_back(&world);
        trial.byte(Part::Card, 0, flags).restore(0, &[]);
        trial.read(0x04, 4);
    }
    trial.run(runner, "flags of restores")
}

/// Every flags byte under an accepted start and one of each refusal.
fn flags_of_starts(runner: &mut Runner<'_>) -> Run {
    let good = plain(1, None, Some(1));
    let mut trial = Trial::start(&good);
    for flags in 0..=255 {
        for given in refused_starts() {
            trial.byte(Part::Card, 0, flags).call(Call::Start(given));
        }
        trial.byte(Part::Card, 0, flags);
        trial.call(Call::Start(good.clone())).read(0x04, 4);
    }
    trial.run(runner, "flags of starts")
}

/// Starts that are refused with 10 to 17 and 60, over buffers for one vector.
fn refused_starts() -> Vec<Given> {
    let changed = |change: &dyn Fn(&mut Given)| {
        let mut given = plain(1, None, Some(1));
        change(&mut given);
        given
    };
    vec![
        changed(&|given| given.config[0x3D] = 5),
        changed(&|given| given.config[0x34] = 0x3C),
        changed(&|given| put_list(&mut given.config, &[(0x40, MSI_ID), (0x80, MSI_ID)])),
        plain(1, Some(6 << 1), None),
        changed(&|given| given.sizes = vec![0; 6]),
        changed(&|given| given.events = 0),
        changed(&|given| given.requester = 1),
        plain(1, None, Some(2)),
        changed(&|given| given.config.truncate(255)),
        changed(&|given| given.sizes.push(0)),
    ]
}

/// Wide offsets and widths of configuration accesses.
fn wide_config_accesses(runner: &mut Runner<'_>) -> Run {
    let mut trial = Trial::start(&plain(1, Some(0x184), Some(65)));
    for offset in [0, 0x04, 0x3C, 0xFC] {
        for width in [1, 2, 4] {
            let offsets = wider(offset).map(|offset| (offset, width));
            let widths = wider(width).map(|width| (offset, width));
            for (offset, width) in offsets.chain(widths) {
                trial.call(Call::ConfigRead { offset, width });
                let value = 0xFFFF_FFFF;
                trial.call(Call::ConfigWrite {
                    offset,
                    width,
                    value,
                });
            }
        }
    }
    trial.run(runner, "wide configuration accesses")
}

/// Wide BARs, offsets and widths of BAR accesses, without and with memory
/// space.
fn wide_bar_accesses(runner: &mut Runner<'_>) -> Run {
    let mut trial = Trial::start(&plain(1, None, Some(65)));
    for (command, place) in [(0, PLAIN_TABLE), (2, PLAIN_TABLE), (2, PLAIN_PENDING)] {
        trial.write(0x04, 2, command);
        let (bar, offset) = (u64::from(place.bar), u64::from(place.offset));
        for width in [4, 8] {
            let bars = wider(bar).map(|bar| (bar, offset, width));
            let offsets = wider(offset).map(|offset| (bar, offset, width));
            let widths = wider(width).map(|width| (bar, offset, width));
            let last = (bar, 0_u64.wrapping_sub(width), width);
            for (bar, offset, width) in bars.chain(offsets).chain(widths).chain([last]) {
                trial.call(Call::BarRead { bar, offset, width });
                let value = 0xFEE0_1000;
                trial.call(Call::BarWrite {
                    bar,
                    offset,
                    width,
                    value,
                });
            }
        }
    }
    trial.run(runner, "wide BAR accesses")
}

/// Wide event numbers with the pin, MSI and MSI-X in force.
fn wide_events(runner: &mut Runner<'_>) -> Run {
    let mut trial = Trial::start(&plain(1, Some(0x184), Some(65)));
    for (msi, msix) in [(0, 0), (0x21, 0), (0, 0x8000)] {
        trial.write(PLAIN_MSI + 2, 2, msi);
        trial.write(PLAIN_MSIX + 2, 2, msix);
        for number in [0, 3, 64].into_iter().flat_map(wider) {
            trial.call(Call::Event(number));
        }
    }
    trial.run(runner, "wide event numbers")
}

/// Levels of which the low bits are 0.
fn levels(runner: &mut Runner<'_>) -> Run {
    let mut trial = Trial::start(&plain(1, None, None));
    for level in wider(0) {
        trial.tight(Call::Line(level)).read(0x04, 4);
        trial.tight(Call::Line(0));
    }
    trial.run(runner, "wide levels")
}
