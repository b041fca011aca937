//! Starts: lists, structures, regions, numbers and lengths.

use super::{wider, Run, Trial};
use crate::call::{Call, Given};
use crate::given::{
    plain, put_control, put_list, put_msix, FIRST, MSIX_ID, MSI_ID, PLAIN_MSIX, PLAIN_PENDING,
    PLAIN_TABLE,
};
use crate::layout::{pending_bytes, table_bytes, Place};
use crate::run::Runner;
use crate::world::{Part, CARD_BYTES};

/// The control words of the four MSI forms, Capable 5.
const FORMS: [u16; 4] = [0x00A, 0x08A, 0x10A, 0x18A];

/// The places of capabilities.
fn places() -> impl Iterator<Item = usize> {
    (FIRST..256).step_by(4)
}

pub fn run(runner: &mut Runner<'_>) -> Run {
    header(runner)?;
    list_lengths(runner)?;
    list_pointers(runner)?;
    twice(runner)?;
    structures(runner)?;
    regions(runner)?;
    numbers(runner)?;
    wide_numbers(runner)?;
    wide_requesters(runner)?;
    lengths(runner)
}

/// Starts each of these, and reads a word of each.
fn start_all(runner: &mut Runner<'_>, name: &str, all: impl IntoIterator<Item = Given>) -> Run {
    let mut trial = Trial::default();
    for given in all {
        trial.then_start(&given).read(0x04, 4).event(0);
    }
    trial.run(runner, name)
}

fn header(runner: &mut Runner<'_>) -> Run {
    let change = |at: usize, value: u8| {
        let mut given = plain(0, Some(FORMS[3]), None);
        given.config[at] = value;
        given
    };
    start_all(
        runner,
        "header type",
        (0..=255).map(|value| change(0x0E, value)),
    )?;
    start_all(runner, "pin", (0..=255).map(|value| change(0x3D, value)))
}

/// Lists of 0 to 48 capabilities, and loops over them.
fn list_lengths(runner: &mut Runner<'_>) -> Run {
    let mut all = Vec::new();
    for count in 0..=48 {
        let list: Vec<(usize, u8)> = places().take(count).map(|at| (at, 0x09)).collect();
        let mut given = plain(1, None, None);
        put_list(&mut given.config, &list);
        all.push(given.clone());
        if count > 0 {
            given.config[list[count - 1].0 + 1] = list[count / 2].0 as u8;
            all.push(given);
        }
    }
    start_all(runner, "lengths of lists", all)
}

/// Every value of the first pointer and of a later one.
fn list_pointers(runner: &mut Runner<'_>) -> Run {
    for at in [0x34, 0x51] {
        let all = (0..=255).map(|value| {
            let mut given = plain(1, Some(FORMS[1]), Some(2));
            given.config[at] = value;
            given
        });
        start_all(runner, "pointers", all)?;
    }
    Ok(())
}

/// IDs listed twice, in a list without and with room for the structures.
fn twice(runner: &mut Runner<'_>) -> Run {
    let mut all = Vec::new();
    for (first, second) in [
        (MSI_ID, MSI_ID),
        (MSIX_ID, MSIX_ID),
        (MSI_ID, MSIX_ID),
        (0x09, 0x09),
    ] {
        for (a, b) in [(0x40, 0x80), (0x80, 0x40), (0x40, 0x44), (0xFC, 0xF8)] {
            let mut given = plain(1, None, None);
            given.events = 1;
            put_list(&mut given.config, &[(a, first), (b, second)]);
            all.push(given);
        }
    }
    start_all(runner, "IDs listed twice", all)
}

/// Every place of a structure, alone, beside the other one and beside another
/// header.
fn structures(runner: &mut Runner<'_>) -> Run {
    for control in FORMS.into_iter().flat_map(|form| [form, form | 0x200]) {
        let mut all = Vec::new();
        for at in places() {
            all.push(msi_and_msix(control, at, 0x80));
            all.push(msi_and_msix(control, at, 0xF4));
            all.push(msi_and_other(control, at, 0x90));
            all.push(msi_and_other(control, 0x90, at));
        }
        start_all(runner, "places of structures", all)?;
    }
    let capable = (0..8).flat_map(|capable| {
        FORMS.map(|control| plain(1, Some(control & !0x0E | capable << 1), None))
    });
    start_all(runner, "Multiple Message Capable", capable)?;
    let msix = places().flat_map(|at| places().map(move |other| msix_and_other(at, other)));
    start_all(runner, "places of MSI-X", msix)
}

/// Writes the MSI-X structure at a place, as far as it is inside the
/// configuration.
fn msix_at(given: &mut Given, at: usize) {
    let mut config = given.config.clone();
    config.resize(256 + 12, 0);
    put_msix(&mut config, at, 2, PLAIN_TABLE, PLAIN_PENDING);
    config.truncate(256);
    given.config = config;
    given.events = 2;
}

fn msi_and_msix(control: u16, msi: usize, msix: usize) -> Given {
    let mut given = plain(1, None, None);
    msix_at(&mut given, msix);
    put_control(&mut given.config, msi, control);
    if msi == msix {
        put_list(&mut given.config, &[(msi, MSI_ID)]);
    } else {
        put_list(&mut given.config, &[(msi, MSI_ID), (msix, MSIX_ID)]);
    }
    given
}

fn msi_and_other(control: u16, msi: usize, other: usize) -> Given {
    let mut given = plain(1, None, None);
    let list = [(other, 0x01), (msi, MSI_ID)];
    let from = usize::from(msi == other);
    put_list(&mut given.config, &list[from..]);
    put_control(&mut given.config, msi, control);
    given
}

fn msix_and_other(msix: usize, other: usize) -> Given {
    let mut given = plain(1, None, None);
    msix_at(&mut given, msix);
    let list = [(msix, MSIX_ID), (other, 0x09)];
    let count = if msix == other { 1 } else { 2 };
    put_list(&mut given.config, &list[..count]);
    given
}

/// Regions that touch, overlap, and end at, before or behind the BAR's end.
fn regions(runner: &mut Runner<'_>) -> Run {
    for vectors in [1, 63, 64, 65, 2048] {
        let (long, short) = (table_bytes(vectors) as u32, pending_bytes(vectors) as u32);
        let table = PLAIN_TABLE.offset;
        let mut all = Vec::new();
        for step in 0..5 {
            let before = (table - short - 16) + 8 * step;
            let behind = (table + long - 16) + 8 * step;
            for offset in [before, behind, table, table + 8] {
                for bar in [PLAIN_TABLE.bar, 3] {
                    all.push(region(vectors, PLAIN_TABLE, Place { bar, offset }));
                }
            }
        }
        for less in 0..18 {
            let mut given = plain(1, None, Some(vectors));
            given.sizes = vec![table + long - less + 1; 6];
            all.push(given);
            let pending = Place {
                bar: 4,
                offset: 0x40,
            };
            let mut given = region(vectors, PLAIN_TABLE, pending);
            given.sizes[4] = 0x40 + short - less + 1;
            all.push(given);
        }
        start_all(runner, "regions", all)?;
        start_all(runner, "regions at the end", end_regions(vectors))?;
    }
    let bars = (0..64).map(|i| {
        let table = Place {
            bar: i % 8,
            offset: 0x100,
        };
        let pending = Place {
            bar: i / 8,
            offset: 0x400,
        };
        region(2, table, pending)
    });
    start_all(runner, "BIR", bars)
}

fn region(vectors: usize, table: Place, pending: Place) -> Given {
    let mut given = plain(1, None, Some(vectors));
    put_msix(&mut given.config, PLAIN_MSIX, vectors, table, pending);
    given
}

/// Regions near 4 GiB, whose end may pass it.
fn end_regions(vectors: usize) -> Vec<Given> {
    let mut all = Vec::new();
    for length in [table_bytes(vectors) as u32, pending_bytes(vectors) as u32] {
        for step in 0..6 {
            for size in [u32::MAX, u32::MAX - 7, 8, 0] {
                let high = Place {
                    bar: 1,
                    offset: (0u32.wrapping_sub(length + 24) & !7).wrapping_add(8 * step),
                };
                let low = Place { bar: 0, offset: 0 };
                for (table, pending) in [(high, low), (low, high), (high, high)] {
                    let mut given = region(vectors, table, pending);
                    given.sizes[1] = size;
                    all.push(given);
                }
            }
        }
    }
    all
}

/// Event counts, requesters and sizes.
fn numbers(runner: &mut Runner<'_>) -> Run {
    let mut all = Vec::new();
    for vectors in [None, Some(1), Some(64), Some(2048)] {
        for events in [0, 1, 2, 63, 64, 65, 2047, 2048, 2049, 0x8000, 0xFFFF] {
            let mut given = plain(1, None, vectors);
            given.events = events;
            all.push(given);
        }
    }
    for requester in (0..16).chain([0xFFF8, 0xFFFF]) {
        let mut given = plain(1, None, None);
        given.requester = requester;
        all.push(given);
    }
    start_all(runner, "numbers", all)
}

/// Event counts and requesters wider than 16 bits, alone and beside other
/// faults.
fn wide_numbers(runner: &mut Runner<'_>) -> Run {
    let mut all = Vec::new();
    for vectors in [None, Some(1), Some(64), Some(2048)] {
        let given = plain(1, None, vectors);
        for events in wider(given.events) {
            let given = Given {
                events,
                ..given.clone()
            };
            all.push(given.clone());
            all.push(Given {
                requester: 1 << 16,
                ..given.clone()
            });
            all.push(Given {
                sizes: vec![0; 6],
                ..given
            });
        }
    }
    for requester in [0, 0x0100, 0xFFF8].into_iter().flat_map(wider) {
        let given = Given {
            requester,
            ..plain(1, None, Some(2))
        };
        all.push(given.clone());
        all.push(Given { events: 0, ..given });
    }
    start_all(runner, "wide numbers", all)
}

/// Wide requesters over a table buffer of another length.
fn wide_requesters(runner: &mut Runner<'_>) -> Run {
    let given = plain(1, None, Some(2));
    let mut trial = Trial::start(&given);
    trial.length(Part::Table, 16);
    for requester in wider(given.requester) {
        trial.call(Call::Start(Given {
            requester,
            ..given.clone()
        }));
    }
    trial.run(runner, "wide requesters")
}

/// Lengths of card, configuration, sizes, table and pending array.
fn lengths(runner: &mut Runner<'_>) -> Run {
    let mut trial = Trial::default();
    for vectors in [None, Some(1), Some(65)] {
        let given = plain(1, Some(FORMS[0]), vectors);
        for (part, right) in [
            (Part::Card, CARD_BYTES),
            (Part::Table, table_bytes(vectors.unwrap_or(0))),
            (Part::Pending, pending_bytes(vectors.unwrap_or(0))),
        ] {
            for length in [
                0,
                1,
                7,
                8,
                15,
                16,
                17,
                288,
                290,
                right + 1,
                right + 8,
                right * 2,
            ] {
                trial.then_start(&given);
                let start = trial.0.pop().expect("the start");
                trial.length(part, length).step(start).each_call();
                trial.restore(0, &[]);
            }
        }
        for length in [0, 1, 255, 257, 512] {
            let mut given = given.clone();
            given.config.resize(length, 0);
            trial.then_start(&plain(1, None, None)).then_start(&given);
        }
        for length in [0, 1, 5, 7, 12] {
            let mut given = given.clone();
            given.sizes.resize(length, 0x10_0000);
            trial.then_start(&plain(1, None, None)).then_start(&given);
        }
    }
    trial.run(runner, "lengths")
}
