//! Registers, events, releases and the wire.

use super::{bar_write, write, Run, Trial};
use crate::call::Call;
use crate::given::{plain, PLAIN_MSI, PLAIN_MSIX, PLAIN_PENDING, PLAIN_TABLE};
use crate::layout::{Msi, Place};
use crate::run::Runner;

/// The control words of the four MSI forms, Capable 0.
const FORMS: [u16; 4] = [0x000, 0x080, 0x100, 0x180];

pub fn run(runner: &mut Runner<'_>) -> Run {
    bench_cases(runner)?;
    registers(runner)?;
    bar_accesses(runner)?;
    msi(runner)?;
    for vectors in [1, 63, 64, 65, 2048] {
        msix(runner, vectors, |vector| vector % 3)?;
        msix(runner, vectors, |_| 1)?;
    }
    mode_changes(runner)?;
    wire(runner)
}

/// The bench cases of document 01.
fn bench_cases(runner: &mut Runner<'_>) -> Run {
    for form in FORMS {
        let msi = Msi {
            at: PLAIN_MSI,
            control: form | 3 << 1,
        };
        for (data, enable, number) in [(0x49A0, 2, 1), (0x49A3, 2, 1), (0x49A0, 2, 5), (0x40, 3, 5)]
        {
            Trial::start(&plain(1, Some(msi.control), None))
                .write(0x04, 2, 4)
                .write(msi.at + 4, 4, 0xFEE0_0000)
                .write(msi.data(), 2, data)
                .write(msi.at + 2, 2, 1 | enable << 4)
                .tight(Call::Event(number))
                .run(runner, "bench cases 1 to 4 and 12")?;
        }
    }
    Trial::start(&plain(1, None, Some(16)))
        .write(0x04, 2, 6)
        .entry(3, 1, 0x31, false)
        .write(PLAIN_MSIX + 2, 2, 0x8000)
        .tight(Call::Event(3))
        .entry(3, 1, 0x31, true)
        .event(3)
        .event(3)
        .tight(bar_write(PLAIN_TABLE, 60, 4, 0))
        .write(PLAIN_MSIX + 2, 2, 0xC000)
        .entry(9, 0, 9, false)
        .entry(2, 0, 2, false)
        .event(9)
        .event(2)
        .tight(write(PLAIN_MSIX + 2, 2, 0x8000))
        .write(0x04, 2, 2)
        .event(2)
        .tight(write(0x04, 2, 6))
        .write(0x04, 2, 2)
        .event(9)
        .write(PLAIN_MSIX + 2, 2, 0)
        .write(0x04, 2, 6)
        .tight(Call::Line(1))
        .tight(write(PLAIN_MSIX + 2, 2, 0x8000))
        .event(15)
        .event(16)
        .run(runner, "bench cases 5 to 10 and 12")?;
    let mut zero = plain(0, None, None);
    zero.sizes = vec![0; 6];
    zero.events = 1;
    Trial::start(&zero)
        .tight(Call::Save(0))
        .restore(0, &[])
        .run(runner, "bench case 11")
}

/// Every offset and width, for each form, on bytes that are all ones.
fn registers(runner: &mut Runner<'_>) -> Run {
    for form in FORMS {
        for capable in [0, 3, 5] {
            let mut given = plain(1, Some(form | capable << 1), Some(2));
            for at in (PLAIN_MSI + 4..PLAIN_MSI + 0x1C).chain([0x04, 0x05, 0x07, 0x3C]) {
                given.config[at] = 0xFF;
            }
            given.config[0x06] = 0xFF;
            let mut trial = Trial::start(&given);
            trial.read_all();
            for width in 0..10 {
                for offset in 0..=260 {
                    trial.read(offset, width);
                    // The first of these switch nothing on.
                    trial.write(offset, width, if width < 3 { 0 } else { u32::MAX });
                }
            }
            trial.read_all();
            for offset in 0..256 {
                trial.write(offset, 1, 0xFFFF_FFFF).read(offset, 1);
                trial
                    .write(offset & !1, 2, 0xA5A5_5A5A)
                    .read(offset & !1, 2);
            }
            trial.read_all().read(0xFFFC, 4).write(0xFFFC, 4, 0);
            trial.run(runner, "configuration registers")?;
        }
    }
    Ok(())
}

/// BAR accesses inside, at the edges and outside, of every width and BAR.
fn bar_accesses(runner: &mut Runner<'_>) -> Run {
    for vectors in [1_usize, 65] {
        let table_end = 16 * vectors as u32;
        let pending_end = 8 * vectors.div_ceil(64) as u32;
        let mut trial = Trial::start(&plain(1, None, Some(vectors)));
        trial
            .bar_read(PLAIN_TABLE, 0, 4)
            .bar_read(PLAIN_TABLE, 0, 2);
        trial.call(bar_write(PLAIN_TABLE, 0, 4, 0));
        trial.write(0x04, 2, 2);
        for (place, end) in [(PLAIN_TABLE, table_end), (PLAIN_PENDING, pending_end)] {
            for offset in (0..24)
                .chain(end - 8..end + 9)
                .chain([0u32.wrapping_sub(8)])
            {
                for width in 0..17 {
                    trial.bar_read(place, offset, width);
                    trial.call(bar_write(place, offset, width, u64::MAX));
                }
            }
        }
        for bar in 0..=255 {
            let place = Place { bar, ..PLAIN_TABLE };
            trial.bar_read(place, 0, 4);
            trial.call(bar_write(place, 0, 4, 0xABCD_EF12));
        }
        trial
            .bar_read(PLAIN_TABLE, 0, 8)
            .bar_read(PLAIN_PENDING, 0, 8);
        trial.run(runner, "BAR accesses")?;
    }
    let mut trial = Trial::start(&plain(1, None, None));
    trial.write(0x04, 2, 2);
    trial
        .bar_read(PLAIN_TABLE, 0, 4)
        .bar_read(PLAIN_PENDING, 0, 8);
    trial.run(runner, "BAR accesses without MSI-X")
}

/// Each form, Capable and Enable: all events, held and released by each way.
fn msi(runner: &mut Runner<'_>) -> Run {
    for form in FORMS {
        for capable in 0..6 {
            for enable in 0..8 {
                msi_releases(runner, form | capable << 1, enable)?;
            }
        }
    }
    Ok(())
}

fn msi_releases(runner: &mut Runner<'_>, control: u16, enable: u32) -> Run {
    let at = PLAIN_MSI;
    let msi = Msi { at, control };
    let on = 1 | enable << 4;
    let mut trial = Trial::start(&plain(1, Some(control), None));
    trial
        .write(at + 4, 4, 0xFEE0_0FFF)
        .write(at + 8, 4, 0xABCD)
        .write(msi.data(), 2, 0x5A5F)
        .write(at + 2, 2, on)
        .line(1);
    let events = [0, 1, 2, 3, 5, 7, 8, 15, 16, 30, 31, 32];
    // Released by bus mastering.
    trial.events(&events);
    trial.read_all().tight(write(0x04, 2, 4));
    trial.events(&events);
    // Released by switching MSI on, with the wire active before.
    trial.write(0x04, 2, 0);
    trial.events(&events);
    trial.write(at + 2, 2, 0).write(0x04, 2, 4);
    trial.read_all().tight(write(at + 2, 2, on));
    // Released by the mask register, some at a time, and by Enable.
    if msi.has_masks() {
        trial.write(msi.mask(), 4, u32::MAX);
        trial.events(&events);
        trial.read_all();
        trial.tight(write(msi.mask(), 1, 0xFC));
        trial.tight(write(msi.mask(), 4, 0xFFFF_0F0F));
        trial.write(at + 2, 2, 0x01);
        trial.tight(write(msi.mask(), 4, 0));
        trial.tight(write(at + 2, 2, 0x71));
    } else {
        trial.write(0x04, 2, 0);
        trial.events(&events);
        trial.write(at + 2, 2, 0x01).tight(write(0x04, 2, 4));
        trial.tight(write(at + 2, 2, 0x71));
    }
    trial.call(Call::Save(0)).call(Call::Reset).restore(0, &[]);
    trial.read_all().run(runner, "MSI")
}

/// All vectors wait and are released by each way, with the wire active.
/// The upper addresses are given.
fn msix(runner: &mut Runner<'_>, vectors: usize, upper: fn(usize) -> usize) -> Run {
    let control = PLAIN_MSIX + 2;
    let mut trial = Trial::start(&plain(2, None, Some(vectors)));
    trial.write(0x04, 2, 6).write(control, 2, 0xC000);
    for vector in 0..vectors {
        trial.entry(vector, upper(vector) as u32, vector as u32, false);
    }
    let all = |trial: &mut Trial| {
        for vector in 0..vectors {
            trial.event(vectors - 1 - vector);
        }
        trial.event(0).event(vectors).read_bars();
    };
    // By Function Mask.
    all(&mut trial);
    trial.tight(write(control, 2, 0x8000)).read_bars();
    // By switching MSI-X on; the wire goes first.
    trial.write(control, 2, 0xC000);
    all(&mut trial);
    trial.write(control, 2, 0).line(1).call(Call::Save(0));
    trial.tight(write(control, 2, 0x8000)).read_bars();
    trial.restore(0, &[]).tight(write(control, 2, 0x8000));
    // By bus mastering.
    trial.write(0x04, 2, 2);
    all(&mut trial);
    trial.tight(write(0x04, 2, 6));
    // By the vectors' own masks.
    if vectors <= 65 {
        for vector in 0..vectors {
            let at = 16 * vector as u32 + 12;
            trial.call(bar_write(PLAIN_TABLE, at, 4, 1)).event(vector);
        }
        for vector in 0..vectors {
            let at = 16 * vector as u32;
            trial.call(bar_write(PLAIN_TABLE, at, 8, 0xFEE0_2003));
            trial.tight(bar_write(PLAIN_TABLE, at + 8, 8, 0xFFFF_FFFE_0000_0000));
        }
    }
    // The last one alone, and reset with waiting vectors.
    trial.write(control, 2, 0xC000).event(vectors - 1);
    trial.tight(write(control, 2, 0x8000));
    trial.write(0x04, 2, 2);
    all(&mut trial);
    trial
        .write(control, 2, 0)
        .tight(Call::Reset)
        .tight(Call::Save(1));
    trial.restore(0, &[]).restore(1, &[]);
    trial.run(runner, &format!("MSI-X with {vectors} vectors"))
}

/// Bits of MSI and MSI-X wait while the other is in force.
fn mode_changes(runner: &mut Runner<'_>) -> Run {
    let (msi, msix) = (PLAIN_MSI + 2, PLAIN_MSIX + 2);
    for form in FORMS {
        let mut trial = Trial::start(&plain(3, Some(form | 2 << 1), Some(4)));
        trial.write(0x04, 2, 2);
        for vector in 0..4 {
            trial.entry(vector, 0, 0x70, false);
        }
        let modes = [
            (0, 0),
            (0x21, 0),
            (0, 0x8000),
            (0x21, 0x8000),
            (0x01, 0xC000),
        ];
        for command in [2, 6, 0x402, 0x406, 2, 6] {
            for from in modes {
                for to in modes {
                    trial
                        .tight(write(msi, 2, from.0))
                        .tight(write(msix, 2, from.1));
                    trial.tight(write(0x04, 2, 2)).event(1).event(3).line(1);
                    trial.tight(write(msi, 2, to.0)).tight(write(msix, 2, to.1));
                    trial.event(2).tight(write(0x04, 2, command)).event(1);
                    trial.line(0).read(PLAIN_MSI + 0x10, 4).read_bars();
                }
            }
            trial.call(Call::Save(0)).tight(Call::Reset).restore(0, &[]);
        }
        trial.run(runner, "mode changes")?;
    }
    Ok(())
}

/// The wire under line, pin, Interrupt Disable and reset.
fn wire(runner: &mut Runner<'_>) -> Run {
    for pin in 0..=4 {
        let mut trial = Trial::start(&plain(pin, Some(0), Some(1)));
        for level in 0..=255 {
            trial.tight(Call::Line(level)).read(0x04, 4);
        }
        for (offset, bits) in [(0x04, 0x400), (PLAIN_MSI + 2, 1), (PLAIN_MSIX + 2, 0x8000)] {
            for level in [0, 1] {
                trial
                    .line(level)
                    .tight(write(offset, 2, bits))
                    .read(0x06, 1);
                trial.line(1 - level).line(level).tight(write(offset, 2, 0));
                trial.event(0);
            }
        }
        trial.tight(Call::Reset).tight(Call::Reset).read_all();
        trial.write(0x04, 2, 0x400).line(1).tight(Call::Reset);
        trial.run(runner, "wire")?;
    }
    Ok(())
}
