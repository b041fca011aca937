//! 32-bit MSI data: control bits 9 and 10, Extended Message Data Capable and
//! Enable, and both halves of the data.

use super::{write, Run, Trial};
use crate::call::{Call, Damage, Given};
use crate::given::{plain, PLAIN_MSI, PLAIN_MSIX};
use crate::layout::{Msi, EXTENDED_CAPABLE, EXTENDED_ENABLE};
use crate::run::Runner;

/// The control words of the four MSI forms, Capable 0.
const FORMS: [u16; 4] = [0x000, 0x080, 0x100, 0x180];
/// Bits 9 and 10 as suppliers give them.
const SUPPLIED: [u16; 4] = [
    0,
    EXTENDED_CAPABLE,
    EXTENDED_ENABLE,
    EXTENDED_CAPABLE | EXTENDED_ENABLE,
];
/// Bit 10 in a write of the control register.
const ENABLE: u32 = EXTENDED_ENABLE as u32;
/// Where an image has the configuration.
const IMAGE_CONFIG: usize = 38;

pub fn run(runner: &mut Runner<'_>) -> Run {
    for form in FORMS {
        for supplied in SUPPLIED {
            example(runner, form | supplied)?;
            registers(runner, form | supplied)?;
            data_bits(runner, form | supplied)?;
            resets(runner, form | supplied)?;
            supplied_images(runner, form | supplied)?;
        }
        for capable in 0..6 {
            for enable in 0..8 {
                releases(runner, form | EXTENDED_CAPABLE | capable << 1, enable)?;
            }
        }
        mode_changes(runner, form | EXTENDED_CAPABLE)?;
    }
    Ok(())
}

/// The MSI capability of a plain card with this control word.
fn msi(control: u16) -> Msi {
    Msi {
        at: PLAIN_MSI,
        control,
    }
}

/// A plain card with this control word. Its supplier set every bit behind it.
fn ones(control: u16) -> Given {
    let mut given = plain(1, Some(control), Some(2));
    given.config[PLAIN_MSI + 4..PLAIN_MSI + 0x1C].fill(0xFF);
    given
}

/// Address FEE00000h, data ABCD49A3h, Enable 2, and event 1; bit 10 is then
/// turned over by writes of each width.
fn example(runner: &mut Runner<'_>, control: u16) -> Run {
    let msi = msi(control | 2 << 1);
    let mut trial = Trial::start(&plain(1, Some(msi.control), None));
    trial
        .write(0x04, 2, 4)
        .write(msi.at + 4, 4, 0xFEE0_0000)
        .write(msi.data(), 4, 0xABCD_49A3);
    for on in [0x21 | ENABLE, 0x21] {
        for call in [
            write(msi.at + 2, 2, on),
            write(msi.at + 3, 1, (ENABLE ^ on) >> 8),
            write(msi.at, 4, on << 16),
            write(msi.at + 3, 1, (ENABLE ^ on) >> 8),
        ] {
            trial.tight(call).read(msi.at, 4).tight(Call::Event(1));
        }
    }
    trial.run(runner, "32-bit data: example")
}

/// Every aligned write of a byte, two or four into the structure, of ones, of
/// zeros and of a pattern.
fn registers(runner: &mut Runner<'_>, control: u16) -> Run {
    let mut trial = Trial::start(&ones(control | 3 << 1));
    trial.read_all();
    for value in [u32::MAX, 0, 0xA5A5_5A5A, u32::MAX, 0x5A5A_A5A5] {
        for width in [1, 2, 4] {
            for offset in (PLAIN_MSI..PLAIN_MSI + 0x1C).step_by(width) {
                trial.write(offset, width as u64, value);
                trial.read(offset & !3, 4).read(offset, width as u64);
            }
        }
    }
    trial.tight(Call::Reset).read_all();
    trial.run(runner, "32-bit data: registers")
}

/// Each bit of the data alone, and all but each, with bit 10 on and off.
fn data_bits(runner: &mut Runner<'_>, control: u16) -> Run {
    let msi = msi(control | 5 << 1);
    let mut trial = Trial::start(&plain(1, Some(msi.control), None));
    trial.write(0x04, 2, 4).write(msi.at + 2, 2, 0x51);
    for bit in 0..32 {
        for data in [1 << bit, !(1 << bit)] {
            for on in [0x51 | ENABLE, 0x51] {
                trial.write(msi.data(), 4, data).write(msi.at + 2, 2, on);
                trial.event(0).event(31).event(bit);
            }
        }
    }
    trial.run(runner, "32-bit data: bits of the data")
}

/// A start and a reset with bit 10 and the data set and clear, saved before and
/// restored behind it.
fn resets(runner: &mut Runner<'_>, control: u16) -> Run {
    let msi = msi(control | 2 << 1);
    let mut trial = Trial::start(&ones(msi.control));
    trial.read_all().tight(Call::Reset).read_all();
    for on in [ENABLE, 0x21 | ENABLE, 0x21, 0] {
        for data in [u32::MAX, 0xFFFF_0000, 0xFFFF, 0] {
            trial
                .write(msi.data(), 4, data)
                .write(msi.at + 2, 2, on)
                .event(1)
                .tight(Call::Save(0))
                .line(1)
                .tight(Call::Reset)
                .read(msi.at, 4)
                .read(msi.data(), 4)
                .tight(Call::Save(1))
                .restore(0, &[])
                .read(msi.at, 4)
                .tight(write(0x04, 2, 4))
                .restore(1, &[])
                .read(msi.data(), 4);
        }
    }
    trial.run(runner, "32-bit data: starts and resets")
}

/// Images in which bits 9 and 10 and the upper half stand in any way, with a
/// vector that waits and is then sent.
fn supplied_images(runner: &mut Runner<'_>, control: u16) -> Run {
    let msi = msi(control | 1 << 1);
    let mut trial = Trial::start(&plain(1, Some(msi.control), None));
    trial
        .write(msi.data(), 4, 0x1234_5678)
        .write(msi.at + 2, 2, 0x11)
        .event(1)
        .call(Call::Save(0));
    let [_, high] = msi.control.to_le_bytes();
    let upper = IMAGE_CONFIG + msi.data() + 2;
    for bits in SUPPLIED {
        let high = high & !0x06 | (bits >> 8) as u8;
        for half in [[0, 0], [0xFF, 0xFF], [0xCD, 0xAB]] {
            let damage = [
                Damage::Byte(IMAGE_CONFIG + msi.at + 3, high),
                Damage::Byte(upper, half[0]),
                Damage::Byte(upper + 1, half[1]),
            ];
            trial
                .restore(0, &damage)
                .read(msi.at, 4)
                .tight(Call::Save(1));
            trial.tight(write(0x04, 2, 4)).tight(Call::Event(0));
            trial.write(msi.data() + 2, 2, 0x9999).tight(Call::Event(1));
            trial.tight(Call::Reset).restore(1, &[]);
        }
    }
    trial.run(runner, "32-bit data: images")
}

/// Vectors that wait and are released by each way, with data near 2^32.
fn releases(runner: &mut Runner<'_>, control: u16, enable: u32) -> Run {
    let (at, msi) = (PLAIN_MSI, msi(control));
    let mut trial = Trial::start(&plain(1, Some(control), None));
    trial.write(at + 4, 4, 0xFEE0_0FFF).line(1);
    if msi.is_64_bit() {
        trial.write(at + 8, 4, 0xABCD);
    }
    let events = [0, 1, 5, 16, 31];
    for data in [u32::MAX, 0x8000_0000] {
        trial.write(msi.data(), 4, data);
        for extended in [ENABLE, 0] {
            let on = 1 | enable << 4 | extended;
            // By bus mastering.
            trial.write(0x04, 2, 0).write(at + 2, 2, on).events(&events);
            trial.tight(write(0x04, 2, 4)).events(&events);
            // By the write that sets bit 10 as it is sent.
            trial.write(0x04, 2, 0).events(&events);
            trial.write(at + 2, 2, 0).write(0x04, 2, 4);
            trial.tight(write(at + 2, 2, on));
            if msi.has_masks() {
                trial.write(msi.mask(), 4, u32::MAX).events(&events);
                trial.tight(write(msi.mask(), 4, 0xFFFF_0F0F));
                trial.tight(write(msi.mask(), 4, 0));
            }
        }
    }
    trial.run(runner, "32-bit data: releases")
}

/// Bit 10 and the data are written while the pin or MSI-X is in force.
fn mode_changes(runner: &mut Runner<'_>, control: u16) -> Run {
    let msi = msi(control | 1 << 1);
    let mut trial = Trial::start(&plain(2, Some(msi.control), Some(2)));
    trial.write(0x04, 2, 6).line(1);
    for vector in 0..2 {
        trial.entry(vector, 0, 0x8765_4320, false);
    }
    for msix in [0, 0x8000, 0xC000, 0] {
        for on in [0, ENABLE, 0x11 | ENABLE, 0x11, ENABLE, 0] {
            trial.tight(write(PLAIN_MSIX + 2, 2, msix));
            trial.write(msi.data() + 2, 2, 0xFEDC);
            trial.tight(write(msi.at + 2, 2, on)).event(0).event(1);
            trial.write(msi.data() + 2, 2, 0x0123).event(1);
            trial.tight(write(PLAIN_MSIX + 2, 2, 0)).event(0);
        }
    }
    trial.run(runner, "32-bit data: mode changes")
}
