//! The checks at start, the registers, the bound of 40,976 and the refusals,
//! one by one.

mod common;

use common::*;
use second_model::*;

/// The refusal of a start with big BARs.
fn refusal(config: &[u8; 256], events: u64) -> u8 {
    Bench::start(config, &[0x10_0000; 6], events).1.refusal
}

#[test]
fn start_header_and_list() {
    let good = config_with(4, Some(0), None);
    assert_eq!(refusal(&good, 1), 0);
    let changed = |at: usize, value: u8| {
        let mut config = good;
        config[at] = value;
        refusal(&config, 1)
    };
    assert_eq!(changed(0x0E, 0x80), 0);
    assert_eq!(changed(0x0E, 0x01), 10);
    assert_eq!(changed(0x3D, 5), 10);
    assert_eq!(changed(0x34, 0x3F), 11);
    assert_eq!(changed(0x34, 0x03), 0);
    let mut interrupt_line = config_with(0, None, None);
    interrupt_line[0x06] = 0x10;
    interrupt_line[0x34] = 0x3C;
    assert_eq!(refusal(&interrupt_line, 1), 11);
    assert_eq!(changed(MSI + 1, 0x04), 11);
    assert_eq!(changed(MSI + 1, MSI as u8), 11);
    assert_eq!(changed(0x34, MSI as u8 | 3), 0);
    assert_eq!(changed(MSI + 2, 6 << 1), 13);
}

#[test]
fn start_accepts_48_capabilities() {
    let mut config = [0; 256];
    config[0x06] = 0x10;
    config[0x34] = 0x40;
    for at in (0x40..=0xFC).step_by(4) {
        config[at] = 0x09;
        config[at + 1] = if at == 0xFC { 0 } else { at as u8 + 4 };
    }
    assert_eq!(refusal(&config, 1), 0);
    config[0xFD] = 0x40;
    assert_eq!(refusal(&config, 1), 11);
    config[0xFD] = 0;
    config[0x40] = 0x05;
    assert_eq!(refusal(&config, 1), 13);
    config[0xFC] = 0x05;
    assert_eq!(refusal(&config, 1), 12);
}

/// A list with an MSI capability of this control word at `at`, and another
/// capability at `other`.
fn msi_and_other(control: u16, at: u8, other: u8) -> [u8; 256] {
    let mut config = [0; 256];
    config[0x06] = 0x10;
    config[0x34] = other;
    config[usize::from(other)] = 0x10;
    config[usize::from(other) + 1] = at;
    let at = usize::from(at);
    config[at] = 0x05;
    config[at + 2..at + 4].copy_from_slice(&control.to_le_bytes());
    config
}

#[test]
fn start_places_of_structures() {
    for (control, bytes) in [(0x000, 10u8), (0x080, 14), (0x100, 20), (0x180, 24)] {
        let after = 0x80 + bytes.div_ceil(4) * 4;
        assert_eq!(refusal(&msi_and_other(control, 0x80, after), 1), 0);
        assert_eq!(refusal(&msi_and_other(control, 0x80, after - 4), 1), 13);
        assert_eq!(refusal(&msi_and_other(control, 0x80, 0x7C), 1), 0);
        let last = (0u8.wrapping_sub(bytes)) & 0xFC;
        assert_eq!(refusal(&msi_and_other(control, last, 0x40), 1), 0);
        assert_eq!(refusal(&msi_and_other(control, last + 4, 0x40), 1), 13);
    }
}

#[test]
fn start_msix_regions() {
    let mut config = config_with(0, None, Some(65));
    let mut sizes = [0; 6];
    sizes[2] = TABLE_OFFSET as u32 + 16 * 65;
    let number = |config: &[u8; 256], sizes: &[u32; 6], e| Bench::start(config, sizes, e).1.refusal;
    assert_eq!(number(&config, &sizes, 65), 0);
    assert_eq!(number(&config, &sizes, 64), 15);
    config[MSIX + 4] = 6;
    assert_eq!(number(&config, &sizes, 65), 14);
    config[MSIX + 4] = 2;
    config[MSIX + 8] = 7;
    assert_eq!(number(&config, &sizes, 65), 14);
    // The pending array has 16 bytes: it may end at 1000h, but not behind it.
    config[MSIX + 8..MSIX + 10].copy_from_slice(&0x0FF2u16.to_le_bytes());
    assert_eq!(number(&config, &sizes, 65), 0);
    config[MSIX + 8..MSIX + 10].copy_from_slice(&0x0FFAu16.to_le_bytes());
    assert_eq!(number(&config, &sizes, 65), 14);
    config[MSIX + 8..MSIX + 10].copy_from_slice(&0x0FFBu16.to_le_bytes());
    sizes[3] = 0x1008;
    assert_eq!(number(&config, &sizes, 65), 0);
    sizes[3] = 0x1007;
    assert_eq!(number(&config, &sizes, 65), 14);
}

#[test]
fn start_numbers_and_buffers() {
    let config = [0; 256];
    for (events, expected) in [(0, 15), (1, 0), (2048, 0), (2049, 15), (0xFFFF, 15)] {
        assert_eq!(refusal(&config, events), expected);
    }
    let start_with = |requester, table: usize, pending: usize| {
        let (mut table, mut pending) = (vec![7; table], vec![7; pending]);
        start(&config, &[0; 6], 1, requester, &mut table, &mut pending).1
    };
    assert_eq!(start_with(0xFFF8, 0, 0).refusal, 0);
    assert_eq!(start_with(0x0104, 1, 0).refusal, 16);
    assert_eq!(start_with(0x0100, 1, 0).refusal, 17);
    assert_eq!(start_with(0x0100, 0, 8).refusal, 17);
}

/// Numbers that a cut to one of these numbers of bits makes `number`.
fn wider(number: u64, bits: &[u32]) -> Vec<u64> {
    let more = |&bits: &u32| [number + (1 << bits), number | u64::MAX << bits];
    bits.iter().flat_map(more).collect()
}

#[test]
fn wide_numbers_of_a_start() {
    for events in wider(3, &[16, 32]) {
        assert_eq!(refusal(&[0; 256], events), 15);
        assert_eq!(refusal(&config_with(0, None, Some(3)), events), 15);
    }
    let start_with = |events, requester, table: &mut [u8]| {
        let (card, outcome) = start(&[0; 256], &[0; 6], events, requester, table, &mut []);
        assert_eq!(card.events, 0);
        outcome.refusal
    };
    for requester in wider(0x0100, &[16, 32]) {
        assert_eq!(start_with(1, requester, &mut []), 16);
        assert_eq!(start_with(0, requester, &mut []), 15);
        assert_eq!(start_with(1, requester, &mut [0]), 16);
    }
}

#[test]
fn wide_numbers_of_accesses() {
    let mut bench = Bench::started(&config_with(0, None, Some(65)), 65);
    bench.write(0x04, 2, 2);
    let before = bench.clone();
    for width in wider(4, &[8, 16, 32]) {
        assert_eq!(bench.read(0, width).refusal, 3);
        assert_eq!(bench.write(0x04, width, 0).refusal, 3);
        assert_eq!(bench.bar_read(TABLE_BAR, TABLE_OFFSET, width).refusal, 4);
        let write = bench.bar_write(TABLE_BAR, TABLE_OFFSET, width, 4);
        assert_eq!(write.refusal, 4);
    }
    for offset in wider(0x04, &[8, 16, 32]) {
        assert_eq!(bench.read(offset as usize, 4).refusal, 3);
        assert_eq!(bench.write(offset as usize, 4, 0).refusal, 3);
    }
    for (bar, offset) in wider(TABLE_BAR, &[8, 16, 32])
        .into_iter()
        .map(|bar| (bar, TABLE_OFFSET))
        .chain(
            wider(TABLE_OFFSET, &[32])
                .into_iter()
                .map(|at| (TABLE_BAR, at)),
        )
        .chain(wider(0, &[32]).into_iter().map(|at| (PENDING_BAR, at)))
        .chain([(TABLE_BAR, u64::MAX - 7)])
    {
        assert_eq!(bench.bar_read(bar, offset, 8).refusal, 4);
        assert_eq!(bench.bar_write(bar, offset, 8, 4).refusal, 4);
    }
    assert_eq!(bench, before);
}

#[test]
fn wide_event_numbers() {
    let mut bench = Bench::started(&config_with(0, None, Some(65)), 65);
    bench.write(MSIX + 2, 2, 0x8000);
    let before = bench.clone();
    for number in wider(3, &[8, 16, 32]) {
        assert_eq!(bench.event(number).refusal, 2);
    }
    assert_eq!(bench, before);
    assert_eq!(bench.event(3).answer, Some(Answer::Held));
}

/// The writable bits of the MSI words behind the first one, for Capable 2.
fn msi_writable(form: u16, at: usize) -> u32 {
    match (form, at) {
        (_, 0x04) => 0xFFFF_FFFC,
        (0x080 | 0x180, 0x08) => 0xFFFF_FFFF,
        (0x000 | 0x100, 0x08) | (0x080 | 0x180, 0x0C) => 0xFFFF,
        (0x100, 0x0C) | (0x180, 0x10) => 0xF,
        _ => 0,
    }
}

#[test]
fn writable_bits_of_the_configuration() {
    for form in [0x000, 0x080, 0x100, 0x180] {
        let mut config = config_with(0, Some(form | 2 << 1), Some(2));
        config[0x04] = 0xFF;
        config[0x07] = 0x08;
        let mut bench = Bench::started(&config, 2);
        let before = bench.clone();
        for at in (0..256).step_by(4) {
            assert_eq!(bench.write(at, 4, u32::MAX).refusal, 0);
        }
        for at in (0..256).step_by(4) {
            let expected = match at {
                0x04 => 0x0406,
                0x3C => 0xFF,
                MSI => 0x0071_0000,
                MSIX => 0xC000_0000,
                _ => msi_writable(form, at.wrapping_sub(MSI)),
            };
            let (old, new) = (before.read(at, 4).value, bench.read(at, 4).value);
            assert_eq!(new, old | u64::from(expected), "form {form:x} at {at:x}");
            assert_eq!(old & u64::from(expected), 0);
        }
    }
}

#[test]
fn shown_bits_of_the_configuration() {
    let mut config = config_with(0, Some(0x184), None);
    config[0x06] |= 0x08;
    config[MSI + 0x14..MSI + 0x18].fill(0xFF);
    config[MSI + 0x10..MSI + 0x14].fill(0xFF);
    let mut bench = Bench::started(&config, 4);
    assert_eq!(bench.read(0x06, 1).value, 0x10);
    assert_eq!(bench.read(MSI + 0x14, 4).value, 0);
    assert_eq!(bench.read(MSI + 0x10, 4).value, 0);
    bench.write(0x04, 2, 1 << 10);
    assert_eq!(bench.line(true).count, 0);
    assert_eq!(bench.read(0x04, 4).value, 0x0018_0400);
    bench.write(MSI + 2, 2, 0x21);
    assert_eq!(bench.event(2).answer, Some(Answer::Held));
    assert_eq!(bench.event(3).answer, Some(Answer::Held));
    assert_eq!(bench.read(MSI + 0x14, 4).value, 0x0C);
    assert_eq!(bench.card.config[MSI + 0x14], 0);
    // Fewer granted vectors: the waiting bits stay, and send later.
    bench.write(MSI + 2, 2, 0x01);
    assert_eq!(bench.write(0x04, 2, 4).count, 0);
    bench.write(MSI + 0x0C, 2, 0xFFF0);
    assert_eq!(bench.write(MSI + 2, 2, 0x71).count, 32);
    assert_eq!(bench.out[12..16], [0xF2, 0xFF, 0, 0]);
    assert_eq!(bench.out[28..32], [0xF3, 0xFF, 0, 0]);
    assert_eq!(bench.read(MSI + 2, 2).value, 0x1F5);
}

#[test]
fn bar_places() {
    let mut bench = Bench::started(&config_with(0, None, Some(65)), 65);
    let end = TABLE_OFFSET + 16 * 65;
    assert_eq!(bench.bar_read(TABLE_BAR, end, 4).refusal, 4);
    assert_eq!(bench.bar_read(TABLE_BAR, end - 4, 4).refusal, 5);
    bench.write(0x04, 2, 2);
    assert_eq!(bench.bar_read(TABLE_BAR, end - 4, 4).value, 1);
    assert_eq!(bench.bar_read(TABLE_BAR, end - 8, 8).value, 1 << 32);
    for (bar, offset, width) in [
        (TABLE_BAR, end - 4, 8),
        (TABLE_BAR, end - 2, 2),
        (TABLE_BAR, end - 1, 1),
        (TABLE_BAR, end - 2, 4),
        (TABLE_BAR, TABLE_OFFSET - 4, 4),
        (TABLE_BAR, (1 << 32) - 8, 8),
        (TABLE_BAR, 16, 4),
        (1, TABLE_OFFSET, 4),
        (6, TABLE_OFFSET, 4),
        (TABLE_BAR, TABLE_OFFSET, 0),
    ] {
        assert_eq!(bench.bar_read(bar, offset, width).refusal, 4);
        assert_eq!(bench.bar_write(bar, offset, width, 0).refusal, 4);
    }
}

#[test]
fn table_and_pending_array() {
    let mut bench = Bench::started(&config_with(0, None, Some(65)), 65);
    let end = TABLE_OFFSET + 16 * 65;
    bench.write(0x04, 2, 2);
    assert_eq!(
        bench
            .bar_write(TABLE_BAR, TABLE_OFFSET, 4, u64::MAX)
            .refusal,
        0
    );
    assert_eq!(
        bench.bar_read(TABLE_BAR, TABLE_OFFSET, 8).value,
        0xFFFF_FFFC
    );
    assert_eq!(bench.bar_write(TABLE_BAR, end - 8, 8, u64::MAX).refusal, 0);
    assert_eq!(bench.bar_read(TABLE_BAR, end - 8, 8).value, 0x1_FFFF_FFFF);
    bench.write(MSIX + 2, 2, 0x8000);
    assert_eq!(bench.event(64).answer, Some(Answer::Held));
    let before = bench.clone();
    assert_eq!(bench.bar_write(PENDING_BAR, 8, 8, u64::MAX).refusal, 0);
    assert_eq!(bench, before);
    assert_eq!(bench.bar_read(PENDING_BAR, 8, 8).value, 1);
}

#[test]
fn configuration_accesses() {
    let bench = Bench::started(&config_with(0, None, None), 1);
    for (offset, width, expected) in [
        (255, 1, 0),
        (254, 2, 0),
        (252, 4, 0),
        (256, 1, 3),
        (256, 4, 3),
        (255, 2, 3),
        (254, 4, 3),
        (0, 0, 3),
        (0, 3, 3),
        (0, 8, 3),
        (0xFFFC, 4, 3),
    ] {
        assert_eq!(bench.read(offset, width).refusal, expected);
        assert_eq!(bench.clone().write(offset, width, 0).refusal, expected);
    }
}

#[test]
fn most_bytes_of_a_call() {
    let mut bench = Bench::started(&config_with(1, None, Some(2048)), 2048);
    bench.write(0x04, 2, 6);
    bench.write(MSIX + 2, 2, 0xC000);
    for vector in 0..2048 {
        bench.entry(vector, 1, 0xFEE0_0000, vector, 0);
        assert_eq!(bench.event(u64::from(vector)).answer, Some(Answer::Held));
    }
    bench.write(MSIX + 2, 2, 0);
    assert_eq!(bench.line(true).count, 16);
    assert_eq!(bench.save().count, 33_318);
    bench.out = vec![0; ROOM - 1];
    let before = bench.clone();
    assert_eq!(bench.write(MSIX + 2, 2, 0x8000).refusal, 6);
    assert_eq!(bench, before);
    bench.out.push(0);
    assert_eq!(bench.write(MSIX + 2, 2, 0x8000).count, ROOM);
    assert!(bench.sound());
    for vector in 0..2048 {
        let packet = &bench.out[16 + 20 * vector..][..20];
        assert_eq!(packet[16..], (vector as u32).to_le_bytes());
    }
}

#[test]
fn reset_sends_only_deassert() {
    let config = config_with(3, Some(0x18A), Some(2));
    let mut bench = Bench::started(&config, 2);
    let fresh = bench.clone();
    bench.write(0x04, 2, 2);
    bench.entry(1, 5, 0x1000, 6, 0);
    bench.write(MSIX + 2, 2, 0x8000);
    bench.event(1);
    bench.write(MSIX + 2, 2, 0x4000);
    bench.write(MSI + 2, 2, 0x71);
    bench.event(1);
    bench.write(MSI + 2, 2, 0x70);
    bench.line(true);
    bench.out = vec![0xEE; 15];
    let before = bench.clone();
    assert_eq!(bench.reset().refusal, 6);
    assert_eq!(bench, before);
    bench.out = vec![0xEE; ROOM];
    assert_eq!(bench.reset().count, 16);
    assert_eq!(bench.out[..8], [0x34, 0, 0, 0, 1, 0, 0, 0x26]);
    bench.out.fill(0xEE);
    assert_eq!(bench, fresh);
    assert_eq!(bench.reset().count, 0);
}

#[test]
fn reset_with_the_wire_inactive() {
    let mut bench = Bench::started(&config_with(1, None, None), 1);
    bench.write(0x04, 2, 1 << 10);
    assert_eq!(bench.line(true).count, 0);
    assert_eq!(bench.reset().count, 0);
    assert!(!bench.card.line);
}

#[test]
fn wire_follows_its_four_conditions() {
    let mut bench = Bench::started(&config_with(0, None, None), 1);
    assert_eq!(bench.line(true).count, 0);
    assert_eq!(bench.read(0x06, 1).value, 0x08);
    for pin in 1..=4 {
        let mut bench = Bench::started(&config_with(pin, Some(0), Some(1)), 1);
        assert_eq!(bench.line(true).count, 16);
        assert_eq!(bench.out[7], 0x1F + pin);
        for (offset, bits) in [(0x04, 1 << 10), (MSI + 2, 1), (MSIX + 2, 0x8000)] {
            assert_eq!(bench.write(offset, 2, bits).count, 16);
            assert_eq!(bench.out[7], 0x23 + pin);
            assert_eq!(bench.write(offset, 2, 0).count, 16);
            assert_eq!(bench.out[7], 0x1F + pin);
        }
        assert_eq!(bench.write(0x04, 2, 6).count, 0);
    }
}

#[test]
fn msix_goes_before_msi() {
    let mut bench = Bench::started(&config_with(1, Some(0), Some(1)), 1);
    assert_eq!(bench.event(0).answer, Some(Answer::Lost));
    bench.write(0x04, 2, 6);
    bench.write(MSI + 2, 2, 1);
    assert_eq!(bench.event(0).answer, Some(Answer::Sent));
    bench.write(MSIX + 2, 2, 0x8000);
    assert_eq!(bench.event(0).answer, Some(Answer::Held));
    assert_eq!((bench.pending[0], bench.card.msi_waiting), (1, 0));
    // The waiting bit stays while MSI is in force again.
    bench.write(MSIX + 2, 2, 0);
    assert_eq!(bench.event(0).answer, Some(Answer::Sent));
    assert_eq!(bench.entry_control(0, 0).count, 0);
    assert_eq!(bench.pending[0], 1);
    assert_eq!(bench.write(MSIX + 2, 2, 0x8000).count, 16);
    assert_eq!(bench.pending[0], 0);
}

#[test]
fn restore_refusals() {
    let mut bench = Bench::started(&config_with(1, None, Some(2)), 2);
    let count = bench.save().count;
    let image = bench.out[..count].to_vec();
    assert_eq!(count, 294 + 32 + 8);
    let changed = |at: usize, value: u8| {
        let mut image = image.clone();
        image[at] = value;
        bench.clone().restore(&image).refusal
    };
    assert_eq!(bench.clone().restore(&image).refusal, 0);
    assert_eq!(bench.clone().restore(&image[..293]).refusal, 20);
    assert_eq!(bench.clone().restore(&image[..count - 1]).refusal, 22);
    assert_eq!(
        bench.clone().restore(&[&image[..], &[0]].concat()).refusal,
        22
    );
    assert_eq!(changed(2, 0), 20);
    assert_eq!(changed(3, 2), 21);
    assert_eq!(changed(4, 1), 21);
    assert_eq!(changed(5, 4), 22);
    assert_eq!(changed(5, 1), 22);
    assert_eq!(changed(5, 3), 0);
    assert_eq!(changed(10, 1), 22);
    assert_eq!(changed(count - 8, 3), 0);
    assert_eq!(changed(count - 8, 4), 22);
    let mut short = bench.clone();
    short.table.pop();
    assert_eq!(short.restore(&image).refusal, 17);
    assert_eq!(short.save().refusal, 1);
}

#[test]
fn restore_over_other_flags() {
    let mut bench = Bench::started(&config_with(1, None, Some(2)), 2);
    let count = bench.save().count;
    let image = bench.out[..count].to_vec();
    for bit in 2..8 {
        let mut other = bench.clone();
        other.card.other_flags = 1 << bit;
        let before = other.clone();
        assert_eq!(other.restore(&image[..294]).refusal, 22);
        assert_eq!(other, before);
        assert_eq!(other.restore(&image).refusal, 0);
        assert_eq!(other, bench);
    }
}
