//! Request 6 of document 02: cards with 32-bit MSI data.

mod common;

use common::*;
use second_model::*;

/// MSI control bits 9 and 10, Extended Message Data Capable and Enable.
const CAPABLE: u16 = 1 << 9;
const ENABLE: u16 = 1 << 10;
/// The control words of the four forms, all else 0.
const FORMS: [u16; 4] = [0x000, 0x080, 0x100, 0x180];

/// The place of the data register in the form of this control word.
fn data_at(control: u16) -> usize {
    MSI + if control & 0x80 != 0 { 0x0C } else { 0x08 }
}

/// A card with this MSI control word whose supplier set every bit of the word
/// with the data.
fn started(control: u16) -> Bench {
    let mut config = config_with(1, Some(control), None);
    config[data_at(control)..][..4].fill(0xFF);
    Bench::started(&config, 32)
}

/// The same card with bus mastering on, address FEE00000h, this data word, and
/// MSI on with the control bits `on`.
fn configured(control: u16, data: u32, on: u16) -> Bench {
    let mut bench = started(control);
    bench.write(0x04, 2, 1 << 2);
    bench.write(MSI + 4, 4, 0xFEE0_0000);
    bench.write(data_at(control), 4, data);
    assert_eq!(bench.write(MSI + 2, 2, u32::from(on | 1)).refusal, 0);
    bench
}

/// The packet of an event that is sent.
fn sent(bench: &mut Bench, number: u64) -> Vec<u8> {
    let outcome = bench.event(number);
    assert_eq!((outcome.refusal, outcome.answer), (0, Some(Answer::Sent)));
    assert!(bench.sound());
    bench.out[..outcome.count].to_vec()
}

/// The data of an event's message.
fn sent_data(bench: &mut Bench, number: u64) -> u32 {
    let packet = sent(bench, number);
    let data = packet.last_chunk().expect("four bytes of data");
    u32::from_le_bytes(*data)
}

/// The image of a card.
fn image(bench: &mut Bench) -> Vec<u8> {
    let count = bench.save().count;
    assert_eq!(count, 294);
    bench.out[..count].to_vec()
}

#[test]
fn all_32_bits_of_data_are_sent() {
    for form in FORMS {
        let control = form | CAPABLE | 2 << 1;
        let mut bench = configured(control, 0xABCD_49A3, ENABLE | 2 << 4);
        let expected = [
            0x40, 0x00, 0x00, 0x01, 0x01, 0x00, 0x00, 0x0F, 0xFE, 0xE0, 0x00, 0x00, 0xA1, 0x49,
            0xCD, 0xAB,
        ];
        assert_eq!(sent(&mut bench, 1), expected);
        bench.write(MSI + 2, 2, 1 | 2 << 4);
        let packet = sent(&mut bench, 1);
        assert_eq!(packet[..14], expected[..14]);
        assert_eq!(packet[14..], [0, 0]);
    }
}

#[test]
fn messages_above_4_gib() {
    for form in [0x080, 0x180] {
        let mut bench = configured(form | CAPABLE, 0x1234_5678, ENABLE);
        bench.write(MSI + 8, 4, 0x9ABC_DEF0);
        let packet = sent(&mut bench, 0);
        assert_eq!((packet.len(), packet[0]), (20, 0x60));
        assert_eq!(packet[8..12], [0x9A, 0xBC, 0xDE, 0xF0]);
        assert_eq!(packet[16..], [0x78, 0x56, 0x34, 0x12]);
    }
}

/// Both bits must be set: one of them alone sends an upper half of 0.
#[test]
fn upper_half_by_bits_9_and_10() {
    for form in FORMS {
        let data_of = |control, on| sent_data(&mut configured(control, 0xFFFF_FFFF, on), 0);
        assert_eq!(data_of(form, 0), 0xFFFF);
        assert_eq!(data_of(form | ENABLE, 0), 0xFFFF);
        assert_eq!(data_of(form | ENABLE, ENABLE), 0xFFFF);
        assert_eq!(data_of(form | CAPABLE, 0), 0xFFFF);
        assert_eq!(data_of(form | CAPABLE | ENABLE, 0), 0xFFFF);
        assert_eq!(data_of(form | CAPABLE, ENABLE), 0xFFFF_FFFF);
    }
}

#[test]
fn low_bits_are_replaced_in_32_bits() {
    for form in FORMS {
        for capable in 0..6 {
            for enable in 0..8 {
                let control = form | CAPABLE | capable << 1;
                let granted = 1 << enable.min(capable);
                let last = granted - 1;
                let mut ones = configured(control, 0xFFFF_FFFF, ENABLE | enable << 4);
                let mut zeros = configured(control, 0, ENABLE | enable << 4);
                for number in 0..32 {
                    let vector = number as u32 % granted;
                    let expected = 0xFFFF_FFFF - last + vector;
                    assert_eq!(sent_data(&mut ones, number), expected);
                    assert_eq!(sent_data(&mut zeros, number), vector);
                }
            }
        }
    }
}

#[test]
fn writable_with_bit_9() {
    for form in FORMS {
        for given in [CAPABLE, CAPABLE | ENABLE] {
            let mut bench = started(form | given);
            let (control, data) = (MSI + 2, data_at(form));
            // A start clears bit 10 and both halves of the data.
            assert_eq!(bench.read(control, 2).value, u64::from(form | CAPABLE));
            assert_eq!(bench.read(data, 4).value, 0);
            // Bits 15:11 and bit 9 are not writable.
            bench.write(control, 2, 0xFE00);
            let on = form | CAPABLE | ENABLE;
            assert_eq!(bench.read(control, 2).value, u64::from(on));
            bench.write(control + 1, 1, 0);
            assert_eq!(bench.read(control, 2).value, u64::from(form | CAPABLE));
        }
    }
}

#[test]
fn halves_of_the_data_with_bit_9() {
    for form in FORMS {
        // Whether bit 10 is set does not matter.
        for on in [0, u32::from(ENABLE)] {
            let mut bench = started(form | CAPABLE);
            let data = data_at(form);
            bench.write(MSI + 2, 2, on);
            bench.write(data + 2, 2, 0xABCD_1234);
            assert_eq!(bench.read(data, 4).value, 0x1234_0000);
            bench.write(data, 2, 0x5678);
            assert_eq!(bench.read(data, 4).value, 0x1234_5678);
            bench.write(data + 3, 1, 0x9A);
            bench.write(data + 2, 1, 0xBC);
            assert_eq!(bench.read(data, 4).value, 0x9ABC_5678);
            assert_eq!(bench.read(data + 2, 2).value, 0x9ABC);
            assert_eq!(bench.read(data + 3, 1).value, 0x9A);
            bench.write(data, 4, 0x8000_0001);
            assert_eq!(bench.read(data, 4).value, 0x8000_0001);
        }
    }
}

#[test]
fn not_writable_without_bit_9() {
    for form in FORMS {
        for given in [0, ENABLE] {
            let mut bench = started(form | given);
            let fresh = bench.clone();
            let (control, data) = (MSI + 2, data_at(form));
            // A start keeps bit 10 and the upper half as given.
            assert_eq!(bench.read(control, 2).value, u64::from(form | given));
            assert_eq!(bench.read(data, 4).value, 0xFFFF_0000);
            bench.write(control, 2, u32::from(!given & ENABLE));
            bench.write(data, 4, 0);
            bench.write(data + 2, 2, 0);
            bench.write(data + 3, 1, 0);
            assert_eq!(bench, fresh);
            bench.write(data, 4, 0x1234_5678);
            assert_eq!(bench.read(data, 4).value, 0xFFFF_5678);
            assert_eq!(bench.reset().refusal, 0);
            assert_eq!(bench, fresh);
        }
    }
}

#[test]
fn reset_clears_bit_10_and_both_halves() {
    for form in FORMS {
        let control = form | CAPABLE | 5 << 1;
        let mut bench = configured(control, 0x89AB_CDEF, ENABLE | 5 << 4);
        assert_eq!(sent_data(&mut bench, 31), 0x89AB_CDFF);
        bench.out.fill(0xEE);
        assert_eq!(bench.reset().refusal, 0);
        assert_eq!(bench, started(control));
        assert_eq!(bench.read(MSI + 2, 2).value, u64::from(control));
        assert_eq!(bench.read(data_at(form), 4).value, 0);
    }
}

/// A waiting vector carries the data as it is after the write that opens it.
#[test]
fn waiting_vectors_carry_the_data_of_their_release() {
    for form in FORMS {
        let mut bench = configured(form | CAPABLE | 1 << 1, 0x1111_2223, 1 << 4);
        bench.write(0x04, 2, 0);
        assert_eq!(bench.event(0).answer, Some(Answer::Held));
        assert_eq!(bench.event(1).answer, Some(Answer::Held));
        bench.write(MSI + 2, 2, u32::from(ENABLE));
        bench.write(0x04, 2, 1 << 2);
        bench.write(data_at(form) + 2, 2, 0x7777);
        // One write switches MSI on and bit 10 off.
        let mut narrow = bench.clone();
        assert_eq!(narrow.write(MSI + 2, 2, 1 | 1 << 4).count, 32);
        assert_eq!(narrow.out[12..16], [0x22, 0x22, 0, 0]);
        assert_eq!(narrow.out[28..32], [0x23, 0x22, 0, 0]);
        let on = u32::from(1 | 1 << 4 | ENABLE);
        assert_eq!(bench.write(MSI + 2, 2, on).count, 32);
        assert_eq!(bench.out[12..16], [0x22, 0x22, 0x77, 0x77]);
        assert_eq!(bench.out[28..32], [0x23, 0x22, 0x77, 0x77]);
        assert!(bench.sound());
    }
}

/// Bit 10 opens nothing: its write alone sends no message.
#[test]
fn bit_10_opens_no_vector() {
    for form in FORMS {
        let mut bench = configured(form | CAPABLE | 1 << 1, 0x1111_2222, 1 << 4);
        bench.write(0x04, 2, 0);
        assert_eq!(bench.event(1).answer, Some(Answer::Held));
        for on in [1 | 1 << 4 | ENABLE, 1 | 1 << 4] {
            assert_eq!(bench.write(MSI + 2, 2, u32::from(on)).count, 0);
            assert_eq!(bench.card.msi_waiting, 2);
        }
    }
}

/// A list with an MSI capability of this control word at `at` and another
/// capability at `other`.
fn list(control: u16, at: usize, other: usize) -> [u8; 256] {
    let mut config = [0; 256];
    config[0x06] = 0x10;
    config[0x34] = at as u8;
    config[at] = 0x05;
    config[at + 1] = other as u8;
    config[at + 2..at + 4].copy_from_slice(&control.to_le_bytes());
    config[other] = 0x09;
    config
}

/// The refusal of a start.
fn refusal(config: &[u8; 256]) -> u8 {
    Bench::start(config, &[0; 6], 32).1.refusal
}

#[test]
fn lengths_with_bit_9() {
    for (form, bytes) in FORMS.into_iter().zip([12, 16, 20, 24]) {
        for control in [form | CAPABLE, form | CAPABLE | ENABLE] {
            // Another capability directly behind, and in the last word.
            assert_eq!(refusal(&list(control, 0x80, 0x80 + bytes)), 0);
            assert_eq!(refusal(&list(control, 0x80, 0x80 + bytes - 4)), 13);
            // The structure in the last bytes of the configuration.
            assert_eq!(refusal(&list(control, 256 - bytes, 0x40)), 0);
            assert_eq!(refusal(&list(control, 260 - bytes, 0x40)), 13);
        }
    }
}

/// The last two bytes of configuration space are the upper half of the data.
#[test]
fn data_in_the_last_bytes() {
    for (form, at) in [(0x000, 0xF4), (0x080, 0xF0)] {
        let (mut bench, outcome) = Bench::start(&list(form | CAPABLE, at, 0x40), &[0; 6], 32);
        assert_eq!(outcome.refusal, 0);
        bench.write(0x04, 2, 1 << 2);
        bench.write(at + 2, 2, u32::from(1 | ENABLE));
        bench.write(0xFC, 4, 0xFEDC_BA98);
        assert_eq!(bench.read(0xFE, 2).value, 0xFEDC);
        assert_eq!(sent_data(&mut bench, 3), 0xFEDC_BA98);
    }
}

/// A capability behind the data keeps its bytes.
#[test]
fn writes_stop_at_the_next_capability() {
    for (form, bytes) in [(0x000, 12), (0x080, 16)] {
        let config = list(form | CAPABLE, 0x80, 0x80 + bytes);
        let (mut bench, _) = Bench::start(&config, &[0; 6], 32);
        for at in (0x84..0xA0).step_by(4) {
            assert_eq!(bench.write(at, 4, u32::MAX).refusal, 0);
        }
        let end = 0x80 + bytes;
        assert_eq!(bench.card.config[end - 4..end], [0xFF; 4]);
        assert_eq!(bench.card.config[end..], config[end..]);
    }
}

#[test]
fn saved_and_restored() {
    for form in FORMS {
        let control = form | CAPABLE | 5 << 1;
        let mut bench = configured(control, 0xFFFF_FFFF, ENABLE | 5 << 4);
        let image = image(&mut bench);
        assert_eq!(image[38 + MSI + 3] & 0x06, 0x06);
        assert_eq!(image[38 + data_at(form)..][..4], [0xFF; 4]);
        let mut other = started(0);
        assert_eq!(other.restore(&image).refusal, 0);
        assert_eq!(other.card, bench.card);
        assert_eq!(sent_data(&mut other, 6), 0xFFFF_FFE6);
    }
}

/// An image in which bit 10 and the upper half stand as a supplier gave them,
/// saved when they were not writable.
#[test]
fn image_as_the_supplier_gave_it() {
    for form in FORMS {
        let mut bench = configured(form | CAPABLE, 0x5678, 0);
        let mut old = image(&mut bench);
        old[38 + MSI + 3] |= 0x04;
        old[38 + data_at(form) + 2..][..2].fill(0xA5);
        assert_eq!(bench.restore(&old).refusal, 0);
        assert!(bench.sound());
        assert_eq!(image(&mut bench), old);
        assert_eq!(sent_data(&mut bench, 0), 0xA5A5_5678);
        bench.write(data_at(form) + 2, 2, 0);
        assert_eq!(sent_data(&mut bench, 0), 0x5678);
        assert_eq!(bench.restore(&old).refusal, 0);
        assert_eq!(bench.reset().refusal, 0);
        assert_eq!(bench.card, started(form | CAPABLE).card);
        // Without bit 9 the same bytes stay, and are not sent.
        old[38 + MSI + 3] &= !0x02;
        assert_eq!(bench.restore(&old).refusal, 0);
        assert_eq!(sent_data(&mut bench, 0), 0x5678);
        assert_eq!(bench.reset().refusal, 0);
        assert_eq!(bench.card.config[MSI + 3] & 0x06, 0x04);
        let upper = &bench.card.config[data_at(form) + 2..][..2];
        assert_eq!(upper, [0xA5; 2]);
    }
}

/// MSI-X messages carry their entry's word, whatever bits 9 and 10 are.
#[test]
fn msix_data_is_the_entrys() {
    let config = config_with(1, Some(0x180 | CAPABLE), Some(2));
    let mut bench = Bench::started(&config, 2);
    bench.write(0x04, 2, 6);
    bench.write(MSI + 0x0C, 4, 0xABCD_49A3);
    bench.entry(1, 0, 0xFEE0_1000, 0x8765_4321, 0);
    bench.write(MSIX + 2, 2, 0x8000);
    for on in [1, 1 | ENABLE] {
        bench.write(MSI + 2, 2, u32::from(on));
        assert_eq!(sent_data(&mut bench, 1), 0x8765_4321);
    }
}
