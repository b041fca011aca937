//! The thirteen bench cases of document 01.

mod common;

use common::*;
use second_model::*;

const CASE_1: [u8; 16] = [
    0x40, 0x00, 0x00, 0x01, 0x01, 0x00, 0x00, 0x0F, 0xFE, 0xE0, 0x00, 0x00, 0xA1, 0x49, 0x00, 0x00,
];

/// The offset of the data register in the MSI form of this control word.
fn data_offset(control: u16) -> usize {
    if control & 0x80 != 0 {
        0x0C
    } else {
        0x08
    }
}

/// A card with MSI in force, address FEE00000h and bus mastering on.
fn msi_card(control: u16, enable: u32, data: u32, events: u64) -> Bench {
    let mut bench = Bench::started(&config_with(1, Some(control), None), events);
    bench.write(0x04, 2, 1 << 2);
    bench.write(MSI + 4, 4, 0xFEE0_0000);
    bench.write(MSI + data_offset(control), 2, data);
    let out = bench.write(MSI + 2, 2, 1 | enable << 4);
    assert_eq!((out.refusal, out.count), (0, 0));
    bench
}

/// Control words with this Capable in the four forms.
fn forms(capable: u16) -> [u16; 4] {
    [0x000, 0x080, 0x100, 0x180].map(|form| form | capable << 1)
}

/// A card with MSI-X, its memory space on and bus mastering as given.
fn msix_card(vectors: u16, bus_mastering: bool) -> Bench {
    let config = config_with(1, None, Some(vectors));
    let mut bench = Bench::started(&config, u64::from(vectors));
    let command = if bus_mastering { 6 } else { 2 };
    assert_eq!(bench.write(0x04, 2, command).refusal, 0);
    bench
}

fn sent(bench: &mut Bench, number: u64) -> Vec<u8> {
    let outcome = bench.event(number);
    assert_eq!((outcome.refusal, outcome.answer), (0, Some(Answer::Sent)));
    assert!(bench.sound());
    bench.out[..outcome.count].to_vec()
}

fn answer(bench: &mut Bench, number: u64) -> Answer {
    let outcome = bench.event(number);
    assert_eq!((outcome.refusal, outcome.value), (0, 0));
    assert!(bench.sound());
    outcome.answer.unwrap()
}

fn long_message(address: u32, data: u8) -> Vec<u8> {
    let mut packet = vec![0x60, 0, 0, 1, 1, 0, 0, 0x0F, 0, 0, 0, 1];
    packet.extend(address.to_be_bytes());
    packet.extend([data, 0, 0, 0]);
    packet
}

fn wire(code: u8) -> Vec<u8> {
    let mut packet = vec![0x34, 0, 0, 0, 1, 0, 0, code];
    packet.extend([0; 8]);
    packet
}

#[test]
fn case_01_msi_message() {
    for capable in 2..=5 {
        for control in forms(capable) {
            assert_eq!(sent(&mut msi_card(control, 2, 0x49A0, 2), 1), CASE_1);
        }
    }
}

#[test]
fn case_02_low_bits_of_the_data_are_replaced() {
    for control in forms(2) {
        assert_eq!(sent(&mut msi_card(control, 2, 0x49A3, 2), 1), CASE_1);
    }
}

#[test]
fn case_03_event_modulo_granted() {
    for control in forms(3) {
        assert_eq!(sent(&mut msi_card(control, 2, 0x49A0, 8), 5), CASE_1);
    }
}

#[test]
fn case_04_granted_eight() {
    for control in forms(3) {
        let packet = sent(&mut msi_card(control, 3, 0x0040, 8), 5);
        assert_eq!(packet[12..], [0x45, 0, 0, 0]);
    }
}

#[test]
fn case_05_msix_message_above_4_gib() {
    let mut bench = msix_card(1, true);
    bench.entry(0, 1, 0xFEE0_1000, 0x31, 0);
    bench.write(MSIX + 2, 2, 0x8000);
    let expected = [
        0x60, 0x00, 0x00, 0x01, 0x01, 0x00, 0x00, 0x0F, 0x00, 0x00, 0x00, 0x01, 0xFE, 0xE0, 0x10,
        0x00, 0x31, 0x00, 0x00, 0x00,
    ];
    assert_eq!(sent(&mut bench, 0), expected);
}

#[test]
fn case_06_wire() {
    let mut bench = Bench::started(&config_with(1, None, None), 1);
    bench.write(0x04, 2, 1 << 2);
    let up = bench.line(true);
    assert_eq!((up.refusal, up.count), (0, 16));
    assert_eq!(bench.out[..16], wire(0x20)[..]);
    assert_eq!(bench.read(0x06, 2).value, 1 << 3);
    assert_eq!(bench.line(true).count, 0);
    let down = bench.line(false);
    assert_eq!((down.refusal, down.count), (0, 16));
    assert_eq!(bench.out[..16], wire(0x24)[..]);
    assert_eq!(bench.out[16..], vec![0xEE; ROOM - 16][..]);
}

#[test]
fn case_07_masked_vector() {
    let mut bench = msix_card(4, true);
    bench.entry(3, 1, 0xFEE0_1000, 0x33, 1);
    bench.write(MSIX + 2, 2, 0x8000);
    assert_eq!(answer(&mut bench, 3), Answer::Held);
    assert_eq!(bench.pending[0], 1 << 3);
    assert_eq!(answer(&mut bench, 3), Answer::Merged);
    let unmask = bench.entry_control(3, 0);
    assert_eq!((unmask.refusal, unmask.count), (0, 20));
    assert_eq!(bench.out[..20], long_message(0xFEE0_1000, 0x33)[..]);
    assert_eq!(bench.pending, [0; 8]);
    assert!(bench.sound());
}

#[test]
fn case_08_function_mask_cleared() {
    let mut bench = msix_card(10, true);
    for vector in 0..10 {
        bench.entry(vector, 1, 0xFEE0_1000, vector, 0);
    }
    bench.write(MSIX + 2, 2, 0xC000);
    assert_eq!(answer(&mut bench, 9), Answer::Held);
    assert_eq!(answer(&mut bench, 2), Answer::Held);
    let outcome = bench.write(MSIX + 2, 2, 0x8000);
    assert_eq!((outcome.refusal, outcome.count), (0, 40));
    assert_eq!(bench.out[..20], long_message(0xFEE0_1000, 2)[..]);
    assert_eq!(bench.out[20..40], long_message(0xFEE0_1000, 9)[..]);
    assert_eq!(bench.out[40], 0xEE);
    assert!(bench.sound());
}

#[test]
fn case_09_bus_mastering_off() {
    let mut bench = msix_card(1, false);
    bench.entry(0, 1, 0xFEE0_1000, 0x31, 0);
    bench.write(MSIX + 2, 2, 0x8000);
    assert_eq!(answer(&mut bench, 0), Answer::Held);
    assert_eq!(bench.write(0x04, 2, 6).count, 20);
    assert_eq!(bench.out[..20], long_message(0xFEE0_1000, 0x31)[..]);

    let mut bench = msi_card(2 << 1, 2, 0x49A0, 2);
    bench.write(0x04, 2, 0);
    assert_eq!(answer(&mut bench, 1), Answer::Held);
    assert_eq!(bench.card.msi_waiting, 2);
    assert_eq!(bench.write(0x04, 2, 4).count, 16);
    assert_eq!(bench.out[..16], CASE_1);
    assert_eq!(bench.card.msi_waiting, 0);
}

#[test]
fn case_10_wire_then_message() {
    let mut bench = msix_card(1, true);
    bench.entry(0, 1, 0xFEE0_1000, 0x31, 0);
    bench.write(MSIX + 2, 2, 0xC000);
    assert_eq!(answer(&mut bench, 0), Answer::Held);
    bench.write(MSIX + 2, 2, 0);
    assert_eq!(bench.line(true).count, 16);
    assert_eq!(bench.out[..16], wire(0x20)[..]);
    let outcome = bench.write(MSIX + 2, 2, 0x8000);
    assert_eq!((outcome.refusal, outcome.count), (0, 36));
    assert_eq!(bench.out[..16], wire(0x24)[..]);
    assert_eq!(bench.out[16..36], long_message(0xFEE0_1000, 0x31)[..]);
}

#[test]
fn case_11_image_of_the_zero_card() {
    let (mut bench, outcome) = Bench::start(&[0; 256], &[0; 6], 1);
    assert_eq!(outcome.refusal, 0);
    let saved = bench.save();
    assert_eq!((saved.refusal, saved.count), (0, 294));
    let mut expected = vec![0x49, 0x52, 0x51, 0x01, 0x00, 0x00, 0x01, 0x00, 0x00, 0x01];
    expected.extend([0; 284]);
    assert_eq!(bench.out[..294], expected[..]);
    assert_eq!(bench.out[294..], vec![0xEE; ROOM - 294][..]);
}

#[test]
fn case_12_event_numbers_and_room() {
    let mut bench = msi_card(2 << 1, 2, 0x49A0, 8);
    assert_eq!(bench.event(7).refusal, 0);
    bench.out = vec![0xEE; 15];
    let before = bench.clone();
    assert_eq!(bench.event(8).refusal, 2);
    let short = bench.event(1);
    assert_eq!((short.refusal, short.answer, short.count), (6, None, 0));
    assert_eq!(bench, before);
    bench.out = vec![0xEE; 16];
    assert_eq!(sent(&mut bench, 1), CASE_1);
}

#[test]
fn case_13_table_at_the_end_of_its_bar() {
    let mut config = config_with(0, None, Some(3));
    config[MSIX + 8] = 1;
    let mut sizes = [0, 8, TABLE_OFFSET as u32 + 48, 0, 0, 0];
    let (bench, outcome) = Bench::start(&config, &sizes, 3);
    assert_eq!(outcome.refusal, 0);
    assert!(bench.sound());
    sizes[2] -= 8;
    let (bench, outcome) = Bench::start(&config, &sizes, 3);
    assert_eq!(outcome.refusal, 14);
    assert_eq!(bench.table, [0xAA; 48]);
    assert_eq!(bench.card.events, 0);
    assert!(!bench.sound());
}
