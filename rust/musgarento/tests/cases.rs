//! The thirteen bench cases, played through [`Card`].

use musgarento::{
    Answer, BarError, Card, ConfigError, EventError, ImageError, Packet, Packets, RestoreError,
    Start, StartError,
};

const REQUESTER: u16 = 0x0100;
const COMMAND: u16 = 0x04;
const MSI: u16 = 0x50;
const MSIX: u16 = 0x70;
const TABLE_BAR: u8 = 2;
const TABLE_AT: u32 = 0x1000;
const TABLE_SIZE: u32 = TABLE_AT + 16 * 16;

/// Configuration bytes with pin 1, and the capabilities given: MSI by its
/// control word, MSI-X by its number of vectors.
fn config(msi: Option<u16>, vectors: Option<u16>) -> [u8; 256] {
    let mut config = [0; 256];
    config[0x3D] = 1;
    let mut link = 0x34;
    if let Some(control) = msi {
        let at = usize::from(MSI);
        config[0x06] = 0x10;
        config[link] = MSI as u8;
        link = at + 1;
        config[at] = 0x05;
        config[at + 2..at + 4].copy_from_slice(&control.to_le_bytes());
    }
    if let Some(vectors) = vectors {
        let at = usize::from(MSIX);
        config[0x06] = 0x10;
        config[link] = MSIX as u8;
        config[at] = 0x11;
        config[at + 2..at + 4].copy_from_slice(&(vectors - 1).to_le_bytes());
        let table = TABLE_AT | u32::from(TABLE_BAR);
        config[at + 4..at + 8].copy_from_slice(&table.to_le_bytes());
    }
    config
}

/// What a card is started from, with BARs in which a table of 16 entries fits
/// exactly.
fn given(config: [u8; 256], events: u16) -> Start {
    Start {
        config,
        sizes: [TABLE_SIZE; 6],
        events,
        requester: REQUESTER,
    }
}

fn start(config: [u8; 256], events: u16) -> Card {
    Card::start(&given(config, events)).unwrap()
}

/// Makes a configuration write that sends nothing.
fn quiet_write(card: &mut Card, offset: u16, width: u8, value: u32) {
    assert_eq!(card.config_write(offset, width, value).unwrap().count(), 0);
}

/// A card with MSI in force, bus mastering on and address FEE00000h, of the
/// form in the control word.
fn msi_card(control: u16, enable: u32, data: u32, events: u16) -> Card {
    let mut card = start(config(Some(control), None), events);
    let data_at = if control & 0x80 == 0 { 0x08 } else { 0x0C };
    quiet_write(&mut card, COMMAND, 2, 4);
    quiet_write(&mut card, MSI + 4, 4, 0xFEE0_0000);
    quiet_write(&mut card, MSI + data_at, 2, data);
    quiet_write(&mut card, MSI + 2, 2, 1 | enable << 4);
    card
}

/// A card with MSI-X, not in force yet, and the Command register given.
fn msix_card(vectors: u16, command: u32) -> Card {
    let mut card = start(config(None, Some(vectors)), vectors);
    quiet_write(&mut card, COMMAND, 2, command);
    card
}

/// Writes a table entry with upper address 1, and gives the packets that the
/// second half of it sends.
fn entry(card: &mut Card, vector: u16, data: u32, mask: bool) -> Vec<Packet> {
    let at = TABLE_AT + 16 * u32::from(vector);
    let high = u64::from(mask) << 32 | u64::from(data);
    assert_eq!(
        card.bar_write(TABLE_BAR, at, 8, 0x1_FEE0_1000)
            .unwrap()
            .count(),
        0
    );
    card.bar_write(TABLE_BAR, at + 8, 8, high)
        .unwrap()
        .collect()
}

fn message(address: u64, data: u32) -> Packet {
    Packet::Message {
        requester: REQUESTER,
        address,
        data,
    }
}

fn entry_message(data: u32) -> Packet {
    message(0x1_FEE0_1000, data)
}

fn answer(card: &mut Card, number: u16) -> Answer {
    card.event(number).unwrap().answer
}

fn sent(card: &mut Card, number: u16) -> Vec<u8> {
    let event = card.event(number).unwrap();
    assert_eq!(event.answer, Answer::Sent);
    event.packets.bytes().to_vec()
}

const CASE_1: [u8; 16] = [
    0x40, 0, 0, 1, 1, 0, 0, 0x0F, 0xFE, 0xE0, 0, 0, 0xA1, 0x49, 0, 0,
];

#[test]
fn cases_1_to_4_msi_messages() {
    for form in [0x000, 0x080, 0x100, 0x180] {
        let control = form | 3 << 1;
        assert_eq!(sent(&mut msi_card(control, 2, 0x49A0, 2), 1), CASE_1);
        assert_eq!(sent(&mut msi_card(control, 2, 0x49A3, 2), 1), CASE_1);
        assert_eq!(sent(&mut msi_card(control, 2, 0x49A0, 8), 5), CASE_1);
        let bytes = sent(&mut msi_card(control, 3, 0x0040, 8), 5);
        let packets: Vec<Packet> = Packets::new(&bytes).collect();
        assert_eq!(packets, [message(0xFEE0_0000, 0x0045)]);
    }
}

#[test]
fn case_5_msix_message() {
    let mut card = msix_card(1, 6);
    entry(&mut card, 0, 0x31, false);
    quiet_write(&mut card, MSIX + 2, 2, 0x8000);
    let expected = [
        0x60, 0, 0, 1, 1, 0, 0, 0x0F, 0, 0, 0, 1, 0xFE, 0xE0, 0x10, 0, 0x31, 0, 0, 0,
    ];
    assert_eq!(sent(&mut card, 0), expected);
}

#[test]
fn case_6_wire() {
    let mut card = start(config(None, None), 1);
    quiet_write(&mut card, COMMAND, 2, 4);
    let wire = |code| [0x34, 0, 0, 0, 1, 0, 0, code, 0, 0, 0, 0, 0, 0, 0, 0];
    assert_eq!(card.line(true).bytes(), wire(0x20));
    assert!(card.is_line_high() && card.is_wire_active());
    assert_eq!(card.line(true).count(), 0);
    assert_eq!(card.config_read(0x06, 2), Ok(1 << 3));
    assert_eq!(card.line(false).bytes(), wire(0x24));
    assert!(!card.is_line_high() && !card.is_wire_active());
}

#[test]
fn case_7_masked_vector() {
    let mut card = msix_card(4, 6);
    entry(&mut card, 3, 0x33, true);
    quiet_write(&mut card, MSIX + 2, 2, 0x8000);
    assert_eq!(answer(&mut card, 3), Answer::Held);
    assert_eq!(answer(&mut card, 3), Answer::Merged);
    assert_eq!(card.bar_read(TABLE_BAR, 0, 8), Err(BarError::BarAccess));
    assert_eq!(card.bar_read(0, 0, 8), Ok(1 << 3));
    let control = TABLE_AT + 16 * 3 + 12;
    let packets: Vec<Packet> = card.bar_write(TABLE_BAR, control, 4, 0).unwrap().collect();
    assert_eq!(packets, [entry_message(0x33)]);
    assert_eq!(card.bar_read(0, 0, 8), Ok(0));
}

#[test]
fn case_8_function_mask() {
    let mut card = msix_card(16, 6);
    quiet_write(&mut card, MSIX + 2, 2, 0xC000);
    for vector in [9, 2] {
        entry(&mut card, vector, u32::from(vector), false);
        assert_eq!(answer(&mut card, vector), Answer::Held);
    }
    let packets: Vec<Packet> = card.config_write(MSIX + 2, 2, 0x8000).unwrap().collect();
    assert_eq!(packets, [entry_message(2), entry_message(9)]);
}

#[test]
fn case_9_bus_mastering() {
    let mut card = msix_card(1, 2);
    entry(&mut card, 0, 7, false);
    quiet_write(&mut card, MSIX + 2, 2, 0x8000);
    assert_eq!(answer(&mut card, 0), Answer::Held);
    let packets: Vec<Packet> = card.config_write(COMMAND, 2, 6).unwrap().collect();
    assert_eq!(packets, [entry_message(7)]);
}

#[test]
fn case_10_msix_switched_on() {
    let mut card = msix_card(1, 6);
    quiet_write(&mut card, MSIX + 2, 2, 0x8000);
    assert_eq!(answer(&mut card, 0), Answer::Held);
    quiet_write(&mut card, MSIX + 2, 2, 0);
    assert_eq!(answer(&mut card, 0), Answer::Lost);
    assert!(entry(&mut card, 0, 7, false).is_empty());
    let (requester, pin) = (REQUESTER, 1);
    let packets: Vec<Packet> = card.line(true).collect();
    assert_eq!(packets, [Packet::Assert { requester, pin }]);
    let packets: Vec<Packet> = card.config_write(MSIX + 2, 2, 0x8000).unwrap().collect();
    assert_eq!(
        packets,
        [Packet::Deassert { requester, pin }, entry_message(7)]
    );
}

#[test]
fn case_11_image() {
    let card = Card::start(&Start {
        config: [0; 256],
        sizes: [0; 6],
        events: 1,
        requester: REQUESTER,
    });
    let image = card.unwrap().save();
    assert_eq!(image[..10], [0x49, 0x52, 0x51, 1, 0, 0, 1, 0, 0, 1]);
    assert_eq!(image[10..], [0; 284]);
}

#[test]
fn case_12_event_numbers() {
    let mut card = start(config(None, Some(16)), 16);
    assert_eq!(answer(&mut card, 15), Answer::Lost);
    assert_eq!(card.event(16).err(), Some(EventError::Event));
}

#[test]
fn case_13_size_of_a_bar() {
    let exact = given(config(None, Some(16)), 16);
    let short = Start {
        sizes: [TABLE_SIZE - 8; 6],
        ..exact
    };
    assert!(Card::start(&exact).is_ok());
    assert_eq!(Card::start(&short), Err(StartError::Region));
}

#[test]
fn save_and_restore() {
    let mut card = msix_card(16, 6);
    quiet_write(&mut card, MSIX + 2, 2, 0x8000);
    answer(&mut card, 5);
    let (saved, image) = (card.clone(), card.save());
    assert_eq!(image.len(), 294 + 16 * 16 + 8);
    card.reset();
    assert_ne!(card, saved);
    card.restore(&image).unwrap();
    assert_eq!(card, saved);
    assert_eq!(Card::from_image(&image).as_ref(), Ok(&saved));
    let mut other = msix_card(15, 6);
    let before = other.clone();
    assert_eq!(other.restore(&image), Err(RestoreError::Buffers));
    assert_eq!(other, before);
    assert_eq!(Card::from_image(&image[..293]), Err(ImageError::Mark));
    assert_eq!(Card::from_image(&image[..294]), Err(ImageError::Image));
}

#[test]
fn the_most_packets() {
    let mut card = start_large();
    quiet_write(&mut card, COMMAND, 2, 6);
    quiet_write(&mut card, MSIX + 2, 2, 0xC000);
    for vector in 0..2048 {
        assert!(entry(&mut card, vector, u32::from(vector), false).is_empty());
        assert_eq!(answer(&mut card, vector), Answer::Held);
    }
    quiet_write(&mut card, MSIX + 2, 2, 0);
    assert_eq!(card.line(true).count(), 1);
    assert_eq!(card.save().len(), musgarento::IMAGE_BYTES);
    let packets = card.config_write(MSIX + 2, 2, 0x8000).unwrap();
    assert_eq!(packets.bytes().len(), musgarento::PACKET_BYTES);
    let messages: Vec<Packet> = packets.skip(1).collect();
    let expected: Vec<Packet> = (0..2048).map(entry_message).collect();
    assert_eq!(messages, expected);
}

/// A card of 2,048 vectors.
fn start_large() -> Card {
    let small = given(config(None, Some(2048)), 2048);
    let sizes = [0x10_0000; 6];
    Card::start(&Start { sizes, ..small }).unwrap()
}

#[test]
fn the_most_packets_of_msi() {
    let capable = 5 << 1;
    let mut card = start(config(Some(0x80 | capable), None), 32);
    quiet_write(&mut card, MSI + 8, 4, 1);
    quiet_write(&mut card, MSI + 2, 2, 1 | 5 << 4);
    for number in 0..32 {
        assert_eq!(answer(&mut card, number), Answer::Held);
    }
    quiet_write(&mut card, MSI + 2, 2, 5 << 4);
    quiet_write(&mut card, COMMAND, 2, 4);
    assert_eq!(card.line(true).count(), 1);
    let packets = card.config_write(MSI + 2, 2, 1 | 5 << 4).unwrap();
    assert_eq!(packets.bytes().len(), 16 + 32 * 20);
    assert_eq!(packets.count(), 33);
}

#[test]
fn refused_starts() {
    let start = |change: &dyn Fn(&mut Start)| {
        let mut given = given(config(Some(0), Some(16)), 16);
        change(&mut given);
        Card::start(&given).err()
    };
    assert_eq!(start(&|_| ()), None);
    assert_eq!(start(&|g| g.config[0x3D] = 5), Some(StartError::Header));
    assert_eq!(start(&|g| g.config[0x71] = 0x70), Some(StartError::List));
    assert_eq!(start(&|g| g.config[0x70] = 0x05), Some(StartError::Twice));
    let structure = start(&|g| g.config[0x52] = 0x0C);
    assert_eq!(structure, Some(StartError::Structure));
    assert_eq!(start(&|g| g.config[0x74] = 6), Some(StartError::Region));
    assert_eq!(start(&|g| g.config[0x72] = 14), Some(StartError::Events));
    assert_eq!(start(&|g| g.events = 15), Some(StartError::Events));
    let requester = start(&|g| g.requester = 0x0101);
    assert_eq!(requester, Some(StartError::Requester));
}

#[test]
fn refused_accesses() {
    let mut card = msix_card(16, 4);
    assert_eq!(card.config_read(0xFF, 2), Err(ConfigError::ConfigAccess));
    let write = card.config_write(0x100, 4, 0).err();
    assert_eq!(write, Some(ConfigError::ConfigAccess));
    let read = card.bar_read(TABLE_BAR, TABLE_AT, 4);
    assert_eq!(read, Err(BarError::MemorySpace));
    let write = card.bar_write(TABLE_BAR, TABLE_AT, 2, 0).err();
    assert_eq!(write, Some(BarError::BarAccess));
}

#[test]
fn text_of_a_card() {
    let mut card = msix_card(16, 6);
    quiet_write(&mut card, MSIX + 2, 2, 0x8000);
    answer(&mut card, 5);
    assert_eq!(
        format!("{card:?}"),
        "Card { events: 16, requester: 0x0100, vectors: 16, command: 0x0006, \
         line: false, wire: false, msi_waiting: 0, msix_waiting: 1, .. }"
    );
}
