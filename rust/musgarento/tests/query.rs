//! What a host reads, through [`musgarento::raw`]: lengths of configurations and
//! of images, and packets one after another; each refusal beside the nearest
//! bytes that are accepted.

use musgarento::{raw, Card, ImageError, Packet, Packets, Start, PACKET_BYTES};

/// What numbers hold before a call, so that it shows if one is not set.
const UNSET: u8 = 0xB7;

const MSIX: usize = 0x70;

/// Vectors, table and pending array.
type Lengths = (usize, usize, usize);

const NONE: Lengths = (0, 0, 0);

type Read = fn(&[u8], &mut usize, &mut usize, &mut usize) -> u8;

fn read(read: Read, bytes: &[u8]) -> (u8, Lengths) {
    let unset = usize::from(UNSET);
    let mut lengths = (unset, unset, unset);
    let refusal = read(bytes, &mut lengths.0, &mut lengths.1, &mut lengths.2);
    (refusal, lengths)
}

fn config_lengths(config: &[u8]) -> (u8, Lengths) {
    read(raw::config_lengths, config)
}

fn image_lengths(image: &[u8]) -> (u8, Lengths) {
    read(raw::image_lengths, image)
}

/// A configuration whose only capability is MSI-X with this many vectors.
fn config(vectors: usize) -> [u8; 256] {
    let mut config = [0; 256];
    config[0x06] = 0x10;
    config[0x34] = MSIX as u8;
    config[0x3D] = 1;
    config[MSIX] = 0x11;
    let size = (vectors - 1) as u16;
    config[MSIX + 2..MSIX + 4].copy_from_slice(&size.to_le_bytes());
    config[MSIX + 10] = 1; // The pending array is at 10000h.
    config
}

/// A started card; none has MSI-X if there are no vectors.
fn card(vectors: usize) -> Card {
    let (config, events) = match vectors {
        0 => ([0; 256], 1),
        _ => (config(vectors), vectors as u16),
    };
    Card::start(&Start {
        config,
        sizes: [0x2_0000; 6],
        events,
        requester: 0x0100,
    })
    .unwrap()
}

/// The lengths by the numbers of document 01.
fn expected(vectors: usize) -> Lengths {
    (vectors, 16 * vectors, 8 * vectors.div_ceil(64))
}

#[test]
fn every_number_of_vectors() {
    assert_eq!(config_lengths(&config(1)), (0, (1, 16, 8)));
    assert_eq!(config_lengths(&config(64)), (0, (64, 1024, 8)));
    assert_eq!(config_lengths(&config(65)), (0, (65, 1040, 16)));
    assert_eq!(config_lengths(&config(2048)), (0, (2048, 32_768, 256)));
    for vectors in 1..=2048 {
        let mut config = config(vectors);
        assert_eq!(config_lengths(&config), (0, expected(vectors)));
        // The rest of the control register plays no part.
        config[MSIX + 3] |= 0xF8;
        assert_eq!(config_lengths(&config), (0, expected(vectors)));
    }
}

#[test]
fn configurations_without_msix() {
    assert_eq!(config_lengths(&[0; 256]), (0, NONE));
    assert_eq!(config_lengths(&[0xFF; 256]), (0, NONE));
    let changed = |at: usize, value: u8| {
        let mut config = config(4);
        config[at] = value;
        config_lengths(&config)
    };
    assert_eq!(changed(0x06, 0xEF), (0, NONE));
    assert_eq!(changed(0x06, 0xFF), (0, expected(4)));
    assert_eq!(changed(MSIX, 0x10), (0, NONE));
    assert_eq!(changed(0x34, 0x03), (0, NONE));
    assert_eq!(changed(0x34, 0x73), (0, expected(4)));
}

#[test]
fn broken_lists() {
    let pointer = |pointer: u8| {
        let mut config = config(4);
        config[MSIX + 1] = pointer;
        config_lengths(&config)
    };
    for value in [0x00, 0x03, 0x40, 0x43] {
        assert_eq!(pointer(value), (0, expected(4)));
    }
    for value in [0x04, 0x3C, 0x3F, 0x70, 0x73] {
        assert_eq!(pointer(value), (0, NONE));
    }
}

#[test]
fn a_49th_capability() {
    let mut config = [0; 256];
    config[0x06] = 0x10;
    config[0x34] = 0x40;
    for at in (0x40..=0xFC).step_by(4) {
        config[at + 1] = (at as u8).wrapping_add(4);
    }
    config[0xFC] = 0x11;
    assert_eq!(config_lengths(&config), (0, expected(1)));
    config[0xFD] = 0x40;
    assert_eq!(config_lengths(&config), (0, NONE));
}

/// A start refuses these two with 12 and 13.
#[test]
fn msix_twice_and_past_the_end() {
    let mut twice = config(4);
    twice[MSIX + 1] = 0x90;
    twice[0x90..0x94].copy_from_slice(&[0x11, 0, 8, 0]);
    assert_eq!(config_lengths(&twice), (0, expected(4)));
    let mut last = [0; 256];
    last[0x06] = 0x10;
    last[0x34] = 0xFC;
    last[0xFC..].copy_from_slice(&[0x11, 0, 0xFF, 0x07]);
    assert_eq!(config_lengths(&last), (0, expected(2048)));
}

#[test]
fn lengths_of_a_configuration() {
    let whole = [&config(4)[..], &[0; 256]].concat();
    for length in [0, 1, 64, 255, 257, 289, 512] {
        assert_eq!(config_lengths(&whole[..length]), (60, NONE));
    }
    assert_eq!(config_lengths(&whole[..256]), (0, expected(4)));
}

#[test]
fn images_fit_their_lengths() {
    for vectors in [0, 1, 63, 64, 65, 2047, 2048] {
        let image = card(vectors).save();
        assert_eq!(image_lengths(&image), (0, expected(vectors)));
        let (_, table, pending) = expected(vectors);
        let (mut state, mut table) = ([0; 289], vec![0; table]);
        let mut pending = vec![0; pending];
        let refusal = raw::restore(&mut state, &mut table, &mut pending, &image);
        assert_eq!(refusal, 0);
        assert_eq!(Card::from_image(&image), Ok(card(vectors)));
    }
}

#[test]
fn refused_images() {
    let image = card(4).save();
    let changed = |at: usize, value: u8| {
        let mut image = image.clone();
        image[at] = value;
        image_lengths(&image)
    };
    for (at, mark) in [0x49, 0x52, 0x51].into_iter().enumerate() {
        assert_eq!(changed(at, mark), (0, expected(4)));
        assert_eq!(changed(at, mark ^ 1), (20, NONE));
    }
    assert_eq!(changed(3, 2), (21, NONE));
    assert_eq!(changed(4, 1), (21, NONE));
    // Wire active with the line low, another flag, and no event.
    assert_eq!(changed(5, 2), (22, NONE));
    assert_eq!(changed(5, 4), (22, NONE));
    assert_eq!(changed(6, 0), (22, NONE));
    // The last byte of the pending array: a vector that the card lacks.
    assert_eq!(changed(image.len() - 1, 0x80), (22, NONE));
    assert_eq!(Card::from_image(&image[1..]), Err(ImageError::Mark));
}

#[test]
fn lengths_of_an_image() {
    let image = [&card(4).save()[..], &[0; 8]].concat();
    for (length, refusal) in [
        (0, 20),
        (293, 20),
        (294, 22),
        (365, 22),
        (367, 22),
        (374, 22),
    ] {
        assert_eq!(image_lengths(&image[..length]), (refusal, NONE));
    }
    assert_eq!(image_lengths(&image[..366]), (0, expected(4)));
    // Each refusal comes before the next one.
    let wrong = |mark: u8, version: u8, length: usize| {
        let mut image = image.clone();
        image[2] = mark;
        image[3] = version;
        image_lengths(&image[..length]).0
    };
    assert_eq!(wrong(0, 0, 367), 20);
    assert_eq!(wrong(0x51, 0, 293), 20);
    assert_eq!(wrong(0x51, 0, 367), 21);
    assert_eq!(wrong(0x51, 1, 367), 22);
}

/// What is read of a packet.
#[derive(Clone, Copy, Debug, Default, PartialEq, Eq)]
struct Fields {
    count: usize,
    kind: u8,
    requester: u16,
    address: u64,
    data: u32,
    pin: u8,
    level: u8,
}

fn packet(bytes: &[u8]) -> (u8, Fields) {
    let mut fields = Fields {
        count: UNSET.into(),
        kind: UNSET,
        requester: UNSET.into(),
        address: UNSET.into(),
        data: UNSET.into(),
        pin: UNSET,
        level: UNSET,
    };
    let refusal = raw::packet(
        bytes,
        &mut fields.count,
        &mut fields.kind,
        &mut fields.requester,
        &mut fields.address,
        &mut fields.data,
        &mut fields.pin,
        &mut fields.level,
    );
    (refusal, fields)
}

/// Bytes that begin with no packet; all numbers are then 0.
fn refuses(bytes: &[u8]) {
    assert_eq!(packet(bytes), (60, Fields::default()), "{bytes:02X?}");
}

const REQUESTER: u16 = 0x12FD;

fn message(address: u64, data: u32) -> Packet {
    let requester = REQUESTER;
    Packet::Message {
        requester,
        address,
        data,
    }
}

fn wire(pin: u8, level: u8) -> Packet {
    let requester = REQUESTER;
    match level {
        0 => Packet::Deassert { requester, pin },
        _ => Packet::Assert { requester, pin },
    }
}

fn bytes(packet: Packet) -> Vec<u8> {
    packet.bytes().unwrap()
}

/// A packet of each layout.
fn layouts() -> [Vec<u8>; 3] {
    let (short, long) = (message(0xFEE0_0000, 0x49A1), message(0x1_FEE0_1000, 0x31));
    [short, long, wire(1, 1)].map(bytes)
}

fn changed(packet: &[u8], at: usize, value: u8) -> Vec<u8> {
    let mut bytes = packet.to_vec();
    bytes[at] = value;
    bytes
}

#[test]
fn fields_of_messages() {
    let ends = [0, 4, 0xFFFF_FFFC, 1 << 32, 0xFFFF_FFFF_0000_0000, !3];
    let bits = (2..64).map(|bit| 1 << bit);
    for address in bits.chain(ends) {
        for data in [0, 1, 0x1234_5678, u32::MAX] {
            let fields = Fields {
                count: if address >> 32 == 0 { 16 } else { 20 },
                kind: raw::PACKET_MESSAGE,
                requester: REQUESTER,
                address,
                data,
                ..Fields::default()
            };
            assert_eq!(packet(&bytes(message(address, data))), (0, fields));
        }
    }
}

#[test]
fn fields_of_wire_packets() {
    for pin in 1..=4 {
        for level in [0, 1] {
            let fields = Fields {
                count: 16,
                kind: raw::PACKET_WIRE,
                requester: REQUESTER,
                pin,
                level,
                ..Fields::default()
            };
            assert_eq!(packet(&bytes(wire(pin, level))), (0, fields));
        }
    }
    for code in [0x00, 0x1F, 0x28, 0xFF] {
        refuses(&changed(&bytes(wire(1, 1)), 7, code));
    }
}

#[test]
fn every_requester() {
    for layout in layouts() {
        for requester in 0..=u16::MAX {
            let mut bytes = layout.clone();
            bytes[4..6].copy_from_slice(&requester.to_be_bytes());
            let (refusal, fields) = packet(&bytes);
            assert_eq!((refusal, fields.requester), (0, requester));
        }
    }
}

/// The first four bytes, the two behind the requester, address bits 1:0 and the
/// zeros of a wire packet are fixed.
#[test]
fn every_byte_of_a_packet() {
    let free = |layout: &[u8], at: usize| match (layout[0], at) {
        (_, 4 | 5) => 0xFF,
        (0x34, 7) => 0x07,
        (0x34, _) | (_, 0..8) => 0,
        (0x40, 11) | (0x60, 15) => 0xFC,
        _ => 0xFF,
    };
    for layout in layouts() {
        for at in 0..layout.len() {
            for value in 0..=255 {
                let bytes = changed(&layout, at, value);
                let no_upper = bytes[0] == 0x60 && bytes[8..12] == [0; 4];
                if (value ^ layout[at]) & !free(&layout, at) != 0 || no_upper {
                    refuses(&bytes);
                } else {
                    assert_eq!(packet(&bytes).0, 0);
                }
            }
        }
    }
}

#[test]
fn cut_packets() {
    for layout in layouts() {
        for length in 0..layout.len() {
            refuses(&layout[..length]);
        }
        let whole = packet(&layout);
        assert_eq!((whole.0, whole.1.count), (0, layout.len()));
        for behind in [&[0][..], &[0x34], &[0xFF; 30], &layout] {
            assert_eq!(packet(&[&layout, behind].concat()), whole);
        }
    }
}

#[test]
fn packets_one_after_another() {
    let sent = [
        wire(4, 0),
        message(0x1_FEE0_1000, 0x31),
        message(0xFEE0_0000, 0x49A1),
        wire(2, 1),
        message(!3, u32::MAX),
    ];
    let mut row: Vec<u8> = sent.into_iter().flat_map(bytes).collect();
    let ends = row.len();
    row.extend([0x40, 0, 0, 1]);
    let mut at = 0;
    for expected in [16, 20, 16, 16, 20] {
        let (refusal, fields) = packet(&row[at..]);
        assert_eq!((refusal, fields.count), (0, expected));
        at += fields.count;
    }
    assert_eq!(at, ends);
    refuses(&row[at..]);
    assert_eq!(Packets::new(&row).collect::<Vec<_>>(), sent);
}

/// The longest output of a card: a Deassert and 2,048 long messages.
#[test]
fn the_most_packets() {
    let mut card = card(2048);
    card.config_write(0x04, 2, 2).unwrap();
    for vector in 0..2048 {
        card.bar_write(0, 16 * vector, 8, 0x1_FEE0_1000).unwrap();
        let data = u64::from(vector);
        card.bar_write(0, 16 * vector + 8, 8, data).unwrap();
    }
    card.config_write(MSIX as u16 + 2, 2, 0xC000).unwrap();
    for event in 0..2048 {
        card.event(event).unwrap();
    }
    card.config_write(MSIX as u16 + 2, 2, 0).unwrap();
    card.line(true);
    card.config_write(0x04, 2, 6).unwrap();
    let packets = card.config_write(MSIX as u16 + 2, 2, 0x8000).unwrap();
    assert_eq!(packets.bytes().len(), PACKET_BYTES);
    let mut rest = packets.bytes();
    let mut data = Vec::new();
    while let (0, fields) = packet(rest) {
        rest = &rest[fields.count..];
        data.push(fields.data);
    }
    assert!(rest.is_empty());
    assert_eq!(data.len(), 2049);
    assert!(data[1..].iter().copied().eq(0..2048));
}
