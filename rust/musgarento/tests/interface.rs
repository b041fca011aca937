//! What the C interface adds to document 01, through [`musgarento::raw`]:
//! lengths, flags, and numbers wider than their fields.

use musgarento::{raw, CARD_BYTES};

const CONTROL: u64 = 0x72;
const BAR: u64 = 2;
const TABLE: u64 = 0x1000;
const PENDING: u64 = 0;
const VECTORS: u16 = 4;
const REQUESTER: u64 = 0x0100;

/// What value, count and answer hold before a call, so that it shows if one is
/// not set.
const UNSET: u8 = 0xB7;

/// What a call gave; what it has not is 0.
#[derive(Clone, Copy, Debug, Default, PartialEq, Eq)]
struct Outcome {
    refusal: u8,
    value: u64,
    count: usize,
    answer: u8,
}

/// The outcome of a refused call.
fn refused(refusal: u8) -> Outcome {
    Outcome {
        refusal,
        ..Outcome::default()
    }
}

/// What a start is given.
#[derive(Clone)]
struct Given {
    config: Vec<u8>,
    sizes: Vec<u32>,
    events: u64,
    requester: u64,
}

/// A card with pin 1 and MSI-X.
fn given() -> Given {
    let mut config = vec![0; 256];
    config[0x06] = 0x10;
    config[0x34] = 0x70;
    config[0x3D] = 1;
    config[0x70] = 0x11;
    config[0x72..0x74].copy_from_slice(&(VECTORS - 1).to_le_bytes());
    config[0x74..0x76].copy_from_slice(&0x1002_u16.to_le_bytes());
    config[0x78] = 2;
    Given {
        config,
        sizes: vec![0x2000; 6],
        events: u64::from(VECTORS),
        requester: REQUESTER,
    }
}

/// The bytes that calls change.
#[derive(Clone, Debug, PartialEq, Eq)]
struct Host {
    card: Vec<u8>,
    table: Vec<u8>,
    pending: Vec<u8>,
    out: Vec<u8>,
}

impl Host {
    /// Buffers that fit, and a card of these bytes.
    fn new(card: u8) -> Host {
        Host {
            card: vec![card; CARD_BYTES],
            table: vec![0xAA; 16 * usize::from(VECTORS)],
            pending: vec![0xAA; 8],
            out: vec![0xEE; 400],
        }
    }

    /// A card with memory space on and MSI-X in force, which accepts each of
    /// `RUNNING`.
    fn started() -> Host {
        let mut host = Host::new(0);
        assert_eq!(host.start(&given()), 0);
        assert_eq!(host.config_write(0x04, 2, 2), Outcome::default());
        assert_eq!(host.config_write(CONTROL, 2, 0x8000), Outcome::default());
        host
    }

    fn start(&mut self, given: &Given) -> u8 {
        raw::start(
            &mut self.card,
            &given.config,
            &given.sizes,
            given.events,
            given.requester,
            &mut self.table,
            &mut self.pending,
        )
    }

    fn config_read(&self, offset: u64, width: u64) -> Outcome {
        let mut value = u32::from(UNSET);
        let refusal = raw::config_read(
            &self.card,
            &self.table,
            &self.pending,
            offset,
            width,
            &mut value,
        );
        Outcome {
            value: u64::from(value),
            ..refused(refusal)
        }
    }

    fn config_write(&mut self, offset: u64, width: u64, value: u32) -> Outcome {
        let mut count = usize::from(UNSET);
        let refusal = raw::config_write(
            &mut self.card,
            &self.table,
            &mut self.pending,
            offset,
            width,
            value,
            &mut self.out,
            &mut count,
        );
        Outcome {
            count,
            ..refused(refusal)
        }
    }

    fn bar_read(&self, bar: u64, offset: u64, width: u64) -> Outcome {
        let mut value = u64::from(UNSET);
        let refusal = raw::bar_read(
            &self.card,
            &self.table,
            &self.pending,
            bar,
            offset,
            width,
            &mut value,
        );
        Outcome {
            value,
            ..refused(refusal)
        }
    }

    fn bar_write(&mut self, bar: u64, offset: u64, width: u64, value: u64) -> Outcome {
        let mut count = usize::from(UNSET);
        let refusal = raw::bar_write(
            &mut self.card,
            &mut self.table,
            &mut self.pending,
            bar,
            offset,
            width,
            value,
            &mut self.out,
            &mut count,
        );
        Outcome {
            count,
            ..refused(refusal)
        }
    }

    fn event(&mut self, number: u64) -> Outcome {
        let (mut answer, mut count) = (UNSET, usize::from(UNSET));
        let refusal = raw::event(
            &mut self.card,
            &self.table,
            &mut self.pending,
            number,
            &mut self.out,
            &mut answer,
            &mut count,
        );
        Outcome {
            count,
            answer,
            ..refused(refusal)
        }
    }

    fn line(&mut self, level: u64) -> Outcome {
        let mut count = usize::from(UNSET);
        let refusal = raw::line(
            &mut self.card,
            &self.table,
            &self.pending,
            level,
            &mut self.out,
            &mut count,
        );
        Outcome {
            count,
            ..refused(refusal)
        }
    }

    fn reset(&mut self) -> Outcome {
        let mut count = usize::from(UNSET);
        let refusal = raw::reset(
            &mut self.card,
            &mut self.table,
            &mut self.pending,
            &mut self.out,
            &mut count,
        );
        Outcome {
            count,
            ..refused(refusal)
        }
    }

    fn save(&mut self) -> Outcome {
        let mut count = usize::from(UNSET);
        let refusal = raw::save(
            &self.card,
            &self.table,
            &self.pending,
            &mut self.out,
            &mut count,
        );
        Outcome {
            count,
            ..refused(refusal)
        }
    }

    fn restore(&mut self, image: &[u8]) -> u8 {
        raw::restore(&mut self.card, &mut self.table, &mut self.pending, image)
    }

    /// The image of the card.
    fn image(&self) -> Vec<u8> {
        let mut copy = self.clone();
        let count = copy.save().count;
        copy.out[..count].to_vec()
    }

    /// Makes a call that is refused with this number and changes nothing.
    fn refuses(&mut self, refusal: u8, call: impl FnOnce(&mut Host) -> Outcome) {
        let before = self.clone();
        assert_eq!(call(self), refused(refusal));
        assert_eq!(*self, before);
    }
}

/// The calls of a running card.
const RUNNING: [fn(&mut Host) -> Outcome; 8] = [
    |host| host.config_read(0x04, 4),
    |host| host.config_write(0x3C, 1, 7),
    |host| host.bar_read(BAR, TABLE, 8),
    |host| host.bar_write(BAR, TABLE, 8, 0x1_FEE0_1000),
    |host| host.event(3),
    |host| host.line(1),
    |host| host.reset(),
    |host| host.save(),
];

/// Flags bytes with one bit of bits 2 to 7, and with all of them.
const OTHER_FLAGS: [u8; 7] = [0x04, 0x08, 0x10, 0x20, 0x40, 0x80, 0xFC];

/// Numbers that a cut to one of these numbers of bits makes `number`.
fn wider(number: u64, bits: &[u32]) -> Vec<u64> {
    let more = |&bits: &u32| [number + (1 << bits), number | u64::MAX << bits];
    bits.iter().flat_map(more).collect()
}

#[test]
fn accepted_calls() {
    for call in RUNNING {
        assert_eq!(call(&mut Host::started()).refusal, 0);
    }
}

#[test]
fn lengths_of_the_card() {
    for length in [0, 288, 290] {
        for flags in [0, 0xFC] {
            let mut host = Host::started();
            let image = host.image();
            host.card.resize(length, 0);
            if let Some(byte) = host.card.first_mut() {
                *byte = flags;
            }
            for call in RUNNING {
                host.refuses(60, call);
            }
            host.refuses(60, |host| refused(host.start(&given())));
            host.refuses(60, |host| refused(host.restore(&image)));
            host.refuses(60, |host| refused(host.restore(&[])));
        }
    }
}

#[test]
fn lengths_of_configuration_and_sizes() {
    let mut host = Host::new(0xFF);
    for (config, sizes) in [(255, 6), (257, 6), (256, 5), (256, 7)] {
        let mut given = given();
        given.config.resize(config, 0);
        given.sizes.resize(sizes, 0);
        host.refuses(60, |host| refused(host.start(&given)));
    }
}

#[test]
fn other_flags_are_not_sound() {
    for flags in OTHER_FLAGS {
        for call in RUNNING {
            let mut host = Host::started();
            host.card[0] |= flags;
            host.refuses(1, call);
        }
    }
}

#[test]
fn start_over_other_flags() {
    let mut expected = Host::new(0);
    assert_eq!(expected.start(&given()), 0);
    for flags in OTHER_FLAGS {
        let mut host = Host::new(0xFF);
        host.card[0] = flags;
        assert_eq!(host.start(&given()), 0);
        assert_eq!(host, expected);
        let mut pin_5 = given();
        pin_5.config[0x3D] = 5;
        host.card[0] = flags;
        assert_eq!(host.start(&pin_5), 10);
        assert_eq!(host.card, [0; CARD_BYTES]);
        host.card[0] = flags;
        host.table.pop();
        assert_eq!(host.start(&given()), 17);
        assert_eq!(host.card, [0; CARD_BYTES]);
        host.table.push(0);
    }
}

#[test]
fn restore_over_other_flags() {
    let expected = Host::started();
    for flags in OTHER_FLAGS {
        let mut host = expected.clone();
        host.card[0] |= flags;
        assert_eq!(host.restore(&expected.image()), 0);
        assert_eq!(host, expected);
    }
}

#[test]
fn refused_restore_over_other_flags() {
    let image = Host::started().image();
    let changed = |at: usize, value: u8| {
        let mut image = image.clone();
        image[at] = value;
        image
    };
    for flags in OTHER_FLAGS {
        let mut host = Host::started();
        host.card[0] |= flags;
        host.refuses(20, |host| refused(host.restore(&image[..293])));
        host.refuses(20, |host| refused(host.restore(&changed(0, 0))));
        host.refuses(21, |host| refused(host.restore(&changed(3, 2))));
        host.refuses(22, |host| refused(host.restore(&changed(5, flags))));
        host.table.pop();
        host.refuses(17, |host| refused(host.restore(&image)));
    }
}

#[test]
fn wide_numbers_of_a_start() {
    let start = |events, requester, table: usize| {
        let mut host = Host::new(0xFF);
        host.table.truncate(table);
        let table = host.table.clone();
        let refusal = host.start(&Given {
            events,
            requester,
            ..given()
        });
        assert_eq!(host.card, [0; CARD_BYTES]);
        assert_eq!(host.table, table);
        refusal
    };
    let bits = [16, 32];
    for events in wider(u64::from(VECTORS), &bits) {
        assert_eq!(start(events, REQUESTER, 64), 15);
        assert_eq!(start(events, 1 << 16, 64), 15);
    }
    for requester in wider(REQUESTER, &bits) {
        assert_eq!(start(u64::from(VECTORS), requester, 64), 16);
        assert_eq!(start(u64::from(VECTORS), requester, 63), 16);
    }
}

#[test]
fn wide_configuration_accesses() {
    let mut host = Host::started();
    for width in wider(4, &[8, 16, 32]) {
        host.refuses(3, |host| host.config_read(0x04, width));
        host.refuses(3, |host| host.config_write(0x04, width, 6));
    }
    for offset in wider(0x04, &[8, 16, 32]) {
        host.refuses(3, |host| host.config_read(offset, 4));
        host.refuses(3, |host| host.config_write(offset, 4, 6));
    }
}

#[test]
fn wide_bar_accesses() {
    let mut host = Host::started();
    let mut refuses = |bar, offset, width| {
        host.refuses(4, |host| host.bar_read(bar, offset, width));
        host.refuses(4, |host| host.bar_write(bar, offset, width, 4));
    };
    for width in wider(4, &[8, 16, 32]) {
        refuses(BAR, TABLE, width);
    }
    for bar in wider(BAR, &[8, 16, 32]) {
        refuses(bar, TABLE, 4);
    }
    for offset in wider(TABLE, &[32]).into_iter().chain(wider(PENDING, &[32])) {
        refuses(BAR, offset, 8);
    }
    refuses(BAR, u64::MAX - 7, 8);
}

#[test]
fn wide_event_numbers() {
    let mut host = Host::started();
    for number in wider(3, &[8, 16, 32]) {
        host.refuses(2, |host| host.event(number));
    }
}

#[test]
fn wide_levels_are_high() {
    for level in [256, 1 << 16, 1 << 32, 1 << 63, u64::MAX] {
        let mut host = Host::new(0);
        assert_eq!(host.start(&given()), 0);
        let sent = host.line(level);
        assert_eq!((sent.refusal, sent.count), (0, 16));
        assert_eq!(host.card[0], 3);
        assert_eq!(host.out[7], 0x20);
        assert_eq!(host.line(level), Outcome::default());
    }
}
