//! Withdrawals: through [`Card`], through [`Recorded`], whose log they end, and
//! through [`raw`], with any lengths and numbers.

use musgarento::{
    raw, Answer, Card, EndedBy, Player, Recorded, Refusal, Start, WithdrawError, CARD_BYTES,
};
use std::io::{self, Write};

const COMMAND: u16 = 0x04;
const MSI: u16 = 0x50;
const MSIX: u16 = 0x70;
const BAR: u8 = 2;
const TABLE: u32 = 0x1000;
const VECTORS: u16 = 65;

/// Flags and MSI waiting bits in a card's bytes.
const FLAGS: usize = 0;
const MSI_WAITING: usize = 5;

/// Numbers that no vector has, the last three with a vector's number in their
/// low 16 or 32 bits.
const NO_VECTOR: [u64; 6] = [2_048, 65_535, u64::MAX, 65_536, 65_539, 1 << 32];

/// What a card with pin 1, MSI of Capable 3 with masks, and MSI-X starts from.
fn start() -> Start {
    let mut config = [0; 256];
    let (msi, msix) = (usize::from(MSI), usize::from(MSIX));
    config[0x06] = 0x10;
    config[0x34] = MSI as u8;
    config[0x3D] = 1;
    config[msi..msi + 4].copy_from_slice(&[0x05, MSIX as u8, 3 << 1, 0x01]);
    config[msix] = 0x11;
    config[msix + 2..msix + 4].copy_from_slice(&(VECTORS - 1).to_le_bytes());
    config[msix + 4..msix + 8].copy_from_slice(&(TABLE | u32::from(BAR)).to_le_bytes());
    config[msix + 8] = BAR;
    Start {
        config,
        sizes: [0x2000; 6],
        events: VECTORS,
        requester: 0x0100,
    }
}

/// The card with bus mastering off, so that every vector is shut.
fn shut() -> Card {
    let mut card = Card::start(&start()).unwrap();
    write(&mut card, COMMAND, 2);
    card
}

/// Makes a configuration write of 16 bits that sends nothing.
fn write(card: &mut Card, offset: u16, value: u32) {
    assert_eq!(card.config_write(offset, 2, value).unwrap().count(), 0);
}

/// Switches MSI on with this Multiple Message Enable.
fn switch_msi(card: &mut Card, enable: u32) {
    write(card, MSI + 2, 1 | enable << 4);
}

/// Switches MSI-X on.
fn switch_msix(card: &mut Card) {
    write(card, MSIX + 2, 0x8000);
}

fn held(card: &mut Card, number: u16) {
    assert_eq!(card.event(number).unwrap().answer, Answer::Held);
}

/// Makes a withdrawal that changes nothing.
fn changes_nothing(card: &mut Card, vector: u16) -> Result<bool, WithdrawError> {
    let before = card.clone();
    let result = card.withdraw(vector);
    assert_eq!(*card, before);
    result
}

#[test]
fn a_satisfied_cause_does_not_interrupt_later() {
    for withdraws in [false, true] {
        let mut card = shut();
        switch_msix(&mut card);
        write(&mut card, COMMAND, 6);
        held(&mut card, 3);
        if withdraws {
            assert_eq!(card.withdraw(3), Ok(true));
        }
        let control = TABLE + 16 * 3 + 12;
        let sent = card.bar_write(BAR, control, 4, 0).unwrap().count();
        assert_eq!(sent, usize::from(!withdraws));
        // The vector is open now: it does not wait, and its events are sent.
        assert_eq!(changes_nothing(&mut card, 3), Ok(false));
        assert_eq!(card.event(3).unwrap().answer, Answer::Sent);
    }
}

#[test]
fn a_withdrawal_gives_the_card_without_the_event() {
    let mut card = shut();
    switch_msix(&mut card);
    held(&mut card, 7);
    let without = card.clone();
    held(&mut card, 64);
    assert_eq!(card.withdraw(64), Ok(true));
    assert_eq!(card, without);
    assert_eq!(changes_nothing(&mut card, 64), Ok(false));
    held(&mut card, 64);
}

#[test]
fn the_pin_comes_before_the_vector() {
    let mut card = shut();
    for vector in [0, 7, 8, VECTORS - 1, VECTORS, 65_535] {
        assert_eq!(
            changes_nothing(&mut card, vector),
            Err(WithdrawError::Pin),
            "{vector}"
        );
    }
    assert_eq!(Refusal::from(WithdrawError::Pin), Refusal::PinInForce);
    assert_eq!(Refusal::from(WithdrawError::Vector), Refusal::Event);
    assert_eq!(WithdrawError::Pin.number(), 7);
    assert_eq!(WithdrawError::Vector.number(), 2);
}

#[test]
fn borders_of_both_mechanisms() {
    let mut card = shut();
    switch_msi(&mut card, 3);
    held(&mut card, 7);
    switch_msi(&mut card, 1);
    assert_eq!(card.withdraw(7), Ok(true));
    assert_eq!(changes_nothing(&mut card, 7), Ok(false));
    for vector in [8, 31, 32, VECTORS - 1, 65_535] {
        assert_eq!(
            changes_nothing(&mut card, vector),
            Err(WithdrawError::Vector)
        );
    }
    switch_msix(&mut card);
    held(&mut card, VECTORS - 1);
    assert_eq!(card.withdraw(VECTORS - 1), Ok(true));
    for vector in [VECTORS, VECTORS + 1, 127, 128, 65_535] {
        assert_eq!(
            changes_nothing(&mut card, vector),
            Err(WithdrawError::Vector)
        );
    }
}

#[test]
fn only_the_mechanism_in_force() {
    let mut card = shut();
    switch_msi(&mut card, 3);
    held(&mut card, 5);
    let msi_alone = card.clone();
    switch_msix(&mut card);
    held(&mut card, 5);
    let both = card.clone();
    assert_eq!(card.withdraw(5), Ok(true));
    write(&mut card, MSIX + 2, 0);
    assert_eq!(card, msi_alone);
    let mut card = both;
    write(&mut card, MSIX + 2, 0);
    assert_eq!(card.withdraw(5), Ok(true));
    assert_eq!(changes_nothing(&mut card, 5), Ok(false));
    switch_msix(&mut card);
    assert_eq!(card.withdraw(5), Ok(true));
}

/// The card that a log leads to.
fn played(mut card: Card, log: &[u8]) -> Card {
    let (mut player, mut rest) = (Player::new(), log);
    while !rest.is_empty() {
        let played = player.play(&mut card, rest);
        played.call.unwrap();
        rest = &rest[played.taken..];
    }
    assert!(player.is_complete());
    card
}

/// A card that is recorded, with MSI-X in force and vector 3 held, and its log.
fn recorded<W: Write>(log: W) -> Recorded<W> {
    let mut card = Recorded::start(&start(), log).unwrap();
    card.config_write(MSIX + 2, 2, 0x8000).unwrap();
    assert_eq!(card.event(3).unwrap().answer, Answer::Held);
    card
}

const LOG: [u8; 16] = [
    0x43, 0x4C, 0x47, 1, 0, 3, 0x72, 0, 2, 0, 0x80, 0, 0, 1, 3, 0,
];

#[test]
fn an_accepted_withdrawal_ends_the_log() {
    for (vector, was_set) in [(3, true), (4, false)] {
        let mut card = recorded(Vec::new());
        assert_eq!((card.is_recording(), card.ended_by()), (true, None));
        let before = card.card().clone();
        assert_eq!(card.withdraw(vector), Ok(was_set));
        assert_eq!(card.ended_by(), Some(EndedBy::Withdrawal));
        assert!(!card.is_recording() && card.error().is_none());
        let answer = card.event(3).unwrap().answer;
        assert_eq!(answer == Answer::Held, was_set);
        card.reset();
        let (card, log) = card.finish().unwrap();
        assert_eq!(log, LOG);
        assert_eq!(played(Card::start(&start()).unwrap(), &log), before);

        // Another log is begun with the card as it is.
        let mut card = Recorded::new(card, Vec::new()).unwrap();
        assert_eq!((card.is_recording(), card.ended_by()), (true, None));
        card.line(true);
        assert_eq!(card.into_parts().1, [&LOG[..5], &[2, 1]].concat());
    }
}

#[test]
fn a_refused_withdrawal_leaves_the_log_going_on() {
    let mut card = Recorded::start(&start(), Vec::new()).unwrap();
    assert_eq!(card.withdraw(0), Err(WithdrawError::Pin));
    card.config_write(MSIX + 2, 2, 0x8000).unwrap();
    assert_eq!(card.withdraw(VECTORS), Err(WithdrawError::Vector));
    assert_eq!((card.is_recording(), card.ended_by()), (true, None));
    card.event(3).unwrap();
    let (card, log) = card.finish().unwrap();
    assert_eq!(log, LOG);
    assert_eq!(played(Card::start(&start()).unwrap(), &log), card);
}

#[test]
fn the_first_reason_counts() {
    let mut card = recorded(Vec::new());
    let image = card.save();
    card.restore(&image).unwrap();
    assert_eq!(card.ended_by(), Some(EndedBy::Restore));
    assert_eq!(card.withdraw(3), Ok(true));
    assert_eq!(card.ended_by(), Some(EndedBy::Restore));

    let mut card = recorded(Vec::new());
    assert_eq!(card.withdraw(3), Ok(true));
    card.restore(&image).unwrap();
    assert_eq!(card.ended_by(), Some(EndedBy::Withdrawal));
}

/// Takes this many bytes and then fails.
#[derive(Debug)]
struct Failing(usize);

impl Write for Failing {
    fn write(&mut self, bytes: &[u8]) -> io::Result<usize> {
        if bytes.len() > self.0 {
            return Err(io::Error::other("full"));
        }
        self.0 -= bytes.len();
        Ok(bytes.len())
    }

    fn flush(&mut self) -> io::Result<()> {
        Ok(())
    }
}

#[test]
fn an_error_ends_the_log() {
    let mut card = recorded(Failing(LOG.len()));
    assert_eq!((card.is_recording(), card.ended_by()), (true, None));
    card.line(true);
    assert_eq!(card.ended_by(), Some(EndedBy::Error));
    assert!(!card.is_recording() && card.error().is_some());
    assert_eq!(card.withdraw(3), Ok(true));
    assert_eq!(card.ended_by(), Some(EndedBy::Error));
    assert!(card.finish().is_err());

    // After a withdrawal nothing is written, so that nothing fails.
    let mut card = recorded(Failing(LOG.len()));
    assert_eq!(card.withdraw(3), Ok(true));
    card.line(true);
    assert_eq!(card.ended_by(), Some(EndedBy::Withdrawal));
    assert!(card.error().is_none() && card.finish().is_ok());
}

/// The bytes of a card and of its buffers.
#[derive(Clone, Debug, PartialEq, Eq)]
struct Host {
    card: Vec<u8>,
    table: Vec<u8>,
    pending: Vec<u8>,
}

impl Host {
    fn started() -> Host {
        let start = start();
        let mut host = Host {
            card: vec![0; CARD_BYTES],
            table: vec![0xAA; 16 * usize::from(VECTORS)],
            pending: vec![0xAA; 16],
        };
        let refusal = raw::start(
            &mut host.card,
            &start.config,
            &start.sizes,
            start.events.into(),
            start.requester.into(),
            &mut host.table,
            &mut host.pending,
        );
        assert_eq!(refusal, 0);
        host
    }

    /// With MSI in force, all of its vectors granted.
    fn msi() -> Host {
        let mut host = Host::started();
        host.write(MSI + 2, 1 | 3 << 4);
        host
    }

    /// With MSI-X in force.
    fn msix() -> Host {
        let mut host = Host::started();
        host.write(MSIX + 2, 0x8000);
        host
    }

    fn write(&mut self, offset: u16, value: u32) {
        let mut count = 0;
        let refusal = raw::config_write(
            &mut self.card,
            &self.table,
            &mut self.pending,
            offset.into(),
            2,
            value,
            &mut [],
            &mut count,
        );
        assert_eq!((refusal, count), (0, 0));
    }

    fn held(&mut self, number: u64) {
        let (mut answer, mut count) = (0, 0);
        let refusal = raw::event(
            &mut self.card,
            &self.table,
            &mut self.pending,
            number,
            &mut [],
            &mut answer,
            &mut count,
        );
        assert_eq!((refusal, answer, count), (0, Answer::Held as u8, 0));
    }

    /// A withdrawal's refusal and `was_set`, which holds another number before.
    fn withdraw(&mut self, vector: u64) -> (u8, u8) {
        let mut was_set = 0xB7;
        let (table, pending) = (&self.table, &mut self.pending);
        let refusal = raw::withdraw(&mut self.card, table, pending, vector, &mut was_set);
        (refusal, was_set)
    }

    /// An accepted withdrawal's `was_set`.
    fn withdrawn(&mut self, vector: u64) -> u8 {
        let (refusal, was_set) = self.withdraw(vector);
        assert_eq!(refusal, 0);
        was_set
    }

    /// The refusal of a withdrawal that is refused, changes nothing, and sets
    /// `was_set` to 0.
    fn refused(&mut self, vector: u64) -> u8 {
        let before = self.clone();
        let (refusal, was_set) = self.withdraw(vector);
        assert_ne!(refusal, 0);
        assert_eq!(was_set, 0);
        assert_eq!(*self, before);
        refusal
    }
}

/// Cards with the pin, MSI and MSI-X in force.
fn hosts() -> [Host; 3] {
    [Host::started(), Host::msi(), Host::msix()]
}

#[test]
fn another_length_of_a_card_is_60() {
    for host in hosts() {
        for length in [0, 1, CARD_BYTES - 1, CARD_BYTES + 1, 600] {
            let mut other = host.clone();
            other.card.resize(length, 0);
            assert_eq!(other.refused(0), 60);
            other.table.clear();
            other.pending.push(0);
            for vector in NO_VECTOR {
                assert_eq!(other.refused(vector), 60);
            }
        }
    }
}

#[test]
fn other_lengths_of_buffers_are_1() {
    for host in hosts() {
        for length in [0, 15, 16 * 64, 16 * 65 - 1, 16 * 65 + 1, 16 * 66] {
            let mut other = host.clone();
            other.table.resize(length, 0);
            assert_eq!(other.refused(0), 1);
            assert_eq!(other.refused(u64::MAX), 1);
        }
        for length in [0, 8, 15, 17, 24] {
            let mut other = host.clone();
            other.pending.resize(length, 0);
            assert_eq!(other.refused(0), 1);
            assert_eq!(other.refused(64), 1);
        }
    }
}

#[test]
fn an_unsound_card_is_1() {
    for host in hosts() {
        for flags in 1..=255 {
            let mut other = host.clone();
            other.card[FLAGS] = flags;
            // A line that is high, and as the wire should be, is sound.
            let wire = if host == Host::started() { 3 } else { 1 };
            if flags != wire {
                assert_eq!(other.refused(0), 1);
                assert_eq!(other.refused(u64::MAX), 1);
            }
        }
        let mut other = host.clone();
        other.card[MSI_WAITING + 1] = 1;
        assert_eq!(other.refused(8), 1);
        let mut other = host.clone();
        other.pending[8] = 2;
        assert_eq!(other.refused(65), 1);
        let mut other = host.clone();
        other.card.fill(0);
        assert_eq!(other.refused(0), 1);
    }
}

#[test]
fn no_number_is_cut() {
    for vector in (0..66).chain(NO_VECTOR) {
        assert_eq!(Host::started().refused(vector), 7);
    }
    let (mut msi, mut msix) = (Host::msi(), Host::msix());
    for vector in 0..8 {
        msi.held(vector);
        msix.held(vector);
    }
    for vector in 0..8 {
        for bit in 16..64 {
            assert_eq!(msi.refused(vector | 1 << bit), 2);
            assert_eq!(msix.refused(vector | 1 << bit), 2);
        }
        assert_eq!(msi.refused(vector + 256), 2);
    }
    for vector in NO_VECTOR {
        assert_eq!(msi.refused(vector), 2);
        assert_eq!(msix.refused(vector), 2);
    }
}

#[test]
fn borders_in_bytes() {
    let mut msi = Host::msi();
    msi.held(7);
    msi.write(MSI + 2, 1 | 1 << 4);
    assert_eq!(msi.card[MSI_WAITING], 0x80);
    for vector in [8, 9, 31, 32, 64] {
        assert_eq!(msi.refused(vector), 2);
    }
    assert_eq!(msi.withdrawn(7), 1);
    assert_eq!(msi.card[MSI_WAITING], 0);
    assert_eq!(msi.withdrawn(7), 0);
    let mut msix = Host::msix();
    msix.held(64);
    assert_eq!(msix.pending[8], 1);
    for vector in [65, 66, 127, 128, 2_048] {
        assert_eq!(msix.refused(vector), 2);
    }
    assert_eq!(msix.withdrawn(64), 1);
    assert_eq!(msix, Host::msix());
    assert_eq!(msix.withdrawn(64), 0);
    assert_eq!(msix, Host::msix());
}

#[test]
fn the_other_mechanism_in_bytes() {
    let mut host = Host::msi();
    host.held(5);
    host.write(MSIX + 2, 0x8000);
    host.held(5);
    assert_eq!((host.card[MSI_WAITING], host.pending[0]), (0x20, 0x20));
    assert_eq!(host.withdrawn(5), 1);
    assert_eq!((host.card[MSI_WAITING], host.pending[0]), (0x20, 0));
    assert_eq!(host.withdrawn(5), 0);
    host.held(5);
    host.write(MSIX + 2, 0);
    assert_eq!(host.withdrawn(5), 1);
    assert_eq!((host.card[MSI_WAITING], host.pending[0]), (0, 0x20));
}
