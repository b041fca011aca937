//! What makes a card not sound, one by one.

mod common;

use common::*;
use second_model::*;

/// A started card with MSI (64-bit, masks, Capable 2) and 65 MSI-X vectors.
fn both() -> Bench {
    Bench::started(&config_with(1, Some(0x184), Some(65)), 65)
}

/// Whether the card is sound after a change, and then whether all calls agree.
fn sound_after(change: impl Fn(&mut Bench)) -> bool {
    let mut bench = both();
    change(&mut bench);
    let sound = bench.sound();
    let number = if sound { 0 } else { 1 };
    assert_eq!(bench.read(0, 4).refusal, number);
    assert_eq!(bench.save().refusal, number);
    assert_eq!(bench.withdraw(0).refusal == 1, !sound);
    assert_eq!(bench.reset().refusal, number);
    sound
}

#[test]
fn bits_stored_as_0() {
    assert!(!sound_after(|b| b.card.config[0x06] |= 0x08));
    assert!(!sound_after(|b| b.card.config[MSI + 4] |= 1));
    assert!(!sound_after(|b| b.card.config[MSI + 4] |= 2));
    assert!(sound_after(|b| b.card.config[MSI + 4] |= 4));
    assert!(sound_after(|b| b.card.config[MSI + 0x10] |= 0x0F));
    assert!(!sound_after(|b| b.card.config[MSI + 0x10] |= 0x10));
    assert!(!sound_after(|b| b.card.config[MSI + 0x13] |= 0x80));
    for at in 0x14..0x18 {
        assert!(!sound_after(|b| b.card.config[MSI + at] |= 1));
    }
    assert!(!sound_after(|b| b.table[16 * 64] |= 2));
    assert!(sound_after(|b| b.table[16 * 64] |= 4));
    assert!(!sound_after(|b| b.table[16 * 64 + 12] |= 2));
    assert!(sound_after(|b| b.table[16 * 64 + 12] = 0));
    assert!(!sound_after(|b| b.table[16 * 64 + 15] |= 0x80));
}

#[test]
fn waiting_bits_without_a_vector() {
    assert!(sound_after(|b| b.pending[8] = 1));
    assert!(!sound_after(|b| b.pending[8] = 2));
    assert!(!sound_after(|b| b.pending[15] = 0x80));
    assert!(sound_after(|b| b.card.msi_waiting = 0x0F));
    assert!(!sound_after(|b| b.card.msi_waiting = 0x10));
    let mut none = Bench::started(&config_with(1, None, None), 1);
    none.card.msi_waiting = 1;
    assert!(!none.sound());
}

#[test]
fn wire_as_it_should_be() {
    assert!(!sound_after(|b| b.card.line = true));
    assert!(!sound_after(|b| b.card.wire = true));
    assert!(sound_after(|b| (b.card.line, b.card.wire) = (true, true)));
    assert!(sound_after(|b| {
        b.card.line = true;
        b.card.config[0x05] = 4;
    }));
}

#[test]
fn other_flags() {
    for bit in 2..8 {
        assert!(!sound_after(|b| b.card.other_flags = 1 << bit));
    }
}

#[test]
fn open_vectors_do_not_wait() {
    let msi = |b: &mut Bench| {
        b.card.config[MSI + 2] |= 1;
        b.card.msi_waiting = 1;
    };
    assert!(sound_after(msi));
    assert!(!sound_after(|b| {
        msi(b);
        b.card.config[0x04] = 4;
    }));
    let msix = |b: &mut Bench| {
        b.card.config[MSIX + 3] |= 0x80;
        b.pending[8] = 1;
        b.table[16 * 64 + 12] = 0;
    };
    assert!(sound_after(msix));
    assert!(!sound_after(|b| {
        msix(b);
        b.card.config[0x04] = 4;
    }));
    assert!(sound_after(|b| {
        msix(b);
        b.card.config[0x04] = 4;
        b.card.config[MSIX + 3] |= 0x40;
    }));
}

#[test]
fn shape_and_buffers() {
    assert!(!sound_after(|b| b.card.events = 64));
    assert!(!sound_after(|b| b.card.requester |= 1));
    assert!(!sound_after(|b| b.card.sizes = [0; 6]));
    assert!(!sound_after(|b| b.card.config[0x0E] = 1));
    assert!(!sound_after(|b| b.table.push(0)));
    assert!(!sound_after(|b| b.pending.truncate(8)));
    assert!(!is_sound(&both().card, &[], &[]));
}
