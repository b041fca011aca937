//! Request 3 of document 02: withdrawals.

mod common;

use common::*;
use second_model::*;

/// Numbers that no vector has, the last three with a vector's number in their
/// low 16 or 32 bits.
const NO_VECTOR: [u64; 6] = [2_048, 65_535, u64::MAX, 65_536, 65_539, 1 << 32];
/// The control words of the four MSI forms, all else 0.
const FORMS: [u16; 4] = [0x000, 0x080, 0x100, 0x180];

/// A card with this many MSI-X vectors in force, memory space and bus
/// mastering on and all entries masked, and MSI of this control word.
fn msix_card(msi: Option<u16>, vectors: u16) -> Bench {
    let config = config_with(1, msi, Some(vectors));
    let mut bench = Bench::started(&config, u64::from(vectors));
    assert_eq!(bench.write(0x04, 2, 6).refusal, 0);
    assert_eq!(bench.write(MSIX + 2, 2, 0x8000).refusal, 0);
    bench
}

/// A card with MSI of this control word in force, 32 events, and bus mastering
/// off, so that every vector is shut.
fn msi_card(control: u16, enable: u32) -> Bench {
    let mut bench = Bench::started(&config_with(1, Some(control), None), 32);
    bench.switch_msi(enable);
    bench
}

impl Bench {
    /// Switches MSI on with this Multiple Message Enable.
    fn switch_msi(&mut self, enable: u32) {
        assert_eq!(self.write(MSI + 2, 2, 1 | enable << 4).refusal, 0);
    }

    /// An event that is held.
    fn held(&mut self, number: u64) {
        assert_eq!(self.event(number).answer, Some(Answer::Held));
    }

    /// A withdrawal that is accepted: it sends nothing, changes at most one
    /// waiting bit, and says whether it was set.
    fn withdrawn(&mut self, vector: u64) -> bool {
        self.out.fill(0xEE);
        let before = self.clone();
        let outcome = self.withdraw(vector);
        assert_eq!((outcome.refusal, outcome.count), (0, 0));
        assert_eq!(outcome.answer, None);
        assert!(outcome.value < 2);
        assert!(self.sound());
        assert_eq!(self.waiting() + outcome.value as u32, before.waiting());
        let mut same = self.clone();
        same.pending.clone_from(&before.pending);
        same.card.msi_waiting = before.card.msi_waiting;
        assert_eq!(same, before);
        outcome.value == 1
    }

    /// The refusal of a withdrawal that changes nothing.
    fn refused(&mut self, vector: u64) -> u8 {
        let before = self.clone();
        let outcome = self.withdraw(vector);
        assert_ne!(outcome.refusal, 0);
        assert_eq!(*self, before);
        assert_eq!((outcome.value, outcome.count), (0, 0));
        assert_eq!(outcome.answer, None);
        outcome.refusal
    }

    /// The number of waiting bits of both mechanisms.
    fn waiting(&self) -> u32 {
        let msix: u32 = self.pending.iter().map(|byte| byte.count_ones()).sum();
        msix + self.card.msi_waiting.count_ones()
    }
}

#[test]
fn a_satisfied_cause_does_not_interrupt_later() {
    for withdraws in [false, true] {
        let mut bench = msix_card(None, 4);
        bench.entry(3, 1, 0xFEE0_1000, 0x31, 1);
        bench.held(3);
        if withdraws {
            assert!(bench.withdrawn(3));
        }
        let unmasked = bench.entry_control(3, 0);
        let count = if withdraws { 0 } else { 20 };
        assert_eq!((unmasked.refusal, unmasked.count), (0, count));
        // A later event is sent as ever.
        let event = bench.event(3);
        assert_eq!((event.answer, event.count), (Some(Answer::Sent), 20));
    }
}

#[test]
fn a_withdrawn_vector_waits_again() {
    let mut bench = msix_card(None, 4);
    bench.held(3);
    assert_eq!(bench.event(3).answer, Some(Answer::Merged));
    assert!(bench.withdrawn(3));
    assert!(!bench.withdrawn(3));
    bench.held(3);
    assert_eq!(bench.entry_control(3, 0).count, 16);
    assert!(!bench.withdrawn(3));
}

#[test]
fn the_pin_is_7_before_2() {
    let cards = [
        config_with(1, None, None),
        config_with(0, Some(0x186), None),
        config_with(1, None, Some(65)),
        config_with(4, Some(0x00A), Some(65)),
    ];
    for config in cards {
        let mut bench = Bench::started(&config, 65);
        for vector in (0..66).chain(NO_VECTOR) {
            assert_eq!(bench.refused(vector), 7);
        }
        bench.line(true);
        assert_eq!(bench.refused(0), 7);
        assert_eq!(bench.refused(65_535), 7);
    }
}

#[test]
fn bits_kept_under_the_pin_stay() {
    let mut bench = msix_card(None, 65);
    bench.held(64);
    bench.write(MSIX + 2, 2, 0);
    assert_eq!(bench.refused(64), 7);
    bench.write(MSIX + 2, 2, 0x8000);
    assert!(bench.withdrawn(64));
}

#[test]
fn msix_vectors_below_n() {
    for vectors in [1, 2, 63, 64, 65, 2_048] {
        let mut bench = msix_card(None, vectors);
        let n = u64::from(vectors);
        assert!(!bench.withdrawn(0));
        bench.held(n - 1);
        assert!(bench.withdrawn(n - 1));
        assert!(!bench.withdrawn(n - 1));
        for vector in [n, n + 1, n + 63].into_iter().chain(NO_VECTOR) {
            assert_eq!(bench.refused(vector), 2);
        }
    }
}

#[test]
fn msi_vectors_below_2_to_the_power_of_capable() {
    for form in FORMS {
        for capable in 0..=5 {
            let mut bench = msi_card(form | capable << 1, u32::from(capable));
            let border = 1 << capable;
            bench.held(border - 1);
            // Only one vector is granted now.
            bench.switch_msi(0);
            assert!(bench.withdrawn(border - 1));
            assert!(!bench.withdrawn(border - 1));
            for vector in [border, border + 1, 32].into_iter().chain(NO_VECTOR) {
                assert_eq!(bench.refused(vector), 2);
            }
        }
    }
}

#[test]
fn msi_vectors_above_granted() {
    let mut bench = msi_card(3 << 1, 3);
    bench.held(7);
    bench.switch_msi(1);
    assert!(bench.withdrawn(7));
    assert!(!bench.withdrawn(2));
    assert_eq!(bench.refused(8), 2);
    // With bus mastering and all eight granted again vector 7 sends nothing.
    bench.write(0x04, 2, 4);
    assert_eq!(bench.write(MSI + 2, 2, 1 | 3 << 4).count, 0);
}

#[test]
fn enable_above_capable_moves_no_border() {
    for enable in 0..8 {
        let mut bench = msi_card(2 << 1, enable);
        assert!(!bench.withdrawn(3));
        assert_eq!(bench.refused(4), 2);
    }
}

#[test]
fn only_the_mechanism_in_force() {
    let mut bench = Bench::started(&config_with(1, Some(0x186), Some(65)), 65);
    bench.write(0x04, 2, 2);
    bench.switch_msi(3);
    bench.held(5);
    bench.write(MSIX + 2, 2, 0x8000);
    bench.held(5);
    assert_eq!((bench.card.msi_waiting, bench.pending[0]), (0x20, 0x20));
    // Both are switched on, so MSI-X is in force.
    assert!(bench.withdrawn(5));
    assert_eq!((bench.card.msi_waiting, bench.pending[0]), (0x20, 0));
    assert!(!bench.withdrawn(5));
    assert!(!bench.withdrawn(8));
    bench.held(5);
    bench.write(MSIX + 2, 2, 0);
    assert!(bench.withdrawn(5));
    assert_eq!((bench.card.msi_waiting, bench.pending[0]), (0, 0x20));
    assert!(!bench.withdrawn(5));
    assert_eq!(bench.refused(8), 2);
}

#[test]
fn other_vectors_stay() {
    let mut bench = msix_card(None, 130);
    for vector in [0, 7, 8, 63, 64, 65, 129] {
        bench.held(vector);
    }
    assert!(bench.withdrawn(64));
    for vector in [0, 7, 8, 63, 65, 129] {
        assert_eq!(bench.event(vector).answer, Some(Answer::Merged));
    }
    let mut bench = msi_card(5 << 1, 5);
    for vector in 0..32 {
        bench.held(vector);
    }
    assert!(bench.withdrawn(31));
    assert!(bench.withdrawn(8));
    assert_eq!(bench.card.msi_waiting, 0x7FFF_FEFF);
}

#[test]
fn an_open_vector_does_not_wait() {
    let mut bench = msix_card(None, 4);
    bench.entry(2, 0, 0xFEE0_0000, 0x40, 0);
    assert!(!bench.withdrawn(2));
    assert_eq!(bench.event(2).answer, Some(Answer::Sent));
    let mut bench = msi_card(2 << 1, 2);
    bench.write(0x04, 2, 4);
    assert!(!bench.withdrawn(1));
    assert_eq!(bench.event(1).answer, Some(Answer::Sent));
}

#[test]
fn each_way_to_be_shut() {
    // Function Mask, the entry's mask, and bus mastering.
    for (control, command, entry) in [(0xC000, 6, 0), (0x8000, 6, 1), (0x8000, 2, 0)] {
        let mut bench = msix_card(None, 4);
        bench.entry_control(1, entry);
        bench.write(MSIX + 2, 2, control);
        bench.write(0x04, 2, command);
        bench.held(1);
        assert!(bench.withdrawn(1));
    }
    // A mask bit.
    let mut bench = msi_card(0x100 | 2 << 1, 2);
    bench.write(MSI + 0x0C, 4, 1 << 1);
    bench.write(0x04, 2, 4);
    bench.held(1);
    assert_eq!(bench.read(MSI + 0x10, 4).value, 2);
    assert!(bench.withdrawn(1));
    assert_eq!(bench.read(MSI + 0x10, 4).value, 0);
}

#[test]
fn an_unsound_card_is_1() {
    let damages: [fn(&mut Bench); 6] = [
        |b| b.card.wire = !b.card.wire,
        |b| b.card.other_flags = 4,
        |b| b.card.events = 0,
        |b| b.card.msi_waiting = 1 << 31,
        |b| b.pending[0] = 0x80,
        |b| b.table.truncate(32),
    ];
    let switches: [fn(&mut Bench); 3] = [
        |_| (),
        |b| b.switch_msi(1),
        |b| assert_eq!(b.write(MSIX + 2, 2, 0x8000).refusal, 0),
    ];
    for damage in damages {
        for switch in switches {
            let mut bench = Bench::started(&config_with(1, Some(2), Some(4)), 4);
            switch(&mut bench);
            damage(&mut bench);
            for vector in [0, 3].into_iter().chain(NO_VECTOR) {
                assert_eq!(bench.refused(vector), 1);
            }
        }
    }
}
