//! The harness finds faults of 32-bit MSI data. The faulty models are the second
//! model with one thing changed.

mod common;

use common::{last_call, shortest};
use compare::call::{Call, Outcome, Subject};
use compare::layout::{Layout, Mode, Msi};
use compare::second;
use compare::world::{World, CONFIG_AT};

/// Control bit 10, Extended Message Data Enable, in the upper byte of the control
/// register.
const BIT_10: u8 = 1 << 2;

/// The place of that byte in the card.
fn control_at(msi: &Msi) -> usize {
    CONFIG_AT + msi.at + 3
}

/// The place of the upper half of the data in the card.
fn upper_at(msi: &Msi) -> usize {
    CONFIG_AT + msi.data() + 2
}

#[test]
fn upper_half_sent_without_bit_10() {
    let model = |world: &mut World, call: &Call, image: &[u8]| -> Outcome {
        let outcome = second::apply(world, call, image);
        let layout = Layout::of_card(&world.card);
        if let (Mode::Msi, Some(msi), Some(1)) = (layout.mode(), layout.msi, outcome.answer) {
            if msi.extended_capable() {
                let (end, upper) = (outcome.count.unwrap_or(0), upper_at(&msi));
                world.out[end - 2..end].copy_from_slice(&world.card[upper..upper + 2]);
            }
        }
        outcome
    };
    let steps = shortest(Subject::Card, &model);
    assert!(matches!(last_call(&steps), Call::Event(_)));
}

#[test]
fn upper_half_never_sent() {
    let model = |world: &mut World, call: &Call, image: &[u8]| -> Outcome {
        let outcome = second::apply(world, call, image);
        let mode = Layout::of_card(&world.card).mode();
        if let (Mode::Msi, Some(1)) = (mode, outcome.answer) {
            let end = outcome.count.unwrap_or(0);
            world.out[end - 2..end].fill(0);
        }
        outcome
    };
    let steps = shortest(Subject::Card, &model);
    assert!(matches!(last_call(&steps), Call::Event(_)));
}

#[test]
fn bit_10_kept_by_a_reset() {
    let model = |world: &mut World, call: &Call, image: &[u8]| -> Outcome {
        let before = Layout::of_card(&world.card).msi;
        let outcome = second::apply(world, call, image);
        if let (Call::Reset, 0, Some(msi)) = (call, outcome.refusal, before) {
            if msi.extended_enable() {
                world.card[control_at(&msi)] |= BIT_10;
            }
        }
        outcome
    };
    let steps = shortest(Subject::Card, &model);
    assert!(matches!(last_call(&steps), Call::Reset));
}

#[test]
fn bit_10_cleared_without_bit_9() {
    let model = |world: &mut World, call: &Call, image: &[u8]| -> Outcome {
        let outcome = second::apply(world, call, image);
        let after = Layout::of_card(&world.card).msi;
        if let (Call::Start(_), 0, Some(msi)) = (call, outcome.refusal, after) {
            world.card[control_at(&msi)] &= !BIT_10;
        }
        outcome
    };
    let steps = shortest(Subject::Card, &model);
    assert!(matches!(last_call(&steps), Call::Start(_)));
}

#[test]
fn upper_half_not_writable() {
    let model = |world: &mut World, call: &Call, image: &[u8]| -> Outcome {
        let before = world.card.clone();
        let outcome = second::apply(world, call, image);
        let after = Layout::of_card(&world.card).msi;
        if let (Call::ConfigWrite { .. }, 0, Some(msi)) = (call, outcome.refusal, after) {
            let upper = upper_at(&msi);
            world.card[upper..upper + 2].copy_from_slice(&before[upper..upper + 2]);
        }
        outcome
    };
    let steps = shortest(Subject::Card, &model);
    assert!(matches!(last_call(&steps), Call::ConfigWrite { .. }));
}
