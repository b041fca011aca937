//! The harness finds faults of withdrawals. The faulty models are the second
//! model with one thing changed.

mod common;

use common::{last_call, shortest};
use compare::call::{Call, Outcome, Recording, Subject};
use compare::layout::{Layout, Mode};
use compare::pair::Model;
use compare::second;
use compare::world::World;

/// A message.
const PACKET: [u8; 16] = [
    0x40, 0, 0, 1, 1, 0, 0, 0x0F, 0xFE, 0xE0, 0, 0, 0xA1, 0x49, 0, 0,
];

/// The shortest trial for a fault that shows in a withdrawal.
fn found(model: Model<'_>) {
    let steps = shortest(Subject::Card, model);
    assert!(matches!(last_call(&steps), Call::Withdraw(_)));
}

/// The vector of an accepted withdrawal, and whether its bit was set.
fn withdrawn(call: &Call, outcome: &Outcome) -> Option<(usize, bool)> {
    match (call, outcome.refusal) {
        (&Call::Withdraw(vector), 0) => Some((vector as usize, outcome.value == Some(1))),
        _ => None,
    }
}

#[test]
fn no_log_holds_a_withdrawal() {
    assert!(!Call::Withdraw(0).has_record());
    assert_eq!(Recording::of(&Call::Withdraw(0), 0), None);
}

#[test]
fn the_msi_bit_cleared_too() {
    found(&|world: &mut World, call: &Call, image: &[u8]| {
        let mode = Layout::of_card(&world.card).mode();
        let outcome = second::apply(world, call, image);
        match withdrawn(call, &outcome) {
            Some((vector @ 0..32, _)) if mode == Mode::MsiX => {
                world.card[5 + vector / 8] &= !(1 << (vector % 8));
            }
            _ => {}
        }
        outcome
    });
}

#[test]
fn the_msix_bit_cleared_too() {
    found(&|world: &mut World, call: &Call, image: &[u8]| {
        let mode = Layout::of_card(&world.card).mode();
        let outcome = second::apply(world, call, image);
        if let (Some((vector, _)), Mode::Msi) = (withdrawn(call, &outcome), mode) {
            if let Some(byte) = world.pending.get_mut(vector / 8) {
                *byte &= !(1 << (vector % 8));
            }
        }
        outcome
    });
}

#[test]
fn the_border_is_what_is_granted() {
    found(&|world: &mut World, call: &Call, image: &[u8]| {
        let layout = Layout::of_card(&world.card);
        if let (&Call::Withdraw(vector), Mode::Msi, Some(msi), true) =
            (call, layout.mode(), layout.msi, second::is_sound(world))
        {
            if vector >= msi.granted() as u64 {
                return Outcome::read(2, 0);
            }
        }
        second::apply(world, call, image)
    });
}

#[test]
fn the_vector_is_taken_modulo_granted() {
    found(&|world: &mut World, call: &Call, image: &[u8]| {
        let layout = Layout::of_card(&world.card);
        match (call, layout.mode(), layout.msi) {
            (&Call::Withdraw(vector), Mode::Msi, Some(msi)) if vector < msi.vectors() as u64 => {
                let vector = vector % msi.granted() as u64;
                second::apply(world, &Call::Withdraw(vector), image)
            }
            _ => second::apply(world, call, image),
        }
    });
}

#[test]
fn the_border_is_off_by_one() {
    found(&|world: &mut World, call: &Call, image: &[u8]| {
        let vectors = Layout::of_card(&world.card).vectors_in_force() as u64;
        let outcome = second::apply(world, call, image);
        match (call, outcome.refusal) {
            (&Call::Withdraw(vector), 2) if vector == vectors => Outcome::read(0, 0),
            _ => outcome,
        }
    });
}

#[test]
fn refusal_2_before_7() {
    found(&|world: &mut World, call: &Call, image: &[u8]| {
        let layout = Layout::of_card(&world.card);
        let outcome = second::apply(world, call, image);
        let of_msi = layout.msi.map_or(0, |msi| msi.vectors());
        match (call, outcome.refusal) {
            (&Call::Withdraw(vector), 7) if vector >= layout.vectors().max(of_msi) as u64 => {
                Outcome::read(2, 0)
            }
            _ => outcome,
        }
    });
}

#[test]
fn refusal_7_before_1() {
    found(&|world: &mut World, call: &Call, image: &[u8]| {
        let mode = Layout::of_card(&world.card).mode();
        let outcome = second::apply(world, call, image);
        match (call, outcome.refusal, mode) {
            (Call::Withdraw(_), 1, Mode::Pin) => Outcome::read(7, 0),
            _ => outcome,
        }
    });
}

#[test]
fn the_pin_is_accepted() {
    found(&|world: &mut World, call: &Call, image: &[u8]| {
        let outcome = second::apply(world, call, image);
        match (call, outcome.refusal) {
            (Call::Withdraw(_), 7) => Outcome::read(0, 0),
            _ => outcome,
        }
    });
}

#[test]
fn says_always_or_never_that_the_bit_was_set() {
    for says in [0, 1] {
        found(&|world: &mut World, call: &Call, image: &[u8]| {
            let outcome = second::apply(world, call, image);
            match withdrawn(call, &outcome) {
                Some(_) => Outcome::read(0, says),
                None => outcome,
            }
        });
    }
}

#[test]
fn the_bit_stays() {
    found(&|world: &mut World, call: &Call, image: &[u8]| {
        let (card, pending) = (world.card.clone(), world.pending.clone());
        let outcome = second::apply(world, call, image);
        if withdrawn(call, &outcome).is_some() {
            (world.card, world.pending) = (card, pending);
        }
        outcome
    });
}

#[test]
fn a_withdrawal_of_a_vector_that_does_not_wait_is_refused() {
    found(&|world: &mut World, call: &Call, image: &[u8]| {
        let outcome = second::apply(world, call, image);
        match withdrawn(call, &outcome) {
            Some((_, false)) => Outcome::read(2, 0),
            _ => outcome,
        }
    });
}

#[test]
fn a_withdrawal_sends() {
    found(&|world: &mut World, call: &Call, image: &[u8]| {
        let outcome = second::apply(world, call, image);
        if let Some((_, true)) = withdrawn(call, &outcome) {
            world.out.extend(PACKET);
        }
        outcome
    });
}

#[test]
fn a_withdrawal_opens_the_vector() {
    found(&|world: &mut World, call: &Call, image: &[u8]| {
        let mode = Layout::of_card(&world.card).mode();
        let outcome = second::apply(world, call, image);
        if let (Some((vector, _)), Mode::MsiX) = (withdrawn(call, &outcome), mode) {
            world.table[16 * vector + 12] = 0;
        }
        outcome
    });
}

#[test]
fn was_set_beside_a_refusal() {
    found(&|world: &mut World, call: &Call, image: &[u8]| {
        let mut outcome = second::apply(world, call, image);
        if let (Call::Withdraw(_), 2 | 7) = (call, outcome.refusal) {
            outcome.value = Some(1);
        }
        outcome
    });
}

#[test]
fn a_refused_withdrawal_clears_the_bit() {
    found(&|world: &mut World, call: &Call, image: &[u8]| {
        let outcome = second::apply(world, call, image);
        if let (Call::Withdraw(vector), 2) = (call, outcome.refusal) {
            let cut = Call::Withdraw(vector & 0xFFFF);
            second::apply(world, &cut, image);
        }
        outcome
    });
}
