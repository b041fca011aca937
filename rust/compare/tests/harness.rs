//! The harness finds faults and cuts their trials down. The faulty models are
//! the second model with one thing changed.

mod common;

use common::{last_call, shortest};
use compare::call::{Call, Outcome, Subject};
use compare::layout::{Layout, Mode};
use compare::second;
use compare::world::{other_flags, World};

#[test]
fn no_fault() {
    common::no_fault(Subject::Card);
}

#[test]
fn data_of_another_form() {
    let model = |world: &mut World, call: &Call, image: &[u8]| -> Outcome {
        let layout = Layout::of_card(&world.card);
        let outcome = second::apply(world, call, image);
        if let (Mode::Msi, Some(msi), Some(1)) = (layout.mode(), layout.msi, outcome.answer) {
            let end = outcome.count.unwrap_or(0);
            world.out[end - 3] = world.card[33 + msi.at + 0x0D];
        }
        outcome
    };
    let steps = shortest(Subject::Card, &model);
    assert!(matches!(last_call(&steps), Call::Event(_)));
}

#[test]
fn waiting_bits_lost_at_a_mode_change() {
    let model = |world: &mut World, call: &Call, image: &[u8]| -> Outcome {
        let before = Layout::of_card(&world.card).mode();
        let outcome = second::apply(world, call, image);
        let after = Layout::of_card(&world.card).mode();
        if matches!(call, Call::ConfigWrite { .. }) && before == Mode::MsiX && after != before {
            world.pending.fill(0);
        }
        outcome
    };
    let steps = shortest(Subject::Card, &model);
    assert!(matches!(last_call(&steps), Call::ConfigWrite { .. }));
}

#[test]
fn byte_behind_the_packets() {
    let model = |world: &mut World, call: &Call, image: &[u8]| -> Outcome {
        let outcome = second::apply(world, call, image);
        if let (Call::Line(_), Some(count @ 1..)) = (call, outcome.count) {
            if let Some(byte) = world.out.get_mut(count) {
                *byte = 0;
            }
        }
        outcome
    };
    let steps = shortest(Subject::Card, &model);
    assert!(matches!(last_call(&steps), Call::Line(_)));
}

#[test]
fn value_beside_a_refusal() {
    let model = |world: &mut World, call: &Call, image: &[u8]| -> Outcome {
        let mut outcome = second::apply(world, call, image);
        if let (Call::BarRead { .. }, 5) = (call, outcome.refusal) {
            outcome.value = Some(1);
        }
        outcome
    };
    let steps = shortest(Subject::Card, &model);
    assert!(matches!(last_call(&steps), Call::BarRead { .. }));
}

#[test]
fn refused_restore_changes_the_table() {
    let model = |world: &mut World, call: &Call, image: &[u8]| -> Outcome {
        let outcome = second::apply(world, call, image);
        if let (Call::Restore(_), 22) = (call, outcome.refusal) {
            if let Some(byte) = world.table.last_mut() {
                *byte ^= 1;
            }
        }
        outcome
    };
    let steps = shortest(Subject::Card, &model);
    assert!(matches!(last_call(&steps), Call::Restore(_)));
}

/// Cuts a number of a call to the bits of its field.
type Cut = fn(&mut Call);

/// Each number that a call can have wider than its field, cut.
const CUTS: [Cut; 10] = [
    |call| {
        if let Call::Start(given) = call {
            given.events &= 0xFFFF;
        }
    },
    |call| {
        if let Call::Start(given) = call {
            given.requester &= 0xFFFF;
        }
    },
    |call| {
        if let Call::ConfigRead { offset, .. } | Call::ConfigWrite { offset, .. } = call {
            *offset &= 0xFFFF;
        }
    },
    |call| {
        if let Call::ConfigRead { width, .. } | Call::ConfigWrite { width, .. } = call {
            *width &= 0xFF;
        }
    },
    |call| {
        if let Call::BarRead { bar, .. } | Call::BarWrite { bar, .. } = call {
            *bar &= 0xFF;
        }
    },
    |call| {
        if let Call::BarRead { offset, .. } | Call::BarWrite { offset, .. } = call {
            *offset &= 0xFFFF_FFFF;
        }
    },
    |call| {
        if let Call::BarRead { width, .. } | Call::BarWrite { width, .. } = call {
            *width &= 0xFF;
        }
    },
    |call| {
        if let Call::Event(number) = call {
            *number &= 0xFFFF;
        }
    },
    |call| {
        if let Call::Withdraw(vector) = call {
            *vector &= 0xFFFF;
        }
    },
    |call| {
        if let Call::Line(level) = call {
            *level &= 0xFF;
        }
    },
];

#[test]
fn numbers_cut_to_their_fields() {
    for cut in CUTS {
        let model = |world: &mut World, call: &Call, image: &[u8]| -> Outcome {
            let mut call = call.clone();
            cut(&mut call);
            second::apply(world, &call, image)
        };
        let steps = shortest(Subject::Card, &model);
        let mut last = last_call(&steps).clone();
        cut(&mut last);
        assert_ne!(last, *last_call(&steps));
    }
}

/// Whether the call is refused with 1 if the card has other flags than line and
/// wire.
fn asks_for_a_sound_card(call: &Call) -> bool {
    !matches!(call, Call::Start(_) | Call::Restore(_))
}

#[test]
fn number_of_lengths_for_other_flags() {
    let model = |world: &mut World, call: &Call, image: &[u8]| -> Outcome {
        let flags = other_flags(&world.card);
        let mut outcome = second::apply(world, call, image);
        if flags != 0 && asks_for_a_sound_card(call) {
            outcome.refusal = 60;
        }
        outcome
    };
    let steps = shortest(Subject::Card, &model);
    assert!(asks_for_a_sound_card(last_call(&steps)));
}

#[test]
fn other_flags_not_looked_at() {
    let model = |world: &mut World, call: &Call, image: &[u8]| -> Outcome {
        let flags = other_flags(&world.card);
        if flags == 0 || !asks_for_a_sound_card(call) {
            return second::apply(world, call, image);
        }
        world.card[0] &= !flags;
        let outcome = second::apply(world, call, image);
        world.card[0] |= flags;
        outcome
    };
    let steps = shortest(Subject::Card, &model);
    assert!(asks_for_a_sound_card(last_call(&steps)));
}

#[test]
fn refused_call_clears_other_flags() {
    let model = |world: &mut World, call: &Call, image: &[u8]| -> Outcome {
        let outcome = second::apply(world, call, image);
        if outcome.refusal == 1 {
            world.card[0] &= 3;
        }
        outcome
    };
    let steps = shortest(Subject::Card, &model);
    assert!(asks_for_a_sound_card(last_call(&steps)));
}

#[test]
fn refused_restore_clears_other_flags() {
    for number in [17, 20, 21, 22] {
        let model = |world: &mut World, call: &Call, image: &[u8]| -> Outcome {
            let outcome = second::apply(world, call, image);
            if matches!(call, Call::Restore(_)) && outcome.refusal == number {
                world.card[0] &= 3;
            }
            outcome
        };
        let steps = shortest(Subject::Card, &model);
        assert!(matches!(last_call(&steps), Call::Restore(_)));
    }
}

#[test]
fn restore_over_other_flags_is_refused() {
    for number in [1, 60] {
        let model = |world: &mut World, call: &Call, image: &[u8]| -> Outcome {
            if matches!(call, Call::Restore(_)) && other_flags(&world.card) != 0 {
                return Outcome::number(number);
            }
            second::apply(world, call, image)
        };
        let steps = shortest(Subject::Card, &model);
        assert!(matches!(last_call(&steps), Call::Restore(_)));
    }
}

#[test]
fn accepted_restore_keeps_other_flags() {
    let model = |world: &mut World, call: &Call, image: &[u8]| -> Outcome {
        let flags = other_flags(&world.card);
        let outcome = second::apply(world, call, image);
        if let (Call::Restore(_), 0) = (call, outcome.refusal) {
            world.card[0] |= flags;
        }
        outcome
    };
    let steps = shortest(Subject::Card, &model);
    assert!(matches!(last_call(&steps), Call::Restore(_)));
}
