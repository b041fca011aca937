//! The harness finds faults of players and recorders and cuts their trials
//! down. The faulty models are the second model with one thing changed.

mod common;

use common::{last_call, shortest};
use compare::call::{Call, LogCall, Outcome, Played, Recording, Step, Subject};
use compare::recorded;
use compare::run::Runner;
use compare::second;
use compare::world::{World, AGAIN, BROKEN, NUMBER_AT, PART_AT, RECORDS};

/// A model of the calls of logs.
type LogModel<'a> = &'a dyn Fn(&mut World, &LogCall) -> Outcome;

/// Makes a call on the second model.
fn apply(world: &mut World, call: &LogCall) -> Outcome {
    second::apply(world, &Call::Log(call.clone()), &[])
}

/// The call that shows a fault.
fn showing(model: LogModel<'_>) -> LogCall {
    let model = |world: &mut World, call: &Call, image: &[u8]| match call {
        Call::Log(call) => model(world, call),
        other => second::apply(world, other, image),
    };
    let steps = shortest(Subject::Log, &model);
    match last_call(&steps) {
        Call::Log(call) => call.clone(),
        other => panic!("{other:?}"),
    }
}

/// Requires that a call of the player shows a fault in what such a call leaves,
/// given the world before it.
fn shown_by_play(end: fn(&World, &mut World, &[u8], &mut Outcome)) {
    let call = showing(&|world, call| {
        let before = world.clone();
        let mut outcome = apply(world, call);
        if let LogCall::Play(bytes) = call {
            end(&before, world, bytes, &mut outcome);
        }
        outcome
    });
    assert!(matches!(call, LogCall::Play(_)));
}

/// Requires that a call of the player shows a fault by which it is handed other
/// bytes.
fn shown_by_bytes(change: fn(&World, &mut Vec<u8>)) {
    let call = showing(&|world, call| match call {
        LogCall::Play(bytes) => {
            let mut bytes = bytes.clone();
            change(world, &mut bytes);
            apply(world, &LogCall::Play(bytes))
        }
        other => apply(world, other),
    });
    assert!(matches!(call, LogCall::Play(_)));
}

/// Requires that a call of the recorder shows a fault by which it is given
/// other numbers.
fn shown_by_numbers(change: fn(&mut Recording)) {
    let call = showing(&|world, call| match call {
        LogCall::Record(recording) => {
            let mut recording = *recording;
            change(&mut recording);
            apply(world, &LogCall::Record(recording))
        }
        other => apply(world, other),
    });
    assert!(matches!(call, LogCall::Record(_)));
}

/// What a call of the player gave beside its refusal.
fn played(outcome: &mut Outcome) -> &mut Played {
    outcome.played.as_mut().expect("a call of the player")
}

/// What a player of 25 bytes reads.
fn stage(world: &World) -> Option<u8> {
    (world.player.len() == 25).then(|| world.player[0])
}

/// Whether a player is between two records.
fn is_between(world: &World) -> bool {
    stage(world) == Some(RECORDS) && world.player[1] == 0
}

#[test]
fn no_fault() {
    common::no_fault(Subject::Log);
}

#[test]
fn wrong_byte_taken() {
    shown_by_play(|before, world, _, outcome| {
        if stage(world) == Some(BROKEN) && stage(before) != Some(BROKEN) {
            played(outcome).taken += 1;
        }
    });
}

#[test]
fn bytes_before_a_wrong_one_not_told() {
    shown_by_play(|_, _, _, outcome| {
        if outcome.refusal == 30 {
            played(outcome).taken = 0;
        }
    });
}

#[test]
fn wrong_byte_forgotten() {
    shown_by_play(|before, world, _, _| {
        if stage(world) == Some(BROKEN) {
            world.player.clone_from(&before.player);
        }
    });
}

#[test]
fn bytes_taken_at_a_later_try() {
    shown_by_play(|before, _, bytes, outcome| {
        if stage(before) == Some(AGAIN) && outcome.refusal == 0 {
            played(outcome).taken = bytes.len().min(1);
        }
    });
}

#[test]
fn wrong_byte_looked_at_at_a_later_try() {
    let call = showing(&|world, call| match call {
        LogCall::Play(bytes) if stage(world) == Some(AGAIN) && bytes.first() == Some(&0) => {
            Outcome::took(30, 0)
        }
        other => apply(world, other),
    });
    assert!(matches!(call, LogCall::Play(_)));
}

#[test]
fn record_counted_at_a_later_try() {
    shown_by_play(|before, world, _, outcome| {
        if stage(before) == Some(AGAIN) && outcome.refusal == 0 {
            world.player[NUMBER_AT] = world.player[NUMBER_AT].wrapping_add(1);
        }
    });
}

#[test]
fn number_of_records_turns_over() {
    shown_by_play(|before, world, _, outcome| {
        if played(outcome).ended == 1 && before.player[NUMBER_AT..] == [0xFF; 8] {
            world.player[NUMBER_AT..].fill(0);
        }
    });
}

#[test]
fn record_without_room_not_tried_again() {
    shown_by_play(|_, world, _, outcome| {
        if played(outcome).refusal == 6 {
            world.player[..NUMBER_AT].fill(0);
            world.player[0] = RECORDS;
        }
    });
}

#[test]
fn other_refusals_tried_again() {
    for number in [1, 2, 3, 4, 5] {
        let call = showing(&|world, call| {
            let mut outcome = apply(world, call);
            if let (LogCall::Play(_), true) = (call, outcome.played.is_some()) {
                if played(&mut outcome).refusal == number {
                    world.player[0] = AGAIN;
                }
            }
            outcome
        });
        assert!(matches!(call, LogCall::Play(_)));
    }
}

#[test]
fn refusal_of_the_card_stops_play() {
    shown_by_play(|_, world, _, outcome| {
        if played(outcome).refusal == 2 {
            world.player[0] = BROKEN;
        }
    });
}

#[test]
fn levels_above_1_are_high() {
    shown_by_bytes(|world, bytes| {
        if let (true, [2, level @ 2..=255, ..]) = (is_between(world), &mut bytes[..]) {
            *level = 1;
        }
    });
}

#[test]
fn kind_6_is_taken() {
    shown_by_bytes(|world, bytes| {
        if let (true, [kind @ 6, ..]) = (is_between(world), &mut bytes[..]) {
            *kind = 5;
        }
    });
}

#[test]
fn high_byte_of_the_version_not_looked_at() {
    shown_by_bytes(|world, bytes| {
        if let (Some([0, 4]), [version, ..]) = (world.player.get(..2), &mut bytes[..]) {
            *version = 0;
        }
    });
}

#[test]
fn numbers_high_byte_first() {
    shown_by_bytes(|world, bytes| {
        if let (true, [1 | 3, low, high, ..]) = (is_between(world), &mut bytes[..]) {
            std::mem::swap(low, high);
        }
    });
}

#[test]
fn upper_half_of_a_value_dropped() {
    shown_by_bytes(|world, bytes| {
        if let (true, [4, _, _, _, _, _, 8, _, _, _, _, value, ..]) =
            (is_between(world), &mut bytes[..])
        {
            *value = 0;
        }
    });
}

#[test]
fn second_record_played_too() {
    let call = showing(&|world, call| {
        let first = apply(world, call);
        let (
            LogCall::Play(bytes),
            Some(Played {
                taken, ended: 1, ..
            }),
        ) = (call, first.played)
        else {
            return first;
        };
        let second = LogCall::Play(bytes.get(taken..).unwrap_or_default().to_vec());
        let mut outcome = apply(world, &second);
        played(&mut outcome).taken += taken;
        outcome
    });
    assert!(matches!(call, LogCall::Play(_)));
}

#[test]
fn part_of_a_record_lost_between_pieces() {
    shown_by_play(|_, world, _, outcome| {
        if let (Some(RECORDS), 0) = (stage(world), played(outcome).ended) {
            world.player[1..NUMBER_AT].fill(0);
        }
    });
}

#[test]
fn bytes_of_a_record_kept_behind_it() {
    shown_by_play(|_, world, _, outcome| {
        if let (Some(RECORDS), 1) = (stage(world), played(outcome).ended) {
            world.player[PART_AT] = 5;
        }
    });
}

#[test]
fn answer_of_an_event_not_told() {
    shown_by_play(|_, _, _, outcome| {
        if outcome.answer == Some(3) {
            outcome.answer = Some(2);
        }
    });
}

#[test]
fn record_not_told() {
    shown_by_play(|_, _, _, outcome| {
        if played(outcome).refusal != 0 {
            played(outcome).ended = 0;
        }
    });
}

#[test]
fn byte_behind_the_packets() {
    shown_by_play(|_, world, _, outcome| {
        if let Some(byte) = world.out.get_mut(outcome.count.unwrap_or(0)) {
            *byte = 0;
        }
    });
}

#[test]
fn number_of_a_card_that_is_not_sound() {
    shown_by_play(|before, _, _, outcome| {
        if outcome.refusal == 60 && before.card.len() == 289 && stage(before) <= Some(BROKEN) {
            *outcome = Outcome::took(1, 0);
        }
    });
}

#[test]
fn player_that_no_log_leaves_behind_changed() {
    shown_by_play(|before, world, _, outcome| {
        if outcome.refusal == 30 && before.player == world.player {
            world.player[0] = BROKEN;
        }
    });
}

#[test]
fn card_changed_beside_30() {
    shown_by_play(|_, world, _, outcome| {
        if outcome.refusal == 30 {
            world.card[0] ^= 1;
        }
    });
}

#[test]
fn recorded_numbers_cut() {
    shown_by_numbers(|recording| {
        if recording.kind == 1 {
            recording.value &= 0xFFFF;
        }
    });
    shown_by_numbers(|recording| {
        if recording.kind == 4 {
            recording.offset &= 0xFFFF_FFFF;
        }
    });
    shown_by_numbers(|recording| recording.bar &= 0xFF);
    shown_by_numbers(|recording| recording.width &= 0xFF);
    shown_by_numbers(|recording| recording.kind &= 0xFF);
    shown_by_numbers(|recording| {
        if recording.kind == 2 {
            recording.value &= 0xFF;
        }
    });
}

#[test]
fn value_of_a_configuration_write_cut() {
    shown_by_numbers(|recording| {
        if recording.kind == 3 {
            recording.value &= 0xFFFF_FFFF;
        }
    });
}

#[test]
fn call_refused_with_6_recorded() {
    shown_by_numbers(|recording| recording.refusal = 0);
}

#[test]
fn refused_call_not_recorded() {
    shown_by_numbers(|recording| {
        if recording.refusal == 2 {
            recording.refusal = 6;
        }
    });
}

#[test]
fn part_of_a_record_written_without_room() {
    let call = showing(&|world, call| {
        let outcome = apply(world, call);
        if let (LogCall::Record(_), 6, [first, ..]) = (call, outcome.refusal, &mut world.out[..]) {
            *first = 0;
        }
        outcome
    });
    assert!(matches!(call, LogCall::Record(_)));
}

#[test]
fn beginning_of_another_version() {
    let call = showing(&|world, call| {
        let outcome = apply(world, call);
        if let (LogCall::Begin, 0) = (call, outcome.refusal) {
            world.out[3] = 2;
        }
        outcome
    });
    assert_eq!(call, LogCall::Begin);
}

/// A recorder that leaves out line calls.
fn without_lines(world: &mut World, call: &Call, image: &[u8]) -> Outcome {
    match call {
        Call::Log(LogCall::Trial(trial)) => recorded::run(&without_lines, world, trial),
        Call::Log(LogCall::Record(recording)) if recording.kind == 2 => Outcome::wrote(0, 0),
        other => second::apply(world, other, image),
    }
}

#[test]
fn recorded_calls_lead_to_another_card() {
    let mut runner = Runner::new(Subject::Log, &without_lines, &|_| ());
    let failures = (0..200).filter_map(|trial| runner.random_trial(1, trial).err());
    let is_trial = |step: &Step| matches!(step, Step::Call(Call::Log(LogCall::Trial(_)), _));
    let mut last_steps = failures.filter_map(|failure| failure.steps.last().cloned());
    assert!(last_steps.any(|step| is_trial(&step)));
}
