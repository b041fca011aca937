//! The recorder: the edges of each number, refusals and outputs.

use super::{Run, Trial};
use crate::call::{Call, LogCall, Recorded, Recording, Room, Step};
use crate::directed::wider;
use crate::run::Runner;
use crate::world::RECORD_BYTES;

/// A BAR write, with numbers of four sizes.
const PLAIN: Recording = Recording {
    kind: 4,
    bar: 5,
    offset: 0x0102_0304,
    width: 8,
    value: 0x1122_3344_5566_7788,
    refusal: 0,
};

pub fn run(runner: &mut Runner<'_>) -> Run {
    kinds(runner)?;
    refusals(runner)?;
    numbers(runner)?;
    rooms(runner)?;
    recorded(runner)
}

/// A value that a record of this kind can have.
fn of_kind(kind: u64) -> Recording {
    let value = match kind {
        3 => 0x5566_7788,
        _ => PLAIN.value,
    };
    Recording {
        kind,
        value,
        ..PLAIN
    }
}

impl Trial {
    fn record(&mut self, recording: Recording) -> &mut Trial {
        self.record_into(recording, RECORD_BYTES + 1)
    }

    fn record_into(&mut self, recording: Recording, length: usize) -> &mut Trial {
        let call = Call::Log(LogCall::Record(recording));
        self.step(Step::Call(call, Room::Bytes(length)))
    }
}

/// Kinds up to 5, above it and wider than a byte.
fn kinds(runner: &mut Runner<'_>) -> Run {
    let mut trial = Trial::default();
    let wide = (0..=6).flat_map(wider);
    for kind in (0..=256).chain(wide) {
        trial.record(of_kind(kind)).record_into(of_kind(kind), 0);
    }
    trial.run(runner, "kinds of records")
}

/// Each refusal with each kind.
fn refusals(runner: &mut Runner<'_>) -> Run {
    let mut trial = Trial::default();
    for kind in 0..=6 {
        for refusal in 0..=255 {
            let recording = Recording {
                refusal,
                ..of_kind(kind)
            };
            trial.record(recording).record_into(recording, 0);
        }
    }
    trial.run(runner, "refusals of recorded calls")
}

/// Numbers at the edges of their fields, with each kind.
fn numbers(runner: &mut Runner<'_>) -> Run {
    let edges = (0..64).flat_map(|bit| [(1 << bit) - 1, 1 << bit, u64::MAX << bit]);
    for kind in 1..=5 {
        let mut trial = Trial::default();
        for number in edges.clone() {
            let recording = of_kind(kind);
            let bar = number;
            trial.record(Recording { bar, ..recording });
            let offset = number;
            trial.record(Recording {
                offset,
                ..recording
            });
            let width = number;
            trial.record(Recording { width, ..recording });
            let value = number;
            trial.record(Recording { value, ..recording });
        }
        trial.run(runner, "numbers of recorded calls")?;
    }
    Ok(())
}

/// Outputs of each length.
fn rooms(runner: &mut Runner<'_>) -> Run {
    let mut trial = Trial::default();
    for length in 0..=RECORD_BYTES + 2 {
        trial.step(Step::Call(Call::Log(LogCall::Begin), Room::Bytes(length)));
        for kind in 0..=6 {
            trial.record_into(of_kind(kind), length);
        }
    }
    trial.run(runner, "outputs of the recorder")
}

/// The calls of all kinds recorded and played, with outputs of some lengths.
fn recorded(runner: &mut Runner<'_>) -> Run {
    for piece in [1, 2, 7, usize::MAX] {
        for room in [0, 16, 20, 400] {
            let calls = super::calls()
                .into_iter()
                .map(|call| (call, room))
                .collect();
            let call = Call::Log(LogCall::Trial(Recorded { calls, piece }));
            Trial::player().call(call).run(runner, "recorded calls")?;
        }
    }
    Ok(())
}
