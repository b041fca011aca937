//! Calls that are made, recorded, and played again.

use crate::call::{Call, LogCall, Outcome, Recorded, Recording};
use crate::pair::Model;
use crate::second::Left;
use crate::world::{Part, World, PLAYER_BYTES, RECORD_BYTES, ROOM};

impl Recording {
    /// The recorder's numbers for a call that was answered with `refusal`;
    /// `None` for a call that no log can hold.
    pub fn of(call: &Call, refusal: u8) -> Option<Recording> {
        let (kind, bar, offset, width, value) = match *call {
            Call::Event(number) => (1, 0, 0, 0, number),
            Call::Line(level) => (2, 0, 0, 0, level),
            Call::ConfigWrite {
                offset,
                width,
                value,
            } => (3, 0, offset, width, value.into()),
            Call::BarWrite {
                bar,
                offset,
                width,
                value,
            } => (4, bar, offset, width, value),
            Call::Reset => (5, 0, 0, 0, 0),
            _ => return None,
        };
        Some(Recording {
            kind,
            bar,
            offset,
            width,
            value,
            refusal,
        })
    }
}

/// What a record's call gave: refusal, answer and packets.
type Given = (u8, u8, Vec<u8>);

/// Makes the calls on the world's card and records them, then plays their log
/// on the card as it was before them. The value is 1 if both gave the same and
/// left the same card. The log stands in the output.
pub fn run(model: Model<'_>, world: &mut World, trial: &Recorded) -> Outcome {
    let mut other = world.clone();
    let mut log = written(model, world, LogCall::Begin);
    let mut made = Vec::new();
    for (call, room) in &trial.calls {
        world.lend_output(*room);
        let outcome = model(world, call, &[]);
        if outcome.refusal != 6 {
            made.push(given(&outcome, outcome.refusal, world));
        }
        let recording = Recording::of(call, outcome.refusal).expect("a call that logs hold");
        log.extend(written(model, world, LogCall::Record(recording)));
    }
    let played = play(model, &mut other, &log, trial.piece);
    let same_part = |part: &Part| world.part(*part) == other.part(*part);
    let same_card = [Part::Card, Part::Table, Part::Pending]
        .iter()
        .all(same_part);
    let same = same_card && played.is_none_or(|played| played == made);
    world.out = log;
    Outcome::read(0, same.into())
}

fn given(outcome: &Outcome, refusal: u8, world: &World) -> Given {
    let packets = world.out.get(..outcome.count.unwrap_or(0));
    let packets = packets.unwrap_or_default().to_vec();
    (refusal, outcome.answer.unwrap_or(0), packets)
}

/// What the recorder writes.
fn written(model: Model<'_>, world: &mut World, call: LogCall) -> Vec<u8> {
    world.lend_output(RECORD_BYTES);
    let outcome = model(world, &Call::Log(call), &[]);
    world.out.truncate(outcome.count.unwrap_or(0));
    world.out.clone()
}

/// Plays a log with a new player, and gives what its records gave; `None` if
/// the player refuses it.
fn play(model: Model<'_>, world: &mut World, log: &[u8], piece: usize) -> Option<Vec<Given>> {
    world.player = vec![0; PLAYER_BYTES];
    world.left = Left::default();
    let mut records = Vec::new();
    let mut rest = log;
    // Each call takes a byte at least.
    for _ in 0..log.len() {
        let bytes = rest[..rest.len().min(piece.max(1))].to_vec();
        world.lend_output(ROOM);
        let outcome = model(world, &Call::Log(LogCall::Play(bytes)), &[]);
        let played = outcome.played.filter(|_| outcome.refusal == 0)?;
        if played.ended != 0 {
            records.push(given(&outcome, played.refusal, world));
        }
        rest = rest.get(played.taken..).unwrap_or_default();
    }
    Some(records)
}
