//! The second model of the player and of the recorder of logs.

use super::{answer_number, read_card, write_card, LENGTHS};
use crate::call::{LogCall, Outcome, Played, Recording};
use crate::world::{
    World, AGAIN, BROKEN, CARD_BYTES, HEADER, LOG_HEADER_BYTES, NUMBER_AT, PART_AT, PLAYER_BYTES,
    RECORDS, RECORD_BYTES,
};
use second_model::log::{self, Player};
use second_model::Card;

/// The number for a player that no log leaves behind.
const LOG: u8 = 30;

/// The second model's player, with what the bytes of the C interface show.
#[derive(Clone, Debug, Default)]
pub struct Left {
    player: Player,
    /// What it reads.
    stage: u8,
    /// How many bytes of mark and version it has taken, and of a record.
    begun: usize,
    taken: usize,
    part: [u8; RECORD_BYTES],
    number: u64,
    /// Whether `player` has not been handed the record to be tried again.
    is_due: bool,
}

impl Left {
    /// The bytes of the player.
    fn bytes(&self) -> Vec<u8> {
        let taken = match self.stage {
            HEADER => self.begun,
            _ => self.taken,
        };
        let mut bytes = vec![self.stage, taken as u8];
        bytes.extend(self.part);
        bytes.extend(self.number.to_le_bytes());
        bytes
    }

    /// The player in these bytes, made by playing a log; `None` if no log
    /// leaves it behind.
    fn rebuilt(bytes: &[u8]) -> Option<Left> {
        let (stage, taken) = (bytes[0], usize::from(bytes[1]));
        let part = bytes[PART_AT..NUMBER_AT].try_into().ok()?;
        let begin = log::begin();
        let (begun, taken) = match stage {
            HEADER if taken < begin.len() => (taken, 0),
            RECORDS | AGAIN if taken <= RECORD_BYTES => (begin.len(), taken),
            _ => return None,
        };
        let mut left = Left {
            player: Player::new(),
            stage,
            begun,
            taken,
            part,
            number: number(bytes),
            is_due: stage == AGAIN,
        };
        left.feed(&begin[..begun]);
        let mut further = left.clone();
        let played = further.feed(&part[..taken]);
        let is_whole = played.record.is_some();
        match (stage, played.refusal == 0 && played.taken == taken) {
            (AGAIN, true) if is_whole => Some(left),
            (HEADER | RECORDS, true) if !is_whole => Some(further),
            _ => None,
        }
    }

    /// Hands the player bytes, with a card that is not sound.
    fn feed(&mut self, bytes: &[u8]) -> log::Played {
        let mut card = read_card(&[0; CARD_BYTES]).expect("the bytes of a card");
        let player = &mut self.player;
        log::play(&mut card, &mut [], &mut [], player, bytes, &mut [])
    }

    /// Hands the player bytes, with the world's card.
    fn play(&mut self, card: &mut Card, world: &mut World, bytes: &[u8]) -> log::Played {
        let due = self.part[..self.taken].to_vec();
        let records = self.player.records();
        let mut played = log::play(
            card,
            &mut world.table,
            &mut world.pending,
            &mut self.player,
            if self.is_due { &due } else { bytes },
            &mut world.out,
        );
        if self.is_due {
            self.is_due = false;
            played.taken = 0;
        } else {
            let more = self.player.records() - records;
            self.number = self.number.saturating_add(more);
        }
        self.take(&bytes[..played.taken]);
        self.go_on(&played);
        played
    }

    /// Keeps the bytes that were taken.
    fn take(&mut self, bytes: &[u8]) {
        let begun = bytes.len().min(LOG_HEADER_BYTES - self.begun);
        self.begun += begun;
        for &byte in &bytes[begun..] {
            self.part[self.taken] = byte;
            self.taken += 1;
        }
    }

    /// What the player reads next.
    fn go_on(&mut self, played: &log::Played) {
        self.stage = match (played.refusal, played.record) {
            (0, None) if self.begun < LOG_HEADER_BYTES => HEADER,
            (0, Some(outcome)) if outcome.refusal == 6 => AGAIN,
            (0, _) => RECORDS,
            _ => BROKEN,
        };
        let is_done = played.record.is_some() && self.stage == RECORDS;
        if is_done || self.stage == BROKEN {
            self.taken = 0;
            self.part = [0; RECORD_BYTES];
        }
    }
}

/// The number of records in the bytes of a player.
fn number(bytes: &[u8]) -> u64 {
    let bytes = bytes[NUMBER_AT..].try_into().expect("eight bytes");
    u64::from_le_bytes(bytes)
}

/// The player in the world's bytes: the one that the second model left, or one
/// made anew if the bytes were changed.
fn held(world: &World) -> Option<Left> {
    let left = Left {
        number: number(&world.player),
        ..world.left.clone()
    };
    match left.bytes() == world.player {
        true => Some(left),
        false => Left::rebuilt(&world.player),
    }
}

/// Whether the bytes are those of a player.
pub fn is_player(bytes: &[u8]) -> bool {
    bytes.len() == PLAYER_BYTES && bytes[0] <= BROKEN
}

/// Makes a call of a player or of the recorder.
pub fn apply(world: &mut World, call: &LogCall) -> Outcome {
    match call {
        LogCall::Play(bytes) => play(world, bytes),
        LogCall::Begin => write(&mut world.out, &log::begin()),
        LogCall::Record(recording) => match record_bytes(recording) {
            Some(bytes) => write(&mut world.out, &bytes),
            None => Outcome::wrote(LENGTHS, 0),
        },
        LogCall::Trial(_) => unreachable!("a trial makes other calls"),
    }
}

fn play(world: &mut World, bytes: &[u8]) -> Outcome {
    let card = read_card(&world.card).filter(|card| card.other_flags == 0);
    let (Some(mut card), true) = (card, is_player(&world.player)) else {
        return Outcome::took(LENGTHS, 0);
    };
    let Some(mut left) = held(world) else {
        return Outcome::took(LOG, 0);
    };
    let played = left.play(&mut card, world, bytes);
    write_card(&card, &mut world.card);
    world.player = left.bytes();
    world.left = left;
    outcome(&played)
}

/// The outcome in the numbers of the C interface.
fn outcome(played: &log::Played) -> Outcome {
    let without_record = Outcome::took(played.refusal, played.taken);
    match played.record {
        None => without_record,
        Some(made) => Outcome {
            answer: Some(answer_number(made.answer)),
            count: Some(made.count),
            played: Some(Played {
                taken: played.taken,
                ended: 1,
                refusal: made.refusal,
            }),
            ..without_record
        },
    }
}

/// Writes to the output if there is room.
fn write(out: &mut [u8], bytes: &[u8]) -> Outcome {
    match out.get_mut(..bytes.len()) {
        None => Outcome::wrote(6, 0),
        Some(place) => {
            place.copy_from_slice(bytes);
            Outcome::wrote(0, bytes.len())
        }
    }
}

/// The bytes that record a call; `None` for numbers that no call has.
pub fn record_bytes(recording: &Recording) -> Option<Vec<u8>> {
    let &Recording {
        kind,
        bar,
        offset,
        width,
        value,
        refusal,
    } = recording;
    let call = match kind {
        1 => log::Call::Event(value),
        2 => log::Call::Line(value != 0),
        3 => log::Call::ConfigWrite {
            offset,
            width,
            value: value.try_into().ok()?,
        },
        4 => log::Call::BarWrite {
            bar,
            offset,
            width,
            value,
        },
        5 => log::Call::Reset,
        _ => return None,
    };
    Some(log::record(&call, refusal))
}
