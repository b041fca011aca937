//! Random trials of logs: a log that is made up as it is played, cut in any
//! way, with calls of the card between the calls of the player.

use super::{
    config_write, enough, near_length, number_of_steps, start_steps, CardGenerator, Generator,
};
use crate::call::{Call, LogCall, Recorded, Recording, Room, Step};
use crate::given::valid;
use crate::layout::Layout;
use crate::pair::Pair;
use crate::random::Random;
use crate::second;
use crate::world::{
    Part, World, AGAIN, BROKEN, LOG_HEADER_BYTES, NUMBER_AT, PART_AT, PLAYER_BYTES, RECORDS,
    RECORD_BYTES, ROOM,
};

/// A trial of a log.
pub struct LogGenerator {
    card: CardGenerator,
    /// The steps still to make before the trial ends.
    left: usize,
    /// The bytes of the log that are not taken.
    ahead: Vec<u8>,
    /// How many bytes were taken in all, by the pair.
    taken: usize,
    cutting: Cutting,
    /// One output out of so many is short.
    tight: usize,
}

/// How a log is cut.
#[derive(Clone, Copy)]
enum Cutting {
    /// All bytes that there are.
    Whole,
    Bytewise,
    Short,
    Any,
}

impl Generator for LogGenerator {
    /// The first steps: a card, mostly sound, and a new player.
    fn first(&mut self) -> Vec<Step> {
        let random = &mut self.card.random;
        let mut steps = match random.once_in(16) {
            true => self.card.first(),
            false => self.sound_card(),
        };
        steps.extend(self.new_log());
        steps
    }

    fn next(&mut self, pair: &Pair<'_>) -> Vec<Step> {
        if self.left == 0 {
            return Vec::new();
        }
        let taken = pair.taken() - self.taken;
        self.taken += taken;
        self.ahead.drain(..taken.min(self.ahead.len()));
        let layout = Layout::of_card(&pair.world().card);
        let steps = self.steps(pair, &layout);
        // A large card costs more.
        let weight = 1 + layout.vectors() / 400;
        self.left = self.left.saturating_sub(weight * steps.len().max(1));
        steps
    }
}

impl LogGenerator {
    pub fn new(mut random: Random) -> LogGenerator {
        let left = number_of_steps(&mut random);
        let cuttings = [
            Cutting::Whole,
            Cutting::Whole,
            Cutting::Bytewise,
            Cutting::Short,
            Cutting::Any,
        ];
        LogGenerator {
            left,
            ahead: Vec::new(),
            taken: 0,
            cutting: random.pick(&cuttings),
            tight: random.pick(&[5, 8, 20]),
            card: CardGenerator {
                random,
                left: usize::MAX,
            },
        }
    }

    /// A sound card, mostly with messages in force.
    fn sound_card(&mut self) -> Vec<Step> {
        let given = valid(&mut self.card.random);
        let mut steps = start_steps(&given);
        if !self.card.random.once_in(4) {
            let layout = Layout::of_config(&given.config);
            steps.push(config_write(0x04, 2, 6));
            steps.push(Step::Call(self.card.switch(&layout), Room::Bytes(ROOM)));
        }
        steps
    }

    /// Begins a log, now and then with a wrong byte.
    fn new_log(&mut self) -> Vec<Step> {
        let random = &mut self.card.random;
        self.ahead = vec![0x43, 0x4C, 0x47, 1, 0];
        if random.once_in(24) {
            let at = random.below(LOG_HEADER_BYTES);
            let (bit, any) = (1 << random.below(8), random.number() as u8);
            self.ahead[at] ^= random.pick(&[bit, any]);
        }
        vec![Step::Contents(Part::Player, vec![0; PLAYER_BYTES])]
    }

    fn steps(&mut self, pair: &Pair<'_>, layout: &Layout) -> Vec<Step> {
        let world = pair.world();
        let is_broken = world.player[0] == BROKEN;
        let is_sound = second::is_sound(world);
        let random = &mut self.card.random;
        match random.below(64) {
            0..=7 => self.card.next(pair),
            8..=23 if !is_sound => self.card.next(pair),
            8..=9 => vec![self.record_step(pair, layout)],
            10 if random.once_in(8) => vec![self.begin_step()],
            11 => vec![self.trial_step(pair, layout)],
            12 => self.damage_steps(pair, layout),
            13 if random.once_in(8) => self.number_steps(world),
            13 if is_sound => self.card_damage_steps(pair, layout),
            14 => self.fill_steps(pair, layout),
            15 if random.once_in(3) => self.new_log(),
            16..=40 if is_broken => self.new_log(),
            _ => vec![self.play_step(pair, layout)],
        }
    }

    /// The player is handed the next bytes of the log; while a record is to be
    /// tried again, also none or any, often with a wrong kind first.
    fn play_step(&mut self, pair: &Pair<'_>, layout: &Layout) -> Step {
        while self.ahead.len() < 40 {
            let bytes = self.log_bytes(pair, layout);
            self.ahead.extend(bytes);
        }
        let length = self.piece_length();
        let piece = self.ahead[..length].to_vec();
        let random = &mut self.card.random;
        let bytes = match random.below(4) {
            0 if pair.world().player[0] == AGAIN => Vec::new(),
            1 if pair.world().player[0] == AGAIN => {
                let other = random.below(20);
                let mut bytes = random.bytes(other);
                if let Some(first) = bytes.first_mut() {
                    *first = random.pick(&[0, 6, *first]);
                }
                bytes
            }
            _ => piece,
        };
        Step::Call(Call::Log(LogCall::Play(bytes)), self.room(layout))
    }

    fn piece_length(&mut self) -> usize {
        let (random, length) = (&mut self.card.random, self.ahead.len());
        match self.cutting {
            Cutting::Whole => length,
            Cutting::Bytewise => usize::from(!random.once_in(16)),
            Cutting::Short => random.below(6),
            Cutting::Any => random.below(length + 1),
        }
    }

    /// The next bytes of the log: mostly a record.
    fn log_bytes(&mut self, pair: &Pair<'_>, layout: &Layout) -> Vec<u8> {
        let call = self.recorded_call(pair, layout);
        let random = &mut self.card.random;
        let any = random.number() as u8;
        match random.below(160) {
            0 => vec![random.pick(&[0, 6, 0x80, 0xFF, any])],
            1 => vec![2, random.pick(&[2, 3, 0x80, 0xFF, any])],
            2 => {
                let length = 1 + random.below(20);
                random.bytes(length)
            }
            3 => record(&call)[1..].to_vec(),
            _ => record(&call),
        }
    }

    /// A call that a log can hold.
    fn recorded_call(&mut self, pair: &Pair<'_>, layout: &Layout) -> Call {
        if self.card.random.once_in(32) {
            return Call::Reset;
        }
        loop {
            let call = self.card.call(pair, layout);
            if call.has_record() {
                return call;
            }
        }
    }

    /// The output of a call of the player.
    fn room(&mut self, layout: &Layout) -> Room {
        let random = &mut self.card.random;
        match random.below(self.tight) {
            0 => Room::Short,
            1 => Room::Exact,
            2 => Room::Bytes(random.below(48)),
            3 => Room::Bytes(0),
            _ => Room::Bytes(enough(layout)),
        }
    }

    /// Makes many vectors wait, and has a record let them go.
    fn fill_steps(&mut self, pair: &Pair<'_>, layout: &Layout) -> Vec<Step> {
        let world = pair.world();
        let is_between = world.player[..PART_AT] == [RECORDS, 0];
        let (true, Some(msix), true) = (is_between, layout.msix, second::is_sound(world)) else {
            return vec![self.play_step(pair, layout)];
        };
        let release = record(&Call::ConfigWrite {
            offset: msix.at as u64 + 2,
            width: 2,
            value: 0x8000,
        });
        let mut steps = self.card.fill_steps(world, layout);
        // The last two steps let them go by calls of the card.
        steps.truncate(steps.len() - 2);
        self.ahead.splice(..0, release);
        steps.push(self.play_step(pair, layout));
        steps
    }

    /// Gives the player bytes that no log leaves behind, hands it bytes, and
    /// puts it back.
    fn damage_steps(&mut self, pair: &Pair<'_>, layout: &Layout) -> Vec<Step> {
        let before = pair.world().player.clone();
        let mut steps = vec![self.damage_step(&before)];
        for _ in 0..1 + self.card.random.below(3) {
            let random = &mut self.card.random;
            let length = random.below(20);
            let bytes = random.bytes(length);
            let bytes = match random.once_in(2) {
                true => bytes,
                false => self.ahead.clone(),
            };
            let room = self.room(layout);
            steps.push(Step::Call(Call::Log(LogCall::Play(bytes)), room));
        }
        steps.push(Step::Contents(Part::Player, before));
        steps
    }

    /// Damages the card or its buffers, plays, and undoes the damage.
    fn card_damage_steps(&mut self, pair: &Pair<'_>, layout: &Layout) -> Vec<Step> {
        let world = pair.world();
        let part = self.card.damaged_part(world);
        let damage = match (part, self.card.random.once_in(4)) {
            (Part::Card, true) => {
                let flags = world.card[0] | self.card.other_flags();
                Step::Byte(Part::Card, 0, flags)
            }
            _ => self.card.damage_step(part, world, layout),
        };
        let undo = Step::Contents(part, world.part(part).clone());
        vec![damage, self.play_step(pair, layout), undo]
    }

    fn damage_step(&mut self, player: &[u8]) -> Step {
        let random = &mut self.card.random;
        match random.below(5) {
            0 => Step::Length(Part::Player, near_length(random, PLAYER_BYTES)),
            1 => {
                let with_bit = player[0] | 4 << random.below(6);
                Step::Byte(Part::Player, 0, random.pick(&[4, with_bit]))
            }
            2 => {
                let mut bytes = random.bytes(PLAYER_BYTES);
                bytes[0] |= random.pick(&[3, 4, 8]);
                Step::Contents(Part::Player, bytes)
            }
            _ => Step::Contents(Part::Player, no_player(random)),
        }
    }

    /// Gives the player a number of records near the largest.
    fn number_steps(&mut self, world: &World) -> Vec<Step> {
        let mut player = world.player.clone();
        if matches!(player[0], RECORDS | AGAIN) {
            let number = u64::MAX - self.card.random.below(4) as u64;
            player[NUMBER_AT..].copy_from_slice(&number.to_le_bytes());
        }
        vec![Step::Contents(Part::Player, player)]
    }

    fn begin_step(&mut self) -> Step {
        let room = self.recorder_room();
        Step::Call(Call::Log(LogCall::Begin), room)
    }

    /// A call of the recorder, with numbers of any width.
    fn record_step(&mut self, pair: &Pair<'_>, layout: &Layout) -> Step {
        let call = self.recorded_call(pair, layout);
        let random = &mut self.card.random;
        let any = random.number() as u8;
        let refusal = random.pick(&[0, 0, 0, 1, 2, 3, 4, 5, 6, 6, any]);
        let mut recording = Recording::of(&call, refusal).expect("a call that logs hold");
        if random.once_in(2) {
            for number in numbers_without_use(&mut recording) {
                *number = random.number();
            }
        }
        match random.below(16) {
            0 => recording.kind = random.pick(&[0, 6, 7, 255]),
            1 => recording.kind = random.wider(recording.kind),
            2 => recording.value = random.number(),
            3 => recording.value = random.wider(recording.value & 0xFFFF_FFFF),
            4 => recording.offset = random.number(),
            5 => recording.width = random.number(),
            6 => recording.bar = random.number(),
            _ => {}
        }
        let room = self.recorder_room();
        Step::Call(Call::Log(LogCall::Record(recording)), room)
    }

    fn recorder_room(&mut self) -> Room {
        let random = &mut self.card.random;
        let any = random.below(RECORD_BYTES + 3);
        random.pick(&[
            Room::Exact,
            Room::Short,
            Room::Bytes(any),
            Room::Bytes(RECORD_BYTES),
        ])
    }

    /// Calls that are recorded and then played.
    fn trial_step(&mut self, pair: &Pair<'_>, layout: &Layout) -> Step {
        let count = self.card.random.below(12);
        let mut calls = Vec::new();
        for _ in 0..count {
            let call = self.recorded_call(pair, layout);
            let room = self.card.random.pick(&[0, 15, 16, 20, 40, usize::MAX]);
            calls.push((call, room.min(enough(layout))));
        }
        let random = &mut self.card.random;
        let any = 1 + random.below(30);
        let piece = random.pick(&[1, any, usize::MAX]);
        let trial = Recorded { calls, piece };
        Step::Call(Call::Log(LogCall::Trial(trial)), Room::Bytes(0))
    }
}

/// The record of a call; a number too wide for it becomes the largest.
fn record(call: &Call) -> Vec<u8> {
    Recording::of(call, 0)
        .and_then(|recording| second::record_bytes(&recording))
        .expect("a call that logs hold")
}

/// The numbers that the kind has no use for.
fn numbers_without_use(recording: &mut Recording) -> Vec<&mut u64> {
    let Recording {
        kind,
        bar,
        offset,
        width,
        value,
        ..
    } = recording;
    match kind {
        1 | 2 => vec![bar, offset, width],
        3 => vec![bar],
        5 => vec![bar, offset, width, value],
        _ => Vec::new(),
    }
}

/// The bytes of a record of this kind; 0 for what is no kind.
fn record_length(kind: u8) -> usize {
    [0, 3, 2, 8, 15, 1]
        .get(usize::from(kind))
        .copied()
        .unwrap_or(0)
}

/// A player that no log leaves behind: it has taken as many bytes as it cannot
/// have taken, or holds a line with another level than 0 and 1.
fn no_player(random: &mut Random) -> Vec<u8> {
    let mut bytes = random.bytes(PLAYER_BYTES);
    if random.below(8) == 0 {
        bytes[..3].copy_from_slice(&[2, 2, 2]);
        bytes[3] = bytes[3].max(2);
        return bytes;
    }
    let kind = random.below(7) as u8;
    let length = record_length(kind);
    let any = random.below(256);
    let stage = random.below(3);
    let taken = match stage {
        0 => any.max(LOG_HEADER_BYTES),
        1 => random
            .pick(&[1, length, length + 1, any])
            .max(length)
            .max(1),
        _ => {
            let wrong = random.pick(&[0, length.saturating_sub(1), length + 1, any]);
            if wrong == length && length > 0 {
                0
            } else {
                wrong
            }
        }
    };
    bytes[..3].copy_from_slice(&[stage as u8, taken as u8, kind]);
    bytes
}
