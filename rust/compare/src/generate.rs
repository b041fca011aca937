//! Random trials. The next steps are chosen by the state that the second model
//! is in, so that they reach something.

mod foreign;
mod log;
mod query;
mod switch;

use crate::call::{Call, Damage, Given, Image, Room, Step, Subject};
use crate::given::{arbitrary, spoil, valid};
use crate::layout::{pending_bytes, table_bytes, Layout, Mode, EXTENDED_ENABLE};
use crate::pair::Pair;
use crate::random::Random;
use crate::second;
use crate::world::{Part, World, CARD_BYTES, ROOM};

/// Images kept in one trial.
const SLOTS: usize = 4;

/// A trial that is being made up.
pub trait Generator {
    /// The first steps.
    fn first(&mut self) -> Vec<Step>;

    /// The next steps, or none at the end of the trial.
    fn next(&mut self, pair: &Pair<'_>) -> Vec<Step>;
}

/// The trial with this number under a seed.
pub fn trial(subject: Subject, seed: u64, trial: u64) -> Box<dyn Generator> {
    let random = Random::new(seed, trial);
    match subject {
        Subject::Card => Box::new(CardGenerator::new(random)),
        Subject::Switch => Box::new(switch::SwitchGenerator::new(random)),
        Subject::Log => Box::new(log::LogGenerator::new(random)),
        Subject::Query => Box::new(query::QueryGenerator::new(random)),
    }
}

/// The number of steps of a trial, mostly 60.
fn number_of_steps(random: &mut Random) -> usize {
    match random.below(32) {
        0 => 1_000,
        1..=4 => 200,
        5..=8 => 4,
        _ => 60,
    }
}

/// A trial of a card.
struct CardGenerator {
    random: Random,
    /// The steps still to make before the trial ends.
    left: usize,
}

impl Generator for CardGenerator {
    /// The first steps: buffers and a start.
    fn first(&mut self) -> Vec<Step> {
        let random = &mut self.random;
        let mut given = match random.below(8) {
            0 => arbitrary(random),
            _ => valid(random),
        };
        if random.once_in(4) {
            spoil(random, &mut given);
        }
        let mut steps = start_steps(&given);
        if random.once_in(8) {
            self.spoil_lengths(&mut steps);
        } else if !random.once_in(4) {
            steps.push(config_write(0x04, 2, random.pick(&[6, 6, 2])));
            let layout = Layout::of_config(&given.config);
            steps.push(Step::Call(self.switch(&layout), Room::Bytes(ROOM)));
        }
        steps
    }

    fn next(&mut self, pair: &Pair<'_>) -> Vec<Step> {
        if self.left == 0 {
            return Vec::new();
        }
        let layout = Layout::of_card(&pair.world().card);
        let steps = if second::is_sound(pair.world()) {
            self.sound_steps(pair, &layout)
        } else {
            self.unsound_steps(pair, &layout)
        };
        // A large card costs more.
        let weight = 1 + layout.vectors() / 400;
        self.left = self.left.saturating_sub(weight * steps.len().max(1));
        steps
    }
}

impl CardGenerator {
    fn new(mut random: Random) -> CardGenerator {
        let left = number_of_steps(&mut random);
        CardGenerator { random, left }
    }

    /// Changes a length that a start is given.
    fn spoil_lengths(&mut self, steps: &mut [Step]) {
        let random = &mut self.random;
        let which = random.below(5);
        if let Some(Step::Length(_, length)) = steps.get_mut(which) {
            *length = near_length(random, *length);
        } else if let Some(Step::Call(Call::Start(given), _)) = steps.last_mut() {
            if which == 3 {
                let length = near_length(random, 256);
                given.config.resize(length, 0);
            } else {
                let length = random.pick(&[0, 1, 5, 7, 12]);
                given.sizes.resize(length, 0);
            }
        }
    }

    /// Steps on a card that is sound.
    fn sound_steps(&mut self, pair: &Pair<'_>, layout: &Layout) -> Vec<Step> {
        match self.random.below(100) {
            0..=1 => self.damage_steps(pair, layout),
            2 => self.fill_steps(pair.world(), layout),
            3 => self.foreign_steps(layout),
            4..=5 => self.save_steps(pair, layout),
            6 if self.random.once_in(4) => self.first(),
            7 => self.flag_steps(pair, layout),
            _ => vec![self.call_step(pair, layout)],
        }
    }

    /// Steps on a card that is not sound: a few calls, then a sound card.
    fn unsound_steps(&mut self, pair: &Pair<'_>, layout: &Layout) -> Vec<Step> {
        let mut steps: Vec<Step> = (0..self.random.below(4))
            .map(|_| self.call_step(pair, layout))
            .collect();
        if let (Some(number), true) = (self.kept(pair), self.random.once_in(2)) {
            steps.push(Step::Length(Part::Card, CARD_BYTES));
            steps.extend(fitting(pair.image(number)));
            let image = Image::Kept(number, Vec::new());
            steps.push(Step::Call(Call::Restore(image), Room::Bytes(0)));
        } else {
            steps.extend(start_steps(&valid(&mut self.random)));
        }
        steps
    }

    /// The number of an image kept.
    fn kept(&mut self, pair: &Pair<'_>) -> Option<usize> {
        let kept = pair.kept();
        (!kept.is_empty()).then(|| self.random.pick(&kept))
    }

    /// Damages card or buffers, makes calls, and mostly undoes the damage.
    fn damage_steps(&mut self, pair: &Pair<'_>, layout: &Layout) -> Vec<Step> {
        let mut steps = Vec::new();
        let mut undo = Vec::new();
        for _ in 0..self.random.pick(&[1, 1, 1, 2, 3]) {
            let part = self.damaged_part(pair.world());
            undo.push(Step::Contents(part, pair.world().part(part).clone()));
            steps.push(self.damage_step(part, pair.world(), layout));
        }
        for _ in 0..1 + self.random.below(3) {
            steps.push(self.call_step(pair, layout));
        }
        if !self.random.once_in(4) {
            steps.extend(undo);
        }
        steps
    }

    /// Sets other flags than line and wire, makes a call of any kind, and mostly
    /// puts the card back.
    fn flag_steps(&mut self, pair: &Pair<'_>, layout: &Layout) -> Vec<Step> {
        let card = &pair.world().card;
        let mut steps = vec![Step::Byte(Part::Card, 0, card[0] | self.other_flags())];
        if self.random.once_in(8) {
            let length = near_length(&mut self.random, CARD_BYTES);
            steps.push(Step::Length(Part::Card, length));
        }
        match self.random.below(10) {
            0 => {
                let mut given = valid(&mut self.random);
                if self.random.once_in(2) {
                    spoil(&mut self.random, &mut given);
                }
                steps.push(Step::Call(Call::Start(given), Room::Bytes(0)));
            }
            1..=2 => {
                let image = self.image(pair, layout);
                steps.push(Step::Call(Call::Restore(image), Room::Bytes(0)));
            }
            3 => steps.push(Step::Call(Call::Reset, Room::Exact)),
            4 => steps.push(Step::Call(Call::Save(0), Room::Bytes(ROOM))),
            _ => steps.push(self.call_step(pair, layout)),
        }
        if !self.random.once_in(4) {
            steps.push(Step::Contents(Part::Card, card.clone()));
        }
        steps
    }

    /// One or more flags other than line and wire.
    fn other_flags(&mut self) -> u8 {
        let bit = 4 << self.random.below(6);
        let more = self.random.number() as u8 & !3;
        self.random.pick(&[bit, bit | more])
    }

    /// The part to damage.
    fn damaged_part(&mut self, world: &World) -> Part {
        let part = self
            .random
            .pick(&[Part::Card, Part::Card, Part::Table, Part::Pending]);
        match world.part(part).is_empty() {
            true => Part::Card,
            false => part,
        }
    }

    /// Damages a part.
    fn damage_step(&mut self, part: Part, world: &World, layout: &Layout) -> Step {
        let random = &mut self.random;
        let bytes = world.part(part);
        if random.once_in(8) {
            return Step::Length(part, near_length(random, bytes.len()));
        }
        if random.once_in(40) {
            return Step::Contents(part, random.bytes(bytes.len()));
        }
        let at = match part {
            Part::Card if random.once_in(2) => damaged_card_byte(random, layout),
            Part::Table if random.once_in(2) => 16 * random.below(bytes.len() / 16) + 12,
            _ => random.below(bytes.len()),
        };
        let value = bytes[at] ^ 1 << random.below(8);
        Step::Byte(part, at, value)
    }

    /// Makes many vectors wait, then lets them go.
    fn fill_steps(&mut self, world: &World, layout: &Layout) -> Vec<Step> {
        let random = &mut self.random;
        let Some(msix) = layout.msix else {
            return vec![config_write(0x04, 2, 2), line(1)];
        };
        let control = msix.at as u64 + 2;
        let mut steps = vec![
            config_write(0x04, 2, random.pick(&[2, 6])),
            config_write(control, 2, random.pick(&[0xC000, 0x4000])),
        ];
        let mut waiting = vec![0xFF; world.pending.len()];
        if random.once_in(3) {
            waiting = random.bytes(world.pending.len());
        }
        for vector in layout.vectors()..8 * waiting.len() {
            waiting[vector / 8] &= !(1 << (vector % 8));
        }
        let mut table = world.table.clone();
        let masked = random.pick(&[2, 8, usize::MAX]);
        let uppers = random.pick(&[[0, 0], [0, 1], [1, 1]]);
        for entry in table.chunks_exact_mut(16) {
            entry[12] = u8::from(random.once_in(masked));
            entry[4] = random.pick(&uppers);
            entry[8] = random.number() as u8;
        }
        steps.push(Step::Contents(Part::Pending, waiting));
        steps.push(Step::Contents(Part::Table, table));
        steps.push(line(1));
        steps.push(config_write(0x04, 2, 6));
        let room = random.pick(&[Room::Exact, Room::Bytes(ROOM)]);
        for room in [Room::Short, room] {
            let (offset, width, value) = (control, 2, 0x8000);
            let call = Call::ConfigWrite {
                offset,
                width,
                value,
            };
            steps.push(Step::Call(call, room));
        }
        steps
    }

    /// Restores an image of another card, mostly over buffers that fit.
    fn foreign_steps(&mut self, layout: &Layout) -> Vec<Step> {
        let mut image = foreign::image(&mut self.random);
        let mut steps = Vec::new();
        if !self.random.once_in(4) {
            steps.extend(fitting(&image));
        }
        if self.random.once_in(4) {
            let at = self.random.below(image.len());
            image[at] ^= 1 << self.random.below(8);
        }
        let image = Image::Bytes(image);
        steps.push(Step::Call(Call::Restore(image), Room::Bytes(0)));
        if self.random.once_in(4) {
            let vectors = layout.vectors();
            steps.push(Step::Length(Part::Table, table_bytes(vectors)));
            steps.push(Step::Length(Part::Pending, pending_bytes(vectors)));
        }
        steps
    }

    /// Saves, makes a few calls, and restores, mostly the same image.
    fn save_steps(&mut self, pair: &Pair<'_>, layout: &Layout) -> Vec<Step> {
        let number = self.random.below(SLOTS);
        let room = self
            .random
            .pick(&[Room::Exact, Room::Short, Room::Bytes(ROOM)]);
        let mut steps = vec![Step::Call(Call::Save(number), room)];
        for _ in 0..self.random.below(6) {
            steps.push(self.call_step(pair, layout));
        }
        let damage = match self.random.once_in(2) {
            true => Vec::new(),
            false => self.image_damage(294 + layout.vectors() * 16),
        };
        let image = Image::Kept(number, damage);
        steps.push(Step::Call(Call::Restore(image), Room::Bytes(0)));
        steps
    }

    /// Damage of an image of about this length.
    fn image_damage(&mut self, length: usize) -> Vec<Damage> {
        let random = &mut self.random;
        let mut damage = Vec::new();
        for _ in 0..1 + random.below(2) {
            let at = match random.below(4) {
                0 => random.below(14),
                1 => random.below(294),
                _ => random.below(length + 8),
            };
            let value = random.number() as u8;
            damage.push(Damage::Byte(at, random.pick(&[0, 1, 2, 4, 0x80, value])));
        }
        if random.once_in(6) {
            let at = random.pick(&[0, 2, 293, 294, length, length + 1, length + 8]);
            damage.push(Damage::Length(at));
        }
        damage
    }

    /// One random call with its room.
    fn call_step(&mut self, pair: &Pair<'_>, layout: &Layout) -> Step {
        let call = self.call(pair, layout);
        let random = &mut self.random;
        let enough = enough(layout);
        let room = match random.below(12) {
            0 => Room::Exact,
            1 => Room::Short,
            2 => Room::Bytes(random.below(64)),
            3 if random.once_in(8) => Room::Bytes(ROOM + random.below(9)),
            _ => Room::Bytes(enough),
        };
        Step::Call(call, room)
    }

    /// The kind of a random call, as a number that `call` has an arm for. There
    /// are few BAR accesses without MSI-X, and fewer withdrawals while the pin
    /// is in force, since all of them are refused.
    fn kind(&mut self, layout: &Layout) -> usize {
        match self.random.below(88) {
            26..=46 if layout.msix.is_none() && !self.random.once_in(8) => {
                self.random.pick(&[6, 14, 19, 47])
            }
            80.. if layout.mode() == Mode::Pin && self.random.once_in(2) => 19,
            kind => kind,
        }
    }

    /// One random call.
    fn call(&mut self, pair: &Pair<'_>, layout: &Layout) -> Call {
        match self.kind(layout) {
            0..=5 => {
                let (offset, width) = self.config_place(layout);
                Call::ConfigRead { offset, width }
            }
            6..=13 => self.config_write(layout),
            14..=18 => Call::ConfigWrite {
                offset: 0x04,
                width: 2,
                value: self.random.pick(&[6, 6, 6, 6, 4, 2, 2, 0, 0x402, 0x406]),
            },
            19..=25 => self.switch(layout),
            26..=29 => {
                let (bar, offset, width) = self.bar_place(layout);
                Call::BarRead { bar, offset, width }
            }
            30..=46 => self.bar_write(layout),
            47..=70 => self.event(pair.world(), layout),
            71..=75 => {
                let wider = self.random.wider(0);
                Call::Line(self.random.pick(&[0, 0, 1, 1, 2, 0x80, 0xFF, wider]))
            }
            76 => Call::Save(self.random.below(SLOTS)),
            77 => Call::Restore(self.image(pair, layout)),
            80.. => self.withdrawal(pair.world(), layout),
            _ if self.random.once_in(4) => Call::Reset,
            _ => Call::Event(self.random.number() & self.random.pick(&[0xFFFF, u64::MAX])),
        }
    }

    /// A configuration write of any place and value.
    fn config_write(&mut self, layout: &Layout) -> Call {
        let (offset, width) = self.config_place(layout);
        let value = self.value() as u32;
        Call::ConfigWrite {
            offset,
            width,
            value,
        }
    }

    /// A BAR write of any place and value.
    fn bar_write(&mut self, layout: &Layout) -> Call {
        let (bar, offset, width) = self.bar_place(layout);
        let value = self.value();
        Call::BarWrite {
            bar,
            offset,
            width,
            value,
        }
    }

    /// A random value to write.
    fn value(&mut self) -> u64 {
        let (number, other) = (self.random.number(), self.random.number());
        number
            & self
                .random
                .pick(&[u64::MAX, other, 0, 0xFFFF_FFFF, 1 << 32 | 0xFF])
    }

    /// An event, mostly of a vector that waits already or of the first ones.
    fn event(&mut self, world: &World, layout: &Layout) -> Call {
        let events = usize::from(layout.events);
        let random = &mut self.random;
        let number = match random.below(8) {
            0 => random.pick(&[events.saturating_sub(1), events, events + 1]),
            1..=2 => random.below(4),
            3 if !world.pending.is_empty() => {
                let byte = random.below(world.pending.len());
                8 * byte + world.pending[byte].trailing_zeros() as usize % 8
            }
            _ => random.below(events.max(1)),
        };
        Call::Event(match random.once_in(32) {
            true => random.wider(number as u64),
            false => number as u64,
        })
    }

    /// A withdrawal, mostly of a vector that waits, of the mechanism in force or
    /// of the other one, or of a number near the borders.
    fn withdrawal(&mut self, world: &World, layout: &Layout) -> Call {
        let random = &mut self.random;
        let msix = layout.vectors() as u64;
        let msi = layout.msi.map_or(1, |msi| msi.vectors()) as u64;
        let waiting = match (layout.mode(), random.once_in(8)) {
            (Mode::Msi, false) | (Mode::MsiX, true) => msi_waiting(world),
            _ => msix_waiting(world),
        };
        let vector = match random.below(10) {
            0..=4 if !waiting.is_empty() => random.pick(&waiting),
            0..=6 => random.pick(&[0, msix.saturating_sub(1), msix, msi - 1, msi]),
            7 => random.pick(&[31, 32, 2047, 2048, 65_535]),
            _ => random.below(layout.vectors_in_force().max(4)) as u64,
        };
        Call::Withdraw(match random.once_in(16) {
            true => random.wider(vector),
            false => vector,
        })
    }

    /// Switches MSI or MSI-X, if the card has it.
    fn switch(&mut self, layout: &Layout) -> Call {
        let random = &mut self.random;
        let extended = random.pick(&[0, EXTENDED_ENABLE]);
        let on = random.below(0x80) as u16 | extended;
        let msi = layout.msi.map(|msi| (msi.at + 2, on));
        let control = random.pick(&[0x8000, 0x8000, 0x8000, 0xC000, 0x4000, 0, 0]);
        let msix = layout.msix.map(|msix| (msix.at + 2, control));
        let wanted = match random.once_in(2) {
            true => msi.or(msix),
            false => msix.or(msi),
        };
        match wanted {
            Some((at, value)) => Call::ConfigWrite {
                offset: at as u64,
                width: 2,
                value: u32::from(value),
            },
            None => Call::Line(1),
        }
    }

    /// The offset and width of a configuration access.
    fn config_place(&mut self, layout: &Layout) -> (u64, u64) {
        let random = &mut self.random;
        let width = random.pick(&[1, 2, 4, 4]);
        let offset = match (random.below(10), layout.msi, layout.msix) {
            (0, _, _) => random.below(300),
            (1, _, _) => 0x04 + random.below(4),
            (2, _, _) => 0x3C,
            (3..=4, Some(msi), _) if msi.has_masks() => msi.mask(),
            (5, Some(msi), _) => msi.data() + random.pick(&[0, 0, 2]),
            (_, Some(msi), None) => msi.at + random.below(28),
            (_, None, Some(msix)) => msix.at + random.below(12),
            (_, Some(msi), Some(msix)) => {
                random.pick(&[msi.at, msi.at, msix.at]) + random.below(28)
            }
            (_, None, None) => 4 * random.below(64),
        };
        let offset = offset as u64 & !(width - 1);
        match random.below(32) {
            0..=1 => (random.below(0x400) as u64, random.below(10) as u64),
            2 => (random.wider(offset), width),
            3 => (offset, random.wider(width)),
            _ => (offset, width),
        }
    }

    /// The place and width of a BAR access.
    fn bar_place(&mut self, layout: &Layout) -> (u64, u64, u64) {
        let random = &mut self.random;
        let width = random.pick(&[4, 4, 8]);
        let Some(msix) = layout.msix else {
            return (random.below(7) as u64, 8 * random.below(64) as u64, width);
        };
        let behind = usize::from(random.once_in(16));
        let entry = 16 * random.below(layout.vectors() + behind) as u32;
        let word = random.pick(&[0, 4, 8, 12, 12, 12]);
        let (place, offset) = match random.below(16) {
            0 => (msix.pending, 4 * random.below(6) as u32),
            1 => (msix.table, random.below(64) as u32),
            2 => (msix.pending, random.number() as u32),
            3 => (msix.table, (random.below(16) as u32).wrapping_sub(8)),
            _ => (msix.table, (entry + word) & !(width as u32 - 1)),
        };
        let bar = u64::from(place.bar);
        let offset = u64::from(place.offset.wrapping_add(offset));
        match random.below(80) {
            0..=1 => (random.below(9) as u64, offset, width),
            2..=3 => (bar, offset, random.below(17) as u64),
            4..=5 => (random.wider(bar), offset, width),
            6..=7 => (bar, random.wider(offset), width),
            8..=9 => (bar, offset, random.wider(width)),
            _ => (bar, offset, width),
        }
    }

    /// An image to restore.
    fn image(&mut self, pair: &Pair<'_>, layout: &Layout) -> Image {
        match self.kept(pair) {
            Some(number) if self.random.once_in(2) => Image::Kept(number, Vec::new()),
            Some(number) => {
                let damage = self.image_damage(294 + layout.vectors() * 16);
                Image::Kept(number, damage)
            }
            None => {
                let length = self.random.below(400);
                Image::Bytes(self.random.bytes(length))
            }
        }
    }
}

/// The MSI vectors that wait.
fn msi_waiting(world: &World) -> Vec<u64> {
    set_bits(world.card.get(5..9).unwrap_or_default())
}

/// The MSI-X vectors that wait.
fn msix_waiting(world: &World) -> Vec<u64> {
    set_bits(&world.pending)
}

/// The numbers of the bits that are set.
fn set_bits(bytes: &[u8]) -> Vec<u64> {
    let is_set = |bit: &usize| bytes[bit / 8] >> (bit % 8) & 1 != 0;
    let bits = (0..8 * bytes.len()).filter(is_set);
    bits.map(|bit| bit as u64).collect()
}

/// A length of output with room for each call of the card.
fn enough(layout: &Layout) -> usize {
    320 + 20 * layout.vectors().max(32)
}

/// A length near this one.
fn near_length(random: &mut Random, length: usize) -> usize {
    let less = length.saturating_sub(random.pick(&[1, 8, 16]));
    let more = length + random.pick(&[1, 8, 16]);
    random.pick(&[less, more, 0, 1])
}

/// A byte of the card that decides something.
fn damaged_card_byte(random: &mut Random, layout: &Layout) -> usize {
    let mut places = vec![0, 0, 1, 3, 5, 6, 33 + 0x04, 33 + 0x05, 33 + 0x06, 33 + 0x34];
    if let Some(msi) = layout.msi {
        places.extend([33 + msi.at + 2, 33 + msi.at + 3, 33 + msi.at + 4]);
        places.extend((8..24).map(|at| (33 + msi.at + at).min(CARD_BYTES - 1)));
    }
    if let Some(msix) = layout.msix {
        places.extend([33 + msix.at + 3, 33 + msix.at + 3, 33 + msix.at + 4]);
    }
    random.pick(&places)
}

/// A configuration write with enough room for one packet of the wire.
fn config_write(offset: u64, width: u64, value: u32) -> Step {
    let call = Call::ConfigWrite {
        offset,
        width,
        value,
    };
    Step::Call(call, Room::Bytes(ROOM))
}

/// A line call.
fn line(level: u64) -> Step {
    Step::Call(Call::Line(level), Room::Bytes(ROOM))
}

/// Buffers that fit, and the start.
pub fn start_steps(given: &Given) -> Vec<Step> {
    let vectors = Layout::of_config(&given.config).vectors();
    vec![
        Step::Length(Part::Card, CARD_BYTES),
        Step::Length(Part::Table, table_bytes(vectors)),
        Step::Length(Part::Pending, pending_bytes(vectors)),
        Step::Call(Call::Start(given.clone()), Room::Bytes(0)),
    ]
}

/// Gives the buffers the lengths that an image asks for.
fn fitting(image: &[u8]) -> Vec<Step> {
    let config = image.get(38..294).unwrap_or(&[]);
    let vectors = Layout::of_config(config).vectors();
    vec![
        Step::Length(Part::Table, table_bytes(vectors)),
        Step::Length(Part::Pending, pending_bytes(vectors)),
    ]
}
