//! Both models side by side: each step is made on both, and everything is
//! compared after it.

use crate::call::{Call, Damage, Found, Image, Outcome, Room, Step};
use crate::second;
use crate::world::{other_flags, World, PARTS};
use std::collections::BTreeMap;

/// A model under comparison: makes a call on a world.
pub type Model<'a> = &'a dyn Fn(&mut World, &Call, &[u8]) -> Outcome;

/// Two worlds, and the images kept.
pub struct Pair<'a> {
    model: Model<'a>,
    tested: World,
    second: World,
    images: BTreeMap<usize, Vec<u8>>,
    taken: usize,
}

/// In what the models differ after a call, line by line.
#[derive(Clone, Debug, PartialEq, Eq)]
pub struct Difference(pub Vec<String>);

/// A call that was made, for the statistics.
pub struct Made<'a> {
    pub call: &'a Call,
    pub room: Room,
    pub outcome: Outcome,
    pub out: &'a [u8],
    pub card: &'a [u8],
    pub card_before: Vec<u8>,
    pub pending: &'a [u8],
    /// The flags of the card before the call, besides line and wire.
    pub other_flags: u8,
    pub switch: &'a [u8],
    pub switch_before: Vec<u8>,
    pub player: &'a [u8],
    pub player_before: Vec<u8>,
}

impl<'a> Pair<'a> {
    /// Two empty worlds.
    pub fn new(model: Model<'a>) -> Pair<'a> {
        Pair {
            model,
            tested: World::default(),
            second: World::default(),
            images: BTreeMap::new(),
            taken: 0,
        }
    }

    /// How many bytes of logs were taken in all.
    pub fn taken(&self) -> usize {
        self.taken
    }

    /// The second model's world, which is the other's too as long as there is
    /// no difference.
    pub fn world(&self) -> &World {
        &self.second
    }

    /// The numbers of the images kept.
    pub fn kept(&self) -> Vec<usize> {
        self.images.keys().copied().collect()
    }

    /// The image kept under a number.
    pub fn image(&self, number: usize) -> &[u8] {
        self.images.get(&number).map_or(&[], |image| image)
    }

    /// Makes a step on both.
    pub fn step<'b>(&'b mut self, step: &'b Step) -> Result<Option<Made<'b>>, Difference> {
        match step {
            Step::Call(call, room) => self.call(call, *room).map(Some),
            change => {
                make_change(&mut self.tested, change);
                make_change(&mut self.second, change);
                Ok(None)
            }
        }
    }

    /// Makes a call on both and compares.
    fn call<'b>(&'b mut self, call: &'b Call, room: Room) -> Result<Made<'b>, Difference> {
        let image = self.image_of(call);
        let length = self.output_length(call, room, &image);
        let card_before = self.second.card.clone();
        let other_flags = other_flags(&card_before);
        let switch_before = self.second.switch.clone();
        let player_before = self.second.player.clone();
        self.tested.lend_output(length);
        self.second.lend_output(length);
        let tested = (self.model)(&mut self.tested, call, &image);
        let outcome = second::apply(&mut self.second, call, &image);
        compare(&tested, &outcome, &self.tested, &self.second)?;
        if let (Call::Save(number), 0, Some(count)) = (call, outcome.refusal, outcome.count) {
            let image = self.second.out[..count].to_vec();
            self.images.insert(*number, image);
        }
        self.taken += outcome.played.map_or(0, |played| played.taken);
        Ok(Made {
            call,
            room,
            outcome,
            out: &self.second.out,
            card: &self.second.card,
            card_before,
            pending: &self.second.pending,
            other_flags,
            switch: &self.second.switch,
            switch_before,
            player: &self.second.player,
            player_before,
        })
    }

    /// The image that a call reads; empty for other calls.
    pub fn image_of(&self, call: &Call) -> Vec<u8> {
        match call.image() {
            Some(Image::Bytes(bytes)) => bytes.clone(),
            Some(Image::Kept(number, damage)) => damaged(self.image(*number), damage),
            None => Vec::new(),
        }
    }

    /// The length of the output to lend.
    pub fn output_length(&self, call: &Call, room: Room, image: &[u8]) -> usize {
        if !call.has_output() {
            return 0;
        }
        match room {
            Room::Bytes(length) => length,
            Room::Exact => self.needed(call, image),
            Room::Short => self.needed(call, image).saturating_sub(1),
        }
    }

    /// The bytes that the call writes, by the second model.
    fn needed(&self, call: &Call, image: &[u8]) -> usize {
        let mut copy = self.second.clone();
        copy.lend_output(call.most_bytes());
        second::apply(&mut copy, call, image).count.unwrap_or(0)
    }
}

/// Makes a step that is no call.
fn make_change(world: &mut World, step: &Step) {
    match step {
        Step::Call(..) => {}
        Step::Length(part, length) => world.part_mut(*part).resize(*length, 0xAA),
        Step::Byte(part, at, value) => {
            if let Some(byte) = world.part_mut(*part).get_mut(*at) {
                *byte = *value;
            }
        }
        Step::Contents(part, bytes) => world.part_mut(*part).clone_from(bytes),
    }
}

/// The image with its damage.
fn damaged(image: &[u8], damage: &[Damage]) -> Vec<u8> {
    let mut image = image.to_vec();
    for change in damage {
        match *change {
            Damage::Byte(at, value) => {
                if let Some(byte) = image.get_mut(at) {
                    *byte = value;
                }
            }
            Damage::Length(length) => image.resize(length, 0),
        }
    }
    image
}

/// Compares all that both models gave and left.
fn compare(
    tested: &Outcome,
    second: &Outcome,
    tested_world: &World,
    second_world: &World,
) -> Result<(), Difference> {
    if tested == second && tested_world == second_world {
        return Ok(());
    }
    let mut lines = Vec::new();
    if tested != second {
        lines.push(format!("the proved model gave {}", outcome_text(tested)));
        lines.push(format!("the second model gave {}", outcome_text(second)));
    }
    for part in PARTS {
        let (a, b) = (tested_world.part(part), second_world.part(part));
        bytes_text(part.name(), a, b, |at| part.byte_name(at), &mut lines);
    }
    let (a, b) = (&tested_world.out, &second_world.out);
    bytes_text("output", a, b, |_| String::new(), &mut lines);
    Err(Difference(lines))
}

/// An outcome in one line.
pub fn outcome_text(outcome: &Outcome) -> String {
    let mut text = match outcome.refusal {
        0 => "accepted".to_string(),
        number => format!("refusal {number}"),
    };
    if let Some(answer) = outcome.answer {
        let name = ["none", "sent", "held", "merged", "lost"];
        let name = name.get(usize::from(answer)).unwrap_or(&"unknown");
        text += &format!(", answer {answer} ({name})");
    }
    if let Some(value) = outcome.value {
        text += &format!(", value {value:X}h");
    }
    if let Some(count) = outcome.count {
        text += &format!(", count {count}");
    }
    if let Some(played) = outcome.played {
        text += &format!(", taken {}", played.taken);
        text += &match (played.ended, played.refusal) {
            (0, 0) => ", no record".to_string(),
            (1, 0) => ", record accepted".to_string(),
            (1, number) => format!(", record refused with {number}"),
            (ended, number) => format!(", ended {ended}, refusal {number}"),
        };
    }
    if let Some(found) = outcome.found {
        text += &found_text(&found);
    }
    text
}

/// What a query found, to be put behind the refusal.
fn found_text(found: &Found) -> String {
    match found {
        Found::Lengths(lengths) => format!(
            ", N {}, table {}, pending array {}",
            lengths.vectors, lengths.table, lengths.pending
        ),
        Found::Packet(fields) => format!(
            ", count {}, kind {}, requester {:04X}h, address {:X}h, data {:X}h, pin {}, level {}",
            fields.count,
            fields.kind,
            fields.requester,
            fields.address,
            fields.data,
            fields.pin,
            fields.level
        ),
    }
}

/// Lists the first bytes in which two parts differ.
fn bytes_text(
    name: &str,
    tested: &[u8],
    second: &[u8],
    byte_name: impl Fn(usize) -> String,
    lines: &mut Vec<String>,
) {
    if tested.len() != second.len() {
        let (proved, second) = (tested.len(), second.len());
        lines.push(format!("{name}: proved {proved} bytes, second {second}"));
    }
    let both = tested.len().min(second.len());
    let places = (0..both).filter(|&at| tested[at] != second[at]);
    let count = places.clone().count();
    for at in places.take(8) {
        let mut field = byte_name(at);
        if !field.is_empty() {
            field = format!(" ({field})");
        }
        lines.push(format!(
            "{name} byte {at}{field}: proved {:02X}, second {:02X}",
            tested[at], second[at]
        ));
    }
    if count > 8 {
        lines.push(format!("{name}: {} more bytes differ", count - 8));
    }
}
