//! The second model behind the same interface of bytes.

mod log;
mod query;
mod switch;

pub use log::{is_player, record_bytes, Left};
pub use switch::is_switch;

use crate::call::{Call, Given, LogCall, Outcome};
use crate::recorded;
use crate::world::{other_flags, World, CARD_BYTES, CONFIG_AT, SIZES_AT};
use second_model::{Answer, Card};

/// The number for wrong lengths of card, configuration or sizes, for bytes that
/// no switch or player has, and for those that begin with no packet.
const LENGTHS: u8 = 60;

/// The card in these bytes; `None` if a card has another number of bytes.
fn read_card(bytes: &[u8]) -> Option<Card> {
    if bytes.len() != CARD_BYTES {
        return None;
    }
    let half = |at: usize| u16::from_le_bytes([bytes[at], bytes[at + 1]]);
    let word = |at: usize| u32::from(half(at)) | u32::from(half(at + 2)) << 16;
    Some(Card {
        config: bytes[CONFIG_AT..].try_into().ok()?,
        sizes: [0, 1, 2, 3, 4, 5].map(|bar| word(SIZES_AT + 4 * bar)),
        events: half(1),
        requester: half(3),
        line: bytes[0] & 1 != 0,
        wire: bytes[0] & 2 != 0,
        other_flags: other_flags(bytes),
        msi_waiting: word(5),
    })
}

/// Writes the bytes of a card.
fn write_card(card: &Card, bytes: &mut [u8]) {
    bytes[0] = u8::from(card.line) | u8::from(card.wire) << 1 | card.other_flags;
    bytes[1..3].copy_from_slice(&card.events.to_le_bytes());
    bytes[3..5].copy_from_slice(&card.requester.to_le_bytes());
    bytes[5..9].copy_from_slice(&card.msi_waiting.to_le_bytes());
    for (place, size) in bytes[SIZES_AT..].chunks_exact_mut(4).zip(card.sizes) {
        place.copy_from_slice(&size.to_le_bytes());
    }
    bytes[CONFIG_AT..].copy_from_slice(&card.config);
}

/// Whether the world's card is sound.
pub fn is_sound(world: &World) -> bool {
    read_card(&world.card)
        .is_some_and(|card| second_model::is_sound(&card, &world.table, &world.pending))
}

/// Makes a call. `image` is the image that it reads.
pub fn apply(world: &mut World, call: &Call, image: &[u8]) -> Outcome {
    match call {
        Call::Start(given) => return start(world, given),
        Call::Switch(call) => return switch::apply(world, call),
        // The log of calls leads to the card that they left.
        Call::Log(LogCall::Trial(trial)) => {
            recorded::run(&apply, world, trial);
            return Outcome::read(0, 1);
        }
        Call::Log(call) => return log::apply(world, call),
        Call::Query(call) => return query::apply(call, image),
        _ => {}
    }
    let Some(mut card) = read_card(&world.card) else {
        return outcome(call, LENGTHS, None);
    };
    let result = apply_to_card(&mut card, world, call, image);
    write_card(&card, &mut world.card);
    outcome(call, result.refusal, Some(result))
}

/// A start takes any card of the right length.
fn start(world: &mut World, given: &Given) -> Outcome {
    let config = <&[u8; 256]>::try_from(&given.config[..]);
    let sizes = <&[u32; 6]>::try_from(&given.sizes[..]);
    let (Ok(config), Ok(sizes), CARD_BYTES) = (config, sizes, world.card.len()) else {
        return Outcome::number(LENGTHS);
    };
    let (card, result) = second_model::start(
        config,
        sizes,
        given.events,
        given.requester,
        &mut world.table,
        &mut world.pending,
    );
    write_card(&card, &mut world.card);
    Outcome::number(result.refusal)
}

/// Makes a call other than a start.
fn apply_to_card(
    card: &mut Card,
    world: &mut World,
    call: &Call,
    image: &[u8],
) -> second_model::Outcome {
    let World {
        table,
        pending,
        out,
        ..
    } = world;
    match *call {
        Call::Start(_) | Call::Switch(_) | Call::Log(_) | Call::Query(_) => {
            unreachable!("these are made elsewhere")
        }
        Call::ConfigRead { offset, width } => {
            second_model::config_read(card, table, pending, offset, width)
        }
        Call::ConfigWrite {
            offset,
            width,
            value,
        } => second_model::config_write(card, table, pending, offset, width, value, out),
        Call::BarRead { bar, offset, width } => {
            second_model::bar_read(card, table, pending, bar, offset, width)
        }
        Call::BarWrite {
            bar,
            offset,
            width,
            value,
        } => second_model::bar_write(card, table, pending, bar, offset, width, value, out),
        Call::Event(number) => second_model::event(card, table, pending, number, out),
        // C interface: 0 is low, anything else high.
        Call::Line(level) => second_model::line(card, table, pending, level != 0, out),
        Call::Reset => second_model::reset(card, table, pending, out),
        Call::Save(_) => second_model::save(card, table, pending, out),
        Call::Restore(_) => second_model::restore(card, table, pending, image),
        Call::Withdraw(vector) => second_model::withdraw(card, table, pending, vector),
    }
}

/// The outcome in the numbers of the C interface.
fn outcome(call: &Call, refusal: u8, result: Option<second_model::Outcome>) -> Outcome {
    let count = result.map_or(0, |result| result.count);
    let value = result.map_or(0, |result| result.value);
    match call {
        Call::Start(_) | Call::Restore(_) => Outcome::number(refusal),
        Call::ConfigRead { .. } | Call::BarRead { .. } | Call::Withdraw(_) => {
            Outcome::read(refusal, value)
        }
        Call::Event(_) => Outcome {
            answer: Some(answer_number(result.and_then(|result| result.answer))),
            ..Outcome::wrote(refusal, count)
        },
        _ => Outcome::wrote(refusal, count),
    }
}

/// The number of an answer, 0 for none.
fn answer_number(answer: Option<Answer>) -> u8 {
    match answer {
        None => 0,
        Some(Answer::Sent) => 1,
        Some(Answer::Held) => 2,
        Some(Answer::Merged) => 3,
        Some(Answer::Lost) => 4,
    }
}
