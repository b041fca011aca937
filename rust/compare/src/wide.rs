//! Numbers that are wider than their fields, of which a cut to the field would
//! leave one that the rule accepts.

use crate::call::{Call, Given, SwitchCall};
use crate::layout::Layout;
use crate::pair::Made;
use crate::world::SWITCH_BYTES;

/// The low bits of a number that is wider than this many.
fn cut(number: u64, bits: u32) -> Option<u64> {
    (number >> bits != 0).then_some(number & ((1 << bits) - 1))
}

/// What a call with such a number met, by its name in the statistics.
pub fn met(made: &Made<'_>) -> Option<&'static str> {
    match (made.call, made.outcome.refusal) {
        (Call::Start(given), refusal) => of_start(given, refusal),
        (Call::ConfigRead { offset, width } | Call::ConfigWrite { offset, width, .. }, 3) => {
            of_config(*offset, *width)
        }
        (Call::BarRead { bar, offset, width }, 4) => of_bar(made.card, *bar, *offset, *width),
        (
            Call::BarWrite {
                bar, offset, width, ..
            },
            4,
        ) => of_bar(made.card, *bar, *offset, *width),
        (Call::Event(number), 2) => {
            let events = u64::from(Layout::of_card(made.card).events);
            let below_e = cut(*number, 16).is_some_and(|number| number < events);
            below_e.then_some("event wider than 16 bits refused")
        }
        (Call::Withdraw(vector), 2) => {
            let vectors = Layout::of_card(made.card).vectors_in_force() as u64;
            let is_vector = cut(*vector, 16).is_some_and(|vector| vector < vectors);
            is_vector.then_some("vector wider than 16 bits refused")
        }
        (Call::Line(level), 0) => {
            let high = cut(*level, 8) == Some(0) && made.card[0] & 1 != 0;
            high.then_some("level 256, or a multiple of it, is high")
        }
        (Call::Switch(SwitchCall::Start(requester)), 60) => {
            let wide = cut(*requester, 16).is_some() && made.switch.len() == SWITCH_BYTES;
            wide.then_some("requester wider than 16 bits refused")
        }
        (Call::Switch(SwitchCall::Packet { port, .. } | SwitchCall::Down(port)), 50) => {
            of_port(*port)
        }
        _ => None,
    }
}

fn of_start(given: &Given, refusal: u8) -> Option<&'static str> {
    match (refusal, cut(given.events, 16), cut(given.requester, 16)) {
        (15, Some(1..=2048), _) => Some("E wider than 16 bits refused"),
        (16, _, Some(requester)) if requester & 7 == 0 => {
            Some("requester wider than 16 bits refused")
        }
        _ => None,
    }
}

fn of_config(offset: u64, width: u64) -> Option<&'static str> {
    match (cut(offset, 16), cut(width, 8)) {
        (Some(0..=255), _) => Some("config offset wider than 16 bits refused"),
        (_, Some(1 | 2 | 4)) => Some("config width wider than 8 bits refused"),
        _ => None,
    }
}

fn of_bar(card: &[u8], bar: u64, offset: u64, width: u64) -> Option<&'static str> {
    match (cut(bar, 8), cut(offset, 32), cut(width, 8)) {
        (Some(0..=5), _, _) => Some("BAR wider than 8 bits refused"),
        (_, Some(offset), _) => {
            let msix = Layout::of_card(card).msix?;
            let in_table = msix.in_table(bar, offset);
            in_table.then_some("BAR offset wider than 32 bits refused")
        }
        (_, _, Some(4 | 8)) => Some("BAR width wider than 8 bits refused"),
        _ => None,
    }
}

/// By the widest field that a cut to would leave one of the eight ports.
fn of_port(port: u64) -> Option<&'static str> {
    match (cut(port, 32), cut(port, 16), cut(port, 8)) {
        (Some(0..=7), _, _) => Some("port wider than 32 bits refused"),
        (_, Some(0..=7), _) => Some("port wider than 16 bits refused"),
        (_, _, Some(0..=7)) => Some("port wider than 8 bits refused"),
        _ => None,
    }
}
