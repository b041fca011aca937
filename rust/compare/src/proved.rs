//! The proved card, the proved switch, the proved player and recorder of logs
//! and what reads lengths and packets, through the C interface.

use crate::call::{
    Call, Fields, Found, Lengths, LogCall, Outcome, Played, QueryCall, Recording, SwitchCall,
};
use crate::recorded;
use crate::world::World;
use musgarento::raw;

/// What value, answer and count hold before a call, so that it shows if one is
/// not set.
const UNSET: u8 = 0xB7;

/// Makes a call. `image` is the image that it reads.
pub fn apply(world: &mut World, call: &Call, image: &[u8]) -> Outcome {
    match call {
        Call::Switch(call) => apply_to_switch(world, call),
        Call::Log(call) => apply_to_log(world, call),
        Call::Query(call) => query(call, image),
        _ => apply_to_card(world, call, image),
    }
}

/// Makes a call of a card.
fn apply_to_card(world: &mut World, call: &Call, image: &[u8]) -> Outcome {
    let World {
        card,
        table,
        pending,
        out,
        ..
    } = world;
    let mut count = usize::from(UNSET);
    match call {
        Call::Start(given) => Outcome::number(raw::start(
            card,
            &given.config,
            &given.sizes,
            given.events,
            given.requester,
            table,
            pending,
        )),
        &Call::ConfigRead { offset, width } => {
            let mut value = u32::from(UNSET);
            let refusal = raw::config_read(card, table, pending, offset, width, &mut value);
            Outcome::read(refusal, u64::from(value))
        }
        &Call::ConfigWrite {
            offset,
            width,
            value,
        } => {
            let refusal =
                raw::config_write(card, table, pending, offset, width, value, out, &mut count);
            Outcome::wrote(refusal, count)
        }
        &Call::BarRead { bar, offset, width } => {
            let mut value = u64::from(UNSET);
            let refusal = raw::bar_read(card, table, pending, bar, offset, width, &mut value);
            Outcome::read(refusal, value)
        }
        &Call::BarWrite {
            bar,
            offset,
            width,
            value,
        } => {
            let refusal = raw::bar_write(
                card, table, pending, bar, offset, width, value, out, &mut count,
            );
            Outcome::wrote(refusal, count)
        }
        &Call::Event(number) => {
            let mut answer = UNSET;
            let refusal = raw::event(card, table, pending, number, out, &mut answer, &mut count);
            Outcome {
                answer: Some(answer),
                ..Outcome::wrote(refusal, count)
            }
        }
        &Call::Line(level) => {
            let refusal = raw::line(card, table, pending, level, out, &mut count);
            Outcome::wrote(refusal, count)
        }
        Call::Reset => {
            let refusal = raw::reset(card, table, pending, out, &mut count);
            Outcome::wrote(refusal, count)
        }
        Call::Save(_) => {
            let refusal = raw::save(card, table, pending, out, &mut count);
            Outcome::wrote(refusal, count)
        }
        Call::Restore(_) => Outcome::number(raw::restore(card, table, pending, image)),
        &Call::Withdraw(vector) => {
            let mut was_set = UNSET;
            let refusal = raw::withdraw(card, table, pending, vector, &mut was_set);
            Outcome::read(refusal, u64::from(was_set))
        }
        Call::Switch(_) | Call::Log(_) | Call::Query(_) => {
            unreachable!("these are made elsewhere")
        }
    }
}

/// Makes a call of a switch.
fn apply_to_switch(world: &mut World, call: &SwitchCall) -> Outcome {
    let (switch, out) = (&mut world.switch, &mut world.out);
    let mut count = usize::from(UNSET);
    match call {
        SwitchCall::Start(requester) => Outcome::number(raw::switch_start(switch, *requester)),
        SwitchCall::Packet { port, packet } => {
            let refusal = raw::switch_packet(switch, *port, packet, out, &mut count);
            Outcome::wrote(refusal, count)
        }
        SwitchCall::Down(port) => {
            let refusal = raw::switch_down(switch, *port, out, &mut count);
            Outcome::wrote(refusal, count)
        }
    }
}

/// Makes a call of a player or of the recorder.
fn apply_to_log(world: &mut World, call: &LogCall) -> Outcome {
    let mut count = usize::from(UNSET);
    match call {
        LogCall::Play(bytes) => play(world, bytes),
        LogCall::Begin => {
            let refusal = raw::log_begin(&mut world.out, &mut count);
            Outcome::wrote(refusal, count)
        }
        &LogCall::Record(Recording {
            kind,
            bar,
            offset,
            width,
            value,
            refusal: given,
        }) => {
            let out = &mut world.out;
            let refusal = raw::log_record(kind, bar, offset, width, value, given, out, &mut count);
            Outcome::wrote(refusal, count)
        }
        LogCall::Trial(trial) => recorded::run(&apply, world, trial),
    }
}

fn play(world: &mut World, bytes: &[u8]) -> Outcome {
    let (mut taken, mut count) = (usize::from(UNSET), usize::from(UNSET));
    let (mut ended, mut refusal, mut answer) = (UNSET, UNSET, UNSET);
    let stopped = raw::play(
        &mut world.card,
        &mut world.table,
        &mut world.pending,
        &mut world.player,
        bytes,
        &mut world.out,
        &mut taken,
        &mut ended,
        &mut refusal,
        &mut answer,
        &mut count,
    );
    Outcome {
        answer: Some(answer),
        played: Some(Played {
            taken,
            ended,
            refusal,
        }),
        ..Outcome::wrote(stopped, count)
    }
}

/// Answers a question.
fn query(call: &QueryCall, image: &[u8]) -> Outcome {
    match call {
        QueryCall::ConfigLengths(config) => lengths(raw::config_lengths, config),
        QueryCall::ImageLengths(_) => lengths(raw::image_lengths, image),
        QueryCall::Packet(bytes) => packet(bytes),
    }
}

/// A function that reads lengths.
type Read = fn(&[u8], &mut usize, &mut usize, &mut usize) -> u8;

fn lengths(read: Read, bytes: &[u8]) -> Outcome {
    let unset = usize::from(UNSET);
    let (mut vectors, mut table, mut pending) = (unset, unset, unset);
    let refusal = read(bytes, &mut vectors, &mut table, &mut pending);
    let lengths = Lengths {
        vectors,
        table,
        pending,
    };
    Outcome::found(refusal, Found::Lengths(lengths))
}

fn packet(bytes: &[u8]) -> Outcome {
    let mut fields = Fields {
        count: UNSET.into(),
        kind: UNSET,
        requester: UNSET.into(),
        address: UNSET.into(),
        data: UNSET.into(),
        pin: UNSET,
        level: UNSET,
    };
    let refusal = raw::packet(
        bytes,
        &mut fields.count,
        &mut fields.kind,
        &mut fields.requester,
        &mut fields.address,
        &mut fields.data,
        &mut fields.pin,
        &mut fields.level,
    );
    Outcome::found(refusal, Found::Packet(fields))
}
