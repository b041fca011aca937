//! The calls of a card to measure. Each case makes a number of equal calls and gives the
//! last refusal, which must be 0.

use crate::state::{Given, Proved, Second, States, MSIX, TABLE_BAR};
use musgarento::raw;
use std::hint::black_box;

/// Makes a number of calls.
pub type Calls = Box<dyn FnMut(u64) -> u8>;

/// A call, made by both models on the same input.
pub struct Case {
    pub name: &'static str,
    /// N of the card; a switch has none, and where N plays no part there is none.
    pub vectors: Option<usize>,
    pub proved: Calls,
    pub second: Calls,
}

/// Makes the case's calls.
pub fn repeat<S: 'static>(mut state: S, call: impl Fn(&mut S, u64) -> u8 + 'static) -> Calls {
    Box::new(move |count| {
        let mut refusal = 0;
        for i in 0..count {
            refusal |= call(black_box(&mut state), black_box(i));
        }
        refusal
    })
}

/// All cases for a number of vectors.
pub fn cases(vectors: usize) -> Vec<Case> {
    let given = Given::new(vectors);
    let states = States::new(&given);
    let mut cases = Vec::new();
    let mut add = |name, (proved, second)| {
        cases.push(Case {
            name,
            vectors: Some(vectors),
            proved,
            second,
        })
    };
    add("start", start(&given, &states.pin));
    add("configuration read", config_read(&states.open));
    add("configuration write, no packet", config_write(&states.open));
    if vectors > 0 {
        add("BAR read", bar_read(&states.open, vectors));
        add("BAR write, no packet", bar_write(&states.open, vectors));
    }
    add("event, sent", event(&states.open, given.events - 1));
    add("event, merged", event(&states.waiting, given.events - 1));
    add("withdrawal", withdraw(&states.waiting, given.events - 1, 1));
    add(
        "withdrawal, bit not set",
        withdraw(&states.open, given.events - 1, 0),
    );
    add("line, no packet", line(&states.open));
    add("line, one packet", line(&states.pin));
    add("reset", reset(&states.pin));
    add("save", save(&states.open));
    add("restore", restore(&states.open));
    if vectors > 0 {
        add("release of all N vectors", release(&states.waiting));
    }
    cases
}

fn start(given: &Given, state: &Second) -> (Calls, Calls) {
    let (mut second, given) = (state.clone(), given.clone());
    let proved = repeat((second.proved(), given.clone()), |(p, given), _| {
        raw::start(
            &mut p.card,
            &given.config,
            &given.sizes,
            given.events,
            given.requester,
            &mut p.table,
            &mut p.pending,
        )
    });
    let second = repeat((second, given), |(s, given), _| {
        let (card, outcome) = second_model::start(
            &given.config,
            &given.sizes,
            given.events,
            given.requester,
            &mut s.table,
            &mut s.pending,
        );
        s.card = card;
        outcome.refusal
    });
    (proved, second)
}

fn config_read(state: &Second) -> (Calls, Calls) {
    let mut second = state.clone();
    let proved = repeat(second.proved(), |p, _| {
        let mut value = 0;
        let refusal = raw::config_read(&p.card, &p.table, &p.pending, 0x04, 4, &mut value);
        black_box(value);
        refusal
    });
    let second = repeat(second, |s, _| {
        black_box(second_model::config_read(
            &s.card, &s.table, &s.pending, 0x04, 4,
        ))
        .refusal
    });
    (proved, second)
}

/// A configuration write on the proved card.
fn proved_write(p: &mut Proved, offset: usize, width: u64, value: u32) -> u8 {
    let mut count = 0;
    let refusal = raw::config_write(
        &mut p.card,
        &p.table,
        &mut p.pending,
        offset as u64,
        width,
        value,
        &mut p.out,
        &mut count,
    );
    black_box(count);
    refusal
}

/// A configuration write on the second model.
fn second_write(s: &mut Second, offset: usize, width: u64, value: u32) -> u8 {
    black_box(second_model::config_write(
        &mut s.card,
        &mut s.table,
        &mut s.pending,
        offset as u64,
        width,
        value,
        &mut s.out,
    ))
    .refusal
}

/// Writes Interrupt Line.
fn config_write(state: &Second) -> (Calls, Calls) {
    let mut second = state.clone();
    let proved = repeat(second.proved(), |p, i| proved_write(p, 0x3C, 1, i as u32));
    let second = repeat(second, |s, i| second_write(s, 0x3C, 1, i as u32));
    (proved, second)
}

/// Reads half of the last table entry.
fn bar_read(state: &Second, vectors: usize) -> (Calls, Calls) {
    let mut second = state.clone();
    let offset = 16 * (vectors as u64 - 1);
    let proved = repeat(second.proved(), move |p, _| {
        let mut value = 0;
        let refusal = raw::bar_read(
            &p.card, &p.table, &p.pending, TABLE_BAR, offset, 8, &mut value,
        );
        black_box(value);
        refusal
    });
    let second = repeat(second, move |s, _| {
        black_box(second_model::bar_read(
            &s.card, &s.table, &s.pending, TABLE_BAR, offset, 8,
        ))
        .refusal
    });
    (proved, second)
}

/// Writes the data word of the last table entry.
fn bar_write(state: &Second, vectors: usize) -> (Calls, Calls) {
    let mut second = state.clone();
    let offset = 16 * (vectors as u64 - 1) + 8;
    let proved = repeat(second.proved(), move |p, i| {
        let mut count = 0;
        let refusal = raw::bar_write(
            &mut p.card,
            &mut p.table,
            &mut p.pending,
            TABLE_BAR,
            offset,
            4,
            i,
            &mut p.out,
            &mut count,
        );
        black_box(count);
        refusal
    });
    let second = repeat(second, move |s, i| {
        black_box(second_model::bar_write(
            &mut s.card,
            &mut s.table,
            &mut s.pending,
            TABLE_BAR,
            offset,
            4,
            i,
            &mut s.out,
        ))
        .refusal
    });
    (proved, second)
}

pub fn event(state: &Second, number: u64) -> (Calls, Calls) {
    let mut second = state.clone();
    let proved = repeat(second.proved(), move |p, _| {
        let (mut answer, mut count) = (0, 0);
        let refusal = raw::event(
            &mut p.card,
            &p.table,
            &mut p.pending,
            number,
            &mut p.out,
            &mut answer,
            &mut count,
        );
        black_box((answer, count));
        refusal
    });
    let second = repeat(second, move |s, _| {
        black_box(second_model::event(
            &mut s.card,
            &mut s.table,
            &mut s.pending,
            number,
            &mut s.out,
        ))
        .refusal
    });
    (proved, second)
}

/// Withdraws a vector whose waiting bit is `bit`; another one makes the refusal
/// not 0. Card and pending array are copied back before each call, which counts.
fn withdraw(state: &Second, vector: u64, bit: u8) -> (Calls, Calls) {
    let mut second = state.clone();
    let proved = second.proved();
    let proved = repeat((proved.clone(), proved), move |(p, before), _| {
        p.card.copy_from_slice(&before.card);
        p.pending.copy_from_slice(&before.pending);
        let mut was_set = 0;
        let (card, pending) = (&mut p.card, &mut p.pending);
        let refusal = raw::withdraw(card, &p.table, pending, vector, &mut was_set);
        refusal | was_set ^ bit
    });
    let second = repeat((second.clone(), second), move |(s, before), _| {
        s.card.clone_from(&before.card);
        s.pending.copy_from_slice(&before.pending);
        let (card, pending) = (&mut s.card, &mut s.pending);
        let outcome = second_model::withdraw(card, &s.table, pending, vector);
        outcome.refusal | outcome.value as u8 ^ bit
    });
    (proved, second)
}

/// Sets the line high and low in turn.
fn line(state: &Second) -> (Calls, Calls) {
    let mut second = state.clone();
    let proved = repeat(second.proved(), |p, i| {
        let mut count = 0;
        let level = i & 1;
        let refusal = raw::line(
            &mut p.card,
            &p.table,
            &p.pending,
            level,
            &mut p.out,
            &mut count,
        );
        black_box(count);
        refusal
    });
    let second = repeat(second, |s, i| {
        black_box(second_model::line(
            &mut s.card,
            &mut s.table,
            &mut s.pending,
            i & 1 != 0,
            &mut s.out,
        ))
        .refusal
    });
    (proved, second)
}

fn reset(state: &Second) -> (Calls, Calls) {
    let mut second = state.clone();
    let proved = repeat(second.proved(), |p, _| {
        let mut count = 0;
        let refusal = raw::reset(
            &mut p.card,
            &mut p.table,
            &mut p.pending,
            &mut p.out,
            &mut count,
        );
        black_box(count);
        refusal
    });
    let second = repeat(second, |s, _| {
        black_box(second_model::reset(
            &mut s.card,
            &mut s.table,
            &mut s.pending,
            &mut s.out,
        ))
        .refusal
    });
    (proved, second)
}

fn save(state: &Second) -> (Calls, Calls) {
    let mut second = state.clone();
    let proved = repeat(second.proved(), |p, _| {
        let mut count = 0;
        let refusal = raw::save(&p.card, &p.table, &p.pending, &mut p.out, &mut count);
        black_box(count);
        refusal
    });
    let second = repeat(second, |s, _| {
        black_box(second_model::save(
            &s.card, &s.table, &s.pending, &mut s.out,
        ))
        .refusal
    });
    (proved, second)
}

fn restore(state: &Second) -> (Calls, Calls) {
    let mut second = state.clone();
    let image = second.image();
    let proved = repeat((second.proved(), image.clone()), |(p, image), _| {
        raw::restore(&mut p.card, &mut p.table, &mut p.pending, image)
    });
    let second = repeat((second, image), |(s, image), _| {
        black_box(second_model::restore(
            &mut s.card,
            &mut s.table,
            &mut s.pending,
            image,
        ))
        .refusal
    });
    (proved, second)
}

/// Clears Function Mask with every vector waiting. Card and pending array are
/// copied back before each call, which counts.
fn release(state: &Second) -> (Calls, Calls) {
    let mut second = state.clone();
    let proved = second.proved();
    let proved = repeat((proved.clone(), proved), |(p, before), _| {
        p.card.copy_from_slice(&before.card);
        p.pending.copy_from_slice(&before.pending);
        proved_write(p, MSIX + 2, 2, 0x8000)
    });
    let second = repeat((second.clone(), second), |(s, before), _| {
        s.card.clone_from(&before.card);
        s.pending.copy_from_slice(&before.pending);
        second_write(s, MSIX + 2, 2, 0x8000)
    });
    (proved, second)
}
