//! Cuts a failing trial down to a short one that still fails.

use crate::call::{Call, Given, Image, LogCall, QueryCall, Recorded, Room, Step, SwitchCall};
use crate::pair::{Difference, Model, Pair};
use crate::world::PARTS;
use std::time::{Duration, Instant};

/// How long to look for a shorter trial, and then for simpler bytes.
const LIMIT: Duration = Duration::from_secs(20);

/// A trial that shows a difference in its last step.
#[derive(Clone, Debug, PartialEq, Eq)]
pub struct Failing {
    pub steps: Vec<Step>,
    pub difference: Difference,
}

/// The steps up to the first difference; `None` if there is none.
fn failing(model: Model<'_>, steps: &[Step]) -> Option<Failing> {
    let mut pair = Pair::new(model);
    for (i, step) in steps.iter().enumerate() {
        if let Err(difference) = pair.step(step) {
            let steps = steps[..=i].to_vec();
            return Some(Failing { steps, difference });
        }
    }
    None
}

/// The shortest trial found, in which no step can be left out unless the time
/// ran out. `None` if the difference does not come again.
pub fn shrink(model: Model<'_>, steps: &[Step]) -> Option<Failing> {
    let mut search = Search::new(model, failing(model, steps)?);
    loop {
        let before = search.found.steps.clone();
        search.leave_out();
        search.join_pieces();
        search.simplify();
        if search.found.steps == before || search.is_over() {
            return Some(search.found);
        }
    }
}

/// The last call of a failing trial by itself, on the bytes as they stood
/// before it. `None` if the difference does not come again.
pub fn alone(model: Model<'_>, steps: &[Step]) -> Option<Failing> {
    let mut pair = Pair::new(model);
    let (last, earlier) = steps.split_last()?;
    for step in earlier {
        pair.step(step).ok()?;
    }
    let Step::Call(call, room) = last else {
        return None;
    };
    let image = pair.image_of(call);
    let length = pair.output_length(call, *room, &image);
    let mut parts = PARTS.to_vec();
    parts.retain(|&part| !pair.world().part(part).is_empty());
    let mut steps: Vec<Step> = parts
        .into_iter()
        .map(|part| Step::Contents(part, pair.world().part(part).clone()))
        .collect();
    let mut call = call.clone();
    if let Some(kept) = call.image_mut() {
        *kept = Image::Bytes(image);
    }
    steps.push(Step::Call(call, Room::Bytes(length)));
    let mut search = Search::new(model, failing(model, &steps)?);
    search.simplify();
    Some(search.found)
}

/// A search for a shorter or simpler trial.
struct Search<'a> {
    model: Model<'a>,
    found: Failing,
    begun: Instant,
}

impl<'a> Search<'a> {
    fn new(model: Model<'a>, found: Failing) -> Search<'a> {
        Search {
            model,
            found,
            begun: Instant::now(),
        }
    }

    fn is_over(&self) -> bool {
        self.begun.elapsed() > LIMIT
    }

    /// Takes these steps if they fail too.
    fn take_if_failing(&mut self, steps: &[Step]) -> bool {
        match failing(self.model, steps) {
            Some(found) => {
                self.found = found;
                true
            }
            None => false,
        }
    }

    /// Leaves out runs of steps, long ones first, then single ones until none
    /// can be left out.
    fn leave_out(&mut self) {
        let mut run = self.found.steps.len().div_ceil(2);
        loop {
            let left_out = self.leave_out_runs(run);
            if run == 1 && !left_out || self.is_over() {
                return;
            }
            run = run.div_ceil(2).min(self.found.steps.len()).max(1);
        }
    }

    /// Leaves out each run of this length that is not needed, from the end,
    /// since later steps often depend on earlier ones.
    fn leave_out_runs(&mut self, run: usize) -> bool {
        let mut left_out = false;
        let mut end = self.found.steps.len();
        while end > 0 && !self.is_over() {
            let start = end.saturating_sub(run);
            let steps = &self.found.steps;
            let rest = [&steps[..start], &steps[end..]].concat();
            left_out |= self.take_if_failing(&rest);
            end = start.min(self.found.steps.len());
        }
        left_out
    }

    /// Hands in each piece of a log together with the next one, if that fails
    /// too.
    fn join_pieces(&mut self) {
        let mut at = 0;
        while at < self.found.steps.len() && !self.is_over() {
            let joined = joined(&self.found.steps, at);
            if !joined.is_some_and(|steps| self.take_if_failing(&steps)) {
                at += 1;
            }
        }
    }

    /// Clears bytes and bits in the arguments of the steps.
    fn simplify(&mut self) {
        let mut at = 0;
        while at < self.found.steps.len() {
            self.clear_bytes(at);
            self.take_simpler(at);
            at += 1;
        }
    }

    /// Sets stretches of a step's bytes to 0, long stretches first.
    fn clear_bytes(&mut self, at: usize) {
        let length = bytes_of(&mut self.found.steps[at].clone()).map_or(0, |bytes| bytes.len());
        let mut stretch = length.next_power_of_two();
        while stretch > 0 {
            for start in (0..length).step_by(stretch) {
                let end = (start + stretch).min(length);
                if self.is_over() {
                    return;
                }
                self.clear_stretch(at, start, end);
            }
            stretch /= 2;
        }
    }

    fn clear_stretch(&mut self, at: usize, start: usize, end: usize) {
        let mut steps = self.found.steps.clone();
        let Some(bytes) = steps.get_mut(at).and_then(bytes_of) else {
            return;
        };
        if bytes[start..end].iter().any(|&byte| byte != 0) {
            bytes[start..end].fill(0);
            self.take_if_failing(&steps);
        }
    }

    /// Takes simpler steps for the one at a place until none is left.
    fn take_simpler(&mut self, at: usize) {
        while at < self.found.steps.len() && !self.is_over() {
            let simpler = simpler(&self.found.steps[at]);
            let taken = simpler.into_iter().any(|step| {
                let mut steps = self.found.steps.clone();
                steps[at] = step;
                self.take_if_failing(&steps)
            });
            if !taken {
                return;
            }
        }
    }
}

/// The steps with the piece at a place joined to the next piece, if there are
/// these two.
fn joined(steps: &[Step], at: usize) -> Option<Vec<Step>> {
    let mut steps = steps.to_vec();
    let first = piece(&mut steps[at])?.clone();
    let next = steps[at + 1..].iter_mut().find_map(piece)?;
    *next = [&first[..], next].concat();
    steps.remove(at);
    Some(steps)
}

/// The bytes that a step hands to a player, if it does.
fn piece(step: &mut Step) -> Option<&mut Vec<u8>> {
    match step {
        Step::Call(Call::Log(LogCall::Play(bytes)), _) => Some(bytes),
        _ => None,
    }
}

/// The bytes in a step, if it has some.
fn bytes_of(step: &mut Step) -> Option<&mut Vec<u8>> {
    match step {
        Step::Contents(_, bytes) => Some(bytes),
        Step::Call(call, _) => bytes_of_call(call),
        _ => None,
    }
}

fn bytes_of_call(call: &mut Call) -> Option<&mut Vec<u8>> {
    match call {
        Call::Restore(Image::Bytes(bytes))
        | Call::Log(LogCall::Play(bytes))
        | Call::Switch(SwitchCall::Packet { packet: bytes, .. })
        | Call::Query(
            QueryCall::ConfigLengths(bytes)
            | QueryCall::ImageLengths(Image::Bytes(bytes))
            | QueryCall::Packet(bytes),
        ) => Some(bytes),
        Call::Start(given) => Some(&mut given.config),
        _ => None,
    }
}

/// Steps that are like this one, but with smaller numbers.
fn simpler(step: &Step) -> Vec<Step> {
    match step {
        Step::Call(call, room) => simpler_calls(call)
            .into_iter()
            .map(|call| Step::Call(call, *room))
            .collect(),
        _ => Vec::new(),
    }
}

fn simpler_calls(call: &Call) -> Vec<Call> {
    let mut calls = Vec::new();
    for at in 0..numbers(&mut call.clone()).len() {
        let number = *numbers(&mut call.clone())[at];
        calls.extend(simpler_numbers(number).map(|simpler| {
            let mut call = call.clone();
            *numbers(&mut call)[at] = simpler;
            call
        }));
    }
    match call {
        Call::Start(given) => calls.extend(without_a_size(given)),
        &Call::ConfigWrite {
            offset,
            width,
            value,
        } => calls.extend(
            simpler_numbers(u64::from(value)).map(|value| Call::ConfigWrite {
                offset,
                width,
                value: value as u32,
            }),
        ),
        Call::Log(LogCall::Play(bytes)) => {
            calls.extend(shorter(bytes).map(|bytes| Call::Log(LogCall::Play(bytes))))
        }
        Call::Query(QueryCall::Packet(bytes)) => {
            calls.extend(shorter(bytes).map(|bytes| Call::Query(QueryCall::Packet(bytes))))
        }
        Call::Log(LogCall::Trial(trial)) => calls.extend(without_a_call(trial)),
        _ => {}
    }
    calls.extend(without_a_damage(call));
    calls
}

/// The numbers of 64 bits in a call's arguments.
fn numbers(call: &mut Call) -> Vec<&mut u64> {
    match call {
        Call::Start(given) => vec![&mut given.events, &mut given.requester],
        Call::ConfigRead { offset, width } | Call::ConfigWrite { offset, width, .. } => {
            vec![offset, width]
        }
        Call::BarRead { bar, offset, width } => vec![bar, offset, width],
        Call::BarWrite {
            bar,
            offset,
            width,
            value,
        } => vec![bar, offset, width, value],
        Call::Event(number) | Call::Line(number) | Call::Withdraw(number) => vec![number],
        Call::Switch(
            SwitchCall::Start(number)
            | SwitchCall::Packet { port: number, .. }
            | SwitchCall::Down(number),
        ) => vec![number],
        Call::Log(LogCall::Record(recording)) => vec![
            &mut recording.kind,
            &mut recording.bar,
            &mut recording.offset,
            &mut recording.width,
            &mut recording.value,
        ],
        Call::Reset | Call::Save(_) | Call::Restore(_) | Call::Log(_) | Call::Query(_) => {
            Vec::new()
        }
    }
}

/// The bytes cut at the end, short ones first.
fn shorter(bytes: &[u8]) -> impl Iterator<Item = Vec<u8>> + '_ {
    (0..bytes.len()).map(|length| bytes[..length].to_vec())
}

/// Calls with one change of their image left out.
fn without_a_damage(call: &Call) -> Vec<Call> {
    let Some(Image::Kept(_, damage)) = call.image() else {
        return Vec::new();
    };
    let without = |at: usize| {
        let mut call = call.clone();
        if let Some(Image::Kept(_, damage)) = call.image_mut() {
            damage.remove(at);
        }
        call
    };
    (0..damage.len()).map(without).collect()
}

/// Recorded trials with one call left out.
fn without_a_call(trial: &Recorded) -> impl Iterator<Item = Call> + '_ {
    (0..trial.calls.len()).map(|at| {
        let mut trial = trial.clone();
        trial.calls.remove(at);
        Call::Log(LogCall::Trial(trial))
    })
}

/// Starts with one size made 0.
fn without_a_size(given: &Given) -> Vec<Call> {
    (0..given.sizes.len())
        .filter(|&bar| given.sizes[bar] != 0)
        .map(|bar| {
            let mut given = given.clone();
            given.sizes[bar] = 0;
            Call::Start(given)
        })
        .collect()
}

/// 0, and the number with one set bit cleared, the highest first.
fn simpler_numbers(number: u64) -> impl Iterator<Item = u64> {
    let bits = (0..64).rev().map(move |bit| number & !(1 << bit));
    std::iter::once(0)
        .chain(bits)
        .filter(move |&simpler| simpler != number)
}
