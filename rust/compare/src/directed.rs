//! Directed trials: the edges of each rule.

mod damage;
mod extended;
mod interface;
mod interrupts;
mod log;
mod query;
mod starts;
mod switch;
mod withdraw;

use crate::call::{Call, Damage, Given, Image, Room, Step, Subject};
use crate::generate::start_steps;
use crate::given::{PLAIN_PENDING, PLAIN_TABLE};
use crate::layout::Place;
use crate::pair::Pair;
use crate::run::{Failure, Runner};
use crate::second;
use crate::world::{Part, World, ROOM};

/// The result of running trials.
type Run = Result<(), Box<Failure>>;

/// Runs all directed trials of cards, of switches, of logs or of queries.
pub fn run(runner: &mut Runner<'_>) -> Run {
    match runner.subject {
        Subject::Card => run_cards(runner),
        Subject::Switch => switch::run(runner),
        Subject::Log => log::run(runner),
        Subject::Query => query::run(runner),
    }
}

fn run_cards(runner: &mut Runner<'_>) -> Run {
    starts::run(runner)?;
    interrupts::run(runner)?;
    extended::run(runner)?;
    withdraw::run(runner)?;
    damage::run(runner)?;
    interface::run(runner)
}

/// A trial that is being written.
#[derive(Clone, Default)]
struct Trial(Vec<Step>);

impl Trial {
    /// A trial that begins with a start over buffers that fit.
    fn start(given: &Given) -> Trial {
        Trial(start_steps(given))
    }

    /// Starts once more.
    fn then_start(&mut self, given: &Given) -> &mut Trial {
        self.0.extend(start_steps(given));
        self
    }

    fn step(&mut self, step: Step) -> &mut Trial {
        self.0.push(step);
        self
    }

    fn call(&mut self, call: Call) -> &mut Trial {
        self.step(Step::Call(call, Room::Bytes(ROOM)))
    }

    /// Makes a call with an output one byte short, then with an exact one.
    fn tight(&mut self, call: Call) -> &mut Trial {
        self.step(Step::Call(call.clone(), Room::Short))
            .step(Step::Call(call, Room::Exact))
    }

    fn write(&mut self, offset: usize, width: u64, value: u32) -> &mut Trial {
        self.call(write(offset, width, value))
    }

    fn read(&mut self, offset: usize, width: u64) -> &mut Trial {
        let offset = offset as u64;
        self.call(Call::ConfigRead { offset, width })
    }

    /// Reads all configuration words.
    fn read_all(&mut self) -> &mut Trial {
        for at in (0..256).step_by(4) {
            self.read(at, 4);
        }
        self
    }

    fn event(&mut self, number: usize) -> &mut Trial {
        self.call(Call::Event(number as u64))
    }

    fn events(&mut self, numbers: &[usize]) -> &mut Trial {
        for &number in numbers {
            self.event(number);
        }
        self
    }

    fn withdraw(&mut self, vector: u64) -> &mut Trial {
        self.call(Call::Withdraw(vector))
    }

    fn withdrawals(&mut self, vectors: impl IntoIterator<Item = u64>) -> &mut Trial {
        for vector in vectors {
            self.withdraw(vector);
        }
        self
    }

    fn line(&mut self, level: u64) -> &mut Trial {
        self.call(Call::Line(level))
    }

    /// Writes a table entry of a plain card.
    fn entry(&mut self, vector: usize, upper: u32, data: u32, mask: bool) -> &mut Trial {
        let offset = 16 * vector as u32;
        let address = 0xFEE0_1000 + 4 * vector as u32;
        let low = u64::from(upper) << 32 | u64::from(address);
        let high = u64::from(mask) << 32 | u64::from(data);
        self.call(bar_write(PLAIN_TABLE, offset, 8, low))
            .call(bar_write(PLAIN_TABLE, offset + 8, 8, high))
    }

    /// Reads the first words of table and pending array of a plain card.
    fn read_bars(&mut self) -> &mut Trial {
        for (place, count) in [(PLAIN_TABLE, 8), (PLAIN_PENDING, 2)] {
            for i in 0..count {
                self.bar_read(place, 8 * i, 8);
            }
        }
        self
    }

    fn bar_read(&mut self, place: Place, offset: u32, width: u64) -> &mut Trial {
        self.call(Call::BarRead {
            bar: u64::from(place.bar),
            offset: u64::from(place.offset.wrapping_add(offset)),
            width,
        })
    }

    fn byte(&mut self, part: Part, at: usize, value: u8) -> &mut Trial {
        self.step(Step::Byte(part, at, value))
    }

    fn length(&mut self, part: Part, length: usize) -> &mut Trial {
        self.step(Step::Length(part, length))
    }

    fn restore(&mut self, number: usize, damage: &[Damage]) -> &mut Trial {
        let image = Image::Kept(number, damage.to_vec());
        self.call(Call::Restore(image))
    }

    /// Gives a part the contents that it has in a world.
    fn put_back(&mut self, part: Part, world: &World) -> &mut Trial {
        self.step(Step::Contents(part, world.part(part).clone()))
    }

    fn put_all_back(&mut self, world: &World) -> &mut Trial {
        self.put_back(Part::Card, world)
            .put_back(Part::Table, world)
            .put_back(Part::Pending, world)
    }

    /// The second model's world at the end of the trial.
    fn world(&self) -> World {
        let mut pair = Pair::new(&second::apply);
        for step in &self.0 {
            let _ = pair.step(step);
        }
        pair.world().clone()
    }

    /// Each call that an unsound card refuses, once.
    fn each_call(&mut self) -> &mut Trial {
        self.read(0x04, 4)
            .write(0x04, 2, 0x0006)
            .bar_read(PLAIN_TABLE, 0, 4)
            .call(bar_write(PLAIN_TABLE, 0, 4, 0))
            .event(0)
            .line(1)
            .withdraw(0)
            .call(Call::Reset)
            .call(Call::Save(0))
    }

    /// Runs the trial.
    fn run(&mut self, runner: &mut Runner<'_>, name: &str) -> Run {
        runner.trial(name, std::mem::take(&mut self.0))
    }
}

/// Numbers with one bit above bit 7 turned over, and with all bits from one on
/// set.
fn wider(number: u64) -> impl Iterator<Item = u64> {
    (8..64).flat_map(move |bit| [number ^ 1 << bit, number | u64::MAX << bit])
}

fn write(offset: usize, width: u64, value: u32) -> Call {
    Call::ConfigWrite {
        offset: offset as u64,
        width,
        value,
    }
}

/// Writes at an offset from a place.
fn bar_write(place: Place, offset: u32, width: u64, value: u64) -> Call {
    Call::BarWrite {
        bar: u64::from(place.bar),
        offset: u64::from(place.offset.wrapping_add(offset)),
        width,
        value,
    }
}
