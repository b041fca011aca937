//! Random trials of switches. Most of their wires share one upstream pin.

use super::{near_length, number_of_steps, Generator};
use crate::call::{Call, Room, Step, SwitchCall};
use crate::packets::{
    card_pin, message, wire, DEVICE_AT, LONG_ADDRESS_AT, SHORT_ADDRESS_AT, UPPER_AT,
};
use crate::pair::Pair;
use crate::random::Random;
use crate::second;
use crate::world::{Part, World, PORTS_AT, SWITCH_BYTES, SWITCH_ROOM};

/// A trial of a switch.
pub struct SwitchGenerator {
    random: Random,
    /// The steps still to make before the trial ends.
    left: usize,
    /// The ports in use: the first, and how many.
    ports: (usize, usize),
    /// The upstream pin that most wires become.
    upstream: usize,
    /// One wire packet out of so many is a Deassert.
    deasserts: usize,
}

impl Generator for SwitchGenerator {
    /// The first steps: the bytes and a start.
    fn first(&mut self) -> Vec<Step> {
        let random = &mut self.random;
        let mut length = SWITCH_BYTES;
        if random.once_in(16) {
            length = near_length(random, length);
        }
        vec![Step::Length(Part::Switch, length), self.start_step()]
    }

    fn next(&mut self, pair: &Pair<'_>) -> Vec<Step> {
        if self.left == 0 {
            return Vec::new();
        }
        let world = pair.world();
        let steps = match self.random.below(64) {
            _ if !second::is_switch(world) => self.no_switch_steps(world),
            0 => self.damage_steps(world),
            1 => self.fill_steps(world),
            2 => vec![self.start_step()],
            _ => vec![self.call_step(world)],
        };
        self.left = self.left.saturating_sub(steps.len());
        steps
    }
}

impl SwitchGenerator {
    pub fn new(mut random: Random) -> SwitchGenerator {
        SwitchGenerator {
            left: number_of_steps(&mut random),
            ports: (random.below(8), random.pick(&[2, 3, 5, 8])),
            upstream: 1 + random.below(4),
            deasserts: random.pick(&[2, 3, 6]),
            random,
        }
    }

    /// A start, over whatever is there.
    fn start_step(&mut self) -> Step {
        let random = &mut self.random;
        let requester = random.number() & random.pick(&[0xFFFF, 0xFFF8, 7]);
        let requester = match random.once_in(8) {
            true => random.number() << 16 | requester,
            false => requester,
        };
        Step::Call(Call::Switch(SwitchCall::Start(requester)), Room::Bytes(0))
    }

    /// Steps on bytes that no switch has: a few calls, then a switch.
    fn no_switch_steps(&mut self, world: &World) -> Vec<Step> {
        let count = self.random.below(4);
        let mut steps: Vec<Step> = (0..count).map(|_| self.call_step(world)).collect();
        steps.push(Step::Length(Part::Switch, SWITCH_BYTES));
        steps.push(self.start_step());
        steps
    }

    /// Damages the switch, makes calls, and mostly undoes the damage.
    fn damage_steps(&mut self, world: &World) -> Vec<Step> {
        let mut steps = vec![self.damage_step(world)];
        for _ in 0..1 + self.random.below(3) {
            steps.push(self.call_step(world));
        }
        if !self.random.once_in(4) {
            steps.push(Step::Contents(Part::Switch, world.switch.clone()));
        }
        steps
    }

    /// Another length, or bits 7:4 of a port's byte that are not 0.
    fn damage_step(&mut self, world: &World) -> Step {
        let random = &mut self.random;
        if random.once_in(3) {
            return Step::Length(Part::Switch, near_length(random, SWITCH_BYTES));
        }
        let at = PORTS_AT + random.below(8);
        let high = random.pick(&[0x10, 0x20, 0x40, 0x80, 0xF0]);
        Step::Byte(Part::Switch, at, world.switch[at] | high)
    }

    /// Gives the ports few or many active wires, and lets some of them go
    /// down.
    fn fill_steps(&mut self, world: &World) -> Vec<Step> {
        let random = &mut self.random;
        let mut ports = [0, 1, 2, 3, 4, 5, 6, 7];
        random.shuffle(&mut ports);
        let mut bytes = world.switch.clone();
        bytes[PORTS_AT..].fill(0);
        let any = random.number() as u8;
        let wires = random.pick(&[15, any | 3, any]) & 15;
        for port in &ports[..1 + random.below(8)] {
            let other = random.number() as u8;
            bytes[PORTS_AT + port] = random.pick(&[wires, wires, other & 15]);
        }
        let mut steps = vec![Step::Contents(Part::Switch, bytes)];
        for port in &ports[..self.random.below(9)] {
            steps.push(self.with_room(SwitchCall::Down(*port as u64)));
        }
        steps
    }

    /// One random call with its room.
    fn call_step(&mut self, world: &World) -> Step {
        let call = self.call(world);
        self.with_room(call)
    }

    fn with_room(&mut self, call: SwitchCall) -> Step {
        let random = &mut self.random;
        let room = match random.below(12) {
            0..=1 => Room::Exact,
            2 => Room::Short,
            3 => Room::Bytes(0),
            4 => Room::Bytes(random.below(SWITCH_ROOM + 8)),
            _ => Room::Bytes(SWITCH_ROOM),
        };
        Step::Call(Call::Switch(call), room)
    }

    /// One random call, but no start.
    fn call(&mut self, world: &World) -> SwitchCall {
        let (port, pin) = self.place(world);
        let packet = match self.random.below(32) {
            0..=1 => {
                let port = self.wide_port(port);
                return SwitchCall::Down(port);
            }
            2..=5 => random_message(&mut self.random),
            6..=8 => {
                let packet = self.real_packet(pin);
                spoilt(&mut self.random, packet)
            }
            9 => {
                let length = self.random.pick(&[0, 15, 16, 17, 20, 32]);
                self.random.bytes(length)
            }
            _ => self.wire(pin),
        };
        let port = self.wide_port(port);
        SwitchCall::Packet { port, packet }
    }

    /// A port and a card pin: mostly one that becomes the upstream pin of the
    /// trial, or one whose wire is active.
    fn place(&mut self, world: &World) -> (usize, usize) {
        let random = &mut self.random;
        let (first, count) = self.ports;
        let port = (first + random.below(count)) % 8;
        let wires = world.switch.get(PORTS_AT + port).copied().unwrap_or(0);
        match random.below(4) {
            0 => (port, 1 + random.below(4)),
            1 if wires & 15 != 0 => (port, 1 + wires.trailing_zeros() as usize),
            _ => (port, card_pin(port, self.upstream)),
        }
    }

    /// The port, or now and then one above 7.
    fn wide_port(&mut self, port: usize) -> u64 {
        let wider = self.random.wider(port as u64);
        match self.random.below(32) {
            0 => wider,
            1 => self.random.pick(&[8, 9, 15, 16, 255]),
            _ => port as u64,
        }
    }

    /// A wire packet of device 0.
    fn wire(&mut self, pin: usize) -> Vec<u8> {
        let random = &mut self.random;
        let assert = !random.once_in(self.deasserts);
        let requester = random.number() as u16 & random.pick(&[0xFF00, 0xFF07, 0]);
        wire(assert, pin, requester)
    }

    fn real_packet(&mut self, pin: usize) -> Vec<u8> {
        match self.random.once_in(2) {
            true => self.wire(pin),
            false => random_message(&mut self.random),
        }
    }
}

/// A message of either form.
pub fn random_message(random: &mut Random) -> Vec<u8> {
    let address = random.number() & random.pick(&[0xFFFF_FFFC, !3, 1 << 32 | 0xFFC]);
    let (requester, data) = (random.number() as u16, random.number() as u32);
    message(requester, address, data)
}

/// A packet with one byte changed, or with more or fewer bytes.
pub fn spoilt(random: &mut Random, mut packet: Vec<u8>) -> Vec<u8> {
    let low = random.pick(&[1, 2, 3]);
    let is_wire = packet[0] == 0x34;
    let is_long = packet[0] == 0x60;
    match random.below(10) {
        0 => packet.truncate(random.below(packet.len())),
        1 => packet.extend(random.bytes(1)),
        2 => packet.extend(packet.clone()),
        3..=4 if is_wire => packet[DEVICE_AT] |= 1 << (3 + random.below(5)),
        3 if is_long => packet[UPPER_AT..LONG_ADDRESS_AT].fill(0),
        4 if is_long => packet[LONG_ADDRESS_AT + 3] |= low,
        3..=4 => packet[SHORT_ADDRESS_AT + 3] |= low,
        5..=7 => packet[random.below(8)] ^= 1 << random.below(8),
        _ => {
            let at = random.below(packet.len());
            packet[at] ^= 1 << random.below(8);
        }
    }
    packet
}
