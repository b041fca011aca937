//! A card with its buffers, configuration bytes to start it from, and a small
//! random number generator.
#![allow(dead_code)]

use second_model::*;
use std::cell::Cell;

pub const REQUESTER: u64 = 0x0100;
pub const MSI: usize = 0x50;
pub const MSIX: usize = 0x70;
pub const TABLE_BAR: u64 = 2;
pub const TABLE_OFFSET: u64 = 0x1000;
pub const PENDING_BAR: u64 = 2;

/// A card with its buffers and an output.
#[derive(Clone, Debug, PartialEq, Eq)]
pub struct Bench {
    pub card: Card,
    pub table: Vec<u8>,
    pub pending: Vec<u8>,
    pub out: Vec<u8>,
}

impl Bench {
    pub fn start(config: &[u8; 256], sizes: &[u32; 6], events: u64) -> (Bench, Outcome) {
        let vectors = vectors_of(config);
        let mut table = vec![0xAA; 16 * vectors];
        let mut pending = vec![0xAA; 8 * vectors.div_ceil(64)];
        let (card, outcome) = start(config, sizes, events, REQUESTER, &mut table, &mut pending);
        let bench = Bench {
            card,
            table,
            pending,
            out: vec![0xEE; ROOM],
        };
        (bench, outcome)
    }

    pub fn started(config: &[u8; 256], events: u64) -> Bench {
        let (bench, outcome) = Bench::start(config, &[0x10_0000; 6], events);
        assert_eq!(outcome.refusal, 0);
        assert!(bench.sound());
        bench
    }

    pub fn sound(&self) -> bool {
        is_sound(&self.card, &self.table, &self.pending)
    }

    pub fn write(&mut self, offset: usize, width: u64, value: u32) -> Outcome {
        config_write(
            &mut self.card,
            &mut self.table,
            &mut self.pending,
            offset as u64,
            width,
            value,
            &mut self.out,
        )
    }

    pub fn read(&self, offset: usize, width: u64) -> Outcome {
        config_read(&self.card, &self.table, &self.pending, offset as u64, width)
    }

    pub fn bar_write(&mut self, bar: u64, offset: u64, width: u64, value: u64) -> Outcome {
        bar_write(
            &mut self.card,
            &mut self.table,
            &mut self.pending,
            bar,
            offset,
            width,
            value,
            &mut self.out,
        )
    }

    pub fn bar_read(&self, bar: u64, offset: u64, width: u64) -> Outcome {
        bar_read(&self.card, &self.table, &self.pending, bar, offset, width)
    }

    pub fn event(&mut self, number: u64) -> Outcome {
        event(
            &mut self.card,
            &mut self.table,
            &mut self.pending,
            number,
            &mut self.out,
        )
    }

    pub fn line(&mut self, level: bool) -> Outcome {
        line(
            &mut self.card,
            &mut self.table,
            &mut self.pending,
            level,
            &mut self.out,
        )
    }

    pub fn withdraw(&mut self, vector: u64) -> Outcome {
        withdraw(&mut self.card, &self.table, &mut self.pending, vector)
    }

    pub fn reset(&mut self) -> Outcome {
        reset(
            &mut self.card,
            &mut self.table,
            &mut self.pending,
            &mut self.out,
        )
    }

    pub fn save(&mut self) -> Outcome {
        save(&self.card, &self.table, &self.pending, &mut self.out)
    }

    pub fn restore(&mut self, image: &[u8]) -> Outcome {
        restore(&mut self.card, &mut self.table, &mut self.pending, image)
    }

    /// Writes a whole table entry.
    pub fn entry(&mut self, vector: u32, upper: u32, address: u32, data: u32, control: u32) {
        let offset = TABLE_OFFSET + 16 * u64::from(vector);
        let low = u64::from(upper) << 32 | u64::from(address);
        let high = u64::from(control) << 32 | u64::from(data);
        assert_eq!(self.bar_write(TABLE_BAR, offset, 8, low).refusal, 0);
        assert_eq!(self.bar_write(TABLE_BAR, offset + 8, 8, high).refusal, 0);
    }

    /// Writes a table entry's control word.
    pub fn entry_control(&mut self, vector: u64, control: u64) -> Outcome {
        self.bar_write(TABLE_BAR, TABLE_OFFSET + 16 * vector + 12, 4, control)
    }
}

/// N of configuration bytes made by `config_with`.
fn vectors_of(config: &[u8; 256]) -> usize {
    if config[0x06] & 0x10 != 0 && config[MSIX] == 0x11 {
        (usize::from(config[MSIX + 2]) | usize::from(config[MSIX + 3] & 7) << 8) + 1
    } else {
        0
    }
}

/// Configuration bytes with an MSI capability of this control word, an MSI-X
/// capability of this many vectors, or both.
pub fn config_with(pin: u8, msi: Option<u16>, vectors: Option<u16>) -> [u8; 256] {
    let mut config = [0; 256];
    config[0x3D] = pin;
    let mut link = 0x34;
    if let Some(control) = msi {
        config[0x06] = 0x10;
        config[link] = MSI as u8;
        link = MSI + 1;
        config[MSI] = 0x05;
        config[MSI + 2..MSI + 4].copy_from_slice(&control.to_le_bytes());
    }
    if let Some(vectors) = vectors {
        config[0x06] = 0x10;
        config[link] = MSIX as u8;
        config[MSIX] = 0x11;
        config[MSIX + 2..MSIX + 4].copy_from_slice(&(vectors - 1).to_le_bytes());
        let table = (TABLE_OFFSET | TABLE_BAR) as u32;
        config[MSIX + 4..MSIX + 8].copy_from_slice(&table.to_le_bytes());
        config[MSIX + 8] = PENDING_BAR as u8;
    }
    config
}

/// A small xorshift generator.
pub struct Random(Cell<u64>);

impl Random {
    pub fn new(seed: u64) -> Random {
        Random(Cell::new(seed.wrapping_mul(0x9E37_79B9_7F4A_7C15) | 1))
    }

    pub fn number(&self) -> u64 {
        let mut state = self.0.get();
        state ^= state << 13;
        state ^= state >> 7;
        state ^= state << 17;
        self.0.set(state);
        state.wrapping_mul(0x2545_F491_4F6C_DD1D)
    }

    /// A number below `count`.
    pub fn below(&self, count: u64) -> u64 {
        (self.number() >> 16) % count
    }

    /// True once in `count` times.
    pub fn once_in(&self, count: u64) -> bool {
        self.below(count) == 0
    }

    pub fn pick<T: Copy>(&self, from: &[T]) -> T {
        from[self.below(from.len() as u64) as usize]
    }

    pub fn fill(&self, bytes: &mut [u8]) {
        for byte in bytes {
            *byte = self.number() as u8;
        }
    }
}
