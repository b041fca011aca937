//! Cards to measure, for both models.

use second_model::{Card, Outcome};

pub const MSI: usize = 0x50;
pub const MSIX: usize = 0x70;
pub const TABLE_BAR: u64 = 0;
pub const PENDING_BAR: u8 = 1;
/// The bytes of a card in the C interface.
pub const CARD_BYTES: usize = 289;

/// What a start is given.
#[derive(Clone)]
pub struct Given {
    pub config: [u8; 256],
    pub sizes: [u32; 6],
    pub events: u64,
    pub requester: u64,
    pub vectors: usize,
}

impl Given {
    /// A card with pin 1, MSI with 64-bit addresses and masks, and MSI-X if
    /// there are vectors.
    pub fn new(vectors: usize) -> Given {
        let mut config = [0; 256];
        config[0x06] = 0x10;
        config[0x34] = MSI as u8;
        config[0x3D] = 1;
        config[MSI] = 0x05;
        config[MSI + 2..MSI + 4].copy_from_slice(&0x018A_u16.to_le_bytes());
        if vectors > 0 {
            config[MSI + 1] = MSIX as u8;
            config[MSIX] = 0x11;
            config[MSIX + 2..MSIX + 4].copy_from_slice(&(vectors as u16 - 1).to_le_bytes());
            config[MSIX + 4] = TABLE_BAR as u8;
            config[MSIX + 8] = PENDING_BAR;
        }
        Given {
            config,
            sizes: [0x1_0000; 6],
            events: vectors.max(1) as u64,
            requester: 0x0100,
            vectors,
        }
    }
}

/// A card with its buffers, as the second model has them.
#[derive(Clone)]
pub struct Second {
    pub card: Card,
    pub table: Vec<u8>,
    pub pending: Vec<u8>,
    pub out: Vec<u8>,
}

/// The same card with its buffers, as the C interface has them.
#[derive(Clone)]
pub struct Proved {
    pub card: Vec<u8>,
    pub table: Vec<u8>,
    pub pending: Vec<u8>,
    pub out: Vec<u8>,
}

/// Panics unless the call that made a state was accepted.
fn accepted(outcome: Outcome) {
    assert_eq!(outcome.refusal, 0);
}

impl Second {
    /// A started card.
    pub fn started(given: &Given) -> Second {
        let mut table = vec![0; 16 * given.vectors];
        let mut pending = vec![0; 8 * given.vectors.div_ceil(64)];
        let (card, outcome) = second_model::start(
            &given.config,
            &given.sizes,
            given.events,
            given.requester,
            &mut table,
            &mut pending,
        );
        accepted(outcome);
        Second {
            card,
            table,
            pending,
            out: vec![0; second_model::ROOM],
        }
    }

    /// Writes two configuration bytes.
    pub fn write(&mut self, offset: usize, value: u32) {
        accepted(second_model::config_write(
            &mut self.card,
            &mut self.table,
            &mut self.pending,
            offset as u64,
            2,
            value,
            &mut self.out,
        ));
    }

    /// Gives every table entry an address above 4 GiB and mask 0.
    pub fn unmask_all(&mut self, vectors: usize) {
        for vector in 0..vectors {
            for (word, value) in [(0, 0x1_FEE0_1000), (8, vector as u64)] {
                let offset = (16 * vector + word) as u64;
                accepted(second_model::bar_write(
                    &mut self.card,
                    &mut self.table,
                    &mut self.pending,
                    TABLE_BAR,
                    offset,
                    8,
                    value,
                    &mut self.out,
                ));
            }
        }
    }

    /// A device event.
    pub fn event(&mut self, number: u64) {
        accepted(second_model::event(
            &mut self.card,
            &mut self.table,
            &mut self.pending,
            number,
            &mut self.out,
        ));
    }

    /// An image.
    pub fn image(&mut self) -> Vec<u8> {
        let outcome = second_model::save(&self.card, &self.table, &self.pending, &mut self.out);
        accepted(outcome);
        self.out[..outcome.count].to_vec()
    }

    /// The same card for the C interface: the bytes of its image from the
    /// flags to the last configuration byte.
    pub fn proved(&mut self) -> Proved {
        let image = self.image();
        Proved {
            card: image[5..5 + CARD_BYTES].to_vec(),
            table: self.table.clone(),
            pending: self.pending.clone(),
            out: vec![0; second_model::ROOM],
        }
    }
}

/// The states that the calls are measured on.
pub struct States {
    /// MSI-X in force and every vector open; MSI in force if there is no MSI-X.
    pub open: Second,
    /// The same with every vector shut and waiting.
    pub waiting: Second,
    /// The pin in force.
    pub pin: Second,
}

impl States {
    /// The states of a card with this many vectors.
    pub fn new(given: &Given) -> States {
        let mut pin = Second::started(given);
        pin.write(0x04, 0x0006);
        pin.unmask_all(given.vectors);
        let mut open = pin.clone();
        let mut waiting = pin.clone();
        if given.vectors > 0 {
            open.write(MSIX + 2, 0x8000);
            waiting.write(MSIX + 2, 0xC000);
        } else {
            open.write(MSI + 2, 1);
            waiting.write(MSI + 2, 1);
            waiting.write(0x04, 0x0002);
        }
        for number in 0..given.events {
            waiting.event(number);
        }
        States { open, waiting, pin }
    }
}
