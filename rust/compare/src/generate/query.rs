//! Random trials of queries: about configurations of every kind, about images of
//! a card that goes on between them, and about packets in a row.

use super::switch::{random_message, spoilt};
use super::{fitting, near_length, number_of_steps, CardGenerator, Generator, SLOTS};
use crate::call::{Call, Image, QueryCall, Room, Step};
use crate::given::{arbitrary, spoil, valid};
use crate::layout::Layout;
use crate::packets::wire;
use crate::pair::Pair;
use crate::random::Random;
use crate::world::{CARD_BYTES, CONFIG_AT, ROOM};

/// A trial of queries.
pub struct QueryGenerator {
    card: CardGenerator,
    /// The steps still to make before the trial ends.
    left: usize,
}

impl Generator for QueryGenerator {
    fn first(&mut self) -> Vec<Step> {
        self.card.first()
    }

    fn next(&mut self, pair: &Pair<'_>) -> Vec<Step> {
        if self.left == 0 {
            return Vec::new();
        }
        let layout = Layout::of_card(&pair.world().card);
        let steps = match self.card.random.below(16) {
            0..=2 => self.card.next(pair),
            3..=6 => vec![self.config_step(pair)],
            7..=8 => self.image_steps(pair, &layout),
            _ => self.packet_steps(),
        };
        // A large card costs more.
        let weight = 1 + layout.vectors() / 400;
        self.left = self.left.saturating_sub(weight * steps.len().max(1));
        steps
    }
}

impl QueryGenerator {
    pub fn new(mut random: Random) -> QueryGenerator {
        QueryGenerator {
            left: number_of_steps(&mut random),
            card: CardGenerator {
                random,
                left: usize::MAX,
            },
        }
    }

    /// A configuration that a start accepts, one that it mostly refuses, or the
    /// card's own; now and then with a bit turned over, or of another length.
    fn config_step(&mut self, pair: &Pair<'_>) -> Step {
        let random = &mut self.card.random;
        let mut config = match random.below(8) {
            0 if pair.world().card.len() == CARD_BYTES => pair.world().card[CONFIG_AT..].to_vec(),
            0..=1 => arbitrary(random).config,
            2..=4 => valid(random).config,
            _ => {
                let mut given = valid(random);
                spoil(random, &mut given);
                given.config
            }
        };
        if random.once_in(2) {
            turn_list_bit(random, &mut config);
        }
        if random.once_in(16) {
            let length = near_length(random, config.len());
            config.resize(length, 0);
        }
        query(QueryCall::ConfigLengths(config))
    }

    /// Saves the card and asks for the lengths of an image, as it is and
    /// damaged; mostly the image is then restored over buffers that fit.
    fn image_steps(&mut self, pair: &Pair<'_>, layout: &Layout) -> Vec<Step> {
        let number = self.card.random.below(SLOTS);
        let kept = Image::Kept(number, Vec::new());
        let mut steps = vec![
            Step::Call(Call::Save(number), Room::Bytes(ROOM)),
            query(QueryCall::ImageLengths(kept)),
        ];
        for _ in 0..1 + self.card.random.below(6) {
            let damage = self.card.image_damage(294 + 16 * layout.vectors());
            steps.push(query(QueryCall::ImageLengths(Image::Kept(number, damage))));
        }
        let image = self.card.image(pair, layout);
        let restore = Call::Restore(image.clone());
        if self.card.random.once_in(2) {
            steps.extend(fitting(&pair.image_of(&restore)));
        }
        steps.push(query(QueryCall::ImageLengths(image)));
        steps.push(Step::Call(restore, Room::Bytes(0)));
        steps
    }

    /// One to five packets in a row, one of them spoilt at times, read from the
    /// start of each; or bytes of any contents.
    fn packet_steps(&mut self) -> Vec<Step> {
        let random = &mut self.card.random;
        if random.once_in(16) {
            let length = random.pick(&[0, 1, 8, 15, 16, 17, 20, 36]);
            let mut bytes = random.bytes(length);
            if let (Some(first), true) = (bytes.first_mut(), random.once_in(2)) {
                *first = random.pick(&[0x34, 0x40, 0x60]);
            }
            return vec![query(QueryCall::Packet(bytes))];
        }
        let mut packets: Vec<Vec<u8>> = (0..1 + random.below(5)).map(|_| packet(random)).collect();
        if random.once_in(2) {
            let at = random.below(packets.len());
            packets[at] = spoilt(random, packets[at].clone());
        }
        let row = |at: usize| query(QueryCall::Packet(packets[at..].concat()));
        (0..packets.len()).map(row).collect()
    }
}

/// A packet of any layout, of any requester.
fn packet(random: &mut Random) -> Vec<u8> {
    match random.once_in(2) {
        true => random_message(random),
        false => {
            let (assert, pin) = (random.once_in(2), 1 + random.below(4));
            wire(assert, pin, random.number() as u16)
        }
    }
}

/// Turns over a bit that decides about the list: of Status, of a pointer, or of
/// a header in the list.
fn turn_list_bit(random: &mut Random, config: &mut [u8]) {
    let layout = Layout::of_config(config);
    let msi = layout.msi.map_or(0x34, |msi| msi.at + random.below(2));
    let msix = layout.msix.map_or(0x34, |msix| msix.at + random.below(4));
    let any = 0x40 + random.below(0xC0);
    let at = random.pick(&[0x06, 0x34, msi, msix, msix, any]);
    config[at] ^= 1 << random.below(8);
}

fn query(call: QueryCall) -> Step {
    Step::Call(Call::Query(call), Room::Bytes(0))
}
