//! Arbitrary cards, buffers, images and arguments: no call panics, and a
//! refused call changes nothing.

mod common;

use common::*;
use second_model::*;

fn bytes(random: &Random, most: u64) -> Vec<u8> {
    let mut bytes = vec![0; random.below(most) as usize];
    random.fill(&mut bytes);
    bytes
}

/// A card of random contents.
fn arbitrary_card(random: &Random) -> Card {
    let mut config = [0; 256];
    random.fill(&mut config);
    if random.once_in(2) {
        config[0x0E] = 0;
        config[0x3D] &= 3;
        for at in (0x40..0x100).step_by(4) {
            config[at] = random.pick(&[0x05, 0x11, 0x01, 0x09, 0x10]);
            config[at + 1] = random.pick(&[0, 0xFC, 0xE8, random.number() as u8]);
        }
    }
    Card {
        config,
        sizes: [0; 6].map(|_: u32| random.number() as u32),
        events: random.number() as u16 & random.pick(&[7, 0xFFF, 0xFFFF]),
        requester: random.number() as u16 & random.pick(&[0xFFF8, 0xFFFF]),
        line: random.once_in(2),
        wire: random.once_in(2),
        other_flags: random.pick(&[0, 0, random.number() as u8 & !3]),
        msi_waiting: random.number() as u32 & random.pick(&[0, 3, u32::MAX]),
    }
}

/// A card and buffers of random contents, or a started card with a few bits
/// turned over.
fn arbitrary_bench(random: &Random) -> Bench {
    let mut bench = if random.once_in(3) {
        Bench {
            card: arbitrary_card(random),
            table: bytes(random, 80),
            pending: bytes(random, 20),
            out: Vec::new(),
        }
    } else {
        let vectors = random.pick(&[None, Some(1), Some(5), Some(65)]);
        let control = random.number() as u16 & 0xFF0 | (random.below(6) << 1) as u16;
        let msi = random.pick(&[None, Some(control)]);
        let config = config_with(random.below(5) as u8, msi, vectors);
        Bench::started(&config, u64::from(vectors.unwrap_or(40)))
    };
    for _ in 0..random.below(8) {
        turn_over(random, &mut bench);
    }
    bench.out = bytes(random, 2_000);
    bench
}

/// Turns one bit over, or changes a length.
fn turn_over(random: &Random, bench: &mut Bench) {
    let bit = 1 << random.below(8);
    match random.below(13) {
        0 => bench.card.line = !bench.card.line,
        1 => bench.card.wire = !bench.card.wire,
        12 => bench.card.other_flags ^= bit & !3,
        2 => bench.card.msi_waiting ^= 1 << random.below(32),
        3 if random.once_in(4) => bench.table.truncate(random.below(100) as usize),
        4 if random.once_in(4) => bench.pending.push(bit),
        5 if random.once_in(4) => {
            bench.card.sizes[random.below(6) as usize] = random.number() as u32
        }
        6..=7 => bench.card.config[random.pick(&[4, MSI + 2, MSIX + 3])] ^= bit,
        8 => bench.card.config[random.below(256) as usize] ^= bit,
        9 if !bench.pending.is_empty() => bench.pending[0] ^= bit,
        _ if !bench.table.is_empty() => {
            let at = random.below(bench.table.len() as u64) as usize;
            bench.table[at] ^= bit & random.pick(&[1, 0xFF]);
        }
        _ => {}
    }
}

/// Makes each call once on a copy and gives the refusal numbers.
fn each_call(random: &Random, bench: &Bench) -> Vec<u8> {
    let offset = random.number() as usize & random.pick(&[0xFC, 0x1FF, usize::MAX]);
    let width = random.pick(&[1, 2, 4, 8, random.below(256), random.number()]);
    let value = random.number();
    let bar = random.pick(&[TABLE_BAR, random.below(256), random.number()]);
    let end = random.pick(&[u64::from(u32::MAX), u64::MAX]);
    let bar_offset = random.pick(&[TABLE_OFFSET, 0, random.number(), end - 7, end - 3]);
    let number = random.number() & random.pick(&[7, 0xFFFF, u64::MAX]);
    let level = random.once_in(2);
    let calls: [&dyn Fn(&mut Bench) -> Outcome; 10] = [
        &|b| b.read(offset, width),
        &|b| b.write(offset, width, value as u32),
        &|b| b.write(0x04, 2, value as u32),
        &|b| b.bar_read(bar, bar_offset, width),
        &|b| b.bar_write(bar, bar_offset, width, value),
        &|b| b.event(number),
        &|b| b.line(level),
        &|b| b.withdraw(number),
        &|b| b.reset(),
        &|b| b.save(),
    ];
    let check = |call: &&dyn Fn(&mut Bench) -> Outcome| {
        let mut copy = bench.clone();
        let outcome = call(&mut copy);
        if outcome.refusal != 0 {
            assert_eq!(copy, *bench);
            assert_eq!(outcome.count, 0);
        } else {
            assert!(copy.sound());
        }
        outcome.refusal
    };
    calls.iter().map(check).collect()
}

#[test]
fn calls_do_not_panic() {
    let random = Random::new(3);
    let (mut sound, mut unsound) = (0, 0);
    for _ in 0..20_000 {
        let bench = arbitrary_bench(&random);
        let numbers = each_call(&random, &bench);
        if bench.sound() {
            sound += 1;
            assert!(!numbers.contains(&1));
        } else {
            unsound += 1;
            assert!(numbers.iter().all(|&number| number == 1));
        }
    }
    println!("sound {sound}, not sound {unsound}");
    assert!(sound > 1_000 && unsound > 1_000);
}

#[test]
fn starts_do_not_panic() {
    let random = Random::new(4);
    for _ in 0..40_000 {
        let mut card = arbitrary_card(&random);
        let mut table = bytes(&random, 40);
        let mut pending = bytes(&random, 20);
        if random.once_in(2) {
            table.clear();
            pending.clear();
        }
        let before = (table.clone(), pending.clone());
        let (started, outcome) = start(
            &card.config,
            &card.sizes,
            u64::from(card.events),
            u64::from(card.requester),
            &mut table,
            &mut pending,
        );
        assert_eq!(is_sound(&started, &table, &pending), outcome.refusal == 0);
        if outcome.refusal != 0 {
            assert_eq!((table, pending), before);
            assert_eq!(started.events, 0);
        }
        card.events = 0;
        assert!(!is_sound(&card, &[], &[]));
    }
}

#[test]
fn restores_do_not_panic() {
    let random = Random::new(5);
    for _ in 0..20_000 {
        let mut bench = arbitrary_bench(&random);
        let before = bench.clone();
        let mut image = bytes(&random, 700);
        let head = [0x49, 0x52, 0x51, 1, 0, 0];
        let length = image.len().min(random.below(7) as usize);
        image[..length].copy_from_slice(&head[..length]);
        if bench.restore(&image).refusal != 0 {
            assert_eq!(bench, before);
        } else {
            assert!(bench.sound());
        }
    }
}
