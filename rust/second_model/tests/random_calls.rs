//! Random cards and random calls: soundness after each accepted call, no
//! change by a refused one, exact room, save and restore.

mod common;

use common::*;
use second_model::*;

/// What a start is given.
struct Given {
    config: [u8; 256],
    sizes: [u32; 6],
    events: u64,
    requester: u64,
    vectors: usize,
    places: Places,
}

/// Where the calls find something to do.
#[derive(Clone, Copy, Default)]
struct Places {
    msi: Option<usize>,
    msix: Option<usize>,
    table: (u64, u64),
    pending: (u64, u64),
}

/// Configuration bytes with a random list, mostly one that starting accepts.
fn random_given(random: &Random) -> Given {
    let mut config = [0; 256];
    if random.once_in(2) {
        random.fill(&mut config);
    }
    config[0x0E] &= 0x80;
    config[0x3D] = random.below(5) as u8;
    config[0x06] |= 0x10;
    let mut places = Places::default();
    let vectors = random_list(random, &mut config, &mut places);
    let mut sizes = [0; 6];
    for size in &mut sizes {
        *size = random.pick(&[0x1000, 0x1_0000, u32::MAX, random.number() as u32]);
    }
    let mut given = Given {
        config,
        sizes,
        events: random.pick(&[1, 2, 3, 8, 33, 100]),
        requester: random.number() & 0xFFF8,
        vectors,
        places,
    };
    if vectors > 0 {
        given.events = vectors as u64;
    }
    if random.once_in(4) {
        spoil(random, &mut given);
    }
    given
}

/// Writes a random list and gives N.
fn random_list(random: &Random, config: &mut [u8; 256], places: &mut Places) -> usize {
    let (mut link, mut at, mut vectors) = (0x34, 0x40, 0);
    let mut kinds = [0x05, 0x11, 0x01, 0x09];
    for i in 0..4 {
        kinds.swap(i, random.below(4) as usize);
    }
    for kind in &kinds[..random.below(5) as usize] {
        at += 4 * random.below(4) as usize;
        config[link] = at as u8 | random.below(4) as u8;
        config[at] = *kind;
        link = at + 1;
        let next = at + 4 * (3 + random.below(4) as usize);
        match kind {
            0x05 => {
                places.msi = Some(at);
                let control = random.below(6) << 1 | random.below(8) << 4 | random.below(16) << 7;
                config[at + 2..at + 4].copy_from_slice(&(control as u16).to_le_bytes());
            }
            0x11 => {
                places.msix = Some(at);
                vectors = random_msix(random, &mut config[at..at + 12], places);
            }
            _ => {}
        }
        at = next;
    }
    config[link] = random.below(4) as u8;
    vectors
}

/// Writes a random MSI-X structure and gives N.
fn random_msix(random: &Random, structure: &mut [u8], places: &mut Places) -> usize {
    let vectors = match random.below(12) {
        0 => random.pick(&[63, 64, 65, 128, 200]),
        1 if random.once_in(8) => 2048,
        _ => 1 + random.below(12),
    };
    let control = (vectors - 1) as u16 | (random.number() as u16 & 0xF800);
    structure[2..4].copy_from_slice(&control.to_le_bytes());
    places.table = (random.below(6), random.below(0x40) * 8);
    places.pending = (random.below(6), random.below(0x80) * 8);
    let word = |place: (u64, u64)| (place.1 as u32 | place.0 as u32).to_le_bytes();
    structure[4..8].copy_from_slice(&word(places.table));
    structure[8..12].copy_from_slice(&word(places.pending));
    vectors as usize
}

/// Changes one thing, which mostly makes the start refuse.
fn spoil(random: &Random, given: &mut Given) {
    match random.below(7) {
        0 => given.events = random.pick(&[0, 2048, 2049, 0xFFFF, 0x1_0000 + given.events]),
        1 => given.requester |= random.pick(&[random.below(8), 1 << 16, 1 << 63]),
        2 => given.sizes = [random.below(0x200) as u32; 6],
        3 => given.vectors = random.below(5) as usize,
        4 => given.config[random.pick(&[0x0E, 0x3D])] = random.below(8) as u8,
        5 => given.config[given.places.msi.unwrap_or(0x40)] = 0x11,
        _ => {
            let at = random.pick(&[0x34, 0x40, 0x41, 0x42, 0x44, 0x45, 0x48, 0x49]);
            let value = random.number() as u8;
            given.config[at] = random.pick(&[0x05, 0x11, 0x20, 0x40, 0x48, 0x4C, 0xFC, value]);
        }
    }
}

fn random_start(random: &Random) -> (Bench, Places, Outcome) {
    let given = random_given(random);
    let mut bench = Bench {
        card: blank(),
        table: vec![0xAA; 16 * given.vectors],
        pending: vec![0xAA; 8 * given.vectors.div_ceil(64)],
        out: vec![0xEE; 64 + 20 * given.vectors.max(32) + 400],
    };
    let before = bench.clone();
    let (card, outcome) = start(
        &given.config,
        &given.sizes,
        given.events,
        given.requester,
        &mut bench.table,
        &mut bench.pending,
    );
    if outcome.refusal != 0 {
        assert_eq!((&bench, &card), (&before, &blank()));
    }
    bench.card = card;
    assert_eq!(bench.sound(), outcome.refusal == 0);
    (bench, given.places, outcome)
}

fn blank() -> Card {
    Card {
        config: [0; 256],
        sizes: [0; 6],
        events: 0,
        requester: 0,
        line: false,
        wire: false,
        other_flags: 0,
        msi_waiting: 0,
    }
}

/// One call with its arguments.
#[derive(Clone, Copy, Debug)]
enum Call {
    Read(usize, u64),
    Write(usize, u64, u32),
    BarRead(u64, u64, u64),
    BarWrite(u64, u64, u64, u64),
    Event(u64),
    Line(bool),
    Withdraw(u64),
    Reset,
    Save,
}

fn apply(bench: &mut Bench, call: Call) -> Outcome {
    match call {
        Call::Read(offset, width) => bench.read(offset, width),
        Call::Write(offset, width, value) => bench.write(offset, width, value),
        Call::BarRead(bar, offset, width) => bench.bar_read(bar, offset, width),
        Call::BarWrite(bar, offset, width, value) => bench.bar_write(bar, offset, width, value),
        Call::Event(number) => bench.event(number),
        Call::Line(level) => bench.line(level),
        Call::Withdraw(vector) => bench.withdraw(vector),
        Call::Reset => bench.reset(),
        Call::Save => bench.save(),
    }
}

fn random_call(random: &Random, bench: &Bench, places: &Places) -> Call {
    let mask = random.pick(&[u64::MAX, random.number(), 0, 0xFFFF_FFFF]);
    let value = random.number() & mask;
    let level = random.once_in(2);
    let (offset, width) = random_config_place(random, places);
    let (bar, bar_offset, bar_width) = random_bar_place(random, bench, places);
    match random.below(44) {
        0..=3 => Call::Read(offset, width),
        4..=6 => Call::Write(offset, width, value as u32),
        7..=8 => Call::Write(0x04, 2, random.pick(&[6, 6, 6, 4, 2, 0, 0x406])),
        9..=11 => random_switch(random, places),
        12..=13 => Call::BarRead(bar, bar_offset, bar_width),
        14..=23 => Call::BarWrite(bar, bar_offset, bar_width, value),
        24..=35 => Call::Event(random.below(u64::from(bench.card.events) + 1)),
        36..=37 => Call::Line(level),
        38 => Call::Save,
        40..=43 => Call::Withdraw(random_vector(random, bench)),
        _ if random.once_in(6) => Call::Reset,
        _ => Call::Event(random.number() & random.pick(&[0xFFFF, u64::MAX])),
    }
}

/// The number of a vector to withdraw: one that waits, one near a border, or
/// any.
fn random_vector(random: &Random, bench: &Bench) -> u64 {
    let msi = (0..32).filter(|&v| bench.card.msi_waiting >> v & 1 != 0);
    let msix = (0..8 * bench.pending.len()).filter(|&v| bench.pending[v / 8] >> (v % 8) & 1 != 0);
    let waiting: Vec<u64> = msi.chain(msix.map(|v| v as u64)).collect();
    let vectors = bench.table.len() as u64 / 16;
    let border = random.pick(&[vectors, 1 << random.below(6)]);
    match random.below(8) {
        0..=4 if !waiting.is_empty() => random.pick(&waiting),
        0..=5 => random.pick(&[0, border.saturating_sub(1), border, border + 1]),
        6 => random.below(33),
        _ => random.number() & random.pick(&[0xFFFF, u64::MAX]),
    }
}

/// Switches MSI or MSI-X on or off, if the card has it.
fn random_switch(random: &Random, places: &Places) -> Call {
    let msi = places
        .msi
        .map(|at| Call::Write(at + 2, 2, random.number() as u32));
    let msix = places.msix.map(|at| {
        let control = random.pick(&[0x8000, 0x8000, 0xC000, 0x4000, 0]);
        Call::Write(at + 2, 2, control)
    });
    let both = if random.once_in(2) {
        msi.or(msix)
    } else {
        msix.or(msi)
    };
    both.unwrap_or(Call::Line(true))
}

fn random_config_place(random: &Random, places: &Places) -> (usize, u64) {
    let word = 4 * random.below(7) as usize;
    let offset = match random.below(6) {
        0 => random.below(300) as usize,
        1 => 0x04,
        2 => 0x3C,
        _ => places.msi.or(places.msix).unwrap_or(0x40) + word,
    };
    (offset, random.pick(&[1, 2, 4, 4, random.below(16), 0x104]))
}

fn random_bar_place(random: &Random, bench: &Bench, places: &Places) -> (u64, u64, u64) {
    let width = random.pick(&[4, 8, 4, 4, random.below(16), 0x104]);
    let entry = random.below(bench.table.len() as u64 / 16 + 1) * 16;
    let word = random.pick(&[0, 4, 8, 12, 12, 12]);
    match random.below(12) {
        0 => (random.below(7), random.below(0x200) * 4, width),
        1 => (places.pending.0, places.pending.1 + word, width),
        2 => (places.table.0, places.table.1 + random.below(0x40), width),
        _ => (places.table.0, places.table.1 + entry + word, width),
    }
}

/// Makes one call and checks what holds of every call.
fn checked(bench: &mut Bench, call: Call) -> Outcome {
    bench.out.fill(0xEE);
    let before = bench.clone();
    let outcome = apply(bench, call);
    if outcome.refusal != 0 {
        assert_eq!(*bench, before);
        assert_eq!((outcome.value, outcome.count, outcome.answer), (0, 0, None));
        return outcome;
    }
    assert!(bench.sound(), "{call:?}");
    assert!(outcome.count <= ROOM);
    assert_eq!(outcome.answer.is_some(), matches!(call, Call::Event(_)));
    assert!(bench.out[outcome.count..].iter().all(|&byte| byte == 0xEE));
    if matches!(call, Call::Withdraw(_)) {
        assert_withdrawal(&before, bench, outcome);
    }
    if !matches!(call, Call::Save) {
        assert_packets(&bench.out[..outcome.count], bench.card.requester);
    }
    if outcome.count > 0 {
        exact_room(&before, bench, call, outcome);
    }
    outcome
}

/// An accepted withdrawal sends nothing and leaves all but one waiting bit,
/// which it clears if it was set.
fn assert_withdrawal(before: &Bench, after: &Bench, outcome: Outcome) {
    let waiting = |bench: &Bench| {
        let msix: u32 = bench.pending.iter().map(|byte| byte.count_ones()).sum();
        msix + bench.card.msi_waiting.count_ones()
    };
    assert_eq!(outcome.count, 0);
    assert_eq!(u64::from(waiting(before) - waiting(after)), outcome.value);
    let mut same = after.clone();
    same.pending.clone_from(&before.pending);
    same.card.msi_waiting = before.card.msi_waiting;
    assert_eq!(same, *before);
    let mut again = after.clone();
    for (byte, was) in again.pending.iter_mut().zip(&before.pending) {
        *byte &= was;
    }
    again.card.msi_waiting &= before.card.msi_waiting;
    assert_eq!(again, *after);
}

/// The call with just enough room is accepted, with one byte less refused.
fn exact_room(before: &Bench, after: &Bench, call: Call, outcome: Outcome) {
    let mut exact = before.clone();
    exact.out.truncate(outcome.count);
    let mut short = exact.clone();
    short.out.pop();
    assert_eq!(apply(&mut exact, call), outcome);
    assert_eq!((&exact.card, &exact.table), (&after.card, &after.table));
    assert_eq!(exact.pending, after.pending);
    assert_eq!(exact.out, after.out[..outcome.count]);
    let unchanged = short.clone();
    assert_eq!(apply(&mut short, call).refusal, 6);
    assert_eq!(short, unchanged);
}

/// The bytes are whole packets, with a wire packet only at their start.
fn assert_packets(bytes: &[u8], requester: u16) {
    let mut at = 0;
    while at < bytes.len() {
        let length = match bytes[at] {
            0x40 => 16,
            0x60 => 20,
            0x34 if at == 0 => 16,
            other => panic!("packet starts with {other:02x}"),
        };
        assert_eq!(bytes[at + 4..at + 6], requester.to_be_bytes());
        at += length;
    }
    assert_eq!(at, bytes.len());
}

/// Saves, restores over other contents, and compares.
fn save_and_restore(random: &Random, bench: &mut Bench) {
    let mut out = vec![0; ROOM];
    let count = save(&bench.card, &bench.table, &bench.pending, &mut out).count;
    let vectors = bench.table.len() / 16;
    assert_eq!(count, 294 + 16 * vectors + 8 * vectors.div_ceil(64));
    assert!(count <= 33_318);
    let mut other = bench.clone();
    other.card = blank();
    random.fill(&mut other.table);
    random.fill(&mut other.pending);
    let outcome = other.restore(&out[..count]);
    assert_eq!((outcome.refusal, outcome.count), (0, 0));
    assert_eq!(other, *bench);
}

#[test]
fn calls_keep_the_rules() {
    let random = Random::new(1);
    let (mut starts, mut calls, mut answers) = ([0; 256], [0; 256], [0; 4]);
    let (mut withdrawn, mut refused) = ([0; 2], [0; 256]);
    for _ in 0..4_000 {
        let (mut bench, places, outcome) = random_start(&random);
        starts[usize::from(outcome.refusal)] += 1;
        let rounds = if bench.table.len() > 4096 { 20 } else { 60 };
        for _ in 0..if outcome.refusal == 0 { rounds } else { 1 } {
            let call = random_call(&random, &bench, &places);
            let outcome = checked(&mut bench, call);
            calls[usize::from(outcome.refusal)] += 1;
            if let Some(answer) = outcome.answer {
                answers[answer as usize] += 1;
            }
            match call {
                Call::Withdraw(_) if outcome.refusal == 0 => withdrawn[outcome.value as usize] += 1,
                Call::Withdraw(_) => refused[usize::from(outcome.refusal)] += 1,
                _ => {}
            }
            if bench.sound() && random.once_in(8) {
                save_and_restore(&random, &mut bench);
            }
        }
    }
    println!("starts {:?} and {}", &starts[10..18], starts[0]);
    println!("calls {:?}, answers {answers:?}", &calls[..8]);
    println!("withdrawals {withdrawn:?}, refused {:?}", &refused[..8]);
    assert!(starts[10..18].iter().all(|&count| count > 0));
    assert!(calls[..6].iter().all(|&count| count > 0));
    assert!(answers.iter().all(|&count| count > 100));
    assert!(withdrawn.iter().all(|&count| count > 100));
    assert!([1, 2, 7].iter().all(|&number| refused[number] > 50));
}

#[test]
fn images_give_back_their_bytes() {
    let random = Random::new(2);
    let mut numbers = [0; 256];
    for _ in 0..6_000 {
        let (mut bench, places, outcome) = random_start(&random);
        if outcome.refusal != 0 {
            continue;
        }
        for _ in 0..8 {
            let call = random_call(&random, &bench, &places);
            checked(&mut bench, call);
        }
        let mut out = vec![0; ROOM];
        let count = save(&bench.card, &bench.table, &bench.pending, &mut out).count;
        for _ in 0..4 {
            let image = changed_image(&random, &out[..count]);
            let mut other = bench.clone();
            let refusal = other.restore(&image).refusal;
            numbers[usize::from(refusal)] += 1;
            if refusal == 0 {
                let mut again = vec![0; ROOM];
                let count = save(&other.card, &other.table, &other.pending, &mut again).count;
                assert_eq!(again[..count], image[..]);
            } else {
                assert_eq!(other, bench);
            }
        }
    }
    println!("restores {:?} and {}", &numbers[17..23], numbers[0]);
    assert!([0, 17, 20, 21, 22]
        .iter()
        .all(|&number| numbers[number] > 0));
}

/// An image with a few bytes changed, left out or added.
fn changed_image(random: &Random, image: &[u8]) -> Vec<u8> {
    let mut image = image.to_vec();
    for _ in 0..1 + random.below(2) {
        let at = match random.below(3) {
            0 => random.below(40) as usize,
            _ => random.below(image.len() as u64) as usize,
        };
        image[at] ^= 1 << random.below(8);
    }
    match random.below(12) {
        0 => image.truncate(random.below(image.len() as u64 + 1) as usize),
        1 => image.push(0),
        2 => image.truncate(294),
        _ => {}
    }
    image
}
