//! Request 1 of document 02: logs written by hand, every wrong byte, every
//! cutting, short outputs, and recorded calls played again.

mod common;

use common::*;
use second_model::log::{begin, play, record, Call, Played, Player};
use second_model::{Answer, Outcome, ROOM};

const BEHIND: u8 = 0xEE;
const BEGIN: [u8; 5] = [0x43, 0x4C, 0x47, 0x01, 0x00];

const ASSERT: &[u8] = &[0x34, 0, 0, 0, 1, 0, 0, 0x20, 0, 0, 0, 0, 0, 0, 0, 0];
const DEASSERT: &[u8] = &[0x34, 0, 0, 0, 1, 0, 0, 0x24, 0, 0, 0, 0, 0, 0, 0, 0];
const CASE_1: &[u8] = &[
    0x40, 0, 0, 1, 1, 0, 0, 0x0F, 0xFE, 0xE0, 0, 0, 0xA1, 0x49, 0, 0,
];
const CASE_5: &[u8] = &[
    0x60, 0, 0, 1, 1, 0, 0, 0x0F, 0, 0, 0, 1, 0xFE, 0xE0, 0x10, 0, 0x31, 0, 0, 0,
];

/// A record, its refusal and answer, and what it sends.
type Step = (&'static [u8], u8, Option<Answer>, &'static [&'static [u8]]);

/// A trial of the card that `trial_card` gives.
const TRIAL: [Step; 21] = [
    (&[1, 3, 0], 0, Some(Answer::Lost), &[]),
    (&[1, 4, 0], 2, None, &[]),
    (&[2, 1], 0, None, &[ASSERT]),
    (&[2, 1], 0, None, &[]),
    // Entry 3, while Command bit 1 is clear and then set.
    (
        &[4, 2, 0x30, 0x10, 0, 0, 8, 0, 0x10, 0xE0, 0xFE, 1, 0, 0, 0],
        5,
        None,
        &[],
    ),
    (&[3, 4, 0, 2, 6, 0, 0, 0], 0, None, &[]),
    (
        &[4, 2, 0x30, 0x10, 0, 0, 8, 0, 0x10, 0xE0, 0xFE, 1, 0, 0, 0],
        0,
        None,
        &[],
    ),
    (
        &[4, 2, 0x38, 0x10, 0, 0, 8, 0x31, 0, 0, 0, 1, 0, 0, 0],
        0,
        None,
        &[],
    ),
    // MSI-X on, then cases 7 and 5.
    (&[3, 0x72, 0, 2, 0, 0x80, 0, 0], 0, None, &[DEASSERT]),
    (&[1, 3, 0], 0, Some(Answer::Held), &[]),
    (&[1, 3, 0], 0, Some(Answer::Merged), &[]),
    (
        &[4, 2, 0x3C, 0x10, 0, 0, 4, 0, 0, 0, 0, 0, 0, 0, 0],
        0,
        None,
        &[CASE_5],
    ),
    (&[1, 3, 0], 0, Some(Answer::Sent), &[CASE_5]),
    // Function Mask on, a held event, and off again.
    (&[3, 0x72, 0, 2, 0, 0xC0, 0, 0], 0, None, &[]),
    (&[1, 3, 0], 0, Some(Answer::Held), &[]),
    (&[3, 4, 0, 3, 0, 0, 0, 0], 3, None, &[]),
    (
        &[4, 6, 0, 0x10, 0, 0, 4, 0, 0, 0, 0, 0, 0, 0, 0],
        4,
        None,
        &[],
    ),
    (&[3, 0x72, 0, 2, 0, 0x80, 0, 0], 0, None, &[CASE_5]),
    (&[3, 0x72, 0, 2, 0, 0, 0, 0], 0, None, &[ASSERT]),
    (&[5], 0, None, &[DEASSERT]),
    (&[2, 0], 0, None, &[]),
];

/// A card with pin 1, MSI-X of four vectors and E = 4.
fn trial_card() -> Bench {
    Bench::started(&config_with(1, None, Some(4)), 4)
}

fn trial_log() -> Vec<u8> {
    let records = TRIAL.iter().flat_map(|step| step.0);
    BEGIN.iter().chain(records).copied().collect()
}

/// Where each record of the trial ends in its log.
fn trial_ends() -> Vec<usize> {
    let mut end = BEGIN.len();
    let next = |step: &Step| {
        end += step.0.len();
        end
    };
    TRIAL.iter().map(next).collect()
}

/// Makes one call of the player and checks what holds of every call.
fn played(bench: &mut Bench, player: &mut Player, log: &[u8]) -> Played {
    bench.out.fill(BEHIND);
    let before = bench.clone();
    let played = play(
        &mut bench.card,
        &mut bench.table,
        &mut bench.pending,
        player,
        log,
        &mut bench.out,
    );
    assert!(played.taken <= log.len());
    assert!(matches!(played.refusal, 0 | 30));
    match played.record {
        Some(outcome) if outcome.refusal == 0 => {
            assert_eq!(played.refusal, 0);
            let behind = &bench.out[outcome.count..];
            assert!(behind.iter().all(|&byte| byte == BEHIND));
        }
        _ => assert_eq!(*bench, before),
    }
    played
}

/// What a call of the player answers that makes no card call.
fn no_record(refusal: u8, taken: usize) -> Played {
    Played {
        refusal,
        taken,
        record: None,
    }
}

/// What the calls of the player gave together.
#[derive(Debug, Default, PartialEq, Eq)]
struct Run {
    records: Vec<(Outcome, Vec<u8>)>,
    taken: usize,
    refusal: u8,
}

/// Plays a log that is cut at these places, untaken bytes handed in again.
fn run(bench: &mut Bench, player: &mut Player, log: &[u8], cuts: &[usize]) -> Run {
    let mut run = Run::default();
    for &end in cuts.iter().chain([&log.len()]) {
        loop {
            let played = played(bench, player, &log[run.taken..end]);
            run.taken += played.taken;
            run.refusal = played.refusal;
            let Some(outcome) = played.record else {
                break;
            };
            let sent = bench.out[..outcome.count].to_vec();
            run.records.push((outcome, sent));
        }
        assert!(run.taken == end || run.refusal == 30);
    }
    run
}

/// A card and player to which a whole log was handed.
fn run_whole(mut bench: Bench, log: &[u8]) -> (Bench, Player, Run) {
    let mut player = Player::new();
    let run = run(&mut bench, &mut player, log, &[]);
    (bench, player, run)
}

/// Checks that the log gives the same with these cuts as in one piece.
fn same_with_cuts(bench: &Bench, log: &[u8], cuts: &[usize]) {
    let whole = run_whole(bench.clone(), log);
    let (mut bench, mut player) = (bench.clone(), Player::new());
    let run = run(&mut bench, &mut player, log, cuts);
    assert_eq!(run, whole.2);
    assert_eq!((&bench.card, &player), (&whole.0.card, &whole.1));
    assert_eq!(bench.table, whole.0.table);
    assert_eq!(bench.pending, whole.0.pending);
}

/// Checks that a player answers 30 from now on.
fn stays_stopped(bench: &mut Bench, player: &mut Player) {
    let before = player.clone();
    let whole = trial_log();
    for log in [&[][..], &[5], &[2, 1], &BEGIN, &whole, &[0xFF]] {
        assert_eq!(played(bench, player, log), no_record(30, 0));
        assert_eq!(*player, before);
    }
}

/// Checks that the byte after `right` is refused, given together with it, by
/// itself, and with good bytes behind it.
fn wrong_byte(right: &[u8], byte: u8) {
    let wrong = [right, &[byte]].concat();
    let longer = [right, &[byte, 5, 2, 1, 5]].concat();
    for log in [&wrong, &longer] {
        let (mut bench, mut player) = (trial_card(), Player::new());
        let refused = played(&mut bench, &mut player, log);
        assert_eq!(refused, no_record(30, right.len()));
        stays_stopped(&mut bench, &mut player);

        let (mut bench, mut player) = (trial_card(), Player::new());
        let taken = played(&mut bench, &mut player, right);
        assert_eq!(taken, no_record(0, right.len()));
        let refused = played(&mut bench, &mut player, &log[right.len()..]);
        assert_eq!(refused, no_record(30, 0));
        stays_stopped(&mut bench, &mut player);
    }
}

/// A player that has taken mark and version.
fn begun(bench: &mut Bench) -> Player {
    let mut player = Player::new();
    assert_eq!(played(bench, &mut player, &BEGIN), no_record(0, 5));
    player
}

#[test]
fn a_trial_written_by_hand() {
    let (mut bench, mut player, log) = (trial_card(), Player::new(), trial_log());
    assert_eq!(log.len(), 5 + 6 * 3 + 3 * 2 + 6 * 8 + 5 * 15 + 1);
    let (mut at, mut records) = (0, 0);
    for (bytes, refusal, answer, sent) in TRIAL {
        let played = played(&mut bench, &mut player, &log[at..]);
        let begin = if at == 0 { BEGIN.len() } else { 0 };
        assert_eq!((played.refusal, played.taken), (0, begin + bytes.len()));
        let outcome = played.record.unwrap();
        assert_eq!((outcome.refusal, outcome.answer), (refusal, answer));
        assert_eq!(bench.out[..outcome.count], sent.concat()[..]);
        at += played.taken;
        records += 1;
        assert_eq!(player.records(), records);
    }
    assert_eq!(at, log.len());
    let fresh = trial_card();
    assert_eq!((&bench.card, &bench.table), (&fresh.card, &fresh.table));
    assert_eq!(bench.pending, fresh.pending);
}

#[test]
fn case_1_written_by_hand() {
    let log = [
        &BEGIN[..],
        &[3, 0x04, 0, 2, 0x04, 0, 0, 0],
        &[3, 0x54, 0, 4, 0, 0, 0xE0, 0xFE],
        &[3, 0x58, 0, 2, 0xA0, 0x49, 0, 0],
        &[3, 0x52, 0, 2, 0x21, 0, 0, 0],
        &[1, 1, 0],
    ];
    let card = Bench::started(&config_with(1, Some(2 << 1), None), 2);
    let (_, player, run) = run_whole(card, &log.concat());
    assert_eq!((run.taken, run.refusal, player.records()), (40, 0, 5));
    let sent: Vec<u8> = run.records.iter().flat_map(|r| r.1.clone()).collect();
    assert_eq!(sent, CASE_1);
    assert_eq!(run.records[4].0.answer, Some(Answer::Sent));
}

#[test]
fn every_wrong_byte_of_mark_and_version() {
    for at in 0..BEGIN.len() {
        for byte in (0..=0xFF).filter(|&byte| byte != BEGIN[at]) {
            wrong_byte(&BEGIN[..at], byte);
        }
    }
}

#[test]
fn every_wrong_kind_and_level() {
    for kind in [0].into_iter().chain(6..=0xFF) {
        wrong_byte(&BEGIN, kind);
    }
    for level in 2..=0xFF {
        wrong_byte(&[&BEGIN[..], &[2]].concat(), level);
    }
}

#[test]
fn a_wrong_byte_is_told_when_it_is_met() {
    let (mut bench, mut player) = (trial_card(), Player::new());
    let log = [&BEGIN[..], &[2, 1, 9, 2, 0]].concat();
    let first = played(&mut bench, &mut player, &log);
    assert_eq!((first.refusal, first.taken), (0, 7));
    assert_eq!(bench.out[..16], *ASSERT);
    let second = played(&mut bench, &mut player, &log[7..]);
    assert_eq!(second, no_record(30, 0));
    assert_eq!(player.records(), 1);
    stays_stopped(&mut bench, &mut player);
}

#[test]
fn a_wrong_byte_in_the_middle() {
    let (log, ends) = (trial_log(), trial_ends());
    let whole = run_whole(trial_card(), &log).2;
    for (count, &end) in ends.iter().enumerate() {
        for wrong in [&[0][..], &[6], &[2, 2], &[2, 0xFF]] {
            let spoilt = [&log[..end], wrong, &log[end..]].concat();
            let (_, player, run) = run_whole(trial_card(), &spoilt);
            let taken = end + wrong.len() - 1;
            assert_eq!((run.refusal, run.taken), (30, taken));
            assert_eq!(run.records, whole.records[..=count]);
            assert_eq!(player.records(), count as u64 + 1);
            let bytes: Vec<usize> = (0..spoilt.len()).collect();
            same_with_cuts(&trial_card(), &spoilt, &bytes);
            same_with_cuts(&trial_card(), &spoilt, &[end]);
        }
    }
}

#[test]
fn every_cutting_gives_the_same() {
    let (card, log) = (trial_card(), trial_log());
    for cut in 0..=log.len() {
        same_with_cuts(&card, &log, &[cut]);
    }
    let bytes: Vec<usize> = (0..log.len()).collect();
    same_with_cuts(&card, &log, &bytes);
    let random = Random::new(3);
    for _ in 0..200 {
        let mut cuts = bytes.clone();
        cuts.retain(|_| random.once_in(6));
        same_with_cuts(&card, &log, &cuts);
    }
}

#[test]
fn a_log_may_end_anywhere() {
    let (log, ends) = (trial_log(), trial_ends());
    for length in 0..=log.len() {
        let (_, player, run) = run_whole(trial_card(), &log[..length]);
        let complete = ends.iter().filter(|&&end| end <= length).count();
        assert_eq!((run.refusal, run.taken), (0, length));
        assert_eq!(run.records.len(), complete);
        assert_eq!(player.records(), complete as u64);
    }
}

#[test]
fn a_call_without_bytes_does_nothing() {
    let (mut bench, mut player, log) = (trial_card(), Player::new(), trial_log());
    for byte in &log {
        let before = player.clone();
        assert_eq!(played(&mut bench, &mut player, &[]), no_record(0, 0));
        assert_eq!(player, before);
        assert_eq!(played(&mut bench, &mut player, &[*byte]).taken, 1);
    }
    assert_eq!(played(&mut bench, &mut player, &[]), no_record(0, 0));
}

/// The same numbers handed to the card itself.
fn direct(bench: &mut Bench, kind: u8, bytes: &[u8]) -> Outcome {
    let number = |from: usize, to: usize| {
        let powers = (0..).map(|power| 256u128.pow(power));
        let places = bytes[from..to].iter().zip(powers);
        places
            .map(|(&b, power)| u128::from(b) * power)
            .sum::<u128>() as u64
    };
    match kind {
        1 => bench.event(number(0, 2)),
        3 => bench.write(number(0, 2) as usize, number(2, 3), number(3, 7) as u32),
        _ => bench.bar_write(number(0, 1), number(1, 5), number(5, 6), number(6, 14)),
    }
}

#[test]
fn any_number_is_a_good_record() {
    let random = Random::new(4);
    for (kind, length) in [(1, 2), (3, 7), (4, 14)] {
        for _ in 0..300 {
            let mut bytes = vec![0; length];
            let most = random.pick(&[1, 5, 0x40, 0xFF]);
            bytes.fill_with(|| random.below(most + 1) as u8);
            let mut bench = trial_card();
            bench.write(0x04, 2, 2);
            let mut other = bench.clone();
            let mut player = begun(&mut bench);
            let record = [&[kind], &bytes[..]].concat();
            let played = played(&mut bench, &mut player, &record);
            assert_eq!((played.refusal, played.taken), (0, 1 + length));
            assert_eq!(played.record, Some(direct(&mut other, kind, &bytes)));
            assert_eq!((bench.card, bench.table), (other.card, other.table));
            assert_eq!(bench.pending, other.pending);
        }
    }
}

/// The trial up to the record before this one, ready for it.
fn before_record(index: usize) -> (Bench, Player) {
    let (mut bench, mut player) = (trial_card(), begun(&mut trial_card()));
    for (bytes, ..) in &TRIAL[..index] {
        assert!(played(&mut bench, &mut player, bytes).record.is_some());
    }
    (bench, player)
}

fn with_room(bench: &mut Bench, room: usize) {
    bench.out = vec![BEHIND; room];
}

#[test]
fn a_record_without_room_is_tried_again() {
    for (index, (bytes, _, answer, sent)) in TRIAL.into_iter().enumerate() {
        let sent = sent.concat();
        for room in 0..sent.len() {
            let (mut bench, mut player) = before_record(index);
            with_room(&mut bench, room);
            let first = played(&mut bench, &mut player, &[bytes, &[5, 9]].concat());
            assert_eq!((first.refusal, first.taken), (0, bytes.len()));
            assert_eq!(first.record.unwrap().refusal, 6);
            let waiting = player.clone();
            for log in [&[][..], &[9], &[5, 5], bytes] {
                let again = played(&mut bench, &mut player, log);
                assert_eq!((again.refusal, again.taken), (0, 0));
                assert_eq!((again.record, &player), (first.record, &waiting));
            }
            with_room(&mut bench, sent.len());
            let done = played(&mut bench, &mut player, &[9]);
            let outcome = done.record.unwrap();
            assert_eq!((done.refusal, done.taken), (0, 0));
            assert_eq!((outcome.refusal, outcome.answer), (0, answer));
            assert_eq!((&bench.out, outcome.count), (&sent, sent.len()));
            assert_eq!(player.records(), index as u64 + 1);
            assert_eq!(player, before_record(index + 1).1);
        }
    }
}

#[test]
fn random_rooms_give_the_same() {
    let (random, log) = (Random::new(5), trial_log());
    let whole = run_whole(trial_card(), &log);
    for _ in 0..200 {
        let (mut bench, mut player) = (trial_card(), Player::new());
        let (mut at, mut records) = (0, Vec::new());
        // Far more calls than are needed.
        for _ in 0..2_000 {
            if records.len() == TRIAL.len() {
                break;
            }
            with_room(&mut bench, random.below(24) as usize);
            let end = at + random.below((log.len() - at) as u64 + 1) as usize;
            let played = played(&mut bench, &mut player, &log[at..end]);
            at += played.taken;
            if let Some(outcome) = played.record.filter(|outcome| outcome.refusal != 6) {
                records.push((outcome, bench.out[..outcome.count].to_vec()));
            }
        }
        assert_eq!((records, &player), (whole.2.records.clone(), &whole.1));
        assert_eq!(bench.card, whole.0.card);
        assert_eq!(bench.table, whole.0.table);
        assert_eq!(bench.pending, whole.0.pending);
    }
}

#[test]
fn a_try_may_end_with_another_answer() {
    let index = TRIAL.iter().position(|s| s.2 == Some(Answer::Sent));
    let (mut bench, mut waiting) = before_record(index.unwrap());
    with_room(&mut bench, 0);
    let first = played(&mut bench, &mut waiting, &[1, 3, 0]);
    assert_eq!(first.record.unwrap().refusal, 6);

    let fewer_events = Bench::started(&config_with(1, None, Some(2)), 2);
    let mut unsound = trial_card();
    unsound.card.wire = true;
    let pin_in_force = trial_card();
    let cases = [
        (fewer_events, 2, None),
        (unsound, 1, None),
        (pin_in_force, 0, Some(Answer::Lost)),
    ];
    for (mut bench, refusal, answer) in cases {
        let mut player = waiting.clone();
        let tried = played(&mut bench, &mut player, &[2]);
        let outcome = tried.record.unwrap();
        assert_eq!((tried.refusal, tried.taken), (0, 0));
        assert_eq!((outcome.refusal, outcome.answer), (refusal, answer));
        assert_eq!(played(&mut bench, &mut player, &[2]), no_record(0, 1));
    }
}

#[test]
fn an_unsound_card_refuses_each_record() {
    let mut bench = trial_card();
    bench.card.wire = true;
    let (_, player, run) = run_whole(bench, &trial_log());
    assert_eq!((run.refusal, run.taken), (0, trial_log().len()));
    assert_eq!(player.records(), TRIAL.len() as u64);
    assert!(run.records.iter().all(|(outcome, _)| outcome.refusal == 1));
}

fn write(offset: u64, width: u64, value: u32) -> Call {
    Call::ConfigWrite {
        offset,
        width,
        value,
    }
}

fn bar_write(bar: u64, offset: u64, width: u64, value: u64) -> Call {
    Call::BarWrite {
        bar,
        offset,
        width,
        value,
    }
}

#[test]
fn recorded_bytes() {
    assert_eq!(begin(), BEGIN);
    let bar_bytes = [
        4, 9, 1, 2, 3, 4, 5, 0x11, 0x22, 0x33, 0x44, 0x55, 0x66, 0x77, 0x88,
    ];
    let calls: [(Call, &[u8]); 6] = [
        (Call::Event(0x0201), &[1, 1, 2]),
        (Call::Line(false), &[2, 0]),
        (Call::Line(true), &[2, 1]),
        (write(0x0201, 3, 0x0706_0504), &[3, 1, 2, 3, 4, 5, 6, 7]),
        (
            bar_write(9, 0x0403_0201, 5, 0x8877_6655_4433_2211),
            &bar_bytes,
        ),
        (Call::Reset, &[5]),
    ];
    for (call, bytes) in calls {
        for refusal in [0, 1, 2, 3, 4, 5] {
            assert_eq!(record(&call, refusal), bytes);
        }
        assert!(record(&call, 6).is_empty());
    }
}

/// Checks the bytes of a call whose numbers are too wide, and that the card
/// refuses it and its record in the same way.
fn recorded_wide(call: Call, refusal: u8, bytes: &[u8]) {
    assert_eq!(record(&call, refusal), bytes);
    let mut bench = trial_card();
    bench.write(0x04, 2, 2);
    let outcome = apply(&mut bench, &call);
    assert_eq!(outcome.refusal, refusal);
    let mut player = begun(&mut bench);
    assert_eq!(played(&mut bench, &mut player, bytes).record, Some(outcome));
}

#[test]
fn numbers_too_wide_are_recorded_as_the_largest() {
    let value = [0; 8];
    for wide in [0x1_0000, 0x1_0003, u64::MAX] {
        recorded_wide(Call::Event(wide), 2, &[1, 0xFF, 0xFF]);
        let bytes = [3, 0xFF, 0xFF, 2, 0, 0, 0, 0];
        recorded_wide(write(wide, 2, 0), 3, &bytes);
    }
    for wide in [0x100, 0x102, 0x104, 0x108, u64::MAX] {
        let bytes = [3, 4, 0, 0xFF, 0, 0, 0, 0];
        recorded_wide(write(4, wide, 0), 3, &bytes);
        let bytes = [&[4, 2, 0, 0x10, 0, 0, 0xFF], &value[..]].concat();
        recorded_wide(bar_write(2, 0x1000, wide, 0), 4, &bytes);
        let bytes = [&[4, 0xFF, 0, 0x10, 0, 0, 4], &value[..]].concat();
        recorded_wide(bar_write(wide, 0x1000, 4, 0), 4, &bytes);
    }
    for wide in [1 << 32, 0x1_0000_1000, u64::MAX] {
        let bytes = [&[4, 2, 0xFF, 0xFF, 0xFF, 0xFF, 8], &value[..]].concat();
        recorded_wide(bar_write(2, wide, 8, 0), 4, &bytes);
    }
}

/// Makes a call at the card itself.
fn apply(bench: &mut Bench, call: &Call) -> Outcome {
    match *call {
        Call::Event(number) => bench.event(number),
        Call::Line(level) => bench.line(level),
        Call::ConfigWrite {
            offset,
            width,
            value,
        } => bench.write(offset as usize, width, value),
        Call::BarWrite {
            bar,
            offset,
            width,
            value,
        } => bench.bar_write(bar, offset, width, value),
        Call::Reset => bench.reset(),
    }
}

fn random_call(random: &Random) -> Call {
    let wide = |number: u64, bits: u32| number | u64::from(random.once_in(30)) << bits;
    let value = random.number() & random.pick(&[0, 1, u64::MAX]);
    let (place, bits) = random.pick(&[
        (0x04, 6),
        (0x04, 0x406),
        (MSI as u64 + 2, random.below(0x80) as u32),
        (MSIX as u64 + 2, 0x8000),
        (MSIX as u64 + 2, 0xC000),
        (MSIX as u64 + 2, 0),
        (random.below(300), value as u32),
    ]);
    match random.below(20) {
        0..=7 => Call::Event(wide(random.below(7), 16)),
        8..=9 => Call::Line(random.once_in(2)),
        10..=13 => {
            let width = random.pick(&[2, 2, 2, 4, 1, 3]);
            write(wide(place, 16), wide(width, 8), bits)
        }
        14..=18 => {
            let bar = random.pick(&[2, 2, 2, 2, 2, 2, 6]);
            let offset = TABLE_OFFSET + 4 * random.below(26);
            let width = random.pick(&[4, 4, 8, 8, 2]);
            bar_write(wide(bar, 8), wide(offset, 32), wide(width, 8), value)
        }
        _ if random.once_in(3) => Call::Reset,
        _ => Call::Line(true),
    }
}

#[test]
fn recorded_calls_play_to_the_same_card() {
    let (random, mut refusals) = (Random::new(6), [0; 7]);
    for _ in 0..300 {
        let control = (random.below(6) << 1 | random.below(4) << 7) as u16;
        let fresh = Bench::started(&config_with(1, Some(control), Some(6)), 6);
        let (mut bench, mut log) = (fresh.clone(), begin());
        let mut records = Vec::new();
        for _ in 0..60 {
            let room = random.pick(&[0, 15, 19, ROOM, ROOM, ROOM]);
            with_room(&mut bench, room);
            let call = random_call(&random);
            let outcome = apply(&mut bench, &call);
            refusals[usize::from(outcome.refusal)] += 1;
            log.extend(record(&call, outcome.refusal));
            if outcome.refusal != 6 {
                records.push((outcome, bench.out[..outcome.count].to_vec()));
            }
        }
        let (again, _, run) = run_whole(fresh, &log);
        assert_eq!((run.refusal, run.taken), (0, log.len()));
        assert_eq!(run.records, records);
        assert_eq!((again.card, again.table), (bench.card, bench.table));
        assert_eq!(again.pending, bench.pending);
    }
    println!("refusals {refusals:?}");
    assert_eq!(refusals[1], 0);
    assert!([0, 2, 3, 4, 5, 6]
        .iter()
        .all(|&number| refusals[number] > 20));
}
