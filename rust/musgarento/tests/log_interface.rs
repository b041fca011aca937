//! What bytes, lengths and wide numbers do to a player and to the recorder,
//! through [`musgarento::raw`].

use musgarento::{raw, CARD_BYTES, LOG_HEADER_BYTES, PLAYER_BYTES, RECORD_BYTES};

const COMMAND: u64 = 0x04;
const CONTROL: u64 = 0x72;
const VECTORS: u16 = 4;

/// What a call's numbers hold before it, so that it shows if one is not set.
const UNSET: u8 = 0xB7;

/// What the output holds before a call.
const KEPT: u8 = 0xEE;

const HEADER: [u8; 5] = [0x43, 0x4C, 0x47, 1, 0];
const EVENT: [u8; 3] = [1, 2, 0];
const LINE: [u8; 2] = [2, 1];
const CONFIG_WRITE: [u8; 8] = [3, 0x3C, 0, 1, 7, 0, 0, 0];
const BAR_WRITE: [u8; 15] = [4, 2, 0, 0x10, 0, 0, 8, 0, 0x10, 0xE0, 0xFE, 1, 0, 0, 0];
const RESET: [u8; 1] = [5];
const RECORDS: [&[u8]; 5] = [&EVENT, &LINE, &CONFIG_WRITE, &BAR_WRITE, &RESET];

/// What a call of the player gave.
#[derive(Clone, Copy, Debug, Default, PartialEq, Eq)]
struct Outcome {
    stopped: u8,
    taken: usize,
    ended: u8,
    refusal: u8,
    answer: u8,
    count: usize,
}

/// The outcome of a call that a player refused, after it took some bytes.
fn stopped(stopped: u8, taken: usize) -> Outcome {
    Outcome {
        stopped,
        taken,
        ..Outcome::default()
    }
}

/// The outcome of a call that ended no record.
fn more(taken: usize) -> Outcome {
    stopped(0, taken)
}

/// The outcome of a call that made a record's call.
fn ended(taken: usize, refusal: u8) -> Outcome {
    Outcome {
        taken,
        ended: 1,
        refusal,
        ..Outcome::default()
    }
}

/// The bytes that calls of the player change.
#[derive(Clone, Debug, PartialEq, Eq)]
struct Host {
    card: Vec<u8>,
    table: Vec<u8>,
    pending: Vec<u8>,
    player: Vec<u8>,
    out: Vec<u8>,
}

impl Host {
    /// A card with pin 1, memory space on and MSI-X, and a fresh player.
    fn new() -> Host {
        let mut config = [0; 256];
        config[0x06] = 0x10;
        config[0x34] = 0x70;
        config[0x3D] = 1;
        config[0x70] = 0x11;
        config[0x72..0x74].copy_from_slice(&(VECTORS - 1).to_le_bytes());
        config[0x74..0x76].copy_from_slice(&0x1002_u16.to_le_bytes());
        config[0x78] = 2;
        let mut host = Host {
            card: vec![0; CARD_BYTES],
            table: vec![0; 16 * usize::from(VECTORS)],
            pending: vec![0; 8],
            player: vec![0; PLAYER_BYTES],
            out: vec![KEPT; 400],
        };
        let (card, table, pending) = (&mut host.card, &mut host.table, &mut host.pending);
        let events = VECTORS.into();
        let refusal = raw::start(card, &config, &[0x2000; 6], events, 0x0100, table, pending);
        assert_eq!(refusal, 0);
        host.config_write(COMMAND, 2, 6);
        host
    }

    /// The same, with mark and version played.
    fn begun() -> Host {
        let mut host = Host::new();
        assert_eq!(host.play(&HEADER), more(5));
        host
    }

    /// The same, with a player that met a wrong byte.
    fn broken() -> Host {
        let mut host = Host::begun();
        assert_eq!(host.play(&[0]), stopped(30, 0));
        host
    }

    fn play(&mut self, log: &[u8]) -> Outcome {
        let (mut taken, mut count) = (UNSET.into(), UNSET.into());
        let (mut ended, mut refusal, mut answer) = (UNSET, UNSET, UNSET);
        let stopped = raw::play(
            &mut self.card,
            &mut self.table,
            &mut self.pending,
            &mut self.player,
            log,
            &mut self.out,
            &mut taken,
            &mut ended,
            &mut refusal,
            &mut answer,
            &mut count,
        );
        Outcome {
            stopped,
            taken,
            ended,
            refusal,
            answer,
            count,
        }
    }

    /// The card's own call.
    fn config_write(&mut self, offset: u64, width: u64, value: u32) -> u8 {
        let mut count = 0;
        raw::config_write(
            &mut self.card,
            &self.table,
            &mut self.pending,
            offset,
            width,
            value,
            &mut self.out,
            &mut count,
        )
    }

    fn bar_write(&mut self, bar: u64, offset: u64, width: u64, value: u64) -> u8 {
        let mut count = 0;
        raw::bar_write(
            &mut self.card,
            &mut self.table,
            &mut self.pending,
            bar,
            offset,
            width,
            value,
            &mut self.out,
            &mut count,
        )
    }

    fn event(&mut self, number: u64) -> u8 {
        let (mut answer, mut count) = (0, 0);
        raw::event(
            &mut self.card,
            &self.table,
            &mut self.pending,
            number,
            &mut self.out,
            &mut answer,
            &mut count,
        )
    }

    /// Makes a call that is refused with 60 and changes nothing.
    fn refuses_60(&mut self, log: &[u8]) {
        let before = self.clone();
        assert_eq!(self.play(log), stopped(60, 0));
        assert_eq!(*self, before);
    }

    /// Plays bytes of which the one behind the first `taken` is wrong: all but
    /// the player stays as it was, and 30 is answered ever after.
    fn meets_wrong_byte(&mut self, log: &[u8], taken: usize) {
        let before = self.clone();
        assert_eq!(self.play(log), stopped(30, taken));
        assert_eq!(self.player[0], 3);
        assert_eq!(self.player[17..], before.player[17..]);
        let broken = self.clone();
        for later in [&log[taken..], &HEADER, &RESET, &[]] {
            assert_eq!(self.play(later), stopped(30, 0));
            assert_eq!(*self, broken);
        }
        self.player.clone_from(&before.player);
        assert_eq!(*self, before);
    }

    /// The first bytes of the player, and its number of records.
    fn requires_player(&self, stage: u8, part: &[u8], records: u64) {
        assert_eq!(self.player[..2], [stage, part.len() as u8]);
        assert_eq!(self.player[2..2 + part.len()], *part);
        self.requires_records(records);
    }

    fn requires_records(&self, records: u64) {
        assert_eq!(self.player[17..], records.to_le_bytes());
    }
}

#[test]
fn bytes_of_a_player() {
    let mut host = Host::new();
    for (taken, &byte) in HEADER.iter().enumerate() {
        assert_eq!(host.player[..2], [0, taken as u8]);
        host.requires_records(0);
        assert_eq!(host.play(&[byte]), more(1));
    }
    for (records, record) in RECORDS.into_iter().enumerate() {
        let records = records as u64;
        for length in 0..record.len() {
            host.requires_player(1, &record[..length], records);
            let outcome = host.play(&record[length..=length]);
            let is_last = length + 1 == record.len();
            assert_eq!((outcome.taken, outcome.ended), (1, is_last.into()));
        }
        host.requires_player(1, &[], records + 1);
    }
    assert_eq!(host.play(&[6]), stopped(30, 0));
    assert_eq!(host.player[0], 3);
    host.requires_records(5);
}

#[test]
fn one_record_at_each_call() {
    let mut host = Host::new();
    let log = [&HEADER[..], &RECORDS.concat()].concat();
    let mut place = 0;
    for (number, record) in RECORDS.iter().enumerate() {
        let header = if number == 0 { HEADER.len() } else { 0 };
        let outcome = host.play(&log[place..]);
        assert_eq!((outcome.stopped, outcome.ended, outcome.refusal), (0, 1, 0));
        assert_eq!(outcome.taken, header + record.len());
        place += outcome.taken;
    }
    assert_eq!(host.play(&log[place..]), more(0));
}

#[test]
fn the_most_records() {
    let mut host = Host::begun();
    host.player[17..].fill(0xFF);
    assert_eq!(host.play(&RESET), ended(1, 0));
    host.requires_player(1, &[], u64::MAX);
}

#[test]
fn outputs() {
    let mut host = Host::begun();
    let outcome = host.play(&LINE);
    let expected = Outcome {
        count: 16,
        ..ended(2, 0)
    };
    assert_eq!(outcome, expected);
    let assert_inta = [0x34, 0, 0, 0, 1, 0, 0, 0x20, 0, 0, 0, 0, 0, 0, 0, 0];
    assert_eq!(host.out[..16], assert_inta);
    assert!(host.out[16..].iter().all(|&byte| byte == KEPT));

    let before = host.out.clone();
    let lost = Outcome {
        answer: 4,
        ..ended(3, 0)
    };
    assert_eq!(host.play(&EVENT), lost);
    assert_eq!(host.play(&[1]), more(1));
    assert_eq!(host.play(&VECTORS.to_le_bytes()), ended(2, 2));
    assert_eq!(host.out, before);
}

#[test]
fn refused_records() {
    let records = [
        (2, vec![1, 4, 0]),
        (3, vec![3, 0x3C, 0, 3, 0, 0, 0, 0]),
        (3, vec![3, 0x3C, 1, 1, 0, 0, 0, 0]),
        (4, vec![4, 6, 0, 0, 0, 0, 8, 0, 0, 0, 0, 0, 0, 0, 0]),
        (4, vec![4, 2, 0, 0x10, 0, 0, 2, 0, 0, 0, 0, 0, 0, 0, 0]),
    ];
    let mut host = Host::begun();
    for (number, (refusal, record)) in (1..).zip(records) {
        let before = host.clone();
        assert_eq!(host.play(&record), ended(record.len(), refusal));
        host.requires_player(1, &[], number);
        let player = host.player.clone();
        assert_eq!(host, Host { player, ..before });
    }
    let off = [3, COMMAND as u8, 0, 2, 0, 0, 0, 0];
    assert_eq!(host.play(&off), ended(8, 0));
    assert_eq!(host.play(&BAR_WRITE), ended(15, 5));
}

#[test]
fn cards_that_are_not_sound() {
    for record in RECORDS {
        let mut host = Host::begun();
        host.table.pop();
        assert_eq!(host.play(record), ended(record.len(), 1));
        let mut host = Host::begun();
        host.pending[0] = 0x10;
        assert_eq!(host.play(record), ended(record.len(), 1));
        host.pending[0] = 0;
        let outcome = host.play(record);
        assert_eq!((outcome.ended, outcome.refusal), (1, 0));
        host.requires_records(2);
    }
}

#[test]
fn lengths() {
    for log in [&HEADER[..], &[0], &[]] {
        for length in [0, 288, 290] {
            for mut host in [Host::new(), Host::broken()] {
                host.card.resize(length, 0);
                host.refuses_60(log);
            }
        }
        for length in [0, 24, 26] {
            for mut host in [Host::new(), Host::broken()] {
                host.player.resize(length, 0);
                host.refuses_60(log);
            }
        }
    }
}

#[test]
fn first_bytes_of_a_player() {
    for stage in 4..=255 {
        let mut host = Host::begun();
        host.player[0] = stage;
        host.refuses_60(&RESET);
        host.refuses_60(&[0]);
        host.refuses_60(&[]);
    }
}

#[test]
fn flags_of_a_card() {
    for flags in 4..=255 {
        for log in [&RESET[..], &[0], &[]] {
            for mut host in [Host::begun(), Host::broken()] {
                host.card[0] = flags;
                host.refuses_60(log);
            }
        }
    }
}

#[test]
fn wrong_bytes_of_mark_and_version() {
    for (at, &right) in HEADER.iter().enumerate() {
        for byte in (0..=255).filter(|&byte| byte != right) {
            let mut log = [&HEADER[..], &LINE].concat();
            log[at] = byte;
            Host::new().meets_wrong_byte(&log, at);
            Host::new().meets_wrong_byte(&log[..=at], at);
            let mut host = Host::new();
            assert_eq!(host.play(&log[..at]), more(at));
            host.meets_wrong_byte(&log[at..], 0);
        }
    }
}

#[test]
fn wrong_kinds() {
    for kind in [0].into_iter().chain(6..=255) {
        Host::begun().meets_wrong_byte(&[kind, 1, 0], 0);
        let log = [&HEADER[..], &[kind]].concat();
        Host::new().meets_wrong_byte(&log, 5);
        let mut host = Host::begun();
        assert_eq!(host.play(&[5, kind]), ended(1, 0));
        host.meets_wrong_byte(&[kind], 0);
    }
}

#[test]
fn wrong_levels_of_a_line() {
    for level in 2..=255 {
        Host::begun().meets_wrong_byte(&[2, level, 5], 1);
        let mut host = Host::begun();
        assert_eq!(host.play(&[2]), more(1));
        host.meets_wrong_byte(&[level], 0);
    }
    assert_eq!(Host::begun().play(&[2, 0]), ended(2, 0));
}

#[test]
fn no_other_byte_is_wrong() {
    for record in RECORDS {
        for at in 1..record.len() {
            for byte in [0, 1, 2, 0x7F, 0x80, 0xFF] {
                let mut log = record.to_vec();
                log[at] = byte;
                let expected = if record[0] == 2 && byte > 1 { 30 } else { 0 };
                assert_eq!(Host::begun().play(&log).stopped, expected);
            }
        }
    }
}

#[test]
fn players_that_no_log_leaves_behind() {
    let players = [
        [0, 5, 0],
        [0, 255, 0],
        [1, 1, 0],
        [1, 1, 6],
        [1, 3, 1],
        [1, 2, 2],
        [1, 8, 3],
        [1, 15, 4],
        [1, 255, 4],
        [1, 1, 5],
        [2, 0, 5],
        [2, 0, 0],
        [2, 2, 1],
        [2, 4, 1],
        [2, 1, 2],
        [2, 7, 3],
        [2, 14, 4],
        [2, 16, 4],
        [2, 2, 5],
        [2, 255, 4],
    ];
    for player in players {
        for log in [&[1][..], &HEADER, &RESET, &[]] {
            let mut host = Host::begun();
            host.player[..3].copy_from_slice(&player);
            let before = host.clone();
            assert_eq!(host.play(log), stopped(30, 0));
            assert_eq!(host, before);
        }
    }
}

#[test]
fn players_that_hold_a_line_with_another_level() {
    for level in 0..=255 {
        let mut host = Host::begun();
        host.player[..4].copy_from_slice(&[2, 2, 2, level]);
        let before = host.clone();
        let played = host.play(&RESET);
        if level < 2 {
            assert_eq!((played.stopped, played.taken, played.ended), (0, 0, 1));
        } else {
            assert_eq!(played, stopped(30, 0));
            assert_eq!(host, before);
        }
    }
}

/// A host whose MSI-X vectors 0 and 2 wait behind Function Mask.
fn waiting() -> Host {
    let mut host = Host::begun();
    host.config_write(CONTROL, 2, 0xC000);
    for vector in [0, 2] {
        host.bar_write(2, 0x1000 + 16 * vector + 12, 4, 0);
        host.event(vector);
    }
    host.out.clear();
    host
}

/// A record that opens them, which sends two packets of 16 bytes.
const OPEN: [u8; 8] = [3, CONTROL as u8, 0, 2, 0, 0x80, 0, 0];

#[test]
fn outputs_without_room() {
    for length in [0, 15, 16, 31] {
        let mut host = waiting();
        host.out = vec![KEPT; length];
        let before = host.clone();
        assert_eq!(host.play(&OPEN[..3]), more(3));
        let rest = [&OPEN[3..], &RESET].concat();
        assert_eq!(host.play(&rest), ended(5, 6));
        assert_eq!(host.player[..2], [2, 8]);
        assert_eq!(host.player[2..10], OPEN);
        for log in [&RESET[..], &[0], &[]] {
            assert_eq!(host.play(log), ended(0, 6));
        }
        host.requires_player(2, &OPEN, 1);
        host.player = before.player.clone();
        assert_eq!(host, before);
    }
}

#[test]
fn tried_again_with_room() {
    for (length, log) in [(32, &RESET[..]), (33, &[0]), (400, &[])] {
        let mut host = waiting();
        assert_eq!(host.play(&OPEN), ended(8, 6));
        host.out = vec![KEPT; length];
        let sent = Outcome {
            count: 32,
            ..ended(0, 0)
        };
        assert_eq!(host.play(log), sent);
        assert_eq!(host.out[..4], [0x40, 0, 0, 1]);
        assert!(host.out[32..].iter().all(|&byte| byte == KEPT));
        host.requires_player(1, &[], 1);
        assert_eq!(host.play(&RESET), ended(1, 0));
        host.requires_records(2);
    }
}

/// Requires that the recorder refuses a call, and writes nothing.
fn recorder_refuses(refusal: u8, length: usize, call: impl FnOnce(&mut [u8], &mut usize) -> u8) {
    let (mut out, mut count) = (vec![KEPT; length], UNSET.into());
    assert_eq!(call(&mut out, &mut count), refusal);
    assert_eq!(count, 0);
    assert!(out.iter().all(|&byte| byte == KEPT));
}

/// Requires that the recorder writes these bytes and keeps the output behind
/// them, and refuses each output without room for them.
fn recorder_writes(bytes: &[u8], call: impl Fn(&mut [u8], &mut usize) -> u8) {
    for length in 0..bytes.len() {
        recorder_refuses(6, length, &call);
    }
    for length in [bytes.len(), bytes.len() + 1, 100] {
        let (mut out, mut count) = (vec![KEPT; length], UNSET.into());
        assert_eq!(call(&mut out, &mut count), 0);
        assert_eq!(count, bytes.len());
        assert_eq!(out[..count], *bytes);
        assert!(out[count..].iter().all(|&byte| byte == KEPT));
    }
}

/// A call's kind, BAR, offset, width and value.
type Numbers = [u64; 5];

/// A call of the recorder.
fn record(numbers: Numbers, refusal: u8) -> impl Fn(&mut [u8], &mut usize) -> u8 {
    let [kind, bar, offset, width, value] = numbers;
    move |out, count| raw::log_record(kind, bar, offset, width, value, refusal, out, count)
}

#[test]
fn beginning_of_a_log() {
    assert_eq!(HEADER.len(), LOG_HEADER_BYTES);
    recorder_writes(&HEADER, raw::log_begin);
}

const WIDE: u64 = u64::MAX;

/// Calls and their records; numbers that a kind has no use for are wide.
const CALLS: [(Numbers, &[u8]); 6] = [
    ([1, WIDE, WIDE, WIDE, 0x0102], &[1, 2, 1]),
    ([2, WIDE, WIDE, WIDE, 0], &[2, 0]),
    ([2, WIDE, WIDE, WIDE, 1], &[2, 1]),
    (
        [3, WIDE, 0x0102, 4, 0xFFEE_DDCC],
        &[3, 2, 1, 4, 0xCC, 0xDD, 0xEE, 0xFF],
    ),
    (
        [4, 5, 0x0102_0304, 8, 0x1122_3344_5566_7788],
        &[
            4, 5, 4, 3, 2, 1, 8, 0x88, 0x77, 0x66, 0x55, 0x44, 0x33, 0x22, 0x11,
        ],
    ),
    ([5, WIDE, WIDE, WIDE, WIDE], &[5]),
];

#[test]
fn records_of_calls() {
    for (numbers, bytes) in CALLS {
        assert!(bytes.len() <= RECORD_BYTES);
        for refusal in (0..=255).filter(|&refusal| refusal != 6) {
            recorder_writes(bytes, record(numbers, refusal));
        }
    }
}

#[test]
fn calls_without_room_have_no_record() {
    for (numbers, _) in CALLS {
        for length in [0, 1, 100] {
            recorder_refuses(0, length, record(numbers, 6));
        }
    }
}

#[test]
fn kinds_that_no_record_has() {
    for kind in [0, 6, 7, 255, 256, 257, 1 << 32, (1 << 32) + 1, WIDE] {
        for length in [0, 100] {
            for refusal in [0, 2] {
                recorder_refuses(60, length, record([kind, 0, 0, 1, 0], refusal));
            }
        }
    }
}

#[test]
fn values_that_no_configuration_write_has() {
    for value in [1 << 32, (1 << 32) + 6, WIDE] {
        for length in [0, 100] {
            recorder_refuses(60, length, record([3, 0, COMMAND, 2, value], 0));
        }
    }
    let largest = [3, 4, 0, 2, 0xFF, 0xFF, 0xFF, 0xFF];
    recorder_writes(&largest, record([3, 0, COMMAND, 2, 0xFFFF_FFFF], 0));
}

#[test]
fn levels_of_a_line() {
    for value in [1, 2, 255, 256, 1 << 32, WIDE] {
        recorder_writes(&[2, 1], record([2, 0, 0, 0, value], 0));
    }
}

/// The largest number of so many bits, and wider ones.
fn wide(bits: u32) -> [u64; 5] {
    let largest = (1 << bits) - 1;
    [largest, largest + 1, largest + 5, 1 << 63, WIDE]
}

#[test]
fn wide_numbers_are_recorded_as_the_largest() {
    for number in wide(16) {
        recorder_writes(&[1, 0xFF, 0xFF], record([1, 0, 0, 0, number], 2));
    }
    for offset in wide(16) {
        let bytes = [3, 0xFF, 0xFF, 1, 7, 0, 0, 0];
        recorder_writes(&bytes, record([3, 0, offset, 1, 7], 3));
    }
    for width in wide(8) {
        let bytes = [3, 0x3C, 0, 0xFF, 7, 0, 0, 0];
        recorder_writes(&bytes, record([3, 0, 0x3C, width, 7], 3));
        let bytes = [4, 2, 0, 0x10, 0, 0, 0xFF, 7, 0, 0, 0, 0, 0, 0, 0];
        recorder_writes(&bytes, record([4, 2, 0x1000, width, 7], 4));
    }
    for bar in wide(8) {
        let bytes = [4, 0xFF, 0, 0x10, 0, 0, 8, 7, 0, 0, 0, 0, 0, 0, 0];
        recorder_writes(&bytes, record([4, bar, 0x1000, 8, 7], 4));
    }
    for offset in wide(32) {
        let bytes = [4, 2, 0xFF, 0xFF, 0xFF, 0xFF, 8, 7, 0, 0, 0, 0, 0, 0, 0];
        recorder_writes(&bytes, record([4, 2, offset, 8, 7], 4));
    }
}

/// Makes a card's call of these numbers.
fn call(host: &mut Host, [kind, bar, offset, width, value]: Numbers) -> u8 {
    match kind {
        1 => host.event(value),
        3 => host.config_write(offset, width, value as u32),
        _ => host.bar_write(bar, offset, width, value),
    }
}

#[test]
fn wide_calls_play_as_they_were_made() {
    let mut calls = Vec::new();
    for number in wide(16).into_iter().chain([(1 << 16) + 2]) {
        calls.push([1, 0, 0, 0, number]);
    }
    for wide in wide(32).into_iter().chain([256, 260, 1 << 16, 1 << 32]) {
        calls.push([3, 0, wide, 4, 6]);
        calls.push([3, 0, COMMAND, wide, 6]);
        calls.push([4, wide, 0x1000, 8, 7]);
        calls.push([4, 2, wide, 8, 7]);
        calls.push([4, 2, 0x1000, wide, 7]);
    }
    for numbers in calls {
        let mut host = Host::begun();
        let refusal = call(&mut host, numbers);
        assert_ne!(refusal, 0);
        let (mut out, mut count) = ([0; RECORD_BYTES], 0);
        assert_eq!(record(numbers, refusal)(&mut out, &mut count), 0);
        assert_eq!(host.play(&out[..count]), ended(count, refusal));
    }
}
