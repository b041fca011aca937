//! Logs through [`Recorded`] and [`Player`]: what is recorded, and that it
//! plays in the same way however the log is cut.

use musgarento::{
    raw, Answer, BeginError, Card, Packet, Packets, Played, Player, Record, RecordError, Recorded,
    Records, Refusal, RestoreError, Start, StartError, CARD_BYTES, PACKET_BYTES, PLAYER_BYTES,
};
use std::io::{self, Write};

const COMMAND: u16 = 0x04;
const MSI: u16 = 0x50;
const MSIX: u16 = 0x70;
const BAR: u8 = 2;
const TABLE: u32 = 0x1000;
const VECTORS: u16 = 4;

const HEADER: [u8; 5] = [0x43, 0x4C, 0x47, 1, 0];

/// A card with pin 1, MSI of 64 bits with masks, and MSI-X.
fn start() -> Start {
    let mut config = [0; 256];
    let (msi, msix) = (usize::from(MSI), usize::from(MSIX));
    config[0x06] = 0x10;
    config[0x34] = MSI as u8;
    config[0x3D] = 1;
    config[msi..msi + 4].copy_from_slice(&[0x05, MSIX as u8, 0x84, 0x01]);
    config[msix] = 0x11;
    config[msix + 2] = VECTORS as u8 - 1;
    config[msix + 4..msix + 8].copy_from_slice(&(TABLE | u32::from(BAR)).to_le_bytes());
    Start {
        config,
        sizes: [0x2000; 6],
        events: VECTORS,
        requester: 0x0100,
    }
}

const fn config(offset: u16, width: u8, value: u32) -> Record {
    Record::ConfigWrite {
        offset,
        width,
        value,
    }
}

/// A write to a table entry.
const fn entry(vector: u32, at: u32, width: u8, value: u64) -> Record {
    Record::BarWrite {
        bar: BAR,
        offset: TABLE + 16 * vector + at,
        width,
        value,
    }
}

/// A trial with pin, MSI, MSI-X and reset, refused calls among them. At its end
/// the line is high and a vector waits.
const TRIAL: [Record; 59] = [
    Record::Line(true),
    Record::Event(0),
    config(COMMAND, 2, 4),
    entry(0, 0, 8, 1),
    config(MSI + 0x04, 4, 0xFEE0_0000),
    config(MSI + 0x0C, 2, 0x49A0),
    config(MSI + 0x10, 4, 4),
    config(MSI + 0x02, 2, 0x0021),
    Record::Event(1),
    Record::Event(2),
    config(MSI + 0x10, 4, 2),
    Record::Event(1),
    Record::Event(3),
    Record::Event(VECTORS),
    config(COMMAND, 3, 0),
    config(0x100, 4, 0),
    config(MSI + 0x10, 4, 0),
    config(MSI + 0x10, 4, 3),
    Record::Event(0),
    config(MSI + 0x02, 2, 0),
    config(COMMAND, 2, 6),
    entry(0, 0, 8, 0x1_FEE0_1000),
    entry(0, 8, 8, 0x30),
    entry(1, 0, 8, 0xFEE0_2000),
    entry(1, 8, 8, 0x31),
    entry(2, 0, 8, 0x2_FEE0_3000),
    entry(2, 8, 8, 0x32),
    entry(3, 0, 8, 0x3_FEE0_4000),
    entry(3, 8, 8, 0x1_0000_0033),
    config(MSIX + 2, 2, 0xC000),
    Record::Event(3),
    Record::Event(1),
    Record::Event(0),
    Record::Event(1),
    entry(0, 0, 2, 0),
    entry(4, 0, 4, 0),
    config(MSIX + 2, 2, 0x8000),
    entry(3, 12, 4, 0),
    Record::Event(2),
    config(COMMAND, 2, 2),
    Record::Event(2),
    Record::Event(3),
    config(MSIX + 2, 2, 0),
    Record::Line(false),
    Record::Line(false),
    Record::Line(true),
    config(COMMAND, 2, 6),
    config(MSIX + 2, 2, 0x8000),
    config(MSIX + 2, 2, 0),
    Record::Reset,
    Record::Event(1),
    Record::Line(false),
    Record::Event(u16::MAX),
    config(u16::MAX, u8::MAX, u32::MAX),
    Record::BarWrite {
        bar: u8::MAX,
        offset: u32::MAX,
        width: u8::MAX,
        value: u64::MAX,
    },
    config(MSIX + 2, 2, 0x8000),
    Record::Event(2),
    Record::Line(true),
    config(MSI + 0x02, 2, 0x0001),
];

/// What a record's call gave.
#[derive(Clone, Debug, PartialEq, Eq)]
struct Outcome {
    record: Record,
    answer: Result<Option<Answer>, RecordError>,
    packets: Vec<u8>,
}

/// The outcome of a call that gives packets.
fn outcome<E>(record: Record, result: Result<(Option<Answer>, Packets<'_>), E>) -> Outcome
where
    Refusal: From<E>,
{
    let (answer, packets) = match result {
        Ok((answer, packets)) => (Ok(answer), packets.bytes().to_vec()),
        Err(error) => (Err(Refusal::from(error).try_into().unwrap()), Vec::new()),
    };
    Outcome {
        record,
        answer,
        packets,
    }
}

/// A function that makes a record's call of a card.
macro_rules! calls {
    ($($(#[$doc:meta])* $name:ident: $card:ty;)*) => {$(
        $(#[$doc])*
        fn $name(card: &mut $card, record: Record) -> Outcome {
            let packets = |packets| (None, packets);
            match record {
                Record::Event(number) => {
                    let event = card.event(number);
                    outcome(record, event.map(|event| (Some(event.answer), event.packets)))
                }
                Record::Line(high) => outcome(record, Ok::<_, Refusal>((None, card.line(high)))),
                Record::ConfigWrite { offset, width, value } => {
                    outcome(record, card.config_write(offset, width, value).map(packets))
                }
                Record::BarWrite { bar, offset, width, value } => {
                    outcome(record, card.bar_write(bar, offset, width, value).map(packets))
                }
                Record::Reset => outcome(record, Ok::<_, Refusal>((None, card.reset()))),
            }
        }
    )*};
}

calls! {
    /// Makes the call on a card.
    call: Card;
    /// Makes the call on a card that is recorded into memory.
    recorded_call: Recorded<Vec<u8>>;
    /// Makes the call on a card that is recorded into a writer that fails.
    failing_call: Recorded<Failing>;
}

/// What calls gave, and the card after them.
#[derive(Clone, Debug, PartialEq, Eq)]
struct End {
    outcomes: Vec<Outcome>,
    card: Card,
}

/// Makes the calls on a card.
fn made(mut card: Card, calls: &[Record]) -> End {
    let outcomes = calls.iter().map(|&record| call(&mut card, record));
    let outcomes = outcomes.collect();
    End { outcomes, card }
}

/// Makes the calls on a card that is recorded, and gives its log too.
fn recorded(card: Card, calls: &[Record]) -> (End, Vec<u8>) {
    let mut card = Recorded::new(card, Vec::new()).unwrap();
    let outcomes = calls.iter().map(|&call| recorded_call(&mut card, call));
    let outcomes = outcomes.collect();
    assert!(card.is_recording() && card.error().is_none());
    let (card, log) = card.finish().unwrap();
    (End { outcomes, card }, log)
}

/// The card of the trial at its start.
fn fresh() -> Card {
    Card::start(&start()).unwrap()
}

/// A player and its card, with what the log's records gave.
struct Playing {
    player: Player,
    end: End,
}

impl Playing {
    fn new(card: Card) -> Playing {
        let outcomes = Vec::new();
        Playing {
            player: Player::new(),
            end: End { outcomes, card },
        }
    }

    /// Makes one call of the player, and gives how many bytes it took.
    fn call(&mut self, bytes: &[u8]) -> usize {
        let Played { taken, call } = self.player.play(&mut self.end.card, bytes);
        if let Some(call) = call.unwrap() {
            self.end.outcomes.push(Outcome {
                record: call.record,
                answer: call.answer,
                packets: call.packets.bytes().to_vec(),
            });
        }
        taken
    }

    /// Plays all of a piece of the log.
    fn piece(&mut self, mut piece: &[u8]) {
        while !piece.is_empty() {
            piece = &piece[self.call(piece)..];
        }
    }
}

/// Plays a log in pieces that end at these places.
fn cut(card: Card, log: &[u8], places: &[usize]) -> Playing {
    let mut playing = Playing::new(card);
    let mut from = 0;
    for &place in places.iter().chain([&log.len()]) {
        playing.piece(&log[from..place]);
        from = place;
    }
    playing
}

/// Plays a log with at most `size` bytes at each call, the untaken ones handed
/// in again with those that follow.
fn handed_again(card: Card, mut log: &[u8], size: usize) -> Playing {
    let mut playing = Playing::new(card);
    while !log.is_empty() {
        log = &log[playing.call(&log[..size.min(log.len())])..];
    }
    playing
}

/// Requires that playing gave what recording did.
fn same(playing: &Playing, expected: &End) {
    assert_eq!(playing.end, *expected);
    assert_eq!(playing.end.card.save(), expected.card.save());
    assert_eq!(playing.player.records(), expected.outcomes.len() as u64);
    assert!(playing.player.is_complete() && !playing.player.is_broken());
}

#[test]
fn the_trial_is_lively() {
    let end = made(fresh(), &TRIAL);
    let outcomes = || end.outcomes.iter();
    for answer in [Answer::Sent, Answer::Held, Answer::Merged, Answer::Lost] {
        assert!(outcomes().any(|outcome| outcome.answer == Ok(Some(answer))));
    }
    for number in [2, 3, 4, 5] {
        let refused =
            |outcome: &Outcome| outcome.answer.is_err_and(|error| error.number() == number);
        assert!(outcomes().any(refused));
    }
    let packets: Vec<Packet> = outcomes()
        .flat_map(|outcome| Packets::new(&outcome.packets))
        .collect();
    let (requester, pin) = (0x0100, 1);
    assert!(packets.contains(&Packet::Assert { requester, pin }));
    assert!(packets.contains(&Packet::Deassert { requester, pin }));
    assert!(outcomes().any(|outcome| Packets::new(&outcome.packets).count() == 3));
    assert!(end.card.is_line_high());
    assert!(format!("{:?}", end.card).contains("msix_waiting: 1"));
}

#[test]
fn what_is_recorded() {
    let (end, log) = recorded(fresh(), &TRIAL);
    assert_eq!(end, made(fresh(), &TRIAL));
    assert_eq!(log[..5], HEADER);
    let mut records = Records::new(&log).unwrap();
    assert_eq!(records.by_ref().collect::<Vec<_>>(), TRIAL);
    assert!(records.bytes().is_empty());
    let bytes: Vec<u8> = TRIAL.iter().flat_map(Record::bytes).collect();
    assert_eq!(log[5..], bytes);
}

#[test]
fn cut_at_every_byte() {
    let (end, log) = recorded(fresh(), &TRIAL);
    for place in 0..=log.len() {
        same(&cut(fresh(), &log, &[place]), &end);
    }
}

#[test]
fn byte_by_byte() {
    let (end, log) = recorded(fresh(), &TRIAL);
    let every: Vec<usize> = (0..log.len()).collect();
    same(&cut(fresh(), &log, &every), &end);
}

#[test]
fn untaken_bytes_handed_in_again() {
    let (end, log) = recorded(fresh(), &TRIAL);
    for size in 1..=log.len() {
        same(&handed_again(fresh(), &log, size), &end);
    }
}

#[test]
fn calls_without_bytes() {
    let (end, log) = recorded(fresh(), &TRIAL);
    let mut playing = Playing::new(fresh());
    for &byte in &log {
        assert_eq!(playing.call(&[]), 0);
        assert_eq!(playing.call(&[byte]), 1);
    }
    same(&playing, &end);
}

#[test]
fn from_an_image_in_the_middle() {
    for place in 0..=TRIAL.len() {
        let (first, second) = TRIAL.split_at(place);
        let card = made(fresh(), first).card;
        let image = card.save();
        let (end, log) = recorded(card, second);
        same(&cut(Card::from_image(&image).unwrap(), &log, &[]), &end);
    }
}

/// Numbers that look random.
struct Random(u64);

impl Random {
    /// A number below `bound`.
    fn below(&mut self, bound: u32) -> u32 {
        self.0 = self.0.wrapping_mul(6364136223846793005).wrapping_add(1);
        (self.0 >> 33) as u32 % bound
    }

    /// A call of the trial, or another one.
    fn record(&mut self) -> Record {
        match self.below(8) {
            0 => Record::Event(self.below(5) as u16),
            1 => Record::Line(self.below(2) != 0),
            2 => config(COMMAND, 2, self.below(8)),
            3 => config(MSI + 2, 2, self.below(64)),
            4 => config(MSIX + 2, 2, self.below(4) << 14),
            5 => entry(self.below(4), 12, 4, self.below(2).into()),
            _ => TRIAL[self.below(TRIAL.len() as u32) as usize],
        }
    }
}

#[test]
fn random_trials_with_random_cuts() {
    for seed in 0..100 {
        let mut random = Random(seed);
        let calls: Vec<Record> = (0..200).map(|_| random.record()).collect();
        let (end, log) = recorded(fresh(), &calls);
        let mut places: Vec<usize> = (0..random.below(200))
            .map(|_| random.below(log.len() as u32) as usize)
            .collect();
        places.sort();
        same(&cut(fresh(), &log, &places), &end);
    }
}

/// A card with 2,048 MSI-X vectors, and MSI-X at 40h.
fn large() -> Card {
    let mut config = [0; 256];
    config[0x06] = 0x10;
    config[0x34] = 0x40;
    config[0x3D] = 1;
    config[0x40..0x44].copy_from_slice(&[0x11, 0, 0xFF, 0x07]);
    config[0x48..0x4C].copy_from_slice(&0x8000_u32.to_le_bytes());
    let start = Start {
        config,
        sizes: [0x1_0000; 6],
        events: 2048,
        requester: 0x0100,
    };
    Card::start(&start).unwrap()
}

#[test]
fn the_most_packets_of_a_record() {
    let mut calls = vec![
        Record::Line(true),
        config(COMMAND, 2, 6),
        config(0x42, 2, 0xC000),
    ];
    for vector in 0..2048_u32 {
        let half = |at: u32, value| Record::BarWrite {
            bar: 0,
            offset: 16 * vector + at,
            width: 8,
            value,
        };
        let event = Record::Event(vector as u16);
        calls.extend([half(0, 0x1_FEE0_0000), half(8, 0), event]);
    }
    calls.extend([config(0x42, 2, 0), config(0x42, 2, 0x8000)]);
    let (end, log) = recorded(large(), &calls);
    let last = end.outcomes.last().unwrap();
    assert_eq!(last.packets.len(), PACKET_BYTES);
    same(&cut(large(), &log, &[1000, 20_001]), &end);
}

#[test]
fn wrong_bytes() {
    let (end, log) = recorded(fresh(), &TRIAL);
    for (at, records) in [(0, 0), (3, 0), (4, 0), (5, 0), (6, 0), (7, 1)] {
        let mut wrong = log.clone();
        wrong[at] = 0x77;
        for piece in 1..=wrong.len() {
            let (mut card, mut player) = (fresh(), Player::new());
            let mut place = 0;
            let error = loop {
                let bytes = &wrong[place..wrong.len().min(place + piece)];
                let played = player.play(&mut card, bytes);
                place += played.taken;
                if let Err(error) = played.call {
                    break error;
                }
            };
            assert_eq!((place, error.number()), (at, 30));
            assert!(player.is_broken() && !player.is_complete());
            assert_eq!(player.records(), records);
            assert_eq!(card, made(fresh(), &TRIAL[..records as usize]).card);
            let later = player.play(&mut card, &log[at..]);
            assert_eq!((later.taken, later.call.err()), (0, Some(error)));
        }
    }
    same(&cut(fresh(), &log, &[]), &end);
}

#[test]
fn complete_logs() {
    let (_, log) = recorded(fresh(), &TRIAL);
    let mut ends = vec![5];
    for record in TRIAL {
        ends.push(ends[ends.len() - 1] + record.bytes().len());
    }
    for length in 0..=log.len() {
        let playing = cut(fresh(), &log[..length], &[]);
        assert_eq!(playing.player.is_complete(), ends.contains(&length));
    }
}

/// A card as bytes that a host holds, with a player.
struct Host {
    card: [u8; CARD_BYTES],
    table: Vec<u8>,
    pending: Vec<u8>,
    player: [u8; PLAYER_BYTES],
}

/// What a call of the player gave a host.
#[derive(Clone, Debug, Default, PartialEq, Eq)]
struct Numbers {
    stopped: u8,
    taken: usize,
    ended: u8,
    refusal: u8,
    answer: u8,
    count: usize,
}

impl Host {
    fn new(image: &[u8]) -> Host {
        let mut host = Host {
            card: [0; CARD_BYTES],
            table: vec![0; 16 * usize::from(VECTORS)],
            pending: vec![0; 8],
            player: [0; PLAYER_BYTES],
        };
        let refusal = raw::restore(&mut host.card, &mut host.table, &mut host.pending, image);
        assert_eq!(refusal, 0);
        host
    }

    fn play(&mut self, log: &[u8], out: &mut [u8]) -> Numbers {
        let mut numbers = Numbers::default();
        numbers.stopped = raw::play(
            &mut self.card,
            &mut self.table,
            &mut self.pending,
            &mut self.player,
            log,
            out,
            &mut numbers.taken,
            &mut numbers.ended,
            &mut numbers.refusal,
            &mut numbers.answer,
            &mut numbers.count,
        );
        numbers
    }

    fn image(&self) -> Vec<u8> {
        let (mut image, mut count) = (vec![0; 1000], 0);
        let refusal = raw::save(
            &self.card,
            &self.table,
            &self.pending,
            &mut image,
            &mut count,
        );
        assert_eq!(refusal, 0);
        image.truncate(count);
        image
    }

    /// Tries the record again, with a longer output each time, until it is
    /// done; gives the last numbers and the output.
    fn again(&mut self, log: &[u8]) -> (Numbers, Vec<u8>) {
        for length in 1..=PACKET_BYTES {
            let mut out = vec![0xEE; length];
            let numbers = self.play(log, &mut out);
            assert_eq!((numbers.stopped, numbers.taken, numbers.ended), (0, 0, 1));
            if numbers.refusal != 6 {
                return (numbers, out);
            }
            assert_eq!((numbers.answer, numbers.count), (0, 0));
            assert!(out.iter().all(|&byte| byte == 0xEE));
        }
        panic!("no room in {PACKET_BYTES} bytes");
    }
}

#[test]
fn short_outputs() {
    let (end, log) = recorded(fresh(), &TRIAL);
    let mut host = Host::new(&fresh().save());
    let mut outcomes = end.outcomes.iter();
    let (mut rest, mut tried_again) = (&log[..], 0);
    while !rest.is_empty() {
        let mut out = Vec::new();
        let mut numbers = host.play(rest, &mut out);
        assert_eq!((numbers.stopped, numbers.ended), (0, 1));
        rest = &rest[numbers.taken..];
        if numbers.refusal == 6 {
            (numbers, out) = host.again(rest);
            tried_again += 1;
            assert_eq!(numbers.count, out.len());
        }
        let expected = outcomes.next().unwrap();
        assert_eq!(out, expected.packets);
        let answer = match numbers.refusal {
            0 => Ok(Answer::from_number(numbers.answer)),
            number => Err(number),
        };
        assert_eq!(answer, expected.answer.map_err(RecordError::number));
    }
    assert!(tried_again > 5 && outcomes.next().is_none());
    assert_eq!(host.image(), end.card.save());
    assert_eq!(host.player[17..], (TRIAL.len() as u64).to_le_bytes());
}

#[test]
fn reads_and_saves_have_no_record() {
    let mut card = Recorded::start(&start(), Vec::new()).unwrap();
    card.config_write(COMMAND, 2, 6).unwrap();
    assert_eq!(card.config_read(COMMAND, 2), Ok(6));
    assert!(card.config_read(COMMAND, 3).is_err());
    assert_eq!(card.bar_read(BAR, TABLE, 8), Ok(0));
    assert!(card.bar_read(BAR, TABLE, 2).is_err());
    assert_eq!(card.save(), card.card().save());
    assert_eq!(card.vectors(), usize::from(VECTORS));
    card.line(true);
    assert!(card.is_line_high() && card.is_wire_active());
    let (card, log) = card.finish().unwrap();
    let records: Vec<Record> = Records::new(&log).unwrap().collect();
    assert_eq!(records, [config(COMMAND, 2, 6), Record::Line(true)]);
    assert!(card.is_line_high());
}

#[test]
fn a_restore_ends_the_log() {
    let mut card = Recorded::start(&start(), Vec::new()).unwrap();
    let image = card.save();
    card.line(true);
    let refused = card.restore(&image[1..]);
    assert_eq!(refused, Err(RestoreError::Mark));
    assert!(card.is_recording());
    card.reset();
    let before = card.card().clone();
    card.restore(&image).unwrap();
    assert!(!card.is_recording() && card.error().is_none());
    assert_eq!(card.save(), image);
    card.event(0).unwrap();
    let (card, log) = card.finish().unwrap();
    assert_eq!(log, [&HEADER[..], &[2, 1, 5]].concat());
    assert_eq!(cut(fresh(), &log, &[]).end.card, before);

    let mut card = Recorded::new(card, Vec::new()).unwrap();
    card.line(true);
    assert!(card.is_recording());
    assert_eq!(card.into_parts().1, [&HEADER[..], &[2, 1]].concat());
}

#[test]
fn a_refused_start_writes_nothing() {
    let mut log = Vec::new();
    let wrong = Start {
        requester: 1,
        ..start()
    };
    let error = Recorded::start(&wrong, &mut log).unwrap_err();
    assert!(matches!(error, BeginError::Start(StartError::Requester)));
    assert!(error.to_string().starts_with("refused with 16"));
    assert!(log.is_empty());
}

/// Takes some bytes, at most two at a time, and then fails.
#[derive(Debug)]
struct Failing {
    taken: Vec<u8>,
    most: usize,
}

impl Failing {
    fn after(most: usize) -> Failing {
        let taken = Vec::new();
        Failing { taken, most }
    }
}

impl Write for Failing {
    fn write(&mut self, bytes: &[u8]) -> io::Result<usize> {
        let count = bytes.len().min(2).min(self.most - self.taken.len());
        if count == 0 && !bytes.is_empty() {
            return Err(io::Error::other("full"));
        }
        self.taken.extend(&bytes[..count]);
        Ok(count)
    }

    fn flush(&mut self) -> io::Result<()> {
        match self.taken.len() < self.most {
            true => Ok(()),
            false => Err(io::Error::other("flushed when full")),
        }
    }
}

#[test]
fn a_log_that_cannot_be_begun() {
    for most in 0..5 {
        let error = Recorded::new(fresh(), Failing::after(most)).unwrap_err();
        assert_eq!(error.to_string(), "full");
        let error = Recorded::start(&start(), Failing::after(most)).unwrap_err();
        assert!(matches!(error, BeginError::Log(_)));
        assert_eq!(error.to_string(), "log not begun: full");
    }
}

#[test]
fn a_log_that_cannot_be_written() {
    let (end, log) = recorded(fresh(), &TRIAL);
    for most in 5..log.len() {
        let mut card = Recorded::new(fresh(), Failing::after(most)).unwrap();
        for (record, expected) in TRIAL.into_iter().zip(&end.outcomes) {
            assert_eq!(failing_call(&mut card, record), *expected);
            assert_eq!(card.error().is_some(), !card.is_recording());
        }
        assert_eq!(card.error().unwrap().to_string(), "full");
        let (card, written) = card.into_parts();
        assert_eq!(card, end.card);
        assert_eq!(written.taken, log[..most]);
    }
}

#[test]
fn the_end_of_a_log_tells_its_error() {
    let finish = |most| {
        let mut card = Recorded::new(fresh(), Failing::after(most)).unwrap();
        card.line(true);
        card.reset();
        card.finish().map(|(_, log)| log.taken)
    };
    assert_eq!(finish(9).unwrap(), [0x43, 0x4C, 0x47, 1, 0, 2, 1, 5]);
    assert_eq!(finish(8).unwrap_err().to_string(), "flushed when full");
    for most in 5..8 {
        assert_eq!(finish(most).unwrap_err().to_string(), "full");
    }
}

#[test]
fn text_of_a_player() {
    let text = |log: &[u8]| format!("{:?}", cut(fresh(), log, &[]).player);
    assert_eq!(
        text(&HEADER[..2]),
        "Player { stage: header, taken: 2, records: 0, .. }"
    );
    assert_eq!(
        text(&[&HEADER[..], &[5, 1, 0]].concat()),
        "Player { stage: records, taken: 2, records: 1, .. }"
    );
    let mut player = Player::default();
    assert!(player.play(&mut fresh(), &[0]).call.is_err());
    assert_eq!(
        format!("{player:?}"),
        "Player { stage: broken, taken: 0, records: 0, .. }"
    );
}

#[test]
fn equal_players() {
    let (_, log) = recorded(fresh(), &TRIAL);
    for length in 0..=log.len() {
        let one = cut(fresh(), &log[..length], &[]).player;
        let other = cut(fresh(), &log[..length], &[length / 2]).player;
        assert_eq!(one, other);
        assert_eq!(one == Player::new(), length == 0);
    }
}
