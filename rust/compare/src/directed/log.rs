//! Logs: cuttings, wrong bytes, players, outputs without room, and the
//! recorder.

mod bytes;
mod recorder;

use super::{bar_write, write, Run, Trial};
use crate::call::{Call, LogCall, Recording, Room, Step};
use crate::given::{plain, PLAIN_MSIX, PLAIN_TABLE};
use crate::run::Runner;
use crate::second;
use crate::world::{Part, LOG_HEADER_BYTES, PLAYER_BYTES, ROOM};

/// The beginning of a log.
const BEGIN: [u8; LOG_HEADER_BYTES] = [0x43, 0x4C, 0x47, 1, 0];

pub fn run(runner: &mut Runner<'_>) -> Run {
    cuttings(runner)?;
    single_bytes(runner)?;
    rooms(runner)?;
    most_packets(runner)?;
    changed_cards(runner)?;
    bytes::run(runner)?;
    recorder::run(runner)
}

/// The record of a call.
fn record(call: &Call) -> Vec<u8> {
    Recording::of(call, 0)
        .and_then(|recording| second::record_bytes(&recording))
        .expect("a call that logs hold")
}

fn play(bytes: &[u8]) -> Call {
    Call::Log(LogCall::Play(bytes.to_vec()))
}

/// Sets MSI-X control.
fn control(value: u32) -> Call {
    write(PLAIN_MSIX + 2, 2, value)
}

/// Calls of each kind, some of them refused.
fn calls() -> Vec<Call> {
    vec![
        write(0x04, 2, 6),
        bar_write(PLAIN_TABLE, 0, 8, 0x1_FEE0_1000),
        bar_write(PLAIN_TABLE, 8, 8, 0x31),
        Call::Line(1),
        control(0xC000),
        Call::Event(0),
        Call::Event(0),
        Call::Event(4),
        write(0x3C, 3, 7),
        bar_write(PLAIN_TABLE, 12, 2, 0),
        control(0x8000),
        Call::Event(0),
        Call::Reset,
        Call::Line(0),
    ]
}

/// A log of these records.
fn log(records: &[Vec<u8>]) -> Vec<u8> {
    [&BEGIN[..], &records.concat()].concat()
}

impl Trial {
    /// A plain card with four vectors, and a new player.
    fn player() -> Trial {
        let mut trial = Trial::start(&plain(1, None, Some(4)));
        trial.new_player();
        trial
    }

    /// The same, with mark and version played.
    fn begun() -> Trial {
        let mut trial = Trial::player();
        trial.play(&BEGIN);
        trial
    }

    fn new_player(&mut self) -> &mut Trial {
        self.step(Step::Contents(Part::Player, vec![0; PLAYER_BYTES]))
    }

    /// Plays bytes with room for each call of a small card.
    fn play(&mut self, bytes: &[u8]) -> &mut Trial {
        self.play_into(bytes, 400)
    }

    fn play_into(&mut self, bytes: &[u8], length: usize) -> &mut Trial {
        self.step(Step::Call(play(bytes), Room::Bytes(length)))
    }

    /// Plays a log in pieces of this length; untaken bytes are handed in again.
    fn play_cut(&mut self, records: &[Vec<u8>], piece: usize) -> &mut Trial {
        let whole = log(records);
        let mut ends = vec![BEGIN.len()];
        for record in records {
            ends.push(ends[ends.len() - 1] + record.len());
        }
        let mut at = 0;
        while at < whole.len() {
            let end = whole.len().min(at + piece);
            self.play(&whole[at..end]);
            let is_met = |&&stop: &&usize| stop > at.max(BEGIN.len()) && stop <= end;
            at = ends.iter().find(is_met).copied().unwrap_or(end);
        }
        self
    }
}

/// A log of all kinds in pieces of each length, and cut once at each place.
fn cuttings(runner: &mut Runner<'_>) -> Run {
    let records: Vec<Vec<u8>> = calls().iter().map(record).collect();
    for piece in (1..=40).chain([1_000]) {
        let mut trial = Trial::player();
        trial.play_cut(&records, piece).play(&[]);
        trial.run(runner, "cuttings")?;
    }
    for record in &records {
        let mut trial = Trial::player();
        for at in 0..=record.len() {
            trial.new_player().play(&[]).play(&BEGIN);
            trial.play(&record[..at]).play(&[]).play(&record[at..]);
        }
        trial.run(runner, "records in two pieces")?;
    }
    Ok(())
}

/// A record of each kind with each value of each byte.
fn single_bytes(runner: &mut Runner<'_>) -> Run {
    for call in [&calls()[..3], &[Call::Line(1), Call::Event(3)]].concat() {
        let record = record(&call);
        let mut trial = Trial::begun();
        trial.write(0x04, 2, 6);
        for at in 1..record.len() {
            for value in 0..=255 {
                let mut bytes = record.clone();
                bytes[at] = value;
                trial.new_player().play(&BEGIN).play(&bytes).play(&bytes);
            }
        }
        trial.run(runner, "bytes of records")?;
    }
    Ok(())
}

/// Two vectors wait behind Function Mask while the wire is active.
fn waiting() -> Trial {
    let mut trial = Trial::begun();
    trial.write(0x04, 2, 6).line(1);
    trial
        .entry(0, 1, 0x31, false)
        .entry(2, 0, 0x32, false)
        .call(control(0xC000))
        .events(&[0, 2])
        .call(control(0x4000));
    trial
}

/// A record that sends 52 bytes, with outputs of each length, and each tried
/// again with and without bytes.
fn rooms(runner: &mut Runner<'_>) -> Run {
    let release = record(&control(0x8000));
    let next = record(&Call::Reset);
    for length in 0..=60 {
        let mut trial = waiting();
        trial.play_into(&release[..3], length);
        trial.play_into(&[&release[3..], &next[..]].concat(), length);
        for bytes in [&[][..], &next, &[0], &BEGIN] {
            trial.play_into(bytes, length.min(51));
        }
        trial.play_into(&[0], length).play(&[]).play(&next);
        trial.run(runner, "outputs of records")?;
    }
    for room in [Room::Short, Room::Exact] {
        let mut trial = waiting();
        trial.step(Step::Call(play(&release), Room::Short));
        trial
            .step(Step::Call(play(&next), room))
            .play(&next)
            .play(&next);
        trial.run(runner, "outputs of records")?;
    }
    Ok(())
}

/// A record that sends a wire packet and 2,048 long messages.
fn most_packets(runner: &mut Runner<'_>) -> Run {
    let mut trial = Trial::start(&plain(1, None, Some(2048)));
    let mut entry = [0; 16];
    entry[4] = 1;
    trial
        .new_player()
        .write(0x04, 2, 6)
        .step(Step::Contents(Part::Table, entry.repeat(2048)))
        .step(Step::Contents(Part::Pending, vec![0xFF; 256]))
        .line(1);
    let log = log(&[record(&control(0x8000)), record(&Call::Reset)]);
    trial
        .play_into(&log, ROOM - 1)
        .play_into(&[0], 0)
        .play_into(&log, ROOM)
        .play_into(&[5], ROOM);
    trial.run(runner, "most packets of a record")
}

/// A record to be tried again on a card that was changed by its own calls.
fn changed_cards(runner: &mut Runner<'_>) -> Run {
    let release = record(&control(0x8000));
    let changes = [
        Call::Reset,
        control(0x8000),
        write(0x04, 2, 2),
        Call::Line(0),
        Call::Withdraw(0),
        bar_write(PLAIN_TABLE, 12, 4, 1),
    ];
    for change in changes {
        let mut trial = waiting();
        trial
            .play_into(&release, 20)
            .call(change)
            .play_into(&[], 16)
            .play(&[5])
            .play(&[5]);
        trial.run(runner, "cards changed before a record is tried again")?;
    }
    for (part, length) in [(Part::Table, 60), (Part::Pending, 16)] {
        let mut trial = waiting();
        trial.play_into(&release, 0).length(part, length);
        trial.play_into(&[5], 0).play(&[5]).play(&[]);
        trial.run(runner, "cards that are not sound any more")?;
    }
    Ok(())
}
