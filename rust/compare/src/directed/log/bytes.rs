//! Wrong bytes, players of any bytes, and lengths.

use super::{calls, record, Run, Trial, BEGIN};
use crate::call::{Call, Step};
use crate::run::Runner;
use crate::world::{
    Part, AGAIN, BROKEN, CARD_BYTES, HEADER, NUMBER_AT, PART_AT, PLAYER_BYTES, RECORDS,
};

/// The bytes of the records by kind; 0 for what is no kind.
const LENGTHS: [u8; 7] = [0, 3, 2, 8, 15, 1, 0];

pub fn run(runner: &mut Runner<'_>) -> Run {
    marks(runner)?;
    kinds(runner)?;
    players(runner)?;
    lengths(runner)?;
    flags(runner)?;
    numbers(runner)
}

/// Each value of each byte of mark and version, in pieces cut before it and
/// behind it.
fn marks(runner: &mut Runner<'_>) -> Run {
    for at in 0..BEGIN.len() {
        let mut trial = Trial::player();
        for value in 0..=255 {
            let mut log = [&BEGIN[..], &[5, 2, 1]].concat();
            log[at] = value;
            for cut in [0, at, at + 1] {
                trial.new_player().play(&log[..cut]);
                trial.play(&log[cut..]).play(&log[cut..]).play(&[]);
            }
        }
        trial.run(runner, "marks and versions")?;
    }
    Ok(())
}

/// Each kind and each level of a line, first in a piece and behind others.
fn kinds(runner: &mut Runner<'_>) -> Run {
    let mut trial = Trial::player();
    for value in 0..=255 {
        for (before, bytes) in [(&[][..], [value, 0, 0]), (&[2], [value, 5, 5])] {
            trial.new_player().play(&BEGIN).play(before).play(&bytes);
            trial.play(&bytes).play(&[]);
            let log = [&BEGIN[..], &[5], before, &bytes].concat();
            trial.new_player().play(&log).play(&log[6..]).play(&[5]);
        }
    }
    trial.run(runner, "kinds and levels")
}

/// Whether the bytes behind those that were taken are 0 in such a player, and
/// a card can have answered its whole record with 6.
fn is_plain(stage: u8, taken: u8, kind: u8) -> bool {
    let whole = taken == LENGTHS[usize::from(kind)];
    match stage {
        HEADER => kind == 0 || taken >= BEGIN.len() as u8,
        RECORDS => kind == 0 || taken > 0,
        AGAIN => !whole || !matches!(kind, 3 | 4),
        _ => true,
    }
}

/// Players by what they read, how many bytes they have taken and their kind.
fn players(runner: &mut Runner<'_>) -> Run {
    for stage in [HEADER, RECORDS, AGAIN, BROKEN, 4, 5, 128, 255] {
        let mut trial = Trial::begun();
        for taken in (0..=18).chain([127, 128, 254, 255]) {
            for kind in 0..=6 {
                if !is_plain(stage, taken, kind) {
                    continue;
                }
                let mut player = vec![0; PLAYER_BYTES];
                player[..=PART_AT].copy_from_slice(&[stage, taken, kind]);
                for bytes in [&[][..], &[1], &BEGIN, &[5, 5]] {
                    trial.step(Step::Contents(Part::Player, player.clone()));
                    trial.play(bytes).play(bytes);
                }
            }
        }
        trial.run(runner, "players")?;
    }
    Ok(())
}

/// Cards and players of each length near theirs, before and after a wrong byte.
fn lengths(runner: &mut Runner<'_>) -> Run {
    for wrong in [&[][..], &[0]] {
        for (part, length) in [(Part::Card, CARD_BYTES), (Part::Player, PLAYER_BYTES)] {
            let mut trial = Trial::begun();
            trial.play(wrong);
            let before = trial.world();
            for length in [0, 1, length - 1, length, length + 1, 2 * length] {
                trial.length(part, length);
                for bytes in [&[][..], &[5], &[0]] {
                    trial.play(bytes);
                }
                trial.put_back(part, &before);
            }
            trial.run(runner, "lengths of cards and players")?;
        }
    }
    Ok(())
}

/// Each value of the flags.
fn flags(runner: &mut Runner<'_>) -> Run {
    let mut trial = Trial::begun();
    let before = trial.world();
    for flags in 0..=255 {
        for bytes in [&[][..], &[2, 1], &[1], &[0]] {
            trial.put_back(Part::Player, &before);
            trial.byte(Part::Card, 0, flags).play(bytes).play(bytes);
            trial.put_all_back(&before);
        }
    }
    trial.run(runner, "flags under a player")
}

/// Numbers of records near the largest, and with each of their bytes full.
fn numbers(runner: &mut Runner<'_>) -> Run {
    let full = (0..8).map(|bytes| (1_u64 << (8 * bytes)).wrapping_sub(2));
    let mut trial = Trial::begun();
    for number in full.chain([u64::MAX - 1, u64::MAX]) {
        let mut player = vec![0; PLAYER_BYTES];
        player[0] = RECORDS;
        player[NUMBER_AT..].copy_from_slice(&number.to_le_bytes());
        trial.step(Step::Contents(Part::Player, player));
        for call in calls().iter().chain([&Call::Line(1), &Call::Line(0)]) {
            trial.play_into(&record(call), 0).play(&[]);
        }
    }
    trial.run(runner, "numbers of records")
}
