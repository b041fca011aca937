//! Withdrawals: their borders, the mechanism in force, what was held before and
//! what is sent behind them.

use super::{bar_write, wider, write, Run, Trial};
use crate::call::Call;
use crate::given::{plain, PLAIN_MSI, PLAIN_MSIX, PLAIN_TABLE};
use crate::layout::Msi;
use crate::run::Runner;
use crate::world::Part;

/// The control words of the four MSI forms, Capable 0.
const FORMS: [u16; 4] = [0x000, 0x080, 0x100, 0x180];
/// Numbers near a border of MSI, and some that no vector has.
const NUMBERS: [u64; 12] = [0, 1, 2, 7, 15, 16, 31, 32, 33, 65_535, 65_536, u64::MAX];

pub fn run(runner: &mut Runner<'_>) -> Run {
    stale(runner)?;
    pins(runner)?;
    for form in FORMS {
        for capable in 0..6 {
            for enable in [0, 1, u32::from(capable), 7] {
                msi(runner, form | capable << 1, enable)?;
            }
        }
        both(runner, form | 3 << 1)?;
    }
    for vectors in [1, 2, 8, 63, 64, 65, 128, 2_048] {
        msix(runner, vectors)?;
    }
    ways_to_be_shut(runner)?;
    unsound(runner)?;
    wide(runner)
}

/// A masked vector whose event is held, withdrawn or not, and unmasked.
fn stale(runner: &mut Runner<'_>) -> Run {
    let unmask = bar_write(PLAIN_TABLE, 16 * 3 + 12, 4, 0);
    for withdrawn in [&[][..], &[3], &[3, 3], &[2], &[3, 2]] {
        let mut trial = Trial::start(&plain(1, None, Some(4)));
        trial
            .write(0x04, 2, 6)
            .entry(3, 1, 0x31, true)
            .write(PLAIN_MSIX + 2, 2, 0x8000)
            .events(&[3, 3])
            .withdrawals(withdrawn.iter().copied())
            .read_bars()
            .tight(unmask.clone())
            .withdraw(3)
            .tight(Call::Event(3));
        trial.run(runner, "withdrawals: a satisfied cause")?;
    }
    Ok(())
}

/// Each number with the pin in force: on each kind of card, with the line high,
/// and with vectors that wait under a mechanism that was in force before.
fn pins(runner: &mut Runner<'_>) -> Run {
    for (msi, vectors) in [
        (None, None),
        (Some(0x18A), None),
        (None, Some(65)),
        (Some(0x006), Some(65)),
    ] {
        for pin in [0, 1] {
            let mut trial = Trial::start(&plain(pin, msi, vectors));
            trial.withdrawals(NUMBERS).withdrawals([64, 65]);
            trial.line(1).withdrawals(NUMBERS);
            for (control, on) in [(PLAIN_MSI + 2, 0x31), (PLAIN_MSIX + 2, 0x8000)] {
                trial.write(control, 2, on).events(&[0, 1, 7]);
                trial.write(control, 2, 0).withdrawals(NUMBERS);
                trial.write(control, 2, on).withdrawals([7, 7, 0]);
                trial.write(control, 2, 0);
            }
            trial.run(runner, "withdrawals: pin in force")?;
        }
    }
    Ok(())
}

/// Every vector is held, then Enable is made what it is to be, and each number
/// is withdrawn, from above. Then some are held again, and not all withdrawn.
fn msi(runner: &mut Runner<'_>, control: u16, enable: u32) -> Run {
    let at = PLAIN_MSI;
    let mut trial = Trial::start(&plain(1, Some(control), None));
    trial.write(at + 2, 2, 1 | 5 << 4);
    for number in 0..32 {
        trial.event(number);
    }
    trial.write(at + 2, 2, 1 | enable << 4);
    trial.withdrawals((0..34).rev()).withdrawals(NUMBERS);
    trial.events(&[0, 1, 2, 3, 30, 31]).withdrawals([0, 2, 30]);
    trial.tight(write(0x04, 2, 4)).withdrawals([0, 1, 31]);
    trial.run(runner, "withdrawals: MSI vectors")
}

/// The first and last vectors of each byte and word, held and withdrawn, and
/// the border; then all that wait are sent.
fn msix(runner: &mut Runner<'_>, vectors: usize) -> Run {
    let mut trial = Trial::start(&plain(1, None, Some(vectors)));
    trial.write(0x04, 2, 6).write(PLAIN_MSIX + 2, 2, 0xC000);
    let n = vectors as u64;
    let mut numbers = vec![
        0,
        1,
        7,
        8,
        62,
        63,
        64,
        65,
        n / 2,
        n.saturating_sub(2),
        n - 1,
    ];
    numbers.retain(|&number| number < n);
    for &number in &numbers {
        trial.entry(number as usize, 0, number as u32, false);
        trial.call(Call::Event(number));
    }
    trial.withdrawals(numbers.iter().rev().step_by(2).copied());
    trial
        .withdrawals([n, n + 1, n + 63, 2_048])
        .withdrawals(NUMBERS);
    trial.read_bars().tight(write(PLAIN_MSIX + 2, 2, 0x8000));
    trial.withdrawals(numbers.iter().copied());
    trial.events(&[0, vectors - 1]);
    trial.run(runner, "withdrawals: MSI-X vectors")
}

/// The same numbers wait under MSI and MSI-X, and are withdrawn with either in
/// force.
fn both(runner: &mut Runner<'_>, control: u16) -> Run {
    let mut trial = Trial::start(&plain(1, Some(control), Some(65)));
    trial.write(0x04, 2, 2);
    let numbers = [0, 5, 7];
    for (msi, msix) in [(0x31, 0), (0x31, 0x8000), (0, 0x8000), (0, 0), (0x11, 0)] {
        for (msi, msix) in [(0x31, 0), (0x31, 0x8000)] {
            trial.write(PLAIN_MSIX + 2, 2, msix);
            trial.write(PLAIN_MSI + 2, 2, msi).events(&numbers);
        }
        trial.write(PLAIN_MSIX + 2, 2, msix);
        trial.write(PLAIN_MSI + 2, 2, msi);
        trial.withdrawals([5, 5, 7, 8, 9, 64, 65]);
        trial.tight(Call::Save(0)).read_bars();
    }
    trial.tight(write(0x04, 2, 6)).restore(0, &[]);
    trial.withdrawals([0, 5, 7]);
    trial.run(runner, "withdrawals: both mechanisms")
}

/// Vectors that are open, and shut in each way.
fn ways_to_be_shut(runner: &mut Runner<'_>) -> Run {
    let mut trial = Trial::start(&plain(1, None, Some(4)));
    for (command, control, mask) in [
        (6, 0x8000, false),
        (6, 0xC000, false),
        (6, 0x8000, true),
        (2, 0x8000, false),
    ] {
        trial.write(0x04, 2, 6).entry(1, 0, 0x41, mask);
        trial.write(PLAIN_MSIX + 2, 2, control);
        trial.write(0x04, 2, command);
        trial.withdraw(1).tight(Call::Event(1)).withdrawals([1, 1]);
    }
    trial.run(runner, "withdrawals: MSI-X vectors open and shut")?;
    for form in FORMS {
        let msi = Msi {
            at: PLAIN_MSI,
            control: form | 2 << 1,
        };
        let mut trial = Trial::start(&plain(1, Some(msi.control), None));
        trial.write(msi.at + 2, 2, 0x21);
        for (command, masks) in [(4, 0), (4, 2), (0, 0), (0, 2)] {
            trial.write(0x04, 2, command);
            if msi.has_masks() {
                trial.write(msi.mask(), 4, masks);
            }
            trial
                .withdraw(1)
                .tight(Call::Event(1))
                .read(msi.mask() + 4, 4);
            trial.withdrawals([1, 1]).read(msi.mask() + 4, 4);
        }
        trial.run(runner, "withdrawals: MSI vectors open and shut")?;
    }
    Ok(())
}

/// Cards that are not sound, with each mechanism in force.
fn unsound(runner: &mut Runner<'_>) -> Run {
    for (msi, msix) in [(0, 0), (0x31, 0), (0x31, 0x8000)] {
        let mut trial = Trial::start(&plain(1, Some(3 << 1), Some(65)));
        trial.write(PLAIN_MSI + 2, 2, msi);
        trial.write(PLAIN_MSIX + 2, 2, msix).events(&[0, 7]);
        let world = trial.world();
        for (part, at, value) in [
            (Part::Card, 0, 2),
            (Part::Card, 0, 4),
            (Part::Card, 1, 0),
            (Part::Card, 6, 1),
            (Part::Pending, 8, 2),
            (Part::Pending, 15, 0x80),
            (Part::Table, 12, 3),
        ] {
            trial.byte(part, at, value).withdrawals(NUMBERS);
            trial.put_all_back(&world).withdraw(3);
        }
        trial.length(Part::Pending, 8).withdrawals(NUMBERS);
        trial.put_all_back(&world);
        trial.length(Part::Card, 288).withdrawals(NUMBERS);
        trial.run(runner, "withdrawals: unsound cards")?;
    }
    Ok(())
}

/// Wide numbers with the pin, MSI and MSI-X in force; the vectors that a cut
/// would leave wait.
fn wide(runner: &mut Runner<'_>) -> Run {
    let mut trial = Trial::start(&plain(1, Some(0x184), Some(65)));
    for (msi, msix) in [(0, 0), (0x21, 0), (0, 0x8000)] {
        trial.write(PLAIN_MSI + 2, 2, msi);
        trial.write(PLAIN_MSIX + 2, 2, msix).events(&[0, 3, 64]);
        trial.withdrawals([0, 3, 64].into_iter().flat_map(wider));
    }
    trial.run(runner, "withdrawals: wide numbers")
}
