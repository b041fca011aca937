//! Finds a fault and the shortest trial that shows it.
#![allow(dead_code)]

use compare::call::{Call, Step, Subject};
use compare::pair::{Model, Pair};
use compare::print::trial_text;
use compare::run::Runner;
use compare::second;
use compare::shrink::{alone, shrink};

/// Random trials without a fault.
pub fn no_fault(subject: Subject) {
    let mut runner = Runner::new(subject, &second::apply, &|_| ());
    for trial in 0..100 {
        assert!(runner.random_trial(1, trial).is_ok());
    }
}

/// The shortest trial for a fault, found by random trials.
pub fn shortest(subject: Subject, model: Model<'_>) -> Vec<Step> {
    let mut runner = Runner::new(subject, model, &|_| ());
    let failure = (0..1_000)
        .find_map(|trial| runner.random_trial(1, trial).err())
        .expect("the fault is found");
    let steps = shrink(model, &failure.steps).expect("it comes again").steps;
    assert!(differs(model, &steps));
    let call = alone(model, &failure.steps).expect("the call alone");
    let (parts, most) = match subject {
        Subject::Card => (3, 8),
        Subject::Switch => (1, 8),
        Subject::Log => (4, 12),
        Subject::Query => (3, 6),
    };
    assert!(call.steps.len() <= parts + 1);
    for left_out in 0..steps.len() {
        let mut rest = steps.clone();
        rest.remove(left_out);
        assert!(!differs(model, &rest), "{}", trial_text(&steps));
    }
    assert!(steps.len() <= most, "{}", trial_text(&steps));
    steps
}

/// Whether the trial shows a difference.
fn differs(model: Model<'_>, steps: &[Step]) -> bool {
    let mut pair = Pair::new(model);
    steps.iter().any(|step| pair.step(step).is_err())
}

/// The last call of a trial.
pub fn last_call(steps: &[Step]) -> &Call {
    match steps.last() {
        Some(Step::Call(call, _)) => call,
        other => panic!("{other:?}"),
    }
}
