//! Short comparisons with the proved card, the proved switch, the proved player
//! and recorder of logs and what reads lengths and packets, and what they meet.

use compare::call::Subject;
use compare::generate::start_steps;
use compare::given::valid;
use compare::pair::Pair;
use compare::print::trial_text;
use compare::random::Random;
use compare::run::Runner;
use compare::shrink::shrink;
use compare::{directed, proved, second};

/// Random trials besides the directed ones.
const TRIALS: u64 = 300;

/// The directed trials and some random ones.
fn short_comparison(subject: Subject) {
    let mut runner = Runner::new(subject, &proved::apply, &|_| ());
    let result = directed::run(&mut runner)
        .and_then(|()| (0..TRIALS).try_for_each(|trial| runner.random_trial(7, trial)));
    if let Err(failure) = result {
        let found = shrink(&proved::apply, &failure.steps).expect("it comes again");
        panic!("{}{:#?}", trial_text(&found.steps), found.difference.0);
    }
    assert_eq!(runner.statistics.not_met(), Vec::<String>::new());
}

#[test]
fn short_comparison_of_cards() {
    short_comparison(Subject::Card);
}

#[test]
fn short_comparison_of_switches() {
    short_comparison(Subject::Switch);
}

#[test]
fn short_comparison_of_logs() {
    short_comparison(Subject::Log);
}

#[test]
fn short_comparison_of_queries() {
    short_comparison(Subject::Query);
}

#[test]
fn valid_configurations_start() {
    let mut random = Random::new(2, 0);
    for _ in 0..2_000 {
        let mut pair = Pair::new(&second::apply);
        for step in start_steps(&valid(&mut random)) {
            if let Ok(Some(made)) = pair.step(&step) {
                assert_eq!(made.outcome.refusal, 0);
            }
        }
        assert!(second::is_sound(pair.world()));
    }
}
