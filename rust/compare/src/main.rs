//! `compare --calls N --seed S`: the comparison of cards, then that of
//! switches, then that of logs, then that of queries. Each runs its directed
//! trials, then random ones until it has made N calls, or played N records of
//! logs. `--directed 0` leaves out the directed ones, and `--trial K` runs only
//! random trial K. `--cards 0`, `--switches 0`, `--logs 0` or `--queries 0`
//! leaves out a comparison.

use compare::call::Subject;
use compare::directed;
use compare::print::trial_text;
use compare::proved;
use compare::run::{Failure, Runner};
use compare::shrink::{alone, shrink, Failing};
use compare::statistics::Statistics;
use std::cell::Cell;
use std::env;
use std::process::ExitCode;
use std::time::{Duration, Instant};

const USAGE: &str = "\
usage: compare [--calls N] [--seed S] [--directed 0|1] [--trial K]
               [--cards 0|1] [--switches 0|1] [--logs 0|1] [--queries 0|1]

Compares cards, then switches, N calls each, then logs, N records, then queries,
N calls: directed trials, then random ones. --trial K runs only random trial K
of each. A million records of logs alone, and each kind of record by its
refusals: compare --cards 0 --switches 0 --queries 0 --calls 1000000";

/// What the command line asks for.
struct Options {
    calls: u64,
    seed: u64,
    directed: bool,
    trial: Option<u64>,
    cards: bool,
    switches: bool,
    logs: bool,
    queries: bool,
}

/// Reads the command line.
fn options() -> Option<Options> {
    let mut options = Options {
        calls: 500_000,
        seed: 1,
        directed: true,
        trial: None,
        cards: true,
        switches: true,
        logs: true,
        queries: true,
    };
    let mut words = env::args().skip(1);
    while let Some(word) = words.next() {
        let number: u64 = words.next()?.replace([',', '_'], "").parse().ok()?;
        match word.as_str() {
            "--calls" => options.calls = number,
            "--seed" => options.seed = number,
            "--directed" => options.directed = number != 0,
            "--trial" => options.trial = Some(number),
            "--cards" => options.cards = number != 0,
            "--switches" => options.switches = number != 0,
            "--logs" => options.logs = number != 0,
            "--queries" => options.queries = number != 0,
            _ => return None,
        }
    }
    Some(options)
}

/// Runs the trials asked for.
fn run(runner: &mut Runner<'_>, options: &Options) -> Result<(), Box<Failure>> {
    if let Some(trial) = options.trial {
        return runner.random_trial(options.seed, trial);
    }
    if options.directed {
        directed::run(runner)?;
        println!("directed trials: {} calls", runner.statistics.calls);
    }
    let mut trial = 0;
    while runner.statistics.done() < options.calls {
        runner.random_trial(options.seed, trial)?;
        trial += 1;
    }
    Ok(())
}

/// A trial with more steps than this is not printed.
const MOST_STEPS: usize = 100;

/// Prints a failure, the shortest trial found for it, and its last call alone.
fn report(runner: &Runner<'_>, failure: &Failure) {
    let steps = failure.steps.len();
    println!("DIFFERENCE in {}, after {steps} steps:", failure.name);
    print_lines(&failure.difference.0);
    println!("\nLooking for a shorter trial.");
    match shrink(runner.model, &failure.steps) {
        None => println!("It does not come again: a call depends on more than its input."),
        Some(found) if found.steps.len() > MOST_STEPS => {
            println!("The shortest found has {} steps.", found.steps.len())
        }
        Some(found) => print_found("The shortest found", &found),
    }
    if let Some(found) = alone(runner.model, &failure.steps) {
        print_found("The last call alone", &found);
    }
}

/// Prints a trial that shows a difference.
fn print_found(title: &str, found: &Failing) {
    println!("\n{title}, with what the second model gives:");
    print!("{}", trial_text(&found.steps));
    println!("The difference after the last step:");
    print_lines(&found.difference.0);
}

fn print_lines(lines: &[String]) {
    for line in lines {
        println!("    {line}");
    }
}

/// Runs one of the comparisons; says whether there was no difference.
fn compare(subject: Subject, options: &Options) -> bool {
    let begun = Instant::now();
    let shown = Cell::new(begun);
    let progress = |statistics: &Statistics| {
        if shown.get().elapsed() >= Duration::from_secs(2) {
            shown.set(Instant::now());
            let seconds = begun.elapsed().as_secs();
            let (calls, trials) = (statistics.calls, statistics.trials);
            eprintln!("{calls} calls, {trials} trials, {seconds} s");
        }
    };
    let mut runner = Runner::new(subject, &proved::apply, &progress);
    let result = run(&mut runner, options);
    println!("{}", runner.statistics.text());
    match result {
        Ok(()) => {
            let seconds = begun.elapsed().as_secs_f64();
            println!("{}: no difference, {seconds:.1} s\n", subject.name());
            true
        }
        Err(failure) => {
            report(&runner, &failure);
            false
        }
    }
}

fn main() -> ExitCode {
    let Some(options) = options() else {
        eprintln!("{USAGE}");
        return ExitCode::from(2);
    };
    println!("seed {}, {} calls", options.seed, options.calls);
    let cards = !options.cards || compare(Subject::Card, &options);
    let switches = !options.switches || compare(Subject::Switch, &options);
    let logs = !options.logs || compare(Subject::Log, &options);
    let queries = !options.queries || compare(Subject::Query, &options);
    match cards && switches && logs && queries {
        true => ExitCode::SUCCESS,
        false => ExitCode::FAILURE,
    }
}
