//! Runs trials and counts what they meet.

use crate::call::{Step, Subject};
use crate::generate;
use crate::pair::{Difference, Model, Pair};
use crate::statistics::Statistics;

/// A trial with a difference in its last step.
#[derive(Clone, Debug)]
pub struct Failure {
    pub name: String,
    pub steps: Vec<Step>,
    pub difference: Difference,
}

/// Runs trials of cards, of switches, of logs or of queries against a model.
pub struct Runner<'a> {
    pub subject: Subject,
    pub model: Model<'a>,
    pub statistics: Statistics,
    progress: &'a dyn Fn(&Statistics),
}

impl<'a> Runner<'a> {
    /// A runner that reports its progress after each trial.
    pub fn new(
        subject: Subject,
        model: Model<'a>,
        progress: &'a dyn Fn(&Statistics),
    ) -> Runner<'a> {
        Runner {
            subject,
            model,
            statistics: Statistics::new(subject),
            progress,
        }
    }

    /// Runs a trial of given steps.
    pub fn trial(&mut self, name: &str, steps: Vec<Step>) -> Result<(), Box<Failure>> {
        let mut pair = Pair::new(self.model);
        for (i, step) in steps.iter().enumerate() {
            if let Err(difference) = self.step(&mut pair, step) {
                return Err(Box::new(Failure {
                    name: name.to_string(),
                    steps: steps[..=i].to_vec(),
                    difference,
                }));
            }
        }
        self.ended();
        Ok(())
    }

    /// Makes up and runs a random trial.
    pub fn random_trial(&mut self, seed: u64, trial: u64) -> Result<(), Box<Failure>> {
        let mut pair = Pair::new(self.model);
        let mut generator = generate::trial(self.subject, seed, trial);
        let mut made: Vec<Step> = Vec::new();
        let mut steps = generator.first();
        while !steps.is_empty() {
            for step in steps {
                made.push(step);
                let last = &made[made.len() - 1];
                if let Err(difference) = self.step(&mut pair, last) {
                    return Err(Box::new(Failure {
                        name: format!("random {} trial {trial}", self.subject.name()),
                        steps: made,
                        difference,
                    }));
                }
            }
            steps = generator.next(&pair);
        }
        self.ended();
        Ok(())
    }

    fn step(&mut self, pair: &mut Pair<'a>, step: &Step) -> Result<(), Difference> {
        if let Some(made) = pair.step(step)? {
            self.statistics.count(&made);
        }
        Ok(())
    }

    fn ended(&mut self) {
        self.statistics.trials += 1;
        (self.progress)(&self.statistics);
    }
}
