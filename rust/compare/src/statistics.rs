//! How often each kind of call, refusal and answer was met.

mod card;
mod extended;
mod log;
mod query;
mod switch;
mod withdraw;

use crate::call::{Call, Subject};
use crate::pair::Made;
use std::collections::BTreeMap;

/// The counts of a run.
#[derive(Clone, Debug)]
pub struct Statistics {
    pub calls: u64,
    pub trials: u64,
    subject: Subject,
    tables: Vec<Table>,
    /// Other things that a run should meet.
    names: &'static [&'static str],
    named: BTreeMap<&'static str, u64>,
    /// Of logs alone.
    sums: log::Sums,
}

/// Numbers of calls, of each kind by refusal.
#[derive(Clone, Debug)]
struct Table {
    /// Which calls are counted, if not all.
    which: &'static str,
    kinds: &'static [&'static str],
    /// The refusals that each kind of call can give.
    possible: &'static [&'static [u8]],
    refusals: Vec<BTreeMap<u8, u64>>,
}

impl Statistics {
    /// No calls yet.
    pub fn new(subject: Subject) -> Statistics {
        let (tables, names) = match subject {
            Subject::Card => (card::tables(), &card::NAMED[..]),
            Subject::Switch => (switch::tables(), &switch::NAMED[..]),
            Subject::Log => (log::tables(), &log::NAMED[..]),
            Subject::Query => (query::tables(), &query::NAMED[..]),
        };
        Statistics {
            calls: 0,
            trials: 0,
            subject,
            tables,
            names,
            named: BTreeMap::new(),
            sums: log::Sums::default(),
        }
    }

    /// How far the run is: the number of calls, or of records played.
    pub fn done(&self) -> u64 {
        match self.subject {
            Subject::Card | Subject::Switch | Subject::Query => self.calls,
            Subject::Log => self.sums.records,
        }
    }

    /// Counts a call. Between queries the card's own calls do not count.
    pub fn count(&mut self, made: &Made<'_>) {
        let is_query = matches!(made.call, Call::Query(_));
        if self.subject == Subject::Query && !is_query {
            return;
        }
        self.calls += 1;
        match self.subject {
            Subject::Card => self.count_card(made),
            Subject::Switch => self.count_switch(made),
            Subject::Log => self.count_log(made),
            Subject::Query => self.count_query(made),
        }
    }

    fn met(&mut self, name: &'static str) {
        debug_assert!(self.names.contains(&name), "{name}");
        *self.named.entry(name).or_default() += 1;
    }

    /// The things that a run should meet and this one did not.
    pub fn not_met(&self) -> Vec<String> {
        let mut missing: Vec<String> = self.tables.iter().flat_map(Table::not_met).collect();
        let unmet = self
            .names
            .iter()
            .filter(|name| !self.named.contains_key(*name));
        missing.extend(unmet.map(|name| name.to_string()));
        missing
    }

    /// The counts as text.
    pub fn text(&self) -> String {
        let subject = self.subject.name();
        let (calls, trials) = (self.calls, self.trials);
        let mut text = format!("{calls} {subject} calls in {trials} trials\n");
        if self.subject == Subject::Log {
            text += &self.sums.text();
        }
        text += "\n";
        for table in &self.tables {
            text += &table.text();
        }
        text += "| Met | Times |\n|---|---:|\n";
        for name in self.names {
            let count = self.named.get(name).copied().unwrap_or(0);
            text += &format!("| {name} | {count} |\n");
        }
        let missing = self.not_met();
        let missing = if missing.is_empty() {
            "nothing".to_string()
        } else {
            missing.join("; ")
        };
        text += &format!("\nNot met: {missing}\n");
        text
    }
}

impl Table {
    fn new(
        which: &'static str,
        kinds: &'static [&'static str],
        possible: &'static [&'static [u8]],
    ) -> Table {
        Table {
            which,
            kinds,
            possible,
            refusals: vec![BTreeMap::new(); kinds.len()],
        }
    }

    fn count(&mut self, kind: usize, refusal: u8) {
        *self.refusals[kind].entry(refusal).or_default() += 1;
    }

    /// The refusals that calls should meet and did not.
    fn not_met(&self) -> Vec<String> {
        let mut missing = Vec::new();
        for (kind, numbers) in self.possible.iter().enumerate() {
            for number in *numbers {
                if !self.refusals[kind].contains_key(number) {
                    let (name, which) = (self.kinds[kind], self.which);
                    missing.push(format!("{name}{which} with {number}"));
                }
            }
        }
        missing
    }

    /// The numbers of calls as text.
    fn text(&self) -> String {
        let which = self.which;
        let mut text = format!("| Call{which} | Accepted | Refused, by number |\n|---|---:|---|\n");
        for (name, refusals) in self.kinds.iter().zip(&self.refusals) {
            let accepted = refusals.get(&0).copied().unwrap_or(0);
            let refused: Vec<String> = refusals
                .iter()
                .filter(|(&number, _)| number != 0)
                .map(|(number, count)| format!("{number}: {count}"))
                .collect();
            text += &format!("| {name} | {accepted} | {} |\n", refused.join(", "));
        }
        text + "\n"
    }
}
