//! Counts of what passed, failed and occurred.

use crate::rules::Rule;
use std::collections::BTreeMap;
use std::process::ExitCode;

/// How many refusals there are, counted from 1.
const REFUSALS: usize = 29;

/// The counts of a whole test, and where it stands.
pub struct Tally {
    name: &'static str,
    pub round: u64,
    passed: u64,
    failed: u64,
    refusals: [u64; REFUSALS + 1],
    rules: [u64; 11],
    /// What else must occur, by name.
    events: BTreeMap<String, u64>,
}

impl Tally {
    /// The counts of a test that must see every rule, every refusal and these
    /// events.
    pub fn new<T: Into<String>>(name: &'static str, events: impl IntoIterator<Item = T>) -> Self {
        Tally {
            name,
            round: 0,
            passed: 0,
            failed: 0,
            refusals: [0; REFUSALS + 1],
            rules: [0; 11],
            events: events.into_iter().map(|event| (event.into(), 0)).collect(),
        }
    }

    /// Counts one assertion and shows the first that fail.
    pub fn expect(&mut self, holds: bool, what: impl FnOnce() -> String) {
        if holds {
            self.passed += 1;
        } else {
            self.failed += 1;
            if self.failed <= 20 {
                println!("failed in round {}: {}", self.round, what());
            }
        }
    }

    /// Counts an answer: a rule or a refusal, by number.
    pub fn answer(&mut self, answer: Result<u8, u8>) {
        match answer {
            Ok(rule) => self.rule(rule),
            Err(number) => self.refusal(number),
        }
    }

    pub fn rule(&mut self, number: u8) {
        self.rules[usize::from(number)] += 1;
    }

    pub fn refusal(&mut self, number: u8) {
        self.refusals[usize::from(number)] += 1;
    }

    pub fn event(&mut self, name: &str) {
        match self.events.get_mut(name) {
            Some(count) => *count += 1,
            None => _ = self.events.insert(name.to_string(), 1),
        }
    }

    /// Prints the counts; what never occurred is a failure.
    pub fn finish(mut self) -> ExitCode {
        let mut counts: Vec<(String, u64)> = Vec::new();
        for rule in Rule::ALL {
            let count = self.rules[usize::from(rule.number())];
            counts.push((format!("rule {} {}", rule.number(), rule.name()), count));
        }
        for number in 1..=REFUSALS {
            counts.push((format!("refusal {number}"), self.refusals[number]));
        }
        counts.extend(self.events.clone());
        for (name, count) in counts {
            println!("{name}: {count}");
            self.expect(count > 0, || format!("{name} never occurs"));
        }
        let (name, passed, failed) = (self.name, self.passed, self.failed);
        println!("{name}: {passed} passed, {failed} failed");
        if failed == 0 {
            ExitCode::SUCCESS
        } else {
            ExitCode::FAILURE
        }
    }
}
