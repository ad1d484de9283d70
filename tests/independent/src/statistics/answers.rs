//! Counts which test stops a request, how many steps one takes, and where the operation stands that refuses one late.

use std::collections::BTreeMap;
use std::fmt;

use crate::answer::{Answer, MOST_STEPS};
use crate::scheme::{Command, MOST_TESTS};

/// Where an operation stands among those of its command; the only one stands first.
#[derive(Clone, Copy, Debug, PartialEq, Eq, PartialOrd, Ord)]
pub enum Stands {
    First,
    Between,
    Last,
}

#[derive(Clone, Debug, Default)]
pub struct Answers {
    /// Requests that were answered 14, by the test's place.
    stops: BTreeMap<u8, u64>,
    /// All requests, by their steps.
    steps: BTreeMap<u8, u64>,
    /// Requests that were answered 15 to 17, by the number, where the operation stands, and whether tests stand in front of it.
    faulty: BTreeMap<(u8, Stands, bool), u64>,
}

impl Answers {
    pub fn stopped_by(&self, test: u8) -> u64 {
        self.stops.get(&test).copied().unwrap_or(0)
    }

    pub fn took(&self, steps: u8) -> u64 {
        self.steps.get(&steps).copied().unwrap_or(0)
    }

    pub fn faulty(&self, number: u8, stands: Stands, has_tests: bool) -> u64 {
        let count = self.faulty.get(&(number, stands, has_tests));
        count.copied().unwrap_or(0)
    }

    /// The answer to a request of this command, if there is such a command.
    pub fn add(&mut self, answer: Answer, command: Option<&Command>) {
        *self.steps.entry(answer.steps).or_default() += 1;
        match (answer.number, command) {
            (14, _) => *self.stops.entry(answer.test).or_default() += 1,
            (15..=17, Some(command)) => {
                let has_tests = !command.tests.is_empty();
                let key = (answer.number, stands(answer, command), has_tests);
                *self.faulty.entry(key).or_default() += 1;
            }
            _ => {}
        }
    }
}

/// Of the operation that refused the request: it took the last step.
fn stands(answer: Answer, command: &Command) -> Stands {
    let count = usize::from(answer.steps) - command.tests.len();
    match count {
        1 => Stands::First,
        count if count == command.operations.len() => Stands::Last,
        _ => Stands::Between,
    }
}

impl fmt::Display for Answers {
    fn fmt(&self, out: &mut fmt::Formatter) -> fmt::Result {
        writeln!(out, "  test    stopped")?;
        for test in 0..MOST_TESTS {
            writeln!(out, "{test:>6} {:>10}", self.stopped_by(test))?;
        }
        writeln!(out, "\n steps   requests")?;
        for steps in 0..=MOST_STEPS {
            writeln!(out, "{steps:>6} {:>10}", self.took(steps))?;
        }
        writeln!(out, "\nnumber   no tests      tests operation")?;
        for number in 15..=17 {
            for stands in [Stands::First, Stands::Between, Stands::Last] {
                let count = |has_tests| self.faulty(number, stands, has_tests);
                let (without, with) = (count(false), count(true));
                writeln!(out, "{number:>6} {without:>10} {with:>10} {stands:?}")?;
            }
        }
        Ok(())
    }
}
