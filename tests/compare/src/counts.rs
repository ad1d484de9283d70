//! Counts what was compared, so that it shows what a comparison covers.

use std::collections::BTreeMap;
use std::fmt;

use independent::answer::{Answer, MOST_STEPS};
use independent::refusal::{Fault, Found};
use independent::scheme::MOST_TESTS;

use crate::list::Carried;
use crate::told::{Call, Told};
use crate::ways::Ways;

/// The outline's numbers.
const LAST: u64 = 27;

#[derive(Default)]
pub struct Counts {
    pub cases: u64,
    pub results: u64,
    /// What the library's functions gave, by number.
    calls: BTreeMap<u64, u64>,
    /// What requests were answered, by number.
    answers: BTreeMap<u64, u64>,
    /// Requests that were answered 14, by the test's place.
    stops: BTreeMap<u8, u64>,
    /// All requests, by their steps.
    steps: BTreeMap<u8, u64>,
    faults: BTreeMap<Fault, u64>,
    /// What the highest id, the marks and the moves decided.
    pub ways: Ways,
}

impl Counts {
    /// A result that was compared.
    pub fn told(&mut self, told: &Told) {
        self.results += 1;
        if !matches!(told.call, Call::Inputs) {
            *self.calls.entry(told.numbers[1].1).or_default() += 1;
        }
    }

    pub fn answer(&mut self, answer: Answer) {
        *self.answers.entry(u64::from(answer.number)).or_default() += 1;
        *self.steps.entry(answer.steps).or_default() += 1;
        if answer.number == 14 {
            *self.stops.entry(answer.test).or_default() += 1;
        }
    }

    pub fn reading<T>(&mut self, read: &Result<T, Found>) {
        if let Err(found) = read {
            *self.faults.entry(found.fault).or_default() += 1;
        }
    }

    pub fn list(&mut self, carried: &Carried) {
        for answer in &carried.answers {
            self.answer(*answer);
        }
        if let Some(found) = carried.ending {
            self.reading::<()>(&Err(found));
        }
    }
}

/// A line a count, the count first: so lines of several runs can be added up by what stands behind it.
impl fmt::Display for Counts {
    fn fmt(&self, f: &mut fmt::Formatter) -> fmt::Result {
        writeln!(f, "{} cases", self.cases)?;
        writeln!(f, "{} results", self.results)?;
        for number in 0..=LAST {
            let calls = self.calls.get(&number).unwrap_or(&0);
            writeln!(f, "{calls} calls gave {number}")?;
        }
        for number in 0..=LAST {
            let answers = self.answers.get(&number).unwrap_or(&0);
            writeln!(f, "{answers} requests were answered {number}")?;
        }
        for test in 0..MOST_TESTS {
            let stops = self.stops.get(&test).unwrap_or(&0);
            writeln!(f, "{stops} requests were stopped by test {test}")?;
        }
        for steps in 0..=MOST_STEPS {
            let requests = self.steps.get(&steps).unwrap_or(&0);
            writeln!(f, "{requests} requests took {steps} steps")?;
        }
        for fault in Fault::ALL {
            let count = self.faults.get(fault).unwrap_or(&0);
            let number = fault.number();
            writeln!(f, "{count} readings met fault {number}: {}", fault.words())?;
        }
        write!(f, "{}", self.ways)
    }
}
