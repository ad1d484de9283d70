//! Pairs of matrices of which one lacks entries of the other, with a list of requests for both: of matrices drawn at random hardly any are such a pair,
//! and hardly a list goes on for long.

mod aimed;
mod lacking;
mod list;
mod making;
pub mod plan;
mod spoiled;
mod tables;

use super::random::Random;
use crate::matrix::Matrix;
use crate::request::{write_request, Request};
use crate::scheme::Scheme;
use plan::{Ending, Lacking, Plan};

/// Two matrices of a scheme with the same things, marks and highest id. Mostly the scheme has no test of absence.
#[derive(Clone, Debug, PartialEq, Eq)]
pub struct Pair {
    pub scheme: Scheme,
    pub poorer: Matrix,
    pub richer: Matrix,
    pub requests: Vec<Request>,
}

impl Pair {
    /// The list's bytes up to a request.
    pub fn list(&self, count: usize) -> Vec<u8> {
        let record = |request: &Request| write_request(request.command, &request.ids);
        let records = self.requests[..count].iter().map(record);
        records
            .flat_map(|record| record.expect("few ids"))
            .collect()
    }
}

/// A pair takes many calls, so that only some cases have one.
const EVERY: u64 = 3;

/// So many of so many schemes have tests of absence.
const ABSENCE: (usize, usize) = (1, 6);

/// From a source of its own, so that the cases are what they would be without pairs.
const SOURCE: u64 = 0x1ACC_0000_0000_0000;

/// The pair of a case, which has nothing else to do with it.
pub fn pair(seed: u64, number: u64) -> Option<Pair> {
    if number % EVERY != 0 {
        return None;
    }
    let random = &mut Random::new(seed ^ SOURCE, number);
    let ending = *random.pick(&Ending::ALL);
    let is_full = match ending {
        Ending::Same(16) => true,
        Ending::Alone => random.chance(1, 3),
        _ => random.chance(1, 16),
    };
    let plan = Plan {
        lacking: *random.pick(&Lacking::ALL),
        ending,
        is_full,
        tests_absence: random.chance(ABSENCE.0, ABSENCE.1),
    };
    let scheme = tables::scheme(random, &plan);
    let richer = tables::richer(random, &scheme, &plan);
    let poorer = lacking::poorer(random, plan.lacking, &scheme, &richer);
    let requests = list::list(random, &scheme, &plan, (&poorer, &richer));
    Some(Pair {
        scheme,
        poorer,
        richer,
        requests,
    })
}
