//! A list in the making, with the two matrices as it leaves them; its requests are sought by what both answer.

use crate::answer::Answer;
use crate::engine::{carry_out, Dense};
use crate::generate::random::Random;
use crate::generate::stops::ids;
use crate::incomplete::{entries_more, Entry};
use crate::matrix::Matrix;
use crate::request::Request;
use crate::scheme::Scheme;

/// So many draws are tried for a request that is carried out, and for one that does what is seldom done.
pub const FEW: usize = 12;
pub const MANY: usize = 60;

pub struct Making<'a> {
    pub scheme: &'a Scheme,
    pub poorer: Side,
    pub richer: Side,
    pub requests: Vec<Request>,
}

pub struct Side {
    pub matrix: Matrix,
    /// The same, on which a request is quickly tried.
    dense: Dense,
}

impl Making<'_> {
    pub fn of<'a>(scheme: &'a Scheme, poorer: &Matrix, richer: &Matrix) -> Making<'a> {
        Making {
            scheme,
            poorer: Side::of(poorer),
            richer: Side::of(richer),
            requests: Vec::new(),
        }
    }

    /// What the poorer lacks now.
    pub fn missing(&self) -> Vec<Entry> {
        entries_more(&self.richer.matrix, &self.poorer.matrix)
    }

    pub fn drawn(&self, random: &mut Random) -> Option<Request> {
        drawn(random, self.scheme, &self.poorer.matrix)
    }

    /// Puts the first of so many candidates whose two numbers, the poorer's first, are as wanted; whether there is one.
    pub fn seek(
        &mut self,
        random: &mut Random,
        tries: usize,
        candidate: impl Fn(&Self, &mut Random) -> Option<Request>,
        is_wanted: impl Fn(u8, u8) -> bool,
    ) -> bool {
        let mut candidates = (0..tries).filter_map(|_| candidate(self, random));
        let found = candidates.find(|request| {
            let number = |side: &Side| side.tried(self.scheme, request).number;
            is_wanted(number(&self.poorer), number(&self.richer))
        });
        found.map(|request| self.put(request)).is_some()
    }

    pub fn put(&mut self, request: Request) {
        self.poorer.carry(self.scheme, &request);
        self.richer.carry(self.scheme, &request);
        self.requests.push(request);
    }
}

impl Side {
    fn of(matrix: &Matrix) -> Side {
        Side {
            matrix: matrix.clone(),
            dense: Dense::from_matrix(matrix),
        }
    }

    fn tried(&self, scheme: &Scheme, request: &Request) -> Answer {
        let mut dense = self.dense.clone();
        dense.carry_out(scheme, request.command.into(), &request.ids)
    }

    fn carry(&mut self, scheme: &Scheme, request: &Request) {
        let command = usize::from(request.command);
        carry_out(scheme, &mut self.matrix, command, &request.ids);
        self.dense.carry_out(scheme, command, &request.ids);
    }
}

/// A request of any command for things of its types that aren't on hold, with new ids that rise; none where a type has no such thing.
pub fn drawn(random: &mut Random, scheme: &Scheme, matrix: &Matrix) -> Option<Request> {
    let command = random.below(scheme.commands.len());
    let ids = ids(random, &scheme.commands[command], matrix)?;
    let command = command as u8;
    Some(Request { command, ids })
}
