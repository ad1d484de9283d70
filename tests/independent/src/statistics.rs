//! Counts how often each refusal comes up over generated cases, and what ends requests, so that it shows what a comparison covers.

#[macro_use]
mod words;

mod answers;
mod held;
mod highest;
mod incomplete;
mod moved;

pub use answers::{Answers, Stands};
pub use held::{Held, Stood};
pub use highest::{Highest, Met};
pub use incomplete::{Behind, Did, Length, Looser, Paired, Pairs, Start, Stopped};
pub use moved::{Direction, Lost, Mistaken, Moved, Moves, Place, Short, Went};

use std::collections::BTreeMap;
use std::fmt;

use crate::bytes::store;
use crate::convert::{convert_matrix, convert_scheme};
use crate::engine::carry_out;
use crate::generate::incomplete::{pair, Pair};
use crate::generate::{case, Case};
use crate::hold::mark;
use crate::incomplete::Run;
use crate::matrix::{find_matrix, write_matrix, Matrix};
use crate::moving::{back, forward};
use crate::print::MOST_INPUT;
use crate::refusal::{Fault, Found, Refusal};
use crate::request::{find_request, write_request};
use crate::scheme::{find_scheme, write_scheme, Scheme};

/// What was asked: each a column of the table.
#[derive(Clone, Copy, Debug, PartialEq, Eq, PartialOrd, Ord)]
pub enum Asked {
    Scheme,
    Matrix,
    RequestRecord,
    Request,
    Conversion,
    Marking,
    Writing,
    Forward,
    Back,
}

const COLUMNS: [(Asked, &str); 9] = [
    (Asked::Scheme, "scheme"),
    (Asked::Matrix, "matrix"),
    (Asked::RequestRecord, "record"),
    (Asked::Request, "request"),
    (Asked::Conversion, "conversion"),
    (Asked::Marking, "marking"),
    (Asked::Writing, "writing"),
    (Asked::Forward, "forward"),
    (Asked::Back, "back"),
];

#[derive(Clone, Debug, Default)]
pub struct Statistics {
    pub numbers: BTreeMap<(u8, Asked), u64>,
    pub faults: BTreeMap<Fault, u64>,
    pub answers: Answers,
    pub highest: Highest,
    pub held: Held,
    pub moves: Moves,
    pub pairs: Pairs,
}

impl Statistics {
    pub fn of(seed: u64, count: u64) -> Statistics {
        let mut statistics = Statistics::default();
        for number in 0..count {
            statistics.add(&case(seed, number));
            if let Some(pair) = pair(seed, number) {
                statistics.add_pair(&pair);
            }
        }
        statistics
    }

    pub fn count(&self, number: u8, asked: Asked) -> u64 {
        self.numbers.get(&(number, asked)).copied().unwrap_or(0)
    }

    pub fn fault(&self, fault: Fault) -> u64 {
        self.faults.get(&fault).copied().unwrap_or(0)
    }

    pub fn add(&mut self, case: &Case) {
        let Some((scheme, _)) = self.reading(Asked::Scheme, find_scheme(&case.scheme)) else {
            return;
        };
        self.move_images(&scheme, case);
        let found = find_matrix(&case.matrix, &scheme);
        if let Err(found) = found {
            self.highest.refused_matrix(found, &case.matrix, &scheme);
            self.held.refused_matrix(found, &case.matrix);
        }
        let Some(mut matrix) = self.reading(Asked::Matrix, found) else {
            return;
        };
        self.highest.matrix(&matrix);
        self.held.matrix(&matrix, &scheme);
        self.convert(&scheme, &matrix, case.room);
        self.mark(&scheme, &matrix, case);
        self.write(&scheme, &matrix, case);

        let list = &case.requests[..case.requests.len().min(MOST_INPUT)];
        let mut at = 0;
        loop {
            let found = find_request(list, at);
            let Some(Some((request, next))) = self.reading(Asked::RequestRecord, found) else {
                break;
            };
            self.request(&scheme, &mut matrix, request.command, &request.ids);
            at = next;
        }
        for (command, ids) in &case.direct {
            self.request(&scheme, &mut matrix, *command, ids);
        }
    }

    pub fn add_pair(&mut self, pair: &Pair) {
        let run = |matrix: &Matrix| Run::of(&pair.scheme, matrix, &pair.requests);
        let (poorer, richer) = (run(&pair.poorer), run(&pair.richer));
        self.pairs.add(pair, &poorer, &richer);
    }

    fn request(&mut self, scheme: &Scheme, matrix: &mut Matrix, command: u8, ids: &[u16]) {
        let command = usize::from(command);
        let before = matrix.clone();
        let answer = carry_out(scheme, matrix, command, ids);
        self.note(Asked::Request, answer.number);
        let command = scheme.commands.get(command);
        self.answers.add(answer, command);
        if let Some(command) = command {
            let highest = before.highest();
            self.highest.request(command, ids, answer, highest, matrix);
            self.held.request(command, ids, answer, &before, matrix);
        }
    }

    /// Scheme and matrix by a call each, then 9 for a buffer that is too short.
    fn convert(&mut self, scheme: &Scheme, matrix: &Matrix, room: usize) {
        let mut out = vec![0; room];
        let converted = convert_scheme(scheme);
        let bytes = converted.clone().map(|converted| write_scheme(&converted));
        let stored = bytes.and_then(|bytes| store(&bytes, &mut out));
        self.note(Asked::Conversion, stored.err().unwrap_or(0));

        let bytes = convert_matrix(matrix, scheme)
            .and_then(|matrix| converted.map(|converted| write_matrix(&matrix, &converted)));
        let stored = bytes.and_then(|bytes| store(&bytes, &mut out));
        self.note(Asked::Conversion, stored.err().unwrap_or(0));
    }

    /// One behind the other, each 12, then 9.
    fn mark(&mut self, scheme: &Scheme, matrix: &Matrix, case: &Case) {
        let (mut matrix, mut out) = (matrix.clone(), vec![0; case.room]);
        for &(id, held) in &case.marks {
            let marked = mark(&matrix, id, held);
            self.held.mark(id, held, &matrix, &marked);
            let bytes = marked.as_ref().map(|marked| write_matrix(marked, scheme));
            let bytes = bytes.map_err(|refusal| refusal.number);
            let stored = bytes.and_then(|bytes| store(&bytes, &mut out));
            self.note(Asked::Marking, stored.err().unwrap_or(0));
            matrix = marked.unwrap_or(matrix);
        }
    }

    /// Reading's own numbers, on the way back 23, then 9.
    fn move_images(&mut self, scheme: &Scheme, case: &Case) {
        let mut out = vec![0; case.moved_room];
        let mut number = |moved: Result<Vec<u8>, Refusal>| {
            let bytes = moved.map_err(|refusal| refusal.number);
            let stored = bytes.and_then(|bytes| store(&bytes, &mut out));
            stored.err().unwrap_or(0)
        };
        let numbers = [
            number(forward(scheme, &case.old)),
            number(back(scheme, &case.new)),
        ];
        self.note(Asked::Forward, numbers[0]);
        self.note(Asked::Back, numbers[1]);
        self.moves.forward(scheme, &case.old, case.moved_room);
        self.moves.back(scheme, &case.new, case.moved_room);
    }

    fn write(&mut self, scheme: &Scheme, matrix: &Matrix, case: &Case) {
        let mut out = vec![0; case.room];
        let mut all = vec![Ok(write_scheme(scheme)), Ok(write_matrix(matrix, scheme))];
        all.extend(
            case.direct
                .iter()
                .map(|(command, ids)| write_request(*command, ids)),
        );
        for bytes in all {
            let stored = bytes.and_then(|bytes| store(&bytes, &mut out));
            self.note(Asked::Writing, stored.err().unwrap_or(0));
        }
    }

    fn reading<T>(&mut self, asked: Asked, answer: Result<T, Found>) -> Option<T> {
        match answer {
            Ok(content) => {
                self.note(asked, 0);
                Some(content)
            }
            Err(found) => {
                self.note(asked, found.fault.number());
                *self.faults.entry(found.fault).or_default() += 1;
                None
            }
        }
    }

    fn note(&mut self, asked: Asked, number: u8) {
        *self.numbers.entry((number, asked)).or_default() += 1;
    }
}

impl fmt::Display for Statistics {
    fn fmt(&self, out: &mut fmt::Formatter) -> fmt::Result {
        write!(out, "number")?;
        for (_, name) in COLUMNS {
            write!(out, " {name:>10}")?;
        }
        writeln!(out)?;
        for number in 0..=23 {
            if number != 19 {
                write!(out, "{number:>6}")?;
                for (asked, _) in COLUMNS {
                    write!(out, " {:>10}", self.count(number, asked))?;
                }
                writeln!(out)?;
            }
        }
        writeln!(out, "\n{}", self.answers)?;
        writeln!(out, "{}", self.highest)?;
        writeln!(out, "{}", self.held)?;
        writeln!(out, "{}", self.moves)?;
        writeln!(out, "{}", self.pairs)?;
        writeln!(out, "number      count fault")?;
        for fault in Fault::ALL {
            writeln!(
                out,
                "{:>6} {:>10} {}",
                fault.number(),
                self.fault(*fault),
                fault.words()
            )?;
        }
        Ok(())
    }
}
