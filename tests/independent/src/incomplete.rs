//! What is promised of a matrix that lacks entries: up to its first refusal it does nothing that a richer one would not. It is held to answers and matrices,
//! whoever gave them, and not to an engine.

mod named;

pub use named::Named;

use std::fmt;

use crate::answer::Answer;
use crate::engine::carry_out;
use crate::matrix::Matrix;
use crate::request::Request;
use crate::scheme::{Command, Scheme};

/// What a list of requests gave: the answer to each, and the matrix after each.
#[derive(Clone, Debug, Default, PartialEq, Eq)]
pub struct Run {
    pub answers: Vec<Answer>,
    pub after: Vec<Matrix>,
}

impl Run {
    /// What this program's own engine gives.
    pub fn of(scheme: &Scheme, matrix: &Matrix, requests: &[Request]) -> Run {
        let (mut run, mut matrix) = (Run::default(), matrix.clone());
        for Request { command, ids } in requests {
            let answer = carry_out(scheme, &mut matrix, usize::from(*command), ids);
            run.answers.push(answer);
            run.after.push(matrix.clone());
        }
        run
    }

    /// How many requests were carried out before the first refusal.
    pub fn carried_out(&self) -> usize {
        let refused = self.answers.iter().position(|answer| answer.number != 0);
        refused.unwrap_or(self.answers.len())
    }
}

/// One right in one cell.
#[derive(Clone, Copy, Debug, PartialEq, Eq, PartialOrd, Ord)]
pub struct Entry {
    pub row: u16,
    pub column: u16,
    pub right: u8,
}

impl Entry {
    pub fn is_in(self, matrix: &Matrix) -> bool {
        let rights = matrix.cell(self.row, self.column).unwrap_or(0);
        rights >> self.right & 1 == 1
    }

    /// Whether it is in the row or the column of one of these things.
    pub fn is_of(self, things: &[u16]) -> bool {
        things.contains(&self.row) || things.contains(&self.column)
    }
}

/// The entries of the first matrix that the second lacks, in order. A cell that doesn't exist has none.
pub fn entries_more(first: &Matrix, second: &Matrix) -> Vec<Entry> {
    let mut more = Vec::new();
    for (&(row, column), &rights) in first.cells() {
        let left = rights & !second.cell(row, column).unwrap_or(0);
        let rights = (0..64).filter(|right| left >> right & 1 == 1);
        more.extend(rights.map(|right| Entry { row, column, right }));
    }
    more
}

/// Why one matrix isn't a poorer one of another.
#[derive(Clone, Copy, Debug, PartialEq, Eq)]
pub enum Unlike {
    /// There are others, or one has another type.
    Things,
    Marks,
    Highest,
    /// The poorer has this one, and the richer lacks it.
    More(Entry),
}

/// The premise on the matrices: the same things, marks and highest id, and each entry of the poorer is one of the richer.
pub fn unlike(poorer: &Matrix, richer: &Matrix) -> Option<Unlike> {
    if poorer.things() != richer.things() {
        return Some(Unlike::Things);
    }
    if poorer.on_hold() != richer.on_hold() {
        return Some(Unlike::Marks);
    }
    if poorer.highest() != richer.highest() {
        return Some(Unlike::Highest);
    }
    let more = entries_more(poorer, richer);
    more.first().copied().map(Unlike::More)
}

/// The premise on the scheme: no command tests that a right is absent.
pub fn tests_no_absence(scheme: &Scheme) -> bool {
    let present = |command: &Command| command.tests.iter().all(|test| test.present);
    scheme.commands.iter().all(present)
}

/// How the promise is broken by a request that the poorer carried out before its first refusal.
#[derive(Clone, Copy, Debug, PartialEq, Eq)]
pub enum Broken {
    /// The poorer's own answer isn't that of a request of this command that is carried out.
    Poorer(usize, Answer),
    /// The richer's isn't, or it has none.
    Richer(usize, Option<Answer>),
    /// They are no such pair any more.
    After(usize, Unlike),
    /// Not both have told their matrix.
    Untold(usize),
}

/// All that is broken, in the order of the list; nothing where the promise is kept. The premises are not looked at.
pub fn broken(scheme: &Scheme, requests: &[Request], poorer: &Run, richer: &Run) -> Vec<Broken> {
    let mut broken = Vec::new();
    for place in 0..poorer.carried_out() {
        let command = requests.get(place).map(|request| request.command);
        let command = command.and_then(|number| scheme.commands.get(usize::from(number)));
        let whole = command.map(Answer::carried_out);
        let answer = poorer.answers[place];
        if whole != Some(answer) {
            broken.push(Broken::Poorer(place, answer));
        }
        let answer = richer.answers.get(place).copied();
        if answer.is_none() || whole != answer {
            broken.push(Broken::Richer(place, answer));
        }
        match (poorer.after.get(place), richer.after.get(place)) {
            (Some(poorer), Some(richer)) => {
                let unlike = unlike(poorer, richer);
                broken.extend(unlike.map(|unlike| Broken::After(place, unlike)));
            }
            _ => broken.push(Broken::Untold(place)),
        }
    }
    broken
}

impl fmt::Display for Unlike {
    fn fmt(&self, out: &mut fmt::Formatter) -> fmt::Result {
        match self {
            Unlike::Things => write!(out, "the two have other things"),
            Unlike::Marks => write!(out, "other things are on hold in the two"),
            Unlike::Highest => write!(out, "the two have another highest id"),
            Unlike::More(Entry { row, column, right }) => write!(
                out,
                "the poorer has right {right} in [{row}, {column}], which the richer lacks"
            ),
        }
    }
}

impl fmt::Display for Broken {
    fn fmt(&self, out: &mut fmt::Formatter) -> fmt::Result {
        let (Broken::Poorer(place, _)
        | Broken::Richer(place, _)
        | Broken::After(place, _)
        | Broken::Untold(place)) = self;
        write!(out, "the poorer carries out request {place}, and ")?;
        match self {
            Broken::Poorer(_, answer) => write!(out, "answers {:?}", answer.bytes()),
            Broken::Richer(_, None) => write!(out, "the richer has no answer to it"),
            Broken::Richer(_, Some(answer)) => write!(out, "the richer {}", answered(*answer)),
            Broken::After(_, unlike) => write!(out, "after it {unlike}"),
            Broken::Untold(_) => write!(out, "not both tell their matrix after it"),
        }
    }
}

fn answered(answer: Answer) -> String {
    match answer.number {
        0 => format!("answers {:?}", answer.bytes()),
        14 => format!("refuses it with 14 at test {}", answer.test),
        number => format!("refuses it with {number}"),
    }
}
