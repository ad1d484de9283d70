//! Requests that do something with one of the missing entries: of those drawn at random hardly any does, where there are many things.

use crate::generate::random::Random;
use crate::incomplete::Entry;
use crate::request::Request;
use crate::scheme::{Command, Operation, Scheme};

#[derive(Clone, Copy, Debug, PartialEq, Eq)]
pub enum Aim {
    Test,
    Enter,
    /// The thing in whose row or column it is.
    Destroy,
}

/// A request of a command that there is, with other ids; none where the command can't do it. Whether the things' types fit is for the engines to find.
pub fn aimed(
    random: &mut Random,
    aim: Aim,
    mut request: Request,
    (scheme, missing): (&Scheme, &[Entry]),
) -> Option<Request> {
    if missing.is_empty() {
        return None;
    }
    let entry = *random.pick(missing);
    let command = &scheme.commands[usize::from(request.command)];
    let places = match aim {
        Aim::Test => tests(command, entry.right),
        Aim::Enter => enters(command, entry.right),
        Aim::Destroy => destroys(command),
    };
    if places.is_empty() {
        return None;
    }
    let (row, column) = *random.pick(&places);
    match aim {
        Aim::Destroy => request.ids[row] = *random.pick(&[entry.row, entry.column]),
        _ => (request.ids[row], request.ids[column]) = (entry.row, entry.column),
    }
    Some(request)
}

/// Which parameters are the row and the column.
type Place = (usize, usize);

fn tests(command: &Command, right: u8) -> Vec<Place> {
    let tests = command.tests.iter().filter(|test| test.right == right);
    let places = tests.map(|test| (test.row.into(), test.column.into()));
    places.collect()
}

fn enters(command: &Command, right: u8) -> Vec<Place> {
    let mut places = Vec::new();
    for operation in &command.operations {
        match *operation {
            Operation::Enter {
                right: entered,
                row,
                column,
            } if entered == right && !command.is_new(row) && !command.is_new(column) => {
                places.push((row.into(), column.into()));
            }
            _ => {}
        }
    }
    places
}

/// The parameter twice.
fn destroys(command: &Command) -> Vec<Place> {
    let mut places = Vec::new();
    for operation in &command.operations {
        match *operation {
            Operation::Destroy { parameter } if !command.is_new(parameter) => {
                places.push((parameter.into(), parameter.into()));
            }
            _ => {}
        }
    }
    places
}
