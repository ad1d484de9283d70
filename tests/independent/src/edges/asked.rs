//! What the functions say that store nothing: checks and totals, what is looked up in a command and among the things, a mark that is set in a copy of
//! them, sets and numbers.

use super::at_position;
use super::said::{Said, NUMBER};
use super::seats::Seats;
use super::tasks::Task;
use super::values::{names, CommandValue, SchemeValue};
use crate::matrix::all_rights;
use crate::scheme::{group, is_subject_type};
use crate::tools::id_in;

pub fn say(task: &Task, scheme: &SchemeValue, seats: &Seats, lent: usize) -> Said {
    match task {
        Task::Accepted => accepted(scheme, seats, lent),
        Task::CommandAccepted(command) => {
            let command = *command as usize;
            let fault = scheme.command_fault(command);
            Said::default()
                .gave("accepted::command_fault", fault)
                .through(NUMBER, fault)
                .flag(
                    "accepted::command_accepted",
                    scheme.command_accepted(command),
                )
        }
        Task::Totals => totals(scheme, seats, lent),
        Task::Form {
            command,
            operations,
            parameter,
            code,
        } => {
            let command = &scheme.commands[usize::from(*command)];
            form(command, *operations, *parameter, *code)
        }
        Task::Seats { first, id } => Said::default()
            .value("things::seat_in", seats.seat_in(*first, *id))
            .value("things::seat_of", seats.seat_in(u64::MAX, *id)),
        Task::MarkThing { id, held } => mark_thing(seats, *id, *held, lent),
        Task::At(at) => {
            let head = Some(scheme.head()).filter(|_| scheme.head_fault() == 0);
            at_position::say(at, head.as_ref(), seats)
        }
        _ => say_of_numbers(task),
    }
}

/// Sets, single numbers, and ids in words.
fn say_of_numbers(task: &Task) -> Said {
    match task {
        Task::Rights { set, right, n } => rights(*set, *right, *n),
        Task::Types { set, kind } => Said::default()
            .flag("rights::TypeSet::has", is_subject_type(*set, *kind))
            .flag(
                "rights::TypeSet::within",
                (*kind..16).all(|above| !is_subject_type(*set, above)),
            ),
        Task::Kinds { set, kind } => {
            Said::default().flag("records::Kinds::has", at_position::has_kind(*set, *kind))
        }
        Task::Numbers(one, other) => numbers(*one, *other),
        Task::IdIn(word) => say_id(id_in(word)),
        _ => unreachable!("it stores something"),
    }
}

fn accepted(scheme: &SchemeValue, seats: &Seats, lent: usize) -> Said {
    let head = scheme.head();
    Said::default()
        .flag("accepted::head_accepted", scheme.head_fault() == 0)
        .flag("accepted::scheme_accepted", scheme.scheme().is_some())
        .flag(
            "accepted_matrix::things_accepted",
            seats.things_accepted(&head),
        )
        .flag(
            "accepted_matrix::matrix_accepted",
            seats.accepted(&head, lent),
        )
}

fn totals(scheme: &SchemeValue, seats: &Seats, lent: usize) -> Said {
    let said = Said::default();
    match scheme.scheme() {
        Some(scheme) if seats.accepted(&scheme, lent) => {
            let matrix = seats.matrix(&scheme);
            said.gave("totals::totals", 0)
                .word(matrix.things().len())
                .word(matrix.nonempty_cells())
                .word(matrix.entries())
        }
        _ => said.gave("totals::totals", 27),
    }
}

/// The number, then the sum of the matrix with the things that are given back: those before where it is refused.
fn mark_thing(seats: &Seats, id: u16, held: bool, lent: usize) -> Said {
    let marked = seats.with_mark(id, held);
    let number = if marked.is_some() { 0 } else { 12 };
    let given = marked.as_ref().unwrap_or(seats);
    Said::default()
        .gave("hold::mark_thing", number)
        .word(given.sum_of_lent(lent))
}

/// Whether the word was an id's, and which.
fn say_id(id: Option<u16>) -> Said {
    let said = Said::default().flag("lines::id_in", id.is_some());
    id.into_iter().fold(said, Said::word)
}

fn form(command: &CommandValue, operations: u64, parameter: u8, code: u8) -> Said {
    let before = command.first_operations(operations);
    let last_group = before.last().map_or(0, |last| group(last[0]));
    Said::default()
        .value("accepted::type_at", command.type_of(parameter))
        .value("accepted::last_group", last_group)
        .flag(
            "accepted::creatable",
            !names(before, 3, parameter) && !command.tests_name(parameter),
        )
        .flag("accepted::destroyable", !names(before, 4, parameter))
        .value("accepted::group_of", group(code))
        .flag("accepted::is_create", code == 3)
}

/// A right of number 64 or above is in no set, and there are no more than 64 of n rights.
fn rights(set: u64, right: u8, n: u8) -> Said {
    let single = 1u64.checked_shl(right.into()).unwrap_or(0);
    let all = all_rights(n);
    Said::default()
        .value("rights::Right::partner", right.saturating_add(n))
        .value("rights::Right::single", single)
        .value("rights::RightSet::all", all)
        .flag("rights::RightSet::has", set & single != 0)
        .flag("rights::RightSet::is_empty", set == 0)
        .value("rights::RightSet::enter", set | single)
        .value("rights::RightSet::delete", set & !single)
        .value("rights::RightSet::complement", all & !set)
        .flag("rights::RightSet::within", set & !all == 0)
        .value("rights::RightSet::count", set.count_ones())
}

/// As a right, as a type, as a parameter. Whether two rights are one is told with the others' answers.
fn numbers(one: u8, other: u8) -> Said {
    Said::default()
        .flag("rights::Right::below", one < other)
        .flag("rights::Right::is_zero", one == 0)
        .value("rights::Right::byte", one)
        .through("rights::Right::is", u8::from(one == other))
        .flag("rights::ThingType::below", one < other)
        .flag("rights::ThingType::is", one == other)
        .flag("rights::ThingType::is_zero", one == 0)
        .value("rights::ThingType::byte", one)
        .flag("rights::Parameter::below", one < other)
        .flag("rights::Parameter::is", one == other)
        .flag("rights::Parameter::is_zero", one == 0)
        .value("rights::Parameter::byte", one)
}
