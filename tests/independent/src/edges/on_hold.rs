//! Requests that name things on hold (18): at the first places and the last, before and behind 12 and 13, beside new parameters, and in lists.

use super::carrying_out::{ask, makers, things_with, totals, type_of};
use super::examples::{changed, key_scheme, KEY_MATRIX, LOAD, RETIRE};
use super::lists::{requests, run};
use super::seats::Seat;
use super::{case, Case, Task};
use crate::matrix::{write_matrix, Matrix};
use crate::scheme::{write_scheme, Command, Operation, Scheme, MOST_PARAMETERS};

pub fn cases() -> Vec<Case> {
    [key_example(), places(), new_parameters(), lists()].concat()
}

/// The key example with these things on hold.
fn key_with(held: &[u16]) -> Vec<u8> {
    let kinds = [(5, 10), (9, 17), (12, 24)];
    let held = kinds.iter().filter(|(id, _)| held.contains(id));
    let changes: Vec<(usize, u8)> = held.map(|&(_, place)| (place, 8)).collect();
    changed(&KEY_MATRIX, &changes, 61)
}

/// A label, the things on hold, and requests of load and retire.
type Row = (
    &'static str,
    &'static [u16],
    &'static [(u8, &'static [u16])],
);

/// 10 and 11 come first. At each place 12, 13, then 18; what is wrong at an earlier place comes before what is wrong at a later one.
const KEYS: &[Row] = &[
    (
        "9",
        &[9],
        &[
            (LOAD, &[9, 12]),
            (RETIRE, &[5, 9]),
            (LOAD, &[9, 0]),
            (LOAD, &[9, 8]),
            (LOAD, &[9, 5]),
            (LOAD, &[9, 9]),
            (LOAD, &[0, 9]),
            (RETIRE, &[9, 9]),
            (RETIRE, &[8, 9]),
            (RETIRE, &[12, 9]),
            (RETIRE, &[5, 8]),
            (LOAD, &[9]),
            (LOAD, &[9, 12, 12]),
            (2, &[9, 12]),
        ],
    ),
    (
        "12",
        &[12],
        &[
            (LOAD, &[9, 12]),
            (LOAD, &[8, 12]),
            (LOAD, &[5, 12]),
            (LOAD, &[12, 12]),
            (RETIRE, &[5, 12]),
            (RETIRE, &[5, 9]),
        ],
    ),
    (
        "5",
        &[5],
        &[(RETIRE, &[5, 9]), (RETIRE, &[5, 5]), (LOAD, &[9, 12])],
    ),
    (
        "all",
        &[5, 9, 12],
        &[(LOAD, &[9, 12]), (RETIRE, &[5, 9]), (RETIRE, &[9, 5])],
    ),
];

fn key_example() -> Vec<Case> {
    let mut cases = vec![key_scheme("on-hold-scheme")];
    for (label, held, asked) in KEYS {
        let read = Task::ReadMatrix(key_with(held));
        cases.push(case(format!("on-hold-{label}-matrix"), read));
        for (command, ids) in *asked {
            let name = ["retire", "load", "command-2"][usize::from(*command)];
            let ids_in_words: Vec<String> = ids.iter().map(u16::to_string).collect();
            let label = format!("on-hold-{label}-{name}-{}", ids_in_words.join("-"));
            cases.push(ask(&label, *command, ids));
        }
        let written = Task::WriteMatrix(100);
        cases.push(case(format!("on-hold-{label}-written"), written));
    }
    // Without cells the tests are false, which isn't come to.
    let no_cells = changed(&key_with(&[9]), &[], 29);
    cases.push(case("on-hold-no-cells", Task::ReadMatrix(no_cells)));
    cases.push(ask("on-hold-before-test", LOAD, &[9, 12]));
    cases
}

/// A command of eight subjects, which enters a right in the cell of the first and the last.
fn eight() -> Scheme {
    let enter = Operation::Enter {
        right: 0,
        row: 0,
        column: MOST_PARAMETERS - 1,
    };
    Scheme {
        rights: 1,
        types: 2,
        subjects: 1,
        commands: vec![Command {
            parameters: vec![0; MOST_PARAMETERS.into()],
            tests: Vec::new(),
            operations: vec![enter],
        }],
    }
}

/// Subjects 1 to 8 and the object 9, with one of them on hold.
fn nine(held: u16) -> Task {
    let scheme = eight();
    let mut matrix = Matrix::new();
    for id in 1..=9 {
        matrix.create(&scheme, id, u8::from(id == 9));
    }
    matrix.set_held(held, true);
    Task::ReadMatrix(write_matrix(&matrix, &scheme))
}

/// At the first two places and the last two alone; then at the first and the last with other faults around, and one thing at all places.
fn places() -> Vec<Case> {
    let all = [1, 2, 3, 4, 5, 6, 7, 8];
    let mut cases = vec![case(
        "on-hold-eight",
        Task::ReadScheme(write_scheme(&eight())),
    )];
    for id in [1, 2, 7, 8] {
        let label = format!("on-hold-at-{}", id - 1);
        cases.push(case(format!("{label}-matrix"), nine(id)));
        cases.push(ask(&label, 0, &all));
    }
    let rows: [(&str, [u16; 8]); 4] = [
        ("last-behind-none", [1, 2, 3, 4, 5, 6, 10, 8]),
        ("last-behind-type", [1, 2, 3, 4, 5, 6, 9, 8]),
        ("eight-times", [8; 8]),
        ("none-of-it", [1, 2, 3, 4, 5, 6, 7, 7]),
    ];
    for (label, ids) in rows {
        cases.push(ask(&format!("on-hold-{label}"), 0, &ids));
    }
    cases.push(case("on-hold-first-matrix", nine(1)));
    let rows: [(&str, [u16; 8]); 3] = [
        ("first-before-none", [1, 0, 0, 0, 0, 0, 0, 0]),
        ("first-before-type", [1, 9, 3, 4, 5, 6, 7, 8]),
        ("first-and-last", [1, 2, 3, 4, 5, 6, 7, 1]),
    ];
    for (label, ids) in rows {
        cases.push(ask(&format!("on-hold-{label}"), 0, &ids));
    }
    cases.push(case("on-hold-object-matrix", nine(9)));
    cases.push(ask("on-hold-object", 0, &[9, 2, 3, 4, 5, 6, 7, 8]));
    cases
}

/// The makers' things, those at some seats on hold.
pub fn makers_with(label: &str, count: u16, held: &[u64]) -> Vec<Case> {
    let read = Task::ReadMatrix(things_with(count, count));
    let mut cases = vec![case(format!("{label}-things"), read)];
    for &seat in held {
        let id = seat as u16 + 1;
        let thing = Seat::of(id, type_of(id)).on_hold();
        cases.push(put(&format!("{label}-{id}"), seat, thing));
    }
    cases
}

pub fn put(label: &str, seat: u64, thing: Seat) -> Case {
    case(label, Task::PutThing { seat, thing })
}

/// A new parameter isn't looked at for what is on hold: its create is 15, as of any id up to the highest. 18 comes before 15 to 17.
fn new_parameters() -> Vec<Case> {
    let makers = Task::ReadScheme(write_scheme(&makers()));
    let mut cases = vec![case("on-hold-makers", makers)];
    cases.extend(makers_with("on-hold-7", 9, &[6]));
    cases.extend([
        ask("on-hold-create-7", 0, &[7]),
        ask("on-hold-create-10-7", 1, &[10, 7]),
        ask("on-hold-replace-10-7", 3, &[10, 7]),
        ask("on-hold-replace-7-8", 3, &[7, 8]),
        ask("on-hold-replace-7-7", 3, &[7, 7]),
        ask("on-hold-replace-0-7", 3, &[0, 7]),
        ask("on-hold-destroy-7-8", 2, &[7, 8]),
        ask("on-hold-destroy-8-7", 2, &[8, 7]),
        ask("on-hold-destroy-7-7", 2, &[7, 7]),
        ask("on-hold-destroy-8-8", 2, &[8, 8]),
        ask("on-hold-turn-7", 5, &[7]),
        ask("on-hold-create-10", 0, &[10]),
        ask("on-hold-destroy-8-10", 2, &[8, 10]),
        case("on-hold-7-written", Task::WriteMatrix(64)),
    ]);
    cases.extend(makers_with("on-hold-full", 48, &[0, 47]));
    cases.extend([
        ask("on-hold-full-create-49", 0, &[49]),
        ask("on-hold-full-create-1", 0, &[1]),
        ask("on-hold-full-replace-49-1", 3, &[49, 1]),
        totals("on-hold-full-totals"),
    ]);
    cases
}

/// 18 in the answers' buffer: number, 255, no steps.
fn lists() -> Vec<Case> {
    let list = requests(&[(LOAD, &[9, 12]), (RETIRE, &[5, 9]), (LOAD, &[9, 12])]);
    let mut cases = vec![key_scheme("on-hold-scheme-of-lists")];
    for (label, held) in [("9", 9), ("12", 12)] {
        let label = format!("on-hold-list-{label}");
        cases.extend(run(&label, &key_with(&[held]), &list, 9));
    }
    cases
}
