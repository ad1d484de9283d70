//! How many steps a request takes, up to the most: refused by the first operation that can be faulty, by one between and by the last, behind 16 tests
//! and behind none; and an office's beside its robot's.

use super::carrying_out::{ask, one_cell, sixteen_tests};
use super::lists::{requests, run};
use super::{case, Case, Task};
use crate::matrix::{write_matrix, Matrix, MOST_THINGS};
use crate::scheme::{write_scheme, MOST_PARAMETERS};
use crate::scheme::{Command, Operation, Scheme, Test, MOST_OPERATIONS, MOST_TESTS};

pub fn cases() -> Vec<Case> {
    let scheme = Task::ReadScheme(write_scheme(&scheme()));
    let mut cases = vec![case("steps-scheme", scheme)];
    for has_tests in [false, true] {
        cases.extend(creates(has_tests));
        cases.extend(destroys(has_tests));
    }
    cases.extend(tests_first());
    cases.extend(list());
    cases.extend(office_and_robot());
    cases
}

/// What a command's operations are; its number with tests, and without them so many more as there are bodies.
#[derive(Clone, Copy)]
enum Body {
    Creates,
    CreatesThenEnters,
    Destroys,
    EntersThenDestroys,
}

const BODIES: [Body; 4] = [
    Body::Creates,
    Body::CreatesThenEnters,
    Body::Destroys,
    Body::EntersThenDestroys,
];

fn command_number(body: Body, has_tests: bool) -> u8 {
    let without = if has_tests { 0 } else { BODIES.len() as u8 };
    body as u8 + without
}

/// One type, a subject; every body behind 16 tests and behind none.
fn scheme() -> Scheme {
    let with = BODIES.map(|body| command(body, true));
    let without = BODIES.map(|body| command(body, false));
    Scheme {
        rights: MOST_TESTS + 1,
        types: 1,
        subjects: 1,
        commands: [with, without].concat(),
    }
}

/// Parameters are created or destroyed in their order, and enters fill the body up. The last parameter is the tested one.
fn command(body: Body, has_tests: bool) -> Command {
    let tested = MOST_PARAMETERS - 1;
    let (row, column) = (tested, tested);
    let test = |right| Test {
        present: true,
        right,
        row,
        column,
    };
    let right = MOST_TESTS;
    let enter = Operation::Enter { right, row, column };
    let creates = (0..creates_of(has_tests)).map(|parameter| Operation::Create { parameter });
    let destroys = (0..MOST_PARAMETERS).map(|parameter| Operation::Destroy { parameter });
    let enters = |others: u8| vec![enter; (MOST_OPERATIONS - others).into()];
    let operations = match body {
        Body::Creates => creates.collect(),
        Body::CreatesThenEnters => {
            let enters = enters(creates_of(has_tests));
            creates.chain(enters).collect()
        }
        Body::Destroys => destroys.collect(),
        Body::EntersThenDestroys => {
            let enters = enters(MOST_PARAMETERS);
            enters.into_iter().chain(destroys).collect()
        }
    };
    let tests = if has_tests { MOST_TESTS } else { 0 };
    Command {
        parameters: vec![0; MOST_PARAMETERS.into()],
        tests: (0..tests).map(test).collect(),
        operations,
    }
}

/// A parameter that is tested isn't new.
fn creates_of(has_tests: bool) -> u8 {
    MOST_PARAMETERS - u8::from(has_tests)
}

/// Things 1 to a count; in [1, 1] all tests hold but those of the flipped rights.
fn matrix(count: usize, flips: u64) -> Vec<u8> {
    let scheme = scheme();
    let mut matrix = Matrix::new();
    for id in 1..=count as u16 {
        matrix.create(&scheme, id, 0);
    }
    matrix.set_cell(1, 1, 0xFFFF ^ flips);
    write_matrix(&matrix, &scheme)
}

/// The matrix, and a request on it.
fn asked(label: &str, matrix: Vec<u8>, command: u8, ids: &[u16]) -> Vec<Case> {
    vec![
        case(format!("{label}-matrix"), Task::ReadMatrix(matrix)),
        ask(label, command, ids),
    ]
}

/// Ids that don't exist; of the tested parameter thing 1.
fn new_ids(has_tests: bool) -> [u16; 8] {
    let last = if has_tests { 1 } else { 108 };
    [101, 102, 103, 104, 105, 106, 107, last]
}

/// 15 and 16 at a create, and all carried out. Creates come first: none is behind the eighth place, or with tests the seventh.
fn creates(has_tests: bool) -> Vec<Case> {
    let end = if has_tests { "-behind-tests" } else { "" };
    let ids = new_ids(has_tests);
    let last = usize::from(creates_of(has_tests)) - 1;
    let mut cases = Vec::new();
    for (body, beside) in [
        (Body::Creates, "of-creates"),
        (Body::CreatesThenEnters, "before-enters"),
    ] {
        let command = command_number(body, has_tests);
        for (name, place) in [("first", 0), ("middle", 3), ("last", last)] {
            let label = |number: u8| format!("steps-{number}-{name}-{beside}{end}");
            let mut used = ids;
            used[place] = 2;
            cases.extend(asked(&label(15), matrix(9, 0), command, &used));
            let full = matrix(MOST_THINGS - place, 0);
            cases.extend(asked(&label(16), full, command, &ids));
        }
        let mut twice = ids;
        twice[2] = ids[1];
        let label = |name: &str| format!("steps-{name}-{beside}{end}");
        cases.extend(asked(&label("15-twice"), matrix(9, 0), command, &twice));
        cases.extend(asked(&label("0"), matrix(9, 0), command, &ids));
    }
    cases
}

/// 17 at a destroy, and all carried out. Before the first destroy nothing is gone, so that the second operation is the first that can be faulty.
fn destroys(has_tests: bool) -> Vec<Case> {
    let end = if has_tests { "-behind-tests" } else { "" };
    let ids = [8, 7, 6, 5, 4, 3, 2, 1];
    let mut cases = Vec::new();
    for (body, beside) in [
        (Body::Destroys, "of-destroys"),
        (Body::EntersThenDestroys, "after-enters"),
    ] {
        let command = command_number(body, has_tests);
        for (name, place) in [("second", 1), ("middle", 4), ("last", 7)] {
            let label = format!("steps-17-{name}-{beside}{end}");
            let mut gone = ids;
            gone[0] = ids[place];
            cases.extend(asked(&label, matrix(9, 0), command, &gone));
        }
        let label = format!("steps-0-{beside}{end}");
        cases.extend(asked(&label, matrix(9, 0), command, &ids));
    }
    cases
}

/// Where a test is false, what is wrong with the operations isn't come to.
fn tests_first() -> Vec<Case> {
    let mut used = new_ids(true);
    used[0] = 2;
    let gone = [1; 8];
    let mut cases = Vec::new();
    for (name, flips) in [("first", 1 << 0), ("last", 1 << 15)] {
        let rows = [
            ("15", matrix(9, flips), Body::Creates, used),
            (
                "16",
                matrix(MOST_THINGS, flips),
                Body::Creates,
                new_ids(true),
            ),
            ("17", matrix(9, flips), Body::Destroys, gone),
        ];
        for (late, matrix, body, ids) in rows {
            let label = format!("steps-14-{name}-before-{late}");
            cases.extend(asked(&label, matrix, command_number(body, true), &ids));
        }
    }
    cases
}

/// Each number's steps in the answers' buffer, many and few by turns.
fn list() -> Vec<Case> {
    let ids = new_ids(true);
    let free = ids.map(|id| id + 100);
    let creates = command_number(Body::CreatesThenEnters, true);
    let destroys = command_number(Body::EntersThenDestroys, true);
    let few = command_number(Body::Destroys, false);
    let list = requests(&[
        (creates, &ids),
        (8, &ids),
        (creates, &ids),
        (creates, &ids[1..]),
        (command_number(Body::Creates, false), &free),
        (destroys, &[1; 8]),
        (few, &[9; 8]),
        (few, &[101, 102, 103, 104, 105, 106, 107, 9]),
        (few, &[101, 2, 3, 4, 5, 6, 7, 8]),
        (destroys, &[1, 2, 3, 4, 5, 6, 7, 8]),
    ]);
    run("steps-list", &matrix(41, 0), &list, 30)
}

/// 16 tests, of both senses, and 16 operations: a robot carries out 32.
fn office_and_robot() -> Vec<Case> {
    let (row, column) = (0, 0);
    let operation = |place: u8| match (place % 2, MOST_TESTS + place) {
        (0, right) => Operation::Enter { right, row, column },
        (_, right) => Operation::Delete { right, row, column },
    };
    let mut scheme = sixteen_tests();
    scheme.rights = 32;
    scheme.commands[0].operations = (0..16).map(operation).collect();
    let matrix = Task::ReadMatrix(one_cell(&scheme, 0));
    vec![
        case(
            "steps-office-scheme",
            Task::ReadScheme(write_scheme(&scheme)),
        ),
        case("steps-office-matrix", matrix.clone()),
        ask("steps-office", 0, &[7]),
        case("steps-office-matrix-again", matrix),
        case("steps-robot-cells", Task::ConvertedCells),
        case("steps-robot-scheme", Task::ConvertedScheme),
        ask("steps-robot", 0, &[7]),
    ]
}
