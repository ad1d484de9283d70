//! Schemes read: the key example and a command with all three groups, with single bytes changed; then the key example written.

use super::examples::{changed_rows, key_scheme, Row, GROUPS, KEY_SCHEME};
use super::{case, Case, Task};

/// What is cut, and a kind that may not stand there. The front comes before the kind, the kind before the body's end.
const FRONTS: &[Row] = &[
    ("key-scheme", &[], 47),
    ("empty", &[], 0),
    ("front-cut", &[], 3),
    ("head-cut", &[], 8),
    ("no-command", &[], 9),
    ("second-front-cut", &[], 12),
    ("one-command", &[], 26),
    ("last-byte-cut", &[], 46),
    ("one-more", &[], 48),
    ("kind-2-first", &[(2, 2)], 47),
    ("kind-257-first", &[(3, 1)], 47),
    ("kind-2-cut", &[(2, 2)], 8),
    ("kind-1-second", &[(11, 1)], 47),
    ("kind-6-third", &[(28, 6)], 47),
];

/// A body that ends inside a field, or has bytes behind its last.
const LENGTHS: &[Row] = &[
    ("head-length-0", &[(0, 0)], 47),
    ("head-length-4", &[(0, 4)], 47),
    ("head-length-6", &[(0, 6)], 47),
    ("command-length-12", &[(9, 12)], 47),
    ("command-length-14", &[(9, 14)], 47),
    ("last-length-16", &[(26, 16)], 47),
    ("last-length-18", &[(26, 18)], 47),
    ("last-length-18-more", &[(26, 18)], 48),
];

/// The head's counts and its subject types.
const HEAD: &[Row] = &[
    ("rights-0", &[(4, 0)], 47),
    ("rights-64", &[(4, 64)], 47),
    ("rights-65", &[(4, 65)], 47),
    ("rights-3", &[(4, 3)], 47),
    ("types-0", &[(5, 0)], 47),
    ("types-16", &[(5, 16)], 47),
    ("types-17", &[(5, 17)], 47),
    ("types-2", &[(5, 2)], 47),
    ("subject-bit-2", &[(6, 7)], 47),
    ("subject-bit-3", &[(6, 11)], 47),
    ("subject-bit-15", &[(7, 128)], 47),
    ("subject-bit-15-of-16", &[(5, 16), (7, 128)], 47),
    ("commands-0", &[(8, 0)], 47),
    ("commands-1", &[(8, 1)], 47),
    ("commands-3", &[(8, 3)], 47),
    ("commands-32", &[(8, 32)], 47),
    ("commands-33", &[(8, 33)], 47),
];

/// A command's parameters and tests.
const TESTS: &[Row] = &[
    ("parameters-0", &[(13, 0)], 47),
    ("parameters-8", &[(13, 8)], 47),
    ("parameters-9", &[(13, 9)], 47),
    ("parameter-type-3", &[(14, 3)], 47),
    ("tests-16", &[(16, 16)], 47),
    ("tests-17", &[(16, 17)], 47),
    ("sense-0", &[(17, 0)], 47),
    ("sense-2", &[(17, 2)], 47),
    ("test-right-4", &[(18, 4)], 47),
    ("sense-2-right-4", &[(17, 2), (18, 4)], 47),
    ("test-row-2", &[(19, 2)], 47),
    ("test-row-robot", &[(36, 1)], 47),
    ("test-column-2", &[(20, 2)], 47),
];

/// A command's operations.
const OPERATIONS: &[Row] = &[
    ("operations-0", &[(21, 0)], 47),
    ("operations-32", &[(21, 32)], 47),
    ("operations-33", &[(21, 33)], 47),
    ("code-0", &[(22, 0)], 47),
    ("code-2", &[(22, 2)], 47),
    ("code-5", &[(22, 5)], 47),
    ("enter-right-4", &[(23, 4)], 47),
    ("enter-row-2", &[(24, 2)], 47),
    ("enter-row-robot", &[(45, 1)], 47),
    ("enter-column-2", &[(25, 2)], 47),
    ("create-right-2", &[(22, 3)], 47),
    ("create-tested", &[(22, 3), (23, 0)], 47),
    ("destroy-column-1", &[(22, 4), (23, 0)], 47),
    ("destroy", &[(22, 4), (23, 0), (25, 0)], 47),
    (
        "destroy-row-robot",
        &[(43, 4), (44, 0), (45, 1), (46, 0)],
        47,
    ),
];

/// The groups of a body, of GROUPS: creates, then enters and deletes, then destroys.
const ORDER: &[Row] = &[
    ("groups", &[], 43),
    ("create-parameter-3", &[(25, 3)], 43),
    ("create-parameter-2-tested", &[(25, 2)], 43),
    ("test-of-new", &[(20, 0)], 43),
    ("create-twice", &[(29, 1)], 43),
    ("create-right-255", &[(24, 255)], 43),
    ("create-column-255", &[(26, 255)], 43),
    (
        "create-after-enter",
        &[(27, 1), (31, 3), (32, 0), (34, 0)],
        43,
    ),
    ("enter-after-destroy", &[(27, 4)], 43),
    ("delete-after-destroy", &[(39, 2)], 43),
    ("create-after-destroy", &[(27, 1), (39, 3)], 43),
    ("destroy-parameter-3", &[(41, 3)], 43),
    ("destroy-twice", &[(41, 2)], 43),
    ("destroy-right-255", &[(40, 255)], 43),
    ("destroy-column-255", &[(42, 255)], 43),
];

pub fn cases() -> Vec<Case> {
    let mut cases = vec![key_scheme("table-of-schemes")];
    for (label, bytes) in of_key().into_iter().chain(of_groups()) {
        cases.extend(read(label, bytes));
    }
    cases.extend(writings());
    cases
}

/// The key example with its changes, each with its label.
pub fn of_key() -> Vec<(&'static str, Vec<u8>)> {
    let rows = [FRONTS, LENGTHS, HEAD, TESTS, OPERATIONS].concat();
    changed_rows(&KEY_SCHEME, &rows)
}

pub fn of_groups() -> Vec<(&'static str, Vec<u8>)> {
    changed_rows(&GROUPS, ORDER)
}

/// Each reading with the table behind it written: where it was refused, the one before.
fn read(label: &str, bytes: Vec<u8>) -> [Case; 2] {
    [
        case(label, Task::ReadScheme(bytes)),
        case(format!("{label}-table"), Task::WriteScheme(50)),
    ]
}

/// Into more than enough, into just enough, into a byte less, into nothing.
fn writings() -> Vec<Case> {
    let write = |label: &str, room: u64| case(label, Task::WriteScheme(room));
    vec![
        key_scheme("scheme-to-write"),
        write("scheme-into-64", 64),
        write("scheme-into-47", 47),
        write("scheme-into-46", 46),
        write("scheme-into-0", 0),
        case("no-scheme", Task::NoScheme),
        write("no-scheme-into-64", 64),
        write("no-scheme-into-0", 0),
        case("no-scheme-read", Task::ReadScheme(vec![])),
        case("no-scheme-converted", Task::ConvertedScheme),
        write("no-scheme-still", 64),
    ]
}
