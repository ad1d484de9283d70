//! The largest scheme, 6,633 bytes, and the largest matrix, 37,208 bytes: read, written into just enough and into a byte less, counted, asked.

use super::tasks::Ask;
use super::{case, Case, Task};
use crate::matrix::{write_matrix, Matrix, MOST_THINGS};
use crate::scheme::{write_scheme, Command, Operation, Scheme, Test};

/// 32 commands of 8 parameters, 16 tests and a number of operations, of which each is the last right's at the last place.
pub fn scheme(rights: u8, operations: usize) -> Scheme {
    let (right, row, column) = (rights - 1, 7, 7);
    let test = Test {
        present: true,
        right,
        row,
        column,
    };
    let command = Command {
        parameters: vec![15; 8],
        tests: vec![test; 16],
        operations: vec![Operation::Delete { right, row, column }; operations],
    };
    Scheme {
        rights,
        types: 16,
        subjects: 65_535,
        commands: vec![command; 32],
    }
}

/// 48 subjects, and the rights of the cell of each two ids.
pub fn matrix(scheme: &Scheme, rights: impl Fn(u16, u16) -> u64) -> Matrix {
    let ids = 1..=MOST_THINGS as u16;
    let mut matrix = Matrix::new();
    for id in ids.clone() {
        matrix.create(scheme, id, 15);
    }
    for row in ids.clone() {
        for column in ids.clone() {
            matrix.set_cell(row, column, rights(row, column));
        }
    }
    matrix
}

pub fn cases() -> Vec<Case> {
    let scheme = scheme(64, 32);
    let matrix = write_matrix(&matrix(&scheme, |_, _| u64::MAX), &scheme);
    let ask = |label: &str, command: u8, ids: &[u16]| {
        let ids = ids.to_vec();
        case(label, Task::Request(Ask { command, ids }))
    };
    let eight = [1, 2, 3, 4, 5, 6, 7, 8];
    vec![
        case(
            "largest-scheme-read",
            Task::ReadScheme(write_scheme(&scheme)),
        ),
        case("largest-scheme", Task::WriteScheme(6_633)),
        case("largest-scheme-short", Task::WriteScheme(6_632)),
        case("largest-matrix-read", Task::ReadMatrix(matrix)),
        case("largest-matrix", Task::WriteMatrix(37_208)),
        case("largest-matrix-short", Task::WriteMatrix(37_207)),
        case("largest-matrix-by-head", Task::WriteMatrixByHead(37_208)),
        case("largest-by-head-short", Task::WriteMatrixByHead(37_207)),
        case("largest-highest", Task::SetHighest(65_535)),
        case("largest-highest-written", Task::WriteMatrix(37_208)),
        case("largest-accepted", Task::Accepted),
        case("largest-command", Task::CommandAccepted(31)),
        case("largest-totals", Task::Totals),
        ask("command-32-of-32", 32, &eight),
        ask("command-255-of-32", 255, &eight),
        ask("seven-ids-of-eight", 31, &eight[..7]),
        ask("nine-ids-of-eight", 31, &[1; 9]),
        ask("ten-ids-of-eight", 31, &[1; 10]),
        ask("command-31-of-32", 31, &eight),
        ask("command-31-its-right-gone", 31, &eight),
        ask("command-31-one-thing-eight-times", 31, &[9; 8]),
        case("largest-totals-after", Task::Totals),
    ]
}
