//! Conversions: 20, 21, 22 and 9 at their edges and in their order, the key example, and the largest that convert.

use super::examples::{KEY_MATRIX, KEY_SCHEME, LOAD, RETIRE};
use super::tasks::Ask;
use super::{case, largest, Case, Task};
use crate::convert::{check, convert_matrix, convert_scheme};
use crate::matrix::{read_matrix, write_matrix, Matrix};
use crate::scheme::{read_scheme, write_scheme, Command, Operation, Scheme, Test};

const ENTER: Operation = Operation::Enter {
    right: 0,
    row: 0,
    column: 1,
};
const CREATE: Operation = Operation::Create { parameter: 2 };
const DESTROY: Operation = Operation::Destroy { parameter: 0 };

/// A label, n, and how each command ends after how many enters.
type Row = (&'static str, u8, &'static [(usize, Option<Operation>)]);

/// A command that creates or destroys stands last: 20 is looked for in all of the scheme before 21 and 22.
const SCHEMES: &[Row] = &[
    ("rights-32", 32, &[(1, None)]),
    ("rights-33", 33, &[(1, None)]),
    ("rights-64", 64, &[(1, None)]),
    ("operations-16", 4, &[(1, None), (16, None)]),
    ("operations-17", 4, &[(1, None), (17, None)]),
    ("create", 4, &[(1, None), (0, Some(CREATE))]),
    ("destroy", 4, &[(1, None), (0, Some(DESTROY))]),
    ("rights-33-and-create", 33, &[(1, None), (0, Some(CREATE))]),
    ("17-and-destroy", 4, &[(17, None), (1, Some(DESTROY))]),
    ("rights-33-and-17", 33, &[(17, None)]),
    ("all-three", 33, &[(17, None), (0, Some(CREATE))]),
];

pub fn cases() -> Vec<Case> {
    let mut cases = Vec::new();
    for &(label, rights, commands) in SCHEMES {
        let scheme = scheme(rights, commands);
        let matrix = matrix(&scheme);
        cases.extend(converted(&format!("convert-{label}"), &scheme, &matrix));
    }
    cases.extend(key_example());
    cases.extend(highests());
    cases.extend(largest());
    cases
}

/// Types 0, a subject, and 1; each command tests the last right for absence and presence.
fn scheme(rights: u8, commands: &[(usize, Option<Operation>)]) -> Scheme {
    let right = rights - 1;
    let test = |present| Test {
        present,
        right,
        row: 0,
        column: 1,
    };
    let command = |&(enters, last): &(usize, Option<Operation>)| {
        let mut operations = vec![ENTER; enters];
        operations.extend(last);
        Command {
            parameters: vec![0, 1, 1],
            tests: vec![test(false), test(true)],
            operations,
        }
    };
    Scheme {
        rights,
        types: 2,
        subjects: 1,
        commands: commands.iter().map(command).collect(),
    }
}

/// Two subjects and an object; the first and the last right stand in one cell.
fn matrix(scheme: &Scheme) -> Matrix {
    let mut matrix = Matrix::new();
    for (id, kind) in [(1, 0), (2, 0), (300, 1)] {
        matrix.create(scheme, id, kind);
    }
    matrix.set_cell(2, 300, 1 | 1 << (scheme.rights - 1));
    matrix
}

/// Scheme and matrix read, then converted: as bytes, and as values, which are then written.
fn converted(label: &str, scheme: &Scheme, matrix: &Matrix) -> Vec<Case> {
    let (scheme_read, matrix_read) = (write_scheme(scheme), write_matrix(matrix, scheme));
    let named = |end: &str, task: Task| case(format!("{label}-{end}"), task);
    let mut cases = vec![
        named("scheme-read", Task::ReadScheme(scheme_read)),
        named("matrix-read", Task::ReadMatrix(matrix_read)),
    ];
    for (end, [scheme_room, matrix_room]) in rooms(scheme, matrix) {
        let to_scheme = Task::ConvertScheme(scheme_room);
        let to_matrix = Task::ConvertMatrix(matrix_room);
        cases.push(named(&format!("scheme{end}"), to_scheme));
        cases.push(named(&format!("matrix{end}"), to_matrix));
    }
    cases.extend([
        named("cells-where-they-lie", Task::ConvertedCells),
        named("scheme-as-value", Task::ConvertedScheme),
        named("scheme-after", Task::WriteScheme(7_000)),
        named("matrix-after", Task::WriteMatrix(38_000)),
    ]);
    cases
}

/// Just enough and a byte less; where the conversion is refused enough and nothing, since 9 comes last.
fn rooms(scheme: &Scheme, matrix: &Matrix) -> [(&'static str, [u64; 2]); 2] {
    if check(scheme) != 0 {
        return [("", [300, 300]), ("-no-room", [0, 0])];
    }
    let (new_scheme, new_matrix) = bytes(scheme, matrix);
    let just = [new_scheme.len() as u64, new_matrix.len() as u64];
    [("", just), ("-short", just.map(|room| room - 1))]
}

/// The converted scheme's and the converted matrix's bytes.
fn bytes(scheme: &Scheme, matrix: &Matrix) -> (Vec<u8>, Vec<u8>) {
    let new_scheme = convert_scheme(scheme).expect("it converts");
    let new_matrix = convert_matrix(matrix, scheme).expect("it converts");
    let new_matrix = write_matrix(&new_matrix, &new_scheme);
    (write_scheme(&new_scheme), new_matrix)
}

/// Converted to 55 bytes and 125; then load, retire, load as a robot carries them out.
fn key_example() -> Vec<Case> {
    let (scheme, _) = read_scheme(&KEY_SCHEME).expect("the key example");
    let matrix = read_matrix(&KEY_MATRIX, &scheme).expect("the key example");
    let mut cases = converted("convert-key", &scheme, &matrix);
    let (new_scheme, new_matrix) = bytes(&scheme, &matrix);
    let ask = |label: &str, command: u8, ids: [u16; 2]| {
        let ids = ids.to_vec();
        case(label, Task::Request(Ask { command, ids }))
    };
    cases.extend([
        case("robot-scheme", Task::ReadScheme(new_scheme)),
        case("robot-matrix", Task::ReadMatrix(new_matrix)),
        ask("robot-load", LOAD, [9, 12]),
        ask("robot-retire", RETIRE, [5, 9]),
        ask("robot-load-after", LOAD, [9, 12]),
        case("robot-matrix-after", Task::WriteMatrix(125)),
        case("robot-totals", Task::Totals),
        case("robot-scheme-converted-twice", Task::ConvertScheme(100)),
    ]);
    cases
}

/// The highest id stays as it is, above the things' and without any.
fn highests() -> Vec<Case> {
    let scheme = scheme(4, &[(1, None)]);
    let mut cases = Vec::new();
    for (name, of) in [("things", matrix(&scheme)), ("none", Matrix::new())] {
        for highest in [301, 40_000, 65_535] {
            let mut matrix = of.clone();
            matrix.raise_highest(highest);
            let label = format!("convert-{name}-highest-{highest}");
            cases.extend(converted(&label, &scheme, &matrix));
        }
    }
    cases.extend(converted("convert-nothing", &scheme, &Matrix::new()));
    cases
}

/// 32 commands of 16 operations over 32 rights convert to the most bytes; and 48 subjects, with all cells filled and with all empty.
fn largest() -> Vec<Case> {
    let scheme = largest::scheme(32, 16);
    let full = largest::matrix(&scheme, some_rights);
    let empty = largest::matrix(&scheme, |_, _| 0);
    let mut cases = converted("convert-largest", &scheme, &full);
    cases.extend(converted("convert-empty", &scheme, &empty));
    cases
}

/// Other rights in each cell, never none; all 32 in one.
fn some_rights(row: u16, column: u16) -> u64 {
    if (row, column) == (48, 48) {
        return 0xFFFF_FFFF;
    }
    let place = u64::from(row) * 48 + u64::from(column);
    (place * 2_654_435_761) % 0xFFFF_FFFF + 1
}
