//! Requests: 10 to 17 at their edges, which test stops a request, a matrix that is full, and seats that are taken again; ids are not.

use super::examples::{changed, key_matrix, key_scheme, KEY_MATRIX, LOAD, RETIRE};
use super::tasks::Ask;
use super::{case, Case, Task};
use crate::matrix::{write_matrix, Matrix};
use crate::scheme::{write_scheme, Command, Operation, Scheme, Test, MOST_TESTS};

pub fn cases() -> Vec<Case> {
    [
        key_example(),
        stops(),
        creates(),
        highests(),
        last_ids(),
        destroys(),
        refused(),
    ]
    .concat()
}

pub fn ask(label: &str, command: u8, ids: &[u16]) -> Case {
    let ids = ids.to_vec();
    case(label, Task::Request(Ask { command, ids }))
}

pub fn totals(label: &str) -> Case {
    case(label, Task::Totals)
}

fn write(label: &str, room: u64) -> Case {
    case(label, Task::WriteMatrix(room))
}

/// The outline's requests in its order; then other edges of 11 to 14.
fn key_example() -> Vec<Case> {
    vec![
        key_scheme("key-scheme-to-ask"),
        key_matrix("key-matrix-to-ask"),
        totals("key-totals"),
        ask("key-load", LOAD, &[9, 12]),
        ask("key-retire", RETIRE, &[5, 9]),
        ask("key-load-after", LOAD, &[9, 12]),
        ask("key-retire-9-9", RETIRE, &[9, 9]),
        ask("key-retire-5-8", RETIRE, &[5, 8]),
        ask("key-retire-5", RETIRE, &[5]),
        ask("key-command-2", 2, &[5, 9]),
        totals("key-totals-after"),
        write("key-matrix-after", 77),
        ask("retire-again", RETIRE, &[5, 9]),
        ask("no-ids-of-two", RETIRE, &[]),
        ask("three-ids-of-two", RETIRE, &[5, 9, 9]),
        ask("nine-ids-of-two", RETIRE, &[9; 9]),
        ask("ids-0-and-9", RETIRE, &[0, 9]),
        ask("ids-5-and-0", RETIRE, &[5, 0]),
        ask("ids-8-and-5", RETIRE, &[8, 5]),
        ask("ids-9-and-8", RETIRE, &[9, 8]),
        ask("ids-5-and-12", RETIRE, &[5, 12]),
        ask("ids-of-65535", RETIRE, &[65_535, 65_535]),
        case(
            "no-cells-to-ask",
            Task::ReadMatrix(changed(&KEY_MATRIX, &[], 29)),
        ),
        ask("retire-not-owned", RETIRE, &[5, 9]),
        ask("load-not-signed", LOAD, &[9, 12]),
        // Of its two cells that of key 9 and robot 12 becomes that of key 9 alone, which is retired.
        case(
            "only-retired-to-ask",
            Task::ReadMatrix(changed(&KEY_MATRIX, &[(51, 9), (53, 4)], 61)),
        ),
        ask("load-not-signed-and-retired", LOAD, &[9, 12]),
        case(
            "destroyer-of-two-keys",
            Task::ReadScheme(write_scheme(&destroyer())),
        ),
        key_matrix("key-matrix-to-destroy"),
        ask("destroy-9-9", 0, &[9, 9]),
        totals("key-9-still-exists"),
        write("key-9-still-written", 61),
    ]
}

/// The key example's rights and types, with one command that destroys two keys.
fn destroyer() -> Scheme {
    let destroy = |parameter| Operation::Destroy { parameter };
    let command = Command {
        parameters: vec![1, 1],
        tests: Vec::new(),
        operations: vec![destroy(0), destroy(1)],
    };
    Scheme {
        rights: 4,
        types: 3,
        subjects: 0b011,
        commands: vec![command],
    }
}

/// A command of 16 tests on one cell, and whether it is stopped; then the same as a robot has it.
fn stops() -> Vec<Case> {
    let scheme = sixteen_tests();
    let flips = [
        ("no-test-false", 0),
        ("first-test-false", 1 << 0),
        ("last-test-false", 1 << 15),
        ("first-and-last-test-false", 1 << 0 | 1 << 15),
        ("tests-8-and-9-false", 1 << 8 | 1 << 9),
        ("tests-7-to-15-false", 0xFF80),
        ("all-tests-false", 0xFFFF),
    ];
    let mut cases = Vec::new();
    for (label, flips) in flips {
        let named = |end: &str| format!("{label}-{end}");
        cases.extend([
            case(named("scheme"), Task::ReadScheme(write_scheme(&scheme))),
            case(named("matrix"), Task::ReadMatrix(one_cell(&scheme, flips))),
            ask(label, 0, &[7]),
            case(
                named("matrix-again"),
                Task::ReadMatrix(one_cell(&scheme, flips)),
            ),
            case(named("robot-cells"), Task::ConvertedCells),
            case(named("robot-scheme"), Task::ConvertedScheme),
            ask(&named("robot"), 0, &[7]),
        ]);
    }
    cases
}

/// In a cell with just these rights all sixteen tests hold.
const ALL_HOLD: u64 = 0x5555;

/// Each right below 16 is tested, every other one for absence; right 16 is entered.
pub fn sixteen_tests() -> Scheme {
    let (row, column) = (0, 0);
    let test = |right: u8| Test {
        present: ALL_HOLD >> right & 1 == 1,
        right,
        row,
        column,
    };
    let right = MOST_TESTS;
    let command = Command {
        parameters: vec![0],
        tests: (0..MOST_TESTS).map(test).collect(),
        operations: vec![Operation::Enter { right, row, column }],
    };
    Scheme {
        rights: 17,
        types: 1,
        subjects: 1,
        commands: vec![command],
    }
}

/// Thing 7 alone: the tests of the flipped rights are false, and no others.
pub fn one_cell(scheme: &Scheme, flips: u64) -> Vec<u8> {
    let mut matrix = Matrix::new();
    matrix.create(scheme, 7, 0);
    matrix.set_cell(7, 7, ALL_HOLD ^ flips);
    write_matrix(&matrix, scheme)
}

/// Types 0, a subject, and 1; command 0 creates one thing, 1 two, 2 destroys two, 3 creates one, enters, and destroys another, 4 creates one and
/// destroys two others, 5 destroys what it creates, 6 creates two, its second parameter first.
pub fn makers() -> Scheme {
    let create = |parameter| Operation::Create { parameter };
    let destroy = |parameter| Operation::Destroy { parameter };
    let enter = |row, column| Operation::Enter {
        right: 2,
        row,
        column,
    };
    let command = |parameters: &[u8], operations: &[Operation]| Command {
        parameters: parameters.to_vec(),
        tests: Vec::new(),
        operations: operations.to_vec(),
    };
    Scheme {
        rights: 3,
        types: 2,
        subjects: 1,
        commands: vec![
            command(&[1], &[create(0)]),
            command(&[1, 0], &[create(0), create(1)]),
            command(&[1, 1], &[destroy(0), destroy(1)]),
            command(&[0, 1], &[create(0), enter(0, 0), enter(0, 1), destroy(1)]),
            command(&[1, 1, 1], &[create(0), destroy(1), destroy(2)]),
            command(&[1], &[create(0), destroy(0)]),
            command(&[1, 0], &[create(1), create(0)]),
        ],
    }
}

/// Things 1 to a count; each third is a subject.
pub fn things(count: u16) -> Vec<u8> {
    things_with(count, 0)
}

/// The same, with a highest id that is above them.
pub fn things_with(count: u16, highest: u16) -> Vec<u8> {
    let scheme = makers();
    let mut matrix = Matrix::new();
    for id in 1..=count {
        matrix.create(&scheme, id, type_of(id));
    }
    matrix.raise_highest(highest);
    write_matrix(&matrix, &scheme)
}

pub fn type_of(id: u16) -> u8 {
    match id % 3 {
        0 => 0,
        _ => 1,
    }
}

/// With 48 things an id above the highest is 16, any other 15; with 47 the second of two that rise is 16.
fn creates() -> Vec<Case> {
    let matrix = |label: &str, count: u16| case(label, Task::ReadMatrix(things(count)));
    vec![
        case("makers", Task::ReadScheme(write_scheme(&makers()))),
        matrix("things-48-read", 48),
        ask("create-at-48", 0, &[100]),
        ask("create-next-at-48", 0, &[49]),
        ask("create-last-at-48", 0, &[65_535]),
        ask("create-used-at-48", 0, &[7]),
        ask("create-highest-at-48", 0, &[48]),
        ask("create-0-at-48", 0, &[0]),
        ask("create-two-at-48", 1, &[100, 101]),
        ask("create-two-used-at-48", 1, &[48, 101]),
        totals("totals-at-48"),
        matrix("things-47-read", 47),
        ask("create-two-at-47", 1, &[100, 101]),
        totals("neither-exists"),
        ask("create-same-twice-at-47", 1, &[100, 100]),
        ask("create-falling-at-47", 1, &[101, 100]),
        ask("create-used-second-at-47", 1, &[100, 7]),
        ask("create-highest-second-at-47", 1, &[100, 47]),
        ask("create-highest-first-at-47", 1, &[47, 100]),
        totals("still-47"),
        ask("create-at-47", 0, &[100]),
        totals("now-48"),
        ask("create-now-at-48", 0, &[101]),
        ask("create-100-now-at-48", 0, &[100]),
        ask("create-99-now-at-48", 0, &[99]),
        matrix("things-46-read", 46),
        ask("create-two-at-46", 1, &[100, 101]),
        totals("two-more"),
        ask("create-and-destroy-at-48", 3, &[65_535, 100]),
        with("things-48-with-100", 48, 100),
        ask("create-101-at-48-with-100", 0, &[101]),
        ask("create-100-at-48-with-100", 0, &[100]),
        ask("create-99-at-48-with-100", 0, &[99]),
        ask("create-48-at-48-with-100", 0, &[48]),
    ]
}

fn with(label: &str, count: u16, highest: u16) -> Case {
    case(label, Task::ReadMatrix(things_with(count, highest)))
}

/// Ids at the highest, below it and above it, of a thing and of none; of two creates the second must be above the first.
fn highests() -> Vec<Case> {
    vec![
        with("things-9-with-20", 9, 20),
        ask("create-20-with-20", 0, &[20]),
        ask("create-19-with-20", 0, &[19]),
        ask("create-10-with-20", 0, &[10]),
        ask("create-9-with-20", 0, &[9]),
        ask("create-1-with-20", 0, &[1]),
        ask("create-0-with-20", 0, &[0]),
        ask("create-21-20-with-20", 1, &[21, 20]),
        ask("create-20-21-with-20", 1, &[20, 21]),
        ask("create-23-22-with-20", 1, &[23, 22]),
        ask("create-22-22-with-20", 1, &[22, 22]),
        ask("create-turned-21-22-with-20", 6, &[21, 22]),
        ask("create-turned-21-20-with-20", 6, &[21, 20]),
        ask("create-turned-20-21-with-20", 6, &[20, 21]),
        write("highest-20-still-written", 100),
        ask("create-21-with-20", 0, &[21]),
        write("highest-21-written", 100),
        ask("create-21-again", 0, &[21]),
        ask("create-22-300-with-21", 1, &[22, 300]),
        ask("create-turned-302-301-with-300", 6, &[302, 301]),
        ask("create-299-with-302", 0, &[299]),
        ask("create-256-with-302", 0, &[256]),
        write("highest-302-written", 150),
    ]
}

/// Up to the last id that there is, behind which none is left; and from the first on.
fn last_ids() -> Vec<Case> {
    vec![
        ask("create-65534-with-302", 0, &[65_534]),
        ask("create-two-65535-with-65534", 1, &[65_535, 65_535]),
        ask("create-65535-with-65534", 0, &[65_535]),
        ask("create-65535-again", 0, &[65_535]),
        ask("create-303-with-65535", 0, &[303]),
        ask("create-two-with-65535", 1, &[303, 304]),
        totals("totals-with-65535"),
        write("highest-65535-written", 150),
        with("no-things-with-65535", 0, 65_535),
        ask("create-65535-of-none", 0, &[65_535]),
        ask("create-1-of-none", 0, &[1]),
        with("no-things-with-65534", 0, 65_534),
        ask("create-two-last-of-none", 1, &[65_535, 1]),
        ask("create-last-of-none", 0, &[65_535]),
        with("no-things-with-0", 0, 0),
        ask("create-0-with-0", 0, &[0]),
        ask("create-1-with-0", 0, &[1]),
        ask("create-1-with-1", 0, &[1]),
    ]
}

/// 17 where two parameters are one thing. The seats of destroyed things are taken again, and the writing still goes by rising id; their ids are 15 for
/// ever, also where the highest thing itself is destroyed.
fn destroys() -> Vec<Case> {
    vec![
        case("things-9-read", Task::ReadMatrix(things(9))),
        ask("destroy-2-2", 2, &[2, 2]),
        totals("thing-2-still-exists"),
        ask("destroy-2-and-a-subject", 2, &[2, 3]),
        ask("destroy-1-4", 2, &[1, 4]),
        totals("seven-things"),
        ask("destroy-4-again", 2, &[4, 5]),
        ask("create-4-again", 0, &[4]),
        ask("create-200-then-4-again", 1, &[200, 4]),
        ask("create-entered-and-destroy", 3, &[300, 8]),
        ask("create-8-again", 0, &[8]),
        ask("create-200-below-300", 0, &[200]),
        ask("create-then-400", 1, &[301, 400]),
        totals("nine-things"),
        write("seats-taken-again", 87),
        write("seats-taken-again-short", 86),
        ask("destroy-301-and-7", 2, &[301, 7]),
        ask("create-301-again", 0, &[301]),
        ask("create-highest-401", 0, &[401]),
        ask("destroy-401-and-5", 2, &[401, 5]),
        write("highest-401-gone", 100),
        ask("create-401-again", 0, &[401]),
        ask("replace-401-and-2", 3, &[401, 2]),
        ask("replace-402-and-2", 3, &[402, 2]),
        totals("six-things"),
        write("highest-402-written", 100),
    ]
}

/// A refused request leaves the highest id as it was, whatever it had created before: each id of it can be taken afterwards.
fn refused() -> Vec<Case> {
    vec![
        with("things-47-to-refuse", 47, 60),
        ask("refused-61-500", 1, &[61, 500]),
        ask("refused-61-61", 1, &[61, 61]),
        ask("refused-500-60", 1, &[500, 60]),
        write("highest-60-after-refusals", 400),
        ask("create-61-after-refusals", 0, &[61]),
        case("things-9-to-refuse", Task::ReadMatrix(things(9))),
        ask("refused-10-and-a-subject", 3, &[10, 3]),
        ask("refused-10-and-none", 3, &[10, 11]),
        ask("refused-65535-65535", 1, &[65_535, 65_535]),
        ask("refused-10-of-two", 1, &[10]),
        ask("refused-10-and-2-2", 4, &[10, 2, 2]),
        write("highest-9-after-refusals", 100),
        ask("create-10-after-refusals", 0, &[10]),
        ask("create-11-12-after-refusals", 1, &[11, 12]),
        write("highest-12-after-refusals", 150),
        ask("create-and-destroy-13", 5, &[13]),
        write("highest-13-gone-at-once", 150),
        ask("create-and-destroy-13-again", 5, &[13]),
        ask("create-14-destroy-2-4", 4, &[14, 2, 4]),
        write("highest-14-written", 150),
    ]
}
