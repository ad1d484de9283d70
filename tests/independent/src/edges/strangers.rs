//! 27, before every other check and with room for all that could be stored: schemes and matrices that no reading gives, each handed to every entry
//! point that takes it. What would be carried out is carried out on their neighbours, which a reading does give.

use super::examples::{set_cell, KEY_SCHEME, LOAD, RETIRE};
use super::seats::Seat;
use super::tasks::{Ask, SetCommand};
use super::{case, Case, Task};
use crate::matrix::{write_matrix, Matrix};
use crate::request::write_request;
use crate::scheme::{read_scheme, write_scheme, Command, Operation, Scheme, Test};

/// A label, and how the value is made of the key example.
type Stranger = (String, Vec<Task>);

pub fn cases() -> Vec<Case> {
    let mut cases = Vec::new();
    for (label, tasks) in schemes() {
        cases.extend(made(&label, tasks));
        cases.extend(asked_of_scheme(&label));
    }
    for (label, tasks) in [matrices(), highests()].concat() {
        cases.extend(made(&label, tasks));
        cases.extend(asked_of_matrix(&label, 2_304));
    }
    for cells in [0, 1, 2_303, 2_304, 2_305, 2_400] {
        let label = format!("cells-{cells}");
        cases.extend(made(&label, vec![]));
        cases.extend(asked_of_matrix(&label, cells));
    }
    cases.extend(before_room());
    cases
}

// ---- the key example, with all its six cells filled, so that a cell that is cleared is seen

fn key_scheme() -> Scheme {
    read_scheme(&KEY_SCHEME).expect("the key example").0
}

/// What load needs stands in it: sign in [9,12], and not retired in [9,9].
fn full_matrix() -> Vec<u8> {
    let scheme = key_scheme();
    let mut matrix = Matrix::new();
    for (id, kind) in [(5, 0), (9, 1), (12, 2)] {
        matrix.create(&scheme, id, kind);
    }
    let cells = [
        (5, 5, 8),
        (5, 9, 1),
        (5, 12, 4),
        (9, 5, 2),
        (9, 9, 9),
        (9, 12, 6),
    ];
    for (row, column, rights) in cells {
        matrix.set_cell(row, column, rights);
    }
    write_matrix(&matrix, &scheme)
}

/// The key example read, then changed.
fn made(label: &str, tasks: Vec<Task>) -> Vec<Case> {
    let start = [
        Task::ReadScheme(KEY_SCHEME.to_vec()),
        Task::ReadMatrix(full_matrix()),
    ];
    let numbered = start.into_iter().chain(tasks).enumerate();
    numbered
        .map(|(number, task)| case(format!("{label}-{number}"), task))
        .collect()
}

// ---- schemes

pub fn schemes() -> Vec<Stranger> {
    [
        heads(),
        counts(),
        behind_lists(),
        behind_commands(),
        forms(),
    ]
    .concat()
}

fn stranger(label: &str, tasks: Vec<Task>) -> Stranger {
    (format!("27-{label}"), tasks)
}

/// Heads of which no reading gives the first, and with some of which the commands aren't any more; the matrix too, where n is 2, m is 2 or a
/// subject is none any more.
fn heads() -> Vec<Stranger> {
    let head = |label: &str, n, m, subjects, count| {
        stranger(label, vec![Task::SetHead(n, m, subjects, count)])
    };
    vec![
        stranger("no-scheme", vec![Task::NoScheme]),
        head("rights-0", 0, 3, 3, 2),
        head("rights-3", 3, 3, 3, 2),
        head("rights-64", 64, 3, 3, 2),
        head("rights-65", 65, 3, 3, 2),
        head("rights-255", 255, 3, 3, 2),
        head("types-0", 4, 0, 3, 2),
        head("types-2", 4, 2, 3, 2),
        head("types-16", 4, 16, 3, 2),
        head("types-17", 4, 17, 3, 2),
        head("subjects-1", 4, 3, 1, 2),
        head("subjects-7", 4, 3, 7, 2),
        head("subjects-11", 4, 3, 11, 2),
        head("subjects-11-commands-0", 4, 3, 11, 0),
        head("commands-0", 4, 3, 3, 0),
        head("commands-1", 4, 3, 3, 1),
        head("commands-3", 4, 3, 3, 3),
        head("commands-32", 4, 3, 3, 32),
        head("commands-33", 4, 3, 3, 33),
        head("commands-255", 4, 3, 3, 255),
    ]
}

/// Retire has 2 parameters, 1 test and 1 operation.
fn counts() -> Vec<Stranger> {
    let retire = |label: &str, counts| stranger(label, vec![set(RETIRE, counts)]);
    vec![
        retire("parameters-0", [0, 1, 1]),
        retire("parameters-1", [1, 1, 1]),
        retire("parameters-3", [3, 1, 1]),
        retire("parameters-8", [8, 1, 1]),
        retire("parameters-9", [9, 1, 1]),
        retire("parameters-255", [255, 1, 1]),
        retire("tests-0", [2, 0, 1]),
        retire("tests-16", [2, 16, 1]),
        retire("tests-17", [2, 17, 1]),
        retire("tests-17-parameters-0", [0, 17, 1]),
        retire("operations-0", [2, 1, 0]),
        retire("operations-32", [2, 1, 32]),
        retire("operations-33", [2, 1, 33]),
        retire("operations-33-tests-17", [2, 17, 33]),
    ]
}

fn set(command: u8, counts: [u8; 3]) -> Task {
    set_operation(command, counts, 255, [0; 4])
}

fn set_operation(command: u8, counts: [u8; 3], place: u8, operation: [u8; 4]) -> Task {
    Task::SetCommand(SetCommand {
        command,
        counts,
        place,
        operation,
    })
}

/// A scheme with more in retire is read, and its counts set back: what was more stays behind them. Only zeros may.
fn behind_lists() -> Vec<Stranger> {
    let left = |label: &str, more: Command| {
        let mut scheme = key_scheme();
        scheme.commands[0] = more;
        let read = Task::ReadScheme(write_scheme(&scheme));
        stranger(
            &format!("behind-{label}"),
            vec![read, set(RETIRE, [2, 1, 1])],
        )
    };
    let retire = key_scheme().commands[0].clone();
    let kind = |kind| {
        let mut more = retire.clone();
        more.parameters.push(kind);
        more
    };
    let test = |[sense, right, row, column]: [u8; 4]| {
        let mut more = retire.clone();
        more.tests.push(Test {
            present: sense == 1,
            right,
            row,
            column,
        });
        more
    };
    let operation = |operation| {
        let mut more = retire.clone();
        more.operations.push(operation);
        more
    };
    let enter = |right, row, column| operation(Operation::Enter { right, row, column });
    let delete = Operation::Delete {
        right: 0,
        row: 0,
        column: 0,
    };
    vec![
        left("parameters-0", kind(0)),
        left("parameters-1", kind(1)),
        left("parameters-2", kind(2)),
        left("tests-zero", test([0, 0, 0, 0])),
        left("tests-sense", test([1, 0, 0, 0])),
        left("tests-right", test([0, 1, 0, 0])),
        left("tests-row", test([0, 0, 1, 0])),
        left("tests-column", test([0, 0, 0, 1])),
        left("operations-zero", enter(0, 0, 0)),
        left("operations-code", operation(delete)),
        left("operations-right", enter(1, 0, 0)),
        left("operations-row", enter(0, 1, 0)),
        left("operations-column", enter(0, 0, 1)),
        left(
            "operations-destroy",
            operation(Operation::Destroy { parameter: 0 }),
        ),
    ]
}

/// A command behind the two that are used: its counts, or what they left behind. Only zeros may.
fn behind_commands() -> Vec<Stranger> {
    let third = |parameters: &[u8], tests: &[Test], right: u8, counts: Option<[u8; 3]>| {
        let operation = Operation::Enter {
            right,
            row: 0,
            column: 0,
        };
        let mut scheme = key_scheme();
        scheme.commands.push(Command {
            parameters: parameters.to_vec(),
            tests: tests.to_vec(),
            operations: vec![operation],
        });
        let read = Task::ReadScheme(write_scheme(&scheme));
        let mut tasks = vec![read, Task::SetHead(4, 3, 3, 2)];
        tasks.extend(counts.map(|counts| set(2, counts)));
        tasks
    };
    let test = Test {
        present: true,
        right: 0,
        row: 0,
        column: 0,
    };
    let none = Some([0; 3]);
    vec![
        stranger("third-whole", third(&[0], &[], 0, None)),
        stranger("third-zero", third(&[0], &[], 0, none)),
        stranger("third-type", third(&[1], &[], 0, none)),
        stranger("third-test", third(&[0], &[test], 0, none)),
        stranger("third-operation", third(&[0], &[], 1, none)),
        stranger("third-parameters", vec![set(2, [1, 0, 0])]),
        stranger("third-tests", vec![set(2, [0, 1, 0])]),
        stranger("third-operations", vec![set(2, [0, 0, 1])]),
        stranger("last-operations", vec![set(31, [0, 0, 1])]),
        stranger(
            "last-operation",
            vec![set_operation(31, [0; 3], 31, [2, 0, 0, 0])],
        ),
    ]
}

/// Operations of load, whose parameters are a key and a robot: each in its range and its form, and then not.
fn forms() -> Vec<Stranger> {
    let load = |label: &str, count: u8, operations: &[[u8; 4]]| {
        let places = operations.iter().enumerate();
        let tasks = places
            .map(|(place, operation)| set_operation(LOAD, [2, 2, count], place as u8, *operation));
        stranger(label, tasks.collect())
    };
    let without_tests = |label: &str, operations: &[[u8; 4]]| {
        let count = operations.len() as u8;
        let places = operations.iter().enumerate();
        let tasks = places
            .map(|(place, operation)| set_operation(LOAD, [2, 0, count], place as u8, *operation));
        stranger(label, tasks.collect())
    };
    vec![
        load("enter-right-3", 1, &[[1, 3, 0, 1]]),
        load("enter-right-4", 1, &[[1, 4, 0, 1]]),
        load("delete-right-255", 1, &[[2, 255, 0, 1]]),
        load("enter-row-2", 1, &[[1, 0, 2, 1]]),
        load("enter-row-robot", 1, &[[1, 0, 1, 1]]),
        load("enter-column-2", 1, &[[1, 0, 0, 2]]),
        load("enter-row-robot-column-2", 1, &[[1, 0, 1, 2]]),
        load("create-tested-row", 1, &[[3, 0, 0, 0]]),
        load("create-tested-column", 1, &[[3, 0, 1, 0]]),
        load("create-right-1-row-2", 1, &[[3, 1, 2, 0]]),
        load("destroy", 1, &[[4, 0, 1, 0]]),
        load("destroy-right-1", 1, &[[4, 1, 1, 0]]),
        load("destroy-row-2", 1, &[[4, 0, 2, 0]]),
        load("destroy-column-1", 1, &[[4, 0, 1, 1]]),
        load("destroy-twice", 2, &[[4, 0, 1, 0], [4, 0, 1, 0]]),
        load("enter-after-destroy", 2, &[[4, 0, 1, 0], [1, 0, 0, 0]]),
        load("last-operation-used", 32, &[[2, 0, 0, 0]]),
    ]
    .into_iter()
    .chain([
        without_tests("behind-tests", &[[1, 3, 0, 1]]),
        without_tests("create-twice", &[[3, 0, 0, 0], [3, 0, 0, 0]]),
        without_tests("create-after-enter", &[[1, 0, 0, 1], [3, 0, 1, 0]]),
        without_tests("create-after-destroy", &[[4, 0, 0, 0], [3, 0, 1, 0]]),
    ])
    .collect()
}

/// Every entry point that takes a scheme or a head: what each would do were the value one that a reading gives.
fn asked_of_scheme(label: &str) -> Vec<Case> {
    let named = |what: &str, task: Task| case(format!("{label}-{what}"), task);
    let mut cases = vec![
        named("accepted", Task::Accepted),
        named("retire", Task::CommandAccepted(0)),
        named("load", Task::CommandAccepted(1)),
        named("third", Task::CommandAccepted(2)),
        named("last", Task::CommandAccepted(31)),
        named("write-scheme", Task::WriteScheme(300)),
        named("convert-scheme", Task::ConvertScheme(300)),
        named("read-matrix", Task::ReadMatrix(full_matrix())),
        named("read-by-head", Task::ReadMatrixByHead(full_matrix())),
    ];
    cases.extend(asked_of_matrix(label, 2_304));
    cases.extend([
        named("scheme-broken", Task::ReadScheme(vec![5, 0, 1])),
        named("scheme-as-value", Task::ConvertedScheme),
        named("accepted-after", Task::Accepted),
    ]);
    cases
}

/// Every entry point that takes a matrix, with so many cells lent; the request and the lists are carried out where the matrix is none of strangers.
fn asked_of_matrix(label: &str, cells: u16) -> Vec<Case> {
    let load = Ask {
        command: LOAD,
        ids: vec![9, 12],
    };
    let list = [(RETIRE, [5, 9]), (LOAD, [9, 12])];
    let list = list.map(|(command, ids)| write_request(command, &ids).expect("two ids"));
    let list = list.concat();
    let tasks = [
        ("matrix", Task::Accepted),
        ("totals", Task::Totals),
        ("write", Task::WriteMatrix(300)),
        ("by-head", Task::WriteMatrixByHead(300)),
        ("convert", Task::ConvertMatrix(300)),
        ("request", Task::Request(load)),
        ("quietly", Task::ListQuietly(list.clone())),
        ("list", Task::List { list, room: 300 }),
        ("read", Task::ReadMatrix(vec![])),
        ("read-head", Task::ReadMatrixByHead(vec![])),
        ("cells-where-they-lie", Task::ConvertedCells),
    ];
    let lent = |(what, task)| Case {
        cells,
        ..case(format!("{label}-{what}"), task)
    };
    tasks.into_iter().map(lent).collect()
}

// ---- matrices

/// Things 5, 9 and 12 sit at 0, 1 and 2. A cell's place is 48 times its row's seat, and its column's seat.
fn matrices() -> Vec<Stranger> {
    let thing = |seat, id, kind| Task::PutThing {
        seat,
        thing: Seat::of(id, kind),
    };
    let mark = |seat| Task::PutThing {
        seat,
        thing: Seat::of(0, 0).on_hold(),
    };
    let cell = set_cell;
    let one = |label: &str, task: Task| stranger(label, vec![task]);
    vec![
        one("thing-at-3", thing(3, 20, 2)),
        one("thing-at-47", thing(47, 65_535, 1)),
        stranger(
            "cell-at-47",
            vec![thing(47, 40, 0), cell(2_303, 15), cell(1, 3)],
        ),
        one("type-at-free-3", thing(3, 0, 1)),
        one("type-at-free-47", thing(47, 0, 255)),
        one("mark-at-free-3", mark(3)),
        one("mark-at-free-47", mark(47)),
        one("id-5-twice", thing(3, 5, 0)),
        one("id-12-twice", thing(47, 12, 2)),
        one("type-3", thing(3, 20, 3)),
        one("type-255", thing(47, 20, 255)),
        one("freed-5", thing(0, 0, 0)),
        one("robot-a-key", thing(2, 12, 1)),
        one("key-a-robot", thing(1, 9, 2)),
        one("cell-of-free-row", cell(3 * 48, 1)),
        one("cell-of-free-column", cell(3, 1)),
        one("cell-of-robot-row", cell(2 * 48, 1)),
        one("cell-last", cell(2_303, 1)),
        one("right-3", cell(1, 9)),
        one("right-4", cell(1, 1 | 1 << 4)),
        one("right-63", cell(1, 1 | 1 << 63)),
    ]
}

/// An id above the highest is a stranger, at the first seat and at the last, the first byte and the second; one at the highest is none. Without things
/// any number is accepted.
fn highests() -> Vec<Stranger> {
    let set = Task::SetHighest;
    let with = |label: &str, seat, id, highest| {
        let kind = if seat == 2 { 2 } else { 1 };
        let thing = Seat::of(id, kind);
        let thing = Task::PutThing { seat, thing };
        stranger(label, vec![thing, set(highest)])
    };
    let key = |highest: u16| stranger(&format!("key-highest-{highest}"), vec![set(highest)]);
    let none = |highest: u16| {
        let read = Task::ReadMatrix(vec![4, 0, 7, 0, 4, 0, 9, 0]);
        let label = format!("no-things-highest-{highest}");
        stranger(&label, vec![read, set(highest)])
    };
    let mut strangers = vec![
        with("id-13-at-0-highest-12", 0, 13, 12),
        with("id-13-at-0-highest-13", 0, 13, 13),
        with("id-13-at-2-highest-12", 2, 13, 12),
        with("id-13-at-2-highest-13", 2, 13, 13),
        with("id-40-at-47-highest-39", 47, 40, 39),
        with("id-40-at-47-highest-40", 47, 40, 40),
        with("id-256-at-47-highest-255", 47, 256, 255),
        with("id-256-at-47-highest-256", 47, 256, 256),
        with("id-65535-at-0-highest-65534", 0, 65_535, 65_534),
        with("id-65535-at-47-highest-65534", 47, 65_535, 65_534),
        with("id-65535-at-47-highest-65535", 47, 65_535, 65_535),
    ];
    strangers.extend([0, 4, 5, 8, 9, 11, 12, 13, 268, 65_535].map(key));
    strangers.extend([0, 1, 12, 256, 65_534, 65_535].map(none));
    strangers
}

/// 27 comes before 9, and before what is wrong with a request or a list.
fn before_room() -> Vec<Case> {
    let ask = Ask {
        command: 200,
        ids: vec![],
    };
    let tasks = [
        Task::WriteScheme(0),
        Task::ConvertScheme(0),
        Task::WriteMatrix(0),
        Task::WriteMatrixByHead(0),
        Task::ConvertMatrix(0),
        Task::Request(ask),
        Task::List {
            list: vec![1, 2, 3],
            room: 0,
        },
        Task::ListQuietly(vec![1, 2, 3]),
    ];
    let strangers = [
        ("no-room-scheme", Task::SetHead(65, 3, 3, 2)),
        ("no-room-matrix", set_cell(3, 1)),
        ("no-room-highest", Task::SetHighest(11)),
    ];
    let mut cases = Vec::new();
    for (label, task) in strangers {
        cases.extend(made(label, vec![task]));
        for (number, task) in tasks.iter().enumerate() {
            cases.push(case(format!("{label}-asked-{number}"), task.clone()));
        }
    }
    cases
}
