//! Hold and release by id (12, 27): of each thing, of none and again; at the first seat and the last; on what isn't accepted, and with other numbers of
//! cells lent.

use super::carrying_out::{ask, makers, things_with};
use super::examples::{key_matrix, key_scheme, set_cell, KEY_SCHEME, LOAD, RETIRE};
use super::seats::Seat;
use super::{case, Case, Task};
use crate::scheme::write_scheme;

pub fn cases() -> Vec<Case> {
    [
        of_key(),
        of_no_things(),
        at_last_seat(),
        of_strangers(),
        of_cells(),
        around_requests(),
        around_conversion(),
    ]
    .concat()
}

fn hold(label: &str, id: u16) -> Case {
    case(format!("hold-{label}"), Task::Hold(id))
}

fn release(label: &str, id: u16) -> Case {
    case(format!("release-{label}"), Task::Release(id))
}

/// What is marked or unmarked already stays so. Ids beside those of the things, and such as have one of their bytes.
fn of_key() -> Vec<Case> {
    let mut cases = vec![
        key_scheme("scheme-to-hold"),
        key_matrix("matrix-to-hold"),
        release("9-first", 9),
        hold("9", 9),
        hold("9-again", 9),
        hold("5", 5),
        hold("12", 12),
        case("hold-all-written", Task::WriteMatrix(61)),
        case("hold-all-totals", Task::Totals),
        case("hold-all-accepted", Task::Accepted),
        release("9", 9),
        release("9-again", 9),
        case("hold-5-12-written", Task::WriteMatrix(61)),
    ];
    for id in [0, 8, 10, 13, 256 + 9, 9 << 8, 65_535] {
        cases.push(hold(&format!("no-thing-{id}"), id));
    }
    for id in [0, 8, 65_535] {
        cases.push(release(&format!("no-thing-{id}"), id));
    }
    cases.extend([
        release("5", 5),
        release("12", 12),
        case("hold-none-written", Task::WriteMatrix(61)),
    ]);
    cases
}

/// An id up to the highest, and none at all.
fn of_no_things() -> Vec<Case> {
    let mut cases = vec![case(
        "hold-nothing",
        Task::ReadMatrix(vec![4, 0, 7, 0, 4, 0, 9, 0]),
    )];
    for id in [0, 9, 10] {
        cases.push(hold(&format!("nothing-{id}"), id));
        cases.push(release(&format!("nothing-{id}"), id));
    }
    cases
}

/// Of 48 things the first and the last, and of few ones that at the last seat, whose id is between others.
fn at_last_seat() -> Vec<Case> {
    let thing = Seat::of(260, 1);
    vec![
        case("hold-makers", Task::ReadScheme(write_scheme(&makers()))),
        case("hold-of-48", Task::ReadMatrix(things_with(48, 300))),
        hold("48-of-48", 48),
        hold("49-of-48", 49),
        hold("1-of-48", 1),
        case("hold-of-48-written", Task::WriteMatrix(344)),
        release("48-of-48", 48),
        release("1-of-48", 1),
        case("hold-of-9", Task::ReadMatrix(things_with(9, 300))),
        case("hold-put-at-47", Task::PutThing { seat: 47, thing }),
        hold("260-at-47", 260),
        hold("4-beside-260", 4),
        case("hold-at-47-written", Task::WriteMatrix(78)),
        release("260-at-47", 260),
        release("260-at-47-again", 260),
        case("hold-4-beside-260-written", Task::WriteMatrix(78)),
    ]
}

/// 27 before 12, and no mark changes; a mark at a free seat stays too.
fn of_strangers() -> Vec<Case> {
    let put = |seat, id, kind| Task::PutThing {
        seat,
        thing: Seat::of(id, kind).on_hold(),
    };
    let strangers = [
        ("no-scheme", Task::NoScheme),
        ("commands-33", Task::SetHead(4, 3, 3, 33)),
        ("types-2", Task::SetHead(4, 2, 3, 2)),
        ("mark-at-free-3", put(3, 0, 0)),
        ("mark-at-free-47", put(47, 0, 0)),
        ("id-9-twice", put(47, 9, 1)),
        ("highest-11", Task::SetHighest(11)),
        ("cell-of-free-row", set_cell(3 * 48, 1)),
    ];
    let mut cases = Vec::new();
    for (label, task) in strangers {
        let named = |end: &str| format!("27-hold-{label}-{end}");
        cases.extend([
            case(named("scheme"), Task::ReadScheme(KEY_SCHEME.to_vec())),
            key_matrix(&named("matrix")),
            case(named("made"), task),
            case(named("9"), Task::Hold(9)),
            case(named("no-thing"), Task::Release(8)),
        ]);
    }
    cases
}

/// 27 too, before 12, where another number is lent than a matrix has.
fn of_cells() -> Vec<Case> {
    let mut cases = vec![key_scheme("hold-cells-scheme"), key_matrix("hold-cells")];
    for cells in [0, 2_303, 2_304, 2_305] {
        let lent = |mut case: Case| {
            case.cells = cells;
            case
        };
        cases.push(lent(hold(&format!("lent-{cells}"), 9)));
        cases.push(lent(release(&format!("lent-{cells}"), 8)));
    }
    cases
}

/// A key on hold takes part in nothing and keeps its rights; released it loads as before. What is created where a thing on hold sat isn't on hold.
fn around_requests() -> Vec<Case> {
    vec![
        key_scheme("hold-asked-scheme"),
        key_matrix("hold-asked-matrix"),
        hold("asked-9", 9),
        ask("hold-asked-load", LOAD, &[9, 12]),
        ask("hold-asked-retire", RETIRE, &[5, 9]),
        release("asked-9", 9),
        ask("hold-asked-load-after", LOAD, &[9, 12]),
        hold("asked-5", 5),
        ask("hold-asked-load-beside", LOAD, &[9, 12]),
        case("hold-asked-written", Task::WriteMatrix(61)),
        case(
            "hold-destroyed-makers",
            Task::ReadScheme(write_scheme(&makers())),
        ),
        case("hold-destroyed-things", Task::ReadMatrix(things_with(9, 9))),
        hold("destroyed-1", 1),
        ask("hold-destroyed-refused", 2, &[1, 4]),
        release("destroyed-1", 1),
        hold("destroyed-9", 9),
        ask("hold-destroyed", 2, &[1, 4]),
        hold("destroyed-1-gone", 1),
        ask("hold-destroyed-created", 1, &[10, 11]),
        case("hold-destroyed-written", Task::WriteMatrix(71)),
        hold("destroyed-10", 10),
        hold("destroyed-11", 11),
        case("hold-created-written", Task::WriteMatrix(71)),
    ]
}

/// A robot's matrix has the same marks, and they are set and cleared in it as in the office's.
fn around_conversion() -> Vec<Case> {
    vec![
        key_scheme("hold-robot-scheme"),
        key_matrix("hold-robot-matrix"),
        hold("robot-12", 12),
        case("hold-robot-bytes", Task::ConvertMatrix(125)),
        case("hold-robot-cells", Task::ConvertedCells),
        hold("robot-of-office-scheme", 9),
        case("hold-robot-converted", Task::ConvertedScheme),
        ask("hold-robot-load", LOAD, &[9, 12]),
        hold("robot-9", 9),
        release("robot-12", 12),
        case("hold-robot-written", Task::WriteMatrix(125)),
        ask("hold-robot-retire", RETIRE, &[5, 9]),
        release("robot-9", 9),
        ask("hold-robot-load-after", LOAD, &[9, 12]),
    ]
}
