//! Seats asked for ids, things put at seats, the highest id, and cells copied: what is found and what isn't, the first seat, the last and those past it,
//! lists of other lengths.

use super::examples::{key_matrix, key_scheme};
use super::seats::Seat;
use super::{case, Case, Task};

pub fn cases() -> Vec<Case> {
    let mut cases = vec![
        key_scheme("scheme-of-things"),
        key_matrix("matrix-of-things"),
    ];
    cases.extend(asked("key"));
    cases.extend(puts());
    cases.extend(highests());
    cases.extend(full());
    cases.extend(copies());
    cases
}

/// Things 5, 9 and 12 sit at 0, 1 and 2; id 0 is that of a free seat.
fn asked(label: &str) -> Vec<Case> {
    let mut cases = Vec::new();
    for first in [0, 1, 2, 3, 4, 47, 48, 49, u64::MAX] {
        for id in [0, 5, 9, 10, 12, 65_535] {
            let label = format!("{label}-seat-of-{id}-in-{first}");
            cases.push(case(label, Task::Seats { first, id }));
        }
    }
    cases
}

fn put(label: &str, seat: u64, id: u16, kind: u8) -> Case {
    let thing = Seat::of(id, kind);
    let task = Task::PutThing { seat, thing };
    case(format!("put-{label}"), task)
}

/// Past the last seat no seat changes, but an id above the highest still becomes it; of two seats with one id the first is found.
fn puts() -> Vec<Case> {
    let mut cases = vec![
        put("7-at-48", 48, 7, 1),
        put("12-at-48", 48, 12, 1),
        put("0-at-48", 48, 0, 1),
        put("at-48", 48, 77, 1),
        put("at-49", 49, 78, 1),
        put("at-255", 255, 79, 1),
        put("at-256", 256, 80, 1),
        put("at-the-last", u64::MAX, 81, 1),
        case("put-totals", Task::Totals),
        case("put-written", Task::WriteMatrix(64)),
        put("at-47", 47, 65_535, 2),
        case("put-totals-at-47", Task::Totals),
        put("second-9", 46, 9, 255),
    ];
    cases.extend(asked("second"));
    cases.push(put("free-1", 1, 0, 0));
    cases.push(put("over-0", 0, 12, 1));
    cases.extend(asked("moved"));
    cases.push(case("no-things", Task::NoThings));
    cases.push(case("no-things-accepted", Task::Accepted));
    cases.push(case("no-things-totals", Task::Totals));
    cases.extend(asked("none"));
    cases
}

/// Things put below the highest id, at it and above it; and the highest set alone, with which the things are accepted or not.
fn highests() -> Vec<Case> {
    let set = |highest: u16| {
        let label = format!("set-highest-{highest}");
        [
            case(label.clone(), Task::SetHighest(highest)),
            case(format!("{label}-accepted"), Task::Accepted),
            case(format!("{label}-totals"), Task::Totals),
            case(format!("{label}-written"), Task::WriteMatrix(100)),
        ]
    };
    let mut cases = vec![
        key_matrix("matrix-of-highests"),
        put("12-again", 2, 12, 2),
        put("11-over-12", 2, 11, 2),
        put("13-over-11", 2, 13, 2),
        put("0-over-13", 2, 0, 0),
        put("12-over-0", 2, 12, 2),
        put("65535-at-3", 3, 65_535, 2),
        put("0-at-3", 3, 0, 0),
    ];
    for highest in [65_535, 65_534, 268, 13, 12, 11, 9, 8, 5, 4, 1, 0, 256] {
        cases.extend(set(highest));
    }
    cases.push(case("highest-no-things", Task::NoThings));
    cases.push(case("highest-of-no-things", Task::SetHighest(300)));
    cases.push(put("7-of-none", 0, 7, 1));
    cases.push(case("highest-none-again", Task::NoThings));
    cases.push(put("7-of-nothing", 0, 7, 1));
    cases
}

/// No seat is free, and each id is found at its own.
fn full() -> Vec<Case> {
    let mut cases = Vec::new();
    for seat in 0..48 {
        cases.push(put(&format!("full-{seat}"), seat, 1_000 + seat as u16, 2));
    }
    for id in [0, 999, 1_000, 1_046, 1_047, 1_048] {
        for first in [0, 1, 46, 47, 48, 49] {
            let label = format!("full-seat-of-{id}-in-{first}");
            cases.push(case(label, Task::Seats { first, id }));
        }
    }
    cases
}

/// As many as both have: fewer cells lent than sets, as many, and more; from the first place on, from the last ones, and from past the end.
fn copies() -> Vec<Case> {
    let sets = [u64::MAX, 0, 1, 1 << 63];
    let copy = |label: String, cells: u16, place: u64, many: usize| {
        let sets = sets[..many].to_vec();
        let copy = Task::CopyCells { place, sets };
        let read = key_matrix(&format!("{label}-matrix"));
        [
            read,
            Case {
                cells,
                ..case(label, copy)
            },
        ]
    };
    let mut cases = Vec::new();
    for cells in [0, 1, 2, 3, 4, 5, 2_303, 2_304, 2_305, 2_400] {
        for many in [0, 1, 3, 4] {
            cases.extend(copy(format!("copy-{many}-to-{cells}"), cells, 0, many));
        }
    }
    for place in [1, 2_300, 2_301, 2_303, 2_304, 2_305, u64::MAX] {
        cases.extend(copy(format!("copy-4-from-{place}"), 2_304, place, 4));
    }
    cases
}
