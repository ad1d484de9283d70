//! The mark of one thing set among things as they are, accepted or not (12 for an id of no seat): at the first seat and the last, where an id stands twice,
//! and beside marks of free seats.

use super::carrying_out::{makers, things_with};
use super::examples::{key_matrix, key_scheme};
use super::seats::Seat;
use super::{case, Case, Task};
use crate::scheme::write_scheme;

pub fn cases() -> Vec<Case> {
    [
        of_key(),
        at_last_seat(),
        of_ids_twice(),
        of_no_things(),
        of_free_seats(),
        of_other_strangers(),
        of_full(),
        of_cells(),
    ]
    .concat()
}

fn on(label: &str, id: u16) -> Case {
    let held = true;
    case(format!("marked-{label}"), Task::MarkThing { id, held })
}

fn off(label: &str, id: u16) -> Case {
    let held = false;
    case(format!("unmarked-{label}"), Task::MarkThing { id, held })
}

fn put(label: &str, seat: u64, thing: Seat) -> Case {
    let task = Task::PutThing { seat, thing };
    case(format!("to-mark-{label}"), task)
}

/// None of these changes what the next one meets.
fn of_key() -> Vec<Case> {
    let mut cases = vec![key_scheme("to-mark-scheme"), key_matrix("to-mark-matrix")];
    for id in [5, 9, 12] {
        cases.push(on(&format!("{id}"), id));
    }
    cases.push(off("5-never-on", 5));
    for id in [0, 8, 256 + 9, 65_535] {
        cases.push(on(&format!("no-thing-{id}"), id));
    }
    cases.extend([
        put("5-on", 0, Seat::of(5, 0).on_hold()),
        on("5-again", 5),
        off("5", 5),
        off("9-beside-5", 9),
    ]);
    cases
}

fn at_last_seat() -> Vec<Case> {
    let last = Seat::of(65_535, 1);
    vec![
        put("last", 47, last),
        on("last", 65_535),
        on("below-last", 65_534),
        put("last-on", 47, last.on_hold()),
        off("last", 65_535),
    ]
}

/// Of two seats with one id the first alone is looked at, whatever mark the second has.
fn of_ids_twice() -> Vec<Case> {
    let key = Seat::of(9, 1);
    vec![
        put("second-9", 47, key),
        on("first-9-of-none-on", 9),
        put("first-9-on", 1, key.on_hold()),
        on("first-9-of-first-on", 9),
        off("first-9-of-first-on", 9),
        put("second-9-on", 47, key.on_hold()),
        off("first-9-of-both-on", 9),
    ]
}

/// Not even an id up to the highest; the id 0 is that of all seats.
fn of_no_things() -> Vec<Case> {
    vec![
        case("to-mark-nothing", Task::NoThings),
        case("to-mark-nothing-highest", Task::SetHighest(9)),
        on("0-of-nothing", 0),
        on("9-of-nothing", 9),
    ]
}

/// A free seat's mark stays as it is, and no id reaches it.
fn of_free_seats() -> Vec<Case> {
    let stray = Seat::of(0, 0).on_hold();
    vec![
        key_matrix("to-mark-beside-free"),
        put("free-3-on", 3, stray),
        put("free-47-on", 47, stray),
        on("9-beside-free", 9),
        off("9-beside-free", 9),
        on("0-of-free", 0),
        off("0-of-free", 0),
        put("free-0-on", 0, stray),
        off("0-of-free-0", 0),
        on("9-behind-free-0", 9),
    ]
}

/// A type that no scheme has, an id above the highest, and no scheme at all.
fn of_other_strangers() -> Vec<Case> {
    vec![
        key_matrix("to-mark-stranger"),
        put("type-255", 3, Seat::of(7, 255)),
        on("type-255", 7),
        case("to-mark-highest-0", Task::SetHighest(0)),
        on("above-highest", 12),
        case("to-mark-no-scheme", Task::NoScheme),
        on("without-scheme", 9),
    ]
}

/// No seat is free, so that no seat has the id 0.
fn of_full() -> Vec<Case> {
    vec![
        case("to-mark-makers", Task::ReadScheme(write_scheme(&makers()))),
        case("to-mark-full", Task::ReadMatrix(things_with(48, 300))),
        on("48-of-full", 48),
        on("0-of-full", 0),
    ]
}

/// How many cells are lent doesn't matter, but for what the sum of the answer counts.
fn of_cells() -> Vec<Case> {
    let mut cases = vec![
        key_scheme("to-mark-lent-scheme"),
        key_matrix("to-mark-lent"),
    ];
    for cells in [0, 2, 2_305, 2_400] {
        let lent = on(&format!("9-lent-{cells}"), 9);
        cases.push(Case { cells, ..lent });
    }
    let lent = on("8-lent-0", 8);
    cases.push(Case { cells: 0, ..lent });
    cases
}
