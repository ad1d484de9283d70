//! Where a request's things sit (12, 13), and what its creates and destroys make of them (15, 16, 17 with the operation's place): at the first seat and the
//! last, with highest ids below, at and above those asked, and with ids and spots that are too few, too many or of somebody else.

use super::carrying_out::{makers, things};
use super::seats::Seat;
use super::tasks::{Ask, SetCommand};
use super::{case, Case, Task};
use crate::scheme::write_scheme;

/// The commands of the makers: they create a thing, create two, destroy two, create one, enter twice and destroy another, create one and destroy two
/// others, destroy what they create, and create two, the second parameter first.
pub const CREATE: u8 = 0;
pub const CREATE_TWO: u8 = 1;
pub const DESTROY_TWO: u8 = 2;
pub const REPLACE: u8 = 3;
const REPLACE_TWO: u8 = 4;
const TURN: u8 = 5;
const CREATE_TURNED: u8 = 6;

/// Spots where nobody sits.
pub const PAST: [u8; 2] = [48, 255];

pub fn cases() -> Vec<Case> {
    let makers = case("makers-to-plan", Task::ReadScheme(write_scheme(&makers())));
    let rows = [LOCATES, CREATES, DESTROYS].concat();
    let mut cases = vec![makers];
    cases.extend(rows.iter().flat_map(plan));
    cases.extend(HIGHESTS.iter().flat_map(plan_with));
    cases.extend(spots());
    cases.extend(counts());
    cases.extend(rows_of_operations());
    cases
}

/// How many things there are, a command and its ids, the spots of all parameters but the second and of the second, and the parameter whose spot is told.
type Row = (&'static str, u16, u8, &'static [u16], [u8; 2], u8);

/// The things before a plan, the plan, and the totals of what it leaves.
fn plan(&(label, count, command, ids, spots, parameter): &Row) -> [Case; 3] {
    let before = Task::ReadMatrix(things(count));
    [
        case(format!("plan-{label}-things"), before),
        ask(label, command, ids, spots, parameter),
        case(format!("plan-{label}-totals"), Task::Totals),
    ]
}

pub fn ask(label: &str, command: u8, ids: &[u16], spots: [u8; 2], parameter: u8) -> Case {
    let ids = ids.to_vec();
    let task = Task::Plan {
        ask: Ask { command, ids },
        spots,
        parameter,
    };
    case(format!("plan-{label}"), task)
}

/// Of the things 1 to 9 the subjects, of type 0, are 3, 6 and 9.
const LOCATES: &[Row] = &[
    ("of-1-2", 9, DESTROY_TWO, &[1, 2], PAST, 1),
    ("of-2-1", 9, DESTROY_TWO, &[2, 1], PAST, 0),
    ("of-8-8", 9, DESTROY_TWO, &[8, 8], PAST, 1),
    ("of-0-2", 9, DESTROY_TWO, &[0, 2], PAST, 0),
    ("of-1-0", 9, DESTROY_TWO, &[1, 0], PAST, 0),
    ("of-10-1", 9, DESTROY_TWO, &[10, 1], PAST, 1),
    ("of-1-10", 9, DESTROY_TWO, &[1, 10], PAST, 0),
    ("of-1-65535", 9, DESTROY_TWO, &[1, 65_535], PAST, 0),
    ("of-3-1", 9, DESTROY_TWO, &[3, 1], PAST, 1),
    ("of-1-3", 9, DESTROY_TWO, &[1, 3], PAST, 0),
    ("of-3-0", 9, DESTROY_TWO, &[3, 0], PAST, 0),
    ("of-0-3", 9, DESTROY_TWO, &[0, 3], PAST, 0),
    ("of-none", 9, DESTROY_TWO, &[], [0, 0], 0),
    ("of-one", 9, DESTROY_TWO, &[8], [7, 7], 0),
    ("of-one-wrong", 9, DESTROY_TWO, &[3], [2, 9], 0),
    ("of-three", 9, DESTROY_TWO, &[7, 8, 0], [6, 7], 2),
    (
        "of-ten",
        9,
        DESTROY_TWO,
        &[8, 7, 1, 2, 3, 4, 5, 6, 7, 8],
        PAST,
        0,
    ),
    ("of-new", 9, CREATE_TWO, &[100, 101], PAST, 0),
    ("of-new-0", 9, CREATE_TWO, &[0, 5], PAST, 0),
    ("of-new-second-0", 9, CREATE_TWO, &[5, 0], PAST, 0),
    ("of-new-then-8", 9, REPLACE, &[300, 8], [0, 7], 1),
    ("of-new-then-3", 9, REPLACE, &[300, 3], [0, 2], 1),
    ("of-new-then-11", 9, REPLACE, &[300, 11], [0, 9], 1),
    ("of-new-0-then-8", 9, REPLACE, &[0, 8], [0, 7], 1),
    ("of-new-0-then-3", 9, REPLACE, &[0, 3], [0, 2], 1),
];

const CREATES: &[Row] = &[
    ("create", 9, CREATE, &[100], [0, 0], 0),
    ("create-spots", 9, CREATE, &[100], [7, 8], 1),
    ("create-first", 0, CREATE, &[1], [7, 8], 0),
    ("create-at-47", 47, CREATE, &[65_535], [0, 0], 0),
    ("create-at-48", 48, CREATE, &[100], [7, 8], 0),
    ("create-used", 9, CREATE, &[7], [7, 8], 0),
    ("create-used-at-48", 48, CREATE, &[48], [0, 0], 0),
    ("two", 9, CREATE_TWO, &[100, 101], [7, 8], 1),
    ("two-other-spots", 9, CREATE_TWO, &[100, 101], [7, 8], 2),
    ("two-at-46", 46, CREATE_TWO, &[100, 101], [0, 0], 1),
    ("two-at-47", 47, CREATE_TWO, &[100, 101], [7, 8], 1),
    ("two-at-48", 48, CREATE_TWO, &[100, 101], [0, 0], 1),
    ("two-same", 9, CREATE_TWO, &[100, 100], [0, 0], 0),
    ("two-same-at-47", 47, CREATE_TWO, &[100, 100], [0, 0], 0),
    ("two-first-used", 9, CREATE_TWO, &[9, 100], [0, 0], 0),
    ("two-second-used", 9, CREATE_TWO, &[100, 9], [0, 0], 0),
    (
        "two-second-used-at-47",
        47,
        CREATE_TWO,
        &[100, 9],
        [0, 0],
        0,
    ),
    ("create-of-more-ids", 9, CREATE, &[100; 10], [0, 0], 0),
];

const DESTROYS: &[Row] = &[
    ("destroy", 9, DESTROY_TWO, &[1, 4], [0, 3], 1),
    ("destroy-last", 48, DESTROY_TWO, &[48, 47], [47, 46], 0),
    ("destroy-same", 9, DESTROY_TWO, &[2, 2], [1, 1], 1),
    ("destroy-turned", 9, DESTROY_TWO, &[1, 4], [3, 0], 1),
    ("destroy-second-wrong", 9, DESTROY_TWO, &[1, 4], [0, 4], 1),
    ("destroy-free-seat", 9, DESTROY_TWO, &[1, 4], [0, 9], 1),
    ("destroy-past", 9, DESTROY_TWO, &[1, 4], [48, 3], 0),
    ("destroy-second-past", 9, DESTROY_TWO, &[1, 4], [0, 255], 1),
    ("replace", 9, REPLACE, &[300, 8], [0, 7], 0),
    ("replace-at-47", 47, REPLACE, &[300, 8], [0, 7], 1),
    ("replace-at-48", 48, REPLACE, &[300, 8], [0, 7], 1),
    ("replace-used", 9, REPLACE, &[8, 8], [0, 7], 1),
    ("replace-gone", 9, REPLACE, &[300, 8], [0, 6], 1),
];

/// How many things there are and the highest id, a command and its ids; spots in reach.
type Of = (&'static str, u16, u16, u8, &'static [u16]);

/// A create is 15 by the highest id alone: with one below the things' ids too, which no reading gives.
const HIGHESTS: &[Of] = &[
    ("next", 9, 9, CREATE, &[10]),
    ("at-highest", 9, 9, CREATE, &[9]),
    ("below-used", 9, 9, CREATE, &[8]),
    ("next-of-20", 9, 20, CREATE, &[21]),
    ("at-20", 9, 20, CREATE, &[20]),
    ("below-20-free", 9, 20, CREATE, &[19]),
    ("below-20-used", 9, 20, CREATE, &[9]),
    ("0-of-20", 9, 20, CREATE, &[0]),
    ("none-of-20", 9, 20, CREATE, &[]),
    ("far-of-20", 9, 20, CREATE, &[65_535]),
    ("last-of-65534", 9, 65_534, CREATE, &[65_535]),
    ("last-of-65535", 9, 65_535, CREATE, &[65_535]),
    ("one-of-65535", 9, 65_535, CREATE, &[1]),
    ("ten-of-65535", 9, 65_535, CREATE, &[10]),
    ("256-of-255", 9, 255, CREATE, &[256]),
    ("255-of-256", 9, 256, CREATE, &[255]),
    ("one-of-none", 0, 0, CREATE, &[1]),
    ("0-of-none", 0, 0, CREATE, &[0]),
    ("two-rise", 9, 20, CREATE_TWO, &[21, 22]),
    ("two-same", 9, 20, CREATE_TWO, &[21, 21]),
    ("two-fall", 9, 20, CREATE_TWO, &[22, 21]),
    ("two-fall-to-20", 9, 20, CREATE_TWO, &[21, 20]),
    ("two-from-20", 9, 20, CREATE_TWO, &[20, 21]),
    ("two-second-missing", 9, 20, CREATE_TWO, &[21]),
    ("two-last", 9, 65_533, CREATE_TWO, &[65_534, 65_535]),
    ("two-of-65534", 9, 65_534, CREATE_TWO, &[65_535, 65_535]),
    ("turned-rise", 9, 20, CREATE_TURNED, &[22, 21]),
    ("turned-same", 9, 20, CREATE_TURNED, &[21, 21]),
    ("turned-fall", 9, 20, CREATE_TURNED, &[21, 22]),
    ("turned-from-20", 9, 20, CREATE_TURNED, &[21, 20]),
    ("turned-rise-at-47", 47, 60, CREATE_TURNED, &[62, 61]),
    ("full-next", 48, 48, CREATE, &[49]),
    ("full-at-highest", 48, 48, CREATE, &[48]),
    ("full-next-of-60", 48, 60, CREATE, &[61]),
    ("full-at-60", 48, 60, CREATE, &[60]),
    ("full-below-60-free", 48, 60, CREATE, &[59]),
    ("full-below-60-used", 48, 60, CREATE, &[1]),
    ("full-0", 48, 60, CREATE, &[0]),
    ("full-of-65535", 48, 65_535, CREATE, &[65_535]),
    ("47-two-rise", 47, 60, CREATE_TWO, &[61, 62]),
    ("47-two-same", 47, 60, CREATE_TWO, &[61, 61]),
    ("47-two-fall", 47, 60, CREATE_TWO, &[62, 61]),
    ("47-two-from-60", 47, 60, CREATE_TWO, &[60, 61]),
    ("turn", 9, 20, TURN, &[21]),
    ("turn-at-20", 9, 20, TURN, &[20]),
    ("replace-next", 9, 9, REPLACE, &[10, 2]),
    ("replace-same", 9, 9, REPLACE, &[2, 2]),
    ("replace-two", 9, 20, REPLACE_TWO, &[21, 2, 1]),
    ("replace-two-gone", 9, 20, REPLACE_TWO, &[21, 2, 2]),
    ("replace-two-at-20", 9, 20, REPLACE_TWO, &[20, 2, 1]),
    ("stranger-used-above", 9, 8, CREATE, &[9]),
    ("stranger-used-below", 9, 8, CREATE, &[8]),
    ("stranger-of-0", 9, 0, CREATE, &[1]),
    ("stranger-of-0-and-0", 9, 0, CREATE, &[0]),
    ("stranger-two", 9, 3, CREATE_TWO, &[4, 9]),
    ("stranger-full-used", 48, 47, CREATE, &[48]),
    ("stranger-full-below", 48, 47, CREATE, &[47]),
];

/// The second parameter's thing is 2, and that of all others 1; then the same once more, on what the first plan left.
fn plan_with(&(label, count, highest, command, ids): &Of) -> [Case; 5] {
    let label = format!("highest-{label}");
    let set = Task::SetHighest(highest);
    [
        case(
            format!("plan-{label}-things"),
            Task::ReadMatrix(things(count)),
        ),
        case(format!("plan-{label}-set"), set),
        ask(&label, command, ids, [0, 1], 0),
        case(format!("plan-{label}-totals"), Task::Totals),
        ask(&format!("{label}-again"), command, ids, [0, 1], 1),
    ]
}

/// At the last seat; the spot of each parameter, and of those that no command has.
fn spots() -> Vec<Case> {
    let thing = Seat::of(60_000, 1);
    let put = Task::PutThing { seat: 47, thing };
    let mut cases = vec![
        case("plan-things-9", Task::ReadMatrix(things(9))),
        case("plan-at-47", put),
        ask("of-last", DESTROY_TWO, &[60_000, 1], PAST, 0),
        ask("of-last-second", DESTROY_TWO, &[1, 60_000], PAST, 1),
    ];
    for parameter in [0, 1, 2, 3, 7, 8, 9, 255] {
        let label = format!("spot-{parameter}");
        cases.push(ask(&label, DESTROY_TWO, &[60_000, 8], PAST, parameter));
        let label = format!("spot-{parameter}-given");
        let id = 60_200 + u16::from(parameter);
        cases.push(ask(&label, CREATE, &[id], [5, 6], parameter));
    }
    cases
}

/// How many parameters, tests and operations a command has, and one of its operations.
fn set(label: &str, command: u8, counts: [u8; 3], place: u8, operation: [u8; 4]) -> Vec<Case> {
    let set = SetCommand {
        command,
        counts,
        place,
        operation,
    };
    vec![case(format!("plan-set-{label}"), Task::SetCommand(set))]
}

fn planned(row: Row) -> Vec<Case> {
    plan(&row).to_vec()
}

/// Counts above the places that there are, and of none.
fn counts() -> Vec<Case> {
    const EIGHT: &[u16] = &[8, 7, 3, 6, 9, 3, 6, 9];
    const WRONG: &[u16] = &[8, 7, 3, 6, 9, 3, 6, 1];
    const TEN: &[u16] = &[8, 7, 3, 6, 9, 3, 6, 9, 1, 2];
    [
        set("no-operations", CREATE, [1, 0, 0], 255, [0; 4]),
        planned(("not-new", 9, CREATE, &[100], [0, 0], 0)),
        set("create-last", CREATE, [1, 0, 255], 31, [3, 0, 0, 0]),
        planned(("new-last", 9, CREATE, &[100], [0, 0], 0)),
        set("parameters-8", DESTROY_TWO, [8, 0, 2], 255, [0; 4]),
        planned(("eight", 9, DESTROY_TWO, EIGHT, PAST, 7)),
        planned(("eight-wrong", 9, DESTROY_TWO, WRONG, PAST, 7)),
        set("parameters-255", DESTROY_TWO, [255, 0, 2], 255, [0; 4]),
        planned(("ten-of-eight", 9, DESTROY_TWO, TEN, PAST, 7)),
    ]
    .concat()
}

/// A fault at the last place; a parameter that is created and destroyed; parameters that no command has; creates behind a destroy, of the id that is gone
/// and of others.
fn rows_of_operations() -> Vec<Case> {
    const NINE: &[u16] = &[70, 71, 72, 73, 74, 75, 76, 77, 78];
    [
        set("destroy-last", DESTROY_TWO, [2, 0, 32], 31, [4, 0, 0, 0]),
        planned(("gone-at-31", 9, DESTROY_TWO, &[1, 2], [0, 1], 0)),
        set("create-and-destroy", CREATE, [1, 0, 2], 1, [4, 0, 0, 0]),
        planned(("create-and-destroy", 9, CREATE, &[100], [5, 5], 0)),
        planned(("and-destroy-at-48", 48, CREATE, &[100], [5, 5], 0)),
        set("destroy-255", CREATE, [1, 0, 1], 0, [4, 0, 255, 0]),
        planned(("destroy-255", 9, CREATE, &[1], [5, 5], 255)),
        set("create-8", CREATE, [1, 0, 1], 0, [3, 0, 8, 0]),
        planned(("create-8", 9, CREATE, NINE, [5, 5], 8)),
        set("destroy-create-0", DESTROY_TWO, [2, 0, 2], 1, [3, 0, 0, 0]),
        planned(("gone-again", 9, DESTROY_TWO, &[1, 2], [0, 1], 0)),
        planned(("highest-gone-again", 9, DESTROY_TWO, &[9, 2], [8, 1], 0)),
        set("destroy-create-1", DESTROY_TWO, [2, 0, 2], 1, [3, 0, 1, 0]),
        planned(("highest-gone-next", 9, DESTROY_TWO, &[9, 10], [8, 1], 1)),
        planned(("highest-gone-below", 9, DESTROY_TWO, &[9, 8], [8, 1], 1)),
        planned(("destroy-create-at-48", 48, DESTROY_TWO, &[1, 49], [0, 1], 1)),
    ]
    .concat()
}
