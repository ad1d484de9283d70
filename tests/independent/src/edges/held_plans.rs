//! Where a request's things sit when some are on hold (18), and what creates and destroys make of marks: planned on things that no reading gives too.

use super::carrying_out::makers;
use super::on_hold::{makers_with, put};
use super::plans::{ask, CREATE, CREATE_TWO, DESTROY_TWO, PAST, REPLACE};
use super::seats::Seat;
use super::tasks::SetCommand;
use super::{case, Case, Task};
use crate::scheme::write_scheme;

pub fn cases() -> Vec<Case> {
    [located(), located_of_eight(), destroyed(), created()].concat()
}

/// With spots where nobody sits.
fn locate(label: &str, command: u8, ids: &[u16]) -> Case {
    plan(&format!("locate-{label}"), command, ids, PAST)
}

fn plan(label: &str, command: u8, ids: &[u16], spots: [u8; 2]) -> Case {
    ask(&format!("on-hold-{label}"), command, ids, spots, 1)
}

/// Things 1, of type 1, and 3, of type 0, are on hold.
fn located() -> Vec<Case> {
    let makers = Task::ReadScheme(write_scheme(&makers()));
    let mut cases = vec![case("plan-on-hold-makers", makers)];
    cases.extend(makers_with("plan-on-hold", 9, &[0, 2]));
    cases.extend([
        locate("1-2", DESTROY_TWO, &[1, 2]),
        locate("2-1", DESTROY_TWO, &[2, 1]),
        locate("1-1", DESTROY_TWO, &[1, 1]),
        locate("2-4", DESTROY_TWO, &[2, 4]),
        locate("1-0", DESTROY_TWO, &[1, 0]),
        locate("0-1", DESTROY_TWO, &[0, 1]),
        locate("1-10", DESTROY_TWO, &[1, 10]),
        locate("10-1", DESTROY_TWO, &[10, 1]),
        locate("1-6", DESTROY_TWO, &[1, 6]),
        locate("6-1", DESTROY_TWO, &[6, 1]),
        locate("3-2", DESTROY_TWO, &[3, 2]),
        locate("1", DESTROY_TWO, &[1]),
        locate("new-1", CREATE_TWO, &[1, 3]),
        locate("new-then-1", REPLACE, &[10, 1]),
    ]);
    cases
}

/// Eight places, of which the types behind the second are 0; then of two seats with one id the first counts.
fn located_of_eight() -> Vec<Case> {
    let counts = SetCommand {
        command: DESTROY_TWO,
        counts: [8, 0, 2],
        place: 255,
        operation: [0; 4],
    };
    vec![
        case("plan-on-hold-eight", Task::SetCommand(counts)),
        locate("last", DESTROY_TWO, &[2, 4, 6, 6, 6, 6, 6, 3]),
        locate("last-behind-0", DESTROY_TWO, &[2, 4, 6, 6, 6, 6, 0, 3]),
        locate("last-behind-2", DESTROY_TWO, &[2, 4, 6, 6, 6, 6, 2, 3]),
        locate("not-the-ninth", DESTROY_TWO, &[2, 4, 6, 6, 6, 6, 6, 6, 3]),
        put("plan-on-hold-second-6", 40, Seat::of(6, 0).on_hold()),
        locate("first-6", DESTROY_TWO, &[2, 4, 6, 6, 6, 6, 6, 6]),
        put("plan-on-hold-second-3", 41, Seat::of(3, 0)),
        locate("first-3", DESTROY_TWO, &[2, 4, 6, 6, 6, 6, 6, 3]),
    ]
}

/// A destroyed thing's mark goes with it, and the next thing at its seat has none.
fn destroyed() -> Vec<Case> {
    let makers = Task::ReadScheme(write_scheme(&makers()));
    let mut cases = vec![case("plan-on-hold-makers-again", makers)];
    cases.extend(makers_with("plan-on-hold-destroyed", 9, &[0, 3]));
    cases.extend([
        plan("destroy-1-4", DESTROY_TWO, &[1, 4], [0, 3]),
        case("plan-on-hold-destroyed-accepted", Task::Accepted),
        plan("create-at-0", CREATE, &[10], [0, 0]),
        plan("create-at-3", CREATE, &[11], [0, 0]),
        case("plan-on-hold-created-written", Task::WriteMatrix(71)),
    ]);
    cases.extend(makers_with("plan-on-hold-full", 48, &[46, 47]));
    cases.extend([
        plan("destroy-47-48", DESTROY_TWO, &[47, 48], [46, 47]),
        plan("create-two-at-46", CREATE_TWO, &[49, 50], [0, 0]),
        case("plan-on-hold-full-written", Task::WriteMatrix(344)),
    ]);
    cases
}

/// A created thing isn't on hold, whatever mark its free seat has; nor is one that is created where another was just destroyed.
fn created() -> Vec<Case> {
    let operation = SetCommand {
        command: DESTROY_TWO,
        counts: [2, 0, 2],
        place: 1,
        operation: [3, 0, 1, 0],
    };
    let stray = Seat::of(0, 0).on_hold();
    let mut cases = makers_with("plan-on-hold-stray", 9, &[]);
    cases.extend([
        put("plan-on-hold-stray-9", 9, stray),
        put("plan-on-hold-stray-47", 47, stray),
        plan("create-at-stray", CREATE, &[10], [0, 0]),
        put("plan-on-hold-stray-47-off", 47, Seat::of(0, 0)),
        case("plan-on-hold-stray-accepted", Task::Accepted),
        plan("create-twice-15", CREATE_TWO, &[11, 11], [0, 0]),
    ]);
    cases.extend(makers_with("plan-on-hold-at-once", 9, &[0]));
    cases.extend([
        case("plan-on-hold-set", Task::SetCommand(operation)),
        plan("destroy-1-create-10", DESTROY_TWO, &[1, 10], [0, 1]),
        case("plan-on-hold-at-once-accepted", Task::Accepted),
    ]);
    cases
}
