//! What the checks of form look up in a command, with parameters and numbers of operations in and out of range, and counts above the places that there are.

use super::examples::{key_scheme, GROUPS};
use super::tasks::SetCommand;
use super::{case, Case, Task};

pub fn cases() -> Vec<Case> {
    let groups = case("groups-of-forms", Task::ReadScheme(GROUPS.to_vec()));
    let mut cases = vec![groups];
    cases.extend(asked("groups", 0));
    cases.extend(counts());
    cases.push(key_scheme("scheme-of-forms"));
    cases.extend(asked("retire", 0));
    cases.extend(asked("load", 1));
    cases.extend(asked("unused", 31));
    cases
}

/// Each with one of the four codes.
fn asked(label: &str, command: u8) -> Vec<Case> {
    let mut cases = Vec::new();
    for operations in [0, 1, 2, 3, 4, 5, 6, 31, 32, 33, u64::MAX] {
        for parameter in [0, 1, 2, 3, 7, 8, 255] {
            let task = Task::Form {
                command,
                operations,
                parameter,
                code: 1 + cases.len() as u8 % 4,
            };
            let label = format!("form-{label}-{operations}-of-{parameter}");
            cases.push(case(label, task));
        }
    }
    cases
}

/// The groups' command has two creates, an enter and two destroys. Behind them stands what names parameters that there aren't.
fn counts() -> Vec<Case> {
    let mut cases = Vec::new();
    for (label, counts, place, operation) in [
        ("zero", [0, 0, 0], 255, [1; 4]),
        ("create-255", [3, 1, 5], 5, [3, 7, 255, 9]),
        ("destroy-8-last", [8, 16, 32], 31, [4, 0, 8, 0]),
        ("above", [9, 17, 33], 255, [1; 4]),
        ("most", [255, 255, 255], 255, [1; 4]),
        ("delete-first", [3, 1, 5], 0, [2, 0, 1, 1]),
    ] {
        let set = Task::SetCommand(SetCommand {
            command: 0,
            counts,
            place,
            operation,
        });
        cases.push(case(format!("form-set-{label}"), set));
        cases.extend(asked(label, 0));
    }
    cases
}
