//! A scheme's head and its commands read one by one, at the start of the bytes and behind others, against heads of every kind.

use super::examples::{changed, key_scheme, Asked, GROUPS, KEY_SCHEME};
use super::schemes::{of_groups, of_key};
use super::tasks::{At, Read, SetCommand};
use super::{case, Case, Task};
use crate::scheme::{find_command, find_head, Scheme};

pub fn cases() -> Vec<Case> {
    let key = key_scheme("scheme-of-commands");
    let groups = case("groups-of-commands", Task::ReadScheme(GROUPS.to_vec()));
    let mut cases = heads();
    cases.push(key);
    cases.extend(commands(of_key(), &KEY_SCHEME, &[9, 26]));
    cases.push(groups);
    cases.extend(commands(of_groups(), &GROUPS, &[9]));
    cases.extend(positions());
    cases.extend(other_heads());
    cases.extend(no_commands());
    cases
}

fn head_at(label: String, bytes: Vec<u8>, at: u64) -> Case {
    let what = Read::SchemeHead;
    case(label, Task::At(At { bytes, at, what }))
}

fn heads() -> Vec<Case> {
    let mut cases = Vec::new();
    let mut asked = Asked::default();
    for (label, bytes) in of_key() {
        if asked.is_first(&bytes, 0) {
            let behind = [&[5, 0, 1], &bytes[..]].concat();
            cases.push(head_at(format!("{label}-head"), bytes, 0));
            cases.push(head_at(format!("{label}-head-at-3"), behind, 3));
        }
    }
    for at in [9, 46, 47, 48, u64::MAX] {
        cases.push(head_at(format!("head-at-{at}"), KEY_SCHEME.to_vec(), at));
    }
    for length in 0..=6 {
        let bytes = changed(&KEY_SCHEME, &[(0, length)], 47);
        cases.push(head_at(format!("head-of-{length}"), bytes, 0));
    }
    cases
}

/// Where the commands of a scheme stand, and each at the start of the bytes.
fn commands(rows: Vec<(&str, Vec<u8>)>, unchanged: &[u8], places: &[usize]) -> Vec<Case> {
    let (scheme, ..) = find_head(unchanged, 0).expect("a head");
    let mut asked = Asked::default();
    let mut cases = Vec::new();
    for (label, bytes) in rows {
        for &at in places {
            if !asked.is_first(&bytes, at) {
                continue;
            }
            cases.extend(command(&format!("{label}-at-{at}"), &bytes, at, &scheme));
            if let Some(from) = bytes.get(at..) {
                cases.extend(command(&format!("{label}-from-{at}"), from, 0, &scheme));
            }
        }
    }
    cases
}

/// The first command is replaced by what was read, and the scheme written; where the reading is refused, an unused one behind the last.
fn command(label: &str, bytes: &[u8], at: usize, scheme: &Scheme) -> [Case; 2] {
    let place = match find_command(bytes, at, scheme) {
        Ok(_) => 0,
        Err(_) => 31,
    };
    let (bytes, at) = (bytes.to_vec(), at as u64);
    let read = Task::ReadCommand { place, bytes, at };
    [
        case(format!("command-{label}"), read),
        case(format!("command-{label}-table"), Task::WriteScheme(64)),
    ]
}

/// Inside a record, at the end and past it; and a body of every length up to one byte too many, also where its last field's fault is behind the end.
fn positions() -> Vec<Case> {
    let (scheme, ..) = find_head(&KEY_SCHEME, 0).expect("a head");
    let mut cases = vec![key_scheme("scheme-of-positions")];
    for at in [0, 10, 25, 43, 44, 47, 48, usize::MAX] {
        cases.extend(command(&format!("key-at-{at}"), &KEY_SCHEME, at, &scheme));
    }
    for length in 0..=14 {
        for (label, fault) in [("", (9, length)), ("-column-2", (25, 2))] {
            let bytes = changed(&KEY_SCHEME, &[(9, length), fault], 47);
            let label = format!("key-of-{length}{label}");
            cases.extend(command(&label, &bytes, 9, &scheme));
        }
    }
    cases
}

/// Retire has types 0 and 1, and names the rights 0 and 2. Against a head that no reading gives it is 27, and so is what stands past the end.
fn other_heads() -> Vec<Case> {
    let heads = [
        ("rights-0", (0, 3, 3, 2), None),
        ("rights-2", (2, 3, 3, 2), None),
        ("rights-3", (3, 3, 3, 2), None),
        ("rights-64", (64, 3, 3, 2), Some((23, 63))),
        ("rights-65", (65, 3, 3, 2), None),
        ("rights-255", (255, 3, 3, 2), Some((23, 254))),
        ("types-0", (4, 0, 3, 2), None),
        ("types-1", (4, 1, 3, 2), None),
        ("types-2", (4, 2, 3, 2), None),
        ("types-16", (4, 16, 3, 2), Some((15, 15))),
        ("types-17", (4, 17, 3, 2), None),
        ("types-255", (4, 255, 3, 2), Some((15, 254))),
        ("types-255-as-row", (4, 255, 65_535, 2), Some((14, 16))),
        ("subjects-0", (4, 3, 0, 2), None),
        ("subjects-1", (4, 3, 1, 2), None),
        ("subjects-8", (4, 3, 8, 2), None),
        ("commands-0", (4, 3, 3, 0), None),
        ("commands-32", (4, 3, 3, 32), None),
        ("commands-33", (4, 3, 3, 33), None),
        ("commands-255", (4, 3, 3, 255), None),
    ];
    let past_end = Task::ReadCommand {
        place: 31,
        bytes: KEY_SCHEME.to_vec(),
        at: 48,
    };
    let ask = |(label, (n, m, subjects, count), change)| {
        let changes: Vec<(usize, u8)> = Option::into_iter(change).collect();
        let bytes = changed(&KEY_SCHEME, &changes, 47);
        let named = |end: &str, task: Task| case(format!("command-of-{label}-{end}"), task);
        let (place, at) = (0, 9);
        [
            named("head", Task::SetHead(n, m, subjects, count)),
            named("read", Task::ReadCommand { place, bytes, at }),
            named("past-end", past_end.clone()),
            named("accepted", Task::CommandAccepted(0)),
        ]
    };
    heads.into_iter().flat_map(ask).collect()
}

/// A used place that holds none is a stranger; an unused one that is spoiled is none any more.
fn no_commands() -> Vec<Case> {
    let spoil = |command| {
        Task::SetCommand(SetCommand {
            command,
            counts: [1, 1, 1],
            place: 31,
            operation: [4, 3, 2, 1],
        })
    };
    let tasks = [
        Task::ReadScheme(KEY_SCHEME.to_vec()),
        spoil(2),
        Task::WriteScheme(50),
        Task::NoCommand(2),
        Task::WriteScheme(50),
        spoil(31),
        Task::WriteScheme(50),
        Task::NoCommand(31),
        Task::WriteScheme(50),
        Task::NoCommand(1),
        Task::CommandAccepted(1),
        Task::WriteScheme(50),
    ];
    let numbered = tasks.into_iter().enumerate();
    numbered
        .map(|(number, task)| case(format!("no-command-{number}"), task))
        .collect()
}
