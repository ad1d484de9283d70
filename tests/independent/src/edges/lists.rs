//! Lists of requests: just enough room for the answers, three bytes each, more and less (9), records that can't be read, and ids that are used up.

use super::carrying_out::{makers, things_with, totals};
use super::examples::{key_scheme, KEY_MATRIX, LOAD, RETIRE};
use super::{case, Case, Task};
use crate::request::write_request;
use crate::scheme::write_scheme;

pub fn cases() -> Vec<Case> {
    let mut cases = vec![key_scheme("key-scheme-of-lists")];
    for (label, list, room) in [whole(), with_a_bad_record()].concat() {
        cases.extend(run(label, &KEY_MATRIX, &list, room));
    }
    cases.extend(used_up());
    cases
}

/// Requests of the makers' commands.
type Requests = &'static [(u8, &'static [u16])];

/// A label, how many things there are and the highest id; what is destroyed and asked for again, refusals between creates, the last ids that there are, and
/// a matrix that is full.
const USED_UP: &[(&str, [u16; 2], Requests)] = &[
    (
        "list-again",
        [9, 9],
        &[
            (0, &[10]),
            (2, &[10, 1]),
            (0, &[10]),
            (0, &[11]),
            (0, &[1]),
            (5, &[12]),
            (0, &[12]),
            (1, &[13, 14]),
            (3, &[14, 2]),
            (3, &[15, 2]),
        ],
    ),
    (
        "list-between",
        [9, 19],
        &[
            (1, &[20, 20]),
            (1, &[21, 20]),
            (4, &[20, 2, 2]),
            (0, &[20]),
            (1, &[22, 21]),
            (1, &[21, 22]),
        ],
    ),
    (
        "list-last",
        [9, 65_533],
        &[
            (0, &[65_534]),
            (1, &[65_535, 65_535]),
            (0, &[65_535]),
            (0, &[65_535]),
            (2, &[65_535, 65_534]),
            (0, &[65_535]),
            (1, &[1, 2]),
        ],
    ),
    (
        "list-full",
        [47, 60],
        &[
            (1, &[61, 62]),
            (0, &[61]),
            (0, &[61]),
            (0, &[62]),
            (2, &[61, 1]),
            (1, &[62, 61]),
            (1, &[62, 63]),
            (0, &[63]),
            (0, &[64]),
        ],
    ),
];

/// Behind each list the matrix that it leaves is written, by which the highest id shows too.
fn used_up() -> Vec<Case> {
    let makers = Task::ReadScheme(write_scheme(&makers()));
    let mut cases = vec![case("makers-of-lists", makers)];
    for &(label, [count, highest], list) in USED_UP {
        let matrix = things_with(count, highest);
        cases.extend(run(label, &matrix, &requests(list), 30));
        let written = format!("{label}-written");
        cases.push(case(written, Task::WriteMatrix(400)));
    }
    cases
}

/// A label, the list's bytes, and the room for the answers.
type Row = (&'static str, Vec<u8>, u64);

fn load_retire_load() -> Vec<u8> {
    requests(&[(LOAD, &[9, 12]), (RETIRE, &[5, 9]), (LOAD, &[9, 12])])
}

/// One or two odd bytes are no room.
fn whole() -> Vec<Row> {
    let three = load_retire_load();
    let refusals = requests(&[
        (2, &[]),
        (RETIRE, &[]),
        (RETIRE, &[0, 9]),
        (RETIRE, &[9, 9]),
        (LOAD, &[9, 12]),
        (RETIRE, &[5, 9]),
        (LOAD, &[9, 12]),
    ]);
    vec![
        ("list-empty", vec![], 0),
        ("list-empty-room-1", vec![], 1),
        ("list-empty-room-2", vec![], 2),
        ("list-of-three-room-3", three.clone(), 3),
        ("list-of-three-room-6", three.clone(), 6),
        ("list-of-three-room-7", three.clone(), 7),
        ("list-of-three-room-8", three.clone(), 8),
        ("list-of-three", three.clone(), 9),
        ("list-of-three-room-10", three.clone(), 10),
        ("list-of-three-room-11", three.clone(), 11),
        ("list-of-three-room-12", three, 12),
        ("list-all-refusals", refusals, 21),
    ]
}

/// Behind two requests, whose answers take six bytes.
fn with_a_bad_record() -> Vec<Row> {
    let behind = |bytes: &[u8]| [&load_retire_load()[..20], bytes].concat();
    vec![
        ("list-bad-shorter", behind(&[0]), 4),
        ("list-bad-short", behind(&[0]), 5),
        ("list-bad-front", behind(&[6, 0, 6]), 6),
        ("list-bad-kind", behind(&[2, 0, 5, 0, 0, 0]), 8),
        ("list-bad-leftover", behind(&[3, 0, 6, 0, 0, 0, 0]), 7),
        ("list-bad-nine-ids", behind(&[2, 0, 6, 0, 0, 9]), 6),
        ("list-bad-body", behind(&[3, 0, 6, 0, 0, 0]), 6),
        ("list-bad-first", vec![1, 2, 3], 0),
    ]
}

pub fn requests(requests: &[(u8, &[u16])]) -> Vec<u8> {
    let record = |&(command, ids): &(u8, &[u16])| write_request(command, ids).expect("few ids");
    requests.iter().flat_map(record).collect()
}

/// The matrix, the list on it, and the totals after it; then the same with no answers stored.
pub fn run(label: &str, matrix: &[u8], list: &[u8], room: u64) -> Vec<Case> {
    let named = |end: &str| format!("{label}-{end}");
    let matrix = Task::ReadMatrix(matrix.to_vec());
    let list = list.to_vec();
    let quietly = Task::ListQuietly(list.clone());
    vec![
        case(named("matrix"), matrix.clone()),
        case(label, Task::List { list, room }),
        totals(&named("totals")),
        case(named("matrix-again"), matrix),
        case(named("quietly"), quietly),
        totals(&named("quietly-totals")),
    ]
}
