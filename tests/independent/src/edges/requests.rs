//! Request records read at a position of a list, and written at a position of a buffer.

use super::examples::{changed, REQUESTS};
use super::tasks::{Ask, At, Read, Store, Stored};
use super::{case, Case, Task};

/// As a row of changes, and the position that is read.
type Place = (&'static str, &'static [(usize, u8)], usize, u64);

const READ: &[Place] = &[
    ("two-ids", &[], 38, 0),
    ("eight-ids", &[], 38, 10),
    ("no-ids", &[], 38, 32),
    ("list-end", &[], 38, 38),
    ("empty-list", &[], 0, 0),
    ("nine-ids", &[], 62, 38),
    ("request-front-cut", &[], 35, 32),
    ("request-cut", &[], 37, 32),
    ("request-kind-5", &[(2, 5)], 38, 0),
    ("ids-3", &[(5, 3)], 38, 0),
    ("ids-1", &[(5, 1)], 38, 0),
    ("request-length-1", &[(0, 1)], 38, 0),
    ("request-length-5", &[(0, 5)], 38, 0),
    ("request-length-7", &[(0, 7)], 38, 0),
    ("request-255", &[(4, 255)], 38, 0),
    ("inside-a-record", &[], 38, 4),
    ("past-the-end", &[], 38, 39),
    ("past-an-empty-list", &[], 0, 1),
    ("far-past-the-end", &[], 38, 65_535),
    ("as-far-as-can-be", &[], 38, u64::MAX),
];

pub fn cases() -> Vec<Case> {
    let read = |&(label, changes, length, at): &Place| {
        let bytes = changed(&REQUESTS, changes, length);
        let count = Task::CountRequests(bytes.clone());
        let find = |what| {
            let bytes = bytes.clone();
            Task::At(At { bytes, at, what })
        };
        [
            case(label, find(Read::Request)),
            case(format!("{label}-skipped"), find(Read::SkippedRequest)),
            case(format!("{label}-counted"), count),
        ]
    };
    let mut cases: Vec<Case> = READ.iter().flat_map(read).collect();
    cases.extend(writings());
    cases
}

/// Nine ids come before no room; a record of eight ids has 22 bytes, one of none 6.
fn writings() -> Vec<Case> {
    let write = |label: &str, ids: &[u16], at: u64, room: u64| {
        let (command, ids) = (7, ids.to_vec());
        let what = Stored::Request(Ask { command, ids });
        case(label, Task::Store(Store { room, at, what }))
    };
    vec![
        write("write-nine-ids-into-0", &[5; 9], 0, 0),
        write("write-no-ids-into-0", &[], 0, 0),
        write("write-nine-ids-into-32", &[5; 9], 0, 32),
        write("write-ten-ids-into-32", &[5; 10], 0, 32),
        write("write-eight-ids-at-11", &[5; 8], 11, 32),
        write("write-eight-ids-at-10", &[5; 8], 10, 32),
        write("write-no-ids-at-26", &[], 26, 32),
        write("write-no-ids-at-27", &[], 27, 32),
        write("write-no-ids-at-32", &[], 32, 32),
        write("write-no-ids-at-33", &[], 33, 32),
        write("write-no-ids-at-the-last", &[], u64::MAX, 32),
        write("write-nine-ids-at-the-last", &[5; 9], u64::MAX, 32),
        write("write-ids-of-two-bytes", &[1, 256, 513, 65_535], 0, 14),
    ]
}
