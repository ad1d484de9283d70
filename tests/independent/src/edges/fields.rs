//! Records, bodies, fields and single stores, each at the end of what it reads or stores in.

use super::tasks::{At, Read, Store, Stored};
use super::{case, Case, Task};

pub fn cases() -> Vec<Case> {
    [records(), bodies(), fields(), stores(), record_stores()].concat()
}

/// A record of kind 4 with 3 bytes, one of kind 15 with none, one of kind 16.
const RECORDS: [u8; 15] = [3, 0, 4, 0, 7, 8, 9, 0, 0, 15, 0, 0, 0, 16, 0];

fn records() -> Vec<Case> {
    let find = |label: &str, length: usize, at: u64, kinds: u16| {
        let bytes = RECORDS[..length].to_vec();
        let what = Read::Record { kinds };
        case(label, Task::At(At { bytes, at, what }))
    };
    vec![
        find("record-of-4", 15, 0, 1 << 4),
        find("record-of-any", 15, 0, u16::MAX),
        find("record-of-others", 15, 0, !(1 << 4)),
        find("record-of-none", 15, 0, 0),
        find("record-of-15", 15, 7, 1 << 15),
        find("record-of-16", 15, 11, u16::MAX),
        find("record-front-cut", 3, 0, 1 << 4),
        find("record-body-cut", 6, 0, 1 << 4),
        find("record-kind-before-cut", 6, 0, 1 << 5),
        find("record-at-end", 15, 15, u16::MAX),
        find("record-past-end", 15, 16, u16::MAX),
        find("record-at-the-last", 15, u64::MAX, u16::MAX),
        find("record-of-nothing", 0, 0, u16::MAX),
    ]
}

fn bodies() -> Vec<Case> {
    let part = |label: &str, at: u64, length: u64| {
        let (bytes, what) = (RECORDS.to_vec(), Read::Body { length });
        case(label, Task::At(At { bytes, at, what }))
    };
    vec![
        part("body-of-3", 4, 3),
        part("body-of-none", 4, 0),
        part("body-whole", 0, 15),
        part("body-one-more", 0, 16),
        part("body-to-the-end", 14, 1),
        part("body-past-the-end", 14, 2),
        part("body-at-the-end", 15, 1),
        part("body-behind-the-end", 16, 1),
        part("body-as-long-as-can-be", 4, u64::MAX),
        part("body-as-far-as-can-be", u64::MAX, u64::MAX),
    ]
}

/// Bytes 10 to 19; a field of one byte from 12 on and below 18, the others being the fault 5.
fn fields() -> Vec<Case> {
    let read = |at: u64| {
        let bytes = (10..20).collect();
        let what = Read::Fields {
            low: 12,
            limit: 18,
            number: 5,
        };
        case(format!("fields-at-{at}"), Task::At(At { bytes, at, what }))
    };
    let places = [0, 1, 2, 3, 7, 8, 9, 10, 11, u64::MAX];
    places.into_iter().map(read).collect()
}

/// One, two and eight bytes: where they fit, where their end is past the buffer's, and past it altogether.
fn stores() -> Vec<Case> {
    let mut cases = Vec::new();
    for (name, what) in [
        ("one", Stored::One(250)),
        ("two", Stored::Two(0xFCFB)),
        ("eight", Stored::Eight(0xFFFE_FDFC_FBFA_F9F8)),
    ] {
        for at in [0, 1, 4, 8, 12, 14, 15, 16, 17, u64::MAX] {
            let what = what.clone();
            let store = Store { room: 16, at, what };
            cases.push(case(format!("store-{name}-at-{at}"), Task::Store(store)));
        }
    }
    for room in [0, 1, 2, 3, 4, 16] {
        let what = Stored::Front {
            kind: 0xFDFC,
            length: 0xFFFE,
        };
        let store = Store { room, at: 0, what };
        cases.push(case(format!("store-front-in-{room}"), Task::Store(store)));
    }
    cases
}

/// A body of 65,535 bytes has the most that a front can say; one more is 4, before there is no room.
fn record_stores() -> Vec<Case> {
    let write = |label: &str, room: u64, at: u64, what: Stored| {
        case(label, Task::Store(Store { room, at, what }))
    };
    let body = || Stored::Record {
        kind: 0xABCD,
        body: vec![250, 251, 252],
    };
    let empty = || Stored::Record {
        kind: 15,
        body: vec![],
    };
    let zeros = |length| Stored::Zeros { kind: 9, length };
    vec![
        write("record-into-16", 16, 0, body()),
        write("record-into-7", 7, 0, body()),
        write("record-into-6", 6, 0, body()),
        write("record-at-9-of-16", 16, 9, body()),
        write("record-at-10-of-16", 16, 10, body()),
        write("record-at-16-of-16", 16, 16, empty()),
        write("record-at-17-of-16", 16, 17, empty()),
        write("record-stored-at-the-last", 16, u64::MAX, empty()),
        write("record-empty-into-4", 4, 0, empty()),
        write("record-empty-into-3", 3, 0, empty()),
        write("record-of-65535", 65_539, 0, zeros(65_535)),
        write("record-of-65535-more-room", 65_600, 9, zeros(65_535)),
        write("record-of-65535-short", 65_538, 0, zeros(65_535)),
        write("record-of-65536", 65_600, 0, zeros(65_536)),
        write("record-of-65536-no-room", 0, 1, zeros(65_536)),
    ]
}
