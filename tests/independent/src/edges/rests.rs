//! What stands behind a matrix's head read alone: things up to a highest id, then cells, from any position on; strangers first, and over matrices that
//! were there before.

use std::collections::BTreeSet;

use super::examples::{changed, key_scheme, Row, KEY_MATRIX, KEY_SCHEME};
use super::matrices::spoiled;
use super::old_images::{behind_head, OLD_KEY};
use super::tasks::Rest;
use super::{case, largest, Case, Task};
use crate::matrix::{find_rest, write_matrix, Matrix};
use crate::moving::write_old_matrix;
use crate::refusal::Fault;
use crate::scheme::{read_scheme, write_scheme, Scheme};

pub fn cases() -> Vec<Case> {
    let mut cases = vec![key_scheme("rest-scheme")];
    cases.extend(spoiled("rest-table"));
    let (accepted, refused): (Vec<_>, Vec<_>) = of_rows()
        .into_iter()
        .partition(|asked| asked.found().is_none());
    cases.extend(refused.iter().map(Asked::case));
    for asked in accepted {
        cases.push(over(&asked.label));
        cases.push(asked.case());
    }
    cases.extend(of_highests().iter().map(Asked::case));
    cases.extend(of_positions().iter().map(Asked::case));
    cases.extend(over_strangers());
    cases.extend(of_lent());
    cases.extend(of_heads());
    cases.extend(full());
    cases
}

/// A label, and what is read.
#[derive(Clone)]
struct Asked {
    label: String,
    rest: Rest,
}

impl Asked {
    fn of(label: &str, highest: u16, things: u8, bytes: &[u8], at: u64) -> Asked {
        let bytes = bytes.to_vec();
        let rest = Rest {
            highest,
            things,
            bytes,
            at,
        };
        let label = format!("rest-{label}");
        Asked { label, rest }
    }

    fn case(&self) -> Case {
        case(self.label.clone(), Task::ReadRest(self.rest.clone()))
    }

    /// What is wrong with the bytes, and where.
    fn found(&self) -> Option<(Fault, usize)> {
        let (bytes, at) = (&self.rest.bytes, self.rest.at as usize);
        let read = find_rest(bytes, at, &key(), self.rest.things, self.rest.highest);
        read.err().map(|found| (found.fault, found.at))
    }
}

fn key() -> Scheme {
    read_scheme(&KEY_SCHEME).expect("the key example").0
}

/// Of an old image's rows the first of each fault and position, and all that can be read: as many things as the head says, with any ids.
fn of_rows() -> Vec<Asked> {
    let mut met = BTreeSet::new();
    let rows = behind_head().into_iter();
    let asked = rows.map(|(label, bytes)| Asked::of(label, 65_535, bytes[5], &bytes, 6));
    asked
        .filter(|asked| asked.found().is_none_or(|found| met.insert(found)))
        .collect()
}

// ---- the highest id

/// Ids against the highest id, behind 0 (6) and order (7), and before the type (5).
const HIGHESTS: &[(u16, Row)] = &[
    (0, ("12-of-0", &[], 59)),
    (4, ("12-of-4", &[], 59)),
    (5, ("12-of-5", &[], 59)),
    (8, ("12-of-8", &[], 59)),
    (9, ("12-of-9", &[], 59)),
    (11, ("12-of-11", &[], 59)),
    (12, ("12-of-12", &[], 59)),
    (13, ("12-of-13", &[], 59)),
    (268, ("12-of-268", &[], 59)),
    (12, ("268-of-12", &[(25, 1)], 27)),
    (267, ("268-of-267", &[(25, 1)], 27)),
    (268, ("268-of-268", &[(25, 1)], 27)),
    (524, ("268-of-524", &[(25, 1)], 27)),
    (65_534, ("65535-of-65534", &[(24, 255), (25, 255)], 27)),
    (0, ("id-0-of-0", &[(10, 0)], 59)),
    (4, ("same-of-4", &[(17, 5)], 59)),
    (5, ("same-of-5", &[(17, 5)], 59)),
    (9, ("below-of-9", &[(24, 8)], 59)),
    (11, ("type-3-of-11", &[(26, 3)], 59)),
    (11, ("length-2-of-11", &[(20, 2)], 59)),
    (11, ("length-1-of-11", &[(20, 1)], 59)),
    (11, ("held-12-of-11", &[(22, 8)], 59)),
    (12, ("held-12-of-12", &[(22, 8)], 59)),
    (0, ("nothing-of-0", &[(5, 0)], 6)),
    (1, ("nothing-of-1", &[(5, 0)], 6)),
    (256, ("nothing-of-256", &[(5, 0)], 6)),
];

fn of_highests() -> Vec<Asked> {
    let asked = |(highest, (label, changes, length)): &(u16, Row)| {
        let bytes = changed(&OLD_KEY, changes, *length);
        Asked::of(label, *highest, bytes[5], &bytes, 6)
    };
    HIGHESTS.iter().map(asked).collect()
}

// ---- positions and counts

/// A position is counted from the first byte of the input, and may be its end; past it, as with more than 48 things, it is 27.
fn of_positions() -> Vec<Asked> {
    let at = |label: &str, things: u8, length: usize, at: u64| {
        let bytes = changed(&OLD_KEY, &[], length);
        Asked::of(label, 65_535, things, &bytes, at)
    };
    let behind = [&[9; 100][..], &OLD_KEY[6..]].concat();
    let mut asked = vec![
        Asked::of("new-image", 12, 3, &KEY_MATRIX, 8),
        Asked::of("behind-100", 12, 3, &behind, 100),
        Asked::of("behind-100-of-9", 9, 3, &behind, 100),
        Asked::of("behind-100-cut", 12, 3, &behind[..152], 100),
        Asked::of("behind-101", 12, 3, &behind, 101),
        at("at-0", 3, 59, 0),
        at("at-13", 2, 27, 13),
        at("at-13-cells", 2, 59, 13),
        at("at-20", 1, 27, 20),
        at("cells-alone", 0, 59, 27),
        at("end", 0, 59, 59),
        at("end-things-1", 1, 59, 59),
        at("end-things-48", 48, 59, 59),
        at("before-end", 0, 59, 58),
        at("past-end", 0, 59, 60),
        at("past-end-things-3", 3, 59, 60),
        at("far-past-end", 3, 59, 1_000),
        at("past-4-gigabytes", 3, 59, (1 << 32) + 6),
        at("past-all", 3, 59, u64::MAX),
        at("empty", 0, 0, 0),
        at("empty-things-1", 1, 0, 0),
        at("empty-past-end", 0, 0, 1),
        at("49-of-3", 49, 59, 6),
        at("255-of-3", 255, 59, 6),
        at("49-past-end", 49, 59, 60),
    ];
    asked.extend(of_48());
    asked
}

/// 48 things stand there, or one more, which is none of as many as there can be.
fn of_48() -> Vec<Asked> {
    let thing = |id: u8| [3, 0, 4, 0, id, 0, id % 3];
    let bytes: Vec<u8> = (1..=49).flat_map(thing).collect();
    let of = |things: u8, stand: usize| {
        let label = format!("{things}-of-{stand}-things");
        Asked::of(&label, 65_535, things, &bytes[..7 * stand], 0)
    };
    vec![of(47, 48), of(48, 48), of(48, 47), of(48, 49), of(49, 49)]
}

// ---- over what was there before

/// 48 things on hold with a high highest id, and rights in the first cells and the last: nothing of that may stay.
fn over(label: &str) -> Case {
    let scheme = key();
    let mut matrix = Matrix::new();
    for id in 101..=148 {
        matrix.create(&scheme, id, u8::from(id % 2 == 0));
        matrix.set_held(id, true);
    }
    for (row, column) in [(101, 101), (101, 102), (102, 103), (148, 101), (148, 148)] {
        matrix.set_cell(row, column, 15);
    }
    matrix.raise_highest(60_000);
    let read = Task::ReadMatrix(write_matrix(&matrix, &scheme));
    case(format!("{label}-over"), read)
}

/// A table that no reading gives stays with a refusal, and is a matrix with success.
fn over_strangers() -> Vec<Case> {
    let mut cases = spoiled("rest-spoiled");
    let of = |label: &str, highest, things| Asked::of(label, highest, things, &OLD_KEY, 6).case();
    cases.push(of("spoiled-12-of-11", 11, 3));
    cases.push(of("spoiled-things-4", 12, 4));
    cases.push(of("spoiled", 12, 3));
    cases.push(case("rest-spoiled-accepted", Task::Accepted));
    cases.push(case("rest-spoiled-written", Task::WriteMatrix(61)));
    cases
}

/// 27 where another number of cells is lent than a matrix has, before every fault.
fn of_lent() -> Vec<Case> {
    let mut cases = Vec::new();
    for cells in [0, 1, 2_303, 2_305, 2_400] {
        let whole = Asked::of(&format!("lent-{cells}"), 12, 3, &OLD_KEY, 6);
        let fault = Asked::of(&format!("lent-{cells}-of-11"), 11, 3, &OLD_KEY, 6);
        for asked in [whole, fault] {
            let lent = asked.case();
            cases.push(Case { cells, ..lent });
        }
    }
    cases
}

// ---- against other heads

/// The head alone is looked at, whatever commands stand behind it. Some of these no reading gives, which is 27 before all else.
fn of_heads() -> Vec<Case> {
    let mut cases = Vec::new();
    for &(label, n, m, subjects, count) in HEADS {
        let set = Task::SetHead(n, m, subjects, count);
        cases.push(case(format!("rest-head-{label}"), set));
        cases.push(Asked::of(&format!("of-{label}"), 12, 3, &OLD_KEY, 6).case());
    }
    cases.push(case("rest-no-scheme", Task::NoScheme));
    cases.push(Asked::of("of-no-scheme", 12, 3, &OLD_KEY, 6).case());
    cases.push(Asked::of("of-no-scheme-cut", 12, 3, &OLD_KEY[..58], 6).case());
    cases.push(Asked::of("of-no-scheme-empty", 12, 3, &[], 0).case());
    cases
}

/// A label, n, m, the subject types and the number of commands.
const HEADS: &[(&str, u8, u8, u16, u8)] = &[
    ("rights-0", 0, 3, 3, 2),
    ("rights-1", 1, 3, 3, 2),
    ("rights-2", 2, 3, 3, 2),
    ("rights-64", 64, 3, 3, 2),
    ("rights-65", 65, 3, 3, 2),
    ("types-0", 4, 0, 0, 2),
    ("types-1", 4, 1, 1, 2),
    ("types-2", 4, 2, 3, 2),
    ("types-16", 4, 16, 3, 2),
    ("types-17", 4, 17, 3, 2),
    ("subjects-0", 4, 3, 0, 2),
    ("subjects-1", 4, 3, 1, 2),
    ("subjects-7", 4, 3, 7, 2),
    ("subjects-8", 4, 3, 8, 2),
    ("commands-0", 4, 3, 3, 0),
    ("commands-1", 4, 3, 3, 1),
    ("commands-32", 4, 3, 3, 32),
    ("commands-33", 4, 3, 3, 33),
];

/// The largest matrix behind its head, and the same with a fault in its last cell alone, which leaves the one before.
fn full() -> Vec<Case> {
    let scheme = largest::scheme(64, 32);
    let old = write_old_matrix(&largest::matrix(&scheme, |_, _| u64::MAX), &scheme);
    let mut fault = old.clone();
    fault[old.len() - 10] = 47;
    vec![
        case("rest-full-scheme", Task::ReadScheme(write_scheme(&scheme))),
        Asked::of("full-fault", 48, 48, &fault, 6).case(),
        Asked::of("full", 48, 48, &old, 6).case(),
        case("rest-full-written", Task::WriteMatrix(37_208)),
    ]
}
