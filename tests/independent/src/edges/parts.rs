//! A matrix's head, its things and its cells read one by one, in contexts that no whole matrix would give: other kinds, other records before, more and
//! fewer things, other heads.

use super::examples::{changed, key_matrix, key_scheme, Asked, KEY_MATRIX};
use super::matrices::of_key;
use super::seats::Seat;
use super::tasks::{At, Context, Read};
use super::{case, Case, Task};
use crate::bytes::{CELL, MATRIX_HEAD, THING};

pub fn cases() -> Vec<Case> {
    let mut cases = vec![key_scheme("scheme-of-parts"), key_matrix("matrix-of-parts")];
    cases.extend(records());
    cases.extend(lengths());
    cases.extend(kinds());
    cases.extend(positions());
    cases.extend(behind_things());
    cases.extend(of_highests());
    cases.extend(without_highest());
    cases.extend(behind_cells());
    cases.extend(among_things());
    cases.extend(of_heads());
    cases
}

/// The bytes with changes, and the position of one of its records.
struct Part {
    bytes: Vec<u8>,
    at: usize,
    context: Context,
    read: Reader,
}

/// How what is read at a place is asked for.
type Reader = fn(Context) -> Read;

impl Part {
    fn case(&self, label: &str) -> Case {
        let (bytes, at) = (self.bytes.clone(), self.at as u64);
        let what = (self.read)(self.context);
        case(format!("part-{label}"), Task::At(At { bytes, at, what }))
    }

    fn of(self, changes: &[(usize, u8)]) -> Part {
        let bytes = changed(&self.bytes, changes, self.bytes.len());
        Part { bytes, ..self }
    }

    fn with_kinds(mut self, kinds: u16) -> Part {
        self.context.kinds = kinds;
        self
    }

    fn behind(mut self, row: u16, column: u16) -> Part {
        self.context.last = (row, column);
        self
    }

    fn among(mut self, things: u64) -> Part {
        self.context.things = things;
        self
    }

    fn of_highest(mut self, highest: u16) -> Part {
        self.context.highest = highest;
        self
    }

    /// The same record at the start of the bytes.
    fn at_start(self) -> Part {
        let bytes = self.bytes.get(self.at..).unwrap_or(&[]).to_vec();
        Part {
            bytes,
            at: 0,
            ..self
        }
    }
}

/// The key example's head at 0, things at 8, 15 and 22, cells at 29 and 45, in the context that those before leave.
fn part(at: usize) -> Part {
    let (read, kind, last): (Reader, u16, (u16, u16)) = match at {
        0 => (Read::MatrixHead, MATRIX_HEAD, (0, 0)),
        8 => (Read::Thing, THING, (0, 0)),
        15 => (Read::Thing, THING, (5, 0)),
        22 => (Read::Thing, THING, (9, 0)),
        29 => (Read::Cell, CELL, (0, 0)),
        _ => (Read::Cell, CELL, (5, 9)),
    };
    let (bytes, kinds) = (KEY_MATRIX.to_vec(), 1 << kind);
    let context = Context {
        kinds,
        last,
        things: 3,
        highest: 12,
    };
    Part {
        bytes,
        at,
        context,
        read,
    }
}

const PLACES: [usize; 6] = [0, 8, 15, 22, 29, 45];

/// Each record where it stands, and at the start of the bytes; the head behind others too.
fn records() -> Vec<Case> {
    let mut asked = Asked::default();
    let mut cases = Vec::new();
    for (label, bytes) in of_key() {
        for at in PLACES {
            if !asked.is_first(&bytes, at) {
                continue;
            }
            let here = |bytes: &[u8], at| Part {
                bytes: bytes.to_vec(),
                at,
                ..part(at)
            };
            cases.push(here(&bytes, at).case(&format!("{label}-at-{at}")));
            if at == 0 {
                let behind = [&[4, 0, 7, 0, 4], &bytes[..]].concat();
                let behind = Part {
                    at: 5,
                    ..here(&behind, 0)
                };
                cases.push(behind.case(&format!("{label}-at-5")));
            } else {
                let start = here(&bytes, at).at_start();
                cases.push(start.case(&format!("{label}-from-{at}")));
            }
        }
    }
    cases
}

/// A body of every length up to one byte too many, whole and with a fault of its first field.
fn lengths() -> Vec<Case> {
    let mut cases = Vec::new();
    for (name, at, most) in [("head", 0, 5), ("thing", 15, 4), ("cell", 29, 13)] {
        for length in 0..=most {
            let short = part(at).of(&[(at, length)]);
            cases.push(short.case(&format!("{name}-of-{length}")));
            let fault = part(at).of(&[(at, length), (at + 4, 0)]);
            cases.push(fault.case(&format!("{name}-fault-of-{length}")));
        }
    }
    cases
}

/// The kind that was found is told, whichever of the set it is; kinds from 16 on may stand nowhere.
fn kinds() -> Vec<Case> {
    let mut cases = Vec::new();
    for (name, at, kind) in [
        ("head", 0, MATRIX_HEAD),
        ("thing", 15, THING),
        ("cell", 29, CELL),
    ] {
        for (set, kinds) in [
            ("none", 0),
            ("others", !(1 << kind)),
            ("two", 1 << kind | 1 << 9),
            ("all", u16::MAX),
        ] {
            for found in [kind, 3, 9, 0, 15, 16, 256 + kind] {
                let [low, high] = found.to_le_bytes();
                let here = part(at).of(&[(at + 2, low), (at + 3, high)]);
                let here = here.with_kinds(kinds);
                cases.push(here.case(&format!("{name}-of-{set}-kind-{found}")));
            }
        }
        // The kind comes before the body's end.
        let cut = part(at).of(&[(at + 1, 255)]);
        cases.push(cut.case(&format!("{name}-past-end")));
        let cut = part(at).of(&[(at + 1, 255)]).with_kinds(1 << 9);
        cases.push(cut.case(&format!("{name}-past-end-other-kind")));
    }
    cases
}

/// At the end, past it, and inside another record.
fn positions() -> Vec<Case> {
    let mut cases = Vec::new();
    for (name, from) in [("head", 0), ("thing", 8), ("cell", 29)] {
        for at in [1, 44, 57, 58, 60, 61, 62, usize::MAX] {
            let here = Part { at, ..part(from) };
            cases.push(here.case(&format!("{name}-at-{at}")));
        }
    }
    cases
}

/// Key 9, behind things with other ids; and the last id that there is.
fn behind_things() -> Vec<Case> {
    let mut cases = Vec::new();
    for last in [0, 8, 9, 10, 65_535] {
        let here = part(15).behind(last, 77);
        cases.push(here.case(&format!("thing-behind-{last}")));
        let zero = part(15).of(&[(19, 0)]).behind(last, 0);
        cases.push(zero.case(&format!("thing-0-behind-{last}")));
    }
    for last in [65_534, 65_535] {
        let here = part(15).of(&[(19, 255), (20, 255)]).behind(last, 0);
        let here = here.of_highest(65_535);
        cases.push(here.case(&format!("thing-65535-behind-{last}")));
    }
    cases
}

/// Key 9, and 0 in its place, behind things below it, of its id and above it, where the head stated highest ids below it, its own and above it. Each
/// whole, with a type that there isn't, and with bodies that are too short and too long: 6, 7, 6, 5, 3 in their order.
fn of_highests() -> Vec<Case> {
    let bodies: [(&str, &[(usize, u8)]); 6] = [
        ("", &[]),
        ("-type-3", &[(21, 3)]),
        ("-of-1", &[(15, 1)]),
        ("-of-2", &[(15, 2)]),
        ("-of-4", &[(15, 4)]),
        ("-type-3-of-4", &[(15, 4), (21, 3)]),
    ];
    let mut cases = Vec::new();
    for highest in [0, 8, 9, 10, 65_535] {
        for last in [0, 8, 9, 10] {
            for (end, changes) in bodies {
                let label = format!("{highest}-behind-{last}{end}");
                let here = part(15).of(changes).behind(last, 0).of_highest(highest);
                cases.push(here.case(&format!("thing-9-of-{label}")));
                let here = part(15).of(&[(19, 0)]).of(changes);
                let here = here.behind(last, 0).of_highest(highest);
                cases.push(here.case(&format!("thing-0-of-{label}")));
            }
        }
    }
    // Ids of which only one byte is above the highest's.
    for (low, high) in [(12, 1), (1, 12), (255, 254), (254, 255), (255, 255)] {
        for highest in [0x010B, 0x010C, 0x0C00, 0x0C01, 0xFEFF, 0xFFFE, 0xFFFF] {
            let here = part(15).of(&[(19, low), (20, high)]).of_highest(highest);
            cases.push(here.case(&format!("thing-{low}-{high}-of-{highest}")));
        }
    }
    cases
}

/// For a head and for a cell it doesn't matter which highest id was stated before; a head tells its own, whatever that is.
fn without_highest() -> Vec<Case> {
    let mut cases = Vec::new();
    for highest in [0, 5, 65_535] {
        for at in [0, 29, 45] {
            let here = part(at).of_highest(highest);
            cases.push(here.case(&format!("at-{at}-of-highest-{highest}")));
        }
    }
    for (low, high) in [(0, 0), (1, 0), (0, 1), (255, 0), (0, 255), (255, 255)] {
        for things in [0, 3, 48, 49] {
            let here = part(0).of(&[(5, things), (6, low), (7, high)]);
            let label = format!("head-highest-{low}-{high}-things-{things}");
            cases.push(here.case(&label));
        }
    }
    cases
}

/// [5,9], behind cells at other places.
fn behind_cells() -> Vec<Case> {
    let places = [
        (0, 65_535),
        (4, 65_535),
        (5, 0),
        (5, 8),
        (5, 9),
        (5, 10),
        (6, 0),
        (65_535, 65_535),
    ];
    let mut cases = Vec::new();
    for (row, column) in places {
        let here = part(29).behind(row, column);
        cases.push(here.case(&format!("cell-behind-{row}-{column}")));
        // The column is known or not (5) before its place (7), and the place before the rights (5).
        let unknown = part(29).of(&[(35, 10)]).behind(row, column);
        cases.push(unknown.case(&format!("cell-unknown-behind-{row}-{column}")));
        let rights = part(29).of(&[(37, 16)]).behind(row, column);
        cases.push(rights.case(&format!("cell-right-4-behind-{row}-{column}")));
    }
    cases
}

fn put(seat: u64, id: u16, kind: u8) -> Case {
    let thing = Seat::of(id, kind);
    let task = Task::PutThing { seat, thing };
    case(format!("part-seat-{seat}-{id}-{kind}"), task)
}

/// Only the things at the first seats count, and of two with one id the first; a free seat is no thing, so that id 0 is unknown wherever it stands.
fn among_things() -> Vec<Case> {
    let mut cases = Vec::new();
    for things in [3, 4, 48] {
        let row = part(29).of(&[(33, 0)]).among(things);
        cases.push(row.case(&format!("cell-row-0-among-{things}")));
        let column = part(29).of(&[(35, 0)]).among(things);
        cases.push(column.case(&format!("cell-column-0-among-{things}")));
    }
    for things in [0, 1, 2, 3, 4, 48, 49, u64::MAX] {
        for at in [29, 45] {
            let here = part(at).among(things);
            cases.push(here.case(&format!("cell-at-{at}-among-{things}")));
        }
    }
    cases.extend([put(46, 200, 1), put(47, 300, 0), put(3, 9, 2)]);
    // Ids 300 and 200 in two bytes each.
    let rows = [
        [44, 1, 200, 0],
        [200, 0, 44, 1],
        [44, 1, 44, 1],
        [9, 0, 9, 0],
    ];
    for [a, b, c, d] in rows {
        for things in [46, 47, 48, 49, u64::MAX] {
            let here = part(29).of(&[(33, a), (34, b), (35, c), (36, d)]);
            let label = format!("cell-{a}-{b}-{c}-{d}-among-{things}");
            cases.push(here.among(things).case(&label));
        }
    }
    // A row of a type that no set holds is no subject.
    for kind in [15, 16, 255] {
        cases.push(put(0, 5, kind));
        cases.push(part(29).case(&format!("cell-row-type-{kind}")));
    }
    cases.push(key_matrix("matrix-of-parts-again"));
    cases
}

/// Heads that a reading gives and heads that none does (27 at 0, whatever stands there): n, m, the subject types and the number of commands at their
/// limits and behind them.
fn of_heads() -> Vec<Case> {
    let mut cases = Vec::new();
    for n in [0, 1, 63, 64, 65, 255] {
        let label = format!("part-head-rights-{n}");
        cases.push(case(label, Task::SetHead(n, 3, 3, 2)));
        let head = part(0).of(&[(4, n)]);
        cases.push(head.case(&format!("head-n-{n}")));
        let other = part(0).of(&[(4, n ^ 1)]);
        cases.push(other.case(&format!("head-n-{}-of-{n}", n ^ 1)));
        for (name, change) in [("0", (37, 1)), ("1", (37, 2)), ("63", (44, 128))] {
            let cell = part(29).of(&[(37, 0), change]);
            cases.push(cell.case(&format!("cell-right-{name}-of-{n}")));
        }
    }
    for m in [0, 1, 2, 16, 17, 255] {
        let label = format!("part-head-types-{m}");
        cases.push(case(label, Task::SetHead(4, m, 3, 2)));
        for kind in [0, 1, 254, 255] {
            let thing = part(15).of(&[(21, kind)]);
            cases.push(thing.case(&format!("thing-type-{kind}-of-{m}")));
        }
    }
    for count in [0, 1, 32, 33, 255] {
        let label = format!("part-head-commands-{count}");
        cases.push(case(label, Task::SetHead(4, 3, 3, count)));
        for at in [0, 15, 29] {
            cases.push(part(at).case(&format!("at-{at}-commands-{count}")));
            let past = Part { at: 62, ..part(at) };
            cases.push(past.case(&format!("past-end-of-{at}-commands-{count}")));
        }
    }
    for subjects in [0, 1, 2, 7, 8, 65_535] {
        let label = format!("part-head-subjects-{subjects}");
        cases.push(case(label, Task::SetHead(4, 3, subjects, 2)));
        for at in [29, 45] {
            cases.push(part(at).case(&format!("cell-at-{at}-subjects-{subjects}")));
        }
    }
    cases
}
