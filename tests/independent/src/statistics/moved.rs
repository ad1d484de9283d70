//! Counts what images that are to be moved meet: where reading refuses them, which go, which have a highest id that would be lost (23), and which buffers
//! are too short (9).

mod ways;

pub use ways::{Direction, Lost, Mistaken, Moved, Place, Short, Went};

use std::collections::{BTreeMap, BTreeSet};
use std::fmt;

use crate::bytes::{CELL, HELD_THING, MATRIX_HEAD, OLD_MATRIX_HEAD, THING};
use crate::generate::fields::{records, Span};
use crate::matrix::{find_matrix, is_thing, read_matrix, Matrix, MOST_THINGS};
use crate::moving::{find_old_matrix, highest_listed, read_old_matrix};
use crate::refusal::{Fault, Found};
use crate::scheme::Scheme;

/// More above the highest listed id than this is far above it, and no more than that a bit.
const FAR: u16 = 1_000;
const BIT: u16 = 9;

/// The length of an old image of nothing; a new one has two bytes more.
const LEAST: usize = 6;

#[derive(Clone, Debug, Default)]
pub struct Moves {
    counts: BTreeMap<Moved, u64>,
}

impl Moves {
    pub fn count(&self, moved: Moved) -> u64 {
        self.counts.get(&moved).copied().unwrap_or(0)
    }

    /// The ways that were met at all.
    pub fn met(&self) -> BTreeSet<Moved> {
        let met = self.counts.iter().filter(|(_, &count)| count > 0);
        met.map(|(&moved, _)| moved).collect()
    }

    fn note(&mut self, moved: Moved, holds: bool) {
        *self.counts.entry(moved).or_default() += u64::from(holds);
    }

    /// An image that is to be moved forward, with a buffer of this length.
    pub fn forward(&mut self, scheme: &Scheme, old: &[u8], room: usize) {
        let direction = Direction::Forward;
        match find_old_matrix(old, scheme) {
            Ok(matrix) => self.read(direction, &matrix, old.len() + 2, room),
            Err(found) => {
                let is_other = read_matrix(old, scheme).is_ok();
                self.note(Moved::Mistaken(direction, Mistaken::OtherImage), is_other);
                self.refused(direction, found, old, room);
            }
        }
    }

    /// An image that is to be moved back, with a buffer of this length.
    pub fn back(&mut self, scheme: &Scheme, new: &[u8], room: usize) {
        let direction = Direction::Back;
        match find_matrix(new, scheme) {
            Ok(matrix) if matrix.highest() != highest_listed(&matrix) => {
                self.lost(&matrix, new.len() - 2, room);
            }
            Ok(matrix) => self.read(direction, &matrix, new.len() - 2, room),
            Err(found) => {
                let is_other = read_old_matrix(new, scheme).is_ok();
                self.note(Moved::Mistaken(direction, Mistaken::OtherImage), is_other);
                self.refused(direction, found, new, room);
                let is_above = found.at > 0 && is_above(new);
                let number = found.fault.number();
                self.note(Moved::RefusedAbove(number), is_above);
            }
        }
    }

    /// A matrix whose other image has this length.
    fn read(&mut self, direction: Direction, matrix: &Matrix, length: usize, room: usize) {
        if room < length {
            let short = match (room, length - room) {
                (0, _) => Short::NoRoom,
                (_, 1) => Short::ByOne,
                (_, 2) => Short::ByTwo,
                _ => Short::ByMore,
            };
            return self.note(Moved::Short(direction, short), true);
        }
        let room = match room - length {
            0 => Went::Just,
            1 => Went::OneMore,
            _ => Went::More,
        };
        for (went, holds) in [(room, true)].into_iter().chain(of_matrix(matrix)) {
            self.note(Moved::Went(direction, went), holds);
        }
    }

    /// 23, where its old image would have this length.
    fn lost(&mut self, matrix: &Matrix, length: usize, room: usize) {
        let (things, highest) = (matrix.things().len(), matrix.highest());
        let listed = highest_listed(matrix);
        let (is_empty, above) = (things == 0, highest - listed);
        let is_last = highest == u16::MAX;
        for (lost, holds) in [
            (Lost::OneAbove, !is_empty && above == 1),
            (Lost::BitAbove, !is_empty && (2..=BIT).contains(&above)),
            (Lost::FarAbove, !is_empty && above > FAR),
            (Lost::LastAbove, !is_empty && is_last),
            (Lost::NothingOne, is_empty && highest == 1),
            (Lost::NothingSome, is_empty && highest > 1 && !is_last),
            (Lost::NothingLast, is_empty && is_last),
            (Lost::FullAbove, things == MOST_THINGS),
            (Lost::HeldAbove, matrix.is_held(listed)),
            (Lost::WithRoom, room >= length),
            (Lost::OneShort, room + 1 == length),
            (Lost::NoRoom, room == 0),
        ] {
            self.note(Moved::Lost(lost), holds);
        }
    }

    fn refused(&mut self, direction: Direction, found: Found, image: &[u8], room: usize) {
        let place = place(found, image);
        self.note(Moved::Refused(direction, place, found.fault), true);
        let number = found.fault.number();
        let is_short = room < LEAST;
        self.note(Moved::RefusedShort(direction, number), is_short);
        let Some(front) = front(image, found.at) else {
            return;
        };
        match place {
            Place::Head => self.refused_head(direction, front),
            _ if found.fault == Fault::Kind => self.refused_kind(direction, place, front.kind),
            Place::FirstThing | Place::LaterThing => {
                let is_held = front.kind == HELD_THING;
                self.note(Moved::RefusedHeld(direction, place), is_held);
            }
            Place::Cell => {}
        }
    }

    /// Its kind or its length may be that of the other image's head.
    fn refused_head(&mut self, direction: Direction, front: Front) {
        let old = Front {
            length: 2,
            kind: OLD_MATRIX_HEAD,
        };
        let new = Front {
            length: 4,
            kind: MATRIX_HEAD,
        };
        let (own, other) = match direction {
            Direction::Forward => (old, new),
            Direction::Back => (new, old),
        };
        let Front { length, kind } = front;
        let has_kind = kind == other.kind && length == own.length;
        self.note(Moved::Mistaken(direction, Mistaken::OtherKind), has_kind);
        let has_length = kind == own.kind && length == other.length;
        self.note(
            Moved::Mistaken(direction, Mistaken::OtherLength),
            has_length,
        );
    }

    /// It may be that of another record of the image: there are fewer things than stated, or more.
    fn refused_kind(&mut self, direction: Direction, place: Place, kind: u16) {
        let mistaken = match (place, kind) {
            (Place::FirstThing | Place::LaterThing, CELL) => Mistaken::CellForThing,
            (Place::Cell, THING) => Mistaken::ThingForCell,
            (Place::Cell, HELD_THING) => Mistaken::HeldForCell,
            _ => return,
        };
        self.note(Moved::Mistaken(direction, mistaken), true);
    }
}

/// What of a matrix that moves can be one way or another.
fn of_matrix(matrix: &Matrix) -> Vec<(Went, bool)> {
    let (things, held) = (matrix.things().len(), matrix.on_hold().len());
    let (has_things, has_cells) = (things > 0, matrix.nonempty_cells() > 0);
    let highest = highest_listed(matrix);
    vec![
        (Went::NoThings, !has_things),
        (Went::OneThing, things == 1),
        (Went::SomeThings, (2..MOST_THINGS).contains(&things)),
        (Went::Full, things == MOST_THINGS),
        (Went::NoCells, has_things && !has_cells),
        (Went::Cells, has_cells),
        (Went::NoneHeld, has_things && held == 0),
        (Went::SomeHeld, (1..things).contains(&held)),
        (Went::AllHeld, has_things && held == things),
        (Went::LastHeld, matrix.is_held(highest)),
        (Went::OneByte, (1..=255).contains(&highest)),
        (Went::TwoBytes, (256..u16::MAX).contains(&highest)),
        (Went::Last, highest == u16::MAX),
    ]
}

/// Behind a head that can be read stands how many things follow it.
fn place(found: Found, image: &[u8]) -> Place {
    let before = |record: &&Span| record.at < found.at;
    let before = records(image).iter().filter(before).count();
    let things = usize::from(image.get(5).copied().unwrap_or(0));
    match before {
        0 => Place::Head,
        count if count > things => Place::Cell,
        1 => Place::FirstThing,
        _ => Place::LaterThing,
    }
}

#[derive(Clone, Copy)]
struct Front {
    length: u16,
    kind: u16,
}

/// A record's front, if there is so much of one.
fn front(image: &[u8], at: usize) -> Option<Front> {
    let [a, b, c, d] = *image.get(at..)?.first_chunk()?;
    let length = u16::from_le_bytes([a, b]);
    let kind = u16::from_le_bytes([c, d]);
    Some(Front { length, kind })
}

/// Whether the head of a new image states a highest id above those of all things that follow, as far as they can be found.
fn is_above(new: &[u8]) -> bool {
    let two = |at: usize| new.get(at..).and_then(|rest| rest.first_chunk().copied());
    let id = |record: &Span| match front(new, record.at) {
        Some(Front { length: 2.., kind }) if is_thing(kind) => {
            two(record.at + 4).map(u16::from_le_bytes)
        }
        _ => None,
    };
    let listed = records(new).iter().filter_map(id).max().unwrap_or(0);
    two(6).is_some_and(|highest| u16::from_le_bytes(highest) > listed)
}

impl fmt::Display for Moves {
    fn fmt(&self, out: &mut fmt::Formatter) -> fmt::Result {
        writeln!(out, "     count by a move")?;
        for moved in Moved::all() {
            writeln!(out, "{:>10} {}", self.count(moved), moved.words())?;
        }
        Ok(())
    }
}
