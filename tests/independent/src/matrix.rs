//! The matrix as the outline speaks of it: things, which of them are on hold, and existing cells by ids, and the highest id it ever had; with its
//! reader and writer.

use std::collections::{BTreeMap, BTreeSet};

use crate::bytes::{put_record, Record, CELL, HELD_THING, MATRIX_HEAD, THING};
use crate::refusal::{Fault, Found, Refusal};
use crate::scheme::{Scheme, MOST_RIGHTS};

pub const MOST_THINGS: usize = 48;

#[derive(Clone, Debug, Default, PartialEq, Eq)]
pub struct Matrix {
    /// The type of each thing.
    things: BTreeMap<u16, u8>,
    /// The things on hold.
    held: BTreeSet<u16>,
    /// The rights of every cell that exists, empty ones too, by row id and column id.
    cells: BTreeMap<(u16, u16), u64>,
    /// The highest id that a thing ever had; no thing's id is above it.
    highest: u16,
}

impl Matrix {
    pub fn new() -> Matrix {
        Matrix::default()
    }

    pub fn things(&self) -> &BTreeMap<u16, u8> {
        &self.things
    }

    pub fn cells(&self) -> &BTreeMap<(u16, u16), u64> {
        &self.cells
    }

    pub fn highest(&self) -> u16 {
        self.highest
    }

    /// As if a thing with this id had been there.
    pub fn raise_highest(&mut self, id: u16) {
        self.highest = self.highest.max(id);
    }

    pub fn type_of(&self, id: u16) -> Option<u8> {
        self.things.get(&id).copied()
    }

    /// The ids of the things on hold.
    pub fn on_hold(&self) -> &BTreeSet<u16> {
        &self.held
    }

    /// Whether a thing is on hold; what doesn't exist isn't.
    pub fn is_held(&self, id: u16) -> bool {
        self.held.contains(&id)
    }

    /// Marks a thing that exists, or takes its mark away.
    pub fn set_held(&mut self, id: u16, held: bool) {
        assert!(self.things.contains_key(&id), "the thing exists");
        if held {
            self.held.insert(id);
        } else {
            self.held.remove(&id);
        }
    }

    /// The rights of a cell, if the cell exists.
    pub fn cell(&self, row: u16, column: u16) -> Option<u64> {
        self.cells.get(&(row, column)).copied()
    }

    /// Changes a cell that exists.
    pub fn set_cell(&mut self, row: u16, column: u16, rights: u64) {
        *self.cells.get_mut(&(row, column)).expect("the cell exists") = rights;
    }

    /// Adds a thing that isn't on hold, with empty cells: row and column for a subject type, column otherwise. Its id is the highest, if none was
    /// higher.
    pub fn create(&mut self, scheme: &Scheme, id: u16, kind: u8) {
        let old = self.things.insert(id, kind);
        assert!(old.is_none(), "the id is free");
        self.raise_highest(id);
        for (&other, &other_kind) in &self.things {
            if scheme.is_subject_type(other_kind) {
                self.cells.insert((other, id), 0);
            }
            if scheme.is_subject_type(kind) {
                self.cells.insert((id, other), 0);
            }
        }
    }

    /// Takes a thing, its mark and all its cells away; the highest id stays.
    pub fn destroy(&mut self, id: u16) {
        self.things.remove(&id).expect("the thing exists");
        self.held.remove(&id);
        self.cells
            .retain(|&(row, column), _| row != id && column != id);
    }

    pub fn nonempty_cells(&self) -> usize {
        self.cells.values().filter(|&&rights| rights != 0).count()
    }

    /// The rights counted over all cells.
    pub fn entries(&self) -> u32 {
        self.cells.values().map(|rights| rights.count_ones()).sum()
    }
}

/// The matrix, or the number and the record's position. The next position is the input's length.
pub fn read_matrix(input: &[u8], scheme: &Scheme) -> Result<Matrix, Refusal> {
    Ok(find_matrix(input, scheme)?)
}

/// The same with the fault by name.
pub fn find_matrix(input: &[u8], scheme: &Scheme) -> Result<Matrix, Found> {
    let head = Record::read(input, 0, MATRIX_HEAD)?;
    let at = head.next;
    let (things, highest) = read_head(head, scheme)?;
    let mut matrix = find_rest(input, at, scheme, things, highest)?;
    matrix.raise_highest(highest);
    Ok(matrix)
}

/// So many things from a position on, with ids up to the highest one that there may be, then cells to the end of the input. The matrix's highest id is the
/// highest listed one.
pub fn find_rest(
    input: &[u8],
    mut at: usize,
    scheme: &Scheme,
    things: u8,
    highest: u16,
) -> Result<Matrix, Found> {
    let mut matrix = Matrix::new();
    let mut last_id = 0;
    for _ in 0..things {
        let thing = Record::read_of(input, at, is_thing)?;
        at = thing.next;
        let held = thing.kind == HELD_THING;
        let (id, kind) = read_thing(thing, scheme, last_id, highest)?;
        matrix.create(scheme, id, kind);
        matrix.set_held(id, held);
        last_id = id;
    }

    let mut last_place = (0, 0);
    while at != input.len() {
        let cell = Record::read(input, at, CELL)?;
        at = cell.next;
        let (row, column, set) = read_cell(cell, scheme, |id| matrix.type_of(id), last_place)?;
        matrix.set_cell(row, column, set);
        last_place = (row, column);
    }
    Ok(matrix)
}

/// How many things a head states, and the highest id.
pub fn read_head(mut head: Record, scheme: &Scheme) -> Result<(u8, u16), Found> {
    let things = read_counts(&mut head, scheme)?;
    // Any number may be the highest: whether it fits is found at the things.
    let highest = head.two()?;
    head.end()?;
    Ok((things, highest))
}

/// The fields with which every head of a matrix begins: the rights, and how many things there are, which is told.
pub fn read_counts(head: &mut Record, scheme: &Scheme) -> Result<u8, Found> {
    let rights = head.one()?;
    head.must(
        (1..=MOST_RIGHTS).contains(&rights),
        Fault::MatrixRightsCount,
    )?;
    head.must(rights == scheme.rights, Fault::MatrixRightsOther)?;
    let things = head.one()?;
    head.must(things as usize <= MOST_THINGS, Fault::ThingsCount)?;
    Ok(things)
}

/// The kinds that may stand at a thing's place.
pub fn is_thing(kind: u16) -> bool {
    kind == THING || kind == HELD_THING
}

/// The kind of a thing's record, by its mark.
pub fn thing_kind(held: bool) -> u16 {
    match held {
        true => HELD_THING,
        false => THING,
    }
}

/// A thing's id and type, of either kind, behind a thing with this id, 0 for none, where the head stated this highest id.
pub fn read_thing(
    mut thing: Record,
    scheme: &Scheme,
    last_id: u16,
    highest: u16,
) -> Result<(u16, u8), Found> {
    let id = thing.two()?;
    thing.must(id != 0, Fault::ThingIdZero)?;
    thing.must(id > last_id, Fault::ThingOrder)?;
    thing.must(id <= highest, Fault::ThingAboveHighest)?;
    let kind = thing.one()?;
    thing.must(kind < scheme.types, Fault::ThingType)?;
    thing.end()?;
    Ok((id, kind))
}

/// A cell's row, column and rights, among the things that have a type, behind a cell at this place, 0 and 0 for none.
pub fn read_cell(
    mut cell: Record,
    scheme: &Scheme,
    type_of: impl Fn(u16) -> Option<u8>,
    last_place: (u16, u16),
) -> Result<(u16, u16, u64), Found> {
    let row = cell.two()?;
    cell.must(type_of(row).is_some(), Fault::CellRowUnknown)?;
    let is_subject = type_of(row).is_some_and(|kind| scheme.is_subject_type(kind));
    cell.must(is_subject, Fault::CellRowNoSubject)?;
    let column = cell.two()?;
    cell.must(type_of(column).is_some(), Fault::CellColumnUnknown)?;
    cell.must(last_place < (row, column), Fault::CellOrder)?;
    let set = cell.eight()?;
    cell.must(set & !all_rights(scheme.rights) == 0, Fault::CellRight)?;
    cell.must(set != 0, Fault::CellNoRights)?;
    cell.end()?;
    Ok((row, column, set))
}

/// The set of the rights 0 to n - 1, of which a set can hold 64.
pub fn all_rights(n: u8) -> u64 {
    (0..n.min(MOST_RIGHTS)).fold(0, |set, right| set | 1 << right)
}

pub fn write_matrix(matrix: &Matrix, scheme: &Scheme) -> Vec<u8> {
    let mut out = Vec::new();
    let [low, high] = matrix.highest.to_le_bytes();
    let head = [scheme.rights, matrix.things.len() as u8, low, high];
    put_record(&mut out, MATRIX_HEAD, &head);
    put_rest(&mut out, matrix);
    out
}

/// Writes the things and the cells that aren't empty behind a head.
pub fn put_rest(out: &mut Vec<u8>, matrix: &Matrix) {
    for (id, kind) in &matrix.things {
        let [low, high] = id.to_le_bytes();
        put_record(out, thing_kind(matrix.is_held(*id)), &[low, high, *kind]);
    }
    for ((row, column), rights) in &matrix.cells {
        if *rights != 0 {
            let mut body = Vec::new();
            body.extend(row.to_le_bytes());
            body.extend(column.to_le_bytes());
            body.extend(rights.to_le_bytes());
            put_record(out, CELL, &body);
        }
    }
}
