//! A matrix as the functions are handed it: 48 seats, the highest id, and the cells of each two seats. What a reading gives has zeros and no mark at free
//! seats, zeros where no cell exists, and no id above the highest (docs/DECISIONS.md, "Values handed in"); any other value is a stranger, which is 27
//! everywhere.

use std::collections::BTreeSet;

use super::sums;
use crate::matrix::{all_rights, Matrix, MOST_THINGS};
use crate::scheme::{Operation, Scheme};

pub const SEATS: usize = MOST_THINGS;
/// How many cells a matrix has.
pub const CELLS: usize = SEATS * SEATS;
/// How many cells the program has, so that more can be lent than a matrix has.
pub const MOST_CELLS: usize = 2_400;

/// A thing where it sits; a free seat has id 0.
#[derive(Clone, Copy, Debug, Default, PartialEq, Eq)]
pub struct Seat {
    pub id: u16,
    pub kind: u8,
    pub held: bool,
}

impl Seat {
    /// A thing that isn't on hold.
    pub fn of(id: u16, kind: u8) -> Seat {
        let held = false;
        Seat { id, kind, held }
    }

    pub fn on_hold(self) -> Seat {
        let held = true;
        Seat { held, ..self }
    }
}

#[derive(Clone, Debug, PartialEq, Eq)]
pub struct Seats {
    seats: [Seat; SEATS],
    highest: u16,
    cells: Vec<u64>,
}

impl Seats {
    pub fn none() -> Seats {
        Seats {
            seats: [Seat::default(); SEATS],
            highest: 0,
            cells: vec![0; MOST_CELLS],
        }
    }

    pub fn sum(&self) -> u64 {
        self.sum_of_lent(MOST_CELLS)
    }

    /// Of the cells only those that are lent.
    pub fn sum_of_lent(&self, lent: usize) -> u64 {
        sums::matrix(&self.seats, self.highest, &self.cells[..lent])
    }

    pub fn highest(&self) -> u16 {
        self.highest
    }

    /// Whatever the things' ids are.
    pub fn set_highest(&mut self, highest: u16) {
        self.highest = highest;
    }

    /// An id above the highest becomes the highest. Past the last seat nothing else changes.
    pub fn put_thing(&mut self, seat: u64, thing: Seat) {
        self.highest = self.highest.max(thing.id);
        let seat = usize::try_from(seat).unwrap_or(SEATS);
        if let Some(place) = self.seats.get_mut(seat) {
            *place = thing;
        }
    }

    /// Nobody sits past the last seat.
    pub fn id_at(&self, seat: u8) -> u16 {
        self.seats.get(usize::from(seat)).map_or(0, |seat| seat.id)
    }

    /// The first of the first seats with this id, or how many those are.
    pub fn seat_in(&self, first: u64, id: u16) -> usize {
        let first = usize::try_from(first).map_or(SEATS, |first| first.min(SEATS));
        let found = self.seats[..first].iter().position(|seat| seat.id == id);
        found.unwrap_or(first)
    }

    /// The thing with this id, among those at the first seats. No thing has id 0.
    pub fn thing(&self, first: u64, id: u16) -> Option<Seat> {
        let mut seats = self.seats.iter().zip(0..first).filter(|_| id != 0);
        let found = seats.find(|(seat, _)| seat.id == id);
        found.map(|(&seat, _)| seat)
    }

    pub fn no_things(&mut self) {
        self.seats = [Seat::default(); SEATS];
        self.highest = 0;
    }

    /// From a place on, as many as there are sets and lent cells.
    pub fn copy_cells(&mut self, place: u64, sets: &[u64], lent: usize) {
        let place = usize::try_from(place).unwrap_or(usize::MAX);
        for (cell, &set) in self.cells[..lent].iter_mut().skip(place).zip(sets) {
            *cell = set;
        }
    }

    /// As a reading leaves it: things by rising id, from the first seat on.
    pub fn read(&mut self, matrix: &Matrix) {
        self.no_things();
        for (seat, (&id, &kind)) in matrix.things().iter().enumerate() {
            let held = matrix.is_held(id);
            self.put_thing(seat as u64, Seat { id, kind, held });
        }
        self.highest = matrix.highest();
        self.fill(matrix);
    }

    /// As a hold or a release leaves it: the marks alone are others.
    pub fn mark(&mut self, marked: &Matrix) {
        for seat in &mut self.seats {
            seat.held = marked.is_held(seat.id);
        }
    }

    /// With this mark at the first seat with this id, whatever else stands there; nothing where no thing has it.
    pub fn with_mark(&self, id: u16, held: bool) -> Option<Seats> {
        let mut marked = self.clone();
        let mut seats = marked.seats.iter_mut().filter(|seat| seat.id != 0);
        seats.find(|seat| seat.id == id)?.held = held;
        Some(marked)
    }

    /// As a request leaves it: a created thing takes the first free seat, a destroyed one's seat is free again.
    pub fn request(&mut self, operations: &[Operation], ids: &[u16], after: &Matrix) {
        for operation in operations {
            match *operation {
                Operation::Create { parameter } => {
                    let seat = self.seat_of(0);
                    self.seats[seat].id = ids[parameter as usize];
                }
                Operation::Destroy { parameter } => {
                    let seat = self.seat_of(ids[parameter as usize]);
                    self.seats[seat].id = 0;
                }
                Operation::Enter { .. } | Operation::Delete { .. } => {}
            }
        }
        for seat in &mut self.seats {
            seat.kind = after.type_of(seat.id).unwrap_or(0);
        }
        self.mark(after);
        self.highest = after.highest();
        self.fill(after);
    }

    /// The matrix's cells, with the things where they sit.
    pub fn fill(&mut self, matrix: &Matrix) {
        self.cells[..CELLS].fill(0);
        for (&(row, column), &rights) in matrix.cells() {
            let place = self.seat_of(row) * SEATS + self.seat_of(column);
            self.cells[place] = rights;
        }
    }

    fn seat_of(&self, id: u16) -> usize {
        let seat = self.seats.iter().position(|seat| seat.id == id);
        seat.expect("there is such a seat")
    }

    /// Ids that differ and aren't above the highest, types below m; type 0 and no mark at each free seat.
    pub fn things_accepted(&self, head: &Scheme) -> bool {
        let ids = self.seats.iter().map(|seat| seat.id);
        let taken: Vec<u16> = ids.filter(|&id| id != 0).collect();
        let apart: BTreeSet<u16> = taken.iter().copied().collect();
        let fits = |seat: &Seat| match seat.id {
            0 => seat.kind == 0 && !seat.held,
            id => seat.kind < head.types && id <= self.highest,
        };
        apart.len() == taken.len() && self.seats.iter().all(fits)
    }

    /// Of the cells so many are lent. Those that don't exist are empty, and no right is n or above.
    pub fn accepted(&self, head: &Scheme, lent: usize) -> bool {
        let fits = |(place, &rights): (usize, &u64)| {
            let (row, column) = (self.seats[place / SEATS], self.seats[place % SEATS]);
            let subject = head.is_subject_type(row.kind);
            let exists = row.id != 0 && column.id != 0 && subject;
            rights == 0 || exists && rights & !all_rights(head.rights) == 0
        };
        let mut cells = self.cells[..CELLS].iter().enumerate();
        lent == CELLS && self.things_accepted(head) && cells.all(fits)
    }

    /// The content, of a matrix that is accepted.
    pub fn matrix(&self, head: &Scheme) -> Matrix {
        let mut matrix = Matrix::new();
        for &Seat { id, kind, held } in self.seats.iter().filter(|seat| seat.id != 0) {
            matrix.create(head, id, kind);
            matrix.set_held(id, held);
        }
        matrix.raise_highest(self.highest);
        for (place, &rights) in self.cells[..CELLS].iter().enumerate() {
            if rights != 0 {
                let (row, column) = (self.seats[place / SEATS], self.seats[place % SEATS]);
                matrix.set_cell(row.id, column.id, rights);
            }
        }
        matrix
    }
}
