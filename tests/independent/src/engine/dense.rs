//! A second engine, fast and in place, for benchmarks; it has the same answers as the literal one.

use crate::answer::Answer;
use crate::matrix::{Matrix, MOST_THINGS};
use crate::scheme::{Command, Operation, Scheme};

const SEATS: usize = MOST_THINGS;

/// Things sit on seats. A free seat has id 0, and every cell that doesn't exist is 0. No mark is left at a seat that becomes free: what is on hold isn't
/// destroyed.
#[derive(Clone)]
pub struct Dense {
    ids: [u16; SEATS],
    types: [u8; SEATS],
    held: [bool; SEATS],
    things: usize,
    highest: u16,
    cells: Box<[u64; SEATS * SEATS]>,
}

impl Dense {
    pub fn from_matrix(matrix: &Matrix) -> Dense {
        let mut dense = Dense {
            ids: [0; SEATS],
            types: [0; SEATS],
            held: [false; SEATS],
            things: matrix.things().len(),
            highest: matrix.highest(),
            cells: Box::new([0; SEATS * SEATS]),
        };
        for (seat, (&id, &kind)) in matrix.things().iter().enumerate() {
            dense.ids[seat] = id;
            dense.types[seat] = kind;
            dense.held[seat] = matrix.is_held(id);
        }
        for (&(row, column), &rights) in matrix.cells() {
            let place = place(dense.seat_of(row).unwrap(), dense.seat_of(column).unwrap());
            dense.cells[place] = rights;
        }
        dense
    }

    pub fn to_matrix(&self, scheme: &Scheme) -> Matrix {
        let mut matrix = Matrix::new();
        matrix.raise_highest(self.highest);
        let taken: Vec<usize> = (0..SEATS).filter(|&seat| self.ids[seat] != 0).collect();
        for &seat in &taken {
            matrix.create(scheme, self.ids[seat], self.types[seat]);
            matrix.set_held(self.ids[seat], self.held[seat]);
        }
        for &row in &taken {
            for &column in &taken {
                let rights = self.cells[place(row, column)];
                if rights != 0 {
                    matrix.set_cell(self.ids[row], self.ids[column], rights);
                }
            }
        }
        matrix
    }

    /// 0 and the changed matrix, or 10 to 18 and no effect at all.
    pub fn carry_out(&mut self, scheme: &Scheme, command: usize, ids: &[u16]) -> Answer {
        match scheme.commands.get(command) {
            Some(command) => self.obey(command, ids),
            None => Answer::before_tests(10),
        }
    }

    /// The same for a command that exists.
    pub fn obey(&mut self, command: &Command, ids: &[u16]) -> Answer {
        let mut seats = [0; 8];
        let refused = self.locate(command, ids, &mut seats);
        if refused != 0 {
            return Answer::before_tests(refused);
        }
        if let Some(place) = self.first_false(command, &seats) {
            return Answer::stopped_by(place);
        }
        if let Some((number, place)) = self.first_faulty(command, ids) {
            return Answer::at_operation(number, command, place);
        }
        self.change(command, ids, &mut seats);
        Answer::carried_out(command)
    }

    /// 11 to 13 or 18; or 0 and the seats of the parameters that aren't new.
    #[inline]
    fn locate(&self, command: &Command, ids: &[u16], seats: &mut [usize; 8]) -> u8 {
        if ids.len() != command.parameters.len() || ids.len() > 8 {
            return 11;
        }

        let mut new = 0u8;
        for operation in &command.operations {
            let Operation::Create { parameter } = *operation else {
                break;
            };
            new |= 1 << parameter;
        }

        for (parameter, (&id, &kind)) in ids.iter().zip(&command.parameters).enumerate() {
            if id == 0 {
                return 12;
            }
            if new >> parameter & 1 == 0 {
                let Some(seat) = self.seat_of(id) else {
                    return 12;
                };
                if self.types[seat] != kind {
                    return 13;
                }
                if self.held[seat] {
                    return 18;
                }
                seats[parameter] = seat;
            }
        }
        0
    }

    /// The place of the first test that doesn't hold.
    #[inline]
    fn first_false(&self, command: &Command, seats: &[usize; 8]) -> Option<usize> {
        command.tests.iter().position(|test| {
            let (row, column) = (test.row as usize & 7, test.column as usize & 7);
            let set = self.cells[place(seats[row], seats[column])];
            (set >> test.right & 1 == 1) != test.present
        })
    }

    /// 15 to 17 and the operation's place, before anything changes: only creates and destroys can refuse.
    fn first_faulty(&self, command: &Command, ids: &[u16]) -> Option<(u8, usize)> {
        let create = self.first_faulty_create(command, ids);
        create.or_else(|| first_faulty_destroy(command, ids))
    }

    /// Creates come first in a body, so that a create's place is the number of those before it: there is a seat for as many as there are free ones,
    /// and the highest id and the ids of the creates must be a row that rises.
    fn first_faulty_create(&self, command: &Command, ids: &[u16]) -> Option<(u8, usize)> {
        let mut last = self.highest;
        for (place, operation) in command.operations.iter().enumerate() {
            let Operation::Create { parameter } = *operation else {
                break;
            };
            let id = ids[parameter as usize];
            if id <= last {
                return Some((15, place));
            }
            if place == SEATS - self.things {
                return Some((16, place));
            }
            last = id;
        }
        None
    }

    /// The operations of a request that isn't refused.
    fn change(&mut self, command: &Command, ids: &[u16], seats: &mut [usize; 8]) {
        for operation in &command.operations {
            match *operation {
                Operation::Enter { right, row, column } => {
                    let place = place(seats[row as usize & 7], seats[column as usize & 7]);
                    self.cells[place] |= 1 << right;
                }
                Operation::Delete { right, row, column } => {
                    let place = place(seats[row as usize & 7], seats[column as usize & 7]);
                    self.cells[place] &= !(1 << right);
                }
                Operation::Create { parameter } => {
                    let parameter = parameter as usize;
                    let seat = self.seat_of(0).expect("a seat is free below 48 things");
                    self.ids[seat] = ids[parameter];
                    self.types[seat] = command.parameters[parameter];
                    self.things += 1;
                    self.highest = ids[parameter];
                    seats[parameter] = seat;
                }
                Operation::Destroy { parameter } => {
                    let seat = seats[parameter as usize & 7];
                    self.ids[seat] = 0;
                    self.types[seat] = 0;
                    self.things -= 1;
                    for other in 0..SEATS {
                        self.cells[place(seat, other)] = 0;
                        self.cells[place(other, seat)] = 0;
                    }
                }
            }
        }
    }

    /// The first seat with this id; the first free one for 0.
    fn seat_of(&self, id: u16) -> Option<usize> {
        // Sixteen at a time without a branch: the compiler makes wide comparisons of it.
        for (part, ids) in self.ids.chunks_exact(16).enumerate() {
            let matches = ids.iter().fold(false, |any, &found| any | (found == id));
            if matches {
                let inside = ids.iter().position(|&found| found == id)?;
                return Some(16 * part + inside);
            }
        }
        None
    }
}

/// 17 and the operation's place. What is destroyed exists, and ids tell things apart: only one that is destroyed twice is gone.
fn first_faulty_destroy(command: &Command, ids: &[u16]) -> Option<(u8, usize)> {
    let mut destroyed = [0u16; 8];
    let mut gone = 0;
    for (place, operation) in command.operations.iter().enumerate() {
        if let Operation::Destroy { parameter } = *operation {
            let id = ids[parameter as usize];
            if destroyed[..gone].contains(&id) {
                return Some((17, place));
            }
            destroyed[gone] = id;
            gone += 1;
        }
    }
    None
}

fn place(row: usize, column: usize) -> usize {
    row * SEATS + column
}
