//! Counts the ways in which matrices, requests and marks stood to the highest id and to what is on hold, as they are read, carried out and set, and in
//! which images stood to a move.

use std::fmt;

use independent::answer::Answer;
use independent::engine;
use independent::hold;
use independent::matrix::Matrix;
use independent::moving;
use independent::refusal::{Found, Refusal};
use independent::scheme::Scheme;
use independent::statistics::{Held, Highest, Met, Moved, Moves, Stood};

#[derive(Default)]
pub struct Ways {
    highest: Highest,
    held: Held,
    moves: Moves,
}

impl Ways {
    /// A matrix that was read; the requests that follow are on it.
    pub fn matrix(&mut self, matrix: &Matrix, scheme: &Scheme) {
        self.highest.matrix(matrix);
        self.held.matrix(matrix, scheme);
    }

    pub fn refused_matrix(&mut self, found: Found, input: &[u8], scheme: &Scheme) {
        self.highest.refused_matrix(found, input, scheme);
        self.held.refused_matrix(found, input);
    }

    /// Carries out a request.
    pub fn request(
        &mut self,
        scheme: &Scheme,
        matrix: &mut Matrix,
        command: u8,
        ids: &[u16],
    ) -> Answer {
        let before = matrix.clone();
        let answer = engine::carry_out(scheme, matrix, command.into(), ids);
        if let Some(command) = scheme.commands.get(usize::from(command)) {
            let highest = before.highest();
            self.highest.request(command, ids, answer, highest, matrix);
            self.held.request(command, ids, answer, &before, matrix);
        }
        answer
    }

    /// Sets a mark, or takes it away.
    pub fn mark(&mut self, matrix: &Matrix, id: u16, held: bool) -> Result<Matrix, Refusal> {
        let marked = hold::mark(matrix, id, held);
        self.held.mark(id, held, matrix, &marked);
        marked
    }

    /// Moves an image forward, or else back, where the buffer has this length.
    pub fn move_image(
        &mut self,
        scheme: &Scheme,
        forward: bool,
        image: &[u8],
        room: usize,
    ) -> Result<Vec<u8>, Refusal> {
        if forward {
            self.moves.forward(scheme, image, room);
            moving::forward(scheme, image)
        } else {
            self.moves.back(scheme, image, room);
            moving::back(scheme, image)
        }
    }
}

/// A line a count, as all of `Counts`.
impl fmt::Display for Ways {
    fn fmt(&self, f: &mut fmt::Formatter) -> fmt::Result {
        for &met in Met::ALL {
            let count = self.highest.count(met);
            writeln!(f, "{count} times by the highest id, {}", met.words())?;
        }
        for &stood in Stood::ALL {
            let count = self.held.count(stood);
            writeln!(f, "{count} times by a mark, {}", stood.words())?;
        }
        for moved in Moved::all() {
            let count = self.moves.count(moved);
            writeln!(f, "{count} times by a move, {}", moved.words())?;
        }
        Ok(())
    }
}
