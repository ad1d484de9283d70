//! The marks, each in the case's matrix with the buffers' lengths, then one behind the other; and the list on the matrix that they leave.

use independent::generate::Case;
use independent::matrix::{write_matrix, Matrix};
use independent::refusal::Refusal;
use independent::scheme::Scheme;

use super::running::ran;
use super::{lengths, written, Content, Refused, LARGE, MATRIX};
use crate::counts::Counts;
use crate::list::carry;
use crate::told::{Call, Told};

pub fn expect(
    case: &Case,
    edges: bool,
    content: &Content,
    counts: &mut Counts,
    told: &mut Vec<Told>,
) {
    match (&content.scheme, &content.matrix) {
        (Ok(scheme), Ok(matrix)) => {
            let marked = mark_all(case, edges, (scheme, matrix), counts, told);
            let carried = carry(scheme, &marked, &case.requests, &mut counts.ways);
            counts.list(&carried);
            let (answers, ending) = (&carried.answers, carried.ending);
            told.push(ran(Call::RunMarked, answers, &carried.bytes, ending));
        }
        (Err(refused), _) | (_, Err(refused)) => {
            for &(id, held) in &case.marks {
                in_matrix(case.room, edges, (id, held), &Err(*refused), told);
            }
        }
    }
}

/// Gives the matrix that all marks leave.
fn mark_all(
    case: &Case,
    edges: bool,
    (scheme, matrix): (&Scheme, &Matrix),
    counts: &mut Counts,
    told: &mut Vec<Told>,
) -> Matrix {
    let mut now = matrix.clone();
    for &(id, held) in &case.marks {
        let bytes = marked_bytes(&counts.ways.mark(matrix, id, held), scheme);
        in_matrix(case.room, edges, (id, held), &bytes, told);

        let marked = counts.ways.mark(&now, id, held);
        let call = Call::MarkInTurn { held, id };
        told.push(written(call, &marked_bytes(&marked, scheme), 0, LARGE));
        now = marked.unwrap_or(now);
    }
    now
}

/// One mark in the case's matrix, with all lengths of the buffer.
fn in_matrix(
    room: usize,
    edges: bool,
    (id, held): (u16, bool),
    bytes: &Result<Vec<u8>, Refused>,
    told: &mut Vec<Told>,
) {
    for out in lengths(room, edges, bytes) {
        told.push(written(Call::Mark { held, id, out }, bytes, 0, out));
    }
}

/// An id of no thing is a fault of the matrix.
fn marked_bytes(marked: &Result<Matrix, Refusal>, scheme: &Scheme) -> Result<Vec<u8>, Refused> {
    match marked {
        Ok(matrix) => Ok(write_matrix(matrix, scheme)),
        Err(Refusal { number, at }) => Err(Refused {
            number: *number,
            place: MATRIX,
            at: *at,
        }),
    }
}
