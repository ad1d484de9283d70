//! The moves: each of the case's images with the buffers' lengths, then the other way what that gave; and the matrix that the requests left, there and back.

use independent::matrix::{write_matrix, Matrix};
use independent::refusal::Refusal;
use independent::scheme::Scheme;

use super::{lengths, written, Content, Refused, LARGE, MATRIX};
use crate::counts::Counts;
use crate::images::Image;
use crate::told::{Call, Moved, Told};

pub fn expect(
    room: usize,
    edges: bool,
    (images, content): (&[Image], &Content),
    counts: &mut Counts,
    told: &mut Vec<Told>,
) {
    for (image, Image { forward, bytes }) in images.iter().enumerate() {
        let moved = match &content.scheme {
            Ok(scheme) => in_matrix(counts.ways.move_image(scheme, *forward, bytes, room)),
            Err(refused) => Err(*refused),
        };
        for out in lengths(room, edges, &moved) {
            let call = call(*forward, Moved::Image { image, out });
            told.push(written(call, &moved, 0, out));
        }
        if moved.is_ok() {
            let call = call(!*forward, Moved::Again { image });
            told.push(first_again(call, bytes));
        }
    }
}

/// The matrix that the requests left goes back where its highest id is listed, and then forward again.
pub fn expect_after(matrix: Option<(&Scheme, Matrix)>, counts: &mut Counts, told: &mut Vec<Told>) {
    let Some((scheme, matrix)) = matrix else {
        return;
    };
    let new = write_matrix(&matrix, scheme);
    let old = in_matrix(counts.ways.move_image(scheme, false, &new, LARGE));
    told.push(written(call(false, Moved::After), &old, 0, LARGE));
    if old.is_ok() {
        told.push(first_again(call(true, Moved::After), &new));
    }
}

fn call(forward: bool, what: Moved) -> Call {
    Call::Move { forward, what }
}

/// The way there and back, taken from the law itself and not from the independent program: it gives the first bytes again.
fn first_again(call: Call, first: &[u8]) -> Told {
    written(call, &Ok(first.to_vec()), 0, LARGE)
}

/// What is wrong with an image, 23 too, is a fault of the matrix.
fn in_matrix(moved: Result<Vec<u8>, Refusal>) -> Result<Vec<u8>, Refused> {
    moved.map_err(|Refusal { number, at }| Refused {
        number,
        place: MATRIX,
        at,
    })
}
