//! A thing put on hold, or released: the only way in which a mark changes.

use crate::matrix::Matrix;
use crate::refusal::Refusal;

/// The matrix with the mark set or taken away, which it may have been before; 12 at 0 for an id that no thing has.
pub fn mark(matrix: &Matrix, id: u16, held: bool) -> Result<Matrix, Refusal> {
    if matrix.type_of(id).is_none() {
        return Err(Refusal { number: 12, at: 0 });
    }
    let mut marked = matrix.clone();
    marked.set_held(id, held);
    Ok(marked)
}
