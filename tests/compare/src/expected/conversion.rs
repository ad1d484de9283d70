//! The conversions, each with the case's room and with a large buffer.

use independent::convert::{convert_matrix, convert_scheme};
use independent::generate::Case;
use independent::matrix::write_matrix;
use independent::scheme::write_scheme;

use super::{lengths, written, Content, Refused, SCHEME};
use crate::told::{Call, Told};

pub fn expect(case: &Case, edges: bool, content: &Content, told: &mut Vec<Told>) {
    let bytes = scheme_bytes(content);
    for out in lengths(case.room, edges, &bytes) {
        told.push(written(Call::ConvertScheme { out }, &bytes, 0, out));
    }
    let bytes = matrix_bytes(content);
    for out in lengths(case.room, edges, &bytes) {
        told.push(written(Call::ConvertMatrix { out }, &bytes, 0, out));
    }
}

fn scheme_bytes(content: &Content) -> Result<Vec<u8>, Refused> {
    let scheme = content.scheme.as_ref().map_err(|refused| *refused)?;
    let converted = convert_scheme(scheme).map_err(in_scheme)?;
    Ok(write_scheme(&converted))
}

/// A matrix that can't be read comes before a scheme that can't be converted.
fn matrix_bytes(content: &Content) -> Result<Vec<u8>, Refused> {
    let scheme = content.scheme.as_ref().map_err(|refused| *refused)?;
    let matrix = content.matrix.as_ref().map_err(|refused| *refused)?;
    let converted = convert_scheme(scheme).map_err(in_scheme)?;
    let matrix = convert_matrix(matrix, scheme).map_err(in_scheme)?;
    Ok(write_matrix(&matrix, &converted))
}

/// 20 to 22 are faults of the whole scheme.
fn in_scheme(number: u8) -> Refused {
    Refused {
        number,
        place: SCHEME,
        at: 0,
    }
}
