//! The images that a case moves: its old and its new one, and its matrix; and in some cases all that one byte makes of small sound ones.

use independent::generate::Case;
use independent::matrix::{write_matrix, Matrix};
use independent::moving::back;
use independent::scheme::{read_scheme, Scheme};

pub struct Image {
    /// Or else back.
    pub forward: bool,
    pub bytes: Vec<u8>,
}

/// All changes of a small image take many calls, so that only some cases try them; none of these tries buffers of just the right length too.
const EVERY: u64 = 5_000;
const EVERY_HIGHEST: u64 = 10_000;
const FIRST: u64 = 3;

/// Where the new head has the highest id.
const HIGHEST_AT: usize = 6;

/// The first three are the case's own.
pub fn images(case: &Case, number: u64) -> Vec<Image> {
    let mut images = vec![
        image(true, &case.old),
        image(false, &case.new),
        image(false, &case.matrix),
    ];
    if number % EVERY == FIRST {
        if let Ok((scheme, _)) = read_scheme(&case.scheme) {
            images.extend(changed(&scheme, number % EVERY_HIGHEST == FIRST));
        }
    }
    images
}

fn image(forward: bool, bytes: &[u8]) -> Image {
    Image {
        forward,
        bytes: bytes.to_vec(),
    }
}

/// Three things, one of them on hold, and a cell where there is a subject: each byte of either image with all its values, each part from the start on, and
/// at times each highest id that there is.
fn changed(scheme: &Scheme, with_each_highest: bool) -> Vec<Image> {
    let new = write_matrix(&small_matrix(scheme), scheme);
    let old = back(scheme, &new).expect("the highest id is listed");
    let mut images = Vec::new();
    for (forward, bytes) in [(true, old), (false, new.clone())] {
        let parts = (0..bytes.len()).map(|length| image(forward, &bytes[..length]));
        images.extend(parts);
        for at in 0..bytes.len() {
            images.extend((0..=u8::MAX).map(|byte| with(forward, &bytes, at, &[byte])));
        }
    }
    if with_each_highest {
        let each = (0..=u16::MAX).map(u16::to_le_bytes);
        images.extend(each.map(|highest| with(false, &new, HIGHEST_AT, &highest)));
    }
    images
}

/// Other bytes from a position on.
fn with(forward: bool, bytes: &[u8], at: usize, other: &[u8]) -> Image {
    let mut image = image(forward, bytes);
    image.bytes[at..at + other.len()].copy_from_slice(other);
    image
}

/// Ids with one and with two bytes that aren't 0.
fn small_matrix(scheme: &Scheme) -> Matrix {
    let mut matrix = Matrix::new();
    for (id, kind) in [(3, 0), (256, scheme.types - 1), (772, 0)] {
        matrix.create(scheme, id, kind);
    }
    matrix.set_held(256, true);
    if let Some(&(row, column)) = matrix.cells().keys().next() {
        matrix.set_cell(row, column, 1);
    }
    matrix
}
