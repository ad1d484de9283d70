//! What the driver must tell of a case, from the independent program alone; in the driver's order.

mod conversion;
mod direct;
mod marking;
mod moving;
mod running;

use independent::generate::Case;
use independent::matrix::{find_matrix, Matrix};
use independent::refusal::Found;
use independent::scheme::{find_scheme, Scheme};

use crate::buffer::{hash_all, stored, UNTOUCHED};
use crate::counts::Counts;
use crate::images::Image;
use crate::told::{report, Call, Told};

/// The driver's large buffers.
const LARGE: usize = 40_000;
/// So many numbers of the report are told.
const WHOLE: usize = 5;

/// Where a fault lies.
const SCHEME: usize = 1;
const MATRIX: usize = 2;
const REQUESTS: usize = 3;
const ANSWERS: usize = 4;
const OUTPUT: usize = 5;

/// A call that stores nothing: its number, where the fault lies, and the position.
#[derive(Clone, Copy)]
struct Refused {
    number: u8,
    place: usize,
    at: usize,
}

impl Refused {
    fn found(place: usize, found: Found) -> Refused {
        Refused {
            number: found.fault.number(),
            place,
            at: found.at,
        }
    }

    fn too_short(place: usize) -> Refused {
        Refused {
            number: 9,
            place,
            at: 0,
        }
    }

    fn told(self, call: Call, lent: usize) -> Told {
        Told::new(
            call,
            self.number,
            report([self.place, self.at, 0, 0, 0], lent),
        )
    }
}

/// What was read of a case.
struct Content {
    scheme: Result<Scheme, Refused>,
    /// A matrix is read against a scheme: without one it has the scheme's fault.
    matrix: Result<Matrix, Refused>,
}

/// `edges`: buffers of just the right length are tried too.
pub fn expected(case: &Case, images: &[Image], edges: bool, counts: &mut Counts) -> Vec<Told> {
    let content = read(case, counts);
    let mut told = Vec::new();
    check(case, &content, &mut told);
    conversion::expect(case, edges, &content, &mut told);
    let matrix = running::expect(case, edges, &content, counts, &mut told);
    let matrix = direct::expect(case, matrix, counts, &mut told);
    moving::expect_after(matrix, counts, &mut told);
    marking::expect(case, edges, &content, counts, &mut told);
    moving::expect(
        case.moved_room,
        edges,
        (images, &content),
        counts,
        &mut told,
    );
    let inputs = [&case.scheme[..], &case.matrix, &case.requests];
    let moved: Vec<&[u8]> = images.iter().map(|image| &image.bytes[..]).collect();
    told.push(Told::inputs(hash_all(&inputs), hash_all(&moved)));
    told
}

fn read(case: &Case, counts: &mut Counts) -> Content {
    let scheme = find_scheme(&case.scheme);
    counts.reading(&scheme);
    let scheme = match scheme {
        Ok((scheme, _)) => scheme,
        Err(found) => {
            let refused = Refused::found(SCHEME, found);
            return Content {
                scheme: Err(refused),
                matrix: Err(refused),
            };
        }
    };
    let matrix = find_matrix(&case.matrix, &scheme);
    counts.reading(&matrix);
    if let Err(found) = matrix {
        counts.ways.refused_matrix(found, &case.matrix, &scheme);
    }
    Content {
        scheme: Ok(scheme),
        matrix: matrix.map_err(|found| Refused::found(MATRIX, found)),
    }
}

fn check(case: &Case, content: &Content, told: &mut Vec<Told>) {
    // The report's length is drawn along with the room.
    let lent = case.room % 6;
    let call = Call::CheckScheme { report: lent };
    told.push(match &content.scheme {
        Ok(_) => Told::new(call, 0, report([0, case.scheme.len(), 0, 0, 0], lent)),
        Err(refused) => refused.told(call, lent),
    });
    let call = Call::CheckMatrix;
    told.push(match &content.matrix {
        Ok(_) => Told::new(call, 0, report([0, case.matrix.len(), 0, 0, 0], WHOLE)),
        Err(refused) => refused.told(call, WHOLE),
    });
}

/// The case's room and a large buffer; at the edges also just enough, and one byte less.
fn lengths(room: usize, edges: bool, bytes: &Result<Vec<u8>, Refused>) -> Vec<usize> {
    match bytes {
        Ok(bytes) if edges => vec![room, LARGE, bytes.len(), bytes.len() - 1],
        _ => vec![room, LARGE],
    }
}

/// Bytes written at a position, with so many bytes lent; 9 where they end past these.
fn written(call: Call, bytes: &Result<Vec<u8>, Refused>, at: usize, lent: usize) -> Told {
    let refused = match bytes {
        Ok(bytes) => match at.checked_add(bytes.len()) {
            Some(next) if next <= lent => {
                let told = Told::new(call, 0, report([0, 0, 0, next, 0], WHOLE));
                return told.out(stored(at, bytes));
            }
            _ => Refused::too_short(OUTPUT),
        },
        Err(refused) => *refused,
    };
    refused.told(call, WHOLE).out(UNTOUCHED)
}
