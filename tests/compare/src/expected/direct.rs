//! Requests handed in directly: written in several places, and carried out where that is possible.

use independent::generate::Case;
use independent::matrix::{write_matrix, Matrix};
use independent::request::write_request;
use independent::scheme::Scheme;

use super::running::ran;
use super::{written, Refused, LARGE, REQUESTS};
use crate::counts::Counts;
use crate::told::{Call, Told};

/// Gives the matrix after them.
pub fn expect<'a>(
    case: &Case,
    mut matrix: Option<(&'a Scheme, Matrix)>,
    counts: &mut Counts,
    told: &mut Vec<Told>,
) -> Option<(&'a Scheme, Matrix)> {
    let mut behind = 0;
    for (request, (command, ids)) in case.direct.iter().enumerate() {
        let bytes = write_request(*command, ids).map_err(|number| Refused {
            number,
            place: REQUESTS,
            at: 0,
        });
        let length = 6 + 2 * ids.len();
        for (out, at) in places(case.room, length, behind) {
            let call = Call::WriteRequest { request, out, at };
            told.push(written(call, &bytes, at, out));
        }
        // No record can say more than 8 ids, so the library can't be handed such a request.
        if bytes.is_err() {
            continue;
        }
        behind += length;
        if let Some((scheme, matrix)) = &mut matrix {
            let answer = counts.ways.request(scheme, matrix, *command, ids);
            counts.answer(answer);
            let bytes = write_matrix(matrix, scheme);
            told.push(ran(Call::RunDirect { request }, &[answer], &bytes, None));
        }
    }
    matrix
}

/// At the start, at the end and past the end of the room, at a position that no buffer has, and behind the one before.
fn places(room: usize, length: usize, behind: usize) -> Vec<(usize, usize)> {
    let mut places = vec![(room, 0)];
    if length <= room {
        places.extend([(room, room - length), (room, room - length + 1)]);
    }
    places.extend([(room, usize::MAX), (LARGE, behind)]);
    places
}
