//! The list of requests with all the buffers' lengths, then its first requests one by one.

use independent::answer::{list_bytes, Answer};
use independent::generate::Case;
use independent::matrix::Matrix;
use independent::refusal::Found;
use independent::scheme::Scheme;

use super::{Content, Refused, ANSWERS, LARGE, OUTPUT, REQUESTS, WHOLE};
use crate::buffer::{stored, UNTOUCHED};
use crate::counts::Counts;
use crate::list::{carry, Carried, ONE_BY_ONE};
use crate::told::{report, Call, Told};

/// Gives the matrix after the first requests, for what is carried out on it later.
pub fn expect<'a>(
    case: &Case,
    edges: bool,
    content: &'a Content,
    counts: &mut Counts,
    told: &mut Vec<Told>,
) -> Option<(&'a Scheme, Matrix)> {
    let mut lengths = vec![(LARGE, LARGE), (LARGE, case.room), (case.room, LARGE)];
    match (&content.scheme, &content.matrix) {
        (Ok(scheme), Ok(matrix)) => {
            let carried = carry(scheme, matrix, &case.requests, &mut counts.ways);
            counts.list(&carried);
            if edges {
                lengths.extend(edge_lengths(carried.answers.len(), carried.bytes.len()));
            }
            for (answers, out) in lengths {
                told.push(run_list(answers, out, &carried));
            }
            run_one_by_one(&carried, told);
            Some((scheme, carried.matrix))
        }
        (Err(refused), _) | (_, Err(refused)) => {
            for (answers, out) in lengths {
                told.push(not_run(*refused, Call::RunList { answers, out }));
            }
            None
        }
    }
}

/// Just enough of both, one less of either, and one more for the answers: too little for another one, so that it stays as it was.
fn edge_lengths(count: usize, written: usize) -> Vec<(usize, usize)> {
    let bytes = Answer::BYTES * count;
    let mut lengths = vec![(bytes, written), (bytes, written - 1)];
    if count > 0 {
        lengths.push((bytes - 1, written));
    }
    lengths.push((bytes + 1, written));
    lengths
}

fn run_list(answers: usize, out: usize, carried: &Carried) -> Told {
    let call = Call::RunList { answers, out };
    if answers < Answer::BYTES * carried.answers.len() {
        not_run(Refused::too_short(ANSWERS), call)
    } else if out < carried.bytes.len() {
        not_run(Refused::too_short(OUTPUT), call)
    } else {
        ran(call, &carried.answers, &carried.bytes, carried.ending)
    }
}

fn run_one_by_one(carried: &Carried, told: &mut Vec<Told>) {
    let answers = carried.answers.iter();
    for (request, (answer, bytes)) in answers.zip(&carried.after_each).enumerate() {
        told.push(ran(Call::RunAlone { request }, &[*answer], bytes, None));
    }
    let request = carried.after_each.len();
    if request < ONE_BY_ONE && carried.ending.is_some() {
        let call = Call::RunAlone { request };
        told.push(ran(call, &[], &carried.bytes, carried.ending_alone));
    }
}

fn not_run(refused: Refused, call: Call) -> Told {
    refused.told(call, WHOLE).answers(UNTOUCHED).out(UNTOUCHED)
}

/// A list that was carried out, to its end or to a record that can't be read: the call's own number is 0 either way.
pub fn ran(call: Call, answers: &[Answer], bytes: &[u8], ending: Option<Found>) -> Told {
    let (place, at, record) = match ending {
        Some(found) => (REQUESTS, found.at, usize::from(found.fault.number())),
        None => (0, 0, 0),
    };
    let report = report([place, at, answers.len(), bytes.len(), record], WHOLE);
    Told::new(call, 0, report)
        .answers(stored(0, &list_bytes(answers)))
        .out(stored(0, bytes))
}
