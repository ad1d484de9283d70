//! Carries out one request, as literally as the outline says it: on a copy, which takes the matrix's place only at success.

pub mod dense;

pub use dense::Dense;

use crate::answer::{Answer, NO_TEST};
use crate::matrix::{Matrix, MOST_THINGS};
use crate::scheme::{Command, Operation, Scheme, Test};

/// 0 and the changed matrix, or 10 to 18 and no effect at all.
pub fn carry_out(scheme: &Scheme, matrix: &mut Matrix, command: usize, ids: &[u16]) -> Answer {
    let mut steps = 0;
    let (number, test) = match carried_out(scheme, matrix, command, ids, &mut steps) {
        Ok(after) => {
            *matrix = after;
            (0, NO_TEST)
        }
        Err(refusal) => refusal,
    };
    Answer {
        number,
        test,
        steps,
    }
}

/// The matrix afterwards, or the number and the test's place. Steps are counted one by one, whatever ends the request: the other engine has them by
/// each number's rule, so that the two check each other.
fn carried_out(
    scheme: &Scheme,
    matrix: &Matrix,
    command: usize,
    ids: &[u16],
    steps: &mut u8,
) -> Result<Matrix, (u8, u8)> {
    let without_test = |number: u8| (number, NO_TEST);
    let Some(command) = scheme.commands.get(command) else {
        return Err(without_test(10));
    };
    if ids.len() != command.parameters.len() {
        return Err(without_test(11));
    }
    check_ids(matrix, command, ids).map_err(without_test)?;

    for (place, test) in command.tests.iter().enumerate() {
        *steps += 1;
        if !holds(matrix, test, ids) {
            return Err((14, place as u8));
        }
    }
    let mut after = matrix.clone();
    for operation in &command.operations {
        *steps += 1;
        operate(scheme, &mut after, command, operation, ids).map_err(without_test)?;
    }
    Ok(after)
}

/// 12, 13 or 18 for the first place at fault. What is on hold counts only where it isn't created: a create of it is 15 later.
fn check_ids(matrix: &Matrix, command: &Command, ids: &[u16]) -> Result<(), u8> {
    for (place, (&id, &kind)) in ids.iter().zip(&command.parameters).enumerate() {
        if id == 0 {
            return Err(12);
        }
        if !command.is_new(place as u8) {
            match matrix.type_of(id) {
                None => return Err(12),
                Some(found) if found != kind => return Err(13),
                Some(_) if matrix.is_held(id) => return Err(18),
                Some(_) => {}
            }
        }
    }
    Ok(())
}

fn holds(matrix: &Matrix, test: &Test, ids: &[u16]) -> bool {
    let [row, column] = [test.row, test.column].map(|place| ids[place as usize]);
    let set = matrix.cell(row, column).expect("a tested cell exists");
    let is_present = set >> test.right & 1 == 1;
    is_present == test.present
}

/// Changes the matrix as the operations before have left it; or 15 to 17 where that can't be done.
fn operate(
    scheme: &Scheme,
    after: &mut Matrix,
    command: &Command,
    operation: &Operation,
    ids: &[u16],
) -> Result<(), u8> {
    let id_of = |place: u8| ids[place as usize];
    match *operation {
        Operation::Enter { right, row, column } => {
            let (row, column) = (id_of(row), id_of(column));
            let set = after.cell(row, column).expect("an entered cell exists");
            after.set_cell(row, column, set | 1 << right);
        }
        Operation::Delete { right, row, column } => {
            let (row, column) = (id_of(row), id_of(column));
            let set = after.cell(row, column).expect("a deleted cell exists");
            after.set_cell(row, column, set & !(1 << right));
        }
        Operation::Create { parameter } => {
            let id = id_of(parameter);
            // Also of an id that no thing has: one that ever existed is never used again.
            if id <= after.highest() {
                return Err(15);
            }
            if after.things().len() == MOST_THINGS {
                return Err(16);
            }
            after.create(scheme, id, command.parameters[parameter as usize]);
        }
        Operation::Destroy { parameter } => {
            let id = id_of(parameter);
            if after.type_of(id).is_none() {
                return Err(17);
            }
            after.destroy(id);
        }
    }
    Ok(())
}
