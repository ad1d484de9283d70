//! Conversion to a scheme without absence tests: the checks 20, 21, 22, then the scheme and the matrix.

use crate::matrix::{all_rights, Matrix};
use crate::scheme::{Command, Operation, Scheme, Test};

pub const MOST_CONVERTED_RIGHTS: u8 = 32;
pub const MOST_CONVERTED_OPERATIONS: usize = 16;

/// 20, then 21, then 22, each over the whole scheme; 0 if it converts.
pub fn check(scheme: &Scheme) -> u8 {
    let creates_or_destroys = |operation: &Operation| {
        matches!(
            operation,
            Operation::Create { .. } | Operation::Destroy { .. }
        )
    };
    if scheme
        .commands
        .iter()
        .any(|command| command.operations.iter().any(creates_or_destroys))
    {
        return 20;
    }
    if scheme.rights > MOST_CONVERTED_RIGHTS {
        return 21;
    }
    if scheme
        .commands
        .iter()
        .any(|command| command.operations.len() > MOST_CONVERTED_OPERATIONS)
    {
        return 22;
    }
    0
}

pub fn convert_scheme(scheme: &Scheme) -> Result<Scheme, u8> {
    let number = check(scheme);
    if number != 0 {
        return Err(number);
    }
    let commands = scheme
        .commands
        .iter()
        .map(|command| convert_command(command, scheme.rights));
    Ok(Scheme {
        rights: 2 * scheme.rights,
        types: scheme.types,
        subjects: scheme.subjects,
        commands: commands.collect(),
    })
}

fn convert_command(command: &Command, n: u8) -> Command {
    let mut operations = Vec::new();
    for operation in &command.operations {
        match *operation {
            Operation::Enter { right, row, column } => {
                operations.push(Operation::Enter { right, row, column });
                operations.push(Operation::Delete {
                    right: right + n,
                    row,
                    column,
                });
            }
            Operation::Delete { right, row, column } => {
                operations.push(Operation::Delete { right, row, column });
                operations.push(Operation::Enter {
                    right: right + n,
                    row,
                    column,
                });
            }
            Operation::Create { .. } | Operation::Destroy { .. } => unreachable!("20 came before"),
        }
    }
    let tests = command.tests.iter().map(|test| match test.present {
        true => *test,
        false => Test {
            present: true,
            right: test.right + n,
            ..*test
        },
    });
    Command {
        parameters: command.parameters.clone(),
        tests: tests.collect(),
        operations,
    }
}

/// The matrix of the scheme before conversion; every existing cell gains the partner of each right it lacks. Things, their marks and the highest id stay.
pub fn convert_matrix(matrix: &Matrix, scheme: &Scheme) -> Result<Matrix, u8> {
    let number = check(scheme);
    if number != 0 {
        return Err(number);
    }
    let mut converted = matrix.clone();
    for (&(row, column), &rights) in matrix.cells() {
        let lacking = !rights & all_rights(scheme.rights);
        converted.set_cell(row, column, rights | lacking << scheme.rights);
    }
    Ok(converted)
}
