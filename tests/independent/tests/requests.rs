//! Requests where it matters which check comes first, on both engines.

mod common;

use common::{carries_out, key_scheme, Answered};
use independent::matrix::Matrix;
use independent::scheme::{read_scheme, write_scheme, Command, Operation, Scheme, Test};

const OWN: u8 = 0;

/// The key example's types and rights with one command, and a manager 1, keys 2 and 3, a robot 4: the answer, and the matrix afterwards.
fn gives(
    parameters: &[u8],
    tests: &[Test],
    operations: &[Operation],
    ids: &[u16],
) -> (Answered, Matrix) {
    let command = Command {
        parameters: parameters.to_vec(),
        tests: tests.to_vec(),
        operations: operations.to_vec(),
    };
    let scheme = Scheme {
        commands: vec![command],
        ..key_scheme()
    };
    assert!(read_scheme(&write_scheme(&scheme)).is_ok());
    let mut matrix = Matrix::new();
    for (id, kind) in [(1, 0), (2, 1), (3, 1), (4, 2)] {
        matrix.create(&scheme, id, kind);
    }
    let answer = carries_out(&scheme, &mut matrix, 0, ids);
    (answer, matrix)
}

fn create(parameter: u8) -> Operation {
    Operation::Create { parameter }
}

fn destroy(parameter: u8) -> Operation {
    Operation::Destroy { parameter }
}

fn enter(row: u8, column: u8) -> Operation {
    Operation::Enter {
        right: OWN,
        row,
        column,
    }
}

#[test]
fn places_from_the_first() {
    let operations = [enter(0, 0)];
    assert_eq!(gives(&[0, 1], &[], &operations, &[2, 0]).0, (13, 255, 0));
    assert_eq!(gives(&[0, 1], &[], &operations, &[0, 1]).0, (12, 255, 0));
    assert_eq!(gives(&[0, 1], &[], &operations, &[99, 1]).0, (12, 255, 0));
    assert_eq!(gives(&[0, 1], &[], &operations, &[1, 4]).0, (13, 255, 0));
    assert_eq!(gives(&[0, 1], &[], &operations, &[1, 2]).0, (0, 255, 1));
}

#[test]
fn new_parameters_are_checked_for_0_only_and_after_the_tests() {
    let absent = Test {
        present: false,
        right: OWN,
        row: 0,
        column: 0,
    };
    let present = Test {
        present: true,
        ..absent
    };
    assert_eq!(
        gives(&[0, 1], &[present], &[create(1)], &[1, 0]).0,
        (12, 255, 0)
    );
    assert_eq!(
        gives(&[0, 1], &[present], &[create(1)], &[1, 2]).0,
        (14, 0, 1)
    );
    assert_eq!(
        gives(&[0, 1], &[absent], &[create(1)], &[1, 2]).0,
        (15, 255, 2)
    );
    assert_eq!(
        gives(&[0, 1], &[absent], &[create(1)], &[1, 4]).0,
        (15, 255, 2)
    );
    assert_eq!(
        gives(&[0, 1], &[absent], &[create(1)], &[1, 5]).0,
        (0, 255, 2)
    );
    assert_eq!(
        gives(&[1, 1], &[], &[create(0), create(1)], &[5, 5]).0,
        (15, 255, 2)
    );
}

#[test]
fn tests_see_the_matrix_as_it_stood() {
    let absent = Test {
        present: false,
        right: OWN,
        row: 0,
        column: 1,
    };
    let (answer, after) = gives(&[1, 1], &[absent, absent], &[enter(0, 1)], &[2, 2]);
    assert_eq!((answer, after.cell(2, 2)), ((0, 255, 3), Some(1)));
}

#[test]
fn a_late_refusal_takes_everything_back() {
    let operations = [create(2), enter(0, 2), destroy(0), destroy(1)];
    assert_eq!(
        gives(&[1, 1, 0], &[], &operations, &[3, 3, 9]).0,
        (17, 255, 4)
    );
    let (answer, after) = gives(&[1, 1, 0], &[], &operations, &[3, 2, 9]);
    assert_eq!(answer, (0, 255, 4));
    let things: Vec<u16> = after.things().keys().copied().collect();
    assert_eq!(things, [1, 4, 9]);
    assert_eq!(after.entries(), 0);
}

#[test]
fn created_and_destroyed_at_once() {
    let operations = [create(0), enter(0, 0), destroy(0)];
    let (answer, after) = gives(&[0], &[], &operations, &[7]);
    assert_eq!((answer, after.type_of(7)), ((0, 255, 3), None));
    assert_eq!(gives(&[0], &[], &operations, &[1]).0, (15, 255, 1));
}

#[test]
fn a_robot_has_a_column_and_no_row() {
    let (answer, after) = gives(&[2], &[], &[create(0)], &[7]);
    assert_eq!(answer, (0, 255, 1));
    assert_eq!(
        (after.cell(7, 7), after.cell(7, 1), after.cell(1, 7)),
        (None, None, Some(0))
    );
    let (_, after) = gives(&[1], &[], &[create(0)], &[7]);
    assert_eq!(
        (after.cell(7, 7), after.cell(7, 4), after.cell(1, 7)),
        (Some(0), Some(0), Some(0))
    );
}
