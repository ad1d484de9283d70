//! Which test stops a request: the first in the command's own order that doesn't hold, on both engines and on a robot.

mod common;

use common::carries_out;
use independent::answer::{list_bytes, Answer};
use independent::convert::{convert_matrix, convert_scheme};
use independent::matrix::Matrix;
use independent::scheme::{read_scheme, write_scheme, Command, Operation, Scheme, Test};

/// A subject type, and a command of two parameters with these tests.
fn scheme(tests: Vec<Test>) -> Scheme {
    let (right, row, column) = (16, 0, 1);
    let command = Command {
        parameters: vec![0, 0],
        tests,
        operations: vec![Operation::Enter { right, row, column }],
    };
    let scheme = Scheme {
        rights: 17,
        types: 1,
        subjects: 1,
        commands: vec![command],
    };
    assert!(read_scheme(&write_scheme(&scheme)).is_ok());
    scheme
}

/// Each has a right of its own, so that each can be false alone; they are on four cells, and of both senses in each.
fn sixteen_tests() -> Vec<Test> {
    let test = |place: u8| Test {
        present: place % 3 < 2,
        right: 15 - place,
        row: place % 2,
        column: place / 2 % 2,
    };
    (0..16).map(test).collect()
}

/// The number and the test's place for things 1 and 2, where just these of its tests don't hold; the robot answers the same.
fn answer(is_false: impl Fn(u8) -> bool) -> (u8, u8) {
    let scheme = scheme(sixteen_tests());
    let mut office = Matrix::new();
    office.create(&scheme, 1, 0);
    office.create(&scheme, 2, 0);
    for (place, test) in (0..).zip(sixteen_tests()) {
        let [row, column] = [test.row, test.column].map(|parameter| 1 + u16::from(parameter));
        if test.present != is_false(place) {
            let set = office.cell(row, column).unwrap();
            office.set_cell(row, column, set | 1 << test.right);
        }
    }
    answer_of_both(&scheme, &office)
}

fn answer_of_both(scheme: &Scheme, office: &Matrix) -> (u8, u8) {
    let robot_scheme = convert_scheme(scheme).unwrap();
    let mut robot = convert_matrix(office, scheme).unwrap();
    let (number, test, _) = carries_out(scheme, &mut office.clone(), 0, &[1, 2]);
    let (robot_number, robot_test, _) = carries_out(&robot_scheme, &mut robot, 0, &[1, 2]);
    assert_eq!((robot_number, robot_test), (number, test));
    (number, test)
}

#[test]
fn each_test_can_stop_a_request() {
    for place in 0..16 {
        assert_eq!(answer(|test| test == place), (14, place));
    }
    assert_eq!(answer(|_| false), (0, 255));
}

#[test]
fn the_first_false_test_counts_and_not_the_last() {
    for place in 0..16 {
        assert_eq!(answer(|test| test >= place), (14, place));
        for last in place + 1..16 {
            let is_false = |test| test == place || test == last;
            assert_eq!(answer(is_false), (14, place));
        }
    }
}

/// Tests that are equal keep their places: they are counted as they are written.
#[test]
fn a_test_written_twice_counts_twice() {
    let test = |present| Test {
        present,
        right: 0,
        row: 1,
        column: 0,
    };
    let scheme = scheme(vec![test(true), test(true), test(false), test(false)]);
    let mut matrix = Matrix::new();
    matrix.create(&scheme, 1, 0);
    matrix.create(&scheme, 2, 0);
    assert_eq!(answer_of_both(&scheme, &matrix), (14, 0));
    matrix.set_cell(2, 1, 1);
    assert_eq!(answer_of_both(&scheme, &matrix), (14, 2));
}

#[test]
fn an_answer_is_three_bytes() {
    let command = &scheme(sixteen_tests()).commands[0];
    let answers = [
        Answer::carried_out(command),
        Answer::stopped_by(1),
        Answer::at_operation(17, command, 0),
        Answer::before_tests(27),
    ];
    let bytes = [0, 255, 17, 14, 1, 2, 17, 255, 17, 27, 255, 0];
    assert_eq!(list_bytes(&answers), bytes);
    assert_eq!(Answer::BYTES, 3);
}
