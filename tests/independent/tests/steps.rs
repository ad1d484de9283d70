//! How many steps each answer counts, on both engines and on a robot: tests up to the false one, then operations up to the faulty one, or all.

mod common;

use common::{carries_out, Answered};
use independent::answer::MOST_STEPS;
use independent::convert::{convert_matrix, convert_scheme};
use independent::matrix::{Matrix, MOST_THINGS};
use independent::scheme::{read_scheme, write_scheme, Command, Operation, Scheme, Test};

/// The last parameter of the eight, whose thing is 1 wherever there are tests.
const TESTED: u8 = 7;

/// Of two types the first is a subject; one command, of eight subjects.
fn scheme(tests: Vec<Test>, operations: Vec<Operation>) -> Scheme {
    let command = Command {
        parameters: vec![0; 8],
        tests,
        operations,
    };
    let scheme = Scheme {
        rights: 32,
        types: 2,
        subjects: 1,
        commands: vec![command],
    };
    assert!(read_scheme(&write_scheme(&scheme)).is_ok());
    scheme
}

/// Each of a right of its own, by turns for presence and absence.
fn tests(count: u8) -> Vec<Test> {
    let test = |right: u8| Test {
        present: right & 1 == 0,
        right,
        row: TESTED,
        column: TESTED,
    };
    (0..count).map(test).collect()
}

fn enters(count: u8) -> Vec<Operation> {
    let (row, column) = (TESTED, TESTED);
    let enter = |place: u8| Operation::Enter {
        right: 16 + place % 16,
        row,
        column,
    };
    (0..count).map(enter).collect()
}

fn creates(count: u8) -> Vec<Operation> {
    let create = |parameter| Operation::Create { parameter };
    (0..count).map(create).collect()
}

fn destroys(count: u8) -> Vec<Operation> {
    let destroy = |parameter| Operation::Destroy { parameter };
    (0..count).map(destroy).collect()
}

/// Subjects 1 to a count; all tests hold for thing 1, but for those that are to be false.
fn matrix(scheme: &Scheme, count: usize, is_false: impl Fn(u8) -> bool) -> Matrix {
    let mut matrix = Matrix::new();
    for id in 1..=count as u16 {
        matrix.create(scheme, id, 0);
    }
    let rights = (0..16).filter(|right| (right % 2 == 0) != is_false(*right));
    matrix.set_cell(1, 1, rights.fold(0, |set, right| set | 1 << right));
    matrix
}

/// On things of which all tests hold.
fn answer(scheme: &Scheme, things: usize, ids: &[u16]) -> Answered {
    let matrix = &mut matrix(scheme, things, |_| false);
    carries_out(scheme, matrix, 0, ids)
}

const IDS: [u16; 8] = [8, 7, 6, 5, 4, 3, 2, 1];

#[test]
fn before_the_tests_there_are_none() {
    for (count, operations) in [(0, 1), (1, 1), (16, 32)] {
        let scheme = scheme(tests(count), enters(operations));
        let mut matrix = matrix(&scheme, 9, |_| false);
        matrix.create(&scheme, 20, 1);
        let mut gives = |command, ids: &[u16], number| {
            let answer = carries_out(&scheme, &mut matrix, command, ids);
            assert_eq!(answer, (number, 255, 0));
        };
        gives(1, &IDS, 10);
        gives(0, &IDS[1..], 11);
        gives(0, &[1; 9], 11);
        gives(0, &[0, 7, 6, 5, 4, 3, 2, 1], 12);
        gives(0, &[8, 7, 6, 5, 4, 3, 2, 10], 12);
        gives(0, &[20, 7, 6, 5, 4, 3, 2, 1], 13);
        gives(0, &[8, 7, 6, 5, 4, 3, 2, 20], 13);
    }
}

/// Neither the tests behind it, whether they hold or not, nor the operations.
#[test]
fn nothing_behind_the_false_test_counts() {
    for place in 0..16 {
        for (count, operations) in [(place + 1, 1), (16, 1), (16, 32)] {
            let scheme = scheme(tests(count), enters(operations));
            let alone = &mut matrix(&scheme, 8, |test| test == place);
            let first = &mut matrix(&scheme, 8, |test| test >= place);
            for matrix in [alone, first] {
                let answer = carries_out(&scheme, matrix, 0, &IDS);
                assert_eq!(answer, (14, place, place + 1));
            }
        }
    }
}

/// New ids for the parameters that are created, and thing 1 for all others.
fn new_ids(created: u8) -> [u16; 8] {
    let id = |parameter: usize| match parameter < created.into() {
        true => 101 + parameter as u16,
        false => 1,
    };
    std::array::from_fn(id)
}

/// A create has only creates before it: with tests none is behind the seventh place, and without them none behind the eighth.
#[test]
fn a_faulty_create_counts_and_nothing_behind_it() {
    for count in [0, 1, 16] {
        let most = if count == 0 { 8 } else { 7 };
        let pairs = (1..=most).flat_map(|created| (0..created).map(move |place| (created, place)));
        for (created, place) in pairs {
            for behind in [0, 1, 32 - created] {
                let operations = [creates(created), enters(behind)].concat();
                let scheme = scheme(tests(count), operations);
                let steps = count + place + 1;
                let mut used = new_ids(created);
                used[usize::from(place)] = 2;
                assert_eq!(answer(&scheme, 2, &used), (15, 255, steps));
                let things = MOST_THINGS - usize::from(place);
                let full = answer(&scheme, things, &new_ids(created));
                assert_eq!(full, (16, 255, steps));
            }
        }
    }
}

/// The first destroy finds its thing always, whatever is the same.
#[test]
fn a_faulty_destroy_counts_and_nothing_behind_it() {
    for count in [0, 1, 16] {
        for enters_before in [0, 1, 24] {
            let operations = [enters(enters_before), destroys(8)].concat();
            let scheme = scheme(tests(count), operations);
            for place in 1..8 {
                let mut ids = IDS;
                ids[0] = ids[usize::from(place)];
                let steps = count + enters_before + place + 1;
                assert_eq!(answer(&scheme, 8, &ids), (17, 255, steps));
            }
            let all = (0, 255, count + enters_before + 8);
            assert_eq!(answer(&scheme, 8, &IDS), all);
        }
    }
}

/// The most is reached by what is carried out, and by what the last operation refuses.
#[test]
fn all_count_up_to_48() {
    let mut most = 0;
    for count in 0..=16 {
        for operations in 1..=32 {
            let scheme = scheme(tests(count), enters(operations));
            let answer = answer(&scheme, 8, &IDS);
            assert_eq!(answer, (0, 255, count + operations));
            most = most.max(answer.2);
        }
    }
    assert_eq!((most, MOST_STEPS), (48, 48));

    let scheme = scheme(tests(16), [enters(24), destroys(8)].concat());
    let gone = [1, 7, 6, 5, 4, 3, 2, 1];
    assert_eq!(answer(&scheme, 8, &gone), (17, 255, 48));
}

/// The same tests; of what is carried out exactly twice the operations.
#[test]
fn a_robot_takes_the_tests_and_twice_the_operations() {
    for count in 0..=16 {
        for operations in 1..=16 {
            let scheme = scheme(tests(count), enters(operations));
            let robot_scheme = convert_scheme(&scheme).unwrap();
            // The place behind the last test is that of none.
            for place in 0..=count {
                let mut office = matrix(&scheme, 8, |test| test == place);
                let mut robot = convert_matrix(&office, &scheme).unwrap();
                let both = (
                    carries_out(&scheme, &mut office, 0, &IDS),
                    carries_out(&robot_scheme, &mut robot, 0, &IDS),
                );
                let wanted = match place == count {
                    true => (
                        (0, 255, count + operations),
                        (0, 255, count + 2 * operations),
                    ),
                    false => ((14, place, place + 1), (14, place, place + 1)),
                };
                assert_eq!(both, wanted);
            }
        }
    }
}

#[test]
fn a_robot_counts_nothing_before_the_tests() {
    let scheme = scheme(tests(16), enters(16));
    let mut office = matrix(&scheme, 8, |_| false);
    office.create(&scheme, 20, 1);
    let robot_scheme = convert_scheme(&scheme).unwrap();
    let mut robot = convert_matrix(&office, &scheme).unwrap();
    let mut gives = |command, ids: &[u16], number| {
        let answer = carries_out(&robot_scheme, &mut robot, command, ids);
        assert_eq!(answer, (number, 255, 0));
    };
    gives(1, &IDS, 10);
    gives(0, &IDS[1..], 11);
    gives(0, &[9; 8], 12);
    gives(0, &[20; 8], 13);
}
