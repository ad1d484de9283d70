//! A thing put on hold takes part in nothing and keeps its rights: the order of checks, on both engines, what changes marks and what doesn't, and that
//! office and robot have the same.

mod common;

use std::collections::BTreeSet;

use common::*;
use independent::convert::{convert_matrix, convert_scheme};
use independent::generate::{case, random::Random, requests};
use independent::hold::mark;
use independent::matrix::{read_matrix, write_matrix, Matrix, MOST_THINGS};
use independent::request::{read_request, Next};
use independent::scheme::{read_scheme, write_scheme, Command, Operation, Scheme, Test};
use independent::Refusal;

const NO_THING: Refusal = Refusal { number: 12, at: 0 };

/// The key example with these things on hold.
fn key_with(held: &[u16]) -> Matrix {
    let mut matrix = key_matrix();
    for &id in held {
        matrix.set_held(id, true);
    }
    matrix
}

/// The number alone: 18 has no test and no steps, as 12 and 13 haven't. What is refused changes nothing, by `carries_out`.
fn gives(held: &[u16], command: usize, ids: &[u16]) -> u8 {
    let (number, test, steps) = carries_out(&key_scheme(), &mut key_with(held), command, ids);
    if matches!(number, 10..=13 | 18) {
        assert_eq!((test, steps), (255, 0));
    }
    number
}

#[test]
fn at_a_place_18_comes_after_12_and_13() {
    assert_eq!(gives(&[], LOAD, &[9, 12]), 0);
    assert_eq!(gives(&[9], LOAD, &[9, 12]), 18);
    assert_eq!(gives(&[12], LOAD, &[9, 12]), 18);
    assert_eq!(gives(&[5], LOAD, &[9, 12]), 0);
    // 12 on hold is a robot, where a manager or a key must stand.
    assert_eq!(gives(&[12], RETIRE, &[12, 9]), 13);
    assert_eq!(gives(&[12], RETIRE, &[5, 12]), 13);
    for id in [0, 8, 10, 65_535] {
        assert_eq!(gives(&[5, 9, 12], LOAD, &[id, 12]), 12);
    }
}

#[test]
fn the_first_place_at_fault_decides() {
    assert_eq!(gives(&[9], LOAD, &[9, 0]), 18);
    assert_eq!(gives(&[9], LOAD, &[9, 8]), 18);
    assert_eq!(gives(&[9], LOAD, &[9, 5]), 18);
    assert_eq!(gives(&[12], LOAD, &[0, 12]), 12);
    assert_eq!(gives(&[12], LOAD, &[8, 12]), 12);
    assert_eq!(gives(&[12], LOAD, &[5, 12]), 13);
    assert_eq!(gives(&[5, 9, 12], RETIRE, &[5, 0]), 18);
}

#[test]
fn the_command_and_the_count_come_first() {
    assert_eq!(gives(&[5, 9, 12], 2, &[9, 12]), 10);
    assert_eq!(gives(&[5, 9, 12], LOAD, &[9]), 11);
    assert_eq!(gives(&[5, 9, 12], LOAD, &[9, 12, 12]), 11);
    assert_eq!(gives(&[5, 9, 12], LOAD, &[9; 9]), 11);
}

#[test]
fn tests_come_later() {
    let mut matrix = key_with(&[9]);
    matrix.set_cell(9, 12, 0);
    let answer = carries_out(&key_scheme(), &mut matrix, LOAD, &[9, 12]);
    assert_eq!(answer, (18, 255, 0));
    matrix.set_held(9, false);
    let answer = carries_out(&key_scheme(), &mut matrix, LOAD, &[9, 12]);
    assert_eq!(answer, (14, 0, 1));
}

/// A command of eight managers that enters a right in the cell of the last; managers 1 to 8, keys 9 and 10.
fn eight() -> (Scheme, Matrix) {
    let enter = Operation::Enter {
        right: 0,
        row: 7,
        column: 7,
    };
    let scheme = Scheme {
        commands: vec![Command {
            parameters: vec![0; 8],
            tests: Vec::new(),
            operations: vec![enter],
        }],
        ..key_scheme()
    };
    let mut matrix = Matrix::new();
    for id in 1..=10 {
        matrix.create(&scheme, id, u8::from(id > 8));
    }
    (scheme, matrix)
}

/// Whatever stands at the places behind.
#[test]
fn at_every_place() {
    let (scheme, matrix) = eight();
    let ids: Vec<u16> = (1..=8).collect();
    for place in 0..8 {
        let mut matrix = matrix.clone();
        let answer = carries_out(&scheme, &mut matrix.clone(), 0, &ids);
        assert_eq!(answer, (0, 255, 1));
        matrix.set_held(ids[place], true);
        let mut gives = |ids: &[u16]| carries_out(&scheme, &mut matrix, 0, ids).0;
        assert_eq!(gives(&ids), 18);
        assert_eq!(gives(&[ids[place]; 8]), 18);
        for (wrong, number) in [(0, 12), (11, 12), (9, 13)] {
            for other in 0..8 {
                let mut ids = ids.clone();
                ids[other] = wrong;
                let first = if other > place { 18 } else { number };
                assert_eq!(gives(&ids), first, "{wrong} at {other}, held at {place}");
            }
        }
    }
}

/// Tests and an operation of a command of three parameters: the first two are a row and a column, or one is destroyed, or neither is named.
fn bodies() -> [(Vec<Test>, Operation); 6] {
    let (row, column, right) = (0, 1, 1);
    let present = true;
    let test = Test {
        present,
        right,
        row,
        column,
    };
    let enter = Operation::Enter { right, row, column };
    let delete = Operation::Delete { right, row, column };
    let destroy = |parameter| Operation::Destroy { parameter };
    let elsewhere = Operation::Enter {
        right,
        row: 2,
        column: 2,
    };
    [
        (vec![test], elsewhere),
        (vec![], enter),
        (vec![], delete),
        (vec![], destroy(0)),
        (vec![], destroy(1)),
        (vec![], elsewhere),
    ]
}

/// Whether a test or an operation names it, and as what, or none does.
#[test]
fn in_every_role() {
    for (tests, operation) in bodies() {
        let scheme = Scheme {
            commands: vec![Command {
                parameters: vec![1, 2, 0],
                tests,
                operations: vec![operation],
            }],
            ..key_scheme()
        };
        assert!(read_scheme(&write_scheme(&scheme)).is_ok());
        let number = |held: &[u16]| carries_out(&scheme, &mut key_with(held), 0, &[9, 12, 5]).0;
        assert_eq!(number(&[]), 0);
        for held in [&[9][..], &[12], &[5], &[9, 12], &[5, 9, 12]] {
            assert_eq!(number(held), 18, "{held:?}: {operation:?}");
        }
    }
}

/// Keys: the first parameter is created, the second is entered for, the third destroyed.
fn maker() -> Scheme {
    let enter = Operation::Enter {
        right: 0,
        row: 0,
        column: 1,
    };
    let (create, destroy) = (
        Operation::Create { parameter: 0 },
        Operation::Destroy { parameter: 2 },
    );
    Scheme {
        commands: vec![Command {
            parameters: vec![1, 1, 1],
            tests: Vec::new(),
            operations: vec![create, enter, destroy],
        }],
        ..key_scheme()
    }
}

fn keys(count: u16, held: &[u16]) -> Matrix {
    let scheme = maker();
    let mut matrix = Matrix::new();
    for id in 1..=count {
        matrix.create(&scheme, id, 1);
        matrix.set_held(id, held.contains(&id));
    }
    matrix
}

#[test]
fn a_new_parameter_may_name_it() {
    let scheme = maker();
    let gives = |count: u16, held: &[u16], ids: [u16; 3]| {
        carries_out(&scheme, &mut keys(count, held), 0, &ids)
    };
    assert_eq!(gives(3, &[1], [1, 2, 3]), (15, 255, 1));
    assert_eq!(gives(3, &[], [1, 2, 3]), (15, 255, 1));
    assert_eq!(gives(3, &[1], [4, 2, 3]), (0, 255, 3));
    assert_eq!(gives(3, &[1], [0, 2, 3]), (12, 255, 0));
    // What is named as new and as old is refused for the old one.
    assert_eq!(gives(3, &[1], [1, 1, 3]), (18, 255, 0));
    assert_eq!(gives(3, &[3], [4, 2, 3]), (18, 255, 0));
    // Before 16 too; and things on hold count among the 48.
    let most = MOST_THINGS as u16;
    assert_eq!(gives(most, &[2], [most + 1, 2, 3]), (18, 255, 0));
    assert_eq!(gives(most, &[4], [most + 1, 2, 3]), (16, 255, 1));
    assert_eq!(gives(most, &[4], [4, 2, 3]), (15, 255, 1));
}

/// A created thing isn't on hold, and the marks of the others stay.
#[test]
fn requests_change_no_mark() {
    let mut matrix = keys(5, &[1, 4]);
    assert_eq!(carries_out(&maker(), &mut matrix, 0, &[6, 2, 3]).0, 0);
    assert_eq!(*matrix.on_hold(), BTreeSet::from([1, 4]));
    assert_eq!(matrix.things().len(), 5);
    let marked = mark(&matrix, 6, true).unwrap();
    assert_eq!(*marked.on_hold(), BTreeSet::from([1, 4, 6]));
}

#[test]
fn the_technician_keeps_its_rights() {
    let scheme = key_scheme();
    let mut matrix = mark(&key_matrix(), 9, true).unwrap();
    let before = matrix.clone();
    for (command, ids) in [(LOAD, [9, 12]), (RETIRE, [5, 9])] {
        let answer = carries_out(&scheme, &mut matrix, command, &ids);
        assert_eq!(answer, (18, 255, 0));
    }
    assert_eq!(matrix, before);
    assert_eq!((matrix.cell(5, 9), matrix.cell(9, 12)), (Some(1), Some(2)));
    matrix = mark(&matrix, 9, false).unwrap();
    assert_eq!(matrix, key_matrix());
    assert_eq!(carries_out(&scheme, &mut matrix, LOAD, &[9, 12]).0, 0);
}

#[test]
fn marks_are_set_and_cleared_by_id() {
    let matrix = key_matrix();
    for id in [5, 9, 12] {
        let held = mark(&matrix, id, true).unwrap();
        assert_eq!(*held.on_hold(), BTreeSet::from([id]));
        assert_eq!(mark(&held, id, true), Ok(held.clone()));
        assert_eq!(mark(&held, id, false), Ok(matrix.clone()));
        assert_eq!(mark(&matrix, id, false), Ok(matrix.clone()));
        assert_ne!(held, matrix);
    }
    for id in [0, 1, 8, 10, 13, 256 + 9, 65_535] {
        for held in [false, true] {
            assert_eq!(mark(&matrix, id, held), Err(NO_THING));
            assert_eq!(mark(&Matrix::new(), id, held), Err(NO_THING));
        }
    }
    // All at once, and one after the other back.
    let mut all = key_with(&[5, 9, 12]);
    assert_eq!(all.on_hold().len(), 3);
    for id in [9, 5, 12] {
        all = mark(&all, id, false).unwrap();
    }
    assert_eq!(all, matrix);
}

/// An id that is gone is none: neither of what was destroyed nor of what never was.
#[test]
fn what_is_gone_has_no_mark() {
    let mut matrix = keys(5, &[1]);
    assert_eq!(carries_out(&maker(), &mut matrix, 0, &[6, 2, 3]).0, 0);
    for id in [3, 7] {
        assert!(!matrix.is_held(id));
        assert_eq!(mark(&matrix, id, true), Err(NO_THING));
    }
    let mut held = keys(2, &[1, 2]);
    held.destroy(2);
    assert_eq!(*held.on_hold(), BTreeSet::from([1]));
    held.create(&maker(), 3, 1);
    assert_eq!(*held.on_hold(), BTreeSet::from([1]));
}

#[test]
fn office_and_robot_have_the_same_marks() {
    let scheme = key_scheme();
    let robot_scheme = convert_scheme(&scheme).unwrap();
    for held in [&[][..], &[5], &[9], &[12], &[5, 12], &[5, 9, 12]] {
        let mut office = key_with(held);
        let mut robot = convert_matrix(&office, &scheme).unwrap();
        assert_eq!(robot.on_hold(), office.on_hold());
        // Marked before or after conversion.
        let plain = convert_matrix(&key_matrix(), &scheme).unwrap();
        let marked = held.iter().fold(plain, |robot, &id| {
            mark(&robot, id, true).expect("it has the same things")
        });
        assert_eq!(marked, robot);
        for (command, ids) in [(LOAD, [9, 12]), (RETIRE, [5, 9]), (LOAD, [9, 12])] {
            let (number, test, _) = carries_out(&scheme, &mut office, command, &ids);
            let (same, place, _) = carries_out(&robot_scheme, &mut robot, command, &ids);
            assert_eq!((number, test), (same, place));
            assert_eq!(convert_matrix(&office, &scheme).as_ref(), Ok(&robot));
        }
    }
}

/// On generated matrices: both ways give the bytes back, and what differs is one kind.
#[test]
fn hold_then_release_gives_the_same_bytes() {
    let mut marked = 0;
    for number in 0..2_000 {
        let case = case(5, number);
        let Ok((scheme, _)) = read_scheme(&case.scheme) else {
            continue;
        };
        let Ok(matrix) = read_matrix(&case.matrix, &scheme) else {
            continue;
        };
        for &(id, held) in &case.marks {
            let Ok(other) = mark(&matrix, id, held) else {
                assert_eq!(matrix.type_of(id), None);
                continue;
            };
            let bytes = write_matrix(&other, &scheme);
            assert_eq!(read_matrix(&bytes, &scheme).as_ref(), Ok(&other));
            let differs = bytes.iter().zip(&case.matrix).filter(|(a, b)| a != b);
            assert_eq!(bytes.len(), case.matrix.len());
            assert_eq!(differs.count(), usize::from(matrix.is_held(id) != held));
            let back = mark(&other, id, matrix.is_held(id)).unwrap();
            assert_eq!(write_matrix(&back, &scheme), case.matrix);
            marked += usize::from(matrix.is_held(id) != held);
        }
    }
    assert!(marked > 500, "{marked}");
}

/// Whatever is asked of a matrix whose things are all on hold: nothing happens to them or between them.
#[test]
fn what_is_all_on_hold_stays_as_it_is() {
    let (mut refused, mut created) = (0, 0);
    for number in 0..1_000 {
        let case = case(6, number);
        let Ok((scheme, _)) = read_scheme(&case.scheme) else {
            continue;
        };
        let Ok(mut matrix) = read_matrix(&case.matrix, &scheme) else {
            continue;
        };
        let things: Vec<u16> = matrix.things().keys().copied().collect();
        for &id in &things {
            matrix.set_held(id, true);
        }
        let start = matrix.clone();
        let random = &mut Random::new(6, number);
        let list = requests::list(random, &scheme, &mut matrix.clone(), &[]);
        let mut at = 0;
        while let Next::Request { request, next } = read_request(&list, at) {
            let command = usize::from(request.command);
            let (answer, ..) = carries_out(&scheme, &mut matrix, command, &request.ids);
            refused += usize::from(answer == 18);
            at = next;
        }
        let stays = |&&id: &&u16| matrix.type_of(id) == start.type_of(id) && matrix.is_held(id);
        assert_eq!(things.iter().filter(stays).count(), things.len());
        for (&(row, column), rights) in start.cells() {
            assert_eq!(matrix.cell(row, column).as_ref(), Some(rights));
        }
        assert_eq!(matrix.on_hold(), start.on_hold());
        created += matrix.things().len() - things.len();
    }
    assert!(refused > 1_000 && created > 100, "{refused}, {created}");
}
