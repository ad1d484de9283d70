//! Over generated cases: the two engines agree, no id is used again, reading gives back what was written, and conversion keeps every answer.

mod common;

use std::collections::BTreeSet;

use common::of_robot;
use independent::convert::{convert_matrix, convert_scheme};
use independent::engine::{carry_out, Dense};
use independent::generate::{
    case, marks, matrices, random::Random, requests, schemes, steps, stops,
};
use independent::matrix::{read_matrix, write_matrix, Matrix};
use independent::print::{play, MOST_INPUT};
use independent::request::{read_request, write_request, Next, Request};
use independent::scheme::{read_scheme, write_scheme, Scheme};

const SEED: u64 = 7;

/// A valid scheme, its matrix and requests for them.
fn valid(number: u64) -> (Scheme, Matrix, Vec<(u8, Vec<u16>)>) {
    let random = &mut Random::new(SEED, number);
    let mut scheme = schemes::scheme(random);
    let mut matrix = matrices::matrix(random, &scheme);
    marks::put(random, &mut matrix);
    let first = match number % 4 {
        0 => steps::steps(random, &mut scheme, &mut matrix),
        _ => stops::stops(random, &mut scheme, &matrix),
    };
    let bytes = requests::list(random, &scheme, &mut matrix.clone(), &first);
    let mut list: Vec<(u8, Vec<u16>)> = all(&bytes)
        .into_iter()
        .map(|request| (request.command, request.ids))
        .collect();
    list.extend(requests::direct(random, &scheme, &matrix));
    (scheme, matrix, list)
}

fn all(bytes: &[u8]) -> Vec<Request> {
    let mut requests = Vec::new();
    let mut at = 0;
    while let Next::Request { request, next } = read_request(bytes, at) {
        requests.push(request);
        at = next;
    }
    requests
}

#[test]
fn the_two_engines_agree() {
    let (mut carried, mut accepted) = (0, 0);
    for number in 0..2_000 {
        let (scheme, mut matrix, list) = valid(number);
        let mut dense = Dense::from_matrix(&matrix);
        assert_eq!(dense.to_matrix(&scheme), matrix);
        for (command, ids) in list {
            let before = matrix.clone();
            let answer = carry_out(&scheme, &mut matrix, command as usize, &ids);
            assert_eq!(
                dense.carry_out(&scheme, command as usize, &ids),
                answer,
                "case {number}"
            );
            assert_eq!(dense.to_matrix(&scheme), matrix, "case {number}");
            assert!(answer.number == 0 || matrix == before, "case {number}");
            carried += 1;
            accepted += usize::from(answer.number == 0);
        }
    }
    assert!(
        carried > 10_000 && accepted > 3_000,
        "{carried} requests, {accepted} accepted"
    );
}

/// Whatever a list does: what is new has an id that no thing ever had, and the highest id falls below none of those.
#[test]
fn an_id_is_never_used_again() {
    let (mut created, mut again) = (0, 0);
    for number in 0..2_000 {
        let (scheme, mut matrix, list) = valid(number);
        let mut ever: BTreeSet<u16> = matrix.things().keys().copied().collect();
        for (command, ids) in list {
            let before = matrix.clone();
            let answer = carry_out(&scheme, &mut matrix, command as usize, &ids);
            for &id in matrix.things().keys() {
                if before.type_of(id).is_none() {
                    assert!(id > before.highest() && ever.insert(id), "case {number}");
                    created += 1;
                }
            }
            assert!(matrix.highest() >= before.highest(), "case {number}");
            assert!(ever.last() <= Some(&matrix.highest()), "case {number}");
            let is_gone = |id| ever.contains(id) && matrix.type_of(*id).is_none();
            again += usize::from(answer.number == 15 && ids.iter().any(is_gone));
        }
    }
    assert!(
        created > 1_000 && again > 100,
        "{created} created, {again} refused that were gone"
    );
}

/// Whatever a list does: marks stay as they are, what is new has none, and what is on hold stays with all its rights but those in things that are gone.
#[test]
fn requests_change_no_mark() {
    let (mut refused, mut beside) = (0, 0);
    for number in 0..2_000 {
        let (scheme, mut matrix, list) = valid(number);
        let held = matrix.on_hold().clone();
        for (command, ids) in list {
            let before = matrix.clone();
            let answer = carry_out(&scheme, &mut matrix, command as usize, &ids);
            assert_eq!(*matrix.on_hold(), held, "case {number}");
            let of_held = |(row, column): (u16, u16)| held.contains(&row) || held.contains(&column);
            for (&place, &rights) in before.cells().iter().filter(|(&place, _)| of_held(place)) {
                let (row, column) = place;
                let is_gone = [row, column].map(|id| matrix.type_of(id).is_none());
                let stays = matrix.cell(row, column) == Some(rights);
                assert!(stays || is_gone != [false; 2], "case {number}");
            }
            refused += usize::from(answer.number == 18);
            beside += usize::from(answer.number == 0 && !held.is_empty());
        }
    }
    assert!(
        refused > 1_000 && beside > 1_000,
        "{refused} refused with 18, {beside} carried out beside things on hold"
    );
}

#[test]
fn a_matrix_stays_one_that_can_be_written_and_read() {
    for number in 0..500 {
        let (scheme, mut matrix, list) = valid(number);
        for (command, ids) in list {
            carry_out(&scheme, &mut matrix, command as usize, &ids);
            assert_eq!(
                read_matrix(&write_matrix(&matrix, &scheme), &scheme).as_ref(),
                Ok(&matrix)
            );
        }
    }
}

#[test]
fn reading_what_was_written_gives_the_same() {
    for number in 0..5_000 {
        let (scheme, matrix, list) = valid(number);
        let bytes = write_scheme(&scheme);
        let length = bytes.len();
        assert_eq!(read_scheme(&bytes), Ok((scheme.clone(), length)));
        assert_eq!(
            read_matrix(&write_matrix(&matrix, &scheme), &scheme),
            Ok(matrix)
        );
        for (command, ids) in list {
            if let Ok(bytes) = write_request(command, &ids) {
                let (request, next) = (Request { command, ids }, bytes.len());
                assert_eq!(read_request(&bytes, 0), Next::Request { request, next });
            }
        }
    }
}

#[test]
fn each_content_has_one_encoding() {
    for number in 0..10_000 {
        let case = case(SEED, number);
        if let Ok((scheme, next)) = read_scheme(&case.scheme) {
            assert_eq!(next, case.scheme.len());
            assert_eq!(write_scheme(&scheme), case.scheme, "case {number}");
            if let Ok(matrix) = read_matrix(&case.matrix, &scheme) {
                assert_eq!(write_matrix(&matrix, &scheme), case.matrix, "case {number}");
            }
        }
        let mut at = 0;
        while let Next::Request { request, next } = read_request(&case.requests, at) {
            let bytes = write_request(request.command, &request.ids).unwrap();
            assert_eq!(bytes, case.requests[at..next], "case {number}");
            at = next;
        }
    }
}

#[test]
fn conversion_keeps_every_answer() {
    let mut converted = 0;
    for number in 0..4_000 {
        let (scheme, mut matrix, list) = valid(number);
        let Ok(new_scheme) = convert_scheme(&scheme) else {
            continue;
        };
        converted += 1;
        assert!(new_scheme
            .commands
            .iter()
            .all(|command| command.tests.iter().all(|test| test.present)));
        assert_eq!(
            read_scheme(&write_scheme(&new_scheme))
                .map(|answer| answer.0)
                .as_ref(),
            Ok(&new_scheme)
        );
        let mut new_matrix = convert_matrix(&matrix, &scheme).unwrap();
        for (command, ids) in list {
            let answer = carry_out(&scheme, &mut matrix, command as usize, &ids);
            let new_answer = carry_out(&new_scheme, &mut new_matrix, command as usize, &ids);
            let wanted = of_robot(&scheme, command as usize, answer);
            assert_eq!(new_answer, wanted, "case {number}");
            assert_eq!(
                convert_matrix(&matrix, &scheme).as_ref(),
                Ok(&new_matrix),
                "case {number}"
            );
        }
    }
    assert!(converted > 500, "{converted}");
}

/// It never carries out what the office refuses. Where it stops, the office stops at the same test or a later one, or carries the request out.
#[test]
fn a_robot_that_lacks_entries_stops_no_later() {
    let (mut earlier, mut alone) = (0, 0);
    for number in 0..4_000 {
        let (scheme, matrix, list) = valid(number);
        let Ok(new_scheme) = convert_scheme(&scheme) else {
            continue;
        };
        let complete = convert_matrix(&matrix, &scheme).unwrap();
        let poorer = lacking(&mut Random::new(SEED + 1, number), &complete);
        for (command, ids) in list {
            let office = carry_out(&scheme, &mut matrix.clone(), command as usize, &ids);
            let robot = carry_out(&new_scheme, &mut poorer.clone(), command as usize, &ids);
            match (office.number, robot.number) {
                (14, 14) if robot.test < office.test => earlier += 1,
                (0, 14) => alone += 1,
                _ => {
                    let complete = of_robot(&scheme, command as usize, office);
                    assert_eq!(robot, complete, "case {number}");
                }
            }
        }
    }
    assert!(
        earlier > 100 && alone > 100,
        "{earlier} stopped earlier, {alone} that the office carries out"
    );
}

/// A quarter of all entries is gone.
fn lacking(random: &mut Random, matrix: &Matrix) -> Matrix {
    let mut poorer = matrix.clone();
    for (&(row, column), &rights) in matrix.cells() {
        poorer.set_cell(row, column, rights & (random.draw() | random.draw()));
    }
    poorer
}

#[test]
fn the_printout_has_one_line_a_request() {
    for number in 0..2_000 {
        let case = case(SEED, number);
        let text = play(&case.scheme, &case.matrix, &case.requests);
        assert!(text.ends_with('\n'));
        let lines: Vec<&str> = text.lines().collect();
        if lines[0].starts_with("bad ") {
            assert_eq!(lines.len(), 1);
        } else {
            let cut = &case.requests[..case.requests.len().min(MOST_INPUT)];
            let bad = lines.iter().filter(|line| line.starts_with("bad ")).count();
            assert_eq!(lines.len(), 2 + bad + all(cut).len());
            assert!(lines[lines.len() - 1].starts_with("end "));
        }
    }
}
