//! The outline's key example through the wrapper: each function once with success and once refused.

use slushferret::{
    back, check_matrix, check_scheme, convert_matrix, convert_scheme, forward, highest_id, hold,
    release, run, version, write_request, Answer, Place, Refusal, ANSWER_BYTES, HIGHEST_LOST,
    ON_HOLD, VERSION,
};

const SCHEME: [u8; 47] = [
    5, 0, 1, 0, 4, 3, 3, 0, 2, 13, 0, 2, 0, 2, 0, 1, 1, 1, 0, 0, 1, 1, 1, 2, 1, 1, 17, 0, 2, 0, 2,
    1, 2, 2, 1, 1, 0, 1, 0, 2, 0, 0, 1, 1, 3, 0, 1,
];

/// Things 5, 9, 12, and never a higher id; cells [5, 9] = 1 and [9, 12] = 2.
const MATRIX: [u8; 61] = [
    4, 0, 7, 0, 4, 3, 12, 0, 3, 0, 4, 0, 5, 0, 0, 3, 0, 4, 0, 9, 0, 1, 3, 0, 4, 0, 12, 0, 2, 12, 0,
    5, 0, 5, 0, 9, 0, 1, 0, 0, 0, 0, 0, 0, 0, 12, 0, 5, 0, 9, 0, 12, 0, 2, 0, 0, 0, 0, 0, 0, 0,
];

const RETIRE: u8 = 0;
const LOAD: u8 = 1;

fn refusal(number: u8, place: Place, at: usize) -> Refusal {
    Refusal { number, place, at }
}

/// load, retire, load: 30 bytes.
fn requests() -> [u8; 30] {
    let mut bytes = [0; 30];
    let at = write_request(LOAD, &[9, 12], &mut bytes, 0).unwrap();
    let at = write_request(RETIRE, &[5, 9], &mut bytes, at).unwrap();
    assert_eq!(write_request(LOAD, &[9, 12], &mut bytes, at), Ok(30));
    bytes
}

#[test]
fn checks() {
    assert_eq!(check_scheme(&SCHEME), Ok(47));
    assert_eq!(check_matrix(&SCHEME, &MATRIX), Ok(61));
    assert_eq!(check_scheme(&[]), Err(refusal(1, Place::Scheme, 0)));
    let cut = check_scheme(&SCHEME[..46]);
    assert_eq!(cut, Err(refusal(1, Place::Scheme, 26)));
    let cut = check_matrix(&SCHEME, &MATRIX[..60]);
    assert_eq!(cut, Err(refusal(1, Place::Matrix, 45)));
}

#[test]
fn office_and_robot_answer_alike() {
    let (mut scheme, mut matrix) = ([0; 55], [0; 125]);
    assert_eq!(convert_scheme(&SCHEME, &mut scheme), Ok(55));
    assert_eq!(convert_matrix(&SCHEME, &MATRIX, &mut matrix), Ok(125));

    let (mut answers, mut after) = ([99; 3 * ANSWER_BYTES], [0; 125]);
    let office = run(&SCHEME, &MATRIX, &requests(), &mut answers, &mut after).unwrap();
    assert_eq!((office.answers, office.written), (3, 77));
    assert_eq!(answers, [0, 255, 3, 0, 255, 2, 14, 1, 2]);

    let mut answers = [99; 3 * ANSWER_BYTES];
    let robot = run(&scheme, &matrix, &requests(), &mut answers, &mut after).unwrap();
    assert_eq!((robot.answers, robot.written), (3, 125));
    // but for the steps: as many tests, and twice the operations
    assert_eq!(answers, [0, 255, 4, 0, 255, 3, 14, 1, 2]);
}

#[test]
fn answers_are_read_with_test_and_steps() {
    // one answer's room more than there are requests, and two odd bytes
    let (mut answers, mut after) = ([99; 4 * ANSWER_BYTES + 2], [0; 125]);
    let ran = run(&SCHEME, &MATRIX, &requests(), &mut answers, &mut after).unwrap();
    assert_eq!(answers[3 * ANSWER_BYTES..], [99; ANSWER_BYTES + 2]);
    let stored = [
        answer(0, None, 3),
        answer(0, None, 2),
        answer(14, Some(1), 2),
    ];
    assert!(ran.stored(&answers).eq(stored));
}

fn answer(number: u8, test: Option<u8>, steps: u8) -> Answer {
    Answer {
        number,
        test,
        steps,
    }
}

#[test]
fn a_list_may_end_with_a_bad_record() {
    let (mut answers, mut after) = ([99; 3 * ANSWER_BYTES], [0; 125]);
    let list = &requests()[..25];
    let ran = run(&SCHEME, &MATRIX, list, &mut answers, &mut after).unwrap();
    assert_eq!(
        (ran.answers, answers),
        (2, [0, 255, 3, 0, 255, 2, 99, 99, 99])
    );
    assert_eq!(ran.ended_by, Some(refusal(1, Place::Requests, 20)));
}

#[test]
fn refused_calls_store_nothing() {
    let (mut answers, mut after) = ([99; 3 * ANSWER_BYTES - 1], [99; 125]);
    let ran = run(&SCHEME, &MATRIX, &requests(), &mut answers, &mut after);
    assert_eq!(ran, Err(refusal(9, Place::Answers, 0)));
    assert_eq!((answers, after), ([99; 3 * ANSWER_BYTES - 1], [99; 125]));
    let (mut answers, mut short) = ([99; 3 * ANSWER_BYTES], [99; 76]);
    let ran = run(&SCHEME, &MATRIX, &requests(), &mut answers, &mut short);
    assert_eq!(ran, Err(refusal(9, Place::Output, 0)));
    assert_eq!((answers, short), ([99; 3 * ANSWER_BYTES], [99; 76]));

    let mut short = [99; 54];
    let converted = convert_scheme(&SCHEME, &mut short);
    assert_eq!(converted, Err(refusal(9, Place::Output, 0)));
    let converted = convert_matrix(&SCHEME, &MATRIX, &mut short);
    assert_eq!(converted, Err(refusal(9, Place::Output, 0)));
    let written = write_request(LOAD, &[1; 9], &mut short, 0);
    assert_eq!(written, Err(refusal(4, Place::Requests, 0)));
    let written = write_request(LOAD, &[9, 12], &mut short, usize::MAX);
    assert_eq!(written, Err(refusal(9, Place::Output, 0)));
    assert_eq!(short, [99; 54]);
}

/// The matrix with the robot 12 on hold: its record is of kind 8 and not of kind 4.
fn with_robot_on_hold() -> [u8; 61] {
    let mut bytes = MATRIX;
    assert_eq!(bytes[22..29], [3, 0, 4, 0, 12, 0, 2]);
    bytes[24] = 8;
    bytes
}

#[test]
fn a_thing_on_hold_takes_part_in_nothing() {
    let mut held = [0; 61];
    assert_eq!(hold(&SCHEME, &MATRIX, 12, &mut held), Ok(61));
    assert_eq!(held, with_robot_on_hold());
    let (mut answers, mut after) = ([99; 3 * ANSWER_BYTES], [0; 77]);
    let ran = run(&SCHEME, &held, &requests(), &mut answers, &mut after).unwrap();
    let on_hold = answer(ON_HOLD, None, 0);
    let stored = [on_hold, answer(0, None, 2), on_hold];
    assert!(ran.stored(&answers).eq(stored));

    // the robot gets its converted matrix with the mark
    let mut converted = [0; 125];
    assert_eq!(convert_matrix(&SCHEME, &held, &mut converted), Ok(125));
    assert_eq!(converted[22..29], held[22..29]);

    let mut released = [0; 61];
    assert_eq!(release(&SCHEME, &held, 12, &mut released), Ok(61));
    assert_eq!(released, MATRIX);
}

#[test]
fn a_mark_that_stands_already_stays() {
    let mut same = [0; 61];
    assert_eq!(hold(&SCHEME, &with_robot_on_hold(), 12, &mut same), Ok(61));
    assert_eq!(same, with_robot_on_hold());
    assert_eq!(release(&SCHEME, &MATRIX, 12, &mut same), Ok(61));
    assert_eq!(same, MATRIX);
}

#[test]
fn refused_marks_store_nothing() {
    let calls = [hold, release];
    for call in calls {
        let mut out = [99; 61];
        let short = &mut out[..60];
        let cut = call(&SCHEME[..46], &MATRIX[..60], 13, short);
        assert_eq!(cut, Err(refusal(1, Place::Scheme, 26)));
        let cut = call(&SCHEME, &MATRIX[..60], 13, short);
        assert_eq!(cut, Err(refusal(1, Place::Matrix, 45)));
        for id in [0, 13, u16::MAX] {
            let unknown = call(&SCHEME, &MATRIX, id, short);
            assert_eq!(unknown, Err(refusal(12, Place::Matrix, 0)));
        }
        let too_long = call(&SCHEME, &MATRIX, 12, short);
        assert_eq!(too_long, Err(refusal(9, Place::Output, 0)));
        assert_eq!(out, [99; 61]);
    }
}

/// One right, two types, of which managers are subjects. Command 0 creates a key for a manager, command 1 destroys it.
const KEYS_SCHEME: [u8; 43] = [
    5, 0, 1, 0, 1, 2, 1, 0, 2, 13, 0, 2, 0, 2, 0, 1, 0, 2, 3, 0, 1, 0, 1, 0, 0, 1, 13, 0, 2, 0, 2,
    0, 1, 1, 1, 0, 0, 1, 1, 4, 0, 1, 0,
];

/// A manager, 5, and never a higher id.
const KEYS: [u8; 15] = [4, 0, 7, 0, 1, 1, 5, 0, 3, 0, 4, 0, 5, 0, 0];

#[test]
fn a_key_number_is_never_used_again() {
    let (mut list, mut at) = ([0; 40], 0);
    for (command, key) in [(0, 31), (1, 31), (0, 31), (0, 32)] {
        at = write_request(command, &[5, key], &mut list, at).unwrap();
    }
    let (mut answers, mut after) = ([99; 4 * ANSWER_BYTES], [0; 38]);
    let ran = run(&KEYS_SCHEME, &KEYS, &list, &mut answers, &mut after).unwrap();
    let numbers = ran.stored(&answers).map(|answer| answer.number);
    assert!(numbers.eq([0, 0, 15, 0]));
    assert_eq!((at, ran.written), (40, 38));
    assert_eq!(highest_id(&KEYS), Some(5));
    assert_eq!(highest_id(&after), Some(32));
    assert_eq!(highest_id(&KEYS[..7]), None);
}

/// The matrix as it was stored before there was a highest id: only the head is another one.
fn old_image(matrix: &[u8; 61]) -> [u8; 59] {
    let mut bytes = [0; 59];
    bytes[..6].copy_from_slice(&[2, 0, 3, 0, 4, 3]);
    bytes[6..].copy_from_slice(&matrix[8..]);
    bytes
}

#[test]
fn an_old_image_goes_forward_and_back() {
    for matrix in [MATRIX, with_robot_on_hold()] {
        let old = old_image(&matrix);
        let mut new = [99; 62];
        assert_eq!(forward(&SCHEME, &old, &mut new), Ok(61));
        assert_eq!((&new[..61], new[61]), (&matrix[..], 99));
        let mut again = [99; 60];
        assert_eq!(back(&SCHEME, &matrix, &mut again), Ok(59));
        assert_eq!((&again[..59], again[59]), (&old[..], 99));
    }
}

#[test]
fn a_highest_id_that_no_thing_has_is_not_lost() {
    // key 31 is issued and scrapped
    let (mut list, mut answers, mut after) = ([0; 20], [99; 2 * ANSWER_BYTES], [0; 15]);
    let at = write_request(0, &[5, 31], &mut list, 0).unwrap();
    write_request(1, &[5, 31], &mut list, at).unwrap();
    run(&KEYS_SCHEME, &KEYS, &list, &mut answers, &mut after).unwrap();
    assert_eq!(highest_id(&after), Some(31));
    let mut old = [99; 13];
    let lost = back(&KEYS_SCHEME, &after, &mut old);
    assert_eq!(lost, Err(refusal(HIGHEST_LOST, Place::Matrix, 0)));
    let lost = back(&KEYS_SCHEME, &after, &mut old[..12]);
    assert_eq!(lost, Err(refusal(HIGHEST_LOST, Place::Matrix, 0)));
    assert_eq!(old, [99; 13]);
    assert_eq!(back(&KEYS_SCHEME, &KEYS, &mut old), Ok(13));
    assert_eq!(old, [2, 0, 3, 0, 1, 1, 3, 0, 4, 0, 5, 0, 0]);
}

#[test]
fn refused_moves_store_nothing() {
    let (old, mut out) = (old_image(&MATRIX), [99; 61]);
    for call in [forward, back] {
        let cut = call(&SCHEME[..46], &[], &mut out);
        assert_eq!(cut, Err(refusal(1, Place::Scheme, 26)));
        assert_eq!(
            call(&SCHEME, &[], &mut out),
            Err(refusal(1, Place::Matrix, 0))
        );
    }
    let too_little = [
        forward(&SCHEME, &old, &mut out[..60]),
        back(&SCHEME, &MATRIX, &mut out[..58]),
    ];
    assert_eq!(too_little, [Err(refusal(9, Place::Output, 0)); 2]);
    let cut = forward(&SCHEME, &old[..58], &mut out);
    assert_eq!(cut, Err(refusal(1, Place::Matrix, 43)));
    let cut = back(&SCHEME, &MATRIX[..60], &mut out);
    assert_eq!(cut, Err(refusal(1, Place::Matrix, 45)));
    // each takes the other's image for one of a kind that may not stand there, as all others take an old one
    let swapped = [
        forward(&SCHEME, &MATRIX, &mut out),
        back(&SCHEME, &old, &mut out),
        check_matrix(&SCHEME, &old),
    ];
    assert_eq!(swapped, [Err(refusal(2, Place::Matrix, 0)); 3]);
    assert_eq!(out, [99; 61]);
}

#[test]
fn a_refusal_in_words() {
    let words = check_scheme(&[]).unwrap_err().to_string();
    assert_eq!(words, "refused with 1, in the scheme at byte 0");
}

#[test]
fn wrapper_and_archive_belong_together() {
    assert_eq!(version(), VERSION);
}
