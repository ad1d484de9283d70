//! Stored matrices moved forward and back: both images by hand, what refuses a move and in which order, and the laws of there and back on generated ones.

mod common;

use std::collections::BTreeSet;

use common::*;
use independent::bytes::{store, MATRIX_HEAD, OLD_MATRIX_HEAD};
use independent::generate::moves::{self, Moves};
use independent::generate::{marks, matrices, random::Random, schemes};
use independent::matrix::{read_matrix, write_matrix, Matrix, MOST_THINGS};
use independent::moving::{
    back, find_old_matrix, forward, highest_listed, read_old_matrix, write_old_matrix,
};
use independent::scheme::Scheme;
use independent::Refusal;

/// An old image and the new one, which must be made of each other.
fn are_one(old: &str, new: &str) {
    let (old, new) = (bytes(old), bytes(new));
    assert_eq!(forward(&key_scheme(), &old), Ok(new.clone()));
    assert_eq!(back(&key_scheme(), &new), Ok(old));
}

fn forward_gives(old: &str, number: u8, at: usize) {
    let moved = forward(&key_scheme(), &bytes(old)).map(|_| ());
    let wanted = match number {
        0 => Ok(()),
        _ => Err(Refusal { number, at }),
    };
    assert_eq!(moved, wanted, "{old}");
}

fn back_gives(new: &str, number: u8, at: usize) {
    let moved = back(&key_scheme(), &bytes(new)).map(|_| ());
    let wanted = match number {
        0 => Ok(()),
        _ => Err(Refusal { number, at }),
    };
    assert_eq!(moved, wanted, "{new}");
}

// ---- by hand

#[test]
fn the_kinds_are_those_of_the_outline() {
    assert_eq!((OLD_MATRIX_HEAD, MATRIX_HEAD), (3, 7));
}

#[test]
fn images_by_hand() {
    are_one(OLD_KEY_MATRIX, KEY_MATRIX);
    are_one("02 00 03 00 04 00", "04 00 07 00 04 00 00 00");
    are_one(
        "02 00 03 00 04 01 / 03 00 04 00 01 00 02",
        "04 00 07 00 04 01 01 00 / 03 00 04 00 01 00 02",
    );
    // The highest id is the last one's, in both of its bytes.
    are_one(
        "02 00 03 00 04 02 / 03 00 04 00 FF 00 00 / 03 00 04 00 00 01 01",
        "04 00 07 00 04 02 00 01 / 03 00 04 00 FF 00 00 / 03 00 04 00 00 01 01",
    );
    are_one(
        "02 00 03 00 04 01 / 03 00 04 00 FF FF 00",
        "04 00 07 00 04 01 FF FF / 03 00 04 00 FF FF 00",
    );
}

/// Each of them in both images, with the same bytes.
#[test]
fn things_on_hold_stand_in_both() {
    let kinds = [(5, 8), (9, 15), (12, 22)];
    for marks in 0..8 {
        let (mut old, mut new) = (bytes(OLD_KEY_MATRIX), bytes(KEY_MATRIX));
        let mut held = BTreeSet::new();
        for (bit, (id, at)) in kinds.into_iter().enumerate() {
            if marks >> bit & 1 == 1 {
                (old[at], new[at + 2]) = (8, 8);
                held.insert(id);
            }
        }
        assert_eq!(forward(&key_scheme(), &old), Ok(new.clone()));
        assert_eq!(back(&key_scheme(), &new), Ok(old.clone()));
        let matrix = read_old_matrix(&old, &key_scheme()).unwrap();
        assert_eq!(*matrix.on_hold(), held);
        assert_eq!(matrix, read_matrix(&new, &key_scheme()).unwrap());
    }
}

#[test]
fn the_largest_images() {
    let scheme = Scheme {
        rights: 64,
        ..key_scheme()
    };
    let mut matrix = Matrix::new();
    for id in 1..=MOST_THINGS as u16 {
        matrix.create(&scheme, id, 1);
    }
    let places: Vec<(u16, u16)> = matrix.cells().keys().copied().collect();
    for (row, column) in places {
        matrix.set_cell(row, column, u64::MAX);
    }
    let (old, new) = (
        write_old_matrix(&matrix, &scheme),
        write_matrix(&matrix, &scheme),
    );
    assert_eq!((old.len(), new.len()), (37_206, 37_208));
    assert_eq!(forward(&scheme, &old), Ok(new.clone()));
    assert_eq!(back(&scheme, &new), Ok(old));
}

// ---- what refuses a move forward

#[test]
fn old_heads() {
    forward_gives("", 1, 0);
    forward_gives("02 00 03", 1, 0);
    forward_gives("02 00 07", 1, 0);
    forward_gives("02 00 03 00", 1, 0);
    forward_gives("02 00 07 00", 2, 0);
    forward_gives("02 00 03 01 04 00", 2, 0);
    forward_gives("02 00 03 00 04", 1, 0);
    forward_gives("02 00 03 00 00", 1, 0);
    forward_gives("00 00 03 00", 3, 0);
    forward_gives("01 00 03 00 04", 3, 0);
    forward_gives("01 00 03 00 00", 4, 0);
    forward_gives("01 00 03 00 41", 4, 0);
    forward_gives("01 00 03 00 40", 6, 0);
    forward_gives("01 00 03 00 01", 6, 0);
    forward_gives("02 00 03 00 00 31", 4, 0);
    forward_gives("02 00 03 00 05 31", 6, 0);
    forward_gives("02 00 03 00 04 31", 4, 0);
    forward_gives("02 00 03 00 04 30", 1, 6);
    forward_gives("03 00 03 00 04 00 00", 3, 0);
    forward_gives("03 00 03 00 04 31 00", 4, 0);
    forward_gives("04 00 03 00 04 00 00 00", 3, 0);
    forward_gives("02 00 03 00 04 00", 0, 0);
    forward_gives("02 00 03 00 04 00 00", 1, 6);
}

/// 3, 6 (of 0), 7, then 5, then 3; no id is too high.
#[test]
fn old_things() {
    for kind in ["04 00", "08 00"] {
        let one = |length: &str, body: &str, number: u8| {
            let head = "02 00 03 00 04 01";
            forward_gives(&format!("{head} / {length} 00 {kind} {body}"), number, 6);
        };
        one("03", "05 00 00", 0);
        one("03", "05 00", 1);
        one("FF", "05 00 00", 1);
        one("00", "", 3);
        one("01", "00", 3);
        one("02", "00 00", 6);
        one("02", "05 00", 3);
        one("03", "00 00 03", 6);
        one("03", "05 00 03", 5);
        one("03", "FF FF 02", 0);
        one("03", "FF FF 03", 5);
        one("04", "05 00 03 00", 5);
        one("04", "05 00 02 00", 3);
    }
    forward_gives("02 00 03 00 04 01", 1, 6);
    forward_gives("02 00 03 00 04 01 / 03 00 04", 1, 6);
    for kind in ["03", "05", "07", "09", "00"] {
        let head = "02 00 03 00 04 01";
        forward_gives(&format!("{head} / 03 00 {kind} 00 05 00 00"), 2, 6);
    }
}

#[test]
fn old_ids_rise_over_both_kinds_together() {
    for first in ["04 00", "08 00"] {
        for second in ["04 00", "08 00"] {
            let two = |body: &str, number: u8| {
                let head = "02 00 03 00 04 02";
                let things = format!("03 00 {first} 05 00 00 / 03 00 {second} {body}");
                forward_gives(&format!("{head} / {things}"), number, 13);
            };
            two("06 00 01", 0);
            two("05 01 01", 0);
            two("05 00 01", 7);
            two("04 00 03", 7);
            two("00 00 03", 6);
            two("06 00 03", 5);
        }
    }
}

/// The key example's first cell with other bytes, and something behind its last one.
#[test]
fn old_cells() {
    let cell = "0C 00 05 00 05 00 09 00 01 00 00 00 00 00 00 00";
    let with = |other: &str, number: u8| {
        forward_gives(&OLD_KEY_MATRIX.replacen(cell, other, 1), number, 27);
    };
    with("0C 00 04 00 05 00 09 00 01 00 00 00 00 00 00 00", 2);
    with("0C 00 08 00 05 00 09 00 01 00 00 00 00 00 00 00", 2);
    with("0C 00 05 00 06 00 09 00 01 00 00 00 00 00 00 00", 5);
    with("0C 00 05 00 0C 00 0A 00 01 00 00 00 00 00 00 00", 6);
    with("0C 00 05 00 05 00 0A 00 01 00 00 00 00 00 00 00", 5);
    with("0C 00 05 00 05 00 09 00 10 00 00 00 00 00 00 00", 5);
    with("0C 00 05 00 05 00 09 00 00 00 00 00 00 00 00 00", 6);
    with("0B 00 05 00 05 00 09 00 01 00 00 00 00 00 00", 3);
    with("0D 00 05 00 05 00 09 00 01 00 00 00 00 00 00 00 00", 3);
    with("0C 01 05 00 05 00 09 00 01 00 00 00 00 00 00 00", 1);
    with("0C 00 05 00 05 00 05 00 0F 00 00 00 00 00 00 00", 0);
    let behind = |more: &str, number: u8, at| {
        forward_gives(&format!("{OLD_KEY_MATRIX} / {more}"), number, at);
    };
    behind("00", 1, 59);
    behind("0C 00 05", 1, 59);
    behind("00 00 00 00", 2, 59);
    behind("03 00 04 00 0D 00 00", 2, 59);
    behind("0C 00 05 00 09 00 0C 00 02 00 00 00 00 00 00 00", 7, 59);
    behind("0C 00 05 00 09 00 09 00 02 00 00 00 00 00 00 00", 7, 59);
}

/// An image of the other kind is 2 at 0, whichever way it is asked for.
#[test]
fn the_other_image_is_refused() {
    forward_gives(KEY_MATRIX, 2, 0);
    forward_gives("04 00 07 00 04 00 00 00", 2, 0);
    back_gives(OLD_KEY_MATRIX, 2, 0);
    back_gives("02 00 03 00 04 00", 2, 0);
    // Of its kind alone, and of its length alone.
    forward_gives("02 00 07 00 04 00", 2, 0);
    forward_gives("04 00 03 00 04 00 00 00", 3, 0);
    back_gives("04 00 03 00 04 00 00 00", 2, 0);
    back_gives("02 00 07 00 04 00", 3, 0);
}

// ---- what refuses a move back

#[test]
fn a_highest_id_that_would_be_lost() {
    let key = |highest: &str| KEY_MATRIX.replacen("04 03 0C 00", &format!("04 03 {highest}"), 1);
    back_gives(&key("0C 00"), 0, 0);
    for highest in ["0D 00", "0C 01", "00 0C", "FF 00", "00 80", "FF FF"] {
        back_gives(&key(highest), 23, 0);
    }
    back_gives(&key("0B 00"), 6, 22);
    for highest in ["01 00", "00 01", "0C 00", "FE FF", "FF FF"] {
        back_gives(&format!("04 00 07 00 04 00 {highest}"), 23, 0);
    }
    let last =
        |highest: &str, id: &str| format!("04 00 07 00 04 01 {highest} / 03 00 08 00 {id} 02");
    back_gives(&last("FF FF", "FF FF"), 0, 0);
    back_gives(&last("FF FF", "FE FF"), 23, 0);
    back_gives(&last("FF FF", "FF FE"), 23, 0);
    back_gives(&last("FE FF", "FF FF"), 6, 8);
}

/// All of a reading comes before 23, in the last byte too.
#[test]
fn reading_comes_before_23() {
    let above = KEY_MATRIX.replacen("04 03 0C 00", "04 03 0D 00", 1);
    back_gives(&above, 23, 0);
    back_gives(&format!("{above} 00"), 1, 61);
    back_gives(&format!("{above} 00 00 05 00"), 3, 61);
    back_gives(&format!("{above} 03 00 04 00 0D 00 00"), 2, 61);
    let with = |old: &str, new: &str, number, at| {
        let changed = above.replacen(old, new, 1);
        assert_ne!(changed, above);
        back_gives(&changed, number, at);
    };
    with("04 03 0D", "41 03 0D", 4, 0);
    with("04 03 0D", "04 31 0D", 4, 0);
    with("04 03 0D", "05 03 0D", 6, 0);
    with("0C 00 02 /", "0C 00 03 /", 5, 22);
    with("0C 00 02 /", "0E 00 02 /", 6, 22);
    with("09 00 01 /", "05 00 01 /", 7, 15);
    with("09 00 0C 00 02", "09 00 0D 00 02", 5, 45);
    with("09 00 0C 00 02", "09 00 0C 00 00", 6, 45);
    with("09 00 0C 00 02", "05 00 09 00 02", 7, 45);
    // Into no room 23 comes first, and 9 where it doesn't.
    let moved = |new: &str, room: usize| {
        let moved = back(&key_scheme(), &bytes(new)).map_err(|refusal| refusal.number);
        moved.and_then(|old| store(&old, &mut vec![0; room]))
    };
    assert_eq!(moved(&above, 0), Err(23));
    assert_eq!(moved(KEY_MATRIX, 0), Err(9));
    assert_eq!(moved(KEY_MATRIX, 58), Err(9));
    assert_eq!(moved(KEY_MATRIX, 59), Ok(59));
}

// ---- laws

const SEED: u64 = 5;
const COUNT: u64 = 4_000;

/// Schemes, and images to move with them; about half of these are damaged.
fn drawn() -> impl Iterator<Item = (Scheme, Moves)> {
    (0..COUNT).map(|number| {
        let random = &mut Random::new(SEED, number);
        let scheme = schemes::scheme(random);
        let mut matrix = matrices::matrix(random, &scheme);
        marks::put(random, &mut matrix);
        let moves = moves::moves(random, &scheme, &matrix);
        (scheme, moves)
    })
}

#[test]
fn old_to_new_to_old_gives_the_first_bytes() {
    let mut moved = 0;
    for (scheme, drawn) in drawn() {
        for image in [&drawn.old, &drawn.new] {
            let Ok(new) = forward(&scheme, image) else {
                continue;
            };
            assert_eq!(new.len(), image.len() + 2);
            assert_eq!(back(&scheme, &new).as_ref(), Ok(image));
            moved += 1;
        }
    }
    assert!(moved > 400, "{moved}");
}

#[test]
fn where_back_goes_forward_gives_the_image_again() {
    let (mut moved, mut lost) = (0, 0);
    for (scheme, drawn) in drawn() {
        for image in [&drawn.new, &drawn.old] {
            match back(&scheme, image) {
                Ok(old) => {
                    assert_eq!(old.len() + 2, image.len());
                    assert_eq!(forward(&scheme, &old).as_ref(), Ok(image));
                    moved += 1;
                }
                Err(refusal) if refusal.number == 23 => {
                    assert_eq!(refusal.at, 0);
                    lost += 1;
                }
                Err(refusal) => assert_eq!(Err(refusal), read_matrix(image, &scheme)),
            }
        }
    }
    assert!(moved > 400 && lost > 400, "{moved} {lost}");
}

/// 23 exactly where going forward from what an old image can keep doesn't give the image again.
#[test]
fn only_what_would_be_lost_is_refused_with_23() {
    for (scheme, drawn) in drawn() {
        let Ok(matrix) = read_matrix(&drawn.new, &scheme) else {
            continue;
        };
        let kept = write_old_matrix(&matrix, &scheme);
        let again = forward(&scheme, &kept).expect("it is an old image");
        let wanted = match again == drawn.new {
            true => Ok(kept),
            false => Err(Refusal { number: 23, at: 0 }),
        };
        assert_eq!(back(&scheme, &drawn.new), wanted);
    }
}

/// Things, marks and cells stay, and the highest id is the highest listed one.
#[test]
fn forward_keeps_the_matrix() {
    let mut read = 0;
    for (scheme, drawn) in drawn() {
        let Ok(new) = forward(&scheme, &drawn.old) else {
            continue;
        };
        let before = read_old_matrix(&drawn.old, &scheme).unwrap();
        let after = read_matrix(&new, &scheme).unwrap();
        assert_eq!(after.things(), before.things());
        assert_eq!(after.on_hold(), before.on_hold());
        assert_eq!(after.cells(), before.cells());
        assert_eq!(after.highest(), highest_listed(&after));
        let listed = after.things().keys().last().copied();
        assert_eq!(after.highest(), listed.unwrap_or(0));
        read += 1;
    }
    assert!(read > 200, "{read}");
}

/// Behind the heads both are read alike, two bytes apart, if the new one's highest id is above none.
#[test]
fn behind_the_head_both_are_read_alike() {
    let mut refused = BTreeSet::new();
    for (scheme, drawn) in drawn() {
        let old = drawn.old;
        if old.len() < 6 || old[..4] != [2, 0, 3, 0] {
            continue;
        }
        let new = [&[4, 0, 7, 0, old[4], old[5], 255, 255], &old[6..]].concat();
        let of_old = find_old_matrix(&old, &scheme);
        let of_new = read_matrix(&new, &scheme);
        match (of_old, of_new) {
            (Ok(mut matrix), of_new) => {
                matrix.raise_highest(65_535);
                assert_eq!(of_new, Ok(matrix));
            }
            (Err(found), of_new) => {
                let at = if found.at == 0 { 0 } else { found.at + 2 };
                let number = found.fault.number();
                assert_eq!(of_new, Err(Refusal { number, at }));
                refused.insert((number, found.at == 0));
            }
        }
    }
    let behind = [1, 2, 3, 5, 6, 7].map(|number| (number, false));
    assert!(
        behind.iter().all(|way| refused.contains(way)),
        "{refused:?}"
    );
}

/// A new robot answers on a moved image as the outline's example says; then the image goes back.
#[test]
fn a_moved_matrix_answers_requests() {
    let scheme = key_scheme();
    let new = forward(&scheme, &bytes(OLD_KEY_MATRIX)).unwrap();
    let mut matrix = read_matrix(&new, &scheme).unwrap();
    assert_eq!(
        carries_out(&scheme, &mut matrix, LOAD, &[9, 12]),
        (0, 255, 3)
    );
    assert_eq!(
        carries_out(&scheme, &mut matrix, RETIRE, &[5, 9]),
        (0, 255, 2)
    );
    assert_eq!(
        carries_out(&scheme, &mut matrix, LOAD, &[9, 12]),
        (14, 1, 2)
    );
    // No request of these raises the highest id, so that the way back is free.
    let old = back(&scheme, &write_matrix(&matrix, &scheme)).unwrap();
    assert_eq!(old.len(), 75);
    assert_eq!(read_old_matrix(&old, &scheme), Ok(matrix));
}
