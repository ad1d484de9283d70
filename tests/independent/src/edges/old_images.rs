//! The key example's matrix as an old image, with single bytes changed: what moving forward and reading behind a head are asked about.

use super::examples::{changed_rows, Row};

/// Things 5 manager, 9 key, 12 robot and the cells [5,9] = 1, [9,12] = 2, behind a head that tells no highest id: 59 bytes, with the things at 6, 13
/// and 20 and the cells at 27 and 43.
#[rustfmt::skip]
pub const OLD_KEY: [u8; 59] = [
    0x02, 0x00, 0x03, 0x00, 0x04, 0x03,
    0x03, 0x00, 0x04, 0x00, 0x05, 0x00, 0x00,
    0x03, 0x00, 0x04, 0x00, 0x09, 0x00, 0x01,
    0x03, 0x00, 0x04, 0x00, 0x0C, 0x00, 0x02,
    0x0C, 0x00, 0x05, 0x00, 0x05, 0x00, 0x09, 0x00, 0x01, 0x00, 0x00, 0x00, 0x00, 0x00, 0x00, 0x00,
    0x0C, 0x00, 0x05, 0x00, 0x09, 0x00, 0x0C, 0x00, 0x02, 0x00, 0x00, 0x00, 0x00, 0x00, 0x00, 0x00,
];

/// The head: its front, its kind, then its end, then its fields. Kind 7 is a new image's, and its body of 4 bytes is too long here.
const HEADS: &[Row] = &[
    ("empty", &[], 0),
    ("front-of-1", &[], 1),
    ("front-of-3", &[], 3),
    ("front-of-3-kind-7", &[(2, 7)], 3),
    ("front-alone", &[], 4),
    ("front-alone-kind-7", &[(2, 7)], 4),
    ("head-cut", &[], 5),
    ("head-past-end", &[(1, 1)], 59),
    ("head-past-end-kind-7", &[(1, 1), (2, 7)], 59),
    ("head-length-53", &[(0, 53)], 57),
    ("head-length-54", &[(0, 54)], 57),
    ("kind-7", &[(2, 7)], 59),
    ("kind-7-length-4", &[(0, 4), (2, 7)], 59),
    ("kind-0", &[(2, 0)], 59),
    ("kind-1", &[(2, 1)], 59),
    ("kind-2", &[(2, 2)], 59),
    ("kind-4", &[(2, 4)], 59),
    ("kind-8", &[(2, 8)], 59),
    ("kind-259", &[(3, 1)], 59),
    ("kind-768", &[(2, 0), (3, 3)], 59),
    ("kind-7-n-0", &[(2, 7), (4, 0)], 59),
    ("length-0", &[(0, 0)], 59),
    ("length-0-n-0", &[(0, 0), (4, 0)], 59),
    ("length-1", &[(0, 1)], 59),
    ("length-1-alone", &[(0, 1)], 5),
    ("length-1-n-0", &[(0, 1), (4, 0)], 59),
    ("length-1-n-5", &[(0, 1), (4, 5)], 59),
    ("length-1-things-49", &[(0, 1), (5, 49)], 59),
    ("length-3", &[(0, 3)], 59),
    ("length-3-alone", &[(0, 3), (5, 0)], 7),
    ("length-3-n-5", &[(0, 3), (4, 5)], 59),
    ("length-3-things-49", &[(0, 3), (5, 49)], 59),
    ("length-4", &[(0, 4)], 59),
    ("n-0", &[(4, 0)], 59),
    ("n-1", &[(4, 1)], 59),
    ("n-3", &[(4, 3)], 59),
    ("n-5", &[(4, 5)], 59),
    ("n-64", &[(4, 64)], 59),
    ("n-65", &[(4, 65)], 59),
    ("n-255", &[(4, 255)], 59),
    ("n-5-things-49", &[(4, 5), (5, 49)], 59),
    ("things-49", &[(5, 49)], 59),
    ("things-255", &[(5, 255)], 59),
    ("things-49-alone", &[(5, 49)], 6),
];

/// How many things there are, which is stated too high and too low; and where the input ends.
const COUNTS: &[Row] = &[
    ("things-0", &[(5, 0)], 6),
    ("things-0-and-more", &[(5, 0)], 59),
    ("things-0-one-more", &[(5, 0)], 7),
    ("things-1", &[(5, 1)], 13),
    ("things-1-and-more", &[(5, 1)], 59),
    ("things-2", &[(5, 2)], 20),
    ("things-2-and-more", &[(5, 2)], 59),
    ("things-4", &[(5, 4)], 59),
    ("things-4-no-cell", &[(5, 4)], 27),
    ("things-48", &[(5, 48)], 59),
    ("things-48-no-cell", &[(5, 48)], 27),
];

/// The fronts and the ends of things and cells.
const FRONTS: &[Row] = &[
    ("no-thing", &[], 6),
    ("thing-front-cut", &[], 9),
    ("thing-front-alone", &[], 10),
    ("thing-cut", &[], 12),
    ("second-missing", &[], 13),
    ("second-front-cut", &[], 16),
    ("third-cut", &[], 26),
    ("no-cell", &[], 27),
    ("cell-front-of-1", &[], 28),
    ("cell-front-cut", &[], 30),
    ("cell-front-alone", &[], 31),
    ("cell-cut", &[], 42),
    ("one-cell", &[], 43),
    ("second-cell-cut", &[], 58),
    ("one-more", &[], 60),
    ("three-more", &[], 62),
    ("four-more", &[], 63),
    ("thing-past-end", &[(7, 1)], 59),
    ("thing-past-end-kind-5", &[(7, 1), (8, 5)], 59),
    ("third-past-end", &[(21, 255)], 59),
    ("cell-past-end", &[(28, 1)], 59),
    ("cell-past-end-kind-4", &[(28, 1), (29, 4)], 59),
    ("kind-3-for-thing", &[(8, 3)], 59),
    ("kind-5-for-thing", &[(8, 5)], 59),
    ("kind-7-for-thing", &[(15, 7)], 59),
    ("kind-9-for-thing", &[(22, 9)], 59),
    ("kind-260-for-thing", &[(9, 1)], 59),
    ("kind-1024-for-thing", &[(8, 0), (9, 4)], 59),
    ("kind-3-for-cell", &[(29, 3)], 59),
    ("kind-4-for-cell", &[(29, 4)], 59),
    ("kind-7-for-cell", &[(45, 7)], 59),
    ("kind-261-for-cell", &[(30, 1)], 59),
];

/// At an id 0 is found before one that isn't above the last (7), and that before the type (5). No id is too high.
const THINGS: &[Row] = &[
    ("id-0", &[(10, 0)], 59),
    ("id-0-type-3", &[(10, 0), (12, 3)], 59),
    ("id-0-length-2", &[(6, 2), (10, 0)], 59),
    ("second-id-0", &[(17, 0)], 59),
    ("third-id-0", &[(24, 0)], 59),
    ("id-same", &[(17, 5)], 59),
    ("id-same-type-3", &[(17, 5), (19, 3)], 59),
    ("id-same-length-2", &[(13, 2), (17, 5)], 59),
    ("id-below", &[(24, 8)], 59),
    ("id-6", &[(17, 6)], 27),
    ("id-9-at-first", &[(10, 9)], 59),
    ("id-261-at-first", &[(11, 1)], 59),
    ("id-13", &[(24, 13)], 27),
    ("id-255", &[(24, 255)], 27),
    ("id-256", &[(24, 0), (25, 1)], 27),
    ("id-268", &[(25, 1)], 27),
    ("id-3072", &[(24, 0), (25, 12)], 27),
    ("id-65534", &[(24, 254), (25, 255)], 27),
    ("id-65535", &[(24, 255), (25, 255)], 27),
    ("id-65535-at-first", &[(10, 255), (11, 255)], 59),
    ("id-65535-alone", &[(5, 1), (10, 255), (11, 255)], 13),
    ("id-65535-type-3", &[(24, 255), (25, 255), (26, 3)], 59),
    ("type-3", &[(12, 3)], 59),
    ("type-255", &[(19, 255)], 59),
    ("third-type-3", &[(26, 3)], 59),
    ("thing-length-0", &[(6, 0)], 59),
    ("thing-length-1", &[(6, 1)], 59),
    ("thing-length-1-id-0", &[(6, 1), (10, 0)], 59),
    ("thing-length-2", &[(6, 2)], 59),
    ("thing-length-4", &[(6, 4)], 59),
    ("thing-length-4-type-3", &[(6, 4), (12, 3)], 59),
    ("third-length-2", &[(20, 2)], 59),
    ("third-length-4", &[(20, 4)], 59),
];

/// Things on hold, beside others and alone: their kinds stand at 8, 15 and 22.
const HELD: &[Row] = &[
    ("held-5", &[(8, 8)], 59),
    ("held-9", &[(15, 8)], 59),
    ("held-12", &[(22, 8)], 59),
    ("held-5-12", &[(8, 8), (22, 8)], 59),
    ("held-all", &[(8, 8), (15, 8), (22, 8)], 59),
    ("held-65535", &[(22, 8), (24, 255), (25, 255)], 27),
    ("held-alone", &[(5, 1), (8, 8)], 13),
    ("held-id-0", &[(8, 8), (10, 0)], 59),
    ("held-id-same", &[(15, 8), (17, 5)], 59),
    ("id-same-behind-held", &[(8, 8), (17, 5)], 59),
    ("held-id-below-held", &[(15, 8), (22, 8), (24, 8)], 59),
    ("held-type-3", &[(22, 8), (26, 3)], 59),
    ("held-length-2", &[(6, 2), (8, 8)], 59),
    ("held-length-4", &[(6, 4), (8, 8)], 59),
    ("held-past-end", &[(7, 1), (8, 8)], 59),
    ("held-cut", &[(22, 8)], 26),
    ("held-264", &[(8, 8), (9, 1)], 59),
    ("held-2048", &[(8, 0), (9, 8)], 59),
    ("held-third-of-two", &[(5, 2), (22, 8)], 59),
    ("held-cell", &[(29, 8)], 59),
    ("held-second-cell", &[(45, 8)], 59),
];

/// Row: known (5), a subject (6); column: known (5), above the one before (7); rights: below n (5), some (6).
const CELLS: &[Row] = &[
    ("row-0", &[(31, 0)], 59),
    ("row-6", &[(31, 6)], 59),
    ("row-261", &[(32, 1)], 59),
    ("row-robot", &[(31, 12)], 59),
    ("row-robot-column-10", &[(31, 12), (33, 10)], 59),
    ("column-0", &[(33, 0)], 59),
    ("column-10", &[(33, 10)], 59),
    ("column-265", &[(34, 1)], 59),
    ("own-column", &[(33, 5)], 59),
    ("place-same", &[(47, 5), (49, 9)], 59),
    ("column-below", &[(33, 12), (47, 5), (49, 9)], 59),
    ("row-below", &[(31, 9), (33, 5), (47, 5), (49, 12)], 59),
    ("unknown-below", &[(47, 5), (49, 8)], 59),
    ("place-same-right-4", &[(47, 5), (49, 9), (51, 16)], 59),
    ("place-same-no-rights", &[(47, 5), (49, 9), (51, 0)], 59),
    ("right-3", &[(35, 15)], 59),
    ("right-4", &[(35, 16)], 59),
    ("right-63", &[(42, 128)], 59),
    ("second-right-4", &[(51, 16)], 59),
    ("no-rights", &[(35, 0)], 59),
    ("second-no-rights", &[(51, 0)], 59),
    ("cell-length-0", &[(27, 0)], 59),
    ("cell-length-1-row-6", &[(27, 1), (31, 6)], 59),
    ("cell-length-2-row-6", &[(27, 2), (31, 6)], 59),
    ("cell-length-3", &[(27, 3)], 59),
    ("cell-length-4-same", &[(43, 4), (47, 5), (49, 9)], 59),
    ("cell-length-11-no-rights", &[(27, 11), (35, 0)], 59),
    ("cell-length-13", &[(27, 13)], 59),
    ("cell-length-13-no-rights", &[(27, 13), (35, 0)], 59),
    ("cell-length-13-right-4", &[(27, 13), (35, 16)], 59),
];

/// The whole image first, then all that is changed in it; each with its label.
pub fn of_key() -> Vec<(&'static str, Vec<u8>)> {
    let whole: &[Row] = &[("key", &[], 59)];
    let heads = changed_rows(&OLD_KEY, &[whole, HEADS].concat());
    heads.into_iter().chain(behind_head()).collect()
}

/// What is changed behind the head, whose last byte says how many things there are.
pub fn behind_head() -> Vec<(&'static str, Vec<u8>)> {
    changed_rows(&OLD_KEY, &[COUNTS, FRONTS, THINGS, HELD, CELLS].concat())
}
