//! The stored input and output of the project's program `edges` are the ones made here; they reach every refusal number of every public function, and
//! the program calls each of them.

use std::collections::{BTreeMap, BTreeSet};
use std::fs;
use std::path::PathBuf;

use independent::edges::{cases, stdin, stdout, told};

fn crates() -> PathBuf {
    PathBuf::from(env!("CARGO_MANIFEST_DIR")).join("../../crates")
}

fn stored(name: &str) -> Vec<u8> {
    let file = crates().join("edges").join(name);
    fs::read(&file).unwrap_or_else(|error| panic!("{}: {error}", file.display()))
}

#[test]
fn the_stored_input_is_this_one() {
    assert!(stored("stdin") == stdin());
}

#[test]
fn the_stored_output_is_this_one() {
    assert_eq!(String::from_utf8(stored("stdout")).unwrap(), stdout());
}

/// The program reads no more cases than that.
#[test]
fn the_cases_are_few_enough() {
    assert!(cases().len() < 65_536);
}

#[test]
fn each_label_stands_once() {
    let cases = cases();
    let labels: BTreeSet<&String> = cases.iter().map(|case| &case.label).collect();
    assert_eq!(labels.len(), cases.len());
    assert!(labels
        .iter()
        .all(|label| !label.contains(char::is_whitespace)));
}

/// Some labels and the words behind them, worked out by hand: the number, which test stopped the request, and the steps.
const ANSWERS: &[(&str, &str)] = &[
    ("key-load", "0 255 3"),
    ("key-retire", "0 255 2"),
    ("key-load-after", "14 1 2"),
    ("robot-load", "0 255 4"),
    ("robot-retire", "0 255 3"),
    ("robot-load-after", "14 1 2"),
    ("key-command-2", "10 255 0"),
    ("key-retire-5", "11 255 0"),
    ("key-retire-5-8", "12 255 0"),
    ("key-retire-9-9", "13 255 0"),
    ("load-not-signed", "14 0 1"),
    ("load-not-signed-and-retired", "14 0 1"),
    ("destroy-9-9", "17 255 2"),
    ("no-test-false", "0 255 17"),
    ("no-test-false-robot", "0 255 18"),
    ("first-test-false", "14 0 1"),
    ("first-test-false-robot", "14 0 1"),
    ("last-test-false", "14 15 16"),
    ("last-test-false-robot", "14 15 16"),
    ("tests-7-to-15-false", "14 7 8"),
    ("tests-7-to-15-false-robot", "14 7 8"),
    ("create-at-48", "16 255 1"),
    ("create-next-at-48", "16 255 1"),
    ("create-used-at-48", "15 255 1"),
    ("create-highest-at-48", "15 255 1"),
    ("create-0-at-48", "12 255 0"),
    ("create-two-at-47", "16 255 2"),
    ("create-same-twice-at-47", "15 255 2"),
    ("create-falling-at-47", "15 255 2"),
    ("create-highest-second-at-47", "15 255 2"),
    ("create-highest-first-at-47", "15 255 1"),
    ("create-99-now-at-48", "15 255 1"),
    ("create-and-destroy-at-48", "16 255 1"),
    ("create-101-at-48-with-100", "16 255 1"),
    ("create-100-at-48-with-100", "15 255 1"),
    ("create-99-at-48-with-100", "15 255 1"),
    ("create-48-at-48-with-100", "15 255 1"),
    ("create-20-with-20", "15 255 1"),
    ("create-10-with-20", "15 255 1"),
    ("create-9-with-20", "15 255 1"),
    ("create-0-with-20", "12 255 0"),
    ("create-21-20-with-20", "15 255 2"),
    ("create-20-21-with-20", "15 255 1"),
    ("create-23-22-with-20", "15 255 2"),
    ("create-21-with-20", "0 255 1"),
    ("create-22-300-with-21", "0 255 2"),
    ("create-turned-21-22-with-20", "15 255 2"),
    ("create-turned-21-20-with-20", "15 255 1"),
    ("create-turned-20-21-with-20", "15 255 2"),
    ("create-turned-302-301-with-300", "0 255 2"),
    ("create-256-with-302", "15 255 1"),
    ("create-two-65535-with-65534", "15 255 2"),
    ("create-65535-with-65534", "0 255 1"),
    ("create-65535-again", "15 255 1"),
    ("create-303-with-65535", "15 255 1"),
    ("create-1-of-none", "15 255 1"),
    ("create-two-last-of-none", "15 255 2"),
    ("create-last-of-none", "0 255 1"),
    ("create-1-with-0", "0 255 1"),
    ("create-4-again", "15 255 1"),
    ("create-200-then-4-again", "15 255 2"),
    ("create-8-again", "15 255 1"),
    ("create-200-below-300", "15 255 1"),
    ("create-then-400", "0 255 2"),
    ("create-401-again", "15 255 1"),
    ("replace-401-and-2", "15 255 1"),
    ("replace-402-and-2", "0 255 4"),
    ("refused-61-500", "16 255 2"),
    ("refused-500-60", "15 255 2"),
    ("create-61-after-refusals", "0 255 1"),
    ("refused-10-and-a-subject", "13 255 0"),
    ("refused-10-and-2-2", "17 255 3"),
    ("create-10-after-refusals", "0 255 1"),
    ("create-and-destroy-13", "0 255 2"),
    ("create-and-destroy-13-again", "15 255 1"),
    ("create-14-destroy-2-4", "0 255 3"),
    ("create-entered-and-destroy", "0 255 4"),
    ("command-31-of-32", "0 255 48"),
    ("command-31-its-right-gone", "14 0 1"),
    ("27-no-scheme-request", "27 255 0"),
    ("no-room-matrix-asked-5", "27 255 0"),
    ("no-room-highest-asked-5", "27 255 0"),
    ("27-id-13-at-0-highest-12-request", "27 255 0"),
    ("27-id-13-at-0-highest-13-request", "0 255 3"),
    ("27-id-40-at-47-highest-39-request", "27 255 0"),
    ("27-id-40-at-47-highest-40-request", "0 255 3"),
    ("27-key-highest-11-request", "27 255 0"),
    ("27-key-highest-12-request", "0 255 3"),
    ("27-key-highest-65535-request", "0 255 3"),
    ("27-no-things-highest-0-request", "12 255 0"),
    ("27-no-things-highest-65535-request", "12 255 0"),
    ("steps-15-first-of-creates", "15 255 1"),
    ("steps-15-last-of-creates", "15 255 8"),
    ("steps-15-middle-before-enters-behind-tests", "15 255 20"),
    ("steps-15-last-before-enters-behind-tests", "15 255 23"),
    ("steps-16-first-before-enters-behind-tests", "16 255 17"),
    ("steps-16-middle-of-creates", "16 255 4"),
    ("steps-16-last-of-creates-behind-tests", "16 255 23"),
    ("steps-17-second-of-destroys", "17 255 2"),
    ("steps-17-second-after-enters", "17 255 26"),
    ("steps-17-middle-of-destroys-behind-tests", "17 255 21"),
    ("steps-17-last-after-enters", "17 255 32"),
    ("steps-17-last-after-enters-behind-tests", "17 255 48"),
    ("steps-0-of-creates", "0 255 8"),
    ("steps-0-before-enters-behind-tests", "0 255 48"),
    ("steps-14-first-before-15", "14 0 1"),
    ("steps-14-last-before-17", "14 15 16"),
    ("steps-office", "0 255 32"),
    ("steps-robot", "0 255 48"),
];

/// The same for lists, with all that is in the answers' buffer afterwards; before, it holds 1, 2, 3 and so on.
#[rustfmt::skip]
const LISTS: &[(&str, &str, &[u8])] = &[
    ("list-empty", "0 0", &[]),
    ("list-empty-room-1", "0 0", &[1]),
    ("list-empty-room-2", "0 0", &[1, 2]),
    ("list-of-three-room-3", "9", &[1, 2, 3]),
    ("list-of-three-room-6", "9", &[1, 2, 3, 4, 5, 6]),
    ("list-of-three-room-7", "9", &[1, 2, 3, 4, 5, 6, 7]),
    ("list-of-three-room-8", "9", &[1, 2, 3, 4, 5, 6, 7, 8]),
    ("list-of-three", "0 3", &[0, 255, 3, 0, 255, 2, 14, 1, 2]),
    ("list-of-three-room-10", "0 3", &[0, 255, 3, 0, 255, 2, 14, 1, 2, 10]),
    ("list-of-three-room-11", "0 3", &[0, 255, 3, 0, 255, 2, 14, 1, 2, 10, 11]),
    ("list-of-three-room-12", "0 3", &[0, 255, 3, 0, 255, 2, 14, 1, 2, 10, 11, 12]),
    ("list-all-refusals", "0 7", &[10, 255, 0, 11, 255, 0, 12, 255, 0, 13, 255, 0, 0, 255, 3, 0, 255, 2, 14, 1, 2]),
    ("list-bad-shorter", "9", &[1, 2, 3, 4]),
    ("list-bad-short", "9", &[1, 2, 3, 4, 5]),
    ("list-bad-front", "1 2 20", &[0, 255, 3, 0, 255, 2]),
    ("list-bad-kind", "2 2 20", &[0, 255, 3, 0, 255, 2, 7, 8]),
    ("list-bad-leftover", "3 2 20", &[0, 255, 3, 0, 255, 2, 7]),
    ("steps-list", "0 10", &[
        0, 255, 48, 10, 255, 0, 15, 255, 17, 11, 255, 0, 16, 255, 1, 17, 255, 42, 17, 255, 2, 0, 255, 8, 12, 255, 0, 14, 0, 1,
    ]),
    ("list-again", "0 10", &[
        0, 255, 1, 0, 255, 2, 15, 255, 1, 0, 255, 1, 15, 255, 1, 0, 255, 2, 15, 255, 1, 0, 255, 2, 15, 255, 1, 0, 255, 4,
    ]),
    ("list-between", "0 6", &[
        15, 255, 2, 15, 255, 2, 17, 255, 3, 0, 255, 1, 15, 255, 2, 0, 255, 2, 19, 20, 21, 22, 23, 24, 25, 26, 27, 28, 29, 30,
    ]),
    ("list-last", "0 7", &[
        0, 255, 1, 15, 255, 2, 0, 255, 1, 15, 255, 1, 0, 255, 2, 15, 255, 1, 15, 255, 1, 22, 23, 24, 25, 26, 27, 28, 29, 30,
    ]),
    ("list-full", "0 9", &[
        16, 255, 2, 0, 255, 1, 15, 255, 1, 16, 255, 1, 0, 255, 2, 15, 255, 2, 0, 255, 2, 15, 255, 1, 16, 255, 1, 28, 29, 30,
    ]),
];

/// The same for readings of matrices, of their heads and of their things: the number, the position, and what was read.
const READINGS: &[(&str, &str)] = &[
    ("key-matrix", "0 0 61"),
    ("matrix-kind-3", "2 0"),
    ("image-of-before", "2 0"),
    ("image-of-before-kind-7", "3 0"),
    ("no-things-of-before", "2 0"),
    ("no-things-of-before-kind-7", "3 0"),
    ("matrix-head-length-2", "3 0"),
    ("matrix-head-length-3", "3 0"),
    ("matrix-head-length-5", "3 0"),
    ("head-length-2-things-49", "4 0"),
    ("highest-13", "0 0 61"),
    ("highest-256", "0 0 61"),
    ("highest-65535", "0 0 61"),
    ("highest-11", "6 22"),
    ("highest-9", "6 22"),
    ("highest-8", "6 15"),
    ("highest-4", "6 8"),
    ("highest-0", "6 8"),
    ("things-2-highest-9", "0 0 22"),
    ("things-2-highest-8", "6 15"),
    ("things-0-highest-0", "0 0 8"),
    ("things-0-highest-65535", "0 0 8"),
    ("id-65535", "0 0 29"),
    ("id-65535-above", "6 22"),
    ("id-268-highest-267", "6 22"),
    ("id-same-as-highest", "7 15"),
    ("id-same-above-highest", "6 8"),
    ("id-above-type-3", "6 22"),
    ("id-above-length-1", "3 22"),
    ("id-above-length-2", "6 22"),
    ("id-above-length-4", "6 22"),
    ("part-thing-9-of-9-behind-8", "0 0 4 9 1 22"),
    ("part-thing-9-of-8-behind-8", "6 15"),
    ("part-thing-9-of-8-behind-9", "7 15"),
    ("part-thing-9-of-0-behind-10", "7 15"),
    ("part-thing-0-of-65535-behind-0", "6 15"),
    ("part-thing-0-of-0-behind-10", "6 15"),
    ("part-thing-9-of-8-behind-8-type-3", "6 15"),
    ("part-thing-9-of-8-behind-8-of-1", "3 15"),
    ("part-thing-9-of-8-behind-8-of-2", "6 15"),
    ("part-thing-9-of-8-behind-8-of-4", "6 15"),
    ("part-thing-9-of-9-behind-8-type-3", "5 15"),
    ("part-thing-9-of-9-behind-8-type-3-of-4", "5 15"),
    ("part-thing-9-of-9-behind-8-of-2", "3 15"),
    ("part-thing-9-of-9-behind-8-of-4", "3 15"),
    ("part-at-29-of-highest-0", "0 0 5 5 9 1 1 45"),
    ("part-at-0-of-highest-0", "0 0 7 3 12 8"),
    ("part-head-highest-255-255-things-0", "0 0 7 0 65535 8"),
    ("part-head-highest-0-1-things-48", "0 0 7 48 256 8"),
    ("part-head-highest-0-0-things-49", "4 0"),
];

/// What is planned: the number and the operation's place, which stand behind four words of what is located.
const PLANS: &[(&str, u8, u8)] = &[
    ("next", 0, 0),
    ("at-highest", 15, 0),
    ("at-20", 15, 0),
    ("below-20-free", 15, 0),
    ("below-20-used", 15, 0),
    ("next-of-20", 0, 0),
    ("next-of-20-again", 15, 0),
    ("last-of-65534", 0, 0),
    ("last-of-65535", 15, 0),
    ("one-of-65535", 15, 0),
    ("0-of-none", 15, 0),
    ("two-rise", 0, 0),
    ("two-same", 15, 1),
    ("two-fall", 15, 1),
    ("two-from-20", 15, 0),
    ("turned-rise", 0, 0),
    ("turned-fall", 15, 1),
    ("turned-from-20", 15, 0),
    ("turned-rise-at-47", 16, 1),
    ("full-next", 16, 0),
    ("full-at-highest", 15, 0),
    ("full-next-of-60", 16, 0),
    ("full-at-60", 15, 0),
    ("full-below-60-free", 15, 0),
    ("full-below-60-used", 15, 0),
    ("47-two-rise", 16, 1),
    ("47-two-same", 15, 1),
    ("47-two-fall", 15, 1),
    ("turn-again", 15, 0),
    ("replace-next", 0, 0),
    ("replace-two-gone", 17, 2),
    ("stranger-used-above", 0, 0),
    ("stranger-used-below", 15, 0),
    ("stranger-full-used", 16, 0),
    ("stranger-full-below", 15, 0),
];

/// As the program tells what a buffer holds.
fn sum(bytes: &[u8]) -> u64 {
    let add = |sum: u64, byte: &u8| (sum * 1_000_003 + u64::from(*byte)) % ((1 << 40) - 87);
    bytes.iter().fold(1, add)
}

#[test]
fn the_first_false_test_and_the_steps_are_told() {
    let text = stdout();
    let stands = |start: String| {
        assert!(text.lines().any(|line| line.starts_with(&start)), "{start}");
    };
    for (label, words) in ANSWERS {
        stands(format!("{label} {words} "));
    }
    for (label, words, buffer) in LISTS {
        stands(format!("{label} {words} {} ", sum(buffer)));
    }
}

#[test]
fn the_highest_id_is_looked_at_in_its_turn() {
    let text = stdout();
    for (label, words) in READINGS {
        let start = format!("{label} {words} ");
        let mut lines = text.lines().filter(|line| line.starts_with(&start));
        // Behind what was read stands the matrix's sum alone.
        let is_told = |line: &str| !line[start.len()..].contains(' ');
        assert!(lines.any(is_told), "{start}");
    }
    for (label, number, place) in PLANS {
        let start = format!("plan-highest-{label} ");
        let line = text.lines().find(|line| line.starts_with(&start));
        let words: Vec<&str> = line.expect(label).split(' ').collect();
        assert_eq!(
            words[5..7],
            [number.to_string(), place.to_string()],
            "{label}"
        );
    }
}

/// A matrix's sum as the program tells it: three numbers a seat, the highest id, two numbers a cell.
#[test]
fn the_highest_id_shows_in_the_sum() {
    let key = |highest: u64| {
        let mut numbers = vec![5, 0, 0, 9, 1, 0, 12, 2, 0];
        numbers.resize(3 * 48, 0);
        numbers.push(highest);
        let mut cells = [0; 2 * 2_400];
        cells[2] = 1;
        cells[2 * 50] = 2;
        // Behind the matrix's own cells, where the spoiled tables have left it.
        cells[2 * 2_304] = 5;
        numbers.extend(cells);
        let add = |sum: u64, number: &u64| (sum * 1_000_003 + number) % ((1 << 40) - 87);
        numbers.iter().fold(1, add)
    };
    let text = stdout();
    for (label, highest) in [
        ("matrix-to-write", 12),
        ("matrix-of-highest-13", 13),
        ("matrix-of-highest-65535", 65_535),
        ("put-12-again", 12),
        ("put-12-over-0", 13),
        ("put-0-at-3", 65_535),
        ("set-highest-256", 256),
    ] {
        let line = format!("{label} {}", key(highest));
        let ends = |found: &str| {
            let words: Vec<&str> = found.split(' ').collect();
            [words[0], words[words.len() - 1]].join(" ") == line
        };
        assert!(text.lines().any(ends), "{label}");
    }
}

/// How the two new things of the highest id stand in the input: a task of its own, and two bytes in front of a record's bytes.
#[test]
fn the_highest_id_is_encoded() {
    let input = stdin();
    let stands = |bytes: Vec<u8>| {
        assert!(input.windows(bytes.len()).any(|part| part == bytes));
    };
    let label = b"matrix-of-highest-3072";
    let front = [17, label.len() as u8, 0, 0];
    let cells = 2_304u16.to_le_bytes();
    let (room, at) = ([0; 8], 3_072u64.to_le_bytes());
    stands([&front[..], &cells, &room, &at, label].concat());

    let label = b"part-thing-12-1-of-267";
    let context = [1 << 4, 0, 5, 0, 0, 0, 3, 0, 0, 0, 0, 0, 0, 0, 11, 1];
    let head = [4, 0, 7, 0, 4, 3, 12, 0];
    let front = [92, label.len() as u8, 16 + 61, 0];
    let at = 15u64.to_le_bytes();
    stands([&front[..], &cells, &room, &at, label, &context, &head].concat());
}

/// Which numbers each public function can give, by the outline's table; a yes or no is 1 or 0, and what can't refuse gives 0. A method that tells an
/// answer's number gives all those of its answers, one that tells a position gives 0.
const FUNCTIONS: &[(&str, &[u8])] = &[
    ("accepted::command_accepted", &[0, 1]),
    ("accepted::command_fault", &[0, 4, 5, 6]),
    ("accepted::creatable", &[0, 1]),
    ("accepted::destroyable", &[0, 1]),
    ("accepted::group_of", &[0]),
    ("accepted::head_accepted", &[0, 1]),
    ("accepted::is_create", &[0, 1]),
    ("accepted::last_group", &[0]),
    ("accepted::scheme_accepted", &[0, 1]),
    ("accepted::type_at", &[0]),
    ("accepted_matrix::matrix_accepted", &[0, 1]),
    ("accepted_matrix::things_accepted", &[0, 1]),
    ("command_bytes::no_command", &[0]),
    ("command_bytes::read_command", &[0, 1, 2, 3, 4, 5, 6, 27]),
    ("command_bytes::read_head", &[0, 1, 2, 3, 4, 6]),
    ("convert::convert_matrix", &[0, 9, 20, 21, 22, 27]),
    ("convert::convert_scheme", &[0, 9, 20, 21, 22, 27]),
    ("convert::converted_cells", &[0, 20, 21, 22, 27]),
    ("convert::converted_scheme", &[0, 20, 21, 22, 27]),
    (
        "engine::request",
        &[0, 10, 11, 12, 13, 14, 15, 16, 17, 18, 27],
    ),
    ("engine::run_list", &[0, 1, 2, 3, 4, 9, 27]),
    ("engine::run_quietly", &[0, 1, 2, 3, 4, 27]),
    ("faults::Fault::from", &[0]),
    (
        "faults::Fault::number",
        &[0, 1, 2, 3, 4, 5, 6, 9, 20, 21, 22, 27],
    ),
    ("faults::u8::from", &[0, 1, 2, 3, 4, 5, 6, 7, 8, 27]),
    ("hold::hold", &[0, 12, 27]),
    ("hold::mark_thing", &[0, 12]),
    ("hold::release", &[0, 12, 27]),
    ("lines::id_in", &[0, 1]),
    ("lines::put_decimal", &[0]),
    ("lines::put_line", &[0]),
    ("lines::put_number", &[0]),
    ("lines::put_text", &[0]),
    ("matrix_bytes::read_matrix", &[0, 1, 2, 3, 4, 5, 6, 7, 27]),
    (
        "matrix_bytes::read_matrix_by_head",
        &[0, 1, 2, 3, 4, 5, 6, 7, 27],
    ),
    ("matrix_bytes::read_rest", &[0, 1, 2, 3, 5, 6, 7, 27]),
    ("matrix_records::any_record_at", &[0, 1]),
    ("matrix_records::read_cell", &[0, 1, 2, 3, 5, 6, 7, 27]),
    ("matrix_records::read_head", &[0, 1, 2, 3, 4, 6, 27]),
    ("matrix_records::read_thing", &[0, 1, 2, 3, 5, 6, 7, 27]),
    ("matrix_write::write_matrix", &[0, 9, 27]),
    ("matrix_write::write_matrix_by_head", &[0, 9, 27]),
    ("moving::back", &[0, 1, 2, 3, 4, 5, 6, 7, 9, 23, 27]),
    ("moving::forward", &[0, 1, 2, 3, 4, 5, 6, 7, 9, 27]),
    ("plan::locate", &[0, 12, 13, 18]),
    ("plan::plan_all", &[0, 15, 16, 17]),
    ("plan::seat_at", &[0]),
    ("records::Kinds::has", &[0, 1]),
    ("records::body", &[0]),
    ("records::byte_at", &[0, 3]),
    ("records::field2_at", &[0, 3]),
    ("records::field8_at", &[0, 3]),
    ("records::field_at", &[0, 3, 5]),
    ("records::next_record", &[0, 1, 2]),
    ("records::put1", &[0]),
    ("records::put2", &[0]),
    ("records::put8", &[0]),
    ("records::put_front", &[0]),
    ("records::record_at", &[0, 1, 2]),
    ("records::write_bytes", &[0, 9]),
    ("records::write_record", &[0, 4, 9]),
    ("request_bytes::read_request", &[0, 1, 2, 3, 4]),
    ("request_bytes::skip_request", &[0, 1, 2, 3, 4]),
    ("request_bytes::write_request", &[0, 4, 9]),
    ("request_list::count_requests", &[0]),
    ("rights::Parameter::below", &[0, 1]),
    ("rights::Parameter::byte", &[0]),
    ("rights::Parameter::is", &[0, 1]),
    ("rights::Parameter::is_zero", &[0, 1]),
    ("rights::Right::below", &[0, 1]),
    ("rights::Right::byte", &[0]),
    ("rights::Right::is", &[0, 1]),
    ("rights::Right::is_zero", &[0, 1]),
    ("rights::Right::partner", &[0]),
    ("rights::Right::single", &[0]),
    ("rights::RightSet::all", &[0]),
    ("rights::RightSet::complement", &[0]),
    ("rights::RightSet::count", &[0]),
    ("rights::RightSet::delete", &[0]),
    ("rights::RightSet::enter", &[0]),
    ("rights::RightSet::has", &[0, 1]),
    ("rights::RightSet::is_empty", &[0, 1]),
    ("rights::RightSet::within", &[0, 1]),
    ("rights::ThingType::below", &[0, 1]),
    ("rights::ThingType::byte", &[0]),
    ("rights::ThingType::is", &[0, 1]),
    ("rights::ThingType::is_zero", &[0, 1]),
    ("rights::TypeSet::has", &[0, 1]),
    ("rights::TypeSet::within", &[0, 1]),
    ("scheme_bytes::no_scheme", &[0]),
    ("scheme_bytes::read_scheme", &[0, 1, 2, 3, 4, 5, 6, 8]),
    ("scheme_write::write_scheme", &[0, 9, 27]),
    ("things::copy_cells", &[0]),
    ("things::no_things", &[0]),
    ("things::put_thing", &[0]),
    ("things::seat_in", &[0]),
    ("things::seat_of", &[0]),
    ("totals::totals", &[0, 27]),
];

/// Each function gives each of its numbers, and no other.
#[test]
fn every_number_is_reached() {
    let mut reached: BTreeMap<&str, BTreeSet<u8>> = BTreeMap::new();
    for line in told(&cases()) {
        for (function, number) in line.given {
            reached.entry(function).or_default().insert(number);
        }
    }
    let outline = FUNCTIONS.iter().map(|&(function, numbers)| {
        let numbers: BTreeSet<u8> = numbers.iter().copied().collect();
        (function, numbers)
    });
    assert_eq!(reached, outline.collect());
}

fn text(file: PathBuf) -> String {
    fs::read_to_string(&file).unwrap_or_else(|error| panic!("{}: {error}", file.display()))
}

/// What `robot` and `printout` stand on, by crates.txt, and what that stands on.
fn below_robot_and_printout() -> BTreeSet<String> {
    let listed = text(crates().join("../crates.txt"));
    let stands_on: BTreeMap<&str, &str> = listed
        .lines()
        .filter_map(|line| line.split_once(':'))
        .collect();
    let mut below = BTreeSet::new();
    let mut left = vec!["robot", "printout"];
    while let Some(name) = left.pop() {
        let named = stands_on[name].split_whitespace();
        left.extend(named.filter(|&other| below.insert(other.to_string())));
    }
    below
}

/// Whether no `impl` by hand compares the values of this type. What a derive writes is the kit's own, and no task asks it.
fn is_derived(path: &str) -> bool {
    let (crate_name, structure) = path.split_once('.').unwrap();
    let by_hand = format!("PartialEq for {}", structure.rsplit('.').next().unwrap());
    let mut files = fs::read_dir(crates().join(crate_name).join("src")).unwrap();
    !files.any(|file| text(file.unwrap().path()).contains(&by_hand))
}

/// The path of each public function of these crates. crates/tight has a line for each of all crates, and .ci/statements holds these lines to the source.
fn public_functions() -> BTreeSet<String> {
    let below = below_robot_and_printout();
    let lines = text(crates().join("tight/specs/Functions.antt"));
    let contract = |line: &str| {
        let word = line
            .split_whitespace()
            .find_map(|word| word.strip_suffix(".ended"))?;
        let word = word.replace(['«', '»'], "");
        if word.strip_suffix("PartialEq.eq").is_some_and(is_derived) {
            return None;
        }
        let mut parts: Vec<&str> = word.split('.').collect();
        // A method's module stands before its type.
        if parts.len() == 4 {
            parts.remove(1);
        }
        // What an `impl` of a trait gives has both names before it: it is its type's, also where the trait writes it once for all of them.
        let [_, given, _] = &mut parts[..] else {
            return below.contains(parts[0]).then(|| parts.join("::"));
        };
        *given = match *given {
            "FaultFromU8" => "Fault",
            "U8FromFault" => "u8",
            name => name.trim_end_matches("Numbered"),
        };
        below.contains(parts[0]).then(|| parts.join("::"))
    };
    let mut functions = BTreeSet::new();
    for function in lines.lines().filter_map(contract) {
        // No two lines are one entry: where one of them isn't asked, the other would hide it.
        let is_new = functions.insert(function.clone());
        assert!(is_new, "two lines of crates/tight: {function}");
    }
    functions
}

/// Every public function below `robot` and `printout` stands in the table above, so that a line is made of it.
#[test]
fn every_public_function_is_asked() {
    let asked = FUNCTIONS.iter().map(|(function, _)| function.to_string());
    assert_eq!(public_functions(), asked.collect());
}

/// The program itself calls each of them: by its crate's name, or as a method in a file that names the crate.
#[test]
fn the_program_calls_every_function() {
    let files = fs::read_dir(crates().join("edges/src")).unwrap();
    let files: Vec<String> = files.map(|file| text(file.unwrap().path())).collect();
    for (function, _) in FUNCTIONS {
        let parts: Vec<&str> = function.split("::").collect();
        let is_called = |file: &String| match parts[..] {
            [crate_name, structure, method] => {
                let by_path = format!("{structure}::{method}(");
                let called = file.contains(&format!(".{method}(")) || file.contains(&by_path);
                called && file.contains(&format!("{crate_name}::"))
            }
            _ => file.contains(&format!("{function}(")),
        };
        assert!(files.iter().any(is_called), "{function}");
    }
}
