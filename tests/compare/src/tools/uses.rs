//! The uses of the tools that a case gives, each with the files that it finds.

use independent::convert::check;
use independent::generate::{case, random::Random, Case};
use independent::matrix::read_matrix;
use independent::print::MOST_INPUT;
use independent::scheme::read_scheme;
use independent::tools::Folder;

use crate::play::files;

/// The tool's name first.
pub type Words = Vec<String>;

/// At times an output is an input, or there was a file of its name.
const OUTPUTS: [&str; 3] = ["after.bin", "old.bin", "matrix.bin"];

/// The images to move.
const OLD_IMAGE: &str = "old-image.bin";
const NEW_IMAGE: &str = "new-image.bin";

pub fn uses(seed: u64, number: u64) -> Vec<(Folder, Words)> {
    let case = case(seed, number);
    let mut files_now = files(&case);
    for (name, image) in [(OLD_IMAGE, &case.old), (NEW_IMAGE, &case.new)] {
        if !image.is_empty() {
            files_now.insert(name.to_string(), image.clone());
        }
    }
    lengthen(&mut files_now, number);
    let after = OUTPUTS[number as usize % 3];
    let random = &mut Random::new(seed, number);
    let id = |mark: Option<&(u16, bool)>| mark.expect("a case has marks").0;
    let words = [
        in_words(&["check", "scheme.bin"]),
        in_words(&["check", "scheme.bin", "matrix.bin"]),
        in_words(&["run", "scheme.bin", "matrix.bin", "requests.bin", after]),
        conversion(number),
        marking("hold", id(case.marks.first()), random),
        marking("release", id(case.marks.last()), random),
        moving("forward", [OLD_IMAGE, NEW_IMAGE], random),
        moving("back", [NEW_IMAGE, OLD_IMAGE], random),
    ];
    let mut uses: Vec<_> = words.map(|words| (files_now.clone(), words)).into();
    uses.push((files(&convertible(seed, number)), conversion(number)));
    uses
}

fn in_words(words: &[&str]) -> Words {
    words.iter().map(|word| word.to_string()).collect()
}

/// Few generated cases can be converted, so that one is looked for.
fn convertible(seed: u64, number: u64) -> Case {
    let far = 1_000_000;
    (1..)
        .map(|turn| case(seed, number + far * turn))
        .find(|case| {
            let scheme = read_scheme(&case.scheme);
            scheme.is_ok_and(|(scheme, _)| {
                check(&scheme) == 0 && read_matrix(&case.matrix, &scheme).is_ok()
            })
        })
        .expect("there always is a further case")
}

/// The words for a conversion; at times both outputs have one name.
fn conversion(number: u64) -> Words {
    let robot_scheme = ["robot-scheme.bin", "scheme.bin", "old.bin"][number as usize % 3];
    let robot_matrix = match number % 20 {
        11 => robot_scheme,
        even if even % 2 == 0 => "robot-matrix.bin",
        _ => "matrix.bin",
    };
    in_words(&[
        "convert",
        "scheme.bin",
        "matrix.bin",
        robot_scheme,
        robot_matrix,
    ])
}

/// The words for a hold or a release; at times the output is written under the matrix's name first.
fn marking(tool: &str, id: u16, random: &mut Random) -> Words {
    let after = *random.pick(&OUTPUTS);
    let matrix = match random.below(20) {
        0 => format!("{after}.new"),
        _ => "matrix.bin".to_string(),
    };
    let id = id_word(id, random);
    in_words(&[tool, "scheme.bin", &matrix, &id, after])
}

/// The words for a move; at times it is given the other image, and at times the output is written under the image's name first.
fn moving(tool: &str, [image, other]: [&str; 2], random: &mut Random) -> Words {
    let after = *random.pick(&["after.bin", "old.bin", image, other]);
    let image = match random.below(20) {
        0 => format!("{after}.new"),
        1 => other.to_string(),
        _ => image.to_string(),
    };
    in_words(&[tool, "scheme.bin", &image, after])
}

/// Mostly the id as it is or with zeros in front; at times a number that is no thing's, or a word that is no id at all.
fn id_word(id: u16, random: &mut Random) -> String {
    let wrong = ["", "-5", "+5", "5 ", "5x", "x", "0x5", "000005", "123456"];
    match random.below(16) {
        0 => "0".to_string(),
        1..=3 => format!("{id:05}"),
        4 => format!("{id:03}"),
        5 => random.from_to(65_536, 99_999).to_string(),
        6 => (65_536 + u32::from(id)).min(99_999).to_string(),
        7 => random.pick(&wrong).to_string(),
        _ => id.to_string(),
    }
}

/// Some cases have a file of just as many bytes as a tool takes, or of one more.
fn lengthen(files: &mut Folder, number: u64) {
    if number % 10 != 7 {
        return;
    }
    let names = [
        "scheme.bin",
        "matrix.bin",
        "requests.bin",
        OLD_IMAGE,
        NEW_IMAGE,
    ];
    let turn = number as usize / 10;
    let name = names[turn % names.len()];
    let length = MOST_INPUT + turn / names.len() % 2;
    files.entry(name.to_string()).or_default().resize(length, 0);
}
