//! Runs `play` on each case's files and holds what it prints against the independent program.

use std::ops::Range;
use std::process::Command;

use independent::generate::{case, Case};
use independent::print::play;
use independent::tools;

use crate::folder::Folder;
use crate::Stop;

pub fn compare(
    seed: u64,
    numbers: Range<u64>,
    program: &str,
    words: &[String],
) -> Result<(), Stop> {
    let folder = Folder::new("play")?;
    let mut lines = 0;
    let mut count = 0;
    for number in numbers {
        let case = case(seed, number);
        folder.fill(&files(&case))?;
        let output = Command::new(program)
            .args(words)
            .current_dir(&folder.path)
            .output()
            .map_err(|error| Stop::Failed(format!("{program} can't be run: {error}")))?;
        let case_words = format!("case {number} of seed {seed}");
        if !output.status.success() {
            let said = String::from_utf8_lossy(&output.stderr);
            return Err(Stop::Differs(format!(
                "{case_words}: {program} ended with {}: {said}",
                output.status
            )));
        }
        let wanted = play(&case.scheme, &case.matrix, &case.requests);
        let got = String::from_utf8_lossy(&output.stdout);
        if got != wanted {
            return Err(Stop::Differs(format!(
                "{case_words}: {}",
                difference(&got, &wanted)
            )));
        }
        lines += wanted.lines().count();
        count += 1;
    }
    println!("{count} cases of play, {lines} lines");
    Ok(())
}

/// The case's three inputs by their names. An empty one is at times an empty file and at times none at all; the room is as good as a coin.
pub fn files(case: &Case) -> tools::Folder {
    let mut files = tools::Folder::new();
    let mut put = |name: &str, bytes: &[u8], missing_if_empty: bool| {
        if !bytes.is_empty() || !missing_if_empty {
            files.insert(name.to_string(), bytes.to_vec());
        }
    };
    put("scheme.bin", &case.scheme, true);
    put("matrix.bin", &case.matrix, true);
    put("requests.bin", &case.requests, case.room % 2 == 0);
    files
}

/// The first line that differs.
pub fn difference(got: &str, wanted: &str) -> String {
    let (mut got, mut wanted) = (got.lines(), wanted.lines());
    for line in 1.. {
        match (got.next(), wanted.next()) {
            (Some(got), Some(wanted)) if got == wanted => {}
            (None, None) => break,
            (got, wanted) => {
                let shown = |line: Option<&str>| match line {
                    Some(line) => format!("\"{line}\""),
                    None => "nothing".to_string(),
                };
                return format!(
                    "line {line} is {} in the program, {} in the independent one",
                    shown(got),
                    shown(wanted)
                );
            }
        }
    }
    "the lines are equal, and only their ends differ".to_string()
}
