//! Holds what the driver tells against what it must tell, up to the first difference.

use std::io::{self, ErrorKind, Read, Write};
use std::ops::Range;

use independent::generate::case;

use crate::cases::tries_edges;
use crate::counts::Counts;
use crate::expected::expected;
use crate::images::images;
use crate::told::Told;
use crate::Stop;

pub fn check(seed: u64, numbers: Range<u64>, mut input: impl Read) -> Result<(), Stop> {
    let mut counts = Counts::default();
    for number in numbers {
        let case = case(seed, number);
        let images = images(&case, number);
        let all = expected(&case, &images, tries_edges(number), &mut counts);
        for (place, told) in all.iter().enumerate() {
            if let Err(what) = compare(told, &mut input) {
                return Err(Stop::Differs(format!(
                    "case {number} of seed {seed}, result {place}, {}: {what}",
                    told.call
                )));
            }
            counts.told(told);
        }
        counts.cases += 1;
    }
    if !matches!(input.read(&mut [0]), Ok(0)) {
        return Err(Stop::Differs(format!(
            "the driver tells more than the results of {} cases",
            counts.cases
        )));
    }
    // A reader that stops early, as `head` does, is no failure.
    let _ = io::stdout().write_all(counts.to_string().as_bytes());
    Ok(())
}

/// Compares one result; tells the first difference in words.
fn compare(told: &Told, input: &mut impl Read) -> Result<(), String> {
    for (what, wanted) in &told.numbers {
        let mut bytes = [0; 8];
        match input.read_exact(&mut bytes) {
            Ok(()) => {}
            Err(error) if error.kind() == ErrorKind::UnexpectedEof => {
                return Err("the driver's output ends here".to_string());
            }
            Err(error) => return Err(format!("the driver's output can't be read: {error}")),
        }
        let got = u64::from_le_bytes(bytes);
        if got != *wanted {
            return Err(format!(
                "{what} is {got} in the library, {wanted} in the independent program"
            ));
        }
    }
    Ok(())
}
