//! The program: makes cases for the library's driver, checks what the driver tells, and compares `play` and the tools.

mod buffer;
mod cases;
mod check;
mod counts;
mod expected;
mod folder;
mod images;
mod list;
mod play;
mod told;
mod tools;
mod ways;

use std::env;
use std::io::{BufReader, BufWriter};
use std::ops::Range;
use std::process::ExitCode;

const EXPECTED: &str = "expected one of
  compare cases SEED COUNT [FIRST]        the driver's input, on standard output
  compare check SEED COUNT [FIRST]        checks the driver's output, from standard input
  compare play SEED COUNT PROGRAM...      runs PROGRAM in a folder with each case's files and checks what it prints
  compare tools SEED COUNT PROGRAM...     runs PROGRAM with the words of each tool, and checks the files afterwards too
where SEED, COUNT and FIRST are numbers from 0 to 18446744073709551615; FIRST is the first case's number, 0 if not given";

/// Why a subcommand ended early.
pub enum Stop {
    /// The two programs differ, or the other one didn't answer.
    Differs(String),
    /// Nothing can be said about the programs.
    Failed(String),
}

fn main() -> ExitCode {
    let arguments: Vec<String> = env::args().skip(1).collect();
    let answer = match call(&arguments) {
        Ok(answer) => answer,
        Err(what) => {
            eprintln!("compare: {what}\n{EXPECTED}");
            return ExitCode::from(2);
        }
    };
    match answer {
        Ok(()) => ExitCode::SUCCESS,
        Err(Stop::Differs(what)) => {
            eprintln!("compare: {what}");
            ExitCode::from(1)
        }
        Err(Stop::Failed(what)) => {
            eprintln!("compare: {what}");
            ExitCode::from(2)
        }
    }
}

/// What the subcommand answers; an error where there is no such call.
fn call(arguments: &[String]) -> Result<Result<(), Stop>, String> {
    let Some((name, rest)) = arguments.split_first() else {
        return Err("no subcommand".to_string());
    };
    match (name.as_str(), rest) {
        ("cases", [seed, count, first @ ..]) if first.len() <= 1 => {
            let numbers = range(count, first)?;
            let out = BufWriter::new(std::io::stdout().lock());
            Ok(cases::write(number("SEED", seed)?, numbers, out))
        }
        ("check", [seed, count, first @ ..]) if first.len() <= 1 => {
            let numbers = range(count, first)?;
            let input = BufReader::new(std::io::stdin().lock());
            Ok(check::check(number("SEED", seed)?, numbers, input))
        }
        ("play", [seed, count, program, words @ ..]) => Ok(play::compare(
            number("SEED", seed)?,
            range(count, &[])?,
            program,
            words,
        )),
        ("tools", [seed, count, program, words @ ..]) => Ok(tools::compare(
            number("SEED", seed)?,
            range(count, &[])?,
            program,
            words,
        )),
        _ => Err(format!("this isn't a call: {}", arguments.join(" "))),
    }
}

fn range(count: &str, first: &[String]) -> Result<Range<u64>, String> {
    let first = match first {
        [first] => number("FIRST", first)?,
        _ => 0,
    };
    let end = first.checked_add(number("COUNT", count)?);
    Ok(first..end.ok_or("FIRST and COUNT together are too large")?)
}

fn number(name: &str, text: &str) -> Result<u64, String> {
    text.parse()
        .map_err(|_| format!("{name} must be a number, and isn't: {text}"))
}
