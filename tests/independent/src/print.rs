//! The text that `play` prints for three inputs, and short listings of what was read for people.

use std::fmt::{Display, Write};

use crate::engine::carry_out;
use crate::matrix::{read_matrix, Matrix};
use crate::refusal::Refusal;
use crate::request::{read_request, Next};
use crate::scheme::{read_scheme, Operation, Scheme};

/// Of a longer file only these first bytes are the input.
pub const MOST_INPUT: usize = 65_536;

pub fn play(scheme: &[u8], matrix: &[u8], requests: &[u8]) -> String {
    let [scheme, matrix, requests] = [scheme, matrix, requests].map(first_bytes);
    let scheme = match read_scheme(scheme) {
        Ok((scheme, _)) => scheme,
        Err(refusal) => return bad(refusal),
    };
    let mut matrix = match read_matrix(matrix, &scheme) {
        Ok(matrix) => matrix,
        Err(refusal) => return bad(refusal),
    };

    answers(&scheme, &mut matrix, requests, Columns::UpToTest).0 + &end(&matrix)
}

/// How far a line goes: those of `play` end with the test, those of the tool `run` with the steps.
#[derive(Clone, Copy, Debug, PartialEq, Eq)]
pub enum Columns {
    UpToTest,
    UpToSteps,
}

impl Columns {
    fn end(self, steps: impl Display) -> String {
        match self {
            Columns::UpToTest => "\n".to_string(),
            Columns::UpToSteps => format!(" {steps}\n"),
        }
    }
}

/// The heading and a line for each request, carried out in turn; a record that can't be read ends them with `bad`, which is told beside the text.
pub fn answers(
    scheme: &Scheme,
    matrix: &mut Matrix,
    requests: &[u8],
    columns: Columns,
) -> (String, bool) {
    let mut text = String::from("request command result test") + &columns.end("steps");
    let mut at = 0;
    for position in 0.. {
        match read_request(requests, at) {
            Next::Request { request, next } => {
                let command = request.command;
                let answer = carry_out(scheme, matrix, command as usize, &request.ids);
                let (number, test) = (answer.number, answer.test);
                text += &format!("{position} {command} {number} {test}");
                text += &columns.end(answer.steps);
                at = next;
            }
            Next::End => break,
            Next::Refused(refusal) => return (text + &bad(refusal), true),
        }
    }
    (text, false)
}

fn first_bytes(input: &[u8]) -> &[u8] {
    &input[..input.len().min(MOST_INPUT)]
}

pub fn bad(refusal: Refusal) -> String {
    format!("bad {} {}\n", refusal.at, refusal.number)
}

fn end(matrix: &Matrix) -> String {
    format!(
        "end {} {} {}\n",
        matrix.things().len(),
        matrix.nonempty_cells(),
        matrix.entries()
    )
}

/// A scheme for people; parameters are written p0, p1 and so on.
pub fn list_scheme(scheme: &Scheme) -> String {
    let subjects: Vec<u8> = (0..scheme.types)
        .filter(|&kind| scheme.is_subject_type(kind))
        .collect();
    let mut text = format!(
        "rights {} types {} subjects {subjects:?}\n",
        scheme.rights, scheme.types
    );
    for (number, command) in scheme.commands.iter().enumerate() {
        writeln!(text, "command {number} parameters {:?}", command.parameters).unwrap();
        for test in &command.tests {
            let sense = if test.present {
                "present in"
            } else {
                "absent from"
            };
            writeln!(
                text,
                "  if {} {sense} [p{}, p{}]",
                test.right, test.row, test.column
            )
            .unwrap();
        }
        for operation in &command.operations {
            match operation {
                Operation::Enter { right, row, column } => {
                    writeln!(text, "  enter {right} in [p{row}, p{column}]")
                }
                Operation::Delete { right, row, column } => {
                    writeln!(text, "  delete {right} from [p{row}, p{column}]")
                }
                Operation::Create { parameter } => writeln!(text, "  create p{parameter}"),
                Operation::Destroy { parameter } => writeln!(text, "  destroy p{parameter}"),
            }
            .unwrap();
        }
    }
    text
}

/// A matrix for people: the highest id it ever had, its things and which of them are on hold, then its nonempty cells.
pub fn list_matrix(matrix: &Matrix) -> String {
    let mut text = format!("highest id {}\n", matrix.highest());
    for (id, kind) in matrix.things() {
        let mark = if matrix.is_held(*id) { " on hold" } else { "" };
        writeln!(text, "thing {id} type {kind}{mark}").unwrap();
    }
    for ((row, column), rights) in matrix.cells() {
        if *rights != 0 {
            writeln!(text, "cell {row} {column} rights {rights}").unwrap();
        }
    }
    text
}
