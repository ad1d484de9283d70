//! The cases that the project's program `edges` carries out, each at the edge of a refusal number, and the lines that it must print. Its stored
//! input and output are both made here, so that nothing in them is copied from what that program prints.

mod asked;
mod at_position;
mod backs;
mod carrying_out;
mod commands;
mod conversions;
mod encoded;
mod examples;
mod fields;
mod forms;
mod forwards;
mod held_plans;
mod holds;
mod largest;
mod lines;
mod lists;
mod marked;
mod marks;
mod matrices;
mod moved;
mod old_images;
mod on_hold;
mod parts;
mod placed;
mod planned;
mod plans;
mod requests;
mod rests;
mod rooms;
mod said;
mod schemes;
mod seats;
mod sets;
mod steps;
mod strangers;
mod sums;
mod tasks;
mod texts;
mod things;
mod values;
mod words;

pub use lines::{told, Line};
pub use tasks::Task;

use seats::CELLS;

/// A line's label, what is to be done for it, and how many cells are lent.
#[derive(Clone, Debug, PartialEq, Eq)]
pub struct Case {
    pub label: String,
    pub task: Task,
    pub cells: u16,
}

/// All cases, in the order in which they are carried out; at first there is no scheme, and a matrix of nothing.
pub fn cases() -> Vec<Case> {
    let moves = [rests::cases(), forwards::cases(), backs::cases()];
    let before = [before_moves(), moves.concat()].concat();
    let moved = moved::cases(&before);
    [before, moved, placed::cases()].concat()
}

fn before_moves() -> Vec<Case> {
    [
        schemes::cases(),
        matrices::cases(),
        requests::cases(),
        largest::cases(),
        conversions::cases(),
        carrying_out::cases(),
        lists::cases(),
        steps::cases(),
        strangers::cases(),
        fields::cases(),
        commands::cases(),
        parts::cases(),
        things::cases(),
        forms::cases(),
        plans::cases(),
        texts::cases(),
        sets::cases(),
        marks::cases(),
        on_hold::cases(),
        held_plans::cases(),
        holds::cases(),
        marked::cases(),
        words::cases(),
    ]
    .concat()
}

/// The program's input: for each case the task's number (1 byte), the lengths of its label (1) and of its bytes (2), how many cells are lent (2), the
/// room of the lent buffer (8), a position (8), the label, the bytes.
pub fn stdin() -> Vec<u8> {
    let mut out = Vec::new();
    for case in cases() {
        let (number, room, at, bytes) = case.task.fields();
        let label = u8::try_from(case.label.len()).expect("a label is short");
        let length = u16::try_from(bytes.len()).expect("no input of a case is as long");
        out.extend([number, label]);
        out.extend(length.to_le_bytes());
        out.extend(case.cells.to_le_bytes());
        out.extend(room.to_le_bytes());
        out.extend(at.to_le_bytes());
        out.extend(case.label.as_bytes());
        out.extend(bytes);
    }
    out
}

/// What the program must print: a line for each case.
pub fn stdout() -> String {
    let lines = told(&cases());
    lines
        .iter()
        .map(|line| format!("{}\n", line.text))
        .collect()
}

fn case(label: impl Into<String>, task: Task) -> Case {
    let (label, cells) = (label.into(), CELLS as u16);
    Case { label, task, cells }
}
