//! Counts by the marks what matrices, requests, holds and releases are met: where things on hold stand, and what they decide (18) or don't.

mod faults;
mod ways;

pub use ways::Stood;

use std::collections::BTreeMap;
use std::fmt;

use crate::answer::Answer;
use crate::bytes::HELD_THING;
use crate::generate::fields::{records, Span};
use crate::matrix::{is_thing, Matrix, MOST_THINGS};
use crate::refusal::{Fault, Found, Refusal};
use crate::scheme::{Command, Operation, Scheme};
use faults::Faults;

#[derive(Clone, Debug, Default)]
pub struct Held {
    counts: BTreeMap<Stood, u64>,
}

impl Held {
    pub fn count(&self, stood: Stood) -> u64 {
        self.counts.get(&stood).copied().unwrap_or(0)
    }

    fn note(&mut self, stood: Stood, holds: bool) {
        *self.counts.entry(stood).or_default() += u64::from(holds);
    }

    /// A matrix of this scheme that was read.
    pub fn matrix(&mut self, matrix: &Matrix, scheme: &Scheme) {
        let (things, held) = (matrix.things(), matrix.on_hold());
        let Some((first, last)) = things.keys().next().zip(things.keys().last()) else {
            return;
        };
        self.note(Stood::NoneHeld, held.is_empty());
        let some = 1..things.len();
        self.note(Stood::SomeHeld, some.contains(&held.len()));
        self.note(Stood::AllHeld, held.len() == things.len());
        let is_subject = |id: &u16| scheme.is_subject_type(things[id]);
        self.note(Stood::SubjectHeld, held.iter().any(is_subject));
        self.note(Stood::ObjectHeld, !held.iter().all(is_subject));
        self.note(Stood::FirstHeld, held.contains(first));
        self.note(Stood::LastHeld, held.contains(last));
        let is_full = things.len() == MOST_THINGS;
        self.note(Stood::LastOfFullHeld, is_full && held.contains(last));
        let mut filled = matrix.cells().iter().filter(|(_, &rights)| rights != 0);
        let has_rights = filled.clone().any(|((row, _), _)| held.contains(row));
        self.note(Stood::HeldWithRights, has_rights);
        let is_named = filled.any(|((_, column), _)| held.contains(column));
        self.note(Stood::RightsInHeld, is_named);
    }

    /// A matrix that was refused.
    pub fn refused_matrix(&mut self, found: Found, input: &[u8]) {
        let before = |record: &Span| record.at < found.at;
        let before: Vec<Span> = records(input).into_iter().filter(before).collect();
        let Some(kind) = kind(input, found.at) else {
            return;
        };
        let is_strange = found.fault == Fault::Kind;
        // Behind a head that can be read stands how many things follow it.
        let things = usize::from(input.get(5).copied().unwrap_or(0));
        let at_thing = (1..=things).contains(&before.len());
        let at_cell = before.len() > things;
        self.note(
            Stood::HeldHead,
            is_strange && before.is_empty() && kind == HELD_THING,
        );
        self.note(Stood::HeldCell, is_strange && at_cell && kind == HELD_THING);
        self.note(Stood::NineForThing, is_strange && at_thing && kind == 9);
        let has_low = is_thing(kind & 0xFF);
        self.note(Stood::LowByteForThing, is_strange && at_thing && has_low);
        let has_high = kind & 0xFF == 0 && is_thing(kind >> 8);
        self.note(Stood::HighByteForThing, is_strange && at_thing && has_high);
        if at_thing {
            let last = before.last().expect("the head").at;
            let is_last_held = self::kind(input, last) == Some(HELD_THING);
            self.refused_thing(found.fault, is_last_held, kind == HELD_THING);
        }
    }

    /// Of a kind that may stand there, behind a thing or the head.
    fn refused_thing(&mut self, fault: Fault, is_last_held: bool, is_held: bool) {
        let falls = fault == Fault::ThingOrder;
        self.note(Stood::FallsToHeld, falls && is_held && !is_last_held);
        self.note(Stood::FallsFromHeld, falls && !is_held && is_last_held);
        self.note(Stood::FallsHeld, falls && is_held && is_last_held);
        let stood = match fault {
            Fault::ThingIdZero => Stood::HeldZero,
            Fault::ThingAboveHighest => Stood::HeldAbove,
            Fault::ThingType => Stood::HeldType,
            Fault::FieldMissing | Fault::FieldCut => Stood::HeldShort,
            Fault::BodyLeftover => Stood::HeldLong,
            Fault::BodyPastEnd => Stood::HeldPastEnd,
            _ => return,
        };
        self.note(stood, is_held);
    }

    /// A request of this command, and its answer; the matrix before it and after it.
    pub fn request(
        &mut self,
        command: &Command,
        ids: &[u16],
        answer: Answer,
        before: &Matrix,
        after: &Matrix,
    ) {
        let request = Faults {
            command,
            ids,
            before,
        };
        let names_held = ids.iter().any(|&id| before.is_held(id));
        match answer.number {
            11 => self.note(Stood::CountFirst, names_held),
            12 | 13 => self.before_held(&request, answer.number),
            18 => self.held(&request),
            _ => self.beside_held(&request, answer, after),
        }
    }

    /// 12 or 13: what is on hold isn't come to, unless it is what has another type.
    fn before_held(&mut self, request: &Faults, number: u8) {
        let place = request.first();
        let is_later = request.later(place, 18);
        self.note(Stood::NoneFirst, number == 12 && is_later);
        self.note(Stood::TypeFirst, number == 13 && is_later);
        let is_held = request.before.is_held(request.ids[place]);
        self.note(Stood::TypeOfHeld, number == 13 && is_held);
    }

    /// 18.
    fn held(&mut self, request: &Faults) {
        let place = request.first();
        self.note(Stood::AT[place], true);
        self.role(request.command, place as u8);
        let later = || place + 1..request.ids.len();
        let is_same = |other: usize| request.ids[other] == request.ids[place];
        let is_held = |other: &usize| request.at(*other) == 18;
        self.note(Stood::HeldTwice, later().filter(is_held).any(is_same));
        let another = later().filter(is_held).any(|other| !is_same(other));
        self.note(Stood::HeldAndAnother, another);
        self.note(Stood::HeldThenNone, request.later(place, 12));
        self.note(Stood::HeldThenType, request.later(place, 13));
        let number = request.without_marks();
        self.note(Stood::HeldAlone, number == 0);
        self.note(Stood::HeldBeforeTest, number == 14);
        self.note(Stood::HeldBeforeCreate, matches!(number, 15 | 16));
        self.note(Stood::HeldBeforeDestroy, number == 17);
    }

    /// What the parameter of the thing on hold is there for.
    fn role(&mut self, command: &Command, parameter: u8) {
        let mut roles = Vec::new();
        for test in &command.tests {
            roles.push((test.row, Stood::HeldTestRow));
            roles.push((test.column, Stood::HeldTestColumn));
        }
        for operation in &command.operations {
            match *operation {
                Operation::Enter { row, column, .. } => {
                    roles.extend([(row, Stood::HeldEnterRow), (column, Stood::HeldEnterColumn)]);
                }
                Operation::Delete { row, column, .. } => {
                    roles.extend([
                        (row, Stood::HeldDeleteRow),
                        (column, Stood::HeldDeleteColumn),
                    ]);
                }
                Operation::Destroy { parameter } => roles.push((parameter, Stood::HeldDestroyed)),
                Operation::Create { .. } => {}
            }
        }
        roles.retain(|(place, _)| *place == parameter);
        self.note(Stood::HeldUnnamed, roles.is_empty());
        roles.sort_unstable();
        roles.dedup();
        for (_, stood) in roles {
            self.note(stood, true);
        }
    }

    /// 0 and 14 to 17: no thing on hold is a parameter, but one may have the id of a new one.
    fn beside_held(&mut self, request: &Faults, answer: Answer, after: &Matrix) {
        let (before, number) = (request.before, answer.number);
        let held = before.on_hold();
        if held.is_empty() {
            return;
        }
        let names_held = request.ids.iter().any(|id| held.contains(id));
        self.note(Stood::TestBeside, number == 14 && !names_held);
        self.note(Stood::TestFirst, number == 14 && names_held);
        self.note(
            Stood::CreateOfHeld,
            number == 15 && request.comes_to_held(answer),
        );
        self.note(Stood::FullBeside, number == 16);
        self.note(Stood::GoneBeside, number == 17);
        if number == 0 {
            let is_created = |id: &u16| before.type_of(*id).is_none();
            let is_destroyed = |id: &&u16| after.type_of(**id).is_none();
            let created = after.things().keys().any(is_created);
            self.note(Stood::CreatedBeside, created);
            let mut destroyed = before.things().keys().filter(is_destroyed);
            self.note(Stood::DestroyedBeside, destroyed.clone().next().is_some());
            let has_rights = |&id: &u16| {
                let mut rows = held.iter().map(|&row| before.cell(row, id));
                rows.any(|rights| rights.unwrap_or(0) != 0)
            };
            self.note(Stood::RightsGone, destroyed.any(has_rights));
            self.note(Stood::CarriedOutBeside, true);
        }
    }

    /// A hold (true) or a release of this id in a matrix that is accepted, and what it gave.
    pub fn mark(&mut self, id: u16, held: bool, before: &Matrix, marked: &Result<Matrix, Refusal>) {
        let (things, was_held) = (before.things(), before.is_held(id));
        let Ok(marked) = marked else {
            self.note(Stood::MarkOfNothing, things.is_empty());
            let stood = match (held, id) {
                (true, 0) => Stood::HoldZero,
                (false, 0) => Stood::ReleaseZero,
                (true, id) if id <= before.highest() => Stood::HoldNone,
                (false, id) if id <= before.highest() => Stood::ReleaseNone,
                (true, _) => Stood::HoldAbove,
                (false, _) => Stood::ReleaseAbove,
            };
            return self.note(stood, true);
        };
        let stood = match (held, was_held) {
            (true, false) => Stood::HoldFree,
            (true, true) => Stood::HoldHeld,
            (false, true) => Stood::ReleaseHeld,
            (false, false) => Stood::ReleaseFree,
        };
        self.note(stood, true);
        let is_changed = held != was_held;
        let left = marked.on_hold().len();
        self.note(Stood::HoldLast, is_changed && left == things.len());
        self.note(Stood::ReleaseLast, is_changed && left == 0);
        self.note(Stood::MarkFirst, things.keys().next() == Some(&id));
        let is_last = things.keys().last() == Some(&id);
        self.note(Stood::MarkLast, is_last);
        let is_full = things.len() == MOST_THINGS;
        self.note(Stood::MarkLastOfFull, is_last && is_full);
    }
}

/// The kind of the record at a position, if there is so much of one.
fn kind(input: &[u8], at: usize) -> Option<u16> {
    let front = input.get(at..at + 4)?;
    Some(u16::from_le_bytes([front[2], front[3]]))
}

impl fmt::Display for Held {
    fn fmt(&self, out: &mut fmt::Formatter) -> fmt::Result {
        writeln!(out, "     count by a mark")?;
        for &stood in Stood::ALL {
            writeln!(out, "{:>10} {}", self.count(stood), stood.words())?;
        }
        Ok(())
    }
}
