//! Counts by the highest id what matrices and creates are met: which ids are taken, and why others are not (15).

use std::collections::{BTreeMap, BTreeSet};
use std::fmt;

use crate::answer::Answer;
use crate::bytes::MATRIX_HEAD;
use crate::matrix::{Matrix, MOST_THINGS};
use crate::refusal::{Fault, Found};
use crate::scheme::{Command, Operation, Scheme};

/// More above the highest than this is far above it, and no more than that a bit.
const FAR: u16 = 1_000;
const BIT: u16 = 9;

macro_rules! met {
    ($($name:ident $words:literal,)*) => {
        #[derive(Clone, Copy, Debug, PartialEq, Eq, PartialOrd, Ord)]
        pub enum Met { $(#[doc = $words] $name,)* }

        impl Met {
            pub const ALL: &'static [Met] = &[$(Met::$name,)*];

            pub fn words(self) -> &'static str {
                match self { $(Met::$name => $words,)* }
            }
        }
    };
}

met! {
    NoThingsNone "matrix of no things: its highest is 0",
    NoThingsSome "matrix of no things: its highest is 1 to 65534",
    NoThingsLast "matrix of no things: its highest is 65535",
    Listed "matrix: its highest is its last listed id",
    ListedLast "matrix: its highest is its last listed id, and 65535",
    BitAbove "matrix: its highest is up to 9 above its last listed id",
    FarAbove "matrix: its highest is more than 1000 above its last listed id",
    LastAbove "matrix: its highest is 65535, and no thing has it",
    HeadOfBefore "matrix refused: kind 3, without a highest id",
    KindOfBefore "matrix refused: kind 3, with a highest id",
    BodyOfBefore "matrix refused: kind 7, without a highest id",
    AboveAlone "matrix refused: an id above the highest, and nothing else is wrong with its thing",
    AboveWithType "matrix refused: an id above the highest, of a type that there isn't",
    AboveWithLength "matrix refused: an id above the highest, and its thing's body is too short or too long",
    HighestUsed "create refused: the highest id itself, which a thing has",
    HighestFree "create refused: the highest id itself, which no thing has",
    BelowUsed "create refused: an id below the highest, which a thing has",
    BelowFree "create refused: an id below the highest, which no thing has",
    Destroyed "create refused: the id of a thing that a request before destroyed",
    SameCommand "create refused: the id of a create before it in its command",
    FallsInCommand "create refused: an id that is above all before its command, and below a create before it",
    NoneLeft "create refused: the highest is 65535",
    RanOut "create refused: the highest is 65535, and wasn't before the first request",
    FullAbove "create refused: an id above the highest, with 48 things",
    FullNotAbove "create refused: an id that isn't above the highest, with 48 things",
    Next "create carried out: one above the highest",
    Bit "create carried out: 2 to 9 above the highest",
    Far "create carried out: more than 1000 above the highest",
    Last "create carried out: 65535",
    First "create carried out: where the highest is 0",
    Several "request carried out: of several creates",
    TakenBack "request refused behind a create that was possible",
}

#[derive(Clone, Debug, Default)]
pub struct Highest {
    counts: BTreeMap<Met, u64>,
    /// The highest of the last matrix, and what was destroyed in it.
    start: u16,
    destroyed: BTreeSet<u16>,
}

impl Highest {
    pub fn count(&self, met: Met) -> u64 {
        self.counts.get(&met).copied().unwrap_or(0)
    }

    fn note(&mut self, met: Met, holds: bool) {
        *self.counts.entry(met).or_default() += u64::from(holds);
    }

    /// A matrix that was read; the requests that follow are on it.
    pub fn matrix(&mut self, matrix: &Matrix) {
        let highest = matrix.highest();
        self.start = highest;
        self.destroyed.clear();
        let Some((&last, _)) = matrix.things().last_key_value() else {
            self.note(Met::NoThingsNone, highest == 0);
            self.note(Met::NoThingsSome, (1..u16::MAX).contains(&highest));
            self.note(Met::NoThingsLast, highest == u16::MAX);
            return;
        };
        let above = highest - last;
        self.note(Met::Listed, above == 0);
        self.note(Met::ListedLast, last == u16::MAX);
        self.note(Met::BitAbove, (1..=BIT).contains(&above));
        self.note(Met::FarAbove, above > FAR);
        self.note(Met::LastAbove, above > 0 && highest == u16::MAX);
    }

    /// A matrix of this scheme that was refused; none of the requests is on it.
    pub fn refused_matrix(&mut self, found: Found, input: &[u8], scheme: &Scheme) {
        let Some(record) = input.get(found.at..).filter(|record| record.len() >= 4) else {
            return;
        };
        let two = |at: usize| u16::from_le_bytes([record[at], record[at + 1]]);
        let (length, kind) = (two(0), two(2));
        let is_head = found.at == 0;
        self.note(Met::HeadOfBefore, is_head && (kind, length) == (3, 2));
        self.note(Met::KindOfBefore, is_head && (kind, length) == (3, 4));
        let lacks = found.fault == Fault::FieldMissing && (kind, length) == (MATRIX_HEAD, 2);
        self.note(Met::BodyOfBefore, is_head && lacks);

        let is_above = found.fault == Fault::ThingAboveHighest;
        let is_whole = length == 3;
        let has_type = is_whole && record.get(6).is_some_and(|&kind| kind < scheme.types);
        self.note(Met::AboveAlone, is_above && has_type);
        self.note(Met::AboveWithType, is_above && is_whole && !has_type);
        self.note(Met::AboveWithLength, is_above && !is_whole);
    }

    /// A request of this command, and its answer; the matrix afterwards, whose highest was this before.
    pub fn request(
        &mut self,
        command: &Command,
        ids: &[u16],
        answer: Answer,
        before: u16,
        after: &Matrix,
    ) {
        if !matches!(answer.number, 0 | 15..=17) {
            return;
        }
        let id_of = |parameter: u8| ids[usize::from(parameter)];
        let come_to = usize::from(answer.steps) - command.tests.len();
        let mut created = Vec::new();
        for operation in &command.operations[..come_to] {
            match *operation {
                Operation::Create { parameter } => created.push(id_of(parameter)),
                Operation::Destroy { parameter } if answer.number == 0 => {
                    self.destroyed.insert(id_of(parameter));
                }
                _ => {}
            }
        }
        match answer.number {
            0 => self.carried_out(&created, before),
            15 => self.refused(&created, before, after),
            16 => self.note(Met::FullAbove, true),
            _ => {}
        }
        let possible = created.len() - usize::from(matches!(answer.number, 15 | 16));
        self.note(Met::TakenBack, answer.number != 0 && possible > 0);
    }

    fn carried_out(&mut self, created: &[u16], before: u16) {
        let mut highest = before;
        for &id in created {
            let above = id - highest;
            self.note(Met::Next, above == 1);
            self.note(Met::Bit, (2..=BIT).contains(&above));
            self.note(Met::Far, above > FAR);
            self.note(Met::Last, id == u16::MAX);
            self.note(Met::First, highest == 0);
            highest = id;
        }
        self.note(Met::Several, created.len() > 1);
    }

    /// 15 at the last of the creates. The matrix is as it was before them, since they are taken back.
    fn refused(&mut self, created: &[u16], before: u16, matrix: &Matrix) {
        let (&id, earlier) = created.split_last().expect("a create is refused");
        let highest = earlier.last().copied().unwrap_or(before);
        let is_used = earlier.contains(&id) || matrix.type_of(id).is_some();
        self.note(Met::HighestUsed, id == highest && is_used);
        self.note(Met::HighestFree, id == highest && !is_used);
        self.note(Met::BelowUsed, id < highest && is_used);
        self.note(Met::BelowFree, id < highest && !is_used);
        let is_destroyed = !is_used && self.destroyed.contains(&id);
        self.note(Met::Destroyed, is_destroyed);
        self.note(Met::SameCommand, earlier.contains(&id));
        let falls = id > before && !earlier.contains(&id);
        self.note(Met::FallsInCommand, falls);
        self.note(Met::NoneLeft, highest == u16::MAX);
        let is_spent = before == u16::MAX && self.start != u16::MAX;
        self.note(Met::RanOut, is_spent);
        let is_full = matrix.things().len() + earlier.len() == MOST_THINGS;
        self.note(Met::FullNotAbove, is_full);
    }
}

impl fmt::Display for Highest {
    fn fmt(&self, out: &mut fmt::Formatter) -> fmt::Result {
        writeln!(out, "     count by the highest id")?;
        for &met in Met::ALL {
            writeln!(out, "{:>10} {}", self.count(met), met.words())?;
        }
        Ok(())
    }
}
