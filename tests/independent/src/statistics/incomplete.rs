//! Counts how pairs are incomplete: what the poorer lacks, what it carries out all the same, how its run ends, and what it does where nothing is promised.
//! Each way is read off the pair and what its list gave, not off what the pair was drawn for.

mod request;
mod ways;

pub use ways::{Behind, Did, Length, Looser, Paired, Start, Stopped};

use std::collections::{BTreeMap, BTreeSet};
use std::fmt;

use crate::generate::incomplete::plan::{Ending, Lacking};
use crate::generate::incomplete::Pair;
use crate::incomplete::{broken, entries_more, tests_no_absence, Entry, Named, Run};
use crate::matrix::{Matrix, MOST_THINGS};
use crate::moving::highest_listed;
use request::did;

#[derive(Clone, Debug, Default)]
pub struct Pairs {
    counts: BTreeMap<Paired, u64>,
}

/// A pair and what its list gave to each of the two.
#[derive(Clone, Copy)]
struct Ran<'a> {
    pair: &'a Pair,
    poorer: &'a Run,
    richer: &'a Run,
}

impl Pairs {
    pub fn count(&self, paired: Paired) -> u64 {
        self.counts.get(&paired).copied().unwrap_or(0)
    }

    /// The ways that were met at all.
    pub fn met(&self) -> BTreeSet<Paired> {
        let met = self.counts.iter().filter(|(_, &count)| count > 0);
        met.map(|(&paired, _)| paired).collect()
    }

    fn note(&mut self, paired: Paired, holds: bool) {
        *self.counts.entry(paired).or_default() += u64::from(holds);
    }

    /// A pair, and what its whole list gave.
    pub fn add(&mut self, pair: &Pair, poorer: &Run, richer: &Run) {
        let ran = Ran {
            pair,
            poorer,
            richer,
        };
        if !tests_no_absence(&pair.scheme) {
            return self.looser(ran);
        }
        let missing = entries_more(&pair.richer, &pair.poorer);
        self.ended(ran, &missing);
        self.start(pair, &missing);
        self.requests(ran);
        self.length(ran, &missing);
        self.stopped(ran);
        self.behind(ran);
    }

    fn ended(&mut self, ran: Ran, missing: &[Entry]) {
        let Some(ending) = ran.ending() else {
            return;
        };
        for lacking in Lacking::ALL {
            let holds = ran.lacks(lacking, missing);
            self.note(Paired::Ended(lacking, ending), holds);
        }
    }

    /// With entries missing, but where there is nothing that could be.
    fn start(&mut self, pair: &Pair, missing: &[Entry]) {
        let matrix = &pair.richer;
        let things = matrix.things().len();
        self.note(Paired::Start(Start::NoThings), things == 0);
        if missing.is_empty() {
            return;
        }
        let held = |id: u16| matrix.is_held(id);
        let above = matrix.highest() > highest_listed(matrix);
        for (start, holds) in [
            (Start::Full, things == MOST_THINGS),
            (Start::Held, !matrix.on_hold().is_empty()),
            (Start::HeldRow, missing.iter().any(|entry| held(entry.row))),
            (
                Start::HeldColumn,
                missing.iter().any(|entry| held(entry.column)),
            ),
            (Start::HighestListed, !above),
            (Start::HighestAbove, above),
            (Start::HighestLast, above && matrix.highest() == u16::MAX),
        ] {
            self.note(Paired::Start(start), holds);
        }
    }

    fn requests(&mut self, ran: Ran) {
        for place in 0..ran.poorer.carried_out() {
            let named = Named::of(&ran.pair.scheme, &ran.pair.requests[place]);
            let (before, after) = (ran.before(place), ran.before(place + 1));
            for (way, holds) in did(&named, &ran.pair.scheme, before, after) {
                self.note(Paired::Did(way), holds);
            }
        }
    }

    fn length(&mut self, ran: Ran, missing: &[Entry]) {
        if missing.is_empty() {
            return;
        }
        let count = ran.poorer.carried_out();
        let is_refused = count < ran.poorer.answers.len();
        let (poorer, richer) = ran.before(count);
        let is_missing = !entries_more(richer, poorer).is_empty();
        for (length, holds) in [
            (Length::None, is_refused && count == 0),
            (Length::Few, is_refused && (1..=4).contains(&count)),
            (Length::Several, is_refused && (5..=9).contains(&count)),
            (Length::Many, is_refused && count >= 10),
            (Length::ManyMissing, count >= 10 && is_missing),
            (Length::MadeUp, !is_missing),
        ] {
            self.note(Paired::Length(length), holds);
        }
    }

    fn stopped(&mut self, ran: Ran) {
        let place = ran.poorer.carried_out();
        let answers = ran
            .poorer
            .answers
            .get(place)
            .zip(ran.richer.answers.get(place));
        let Some((poorer, richer)) = answers.filter(|(poorer, _)| poorer.number == 14) else {
            return;
        };
        let is_stopped = richer.number == 14;
        for (stopped, holds) in [
            (Stopped::SameTest, is_stopped && richer.test == poorer.test),
            (Stopped::LaterTest, is_stopped && richer.test > poorer.test),
            (Stopped::Operation, (15..=17).contains(&richer.number)),
        ] {
            self.note(Paired::Stopped(stopped), holds);
        }
    }

    fn behind(&mut self, ran: Ran) {
        let first = ran.poorer.carried_out() + 1;
        for place in first..ran.poorer.answers.len() {
            let numbers = ran.numbers(place);
            let (poorer, richer) = ran.before(place + 1);
            let has_more = !entries_more(poorer, richer).is_empty();
            let is_done = numbers == (0, 0);
            for (behind, holds) in [
                (Behind::Gone, numbers == (0, 12)),
                (Behind::Tested, numbers == (0, 14)),
                (Behind::Taken, numbers == (0, 15)),
                (Behind::Full, numbers == (0, 16)),
                (Behind::Entry, has_more),
                (Behind::Thing, has_thing_more(poorer, richer)),
                (Behind::LacksThing, has_thing_more(richer, poorer)),
                (Behind::Within, is_done && !has_more),
            ] {
                self.note(Paired::Behind(behind), holds);
            }
        }
    }

    /// With tests of absence.
    fn looser(&mut self, ran: Ran) {
        let count = ran.poorer.carried_out();
        let refused = (0..count).find(|&place| ran.numbers(place) == (0, 14));
        for place in refused.unwrap_or(count)..count {
            let (number, (poorer, richer)) = (ran.numbers(place).1, ran.before(place + 1));
            let has_more = !entries_more(poorer, richer).is_empty();
            for (looser, holds) in [
                (Looser::Tested, number == 14),
                (Looser::Entry, has_more),
                (Looser::Thing, has_thing_more(poorer, richer)),
                (Looser::LacksThing, has_thing_more(richer, poorer)),
                (Looser::Later, !matches!(number, 0 | 14)),
            ] {
                self.note(Paired::Looser(looser), holds);
            }
        }
        let Pair {
            scheme, requests, ..
        } = ran.pair;
        let is_kept = broken(scheme, requests, ran.poorer, ran.richer).is_empty();
        let is_missing = ran.pair.poorer != ran.pair.richer;
        let is_kept = is_kept && is_missing && count > 0;
        self.note(Paired::Looser(Looser::Kept), is_kept);
    }
}

fn has_thing_more(first: &Matrix, second: &Matrix) -> bool {
    let mut things = first.things().keys();
    things.any(|&id| second.type_of(id).is_none())
}

impl<'a> Ran<'a> {
    /// The two matrices before a request, or behind the last one.
    fn before(self, place: usize) -> (&'a Matrix, &'a Matrix) {
        match place.checked_sub(1) {
            None => (&self.pair.poorer, &self.pair.richer),
            Some(last) => (&self.poorer.after[last], &self.richer.after[last]),
        }
    }

    fn numbers(self, place: usize) -> (u8, u8) {
        let [poorer, richer] = [self.poorer, self.richer].map(|run| run.answers[place].number);
        (poorer, richer)
    }

    /// None where the two are refused by different numbers.
    fn ending(self) -> Option<Ending> {
        let place = self.poorer.carried_out();
        if place == self.poorer.answers.len() {
            return Some(Ending::NoRefusal);
        }
        let (poorer, richer) = self.numbers(place);
        Ending::of(poorer, richer)
    }

    /// Whether these missing entries are what such a pair lacks.
    fn lacks(self, lacking: Lacking, missing: &[Entry]) -> bool {
        let different = |of: fn(&Entry) -> u16| missing.iter().map(of).collect::<BTreeSet<u16>>();
        let (rows, columns) = (
            different(|entry| entry.row),
            different(|entry| entry.column),
        );
        let poorer = &self.pair.poorer;
        let is_left = |is_of: &dyn Fn((u16, u16)) -> bool| {
            let mut cells = poorer.cells().iter();
            cells.any(|(&place, &rights)| rights != 0 && is_of(place))
        };
        let one_cell = (rows.len(), columns.len()) == (1, 1);
        let of_cell = |place: (u16, u16)| rows.contains(&place.0) && columns.contains(&place.1);
        match lacking {
            Lacking::Nothing => missing.is_empty(),
            Lacking::Right => missing.len() == 1 && is_left(&of_cell),
            Lacking::Cell => one_cell && !is_left(&of_cell),
            Lacking::Row => {
                let of_row = |place: (u16, u16)| rows.contains(&place.0);
                rows.len() == 1 && columns.len() > 1 && !is_left(&of_row)
            }
            Lacking::Column => {
                let of_column = |place: (u16, u16)| columns.contains(&place.1);
                columns.len() == 1 && rows.len() > 1 && !is_left(&of_column)
            }
            Lacking::Scattered => rows.len() > 1 && columns.len() > 1 && is_left(&|_| true),
            Lacking::Everything => !missing.is_empty() && !is_left(&|_| true),
            Lacking::Tested => missing.len() == 1 && self.tests(missing[0]),
            Lacking::OfDestroyed => missing.iter().any(|entry| entry.is_of(&self.destroyed())),
        }
    }

    /// Whether some request of the list does; one whose tests the richer comes to.
    fn tests(self, entry: Entry) -> bool {
        let scheme = &self.pair.scheme;
        let requests = self.pair.requests.iter().zip(&self.richer.answers);
        let mut tested = requests.filter(|(_, answer)| matches!(answer.number, 0 | 14..=17));
        tested.any(|(request, _)| Named::of(scheme, request).tested().contains(&entry))
    }

    /// The things of the richer that its list destroyed; no id comes back.
    fn destroyed(self) -> Vec<u16> {
        let (_, last) = self.before(self.richer.after.len());
        let things = self.pair.richer.things().keys().copied();
        things.filter(|&id| last.type_of(id).is_none()).collect()
    }
}

impl fmt::Display for Pairs {
    fn fmt(&self, out: &mut fmt::Formatter) -> fmt::Result {
        writeln!(out, "     count by an incomplete matrix")?;
        for paired in Paired::all() {
            writeln!(out, "{:>10} {}", self.count(paired), paired.words())?;
        }
        Ok(())
    }
}
