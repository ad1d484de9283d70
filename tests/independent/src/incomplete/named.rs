//! What a request names once its ids are put in: the entries that it tests, enters and deletes, and the things that it destroys.

use super::Entry;
use crate::request::Request;
use crate::scheme::{Command, Operation, Scheme};

pub struct Named<'a> {
    /// None where there is no such command, or one with another number of parameters: nothing is named then.
    command: Option<&'a Command>,
    ids: &'a [u16],
}

impl<'a> Named<'a> {
    pub fn of(scheme: &'a Scheme, request: &'a Request) -> Named<'a> {
        let ids = &request.ids;
        let command = scheme.commands.get(usize::from(request.command));
        let command = command.filter(|command| command.parameters.len() == ids.len());
        Named { command, ids }
    }

    pub fn tested(&self) -> Vec<Entry> {
        let tests = self.command.map_or(&[][..], |command| &command.tests);
        let tests = tests.iter();
        tests
            .map(|test| self.entry(test.right, test.row, test.column))
            .collect()
    }

    pub fn entered(&self) -> Vec<Entry> {
        self.operations(|operation| match operation {
            Operation::Enter { right, row, column } => Some(self.entry(right, row, column)),
            _ => None,
        })
    }

    pub fn deleted(&self) -> Vec<Entry> {
        self.operations(|operation| match operation {
            Operation::Delete { right, row, column } => Some(self.entry(right, row, column)),
            _ => None,
        })
    }

    pub fn created(&self) -> Vec<u16> {
        self.operations(|operation| match operation {
            Operation::Create { parameter } => Some(self.id(parameter)),
            _ => None,
        })
    }

    pub fn destroyed(&self) -> Vec<u16> {
        self.operations(|operation| match operation {
            Operation::Destroy { parameter } => Some(self.id(parameter)),
            _ => None,
        })
    }

    /// Whether two parameters that aren't new are one thing.
    pub fn names_twice(&self) -> bool {
        let Some(command) = self.command else {
            return false;
        };
        let old = |place: &usize| !command.is_new(*place as u8);
        let old: Vec<usize> = (0..self.ids.len()).filter(old).collect();
        let is_same = |first: usize, second: usize| self.ids[first] == self.ids[second];
        let mut places = old.iter().enumerate();
        places.any(|(count, &place)| old[..count].iter().any(|&other| is_same(other, place)))
    }

    fn operations<T>(&self, named: impl Fn(Operation) -> Option<T>) -> Vec<T> {
        let operations = self.command.map_or(&[][..], |command| &command.operations);
        operations
            .iter()
            .filter_map(|operation| named(*operation))
            .collect()
    }

    fn entry(&self, right: u8, row: u8, column: u8) -> Entry {
        Entry {
            row: self.id(row),
            column: self.id(column),
            right,
        }
    }

    fn id(&self, parameter: u8) -> u16 {
        self.ids[usize::from(parameter)]
    }
}
