//! A scheme as the functions are handed it: arrays of a fixed length, of which a part is used. What a reading gives has zeros in all other places
//! (docs/DECISIONS.md, "Values handed in"); any other value is a stranger, which is 27 everywhere.

use super::tasks::SetCommand;
use crate::bytes::{put_record, COMMAND, SCHEME_HEAD};
use crate::scheme::{find_command, read_scheme, Command, Scheme};

/// The zero of an operation: its first code is enter.
const NO_OPERATION: [u8; 4] = [1, 0, 0, 0];

#[derive(Clone, Debug, PartialEq, Eq)]
pub struct SchemeValue {
    pub rights: u8,
    pub types: u8,
    pub subjects: u16,
    pub count: u8,
    pub commands: [CommandValue; 32],
}

/// How many parameters, tests and operations are used, and all the places for them.
#[derive(Clone, Copy, Debug, PartialEq, Eq)]
pub struct CommandValue {
    pub counts: [u8; 3],
    pub types: [u8; 8],
    pub tests: [[u8; 4]; 16],
    pub operations: [[u8; 4]; 32],
}

impl SchemeValue {
    pub fn none() -> SchemeValue {
        SchemeValue {
            rights: 0,
            types: 0,
            subjects: 0,
            count: 0,
            commands: [CommandValue::none(); 32],
        }
    }

    /// As a reading gives it.
    pub fn of(scheme: &Scheme) -> SchemeValue {
        let mut value = SchemeValue {
            rights: scheme.rights,
            types: scheme.types,
            subjects: scheme.subjects,
            count: scheme.commands.len() as u8,
            ..SchemeValue::none()
        };
        for (place, command) in value.commands.iter_mut().zip(&scheme.commands) {
            *place = CommandValue::of(command);
        }
        value
    }

    /// The scheme, if some reading gives this value.
    pub fn scheme(&self) -> Option<Scheme> {
        let (scheme, _) = read_scheme(&self.used()).ok()?;
        (SchemeValue::of(&scheme) == *self).then_some(scheme)
    }

    /// The head alone as a scheme of no commands, whatever its fields are.
    pub fn head(&self) -> Scheme {
        Scheme {
            rights: self.rights,
            types: self.types,
            subjects: self.subjects,
            commands: Vec::new(),
        }
    }

    /// The number that reading the head's fields gives. Behind a good head the first command is missing.
    pub fn head_fault(&self) -> u8 {
        match read_scheme(&self.head_record()) {
            Err(refusal) if refusal.at == 0 => refusal.number,
            _ => 0,
        }
    }

    pub fn command_fault(&self, command: usize) -> u8 {
        let record = self.commands[command].record();
        find_command(&record, 0, &self.head()).map_or_else(|found| found.fault.number(), |_| 0)
    }

    /// Whether some reading gives this command behind this head, were it one.
    pub fn command_accepted(&self, command: usize) -> bool {
        let value = self.commands[command];
        let read = find_command(&value.record(), 0, &self.head());
        read.is_ok_and(|(command, _)| CommandValue::of(&command) == value)
    }

    pub fn set(&mut self, set: &SetCommand) {
        let command = &mut self.commands[set.command as usize];
        command.counts = set.counts;
        if let Some(place) = command.operations.get_mut(set.place as usize) {
            *place = set.operation;
        }
    }

    /// The bytes of what is used, were the counts in their range.
    fn used(&self) -> Vec<u8> {
        let commands = self.commands.iter().take(self.count.into());
        let records = commands.flat_map(CommandValue::record);
        self.head_record().into_iter().chain(records).collect()
    }

    fn head_record(&self) -> Vec<u8> {
        let [low, high] = self.subjects.to_le_bytes();
        let mut out = Vec::new();
        let head = [self.rights, self.types, low, high, self.count];
        put_record(&mut out, SCHEME_HEAD, &head);
        out
    }
}

impl CommandValue {
    pub fn none() -> CommandValue {
        CommandValue {
            counts: [0; 3],
            types: [0; 8],
            tests: [[0; 4]; 16],
            operations: [NO_OPERATION; 32],
        }
    }

    pub fn of(command: &Command) -> CommandValue {
        let mut value = CommandValue::none();
        let counts = [
            command.parameters.len(),
            command.tests.len(),
            command.operations.len(),
        ];
        value.counts = counts.map(|count| count as u8);
        value.types[..counts[0]].copy_from_slice(&command.parameters);
        for (place, test) in value.tests.iter_mut().zip(&command.tests) {
            *place = test.fields();
        }
        for (place, operation) in value.operations.iter_mut().zip(&command.operations) {
            *place = operation.fields();
        }
        value
    }

    /// A count may be above the places that there are: no more than those are used.
    pub fn used_types(&self) -> &[u8] {
        &self.types[..usize::from(self.counts[0]).min(8)]
    }

    pub fn used_operations(&self) -> &[[u8; 4]] {
        self.first_operations(self.counts[2].into())
    }

    /// Whatever the count is.
    pub fn first_operations(&self, many: u64) -> &[[u8; 4]] {
        &self.operations[..many.min(32) as usize]
    }

    /// A parameter's type, 0 for one that there isn't.
    pub fn type_of(&self, parameter: u8) -> u8 {
        let kind = self.used_types().get(usize::from(parameter));
        kind.copied().unwrap_or(0)
    }

    pub fn is_new(&self, parameter: u8) -> bool {
        names(self.used_operations(), 3, parameter)
    }

    /// As a row or as a column.
    pub fn tests_name(&self, parameter: u8) -> bool {
        let mut used = self.tests.iter().take(self.counts[1].into());
        used.any(|&[_, _, row, column]| row == parameter || column == parameter)
    }

    fn record(&self) -> Vec<u8> {
        let [parameters, tests, operations] = self.counts;
        let mut body = vec![parameters];
        body.extend(self.types.iter().take(parameters.into()));
        body.push(tests);
        body.extend(self.tests.iter().take(tests.into()).flatten());
        body.push(operations);
        body.extend(self.operations.iter().take(operations.into()).flatten());
        let mut out = Vec::new();
        put_record(&mut out, COMMAND, &body);
        out
    }
}

/// Whether an operation of this code has the parameter as its row.
pub fn names(operations: &[[u8; 4]], code: u8, parameter: u8) -> bool {
    let mut operations = operations.iter();
    operations.any(|&[other, _, row, _]| other == code && row == parameter)
}
