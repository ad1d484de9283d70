//! The scheme: its types, its reader with the outline's order of checks, and its writer.

use crate::bytes::{put_record, Record, COMMAND, SCHEME_HEAD};
pub use crate::refusal::Refusal;
use crate::refusal::{must, Fault, Found};

pub const MOST_RIGHTS: u8 = 64;
pub const MOST_TYPES: u8 = 16;
pub const MOST_COMMANDS: u8 = 32;
pub const MOST_PARAMETERS: u8 = 8;
pub const MOST_TESTS: u8 = 16;
pub const MOST_OPERATIONS: u8 = 32;

#[derive(Clone, Debug, PartialEq, Eq)]
pub struct Scheme {
    /// n: rights are 0 to n - 1.
    pub rights: u8,
    /// m: types are 0 to m - 1.
    pub types: u8,
    /// Bit t for the subject type t.
    pub subjects: u16,
    pub commands: Vec<Command>,
}

#[derive(Clone, Debug, PartialEq, Eq)]
pub struct Command {
    /// The type of each parameter.
    pub parameters: Vec<u8>,
    pub tests: Vec<Test>,
    pub operations: Vec<Operation>,
}

/// Row and column are places of parameters.
#[derive(Clone, Copy, Debug, PartialEq, Eq)]
pub struct Test {
    pub present: bool,
    pub right: u8,
    pub row: u8,
    pub column: u8,
}

/// Row, column and parameter are places of parameters.
#[derive(Clone, Copy, Debug, PartialEq, Eq)]
pub enum Operation {
    Enter { right: u8, row: u8, column: u8 },
    Delete { right: u8, row: u8, column: u8 },
    Create { parameter: u8 },
    Destroy { parameter: u8 },
}

impl Scheme {
    pub fn is_subject_type(&self, kind: u8) -> bool {
        is_subject_type(self.subjects, kind)
    }
}

/// Whether a set of subject types has a type, of any number.
pub fn is_subject_type(subjects: u16, kind: u8) -> bool {
    let above = subjects.checked_shr(kind.into());
    above.is_some_and(|above| above & 1 == 1)
}

impl Test {
    /// Its four bytes.
    pub fn fields(self) -> [u8; 4] {
        [u8::from(self.present), self.right, self.row, self.column]
    }
}

impl Command {
    /// A parameter is new exactly if a create names it.
    pub fn is_new(&self, parameter: u8) -> bool {
        self.operations.contains(&Operation::Create { parameter })
    }
}

impl Operation {
    pub fn code(self) -> u8 {
        match self {
            Operation::Enter { .. } => 1,
            Operation::Delete { .. } => 2,
            Operation::Create { .. } => 3,
            Operation::Destroy { .. } => 4,
        }
    }

    /// Its four bytes.
    pub fn fields(self) -> [u8; 4] {
        let (right, row, column) = match self {
            Operation::Enter { right, row, column } => (right, row, column),
            Operation::Delete { right, row, column } => (right, row, column),
            Operation::Create { parameter } => (0, parameter, 0),
            Operation::Destroy { parameter } => (0, parameter, 0),
        };
        [self.code(), right, row, column]
    }
}

/// Creates come first, then enters and deletes, then destroys.
pub fn group(code: u8) -> u8 {
    match code {
        3 => 0,
        1 | 2 => 1,
        _ => 2,
    }
}

/// The scheme and the next position, or the number and the record's position.
pub fn read_scheme(input: &[u8]) -> Result<(Scheme, usize), Refusal> {
    Ok(find_scheme(input)?)
}

/// The same with the fault by name.
pub fn find_scheme(input: &[u8]) -> Result<(Scheme, usize), Found> {
    let (mut scheme, commands, mut at) = find_head(input, 0)?;
    for _ in 0..commands {
        let (command, next) = find_command(input, at, &scheme)?;
        scheme.commands.push(command);
        at = next;
    }
    must(at == input.len(), Fault::SchemeLeftover, at)?;
    Ok((scheme, at))
}

/// The head at a position as a scheme that has no commands yet, how many it states, and the next position.
pub fn find_head(input: &[u8], at: usize) -> Result<(Scheme, u8, usize), Found> {
    let mut head = Record::read(input, at, SCHEME_HEAD)?;
    let rights = head.one()?;
    head.must((1..=MOST_RIGHTS).contains(&rights), Fault::RightsCount)?;
    let types = head.one()?;
    head.must((1..=MOST_TYPES).contains(&types), Fault::TypesCount)?;
    let subjects = head.two()?;
    head.must((u32::from(subjects) >> types) == 0, Fault::SubjectBit)?;
    let commands = head.one()?;
    head.must(
        (1..=MOST_COMMANDS).contains(&commands),
        Fault::CommandsCount,
    )?;
    head.end()?;
    let scheme = Scheme {
        rights,
        types,
        subjects,
        commands: Vec::new(),
    };
    Ok((scheme, commands, head.next))
}

/// The command at a position, against the head of a scheme, and the next position.
pub fn find_command(input: &[u8], at: usize, scheme: &Scheme) -> Result<(Command, usize), Found> {
    let record = Record::read(input, at, COMMAND)?;
    let next = record.next;
    Ok((read_command(record, scheme)?, next))
}

fn read_command(mut record: Record, scheme: &Scheme) -> Result<Command, Found> {
    let mut command = Command {
        parameters: Vec::new(),
        tests: Vec::new(),
        operations: Vec::new(),
    };

    let parameters = record.one()?;
    record.must(
        (1..=MOST_PARAMETERS).contains(&parameters),
        Fault::ParametersCount,
    )?;
    for _ in 0..parameters {
        let kind = record.one()?;
        record.must(kind < scheme.types, Fault::ParameterType)?;
        command.parameters.push(kind);
    }

    let tests = record.one()?;
    record.must(tests <= MOST_TESTS, Fault::TestsCount)?;
    for _ in 0..tests {
        let test = read_test(&mut record, scheme, &command)?;
        command.tests.push(test);
    }

    let operations = record.one()?;
    record.must(
        (1..=MOST_OPERATIONS).contains(&operations),
        Fault::OperationsCount,
    )?;
    for _ in 0..operations {
        let operation = read_operation(&mut record, scheme, &command)?;
        command.operations.push(operation);
    }
    record.end()?;
    Ok(command)
}

fn read_test(record: &mut Record, scheme: &Scheme, command: &Command) -> Result<Test, Found> {
    let parameters = command.parameters.len() as u8;
    let sense = record.one()?;
    record.must(sense <= 1, Fault::Sense)?;
    let right = record.one()?;
    record.must(right < scheme.rights, Fault::TestRight)?;
    let row = record.one()?;
    record.must(row < parameters, Fault::TestRow)?;
    let row_type = command.parameters[row as usize];
    record.must(scheme.is_subject_type(row_type), Fault::TestRowNoSubject)?;
    let column = record.one()?;
    record.must(column < parameters, Fault::TestColumn)?;
    Ok(Test {
        present: sense == 1,
        right,
        row,
        column,
    })
}

/// `command` holds the parameters, the tests and the operations before this one.
fn read_operation(
    record: &mut Record,
    scheme: &Scheme,
    command: &Command,
) -> Result<Operation, Found> {
    let parameters = command.parameters.len() as u8;
    let before = &command.operations;

    let code = record.one()?;
    record.must((1..=4).contains(&code), Fault::Code)?;
    let in_order = before
        .last()
        .is_none_or(|last| group(last.code()) <= group(code));
    record.must(in_order, Fault::GroupOrder)?;

    let right = record.one()?;
    match code {
        3 => record.must(right == 0, Fault::CreateRightNotZero)?,
        4 => record.must(right == 0, Fault::DestroyRightNotZero)?,
        _ => record.must(right < scheme.rights, Fault::OperationRight)?,
    }

    let row = record.one()?;
    record.must(row < parameters, Fault::OperationRow)?;
    match code {
        3 => {
            let created = before.contains(&Operation::Create { parameter: row });
            record.must(!created, Fault::CreatedBefore)?;
            let tested = command
                .tests
                .iter()
                .any(|test| test.row == row || test.column == row);
            record.must(!tested, Fault::TestedBefore)?;
        }
        4 => {
            let destroyed = before.contains(&Operation::Destroy { parameter: row });
            record.must(!destroyed, Fault::DestroyedBefore)?;
        }
        _ => {
            let row_type = command.parameters[row as usize];
            record.must(
                scheme.is_subject_type(row_type),
                Fault::OperationRowNoSubject,
            )?;
        }
    }

    let column = record.one()?;
    match code {
        3 => record.must(column == 0, Fault::CreateColumnNotZero)?,
        4 => record.must(column == 0, Fault::DestroyColumnNotZero)?,
        _ => record.must(column < parameters, Fault::OperationColumn)?,
    }

    Ok(match code {
        1 => Operation::Enter { right, row, column },
        2 => Operation::Delete { right, row, column },
        3 => Operation::Create { parameter: row },
        _ => Operation::Destroy { parameter: row },
    })
}

pub fn write_scheme(scheme: &Scheme) -> Vec<u8> {
    let mut out = Vec::new();
    let [low, high] = scheme.subjects.to_le_bytes();
    let head = [
        scheme.rights,
        scheme.types,
        low,
        high,
        scheme.commands.len() as u8,
    ];
    put_record(&mut out, SCHEME_HEAD, &head);
    for command in &scheme.commands {
        put_record(&mut out, COMMAND, &command_body(command));
    }
    out
}

fn command_body(command: &Command) -> Vec<u8> {
    let mut body = vec![command.parameters.len() as u8];
    body.extend(&command.parameters);
    body.push(command.tests.len() as u8);
    for test in &command.tests {
        body.extend(test.fields());
    }
    body.push(command.operations.len() as u8);
    for operation in &command.operations {
        body.extend(operation.fields());
    }
    body
}
