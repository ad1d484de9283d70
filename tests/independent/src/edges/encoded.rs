//! How a task stands in the program's input: its number, the room, the position, and its bytes.

use super::seats::Seat;
use super::tasks::{Ask, At, Context, Read, Rest, SetCommand, Store, Stored, Task};

/// The task's number, the room, the position, and its bytes.
pub type Fields = (u8, u64, u64, Vec<u8>);

impl Task {
    pub fn fields(&self) -> Fields {
        match self {
            Task::Store(store) => store.fields(),
            Task::At(at) => at.fields(),
            _ => {
                let (number, bytes) = self.number_and_bytes();
                (number, self.room(), self.at(), bytes)
            }
        }
    }

    fn number_and_bytes(&self) -> (u8, Vec<u8>) {
        match self {
            Task::ReadScheme(bytes) => (0, bytes.clone()),
            Task::NoScheme => (1, vec![]),
            Task::SetHead(n, m, subjects, commands) => {
                let [low, high] = subjects.to_le_bytes();
                (2, vec![*n, *m, low, high, *commands])
            }
            Task::SetCommand(set) => (3, set.bytes()),
            Task::ConvertedScheme => (4, vec![]),
            Task::ReadCommand { place, bytes, .. } => (5, behind(&[*place], bytes)),
            Task::NoCommand(place) => (6, vec![*place]),
            Task::Request(ask) => (20, ask.bytes()),
            Task::List { list, .. } => (21, list.clone()),
            Task::ListQuietly(list) => (22, list.clone()),
            Task::WriteScheme(_) => (30, vec![]),
            Task::ConvertScheme(_) => (31, vec![]),
            Task::WriteMatrix(_) => (32, vec![]),
            Task::WriteMatrixByHead(_) => (33, vec![]),
            Task::ConvertMatrix(_) => (34, vec![]),
            _ => self.of_matrix(),
        }
    }

    /// Those that change the matrix and are no request, and those that move one.
    fn of_matrix(&self) -> (u8, Vec<u8>) {
        match self {
            Task::ReadMatrix(bytes) => (10, bytes.clone()),
            Task::ReadMatrixByHead(bytes) => (11, bytes.clone()),
            Task::CopyCells { sets, .. } => (12, eights(sets)),
            Task::ConvertedCells => (13, vec![]),
            Task::NoThings => (14, vec![]),
            Task::Plan { ask, spots, .. } => (15, behind(spots, &ask.bytes())),
            Task::PutThing { thing, .. } => (16, thing.bytes()),
            Task::SetHighest(_) => (17, vec![]),
            Task::Hold(id) => (18, id.to_le_bytes().to_vec()),
            Task::Release(id) => (19, id.to_le_bytes().to_vec()),
            Task::ReadRest(rest) => (100, rest.bytes()),
            Task::Forward { old, .. } => (101, old.clone()),
            Task::Back { new, .. } => (102, new.clone()),
            _ => self.asking(),
        }
    }

    /// Those that store nothing.
    fn asking(&self) -> (u8, Vec<u8>) {
        match self {
            Task::Accepted => (60, vec![]),
            Task::CommandAccepted(_) => (61, vec![]),
            Task::Totals => (62, vec![]),
            Task::Form {
                command,
                parameter,
                code,
                ..
            } => (63, vec![*command, *parameter, *code]),
            Task::Seats { id, .. } => (64, id.to_le_bytes().to_vec()),
            Task::MarkThing { id, held } => (65, behind(&id.to_le_bytes(), &[(*held).into()])),
            Task::CountRequests(list) => (72, list.clone()),
            Task::IdIn(word) => (76, word.clone()),
            Task::Rights { set, right, n } => (80, behind(&set.to_le_bytes(), &[*right, *n])),
            Task::Types { set, kind } => (81, behind(&set.to_le_bytes(), &[*kind])),
            Task::Kinds { set, kind } => (82, behind(&set.to_le_bytes(), &kind.to_le_bytes())),
            Task::Numbers(one, other) => (83, vec![*one, *other]),
            _ => unreachable!("it has fields of its own"),
        }
    }

    fn room(&self) -> u64 {
        match self {
            Task::List { room, .. }
            | Task::WriteScheme(room)
            | Task::ConvertScheme(room)
            | Task::WriteMatrix(room)
            | Task::WriteMatrixByHead(room)
            | Task::ConvertMatrix(room)
            | Task::Forward { room, .. }
            | Task::Back { room, .. } => *room,
            _ => 0,
        }
    }

    /// The position, or another number that stands in its place.
    fn at(&self) -> u64 {
        match self {
            Task::ReadCommand { at, .. } => *at,
            Task::ReadRest(rest) => rest.at,
            Task::CommandAccepted(command) => *command,
            Task::PutThing { seat, .. } => *seat,
            Task::SetHighest(highest) => (*highest).into(),
            Task::CopyCells { place, .. } => *place,
            Task::Plan { parameter, .. } => (*parameter).into(),
            Task::Form { operations, .. } => *operations,
            Task::Seats { first, .. } => *first,
            _ => 0,
        }
    }
}

impl Seat {
    fn bytes(&self) -> Vec<u8> {
        behind(&self.id.to_le_bytes(), &[self.kind, self.held.into()])
    }
}

impl SetCommand {
    fn bytes(&self) -> Vec<u8> {
        let counts = behind(&[self.command], &self.counts);
        behind(&behind(&counts, &[self.place]), &self.operation)
    }
}

impl Ask {
    fn bytes(&self) -> Vec<u8> {
        assert!(self.ids.len() <= 10, "the program takes no more");
        let mut bytes = vec![self.command];
        bytes.extend(self.ids.iter().flat_map(|id| id.to_le_bytes()));
        bytes
    }
}

impl Rest {
    fn bytes(&self) -> Vec<u8> {
        let stated = behind(&self.highest.to_le_bytes(), &[self.things]);
        behind(&stated, &self.bytes)
    }
}

impl At {
    fn fields(&self) -> Fields {
        let (number, before) = match &self.what {
            Read::Request => (70, vec![]),
            Read::SkippedRequest => (71, vec![]),
            Read::Record { kinds } => (73, kinds.to_le_bytes().to_vec()),
            Read::Body { length } => (74, length.to_le_bytes().to_vec()),
            Read::Fields { low, limit, number } => (75, vec![*low, *limit, *number]),
            Read::SchemeHead => (90, vec![]),
            Read::MatrixHead(context) => (91, context.bytes()),
            Read::Thing(context) => (92, context.bytes()),
            Read::Cell(context) => (93, context.bytes()),
        };
        (number, 0, self.at, behind(&before, &self.bytes))
    }
}

impl Context {
    fn bytes(&self) -> Vec<u8> {
        let twos = [self.kinds, self.last.0, self.last.1];
        let twos: Vec<u8> = twos.iter().flat_map(|two| two.to_le_bytes()).collect();
        let things = behind(&twos, &self.things.to_le_bytes());
        behind(&things, &self.highest.to_le_bytes())
    }
}

impl Store {
    fn fields(&self) -> Fields {
        let (number, bytes) = match &self.what {
            Stored::Request(ask) => (40, ask.bytes()),
            Stored::Record { kind, body } => (41, behind(&kind.to_le_bytes(), body)),
            Stored::Zeros { kind, length } => {
                (42, behind(&kind.to_le_bytes(), &length.to_le_bytes()))
            }
            Stored::One(value) => (43, vec![*value]),
            Stored::Two(value) => (44, value.to_le_bytes().to_vec()),
            Stored::Eight(value) => (45, value.to_le_bytes().to_vec()),
            Stored::Front { kind, length } => {
                (46, behind(&kind.to_le_bytes(), &length.to_le_bytes()))
            }
            Stored::Bytes(bytes) => (47, bytes.clone()),
            Stored::Text(text) => (50, text.clone()),
            Stored::Decimal(number) => (51, number.to_le_bytes().to_vec()),
            Stored::Number(number, end) => (52, behind(&number.to_le_bytes(), &[*end])),
            Stored::Line(numbers) => (53, eights(numbers)),
        };
        (number, self.room, self.at, bytes)
    }
}

fn eights(numbers: &[u64]) -> Vec<u8> {
    assert!(numbers.len() <= 4, "the program takes no more");
    numbers
        .iter()
        .flat_map(|number| number.to_le_bytes())
        .collect()
}

fn behind(first: &[u8], second: &[u8]) -> Vec<u8> {
    [first, second].concat()
}
