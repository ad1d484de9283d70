//! What the program `edges` can be asked, by its public functions.

use super::seats::Seat;

/// A room is the length of the lent buffer, `at` a position. A task may change the scheme or the matrix that the cases behind it meet.
#[derive(Clone, Debug, PartialEq, Eq)]
pub enum Task {
    ReadScheme(Vec<u8>),
    NoScheme,
    /// The head's fields are set: n, m, subject types, commands.
    SetHead(u8, u8, u16, u8),
    SetCommand(SetCommand),
    /// The scheme is converted as a value.
    ConvertedScheme,
    /// A command is read against the scheme's head, and what was read put at a place of the scheme's commands.
    ReadCommand {
        place: u8,
        bytes: Vec<u8>,
        at: u64,
    },
    /// The command of zeros is put at a place.
    NoCommand(u8),
    ReadMatrix(Vec<u8>),
    ReadMatrixByHead(Vec<u8>),
    /// Against the scheme's head, as the one before.
    ReadRest(Rest),
    /// The cells are converted where they lie.
    ConvertedCells,
    /// Up to four sets are copied over the cells from a place on.
    CopyCells {
        place: u64,
        sets: Vec<u64>,
    },
    NoThings,
    /// Also a free seat: its id is 0, and it may carry a mark, which no reading gives.
    PutThing {
        seat: u64,
        thing: Seat,
    },
    /// The thing of this id is put on hold.
    Hold(u16),
    Release(u16),
    /// The highest id alone.
    SetHighest(u16),
    /// The things of a request are located. Then its creates and destroys are planned with the spots that are given, that of all parameters but the second,
    /// and that of the second: the things become those of the plan. With both, one parameter's spot is told.
    Plan {
        ask: Ask,
        spots: [u8; 2],
        parameter: u8,
    },
    Request(Ask),
    List {
        list: Vec<u8>,
        room: u64,
    },
    ListQuietly(Vec<u8>),
    WriteScheme(u64),
    ConvertScheme(u64),
    WriteMatrix(u64),
    WriteMatrixByHead(u64),
    ConvertMatrix(u64),
    /// An old image is turned into a new one.
    Forward {
        old: Vec<u8>,
        room: u64,
    },
    /// A new image is turned into an old one.
    Back {
        new: Vec<u8>,
        room: u64,
    },
    Store(Store),
    /// What of the head, the scheme and the matrix is accepted.
    Accepted,
    /// What of the command with this number is.
    CommandAccepted(u64),
    Totals,
    /// What the checks of form look up in a command, of which so many operations count; and a code's group.
    Form {
        command: u8,
        operations: u64,
        parameter: u8,
        code: u8,
    },
    /// The seat of an id, among the first seats and among all.
    Seats {
        first: u64,
        id: u16,
    },
    /// The mark of the thing with this id is set among the things as they are. What that gives is only told: the cases behind it meet the things as before.
    MarkThing {
        id: u16,
        held: bool,
    },
    At(At),
    /// How many requests a list has.
    CountRequests(Vec<u8>),
    /// The id that a word stands for.
    IdIn(Vec<u8>),
    /// All that is asked of a set of rights, a right and a number of rights.
    Rights {
        set: u64,
        right: u8,
        n: u8,
    },
    /// Whether a set has a type, and whether it has none of that number or above.
    Types {
        set: u16,
        kind: u8,
    },
    Kinds {
        set: u16,
        kind: u16,
    },
    /// All that is asked of a number and another, as a right, a type and a parameter.
    Numbers(u8, u8),
}

/// How many parameters, tests and operations a command has, and an operation (code, right, row, column) at one of its 32 places; none at a place
/// above.
#[derive(Clone, Debug, PartialEq, Eq)]
pub struct SetCommand {
    pub command: u8,
    pub counts: [u8; 3],
    pub place: u8,
    pub operation: [u8; 4],
}

/// A request handed in directly: no record, so that it can have more than 8 ids; up to 10.
#[derive(Clone, Debug, PartialEq, Eq)]
pub struct Ask {
    pub command: u8,
    pub ids: Vec<u16>,
}

/// What stands behind a matrix's head, from a position of some bytes on: so many things with ids up to the highest, then cells.
#[derive(Clone, Debug, PartialEq, Eq)]
pub struct Rest {
    pub highest: u16,
    pub things: u8,
    pub bytes: Vec<u8>,
    pub at: u64,
}

/// What stands at a position of some bytes.
#[derive(Clone, Debug, PartialEq, Eq)]
pub struct At {
    pub bytes: Vec<u8>,
    pub at: u64,
    pub what: Read,
}

#[derive(Clone, Debug, PartialEq, Eq)]
pub enum Read {
    Request,
    /// Only where it ends.
    SkippedRequest,
    /// A record of one of these kinds and the position behind it; and one of any kind.
    Record {
        kinds: u16,
    },
    Body {
        length: u64,
    },
    /// The fields of 1, 2 and 8 bytes; that of 1 byte also with a least value, a limit and the number of its fault.
    Fields {
        low: u8,
        limit: u8,
        number: u8,
    },
    SchemeHead,
    MatrixHead(Context),
    Thing(Context),
    Cell(Context),
}

/// What the records before a matrix's record left: the kinds that may stand there, the place of the cell before (for a thing, the id before as its row),
/// how many of the first seats count, and (for a thing) the highest id that the head stated. The scheme's head and the things are those of the cases.
#[derive(Clone, Copy, Debug, PartialEq, Eq)]
pub struct Context {
    pub kinds: u16,
    pub last: (u16, u16),
    pub things: u64,
    pub highest: u16,
}

/// Into a buffer, at a position.
#[derive(Clone, Debug, PartialEq, Eq)]
pub struct Store {
    pub room: u64,
    pub at: u64,
    pub what: Stored,
}

#[derive(Clone, Debug, PartialEq, Eq)]
pub enum Stored {
    Request(Ask),
    Record {
        kind: u16,
        body: Vec<u8>,
    },
    /// A record whose body is so many zeros.
    Zeros {
        kind: u16,
        length: u64,
    },
    One(u8),
    Two(u16),
    Eight(u64),
    /// At the start of the buffer, whatever the position is.
    Front {
        kind: u16,
        length: u16,
    },
    /// As they are, with no front; unlike a text, refused where they don't fit.
    Bytes(Vec<u8>),
    Text(Vec<u8>),
    Decimal(u64),
    /// A number and the byte behind it.
    Number(u64, u8),
    /// A line of up to four numbers.
    Line(Vec<u64>),
}
