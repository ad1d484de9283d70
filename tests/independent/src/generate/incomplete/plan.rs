//! What a pair is drawn for: which entries the poorer lacks, and how its run is to end.

/// Ways to leave entries out.
#[derive(Clone, Copy, Debug, PartialEq, Eq, PartialOrd, Ord)]
pub enum Lacking {
    Nothing,
    Right,
    Cell,
    Row,
    Column,
    Scattered,
    Everything,
    Tested,
    OfDestroyed,
}

impl Lacking {
    pub const ALL: [Lacking; 9] = [
        Lacking::Nothing,
        Lacking::Right,
        Lacking::Cell,
        Lacking::Row,
        Lacking::Column,
        Lacking::Scattered,
        Lacking::Everything,
        Lacking::Tested,
        Lacking::OfDestroyed,
    ];

    pub fn words(self) -> &'static str {
        match self {
            Lacking::Nothing => "nothing is missing",
            Lacking::Right => "one right of a cell is missing, and others of it aren't",
            Lacking::Cell => "just a cell is missing",
            Lacking::Row => "just a row of several cells is missing",
            Lacking::Column => "just a column of several cells is missing",
            Lacking::Scattered => {
                "entries in several rows and columns are missing, and others aren't"
            }
            Lacking::Everything => "every entry is missing",
            Lacking::Tested => "just an entry is missing that a request tests",
            Lacking::OfDestroyed => "an entry of a thing is missing that a request destroys",
        }
    }
}

/// Ways in which the poorer's run can end: its first refusal, or none.
#[derive(Clone, Copy, Debug, PartialEq, Eq, PartialOrd, Ord)]
pub enum Ending {
    NoRefusal,
    /// 14, where the richer carries the request out.
    Alone,
    /// 14 in both.
    Both,
    /// Another number, the same in both.
    Same(u8),
}

impl Ending {
    pub const ALL: [Ending; 11] = [
        Ending::NoRefusal,
        Ending::Alone,
        Ending::Both,
        Ending::Same(10),
        Ending::Same(11),
        Ending::Same(12),
        Ending::Same(13),
        Ending::Same(15),
        Ending::Same(16),
        Ending::Same(17),
        Ending::Same(18),
    ];

    pub fn words(self) -> String {
        match self {
            Ending::NoRefusal => "no request is refused".to_string(),
            Ending::Alone => "the first refusal is 14, and the richer carries out".to_string(),
            Ending::Both => "the first refusal is 14, in both".to_string(),
            Ending::Same(number) => format!("the first refusal is {number}, in both"),
        }
    }

    /// By the two answers to the request that the poorer refuses first; none where the richer is refused by another number, which only follows 14.
    pub fn of(poorer: u8, richer: u8) -> Option<Ending> {
        match (poorer, richer) {
            (14, 0) => Some(Ending::Alone),
            (14, 14) => Some(Ending::Both),
            (14, _) => None,
            (number, other) if number == other => Some(Ending::Same(number)),
            _ => None,
        }
    }
}

#[derive(Clone, Copy, Debug)]
pub struct Plan {
    pub lacking: Lacking,
    pub ending: Ending,
    /// There are 48 things at first, or nearly.
    pub is_full: bool,
    /// The scheme has tests of absence, so that nothing is promised.
    pub tests_absence: bool,
}
