//! Names every fault a reading can find, so that the outline's numbers 1 to 8 stand in one table and a test can ask for each fault.

/// What a refused reading answers: the outline's number and the record's position.
#[derive(Clone, Copy, Debug, PartialEq, Eq)]
pub struct Refusal {
    pub number: u8,
    pub at: usize,
}

/// The same with the fault by name; for tests and for people.
#[derive(Clone, Copy, Debug, PartialEq, Eq)]
pub struct Found {
    pub fault: Fault,
    pub at: usize,
}

impl From<Found> for Refusal {
    fn from(found: Found) -> Refusal {
        Refusal {
            number: found.fault.number(),
            at: found.at,
        }
    }
}

/// Passes if the condition holds, else tells the fault at the position.
pub fn must(holds: bool, fault: Fault, at: usize) -> Result<(), Found> {
    if holds {
        Ok(())
    } else {
        Err(Found { fault, at })
    }
}

macro_rules! faults {
    ($($number:literal $name:ident $words:literal,)*) => {
        #[derive(Clone, Copy, Debug, PartialEq, Eq, PartialOrd, Ord, Hash)]
        pub enum Fault { $(#[doc = $words] $name,)* }

        impl Fault {
            pub const ALL: &'static [Fault] = &[$(Fault::$name,)*];

            pub fn number(self) -> u8 {
                match self { $(Fault::$name => $number,)* }
            }

            pub fn words(self) -> &'static str {
                match self { $(Fault::$name => $words,)* }
            }
        }
    };
}

faults! {
    1 RecordMissing "the input ends before a stated record",
    1 FrontCut "fewer than 4 bytes are left for a front",
    1 BodyPastEnd "the body runs past the end",
    2 Kind "the kind may not stand here",
    3 FieldMissing "the body ends before a field",
    3 FieldCut "the body ends inside a field",
    3 BodyLeftover "the body has bytes after its last field",
    4 RightsCount "scheme head: n isn't 1 to 64",
    4 TypesCount "scheme head: m isn't 1 to 16",
    4 CommandsCount "scheme head: commands aren't 1 to 32",
    4 ParametersCount "command: parameters aren't 1 to 8",
    4 TestsCount "command: tests aren't 0 to 16",
    4 OperationsCount "command: operations aren't 1 to 32",
    4 MatrixRightsCount "matrix head: n isn't 1 to 64",
    4 ThingsCount "matrix head: things aren't 0 to 48",
    4 IdsCount "request: ids aren't 0 to 8",
    5 ParameterType "a parameter's type is m or above",
    5 TestRight "a test's right is n or above",
    5 TestRow "a test's row is no parameter",
    5 TestColumn "a test's column is no parameter",
    5 OperationRight "an enter's or delete's right is n or above",
    5 OperationRow "an operation's row is no parameter",
    5 OperationColumn "an enter's or delete's column is no parameter",
    5 ThingType "a thing's type is m or above",
    5 CellRowUnknown "no thing has a cell's row id",
    5 CellColumnUnknown "no thing has a cell's column id",
    5 CellRight "a cell's right is n or above",
    6 SubjectBit "subject type bit m or above",
    6 Sense "a test's sense is above 1",
    6 Code "an operation's code is unknown",
    6 GroupOrder "an operation is out of the three groups' order",
    6 TestRowNoSubject "a test's row has no subject type",
    6 OperationRowNoSubject "an enter's or delete's row has no subject type",
    6 CreatedBefore "a create of a parameter created before",
    6 TestedBefore "a create of a parameter tested before",
    6 DestroyedBefore "a destroy named twice",
    6 CreateRightNotZero "a create's right isn't 0",
    6 DestroyRightNotZero "a destroy's right isn't 0",
    6 CreateColumnNotZero "a create's column isn't 0",
    6 DestroyColumnNotZero "a destroy's column isn't 0",
    6 MatrixRightsOther "a matrix head's n isn't the scheme's",
    6 ThingIdZero "a thing's id is 0",
    6 ThingAboveHighest "a thing's id is above the head's highest",
    6 CellRowNoSubject "a cell's row is no subject",
    6 CellNoRights "a cell has no rights",
    7 ThingOrder "a thing's id isn't above the one before",
    7 CellOrder "a cell's place isn't above the one before",
    8 SchemeLeftover "bytes after the last command",
}
