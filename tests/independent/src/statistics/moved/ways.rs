//! The ways in which an image can stand to a move, in words; each is met by the generated cases.

use crate::refusal::Fault;

#[derive(Clone, Copy, Debug, PartialEq, Eq, PartialOrd, Ord)]
pub enum Direction {
    Forward,
    Back,
}

/// Where a record stands in an image. Behind its last record a cell may stand, so that bytes that trail it are there too.
#[derive(Clone, Copy, Debug, PartialEq, Eq, PartialOrd, Ord)]
pub enum Place {
    Head,
    FirstThing,
    LaterThing,
    Cell,
}

/// One way, in one direction; 23 there is on the way back only.
#[derive(Clone, Copy, Debug, PartialEq, Eq, PartialOrd, Ord)]
pub enum Moved {
    /// Reading refused the record at this place.
    Refused(Direction, Place, Fault),
    /// And it is one of a thing on hold.
    RefusedHeld(Direction, Place),
    /// Reading gave this number, and the buffer is shorter than any image.
    RefusedShort(Direction, u8),
    /// Reading gave this number behind a head whose highest id is above all that are listed.
    RefusedAbove(u8),
    Mistaken(Direction, Mistaken),
    Went(Direction, Went),
    /// 23.
    Lost(Lost),
    /// 9.
    Short(Direction, Short),
}

ways! { Mistaken:
    OtherImage "it is an image of the other kind, which moves the other way",
    OtherKind "its head has the kind of the other image, and the length of its own",
    OtherLength "its head has the length of the other image, and the kind of its own",
    CellForThing "a cell stands at a thing's place: fewer things are there than stated",
    ThingForCell "a thing that isn't on hold stands at a cell's place: more things are there than stated",
    HeldForCell "a thing on hold stands at a cell's place",
}

ways! { Went:
    NoThings "it has no things",
    OneThing "it has one thing",
    SomeThings "it has 2 to 47 things",
    Full "it has 48 things",
    NoCells "it has things, and no cell that isn't empty",
    Cells "it has cells that aren't empty",
    NoneHeld "none of its things is on hold",
    SomeHeld "some of its things are on hold, and some aren't",
    AllHeld "all of its things are on hold",
    LastHeld "the thing with the highest id is on hold",
    OneByte "the highest id is 1 to 255",
    TwoBytes "the highest id is 256 to 65534",
    Last "the highest id is 65535",
    Just "the buffer is just long enough",
    OneMore "the buffer is a byte longer",
    More "the buffer is longer by more",
}

ways! { Lost:
    OneAbove "its highest id is one above the highest listed one",
    BitAbove "its highest id is 2 to 9 above the highest listed one",
    FarAbove "its highest id is more than 1000 above the highest listed one",
    LastAbove "its highest id is 65535, and a thing has another",
    NothingOne "it has no things, and its highest id is 1",
    NothingSome "it has no things, and its highest id is 2 to 65534",
    NothingLast "it has no things, and its highest id is 65535",
    FullAbove "it has 48 things",
    HeldAbove "the thing with the highest listed id is on hold",
    WithRoom "the buffer is long enough",
    OneShort "the buffer is a byte too short",
    NoRoom "the buffer has no byte",
}

ways! { Short:
    ByOne "the buffer is a byte too short",
    ByTwo "the buffer is two bytes too short",
    ByMore "the buffer is shorter by more",
    NoRoom "the buffer has no byte",
}

impl Moved {
    pub fn all() -> Vec<Moved> {
        let mut all = Vec::new();
        for direction in [Direction::Forward, Direction::Back] {
            all.extend(refusals(direction));
            all.extend(
                Mistaken::ALL
                    .iter()
                    .map(|&way| Moved::Mistaken(direction, way)),
            );
            all.extend(Went::ALL.iter().map(|&way| Moved::Went(direction, way)));
            all.extend(Short::ALL.iter().map(|&way| Moved::Short(direction, way)));
        }
        // A fault of a count stands in the head, behind which nothing is looked at.
        let behind_head = (1..=7).filter(|&number| number != 4);
        all.extend(behind_head.map(Moved::RefusedAbove));
        all.extend(Lost::ALL.iter().map(|&way| Moved::Lost(way)));
        all
    }

    pub fn words(self) -> String {
        match self {
            Moved::Refused(direction, place, fault) => {
                let (number, words) = (fault.number(), fault.words());
                let (way, place) = (direction.words(), place.words());
                format!("{way} refused with {number}: {words}, at {place}")
            }
            Moved::RefusedHeld(direction, place) => {
                let (way, place) = (direction.words(), place.words());
                format!("{way} refused: a thing on hold, at {place}")
            }
            Moved::RefusedShort(direction, number) => {
                let way = direction.words();
                format!("{way} refused with {number}: the buffer is shorter than any image, too")
            }
            Moved::RefusedAbove(number) => {
                format!("back refused with {number}: its highest id is above all listed ones, too")
            }
            Moved::Mistaken(direction, way) => {
                format!("{} refused: {}", direction.words(), way.words())
            }
            Moved::Went(direction, way) => format!("{}: {}", direction.words(), way.words()),
            Moved::Lost(way) => format!("back refused with 23: {}", way.words()),
            Moved::Short(direction, way) => {
                format!("{} refused with 9: {}", direction.words(), way.words())
            }
        }
    }
}

impl Direction {
    fn words(self) -> &'static str {
        match self {
            Direction::Forward => "forward",
            Direction::Back => "back",
        }
    }
}

impl Place {
    fn words(self) -> &'static str {
        match self {
            Place::Head => "the head",
            Place::FirstThing => "the first thing's place",
            Place::LaterThing => "a later thing's place",
            Place::Cell => "a cell's place",
        }
    }
}

/// Each fault at each place where it can be, and what else can come with one.
fn refusals(direction: Direction) -> Vec<Moved> {
    let mut all = Vec::new();
    for (place, own) in FAULTS {
        let faults = ANYWHERE.iter().chain(own.iter());
        let can_be =
            |fault: &&Fault| direction == Direction::Back || !NEW.contains(&(*place, **fault));
        let refused = |&fault| Moved::Refused(direction, *place, fault);
        all.extend(faults.filter(can_be).map(refused));
    }
    all.push(Moved::RefusedHeld(direction, Place::FirstThing));
    all.push(Moved::RefusedHeld(direction, Place::LaterThing));
    all.extend((1..=7).map(|number| Moved::RefusedShort(direction, number)));
    all
}

const ANYWHERE: &[Fault] = &[
    Fault::FrontCut,
    Fault::Kind,
    Fault::BodyPastEnd,
    Fault::FieldMissing,
    Fault::BodyLeftover,
];

const FAULTS: &[(Place, &[Fault])] = &[
    (
        Place::Head,
        &[
            Fault::RecordMissing,
            Fault::FieldCut,
            Fault::MatrixRightsCount,
            Fault::MatrixRightsOther,
            Fault::ThingsCount,
        ],
    ),
    (
        Place::FirstThing,
        &[
            Fault::RecordMissing,
            Fault::FieldCut,
            Fault::ThingIdZero,
            Fault::ThingAboveHighest,
            Fault::ThingType,
        ],
    ),
    (
        Place::LaterThing,
        &[
            Fault::RecordMissing,
            Fault::FieldCut,
            Fault::ThingIdZero,
            Fault::ThingOrder,
            Fault::ThingAboveHighest,
            Fault::ThingType,
        ],
    ),
    (
        Place::Cell,
        &[
            Fault::FieldCut,
            Fault::CellRowUnknown,
            Fault::CellRowNoSubject,
            Fault::CellColumnUnknown,
            Fault::CellOrder,
            Fault::CellRight,
            Fault::CellNoRights,
        ],
    ),
];

/// What a highest id in the head makes possible: an old head has fields of one byte only.
const NEW: &[(Place, Fault)] = &[
    (Place::Head, Fault::FieldCut),
    (Place::FirstThing, Fault::ThingAboveHighest),
    (Place::LaterThing, Fault::ThingAboveHighest),
];
