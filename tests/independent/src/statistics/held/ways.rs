//! The ways in which what is asked can stand to a mark, in words; each is met by the generated cases.

macro_rules! stood {
    ($($name:ident $words:literal,)*) => {
        #[derive(Clone, Copy, Debug, PartialEq, Eq, PartialOrd, Ord)]
        pub enum Stood { $(#[doc = $words] $name,)* }

        impl Stood {
            pub const ALL: &'static [Stood] = &[$(Stood::$name,)*];

            pub fn words(self) -> &'static str {
                match self { $(Stood::$name => $words,)* }
            }
        }
    };
}

stood! {
    NoneHeld "matrix: none of its things is on hold",
    SomeHeld "matrix: some of its things are on hold, and some aren't",
    AllHeld "matrix: all of its things are on hold",
    SubjectHeld "matrix: a subject is on hold",
    ObjectHeld "matrix: an object is on hold",
    FirstHeld "matrix: its first thing is on hold",
    LastHeld "matrix: its last thing is on hold",
    LastOfFullHeld "matrix: the last of 48 things is on hold",
    HeldWithRights "matrix: a subject on hold has rights",
    RightsInHeld "matrix: there are rights in a thing on hold",
    HeldHead "matrix refused: kind 8 at its head's place",
    HeldCell "matrix refused: kind 8 at a cell's place",
    NineForThing "matrix refused: kind 9 at a thing's place",
    LowByteForThing "matrix refused: a kind above 255 at a thing's place, whose low byte is 4 or 8",
    HighByteForThing "matrix refused: a kind at a thing's place whose high byte is 4 or 8, and its low byte 0",
    FallsToHeld "matrix refused: a thing on hold whose id isn't above that before, which isn't on hold",
    FallsFromHeld "matrix refused: a thing not on hold whose id isn't above that before, which is on hold",
    FallsHeld "matrix refused: a thing on hold whose id isn't above that before, which is on hold too",
    HeldZero "matrix refused: a thing on hold has id 0",
    HeldAbove "matrix refused: a thing on hold has an id above the highest",
    HeldType "matrix refused: a thing on hold has a type that there isn't",
    HeldShort "matrix refused: the body of a thing on hold is too short",
    HeldLong "matrix refused: the body of a thing on hold is too long",
    HeldPastEnd "matrix refused: the body of a thing on hold runs past the end",
    At0 "request refused: at place 0 a thing on hold",
    At1 "request refused: at place 1 a thing on hold",
    At2 "request refused: at place 2 a thing on hold",
    At3 "request refused: at place 3 a thing on hold",
    At4 "request refused: at place 4 a thing on hold",
    At5 "request refused: at place 5 a thing on hold",
    At6 "request refused: at place 6 a thing on hold",
    At7 "request refused: at place 7 a thing on hold",
    HeldTestRow "request refused: a thing on hold as a test's row",
    HeldTestColumn "request refused: a thing on hold as a test's column",
    HeldEnterRow "request refused: a thing on hold as an enter's row",
    HeldEnterColumn "request refused: a thing on hold as an enter's column",
    HeldDeleteRow "request refused: a thing on hold as a delete's row",
    HeldDeleteColumn "request refused: a thing on hold as a delete's column",
    HeldDestroyed "request refused: a thing on hold that would be destroyed",
    HeldUnnamed "request refused: a thing on hold that no test and no operation names",
    HeldTwice "request refused: a thing on hold, and the same one at a later place",
    HeldAndAnother "request refused: a thing on hold, and another one at a later place",
    HeldThenNone "request refused: a thing on hold, and no thing (12) at a later place",
    HeldThenType "request refused: a thing on hold, and one of another type (13) at a later place",
    HeldAlone "request refused: a thing on hold, and nothing else is wrong",
    HeldBeforeTest "request refused: a thing on hold, and a test is false (14)",
    HeldBeforeCreate "request refused: a thing on hold, and a create can't be (15, 16)",
    HeldBeforeDestroy "request refused: a thing on hold, and a destroy can't be (17)",
    CountFirst "request refused with 11: it names a thing on hold",
    NoneFirst "request refused with 12: a thing on hold is at a later place",
    TypeFirst "request refused with 13: a thing on hold is at a later place",
    TypeOfHeld "request refused with 13: the thing of another type is on hold",
    TestFirst "request refused with 14: a new parameter has the id of a thing on hold",
    CreateOfHeld "request refused with 15: the create is of the id of a thing on hold",
    TestBeside "request refused with 14: things that it doesn't name are on hold",
    FullBeside "request refused with 16: of the 48 things some are on hold",
    GoneBeside "request refused with 17: things that it doesn't name are on hold",
    CarriedOutBeside "request carried out: things that it doesn't name are on hold",
    CreatedBeside "request carried out: a thing is created beside one on hold",
    DestroyedBeside "request carried out: a thing is destroyed beside one on hold",
    RightsGone "request carried out: a thing is destroyed in which one on hold had rights",
    HoldFree "hold: of a thing that isn't on hold",
    HoldHeld "hold: of a thing that is on hold already",
    HoldLast "hold: of the only thing that isn't on hold",
    HoldZero "hold refused: of id 0",
    HoldNone "hold refused: of an id up to the highest that no thing has",
    HoldAbove "hold refused: of an id above the highest",
    ReleaseHeld "release: of a thing that is on hold",
    ReleaseFree "release: of a thing that isn't on hold",
    ReleaseLast "release: of the only thing on hold",
    ReleaseZero "release refused: of id 0",
    ReleaseNone "release refused: of an id up to the highest that no thing has",
    ReleaseAbove "release refused: of an id above the highest",
    MarkFirst "hold or release: of the first thing",
    MarkLast "hold or release: of the last thing",
    MarkLastOfFull "hold or release: of the last of 48 things",
    MarkOfNothing "hold or release refused: there are no things",
}

impl Stood {
    /// By the place at which a request names a thing on hold first.
    pub const AT: [Stood; 8] = [
        Stood::At0,
        Stood::At1,
        Stood::At2,
        Stood::At3,
        Stood::At4,
        Stood::At5,
        Stood::At6,
        Stood::At7,
    ];
}
