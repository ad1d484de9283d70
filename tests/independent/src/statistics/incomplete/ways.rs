//! The ways in which a pair can be incomplete, in words; each is met by the generated pairs.

use crate::generate::incomplete::plan::{Ending, Lacking};

/// One way. All but the last are of pairs whose scheme has no test of absence.
#[derive(Clone, Copy, Debug, PartialEq, Eq, PartialOrd, Ord)]
pub enum Paired {
    /// What the poorer lacks, and how its run ends.
    Ended(Lacking, Ending),
    Start(Start),
    /// A request that the poorer carries out before its first refusal, while entries are missing.
    Did(Did),
    Length(Length),
    /// By its first refusal, which is 14.
    Stopped(Stopped),
    /// Behind its first refusal, where nothing is promised.
    Behind(Behind),
    /// With tests of absence, before its first refusal: nothing is promised either.
    Looser(Looser),
}

ways! { Start:
    NoThings "there are no things",
    Full "there are 48 things",
    Held "a thing is on hold",
    HeldRow "entries in the row of a thing on hold are missing",
    HeldColumn "entries in the column of a thing on hold are missing",
    HighestListed "the highest id is that of the last thing",
    HighestAbove "the highest id is above that of the last thing",
    HighestLast "the highest id is 65535, which no thing has",
}

ways! { Did:
    NoTests "nothing is tested",
    TestedBeside "a right is tested in a cell in which another one is missing",
    CreatedSubject "a subject is created",
    CreatedObject "an object is created",
    CreatedSeveral "several things are created",
    DestroyedComplete "a thing is destroyed of which nothing is missing",
    DestroyedRow "a thing is destroyed in whose row entries are missing",
    DestroyedColumn "a thing is destroyed in whose column entries are missing",
    DestroyedLast "things are destroyed with which all that is missing goes",
    CreatedAndDestroyed "things are created and destroyed",
    EnteredMissing "an entry is entered that only the richer has",
    EnteredNew "an entry is entered that neither has",
    EnteredBoth "an entry is entered that both have",
    EnteredCreated "an entry is entered in the row or the column of a created thing",
    EnteredLast "all that is missing is entered",
    DeletedMissing "an entry is deleted that only the richer has",
    DeletedNone "an entry is deleted that neither has",
    DeletedBoth "an entry is deleted that both have",
    DeletedLast "all that is missing is deleted",
    NamedTwice "two parameters are one thing",
    BesideHeld "a thing is on hold",
}

ways! { Length:
    None "the first request is refused",
    Few "1 to 4 requests are carried out before the first refusal",
    Several "5 to 9 requests are carried out before the first refusal",
    Many "10 or more requests are carried out before the first refusal",
    ManyMissing "10 or more requests are carried out, and entries are missing still",
    MadeUp "some requests are carried out, and nothing is missing any more",
}

ways! { Stopped:
    SameTest "the richer is stopped by the same test",
    LaterTest "the richer is stopped by a later test",
    Operation "the richer's tests hold, and an operation is refused",
}

ways! { Behind:
    Gone "the poorer carries out what the richer refuses with 12",
    Tested "the poorer carries out what the richer refuses with 14",
    Taken "the poorer carries out what the richer refuses with 15",
    Full "the poorer carries out what the richer refuses with 16",
    Entry "the poorer has an entry that the richer lacks",
    Thing "the poorer has a thing that the richer lacks",
    LacksThing "the richer has a thing that the poorer lacks",
    Within "both carry out a request, and the poorer is within the richer",
}

ways! { Looser:
    Tested "the poorer carries out what the richer refuses with 14",
    Entry "the poorer then has an entry that the richer lacks",
    Thing "the poorer then has a thing that the richer lacks",
    LacksThing "the richer then has a thing that the poorer lacks",
    Later "the poorer then carries out what the richer refuses with another number",
    Kept "some requests are carried out with entries missing, and the promise is kept",
}

impl Paired {
    pub fn all() -> Vec<Paired> {
        let mut all = Vec::new();
        for lacking in Lacking::ALL {
            let endings = Ending::ALL.into_iter();
            // Where nothing is missing the two answer alike.
            let can_be = |ending: &Ending| (lacking, *ending) != (Lacking::Nothing, Ending::Alone);
            let ended = |ending| Paired::Ended(lacking, ending);
            all.extend(endings.filter(can_be).map(ended));
        }
        all.extend(Start::ALL.iter().map(|&way| Paired::Start(way)));
        all.extend(Did::ALL.iter().map(|&way| Paired::Did(way)));
        all.extend(Length::ALL.iter().map(|&way| Paired::Length(way)));
        all.extend(Stopped::ALL.iter().map(|&way| Paired::Stopped(way)));
        all.extend(Behind::ALL.iter().map(|&way| Paired::Behind(way)));
        all.extend(Looser::ALL.iter().map(|&way| Paired::Looser(way)));
        all
    }

    pub fn words(self) -> String {
        match self {
            Paired::Ended(lacking, ending) => format!("{}; {}", lacking.words(), ending.words()),
            Paired::Start(way) => format!("at first: {}", way.words()),
            Paired::Did(way) => format!("request carried out: {}", way.words()),
            Paired::Length(way) => format!("list: {}", way.words()),
            Paired::Stopped(way) => format!("first refusal with 14: {}", way.words()),
            Paired::Behind(way) => format!("behind the first refusal: {}", way.words()),
            Paired::Looser(way) => format!("with tests of absence: {}", way.words()),
        }
    }
}
