//! Ways to be counted, each with its words: told once, so that none can be counted that has no words.

macro_rules! ways {
    ($what:ident: $($name:ident $words:literal,)*) => {
        #[derive(Clone, Copy, Debug, PartialEq, Eq, PartialOrd, Ord)]
        pub enum $what { $(#[doc = $words] $name,)* }

        impl $what {
            const ALL: &'static [$what] = &[$($what::$name,)*];

            fn words(self) -> &'static str {
                match self { $($what::$name => $words,)* }
            }
        }
    };
}
