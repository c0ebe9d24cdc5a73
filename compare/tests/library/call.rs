//! The library's calls, by which the comparison counts.

use std::fmt::{Display, Formatter, Result};

/// Declares the calls, each with its name in the library.
macro_rules! calls {
    ($($call:ident = $name:literal,)+) => {
        /// A call of the library.
        #[derive(Clone, Copy, Debug, PartialEq, Eq)]
        pub enum Call {
            $($call,)+
        }

        impl Call {
            /// All calls, each at its own index.
            pub const ALL: &[Call] = &[$(Call::$call,)+];

            /// The call's name in the library.
            pub fn name(self) -> &'static str {
                match self {
                    $(Call::$call => $name,)+
                }
            }
        }
    };
}

calls! {
    Count = "count",
    Report = "report",
    ReadPattern = "read_pattern",
    ReadText = "read_text",
    ReadInput = "read_input",
    WritePattern = "write_pattern",
    Line = "line",
    PatternOf = "pattern_of",
    WithSlot = "with_slot",
    Check = "check",
    CheckPattern = "check_pattern",
    Merge = "merge",
    IsOccurrence = "is_occurrence",
    Excerpt = "excerpt",
    FirstAfter = "first_after",
    LastBefore = "last_before",
    Leftmost = "leftmost",
    Rightmost = "rightmost",
    All = "all",
    Support = "support",
    Tally = "tally",
    Starts = "starts",
    Recode = "recode",
    Next = "next",
    Rewind = "rewind",
}

impl Display for Call {
    /// Shows the call's name.
    fn fmt(&self, formatter: &mut Formatter) -> Result {
        formatter.pad(self.name())
    }
}
