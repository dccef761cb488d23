//! The questions at the gate, and the refusal that a "no" gives.

use std::error::Error;
use std::fmt;

/// Writes the enum and its words from one table.
macro_rules! refusals {
    ($($name:ident = $number:literal, $question:literal, $reason:literal;)*) => {
        /// A call was refused: the question that got a "no", by its number in document 01, or in 02 from 13 on. Of several the
        /// first in the order that the call lists is answered.
        #[derive(Clone, Copy, Debug, PartialEq, Eq, Hash, PartialOrd, Ord)]
        #[repr(u8)]
        pub enum Refusal {
            $(#[doc = $question] $name = $number,)*
        }

        impl Refusal {
            /// All refusals, in the order of their numbers.
            pub const ALL: [Refusal; 21] = [$(Refusal::$name),*];

            /// The question that got a "no", in document 01's words, 1 with document 02's modes; those from 13 on are document
            /// 02's, as questions. What a day table is asked under 2, 3 and 10 is told by the reason.
            pub fn question(self) -> &'static str {
                match self { $(Refusal::$name => $question,)* }
            }

            /// The "no", spelt out.
            pub fn reason(self) -> &'static str {
                match self { $(Refusal::$name => $reason,)* }
            }
        }
    };
}

refusals! {
    Mode = 1, "Is the mode 1, 2, 4 or 5?", "the mode is not 1, 2, 4 or 5";
    TooLong = 2, "Is the chunk at most 65,536 bytes?", "the chunk is longer than 65,536 bytes, or the table than 38,220";
    Unreadable = 3, "Is every record readable?", "a record, or a line of a table, is not readable";
    PieceCount = 4, "Are there 2 to 64 pieces?", "there are not 2 to 64 pieces";
    NotASummary = 5, "Is each given piece exactly one summary?", "a given piece is not exactly one summary of a mode in use";
    MixedModes = 6, "Are all of one mode?", "the pieces are not all of one mode";
    LevelGap = 7, "Do neighbouring records meet at one level?", "neighbouring records do not meet at one level";
    LevelZero = 8, "Is every level between records above 0?", "a level between records is 0";
    TooManyOpened = 9, "Are at most 100,000 records opened?", "more than 100,000 records are opened";
    NoRecord = 10, "Is there any record?", "there is no record, or no line";
    NotWhole = 11, "Does the log begin and end at level 0?", "the log does not begin and end at level 0";
    BufferTooShort = 12, "Does the result fit the lent buffer?", "the result does not fit the lent buffer";
    NotNested = 13,
        "Is the first depth 0, no later one 0, and none more than one above the line before it?",
        "a table's depths are not those of a log";
    OpenedCount = 14,
        "Are 1 to 8 opened records asked for?",
        "the number of opened records asked for is not 1 to 8";
    NotARun = 15, "Are the bytes exactly one run?", "the bytes are not exactly one run of a mode in use, or a number in it does not fit";
    NoWayBack = 16, "Is the run of mode 1 or 4?", "the run is of mode 2 or 5, where there is no way back";
    OuterFigure = 17,
        "Is the outer figure within ±10^14 in mode 1, or 0 to 2^32 - 1 in mode 4?",
        "the outer figure is out of the range of the run's mode";
    NoSuchPage = 18, "Does the page start with a record of the log?", "the page starts past the last record";
    NoSuchRecord = 19, "Are both numbers below the opened count?", "a record number is not below the number of opened records";
    NoSuchFarm = 20, "Is the farm at most 7?", "the farm's number is above 7";
    CommonStock = 21,
        "Would the farms' excess over 10,000 then add to at most 20,000?",
        "the farms would draw more than the 20,000 opened records that they have in common";
}

impl Refusal {
    /// The question's number, 1 to 21.
    pub fn number(self) -> u8 {
        self as u8
    }

    /// The refusal with a number, if it is 1 to 21.
    pub fn from_number(number: i64) -> Option<Refusal> {
        Refusal::ALL.into_iter().find(|refusal| i64::from(refusal.number()) == number)
    }
}

/// The number, and the reason.
///
/// ```
/// use tulghimo::Refusal;
///
/// let refusal = Refusal::NoRecord;
/// assert_eq!(refusal.to_string(), "refused 10: there is no record, or no line");
/// assert_eq!(refusal.question(), "Is there any record?");
/// assert_eq!(refusal.number(), 10);
/// ```
impl fmt::Display for Refusal {
    fn fmt(&self, f: &mut fmt::Formatter<'_>) -> fmt::Result {
        write!(f, "refused {}: {}", self.number(), self.reason())
    }
}

impl Error for Refusal {}

#[cfg(test)]
mod tests {
    use super::Refusal;

    #[test]
    fn numbers_are_1_to_21_in_order() {
        let numbers: Vec<u8> = Refusal::ALL.iter().map(|refusal| refusal.number()).collect();
        assert_eq!(numbers, (1..=21).collect::<Vec<u8>>());
        for number in -1..=23 {
            let found = Refusal::from_number(number).map(|refusal| i64::from(refusal.number()));
            assert_eq!(found, (1..=21).contains(&number).then_some(number));
        }
    }
}
