//! What the calls take and answer.

use crate::Refusal;
use std::fmt;

/// The figure that is asked for.
#[derive(Clone, Copy, Debug, PartialEq, Eq, Hash)]
#[repr(u8)]
pub enum Mode {
    /// A record's value and the held figures, added.
    Net = 1,
    /// A record's value and the greatest held figure.
    Heaviest = 2,
    /// As net, but a record that holds others is raised to its floor and lowered to its ceiling. One that holds nothing counts as it
    /// is.
    Eaten = 5,
    /// A record's value and 31 times the held stamps, modulo 2^32.
    Stamp = 4,
}

impl Mode {
    /// The four modes, in the order of [`Figures`].
    pub const ALL: [Mode; 4] = [Mode::Net, Mode::Heaviest, Mode::Eaten, Mode::Stamp];

    /// The mode's number: 1, 2, 4 or 5.
    pub fn number(self) -> u32 {
        self as u32
    }
}

/// A number of no mode gets refusal 1. Eaten had the number 3 while floor and ceiling bound every record.
///
/// ```
/// use tulghimo::{Mode, Refusal};
///
/// assert_eq!(Mode::try_from(5), Ok(Mode::Eaten));
/// assert_eq!(Mode::try_from(3), Err(Refusal::Mode));
/// ```
impl TryFrom<u32> for Mode {
    type Error = Refusal;

    fn try_from(number: u32) -> Result<Mode, Refusal> {
        Mode::ALL.into_iter().find(|mode| mode.number() == number).ok_or(Refusal::Mode)
    }
}

/// Whether a record opens or closes.
#[derive(Clone, Copy, Debug, PartialEq, Eq, Hash)]
pub enum Kind {
    /// Kind 1.
    Open,
    /// Kind 2.
    Close,
}

/// A record of a log. Value, floor and ceiling, in grams, are 0 for a close.
///
/// An open has length 18; or 10, without a floor and a ceiling, which are then 0 and 1,000,000,000; or 22, with a batch. A close has
/// length 6.
///
/// The old floor of length 10 was -1,000,000,000. Who counts on it sends length 18 with that floor, 8 bytes more a record: a chunk may
/// have to be cut in two.
#[derive(Clone, Copy, Debug, PartialEq, Eq, Hash)]
#[allow(missing_docs)]
pub struct Record {
    pub kind: Kind,
    /// In bytes: the next record, if there is one, begins after these.
    pub length: usize,
    pub depth: u8,
    pub value: i32,
    pub floor: i32,
    pub ceiling: i32,
    /// The number that the mill prints on the bag; 0 where the record has none, which its length tells. All other calls drop it.
    pub batch: u32,
}

/// The 16-bit number at a place.
fn unsigned(bytes: &[u8], place: usize) -> u16 {
    u16::from_le_bytes([bytes[place], bytes[place + 1]])
}

/// A line of the join plan: chunk `j` closes records that chunk `i` opened, of these depths. Chunks are counted from 0.
#[derive(Clone, Copy, Debug, PartialEq, Eq, Hash)]
#[allow(missing_docs)]
pub struct Line {
    pub i: u16,
    pub j: u16,
    pub lowest: u16,
    pub highest: u16,
}

impl Line {
    /// In bytes.
    pub(crate) const LENGTH: usize = 12;

    /// After length and kind come the four numbers.
    pub(crate) fn read(bytes: &[u8]) -> Line {
        let [i, j, lowest, highest] = [4, 6, 8, 10].map(|place| unsigned(bytes, place));
        Line { i, j, lowest, highest }
    }
}

/// The run of a join: the figure of its lowest-depth record as a function of x, the combined figures that its highest-depth record
/// holds and that lie wholly in neither of the two chunks.
#[derive(Clone, Copy, Debug, PartialEq, Eq, Hash)]
#[allow(missing_docs)]
pub enum Run {
    /// x + a.
    Net { a: i64 },
    /// z for nothing, else the greater of a, where there is one, and x + b. There is none where no other figure is on the way.
    Heaviest { z: i64, a: Option<i64>, b: i64 },
    /// z for nothing, else x + a held between l and h. z may lie outside these: with nothing inside, the highest-depth record is not
    /// bound by its floor and ceiling if it holds nothing else.
    Eaten { z: i64, a: i64, l: i64, h: i64 },
    /// m·x + q modulo 2^32.
    Stamp { m: u32, q: u32 },
}

impl Run {
    /// In bytes: a run of eaten has four numbers, all others three.
    pub(crate) const LONGEST: usize = 6 + 4 * 8;

    /// The mode that it is of.
    pub fn mode(&self) -> Mode {
        match self {
            Run::Net { .. } => Mode::Net,
            Run::Heaviest { .. } => Mode::Heaviest,
            Run::Eaten { .. } => Mode::Eaten,
            Run::Stamp { .. } => Mode::Stamp,
        }
    }

    /// Its bytes, as they are written: length, kind 20 and mode, then its numbers. Where these are such as no run has (an even m, say),
    /// [`backwards`](crate::backwards) refuses the bytes by 15.
    pub fn bytes(&self) -> Vec<u8> {
        let numbers = match *self {
            Run::Net { a } => vec![a, 0, 0],
            Run::Heaviest { z, a, b } => vec![z, a.unwrap_or(i64::MIN), b],
            Run::Eaten { z, a, l, h } => vec![z, a, l, h],
            Run::Stamp { m, q } => vec![m.into(), q.into(), 0],
        };
        // A head of 6 bytes, and 3 or 4 numbers.
        let head = [6 + 8 * numbers.len() as u16, 20, self.mode() as u16];
        let head = head.iter().flat_map(|field| field.to_le_bytes());
        head.chain(numbers.iter().flat_map(|number| number.to_le_bytes())).collect()
    }

    /// The runs in these bytes. Each begins with its length, kind and mode, and its numbers follow.
    pub(crate) fn read_all(mut bytes: &[u8]) -> Result<Vec<Run>, Refusal> {
        let mut runs = Vec::new();
        while !bytes.is_empty() {
            let (run, rest) = bytes.split_at(unsigned(bytes, 0).into());
            runs.push(Run::read(run)?);
            bytes = rest;
        }
        Ok(runs)
    }

    /// One run. In heaviest -2^63 is stored where there is no a.
    fn read(bytes: &[u8]) -> Result<Run, Refusal> {
        let number = |place: usize| i64::from_le_bytes(bytes[6 + 8 * place..14 + 8 * place].try_into().expect("8 bytes"));
        Ok(match Mode::try_from(u32::from(unsigned(bytes, 4)))? {
            Mode::Net => Run::Net { a: number(0) },
            Mode::Heaviest => Run::Heaviest { z: number(0), a: Some(number(1)).filter(|&a| a != i64::MIN), b: number(2) },
            Mode::Eaten => Run::Eaten { z: number(0), a: number(1), l: number(2), h: number(3) },
            // Both are 0 to 2^32 - 1.
            Mode::Stamp => Run::Stamp { m: number(0) as u32, q: number(1) as u32 },
        })
    }
}

/// A line of a day table: an opened record, its amounts in grams. The lines of a table stand in log order.
#[derive(Clone, Copy, Debug, PartialEq, Eq, Hash)]
#[allow(missing_docs)]
pub struct TableLine {
    pub depth: u16,
    pub value: i32,
    pub floor: i32,
    pub ceiling: i32,
}

impl TableLine {
    /// In bytes.
    pub(crate) const LENGTH: usize = 14;

    /// The bytes of a log that it is written as: an open of 18 and a close of 6.
    pub(crate) const LOG_LENGTH: usize = 18 + 6;

    /// The depth, and the three amounts.
    pub(crate) fn read(bytes: &[u8]) -> TableLine {
        let amount = |place: usize| i32::from_le_bytes(bytes[place..place + 4].try_into().expect("4 bytes"));
        TableLine { depth: unsigned(bytes, 0), value: amount(2), floor: amount(6), ceiling: amount(10) }
    }

    /// What `read` reads.
    pub(crate) fn bytes(&self) -> [u8; TableLine::LENGTH] {
        let mut bytes = [0; TableLine::LENGTH];
        bytes[..2].copy_from_slice(&self.depth.to_le_bytes());
        for (place, amount) in [(2, self.value), (6, self.floor), (10, self.ceiling)] {
            bytes[place..place + 4].copy_from_slice(&amount.to_le_bytes());
        }
        bytes
    }
}

/// What the work along a plan gives.
#[derive(Clone, Copy, Debug, PartialEq, Eq, Hash)]
pub struct Work {
    /// The figure of the log that the row stands for.
    pub figure: i64,
    /// The joins used: the plan's lines.
    pub joins: u32,
    /// The levels folded: highest - lowest + 1, over the plan.
    pub levels: u32,
}

/// The four figures of a whole log.
#[derive(Clone, Copy, Debug, PartialEq, Eq, Hash)]
#[allow(missing_docs)]
pub struct Figures {
    pub net: i64,
    pub heaviest: i64,
    pub eaten: i64,
    pub stamp: u32,
}

/// As the day program prints them, without the newline.
impl fmt::Display for Figures {
    fn fmt(&self, f: &mut fmt::Formatter<'_>) -> fmt::Result {
        write!(f, "{} {} {} {}", self.net, self.heaviest, self.eaten, self.stamp)
    }
}
