//! "Four modes", with document 02's L3, "A drop is taken at its value", in the place of
//! mode 3: how held figures combine, and how they go through a record.

/// Held figures combined: a number, or nothing at all (modes 2 and 5 only).
pub type Held = Option<i64>;

#[derive(Clone, Copy, Debug, PartialEq, Eq)]
pub enum Mode {
    /// "1. Net"
    Net,
    /// "2. Heaviest line"
    Heaviest,
    /// Document 02, L3: "the eaten figure", and "This is mode 5."
    Eaten,
    /// "4. Stamp"
    Stamp,
}

impl Mode {
    /// The modes in use, as the day program prints their figures: mode 5 "third".
    pub const ALL: [Mode; 4] = [Mode::Net, Mode::Heaviest, Mode::Eaten, Mode::Stamp];

    pub fn number(self) -> u32 {
        match self {
            Mode::Net => 1,
            Mode::Heaviest => 2,
            Mode::Eaten => 5,
            Mode::Stamp => 4,
        }
    }

    /// The mode in use with a number: 1, 2, 4 or 5.
    pub fn from_number(number: u32) -> Option<Mode> {
        Mode::ALL.into_iter().find(|mode| mode.number() == number)
    }
}

/// A record that held figures go through: its value, floor and ceiling.
#[derive(Clone, Copy, Debug, PartialEq, Eq)]
pub struct Grams {
    pub value: i64,
    pub floor: i64,
    pub ceiling: i64,
}

/// The remainder modulo 2^32, from 0 to 2^32 - 1.
pub fn modulo_2_32(number: i64) -> i64 {
    number.rem_euclid(1 << 32)
}

/// Figures combined: their sum, in mode 2 the greatest of them, in mode 4 the sum
/// modulo 2^32 ("Its sums wrap on purpose").
///
/// "'Nothing held' counts as 0 in modes 1, .. and 4. In mode 2 it is no number", and
/// in mode 5 likewise.
pub fn combine(mode: Mode, parts: &[Held]) -> Held {
    let figures = parts.iter().flatten().copied();
    match mode {
        Mode::Net => Some(figures.sum()),
        Mode::Heaviest => figures.max(),
        Mode::Eaten => figures.reduce(|one, other| one + other),
        Mode::Stamp => Some(modulo_2_32(figures.sum())),
    }
}

/// What "nothing held" is in a mode.
pub fn nothing(mode: Mode) -> Held {
    combine(mode, &[])
}

/// The figure of a record whose held figures combine to `held`.
pub fn through(mode: Mode, record: &Grams, held: Held) -> i64 {
    let v = record.value;
    match (mode, held) {
        // "v + the sum of the held figures"
        (Mode::Net, held) => v + held.unwrap_or(0),
        // "v + the greatest held figure; v alone if it holds none"
        (Mode::Heaviest, Some(greatest)) => v + greatest,
        (Mode::Heaviest, None) => v,
        // "The trade now counts such a record as it is": one "that holds nothing".
        (Mode::Eaten, None) => v,
        // "floor and ceiling bind only a record that holds others": "v + the sum of the
        // held figures, raised to the floor if below, lowered to the ceiling if above"
        (Mode::Eaten, Some(sum)) => between(v + sum, record.floor, record.ceiling),
        // "(v + 31 × the sum of the held stamps) modulo 2^32"
        (Mode::Stamp, held) => modulo_2_32(v + 31 * held.unwrap_or(0)),
    }
}

/// A number raised to the floor if below, lowered to the ceiling if above.
pub fn between(number: i64, floor: i64, ceiling: i64) -> i64 {
    if number < floor {
        floor
    } else if number > ceiling {
        ceiling
    } else {
        number
    }
}

/// How held figures stand in bytes: nothing "is stored as -2^63".
pub fn stored(held: Held) -> i64 {
    held.unwrap_or(i64::MIN)
}

/// Held figures out of bytes: "'Nothing held' there is -2^63, as in mode 2", and in no
/// other mode.
pub fn loaded(mode: Mode, number: i64) -> Held {
    if matches!(mode, Mode::Heaviest | Mode::Eaten) && number == i64::MIN {
        None
    } else {
        Some(number)
    }
}
