//! A valley station that serves eight farms.

use crate::calls::{answer, written};
use crate::{raw, Mode, Refusal};
use std::fmt;

/// A valley station that serves eight farms, 0 to 7, in one mode. Each farm has a running summary, blank at first. Up to 10,000
/// opened records a farm are its own; above that it draws on 20,000 that all farms have in common. Whatever the other farms do, a farm
/// is told the same, up to a send of its own that gets [`Refusal::CommonStock`] because of them.
///
/// It is the state of [`raw::farms_fresh`], which only these calls can change. Two are equal exactly where they hold the same
/// summaries.
///
/// ```
/// use tulghimo::{day, example, finish, summarise, Farms, Mode, Refusal};
///
/// let (one, two) = example::two_stretches();
/// let mut farms = Farms::fresh(Mode::Eaten);
/// farms.send(0, &summarise(one, Mode::Eaten)?)?;
/// farms.send(7, &summarise(example::LOG_D, Mode::Eaten)?)?;
/// farms.send(0, &summarise(two, Mode::Eaten)?)?;
/// assert_eq!(farms.send(8, b""), Err(Refusal::NoSuchFarm));
/// assert_eq!(farms.send(0, b""), Err(Refusal::NotASummary));
/// assert_eq!(farms.send(0, &summarise(one, Mode::Net)?), Err(Refusal::MixedModes));
///
/// // Both farms had the same day: farm 0 sent it in two stretches.
/// let days = [farms.end_of_day(0)?, farms.end_of_day(7)?];
/// assert_eq!(days[0], days[1]);
/// assert_eq!(finish(&days[0])?, day(example::LOG_D)?.eaten);
/// assert!(farms == Farms::fresh(Mode::Eaten));
/// # Ok::<(), Refusal>(())
/// ```
#[derive(Clone, PartialEq, Eq)]
pub struct Farms {
    state: [u8; raw::FARMS_STATE],
}

impl Farms {
    /// A station at the start: every farm is blank.
    pub fn fresh(mode: Mode) -> Farms {
        let mut state = [0; raw::FARMS_STATE];
        answer(raw::farms_fresh(mode.number(), &mut state)).expect("a mode in use");
        Farms { state }
    }

    /// Merges a summary at the right end of a farm's running summary. The farm is told only that it was taken. Refused, and then
    /// nothing is changed: 20, 5, 6, 21. 21 exactly where the farms' opened records above 10,000, those of all eight added, would then
    /// be more than 20,000: never where the farm would be left within its own 10,000.
    pub fn send(&mut self, farm: u32, summary: &[u8]) -> Result<(), Refusal> {
        answer(raw::farms_send(&mut self.state, farm, summary)).map(|_| ())
    }

    /// Hands out a farm's summary, all that was taken for it since its last end of day, merged in the order it came, and makes it
    /// blank: what it drew is free again. Refused: 20; the buffer is long enough for any summary, so that each other end of day is
    /// taken.
    pub fn end_of_day(&mut self, farm: u32) -> Result<Vec<u8>, Refusal> {
        written(raw::LONGEST_SUMMARY, |out| raw::farms_end_of_day(&mut self.state, farm, out))
    }
}

impl fmt::Debug for Farms {
    fn fmt(&self, f: &mut fmt::Formatter<'_>) -> fmt::Result {
        f.debug_struct("Farms").finish_non_exhaustive()
    }
}
