//! Document 02, L11, "Eight farms on one station": the bytes of the state, what they stand for, and
//! the two questions that the request adds.
//!
//! The state has a slot of 1,788 bytes for each farm, as many as the longest summary has. At its
//! start stands the farm's running summary, and the rest of it is 0. Any bytes are a state: a slot
//! holds what its length field says, and that need not be a summary. What a call would leave is
//! made as a whole, so that question 21 is asked of just that, and takes the place of the old state
//! where nothing is refused.

use crate::bytes::unsigned;
use crate::layout::encode;
use crate::mode::Mode;
use crate::summary::{Case, Summary};

/// "up to eight farms, 0 to 7"
pub const FARMS: usize = 8;

/// The bytes of a slot. Of a summary: "at most 1,788".
pub const SLOT: usize = 1_788;

/// The bytes of the state: eight slots, that of farm f from 1,788 × f on.
pub const FARMS_STATE: usize = 14_304;

/// "Up to 10,000 opened records a farm are its own"
pub const OWN: u64 = 10_000;

/// "above that it draws on 20,000 that all have in common"
pub const IN_COMMON: u64 = 20_000;

/// "20 first, for a farm above 7"
pub fn question_20(farm: u32) -> Result<usize, u8> {
    if farm <= 7 {
        Ok(farm as usize)
    } else {
        Err(20)
    }
}

/// What each slot holds, be it a summary or not: as many bytes from its start as the length field
/// there says, or all of them.
pub fn held(state: &[u8; FARMS_STATE]) -> Vec<&[u8]> {
    let length = |slot: &[u8]| SLOT.min(unsigned(&slot[0..2]) as usize);
    state.chunks(SLOT).map(|slot| &slot[..length(slot)]).collect()
}

/// The opened records of what a slot holds: "opened records (32 bits ..)" come after 12 bytes in a
/// spoilt summary and in a hill alike. A blank is shorter and has none.
pub fn opened(held: &[u8]) -> u64 {
    held.get(12..16).map_or(0, unsigned)
}

/// "21 .., exactly when the farms' excess over 10,000 would then add to more than 20,000": then is
/// the state that a send would leave.
pub fn question_21(then: &[u8; FARMS_STATE]) -> Result<(), u8> {
    let excess: u64 = held(then).into_iter().map(|held| opened(held).saturating_sub(OWN)).sum();
    if excess <= IN_COMMON {
        Ok(())
    } else {
        Err(21)
    }
}

/// A fresh state: "Each farm has a running summary, blank at first".
pub fn fresh(mode: Mode) -> [u8; FARMS_STATE] {
    let slots = slot(&blank(mode)).repeat(FARMS);
    slots.try_into().expect("eight slots")
}

/// The state in which a farm has another running summary; all other slots are as they were.
pub fn with_running(state: &[u8; FARMS_STATE], farm: usize, running: &Summary) -> [u8; FARMS_STATE] {
    let mut then = *state;
    then[SLOT * farm..SLOT * (farm + 1)].copy_from_slice(&slot(running));
    then
}

/// The blank summary of a mode.
pub fn blank(mode: Mode) -> Summary {
    Summary { mode, case: Case::Blank }
}

/// A slot with a running summary, and zeros after it.
fn slot(running: &Summary) -> Vec<u8> {
    let mut bytes = encode(running);
    bytes.resize(SLOT, 0);
    bytes
}
