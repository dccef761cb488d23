//! Document 02, L11, "Eight farms on one station": a run of calls by what each farm sent, with no
//! state in bytes.
//!
//! The ledger notes the accepted summaries, and nothing is merged until a farm's end of day. What a
//! farm has opened is added up from them. Merging adds opened records too, and cuts them only above
//! 100,000, where a send is refused in any case.

use crate::farms::{blank, question_20, FARMS, IN_COMMON, OWN};
use crate::gate::question_12;
use crate::layout::{decode, encode};
use crate::merge::merge;
use crate::mode::Mode;
use crate::summary::Summary;

/// A call of a run, in which "a state is fresh at the start and only these calls change it".
#[derive(Clone, Debug, PartialEq, Eq)]
pub enum Call {
    Send { farm: u32, summary: Vec<u8> },
    EndOfDay { farm: u32, capacity: usize },
}

impl Call {
    /// The farm that makes it.
    pub fn farm(&self) -> u32 {
        match self {
            Call::Send { farm, .. } | Call::EndOfDay { farm, .. } => *farm,
        }
    }
}

/// What a farm is told: the summary that an end of day hands out, or a refusal. Of a send "the farm
/// is told only that it was taken": no byte.
pub type Told = Result<Vec<u8>, u8>;

/// Of each farm "its own accepted summaries since its last end of day that was taken", in the order
/// they came.
#[derive(Clone, Debug)]
pub struct Ledger {
    mode: Mode,
    accepted: [Vec<Summary>; FARMS],
}

impl Ledger {
    /// "a state is fresh at the start"
    pub fn fresh(mode: Mode) -> Ledger {
        Ledger { mode, accepted: Default::default() }
    }

    /// A farm's summary: its accepted ones, "merged in the order they came".
    pub fn summary(&self, farm: usize) -> Summary {
        self.accepted[farm].iter().fold(blank(self.mode), |merged, next| merge(&merged, next))
    }

    /// What a farm has opened.
    pub fn opened(&self, farm: usize) -> u64 {
        self.accepted[farm].iter().filter_map(Summary::ends).map(|(_, _, opened)| opened).sum()
    }

    /// What all farms draw together on those in common.
    pub fn drawn(&self) -> u64 {
        (0..FARMS).map(|farm| self.opened(farm).max(OWN) - OWN).sum()
    }

    /// What the farm that makes a call is told. A refusal leaves the ledger as it is.
    pub fn tell(&mut self, call: &Call) -> Told {
        let farm = question_20(call.farm())?;
        match call {
            Call::Send { summary, .. } => self.send(farm, summary),
            Call::EndOfDay { capacity, .. } => self.end_of_day(farm, *capacity),
        }
    }

    /// 5; 6; "21 after 6 and before 12".
    fn send(&mut self, farm: usize, summary: &[u8]) -> Told {
        let sent = decode(summary).ok_or(5)?;
        if sent.mode != self.mode {
            return Err(6);
        }
        self.accepted[farm].push(sent);
        if self.drawn() > IN_COMMON {
            self.accepted[farm].pop();
            return Err(21);
        }
        Ok(Vec::new())
    }

    /// "A farm's end of day hands out its summary and makes it blank, and what it drew is free
    /// again; a 12 there leaves the farm as it is."
    fn end_of_day(&mut self, farm: usize, capacity: usize) -> Told {
        let handed_out = question_12(encode(&self.summary(farm)), capacity)?;
        self.accepted[farm].clear();
        Ok(handed_out)
    }
}
