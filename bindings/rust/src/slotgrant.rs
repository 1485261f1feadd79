//! Clause 21.5.6, basic slot granting: 8 bits.
use crate::record::{self, Record, number8};
use crate::sys;
use crate::{Cursor, Refusal};

codes! {
    /// The capacity granted, 4 bits.
    BasicSlotgrantCapAlloc {
        FirstSubslotGranted = 0,
        Grant1Slot = 1,
        Grant2Slots = 2,
        Grant3Slots = 3,
        Grant4Slots = 4,
        Grant5Slots = 5,
        Grant6Slots = 6,
        Grant8Slots = 7,
        Grant10Slots = 8,
        Grant13Slots = 9,
        Grant17Slots = 10,
        Grant24Slots = 11,
        Grant34Slots = 12,
        Grant51Slots = 13,
        Grant68Slots = 14,
        SecondSubslotGranted = 15,
    }
}

/// When the granted capacity begins, 4 bits.
#[derive(Clone, Copy, Debug, PartialEq, Eq, Hash)]
pub enum BasicSlotgrantGrantingDelay {
    CapAllocAtNextOpportunity,
    /// 1 to 13 opportunities; any other count is refused 14 when written.
    DelayNOpportunities(u8),
    AllocStartsAtOpportunityInFr18,
    WaitForAnotherSlotgrantMessage,
}

/// A slot grant.
#[derive(Clone, Copy, Debug, PartialEq, Eq, Hash)]
pub struct BasicSlotgrant {
    pub capacity_allocation: BasicSlotgrantCapAlloc,
    pub granting_delay: BasicSlotgrantGrantingDelay,
}

impl BasicSlotgrant {
    /// Reads one: 1 or 13 refuse it.
    pub fn from_bitbuf(s: &[u8], c: Cursor) -> Result<(Self, Cursor), Refusal> {
        record::read(sys::tetra_slotgrant_read, s, c)
    }

    /// Writes it: 2, 13 or 14 refuse it.
    pub fn to_bitbuf(&self, s: &mut [u8], c: Cursor) -> Result<Cursor, Refusal> {
        record::write(sys::tetra_slotgrant_write, self, s, c)
    }
}

impl Record<3> for BasicSlotgrant {
    fn to_words(&self) -> [u64; 3] {
        let (kind, count) = match self.granting_delay {
            BasicSlotgrantGrantingDelay::CapAllocAtNextOpportunity => (0, 0),
            BasicSlotgrantGrantingDelay::DelayNOpportunities(n) => (1, n),
            BasicSlotgrantGrantingDelay::AllocStartsAtOpportunityInFr18 => (2, 0),
            BasicSlotgrantGrantingDelay::WaitForAnotherSlotgrantMessage => (3, 0),
        };
        [self.capacity_allocation.into_raw(), kind, u64::from(count)]
    }

    fn from_words(&[capacity, kind, count]: &[u64; 3]) -> Option<Self> {
        let granting_delay = match kind {
            0 => BasicSlotgrantGrantingDelay::CapAllocAtNextOpportunity,
            1 => BasicSlotgrantGrantingDelay::DelayNOpportunities(number8(count)?),
            2 => BasicSlotgrantGrantingDelay::AllocStartsAtOpportunityInFr18,
            3 => BasicSlotgrantGrantingDelay::WaitForAnotherSlotgrantMessage,
            _ => return None,
        };
        Some(BasicSlotgrant { capacity_allocation: BasicSlotgrantCapAlloc::from_raw(capacity)?, granting_delay })
    }
}
