//! Clause 21.5.2, channel allocation: 25 bits, or 27 with monitoring pattern 0.
use crate::record::{self, Record, number8, number16};
use crate::sys;
use crate::{Cursor, Refusal};

codes! {
    /// The allocation type, 2 bits.
    ChanAllocType {
        Replace = 0,
        Additional = 1,
        QuitAndGo = 2,
        ReplaceWithCarrierSignalling = 3,
    }
}

codes! {
    /// The direction that is assigned, 2 bits.
    UlDlAssignment {
        /// Refused 6, read or written.
        Augmented = 0,
        Dl = 1,
        Ul = 2,
        Both = 3,
    }
}

/// A channel allocation. It has no extended carrier: one that is read is refused 5.
#[derive(Clone, Copy, Debug, PartialEq, Eq, Hash)]
pub struct ChanAllocElement {
    /// 2 bits.
    pub alloc_type: ChanAllocType,
    /// 4 bits, slot 1 first.
    pub ts_assigned: [bool; 4],
    /// 2 bits.
    pub ul_dl_assigned: UlDlAssignment,
    /// 1 bit.
    pub clch_permission: bool,
    /// 1 bit.
    pub cell_change_flag: bool,
    /// 12 bits.
    pub carrier_num: u16,
    /// 2 bits.
    pub mon_pattern: u8,
    /// 2 bits, written with monitoring pattern 0 alone, where there must be one (11).
    pub frame18_mon_pattern: Option<u8>,
}

impl ChanAllocElement {
    /// Reads one: 1, 5, 6 or 13 refuse it.
    pub fn from_bitbuf(s: &[u8], c: Cursor) -> Result<(Self, Cursor), Refusal> {
        record::read(sys::tetra_channel_allocation_read, s, c)
    }

    /// Writes it: 2, 3, 6, 11 or 13 refuse it.
    pub fn to_bitbuf(&self, s: &mut [u8], c: Cursor) -> Result<Cursor, Refusal> {
        record::write(sys::tetra_channel_allocation_write, self, s, c)
    }

    /// The bits that it is written as: 6 refuses it.
    pub fn compute_len(&self) -> Result<usize, Refusal> {
        record::length(sys::tetra_channel_allocation_len, self)
    }
}

impl Record<9> for ChanAllocElement {
    fn to_words(&self) -> [u64; 9] {
        [
            self.alloc_type.into_raw(),
            self.ts_assigned.iter().fold(0, |slots, &set| 2 * slots + u64::from(set)),
            self.ul_dl_assigned.into_raw(),
            u64::from(self.clch_permission),
            u64::from(self.cell_change_flag),
            u64::from(self.carrier_num),
            u64::from(self.mon_pattern),
            u64::from(self.frame18_mon_pattern.is_some()),
            u64::from(self.frame18_mon_pattern.unwrap_or(0)),
        ]
    }

    fn from_words(&[alloc_type, slots, direction, clch, cell_change, carrier, pattern, present, frame18]: &[u64; 9]) -> Option<Self> {
        if slots > 15 {
            return None;
        }
        Some(ChanAllocElement {
            alloc_type: ChanAllocType::from_raw(alloc_type)?,
            ts_assigned: [slots & 8 != 0, slots & 4 != 0, slots & 2 != 0, slots & 1 != 0],
            ul_dl_assigned: UlDlAssignment::from_raw(direction)?,
            clch_permission: clch != 0,
            cell_change_flag: cell_change != 0,
            carrier_num: number16(carrier)?,
            mon_pattern: number8(pattern)?,
            frame18_mon_pattern: if present == 0 { None } else { Some(number8(frame18)?) },
        })
    }
}
