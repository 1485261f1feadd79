//! Clause 21.4.7.2, ACCESS-ASSIGN: the usage markers, 6 bits each.
use crate::record::number8;

/// What the downlink slot is used for.
#[derive(Clone, Copy, Debug, PartialEq, Eq, Hash)]
pub enum AccessAssignDlUsage {
    Unallocated,
    AssignedControl,
    CommonControl,
    CommonAndAssigned,
    /// 4 to 63; when written, below 4 is refused 7 and over 63 is refused 3.
    Traffic(u8),
}

/// What the uplink slot is used for. The first three are told by the header and have no marker: written in the place of one they are refused 7.
#[derive(Clone, Copy, Debug, PartialEq, Eq, Hash)]
pub enum AccessAssignUlUsage {
    CommonOnly,
    CommonAndAssigned,
    AssignedOnly,
    Unallocated,
    /// 4 to 63; when written, below 4 is refused 7 and over 63 is refused 3.
    Traffic(u8),
}

impl AccessAssignDlUsage {
    pub(crate) fn to_words(self) -> [u64; 2] {
        match self {
            AccessAssignDlUsage::Unallocated => [0, 0],
            AccessAssignDlUsage::AssignedControl => [1, 0],
            AccessAssignDlUsage::CommonControl => [2, 0],
            AccessAssignDlUsage::CommonAndAssigned => [3, 0],
            AccessAssignDlUsage::Traffic(marker) => [4, u64::from(marker)],
        }
    }

    pub(crate) fn from_words([kind, marker]: [u64; 2]) -> Option<Self> {
        Some(match kind {
            0 => AccessAssignDlUsage::Unallocated,
            1 => AccessAssignDlUsage::AssignedControl,
            2 => AccessAssignDlUsage::CommonControl,
            3 => AccessAssignDlUsage::CommonAndAssigned,
            4 => AccessAssignDlUsage::Traffic(number8(marker)?),
            _ => return None,
        })
    }
}

impl AccessAssignUlUsage {
    pub(crate) fn to_words(self) -> [u64; 2] {
        match self {
            AccessAssignUlUsage::CommonOnly => [0, 0],
            AccessAssignUlUsage::CommonAndAssigned => [1, 0],
            AccessAssignUlUsage::AssignedOnly => [2, 0],
            AccessAssignUlUsage::Unallocated => [3, 0],
            AccessAssignUlUsage::Traffic(marker) => [4, u64::from(marker)],
        }
    }

    pub(crate) fn from_words([kind, marker]: [u64; 2]) -> Option<Self> {
        Some(match kind {
            0 => AccessAssignUlUsage::CommonOnly,
            1 => AccessAssignUlUsage::CommonAndAssigned,
            2 => AccessAssignUlUsage::AssignedOnly,
            3 => AccessAssignUlUsage::Unallocated,
            4 => AccessAssignUlUsage::Traffic(number8(marker)?),
            _ => return None,
        })
    }
}
