//! Clause 21.4.7.2, ACCESS-ASSIGN: 14 bits, a header of 2 and two fields of 6.
use crate::record::{self, Record};
use crate::sys;
use crate::{AccessAssignDlUsage, AccessAssignUlUsage, AccessCode, AccessField, BaseFrameLength, Cursor, Refusal};

/// An ACCESS-ASSIGN.
#[derive(Clone, Copy, Debug, PartialEq, Eq, Hash)]
pub enum AccessAssign {
    /// Header 0.
    DownlinkCommonControlUplinkCommonOnly { access_field_1: AccessField, access_field_2: AccessField },
    /// Header 1.
    DownlinkDefinedUplinkCommonAndAssigned { downlink_usage_marker: AccessAssignDlUsage, access_field: AccessField },
    /// Header 2.
    DownlinkDefinedUplinkAssignedOnly { downlink_usage_marker: AccessAssignDlUsage, access_field: AccessField },
    /// Header 3.
    DownlinkDefinedUplinkDefined { downlink_usage_marker: AccessAssignDlUsage, uplink_usage_marker: AccessAssignUlUsage },
}

/// Both subslots open to all, code A, in an access frame of four subslots.
impl Default for AccessAssign {
    fn default() -> Self {
        let field = AccessField { access_code: AccessCode::AccessCodeA, base_frame_len: BaseFrameLength::Subslots4 };
        AccessAssign::DownlinkCommonControlUplinkCommonOnly { access_field_1: field, access_field_2: field }
    }
}

impl AccessAssign {
    /// Reads one: 1, 7 or 13 refuse it.
    pub fn from_bitbuf(s: &[u8], c: Cursor) -> Result<(Self, Cursor), Refusal> {
        record::read(sys::tetra_access_assign_read, s, c)
    }

    /// Writes it: 2, 3, 7 or 13 refuse it.
    pub fn to_bitbuf(&self, s: &mut [u8], c: Cursor) -> Result<Cursor, Refusal> {
        record::write(sys::tetra_access_assign_write, self, s, c)
    }
}

impl Record<5> for AccessAssign {
    fn to_words(&self) -> [u64; 5] {
        let (header, [a, b], [c, d]) = match *self {
            AccessAssign::DownlinkCommonControlUplinkCommonOnly { access_field_1, access_field_2 } => {
                (0, access_field_1.to_words(), access_field_2.to_words())
            }
            AccessAssign::DownlinkDefinedUplinkCommonAndAssigned { downlink_usage_marker, access_field } => {
                (1, downlink_usage_marker.to_words(), access_field.to_words())
            }
            AccessAssign::DownlinkDefinedUplinkAssignedOnly { downlink_usage_marker, access_field } => {
                (2, downlink_usage_marker.to_words(), access_field.to_words())
            }
            AccessAssign::DownlinkDefinedUplinkDefined { downlink_usage_marker, uplink_usage_marker } => {
                (3, downlink_usage_marker.to_words(), uplink_usage_marker.to_words())
            }
        };
        [header, a, b, c, d]
    }

    fn from_words(&[header, a, b, c, d]: &[u64; 5]) -> Option<Self> {
        let (one, two) = ([a, b], [c, d]);
        Some(match header {
            0 => AccessAssign::DownlinkCommonControlUplinkCommonOnly {
                access_field_1: AccessField::from_words(one)?,
                access_field_2: AccessField::from_words(two)?,
            },
            1 => AccessAssign::DownlinkDefinedUplinkCommonAndAssigned {
                downlink_usage_marker: AccessAssignDlUsage::from_words(one)?,
                access_field: AccessField::from_words(two)?,
            },
            2 => AccessAssign::DownlinkDefinedUplinkAssignedOnly {
                downlink_usage_marker: AccessAssignDlUsage::from_words(one)?,
                access_field: AccessField::from_words(two)?,
            },
            3 => AccessAssign::DownlinkDefinedUplinkDefined {
                downlink_usage_marker: AccessAssignDlUsage::from_words(one)?,
                uplink_usage_marker: AccessAssignUlUsage::from_words(two)?,
            },
            _ => return None,
        })
    }
}
