//! Addresses of the MAC. An address names its parts by its case, so that contradictory pairs cannot be built.
use crate::record::{number8, number16, number32};

codes! {
    /// What kind of short subscriber identity an SSI is. On the air all three are one: downlink reads give Ssi, uplink reads Issi.
    SsiType {
        /// The kind is not known.
        Ssi = 0,
        /// Individual.
        Issi = 1,
        /// Group.
        Gssi = 2,
    }
}

/// The address of a MAC-RESOURCE: SSI, USSI and SMI have 24 bits, an event label 10, a usage marker 6.
#[derive(Clone, Copy, Debug, PartialEq, Eq, Hash)]
pub enum DownlinkAddress {
    NullPdu,
    Ssi(SsiType, u32),
    EventLabel(u16),
    Ussi(u32),
    Smi(u32),
    SsiAndEventLabel(SsiType, u32, u16),
    SsiAndUsageMarker(SsiType, u32, u8),
    SmiAndEventLabel(u32, u16),
}

/// The address of a MAC-ACCESS or MAC-DATA.
#[derive(Clone, Copy, Debug, PartialEq, Eq, Hash)]
pub enum UplinkAddress {
    Ssi(SsiType, u32),
    EventLabel(u16),
    Ussi(u32),
    Smi(u32),
}

impl DownlinkAddress {
    /// Address type, SSI kind, first and second number.
    pub(crate) fn to_words(self) -> [u64; 4] {
        match self {
            DownlinkAddress::NullPdu => [0, 0, 0, 0],
            DownlinkAddress::Ssi(kind, ssi) => [1, kind.into_raw(), ssi.into(), 0],
            DownlinkAddress::EventLabel(label) => [2, 0, label.into(), 0],
            DownlinkAddress::Ussi(ussi) => [3, 0, ussi.into(), 0],
            DownlinkAddress::Smi(smi) => [4, 0, smi.into(), 0],
            DownlinkAddress::SsiAndEventLabel(kind, ssi, label) => [5, kind.into_raw(), ssi.into(), label.into()],
            DownlinkAddress::SsiAndUsageMarker(kind, ssi, marker) => [6, kind.into_raw(), ssi.into(), marker.into()],
            DownlinkAddress::SmiAndEventLabel(smi, label) => [7, 0, smi.into(), label.into()],
        }
    }

    pub(crate) fn from_words([addr_type, kind, a, b]: [u64; 4]) -> Option<Self> {
        Some(match addr_type {
            0 => DownlinkAddress::NullPdu,
            1 => DownlinkAddress::Ssi(SsiType::from_raw(kind)?, number32(a)?),
            2 => DownlinkAddress::EventLabel(number16(a)?),
            3 => DownlinkAddress::Ussi(number32(a)?),
            4 => DownlinkAddress::Smi(number32(a)?),
            5 => DownlinkAddress::SsiAndEventLabel(SsiType::from_raw(kind)?, number32(a)?, number16(b)?),
            6 => DownlinkAddress::SsiAndUsageMarker(SsiType::from_raw(kind)?, number32(a)?, number8(b)?),
            7 => DownlinkAddress::SmiAndEventLabel(number32(a)?, number16(b)?),
            _ => return None,
        })
    }
}

impl UplinkAddress {
    /// Address type, SSI kind and number.
    pub(crate) fn to_words(self) -> [u64; 3] {
        match self {
            UplinkAddress::Ssi(kind, ssi) => [0, kind.into_raw(), ssi.into()],
            UplinkAddress::EventLabel(label) => [1, 0, label.into()],
            UplinkAddress::Ussi(ussi) => [2, 0, ussi.into()],
            UplinkAddress::Smi(smi) => [3, 0, smi.into()],
        }
    }

    pub(crate) fn from_words([addr_type, kind, number]: [u64; 3]) -> Option<Self> {
        Some(match addr_type {
            0 => UplinkAddress::Ssi(SsiType::from_raw(kind)?, number32(number)?),
            1 => UplinkAddress::EventLabel(number16(number)?),
            2 => UplinkAddress::Ussi(number32(number)?),
            3 => UplinkAddress::Smi(number32(number)?),
            _ => return None,
        })
    }
}
