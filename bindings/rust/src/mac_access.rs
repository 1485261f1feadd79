//! Clause 21.4.2.1, MAC-ACCESS: 16 to 36 bits.
use crate::record::{self, Record, number8};
use crate::{Cursor, Refusal, ReservationRequirement, UplinkAddress};
use crate::{sys, uplink};

/// What follows the address.
#[derive(Clone, Copy, Debug, PartialEq, Eq, Hash)]
pub enum MacAccessOption {
    Without,
    /// 5 bits.
    LengthInd(u8),
    /// The fragment flag and the reservation requirement.
    CapacityRequest(bool, ReservationRequirement),
}

/// A MAC-ACCESS.
#[derive(Clone, Copy, Debug, PartialEq, Eq, Hash)]
pub struct MacAccess {
    /// 1 bit, whether fill bits follow the content.
    pub fill_bits: bool,
    /// 1 bit, set only with an event label (10).
    pub encrypted: bool,
    /// 2 bits, and the address.
    pub addr: UplinkAddress,
    /// 1 bit, and 6 where there is one.
    pub option: MacAccessOption,
}

impl MacAccess {
    /// Reads one: 1, 4 or 13 refuse it.
    pub fn from_bitbuf(s: &[u8], c: Cursor) -> Result<(Self, Cursor), Refusal> {
        record::read(sys::tetra_mac_access_read, s, c)
    }

    /// Writes it: 2, 3, 10 or 13 refuse it.
    pub fn to_bitbuf(&self, s: &mut [u8], c: Cursor) -> Result<Cursor, Refusal> {
        record::write(sys::tetra_mac_access_write, self, s, c)
    }

    /// Whether it has a length and the length is 0.
    pub fn is_null_pdu(&self) -> bool {
        self.option == MacAccessOption::LengthInd(0)
    }

    /// Whether it is the first of fragments.
    pub fn is_frag_start(&self) -> bool {
        matches!(self.option, MacAccessOption::CapacityRequest(true, _))
    }
}

impl Record<8> for MacAccess {
    fn to_words(&self) -> [u64; 8] {
        let option = match self.option {
            MacAccessOption::Without => [0, 0, 0],
            MacAccessOption::LengthInd(length) => [1, u64::from(length), 0],
            MacAccessOption::CapacityRequest(frag_flag, req) => [2, u64::from(frag_flag), req.into_raw()],
        };
        uplink::to_words((self.fill_bits, self.encrypted, self.addr, option))
    }

    fn from_words(words: &[u64; 8]) -> Option<Self> {
        let (fill_bits, encrypted, addr, [option, first, reservation]) = uplink::from_words(words)?;
        let option = match option {
            0 => MacAccessOption::Without,
            1 => MacAccessOption::LengthInd(number8(first)?),
            2 => MacAccessOption::CapacityRequest(first != 0, ReservationRequirement::from_raw(reservation)?),
            _ => return None,
        };
        Some(MacAccess { fill_bits, encrypted, addr, option })
    }
}
