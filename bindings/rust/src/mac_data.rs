//! Clause 21.4.2.3, MAC-DATA: 23 or 37 bits.
use crate::record::{self, Record, number8};
use crate::{Cursor, Refusal, ReservationRequirement, UplinkAddress};
use crate::{sys, uplink};

/// What follows the address.
#[derive(Clone, Copy, Debug, PartialEq, Eq, Hash)]
pub enum MacDataOption {
    /// 6 bits.
    LengthInd(u8),
    /// The fragment flag and the reservation requirement; a reserved bit follows, which is written 0 and read as either.
    CapacityRequest(bool, ReservationRequirement),
}

/// A MAC-DATA.
#[derive(Clone, Copy, Debug, PartialEq, Eq, Hash)]
pub struct MacData {
    /// 1 bit, whether fill bits follow the content.
    pub fill_bits: bool,
    /// 1 bit, set only with an event label (10).
    pub encrypted: bool,
    /// 2 bits, and the address.
    pub addr: UplinkAddress,
    /// 7 bits.
    pub option: MacDataOption,
}

impl MacData {
    /// Reads one: 1, 4 or 13 refuse it.
    pub fn from_bitbuf(s: &[u8], c: Cursor) -> Result<(Self, Cursor), Refusal> {
        record::read(sys::tetra_mac_data_read, s, c)
    }

    /// Writes it: 2, 3, 10 or 13 refuse it.
    pub fn to_bitbuf(&self, s: &mut [u8], c: Cursor) -> Result<Cursor, Refusal> {
        record::write(sys::tetra_mac_data_write, self, s, c)
    }
}

impl Record<8> for MacData {
    fn to_words(&self) -> [u64; 8] {
        let option = match self.option {
            MacDataOption::LengthInd(length) => [1, u64::from(length), 0],
            MacDataOption::CapacityRequest(frag_flag, req) => [2, u64::from(frag_flag), req.into_raw()],
        };
        uplink::to_words((self.fill_bits, self.encrypted, self.addr, option))
    }

    fn from_words(words: &[u64; 8]) -> Option<Self> {
        let (fill_bits, encrypted, addr, [option, first, reservation]) = uplink::from_words(words)?;
        let option = match option {
            1 => MacDataOption::LengthInd(number8(first)?),
            2 => MacDataOption::CapacityRequest(first != 0, ReservationRequirement::from_raw(reservation)?),
            _ => return None,
        };
        Some(MacData { fill_bits, encrypted, addr, option })
    }
}
