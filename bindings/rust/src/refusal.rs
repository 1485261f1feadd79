//! Why a call is refused.
use std::fmt;

/// A refusal's number and, for a read or a PDU of a block, the first bit of the refused field, counted from the header's first bit; else 0.
#[derive(Clone, Copy, Debug, PartialEq, Eq, Hash)]
pub struct Refusal {
    pub number: u8,
    pub offset: usize,
}

impl Refusal {
    /// A read past the window's end, or of more than 64 bits.
    pub const READ_PAST_END: u8 = 1;
    /// A write past the window's end, or of more than 64 bits; a PDU longer than the rest of its block.
    pub const WRITE_PAST_END: u8 = 2;
    /// A value wider than its field.
    pub const VALUE_TOO_WIDE: u8 = 3;
    /// A PDU type that is not the one expected.
    pub const WRONG_PDU_TYPE: u8 = 4;
    /// A channel allocation whose extension flag is set.
    pub const EXTENDED_CARRIER: u8 = 5;
    /// A channel allocation in the augmented direction.
    pub const AUGMENTED: u8 = 6;
    /// An uplink usage marker 1 to 3, or a usage without a marker; a traffic marker below 4.
    pub const USAGE_MARKER: u8 = 7;
    /// A MAC-RESOURCE written with length 0; a PDU of more than 61 octets; in a block, a length of 0 or 1, or one that passes the block's
    /// end by 8 bits or more.
    pub const LENGTH: u8 = 8;
    /// A null PDU with fill, position of grant, encryption or random access not 0; one added to a block.
    pub const NULL_PDU: u8 = 9;
    /// An SSI, USSI or SMI written with encryption.
    pub const ENCRYPTED_ADDRESS: u8 = 10;
    /// Monitoring pattern 0 without a frame-18 pattern.
    pub const NO_FRAME_18_PATTERN: u8 = 11;
    /// In a block: the fill flag is set and no 1 follows the header in the PDU.
    pub const NO_FILL_BIT: u8 = 12;
    /// A window that is not good; a block's bit count over 488 or over its bytes, a bit that no call can be at.
    pub const BAD_WINDOW: u8 = 13;
    /// A granting delay that is not of 1 to 13 opportunities.
    pub const DELAY_COUNT: u8 = 14;
    /// A record that the library does not take, or an answer that no value has. No value of this crate's types gives it.
    pub const MALFORMED: u8 = 255;

    /// What a status of the C interface says.
    pub fn of_status(status: u64) -> Result<(), Refusal> {
        if status == 0 {
            return Ok(());
        }
        Err(Refusal { number: (status % 256) as u8, offset: (status / 256) as usize })
    }

    pub(crate) fn malformed() -> Refusal {
        Refusal { number: Refusal::MALFORMED, offset: 0 }
    }

    /// The meaning of its number.
    pub fn meaning(self) -> &'static str {
        match self.number {
            Refusal::READ_PAST_END => "read past the end",
            Refusal::WRITE_PAST_END => "write past the end",
            Refusal::VALUE_TOO_WIDE => "value wider than its field",
            Refusal::WRONG_PDU_TYPE => "wrong PDU type",
            Refusal::EXTENDED_CARRIER => "extended carrier",
            Refusal::AUGMENTED => "augmented direction",
            Refusal::USAGE_MARKER => "usage marker",
            Refusal::LENGTH => "length",
            Refusal::NULL_PDU => "null PDU with a field set",
            Refusal::ENCRYPTED_ADDRESS => "address with encryption",
            Refusal::NO_FRAME_18_PATTERN => "no frame-18 pattern",
            Refusal::NO_FILL_BIT => "no fill bit",
            Refusal::BAD_WINDOW => "bad window",
            Refusal::DELAY_COUNT => "delay count",
            _ => "malformed",
        }
    }
}

impl fmt::Display for Refusal {
    fn fmt(&self, f: &mut fmt::Formatter<'_>) -> fmt::Result {
        write!(f, "refused {} at bit {}: {}", self.number, self.offset, self.meaning())
    }
}

impl std::error::Error for Refusal {}
