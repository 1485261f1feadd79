//! Bits, upper-MAC headers and downlink MAC blocks of a TETRA cell (ETSI EN 300 392-2, clause 21), over the C interface of Vullapei.
//!
//! The code behind each call is proved: it returns, does nothing undefined and gives exactly the answer of its definition, for every input.
//! This crate only turns values into records of words and back. Names are those of tetra-bluestation where it has one.
//!
//! Bytes are lent to each call, and a [`Cursor`] says which bits of them are in view and where the call begins. A read gives the value and the
//! cursor behind it, a write the cursor. A refused call gives a [`Refusal`] and leaves every byte as it was; a cursor is a value, so the
//! caller's own is where it was. Whole blocks have no cursor: see [`block`].
//!
//! ```
//! use tetra_mac::{Cursor, MacAccess, MacAccessOption, UplinkAddress};
//!
//! let bytes = [0x08, 0x0a];
//! let (header, rest) = MacAccess::from_bitbuf(&bytes, Cursor::from_bytes(&bytes))?;
//! assert_eq!(header.addr, UplinkAddress::EventLabel(5));
//! assert_eq!(header.option, MacAccessOption::Without);
//! assert_eq!(rest.pos, 16);
//! # Ok::<(), tetra_mac::Refusal>(())
//! ```

#[macro_use]
mod codes;

mod access_assign;
mod access_field;
mod address;
mod bits;
pub mod block;
mod channel_allocation;
mod cursor;
mod mac_access;
mod mac_data;
mod mac_resource;
mod record;
mod refusal;
mod reservation_requirement;
mod slotgrant;
pub mod sys;
mod uplink;
mod usage;

pub use access_assign::AccessAssign;
pub use access_field::{AccessCode, AccessField, BaseFrameLength};
pub use address::{DownlinkAddress, SsiType, UplinkAddress};
pub use bits::{peek_bits_posoffset, read_bits, write_bits};
pub use channel_allocation::{ChanAllocElement, ChanAllocType, UlDlAssignment};
pub use cursor::Cursor;
pub use mac_access::{MacAccess, MacAccessOption};
pub use mac_data::{MacData, MacDataOption};
pub use mac_resource::{MAC_RESOURCE_LENGTH_2ND_SLOT_STOLEN, MAC_RESOURCE_LENGTH_FRAG_START, MacResource};
pub use record::Record;
pub use refusal::Refusal;
pub use reservation_requirement::ReservationRequirement;
pub use slotgrant::{BasicSlotgrant, BasicSlotgrantCapAlloc, BasicSlotgrantGrantingDelay};
pub use usage::{AccessAssignDlUsage, AccessAssignUlUsage};
