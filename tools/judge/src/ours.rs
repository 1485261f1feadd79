//! This port: the types that are compared, and its C interface as it is. bindings/c/tetra_mac.h describes every function and record.
use tetra_mac::sys;

pub use crate::kind::{KINDS, Kind};
pub use tetra_mac::sys::Out;
pub use tetra_mac::{Cursor as Window, Refusal};

fn reader(k: Kind) -> sys::Read {
    match k {
        Kind::Slotgrant => sys::tetra_slotgrant_read,
        Kind::Channel => sys::tetra_channel_allocation_read,
        Kind::Resource => sys::tetra_mac_resource_read,
        Kind::Assign => sys::tetra_access_assign_read,
        Kind::Access => sys::tetra_mac_access_read,
        Kind::Data => sys::tetra_mac_data_read,
    }
}

fn writer(k: Kind) -> sys::Write {
    match k {
        Kind::Slotgrant => sys::tetra_slotgrant_write,
        Kind::Channel => sys::tetra_channel_allocation_write,
        Kind::Resource => sys::tetra_mac_resource_write,
        Kind::Assign => sys::tetra_access_assign_write,
        Kind::Access => sys::tetra_mac_access_write,
        Kind::Data => sys::tetra_mac_data_write,
    }
}

/// out[0] is the cursor after the call; what was read follows.
pub fn read(k: Kind, s: &[u8], w: Window, out: &mut Out) -> Result<(), Refusal> {
    Refusal::of_status(unsafe { reader(k)(s.as_ptr(), s.len(), w.start, w.pos, w.end, out.as_mut_ptr(), out.len()) })
}

pub fn write(k: Kind, s: &mut [u8], w: Window, record: &[u64], out: &mut Out) -> Result<(), Refusal> {
    Refusal::of_status(unsafe {
        writer(k)(s.as_mut_ptr(), s.len(), w.start, w.pos, w.end, record.as_ptr(), record.len(), out.as_mut_ptr(), out.len())
    })
}

pub fn read_bits(s: &[u8], w: Window, n: usize, out: &mut Out) -> Result<(), Refusal> {
    Refusal::of_status(unsafe { sys::tetra_read_bits(s.as_ptr(), s.len(), w.start, w.pos, w.end, n, out.as_mut_ptr(), out.len()) })
}

pub fn write_bits(s: &mut [u8], w: Window, value: u64, n: usize, out: &mut Out) -> Result<(), Refusal> {
    Refusal::of_status(unsafe { sys::tetra_write_bits(s.as_mut_ptr(), s.len(), w.start, w.pos, w.end, value, n, out.as_mut_ptr(), out.len()) })
}
