//! This port through its Rust bindings: values of the bindings' types, from and to the records that both sides share.
use crate::ours::{Kind, Refusal, Window};
use tetra_mac::{AccessAssign, BasicSlotgrant, ChanAllocElement, MacAccess, MacData, MacResource, Record};

/// The cursor after a read, and the record read.
pub type Read = Result<(usize, Vec<u64>), Refusal>;

fn words<T: Record<N>, const N: usize>(read: Result<(T, Window), Refusal>) -> Read {
    read.map(|(value, c)| (c.pos, value.to_words().to_vec()))
}

/// The value of a record. Where there is none, so is the answer: the records that are compared all have one.
fn value<T: Record<N>, const N: usize>(record: &[u64]) -> Option<T> {
    record.first_chunk().and_then(T::from_words)
}

pub fn read(k: Kind, s: &[u8], w: Window) -> Read {
    match k {
        Kind::Slotgrant => words(BasicSlotgrant::from_bitbuf(s, w)),
        Kind::Channel => words(ChanAllocElement::from_bitbuf(s, w)),
        Kind::Resource => words(MacResource::from_bitbuf(s, w)),
        Kind::Assign => words(AccessAssign::from_bitbuf(s, w)),
        Kind::Access => words(MacAccess::from_bitbuf(s, w)),
        Kind::Data => words(MacData::from_bitbuf(s, w)),
    }
}

/// The cursor after a write.
pub fn write(k: Kind, s: &mut [u8], w: Window, record: &[u64]) -> Option<Result<usize, Refusal>> {
    let written = match k {
        Kind::Slotgrant => value::<BasicSlotgrant, 3>(record)?.to_bitbuf(s, w),
        Kind::Channel => value::<ChanAllocElement, 9>(record)?.to_bitbuf(s, w),
        Kind::Resource => value::<MacResource, 25>(record)?.to_bitbuf(s, w),
        Kind::Assign => value::<AccessAssign, 5>(record)?.to_bitbuf(s, w),
        Kind::Access => value::<MacAccess, 8>(record)?.to_bitbuf(s, w),
        Kind::Data => value::<MacData, 8>(record)?.to_bitbuf(s, w),
    };
    Some(written.map(|c| c.pos))
}

pub fn channel_len(record: &[u64]) -> Option<Result<Vec<u64>, Refusal>> {
    Some(value::<ChanAllocElement, 9>(record)?.compute_len().map(|n| vec![n as u64]))
}

pub fn header_len(record: &[u64]) -> Option<Result<Vec<u64>, Refusal>> {
    Some(value::<MacResource, 25>(record)?.compute_header_len().map(|n| vec![n as u64]))
}

/// Length, fill flag and fill bits; a refused call leaves the header.
pub fn update_len(record: &[u64], content: usize) -> Option<Result<Vec<u64>, Refusal>> {
    let given: MacResource = value(record)?;
    let mut header = given;
    match header.update_len_and_fill_ind(content) {
        Ok(fill) => Some(Ok(vec![header.length_ind.into(), header.fill_bits.into(), fill as u64])),
        Err(r) => (header == given).then_some(Err(r)),
    }
}
