//! What docs/DIFFERENCES.md says of values and calls of the original that this port cannot build or does not have: each line is tried.
use crate::original::told;
use tetra_core::{BitBuffer, SsiType, TetraAddress};
use tetra_pdus::umac::enums::basic_slotgrant_cap_alloc::BasicSlotgrantCapAlloc as Capacity;
use tetra_pdus::umac::enums::reservation_requirement::ReservationRequirement as Reservation;
use tetra_pdus::umac::pdus::mac_access::MacAccess;
use tetra_pdus::umac::pdus::mac_data::MacData;
use tetra_pdus::umac::pdus::mac_resource::MacResource;

const ISSI: Option<TetraAddress> = Some(TetraAddress { ssi: 1, ssi_type: SsiType::Issi });
const SLOT: Option<Reservation> = Some(Reservation::Req1Slot);

fn access(length_ind: Option<u8>, frag_flag: Option<bool>, reservation_req: Option<Reservation>) -> MacAccess {
    MacAccess { fill_bits: false, encrypted: false, addr: ISSI, event_label: None, length_ind, frag_flag, reservation_req }
}

fn data(length_ind: Option<u8>, frag_flag: Option<bool>, reservation_req: Option<Reservation>) -> MacData {
    MacData { fill_bits: false, encrypted: false, addr: ISSI, event_label: None, length_ind, frag_flag, reservation_req }
}

/// The bytes that a header is written as, None where that panics.
fn written(f: impl FnOnce(&mut BitBuffer)) -> Option<Vec<u8>> {
    let mut b = BitBuffer::new(128);
    told(|| Some(f(&mut b))).ok().map(|()| b.into_bytes())
}

fn same(a: Option<Vec<u8>>, b: Option<Vec<u8>>) -> bool {
    a.is_some() && a == b
}

fn resource(addr: Option<SsiType>, label: bool, marker: bool) -> MacResource {
    let addr = addr.map(|t| TetraAddress::new(1, t));
    MacResource { addr, event_label: label.then_some(1), usage_marker: marker.then_some(1), length_ind: 2, ..MacResource::null_pdu() }
}

/// Whether a header that cannot be written is counted as so many bits all the same.
fn counted(h: MacResource, bits: usize) -> bool {
    h.compute_header_len() == bits && written(|b| h.to_bitbuf(b)).is_none()
}

/// Length and fill of a null PDU with so many bits of content, None where a sum is checked.
fn octets(content: u64) -> Option<(u8, usize)> {
    let mut h = MacResource::null_pdu();
    told(|| Some(h.update_len_and_fill_ind(content as usize))).ok().map(|fill| (h.length_ind, fill))
}

fn stops<T>(f: impl FnOnce() -> T) -> bool {
    told(|| Some(f())).is_err()
}

fn bitvec() -> Vec<u8> {
    let mut b = BitBuffer::from_bytes(&[0xa5]);
    b.set_raw_end(2);
    b.set_raw_pos(1);
    b.set_raw_start(1);
    b.into_bitvec()
}

/// The entry, what it says, and whether the original does so.
pub fn all() -> Vec<(u8, &'static str, bool)> {
    let labelled = MacAccess { event_label: Some(1), ..access(None, None, None) };
    let kinds = [SsiType::Unknown, SsiType::Esi, SsiType::EventLabel];
    let unwritable = kinds.map(|t| MacAccess { addr: Some(TetraAddress::new(1, t)), encrypted: t == SsiType::Esi, ..access(None, None, None) });
    let both = access(Some(0), Some(true), None);
    // a checked build traps on the sum
    let wraps = |content: u64, then: (u8, usize)| octets(content).is_none_or(|got| got == then);
    vec![
        (5, "to_req_slotcount of a reservation stops for a subslot and for over 68", [0u64, 15].iter().all(|v| stops(|| Reservation::try_from(*v).unwrap().to_req_slotcount()))),
        (5, "to_req_slotcount of a capacity stops for both subslots", [0u64, 15].iter().all(|v| stops(|| Capacity::try_from(*v).unwrap().to_req_slotcount()))),
        (5, "from_req_slotcount of a capacity stops from 69 to 98 and from 100 on", (69..300).all(|n| stops(|| Capacity::from_req_slotcount(n)) == (n != 99))),
        (9, "a null PDU with 2^64 - 1 bits of content: 2 octets, 1 bit of fill", wraps(u64::MAX, (2, 1))),
        (9, "with 2^64 - 16 bits: 0 octets", wraps(u64::MAX - 15, (0, 0))),
        (10, "MAC-ACCESS, address and label: the label is dropped", same(written(|b| labelled.to_bitbuf(b)), written(|b| access(None, None, None).to_bitbuf(b)))),
        (10, "MAC-ACCESS, length and fragment flag: the flag is dropped", same(written(|b| access(Some(1), Some(true), None).to_bitbuf(b)), written(|b| access(Some(1), None, None).to_bitbuf(b)))),
        (10, "MAC-ACCESS, length and reservation: the reservation is dropped", same(written(|b| access(Some(1), None, SLOT).to_bitbuf(b)), written(|b| access(Some(1), None, None).to_bitbuf(b)))),
        (10, "MAC-ACCESS, all three: panics", written(|b| access(Some(1), Some(true), SLOT).to_bitbuf(b)).is_none()),
        (10, "MAC-ACCESS of length 0 with a fragment flag: a null PDU and a fragment start", both.is_null_pdu() && both.is_frag_start()),
        (10, "MAC-DATA, length and flag or reservation or both: the length alone", [(Some(true), None), (None, SLOT), (Some(true), SLOT)].into_iter().all(|(f, r)| same(written(|b| data(Some(1), f, r).to_bitbuf(b)), written(|b| data(Some(1), None, None).to_bitbuf(b))))),
        (10, "Unknown, Esi and EventLabel as an address's kind: panics", unwritable.iter().all(|h| written(|b| h.to_bitbuf(b)).is_none())),
        (10, "compute_header_len: a marker alone 25", counted(resource(None, false, true), 25)),
        (10, "label and marker 35", counted(resource(None, true, true), 35)),
        (10, "SSI, label and marker 59", counted(resource(Some(SsiType::Ssi), true, true), 59)),
        (10, "USSI and label 53", counted(resource(Some(SsiType::Ussi), true, false), 53)),
        (10, "SMI and marker 49", counted(resource(Some(SsiType::Smi), false, true), 49)),
        (12, "into_bitvec of a5h, window 1 1 2: [1]", bitvec() == [1]),
    ]
}
