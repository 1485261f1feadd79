//! The original, behind the same records: a value of a record of words, and back.
use crate::ours::{Kind, Window};
use tetra_core::pdu_parse_error::PduParseErr;
use tetra_core::{BitBuffer, SsiType, TetraAddress};
use tetra_pdus::umac::enums::access_assign_dl_usage::AccessAssignDlUsage as Dl;
use tetra_pdus::umac::enums::access_assign_ul_usage::AccessAssignUlUsage as Ul;
use tetra_pdus::umac::enums::basic_slotgrant_granting_delay::BasicSlotgrantGrantingDelay as Delay;
use tetra_pdus::umac::fields::basic_slotgrant::BasicSlotgrant;
use tetra_pdus::umac::fields::channel_allocation::ChanAllocElement;
use tetra_pdus::umac::pdus::access_assign::AccessAssign;
use tetra_pdus::umac::pdus::mac_access::MacAccess;
use tetra_pdus::umac::pdus::mac_data::MacData;
use tetra_pdus::umac::pdus::mac_resource::MacResource;
use tetra_pdus::umac::structs::access_field::AccessField;

/// What it gives, or None where it returns an error, None or panics.
pub fn caught<T>(f: impl FnOnce() -> Option<T>) -> Option<T> {
    std::panic::catch_unwind(std::panic::AssertUnwindSafe(f)).ok().flatten()
}

/// What it gives, or why it stops: the message of its panic, or that it gives none.
pub fn told<T>(f: impl FnOnce() -> Option<T>) -> Result<T, String> {
    match std::panic::catch_unwind(std::panic::AssertUnwindSafe(f)) {
        Ok(answer) => answer.ok_or("gives none".to_string()),
        Err(why) => {
            let text = why.downcast_ref::<&str>().map(|t| t.to_string()).or_else(|| why.downcast_ref::<String>().cloned());
            Err(text.unwrap_or_default())
        }
    }
}

/// None where BitBuffer's own setters refuse the window.
pub fn buffer(s: &[u8], w: Window) -> Option<BitBuffer> {
    caught(|| {
        let mut b = BitBuffer::from_bytes(s);
        b.set_raw_end(w.end);
        b.set_raw_pos(w.pos);
        b.set_raw_start(w.start);
        Some(b)
    })
}

pub fn grant_words(g: &BasicSlotgrant) -> [u64; 3] {
    let (kind, count) = match g.granting_delay {
        Delay::CapAllocAtNextOpportunity => (0, 0),
        Delay::DelayNOpportunities(n) => (1, n as u64),
        Delay::AllocStartsAtOpportunityInFr18 => (2, 0),
        Delay::WaitForAnotherSlotgrantMessage => (3, 0),
    };
    [g.capacity_allocation.into_raw(), kind, count]
}

pub fn grant(r: &[u64]) -> BasicSlotgrant {
    BasicSlotgrant {
        capacity_allocation: r[0].try_into().unwrap(),
        granting_delay: match r[1] {
            0 => Delay::CapAllocAtNextOpportunity,
            1 => Delay::DelayNOpportunities(r[2].min(255) as u8),
            2 => Delay::AllocStartsAtOpportunityInFr18,
            _ => Delay::WaitForAnotherSlotgrantMessage,
        },
    }
}

pub fn channel_words(c: &ChanAllocElement) -> [u64; 9] {
    let slots = c.ts_assigned.iter().fold(0u64, |v, &b| v << 1 | b as u64);
    [
        c.alloc_type as u64,
        slots,
        c.ul_dl_assigned as u64,
        c.clch_permission as u64,
        c.cell_change_flag as u64,
        c.carrier_num as u64,
        c.mon_pattern as u64,
        c.frame18_mon_pattern.is_some() as u64,
        c.frame18_mon_pattern.unwrap_or(0) as u64,
    ]
}

pub fn channel(r: &[u64]) -> ChanAllocElement {
    ChanAllocElement {
        alloc_type: r[0].try_into().unwrap(),
        ts_assigned: [r[1] & 8 != 0, r[1] & 4 != 0, r[1] & 2 != 0, r[1] & 1 != 0],
        ul_dl_assigned: r[2].try_into().unwrap(),
        clch_permission: r[3] != 0,
        cell_change_flag: r[4] != 0,
        carrier_num: r[5].min(65535) as u16,
        ext: None,
        mon_pattern: r[6].min(255) as u8,
        frame18_mon_pattern: (r[7] != 0).then_some(r[8].min(255) as u8),
    }
}

pub fn kind_of(t: SsiType) -> u64 {
    match t {
        SsiType::Issi => 1,
        SsiType::Gssi => 2,
        _ => 0,
    }
}

pub fn ssi(kind: u64, n: u64) -> TetraAddress {
    TetraAddress::new(n.min(u32::MAX as u64) as u32, [SsiType::Ssi, SsiType::Issi, SsiType::Gssi][kind as usize])
}

fn other(t: SsiType, n: u64) -> TetraAddress {
    TetraAddress::new(n.min(u32::MAX as u64) as u32, t)
}

pub fn resource_words(h: &MacResource) -> [u64; 25] {
    let mut r = [0u64; 25];
    r[0] = h.fill_bits as u64;
    r[1] = h.pos_of_grant as u64;
    r[2] = h.encryption_mode as u64;
    r[3] = h.random_access_flag as u64;
    r[4] = h.length_ind as u64;
    let label = h.event_label.map(|v| v as u64);
    let marker = h.usage_marker.map(|v| v as u64);
    let a = h.addr;
    (r[5], r[6], r[7], r[8]) = match (a.map(|a| (a.ssi_type, a.ssi as u64)), label, marker) {
        (None, None, _) => (0, 0, 0, 0),
        (None, Some(l), _) => (2, 0, l, 0),
        (Some((SsiType::Ussi, n)), _, _) => (3, 0, n, 0),
        (Some((SsiType::Smi, n)), None, _) => (4, 0, n, 0),
        (Some((SsiType::Smi, n)), Some(l), _) => (7, 0, n, l),
        (Some((t, n)), None, None) => (1, kind_of(t), n, 0),
        (Some((t, n)), Some(l), _) => (5, kind_of(t), n, l),
        (Some((t, n)), None, Some(m)) => (6, kind_of(t), n, m),
    };
    if let Some(p) = h.power_control_element {
        r[9] = 1;
        r[10] = p as u64;
    }
    if let Some(g) = &h.slot_granting_element {
        r[11] = 1;
        r[12..15].copy_from_slice(&grant_words(g));
    }
    if let Some(c) = &h.chan_alloc_element {
        r[15] = 1;
        r[16..25].copy_from_slice(&channel_words(c));
    }
    r
}

pub fn resource(r: &[u64]) -> MacResource {
    let label = |n: u64| Some(n.min(65535) as u16);
    let (addr, event_label, usage_marker) = match r[5] {
        0 => (None, None, None),
        1 => (Some(ssi(r[6], r[7])), None, None),
        2 => (None, label(r[7]), None),
        3 => (Some(other(SsiType::Ussi, r[7])), None, None),
        4 => (Some(other(SsiType::Smi, r[7])), None, None),
        5 => (Some(ssi(r[6], r[7])), label(r[8]), None),
        6 => (Some(ssi(r[6], r[7])), None, Some(r[8].min(255) as u8)),
        _ => (Some(other(SsiType::Smi, r[7])), label(r[8]), None),
    };
    MacResource {
        fill_bits: r[0] != 0,
        pos_of_grant: r[1].min(255) as u8,
        encryption_mode: r[2].min(255) as u8,
        random_access_flag: r[3] != 0,
        length_ind: r[4].min(255) as u8,
        addr,
        event_label,
        usage_marker,
        power_control_element: (r[9] != 0).then_some(r[10].min(255) as u8),
        slot_granting_element: (r[11] != 0).then(|| grant(&r[12..15])),
        chan_alloc_element: (r[15] != 0).then(|| channel(&r[16..25])),
    }
}

fn field_words(f: &AccessField) -> (u64, u64) {
    (f.access_code.into_raw(), f.base_frame_len.into_raw())
}

fn field(a: u64, b: u64) -> AccessField {
    AccessField { access_code: a.try_into().unwrap(), base_frame_len: b.try_into().unwrap() }
}

fn dl_words(u: &Dl) -> (u64, u64) {
    match u {
        Dl::Unallocated => (0, 0),
        Dl::AssignedControl => (1, 0),
        Dl::CommonControl => (2, 0),
        Dl::CommonAndAssigned => (3, 0),
        Dl::Traffic(n) => (4, *n as u64),
    }
}

pub fn dl(a: u64, b: u64) -> Dl {
    match a {
        0 => Dl::Unallocated,
        1 => Dl::AssignedControl,
        2 => Dl::CommonControl,
        3 => Dl::CommonAndAssigned,
        _ => Dl::Traffic(b.min(255) as u8),
    }
}

fn ul_words(u: &Ul) -> (u64, u64) {
    match u {
        Ul::CommonOnly => (0, 0),
        Ul::CommonAndAssigned => (1, 0),
        Ul::AssignedOnly => (2, 0),
        Ul::Unallocated => (3, 0),
        Ul::Traffic(n) => (4, *n as u64),
    }
}

pub fn ul(a: u64, b: u64) -> Ul {
    match a {
        0 => Ul::CommonOnly,
        1 => Ul::CommonAndAssigned,
        2 => Ul::AssignedOnly,
        3 => Ul::Unallocated,
        _ => Ul::Traffic(b.min(255) as u8),
    }
}

pub fn assign_words(a: &AccessAssign) -> [u64; 5] {
    let (h, one, two) = match a {
        AccessAssign::DownlinkCommonControlUplinkCommonOnly { access_field_1, access_field_2 } => (0, field_words(access_field_1), field_words(access_field_2)),
        AccessAssign::DownlinkDefinedUplinkCommonAndAssigned { downlink_usage_marker, access_field } => (1, dl_words(downlink_usage_marker), field_words(access_field)),
        AccessAssign::DownlinkDefinedUplinkAssignedOnly { downlink_usage_marker, access_field } => (2, dl_words(downlink_usage_marker), field_words(access_field)),
        AccessAssign::DownlinkDefinedUplinkDefined { downlink_usage_marker, uplink_usage_marker } => (3, dl_words(downlink_usage_marker), ul_words(uplink_usage_marker)),
    };
    [h, one.0, one.1, two.0, two.1]
}

pub fn assign(r: &[u64]) -> AccessAssign {
    match r[0] {
        0 => AccessAssign::DownlinkCommonControlUplinkCommonOnly { access_field_1: field(r[1], r[2]), access_field_2: field(r[3], r[4]) },
        1 => AccessAssign::DownlinkDefinedUplinkCommonAndAssigned { downlink_usage_marker: dl(r[1], r[2]), access_field: field(r[3], r[4]) },
        2 => AccessAssign::DownlinkDefinedUplinkAssignedOnly { downlink_usage_marker: dl(r[1], r[2]), access_field: field(r[3], r[4]) },
        _ => AccessAssign::DownlinkDefinedUplinkDefined { downlink_usage_marker: dl(r[1], r[2]), uplink_usage_marker: ul(r[3], r[4]) },
    }
}

fn uplink_words(addr: &Option<TetraAddress>, label: Option<u16>) -> (u64, u64, u64) {
    match (addr, label) {
        (None, l) => (1, 0, l.unwrap_or(0) as u64),
        (Some(a), _) => match a.ssi_type {
            SsiType::Ussi => (2, 0, a.ssi as u64),
            SsiType::Smi => (3, 0, a.ssi as u64),
            t => (0, kind_of(t), a.ssi as u64),
        },
    }
}

fn uplink(r: &[u64]) -> (Option<TetraAddress>, Option<u16>) {
    match r[2] {
        0 => (Some(ssi(r[3], r[4])), None),
        1 => (None, Some(r[4].min(65535) as u16)),
        2 => (Some(other(SsiType::Ussi, r[4])), None),
        _ => (Some(other(SsiType::Smi, r[4])), None),
    }
}

fn option_words(len: Option<u8>, frag: Option<bool>, res: Option<u64>) -> (u64, u64, u64) {
    match (len, frag, res) {
        (Some(l), _, _) => (1, l as u64, 0),
        (None, Some(f), Some(r)) => (2, f as u64, r),
        _ => (0, 0, 0),
    }
}

pub fn access_words(a: &MacAccess) -> [u64; 8] {
    let (t, k, n) = uplink_words(&a.addr, a.event_label);
    let (o, x, y) = option_words(a.length_ind, a.frag_flag, a.reservation_req.map(|r| r.into_raw()));
    [a.fill_bits as u64, a.encrypted as u64, t, k, n, o, x, y]
}

pub fn access(r: &[u64]) -> MacAccess {
    let (addr, event_label) = uplink(r);
    MacAccess {
        fill_bits: r[0] != 0,
        encrypted: r[1] != 0,
        addr,
        event_label,
        length_ind: (r[5] == 1).then_some(r[6].min(255) as u8),
        frag_flag: (r[5] == 2).then_some(r[6] != 0),
        reservation_req: (r[5] == 2).then(|| r[7].try_into().unwrap()),
    }
}

pub fn data_words(a: &MacData) -> [u64; 8] {
    let (t, k, n) = uplink_words(&a.addr, a.event_label);
    let (o, x, y) = option_words(a.length_ind, a.frag_flag, a.reservation_req.map(|r| r.into_raw()));
    [a.fill_bits as u64, a.encrypted as u64, t, k, n, o, x, y]
}

pub fn data(r: &[u64]) -> MacData {
    let (addr, event_label) = uplink(r);
    MacData {
        fill_bits: r[0] != 0,
        encrypted: r[1] != 0,
        addr,
        event_label,
        length_ind: (r[5] == 1).then_some(r[6].min(255) as u8),
        frag_flag: (r[5] == 2).then_some(r[6] != 0),
        reservation_req: (r[5] == 2).then(|| r[7].try_into().unwrap()),
    }
}

/// The record read at a window, or the original's own error.
pub fn record(k: Kind, b: &mut BitBuffer) -> Result<Vec<u64>, PduParseErr> {
    Ok(match k {
        Kind::Slotgrant => grant_words(&BasicSlotgrant::from_bitbuf(b)?).to_vec(),
        Kind::Channel => channel_words(&ChanAllocElement::from_bitbuf(b)?).to_vec(),
        Kind::Resource => resource_words(&MacResource::from_bitbuf(b)?).to_vec(),
        Kind::Assign => assign_words(&AccessAssign::from_bitbuf(b)?).to_vec(),
        Kind::Access => access_words(&MacAccess::from_bitbuf(b)?).to_vec(),
        Kind::Data => data_words(&MacData::from_bitbuf(b)?).to_vec(),
    })
}

pub fn write(k: Kind, b: &mut BitBuffer, r: &[u64]) -> Option<usize> {
    match k {
        Kind::Slotgrant => grant(r).to_bitbuf(b),
        Kind::Channel => channel(r).to_bitbuf(b),
        Kind::Resource => resource(r).to_bitbuf(b),
        Kind::Assign => assign(r).to_bitbuf(b),
        Kind::Access => access(r).to_bitbuf(b),
        Kind::Data => data(r).to_bitbuf(b),
    }
    Some(b.get_raw_pos())
}
