//! The helpers of the original's enums and headers that have no C call, each on every value of its domain: calls 80 to 110 of crates/replay. A
//! case of an enum is told by its name, counted as it is declared; a reservation by what it asks for, 0 a subslot, 99 more than 68 slots. A
//! number that has no case has no word.
use crate::original::{self, told};
use tetra_core::TetraAddress;
use tetra_pdus::umac::enums::access_assign_dl_usage::AccessAssignDlUsage as Dl;
use tetra_pdus::umac::enums::access_assign_ul_usage::AccessAssignUlUsage as Ul;
use tetra_pdus::umac::enums::access_code::AccessCode;
use tetra_pdus::umac::enums::basic_slotgrant_cap_alloc::BasicSlotgrantCapAlloc as Capacity;
use tetra_pdus::umac::enums::basic_slotgrant_granting_delay::BasicSlotgrantGrantingDelay as Delay;
use tetra_pdus::umac::enums::mac_resource_addr_type::MacResourceAddrType as AddrType;
use tetra_pdus::umac::enums::reservation_requirement::ReservationRequirement as Reservation;
use tetra_pdus::umac::pdus::access_assign::AccessAssign;
use tetra_pdus::umac::pdus::mac_resource;
use tetra_pdus::umac::structs::access_field::AccessField;
use tetra_pdus::umac::structs::base_frame_length::BaseFrameLength;

/// A call, its numbers, and the words of the original's answer; 3 in place of 0 where the original stops and this port does not.
pub type Helper = (u8, Vec<u64>, Vec<u64>, u8);

const CAPACITIES: [Capacity; 16] = [
    Capacity::FirstSubslotGranted,
    Capacity::Grant1Slot,
    Capacity::Grant2Slots,
    Capacity::Grant3Slots,
    Capacity::Grant4Slots,
    Capacity::Grant5Slots,
    Capacity::Grant6Slots,
    Capacity::Grant8Slots,
    Capacity::Grant10Slots,
    Capacity::Grant13Slots,
    Capacity::Grant17Slots,
    Capacity::Grant24Slots,
    Capacity::Grant34Slots,
    Capacity::Grant51Slots,
    Capacity::Grant68Slots,
    Capacity::SecondSubslotGranted,
];

const FRAME_LENGTHS: [BaseFrameLength; 16] = [
    BaseFrameLength::ReservedSubslot,
    BaseFrameLength::CLCHSubslot,
    BaseFrameLength::OngoingFrame,
    BaseFrameLength::Subslots1,
    BaseFrameLength::Subslots2,
    BaseFrameLength::Subslots3,
    BaseFrameLength::Subslots4,
    BaseFrameLength::Subslots5,
    BaseFrameLength::Subslots6,
    BaseFrameLength::Subslots8,
    BaseFrameLength::Subslots10,
    BaseFrameLength::Subslots12,
    BaseFrameLength::Subslots16,
    BaseFrameLength::Subslots20,
    BaseFrameLength::Subslots24,
    BaseFrameLength::Subslots32,
];

const ADDR_TYPES: [AddrType; 8] = [
    AddrType::NullPdu,
    AddrType::Ssi,
    AddrType::EventLabel,
    AddrType::Ussi,
    AddrType::Smi,
    AddrType::SsiAndEventLabel,
    AddrType::SsiAndUsageMarker,
    AddrType::SmiAndEventLabel,
];

/// Where a case stands among those of its type.
fn place<T: PartialEq>(all: &[T], case: T) -> u64 {
    all.iter().position(|c| *c == case).expect("a case of the list") as u64
}

fn access_code(a: AccessCode) -> u64 {
    match a {
        AccessCode::AccessCodeA => 0,
        AccessCode::AccessCodeB => 1,
        AccessCode::AccessCodeC => 2,
        AccessCode::AccessCodeD => 3,
    }
}

/// What a reservation asks for; 3 where the original stops at the question, which its own comments answer.
fn asked(r: Reservation) -> (u64, u8) {
    match told(|| Some(r.to_req_slotcount())) {
        Ok(n) => (n as u64, 0),
        Err(_) => (if r == Reservation::Req1Subslot { 0 } else { 99 }, 3),
    }
}

/// What a capacity grants; 3 where the original stops at the question, which its own comments answer.
fn granted(a: Capacity) -> (u64, u8) {
    match told(|| Some(a.to_req_slotcount())) {
        Ok(n) => (n as u64, 0),
        Err(_) => (if a == Capacity::FirstSubslotGranted { 0 } else { 99 }, 3),
    }
}

fn delay_kind(delay: Delay) -> u64 {
    match delay {
        Delay::CapAllocAtNextOpportunity => 0,
        Delay::DelayNOpportunities(_) => 1,
        Delay::AllocStartsAtOpportunityInFr18 => 2,
        Delay::WaitForAnotherSlotgrantMessage => 3,
    }
}

/// The name's place and the code of the case that a number has.
fn case<T: TryFrom<u64> + Copy>(v: u64, name: impl Fn(T) -> u64, code: impl Fn(T) -> u64) -> Vec<u64> {
    T::try_from(v).map(|case| vec![name(case), code(case)]).unwrap_or_default()
}

fn codes(all: &mut Vec<Helper>) {
    for v in (0..256u64).chain([65535, u64::MAX]) {
        all.push((80, vec![v], case(v, |a| place(&CAPACITIES, a), Capacity::into), 0));
        all.push((81, vec![v], case(v, delay_kind, Delay::into), 0));
        let class = Reservation::try_from(v).map_or(0, |r| asked(r).1);
        all.push((83, vec![v], case(v, |r| asked(r).0, Reservation::into), class));
        all.push((85, vec![v], case(v, access_code, AccessCode::into_raw), 0));
        all.push((86, vec![v], case(v, |l| place(&FRAME_LENGTHS, l), BaseFrameLength::into_raw), 0));
        let f = AccessField::try_from(v).unwrap();
        all.push((87, vec![v], vec![access_code(f.access_code), place(&FRAME_LENGTHS, f.base_frame_len), f.into_raw()], 0));
        all.push((88, vec![v], case(v, |t| place(&ADDR_TYPES, t), AddrType::into), 0));
    }
    for n in 0..256u64 {
        all.push((82, vec![n], vec![Delay::DelayNOpportunities(n as u8).into_raw()], 0));
    }
    for req in (0..=130).chain([255, 256, 65535, 1 << 32, u64::MAX]) {
        let reservation = Reservation::from_req_slotcount(req as usize);
        all.push((84, vec![req], vec![asked(reservation).0, reservation.into_raw()], 0));
        match told(|| Some(Capacity::from_req_slotcount(req as usize))) {
            Ok(a) => all.push((89, vec![req], vec![place(&CAPACITIES, a), a.into_raw()], 0)),
            Err(_) => all.push((89, vec![req], vec![], 3)),
        }
    }
    for a in CAPACITIES {
        let (slots, class) = granted(a);
        all.push((90, vec![a.into_raw()], vec![slots], class));
    }
}

/// An SSI of each kind as an address, of which the original has one type for both directions.
fn addresses(all: &mut Vec<Helper>) {
    for ssi in [0, 1, (1 << 24) - 1, u32::MAX] {
        for kind in 0..3 {
            let made = original::ssi(kind, ssi as u64);
            for call in [91, 93] {
                all.push((call, vec![ssi as u64, kind], vec![made.ssi as u64, original::kind_of(made.ssi_type)], 0));
            }
        }
        let made = TetraAddress::issi(ssi);
        for call in [92, 94] {
            all.push((call, vec![ssi as u64], vec![made.ssi as u64, original::kind_of(made.ssi_type)], 0));
        }
    }
}

fn usage_words(kind: u64, n: u8) -> Vec<u64> {
    if kind == 4 { vec![4, n as u64] } else { vec![kind] }
}

fn dl_words(u: Dl) -> Vec<u64> {
    match u {
        Dl::Unallocated => usage_words(0, 0),
        Dl::AssignedControl => usage_words(1, 0),
        Dl::CommonControl => usage_words(2, 0),
        Dl::CommonAndAssigned => usage_words(3, 0),
        Dl::Traffic(n) => usage_words(4, n),
    }
}

fn ul_words(u: Ul) -> Vec<u64> {
    match u {
        Ul::CommonOnly => usage_words(0, 0),
        Ul::CommonAndAssigned => usage_words(1, 0),
        Ul::AssignedOnly => usage_words(2, 0),
        Ul::Unallocated => usage_words(3, 0),
        Ul::Traffic(n) => usage_words(4, n),
    }
}

/// Every usage by kind and traffic channel.
fn usages(all: &mut Vec<Helper>) {
    let one = |v: Option<u8>| v.map(|v| vec![v as u64]).unwrap_or_default();
    for n in 0..=255u8 {
        all.push((96, vec![n as u64], dl_words(Dl::from_usage_marker(n)), 0));
        all.push((100, vec![n as u64], Ul::from_usage_marker(n).map(ul_words).unwrap_or_default(), 0));
    }
    let kinds = (0..4u64).map(|kind| (kind, 0)).chain((0..256).map(|n| (4, n)));
    for (kind, n) in kinds {
        let given = vec![kind, n];
        let (d, u) = (original::dl(kind, n), original::ul(kind, n));
        all.push((97, given.clone(), vec![d.to_usage_marker() as u64], 0));
        all.push((98, given.clone(), vec![d.is_traffic() as u64], 0));
        all.push((99, given.clone(), one(d.get_tchan()), 0));
        all.push((101, given.clone(), one(u.to_usage_marker()), 0));
        all.push((102, given.clone(), vec![u.is_traffic() as u64], 0));
        all.push((103, given, one(u.get_tchan()), 0));
        for h in 0..4 {
            let a = if h == 0 { AccessAssign::default() } else { original::assign(&[h, kind, n, if h == 3 { 3 } else { 0 }, 0]) };
            all.push((104, vec![h, kind, n], vec![a.dl_is_traffic() as u64], 0));
        }
    }
}

fn headers(all: &mut Vec<Helper>) {
    let lengths = (0..256).map(|n| (1, n, 0));
    let requests = (0..32).map(|v| (2, v / 16, v % 16));
    for (option, first, request) in [(0, 0, 0)].into_iter().chain(lengths).chain(requests) {
        let h = original::access(&[0, 0, 0, 1, 1, option, first, request]);
        all.push((105, vec![option, first, request], vec![h.is_null_pdu() as u64, h.is_frag_start() as u64], 0));
    }
    for t in 0..8 {
        let mut record = vec![0; 25];
        (record[5], record[7], record[8]) = (t, 1, 1);
        all.push((106, vec![t], vec![original::resource(&record).is_null_pdu() as u64], 0));
    }
    let AccessAssign::DownlinkCommonControlUplinkCommonOnly { access_field_1, access_field_2 } = AccessAssign::default() else {
        panic!("another default")
    };
    all.push((107, vec![], vec![access_field_1.into_raw(), access_field_2.into_raw()], 0));
    let null = original::resource_words(&mac_resource::MacResource::null_pdu());
    all.push((108, vec![], [vec![0], null.to_vec()].concat(), 0));
    let marks = [mac_resource::MAC_RESOURCE_LENGTH_FRAG_START, mac_resource::MAC_RESOURCE_LENGTH_2ND_SLOT_STOLEN];
    all.push((109, vec![], marks.map(u64::from).to_vec(), 0));
    let default = original::resource_words(&mac_resource::MacResource::default());
    all.push((110, vec![], [vec![0], default.to_vec()].concat(), 0));
}

pub fn all() -> Vec<Helper> {
    let mut all = vec![];
    codes(&mut all);
    addresses(&mut all);
    usages(&mut all);
    headers(&mut all);
    all
}
