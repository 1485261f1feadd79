//! What the length functions give and refuse.
use tetra_mac::*;

fn allocation(ul_dl_assigned: UlDlAssignment, mon_pattern: u8) -> ChanAllocElement {
    ChanAllocElement {
        alloc_type: ChanAllocType::Additional,
        ts_assigned: [false; 4],
        ul_dl_assigned,
        clch_permission: true,
        cell_change_flag: true,
        carrier_num: 4095,
        mon_pattern,
        frame18_mon_pattern: Some(0),
    }
}

fn refused<T>(number: u8) -> Result<T, Refusal> {
    Err(Refusal { number, offset: 0 })
}

#[test]
fn channel_allocations() {
    assert_eq!(allocation(UlDlAssignment::Dl, 0).compute_len(), Ok(27));
    assert_eq!(allocation(UlDlAssignment::Ul, 1).compute_len(), Ok(25));
    assert_eq!(allocation(UlDlAssignment::Augmented, 1).compute_len(), refused(Refusal::AUGMENTED));
}

#[test]
fn every_form_of_a_header_has_its_length() {
    let ssi = SsiType::Gssi;
    let addresses = [
        (DownlinkAddress::Ssi(ssi, 1), 24),
        (DownlinkAddress::EventLabel(1), 10),
        (DownlinkAddress::Ussi(1), 24),
        (DownlinkAddress::Smi(1), 24),
        (DownlinkAddress::SsiAndEventLabel(ssi, 1, 1), 34),
        (DownlinkAddress::SsiAndUsageMarker(ssi, 1, 1), 30),
        (DownlinkAddress::SmiAndEventLabel(1, 1), 34),
    ];
    let grant = BasicSlotgrant {
        capacity_allocation: BasicSlotgrantCapAlloc::Grant1Slot,
        granting_delay: BasicSlotgrantGrantingDelay::CapAllocAtNextOpportunity,
    };
    for (addr, bits) in addresses {
        for form in 0..8 {
            let header = MacResource {
                length_ind: 20,
                power_control_element: (form & 1 != 0).then_some(1),
                slot_granting_element: (form & 2 != 0).then_some(grant),
                chan_alloc_element: (form & 4 != 0).then_some(allocation(UlDlAssignment::Both, 2)),
                ..MacResource::to(addr)
            };
            let length = 19 + bits + 4 * (form & 1) + 4 * (form & 2) + 25 * (form >> 2);
            assert_eq!(header.compute_header_len(), Ok(length));
            let mut s = [0; 12];
            assert_eq!(header.to_bitbuf(&mut s, Cursor::new(96)), Ok(Cursor::new(96).at(length)));
        }
    }
    assert_eq!(MacResource::null_pdu().compute_header_len(), Ok(16));
}

#[test]
fn octets_and_fill() {
    let count = |addr: DownlinkAddress, content: usize| {
        let mut header = MacResource::to(addr);
        header.update_len_and_fill_ind(content).map(|fill| (header.length_ind, header.fill_bits, fill))
    };
    let ssi = DownlinkAddress::Ssi(SsiType::Ssi, 1);
    assert_eq!(count(ssi, 0), Ok((6, true, 5)));
    assert_eq!(count(ssi, 5), Ok((6, false, 0)));
    assert_eq!(count(ssi, 6), Ok((7, true, 7)));
    assert_eq!(count(ssi, 445), Ok((61, false, 0)));
    assert_eq!(count(ssi, 446), refused(Refusal::LENGTH));
    assert_eq!(count(ssi, usize::MAX), refused(Refusal::LENGTH));
    assert_eq!(count(DownlinkAddress::NullPdu, 473), refused(Refusal::LENGTH));
}

#[test]
fn a_refused_length_sets_nothing() {
    let mut header = MacResource { length_ind: 7, fill_bits: true, ..MacResource::to(DownlinkAddress::Ussi(3)) };
    let before = header;
    assert_eq!(header.update_len_and_fill_ind(500), refused(Refusal::LENGTH));
    assert_eq!(header, before);
    header.chan_alloc_element = Some(allocation(UlDlAssignment::Augmented, 0));
    let before = header;
    assert_eq!(header.update_len_and_fill_ind(500), refused(Refusal::AUGMENTED));
    assert_eq!(header.compute_header_len(), refused(Refusal::AUGMENTED));
    assert_eq!(header, before);
}
