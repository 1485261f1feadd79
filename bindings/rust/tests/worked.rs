//! Worked examples: what each type is on the air, and back.
use tetra_mac::*;

/// Writes into zeros, compares bytes and cursor.
fn written(bytes: &[u8], bits: usize, write: impl FnOnce(&mut [u8], Cursor) -> Result<Cursor, Refusal>) {
    let mut s = vec![0; bytes.len()];
    let c = Cursor::from_bytes(&s);
    assert_eq!(write(&mut s, c), Ok(c.at(bits)));
    assert_eq!(s, bytes);
}

#[test]
fn null_pdu() {
    let bytes = [0x00, 0x10];
    written(&bytes, 16, |s, c| MacResource::null_pdu().to_bitbuf(s, c));
    assert_eq!(MacResource::from_bitbuf(&bytes, Cursor::new(16)), Ok((MacResource::null_pdu(), Cursor::new(16).at(16))));
}

#[test]
fn ssi_1_without_content() {
    let mut header = MacResource::to(DownlinkAddress::Ssi(SsiType::Ssi, 1));
    assert_eq!(header.update_len_and_fill_ind(0), Ok(5));
    assert_eq!((header.length_ind, header.fill_bits), (6, true));
    let bytes = [0x20, 0x31, 0x00, 0x00, 0x01, 0x10];
    written(&bytes, 48, |s, c| {
        let behind = header.to_bitbuf(s, c)?;
        write_bits(s, behind, 0b10000, 5)
    });
    assert_eq!(MacResource::from_bitbuf(&bytes, Cursor::new(48)), Ok((header, Cursor::new(48).at(43))));
}

#[test]
fn resource_with_all_elements() {
    let header = MacResource {
        fill_bits: true,
        pos_of_grant: 1,
        random_access_flag: true,
        length_ind: 12,
        power_control_element: Some(9),
        slot_granting_element: Some(BasicSlotgrant {
            capacity_allocation: BasicSlotgrantCapAlloc::Grant4Slots,
            granting_delay: BasicSlotgrantGrantingDelay::DelayNOpportunities(13),
        }),
        chan_alloc_element: Some(allocation(0, Some(3))),
        ..MacResource::to(DownlinkAddress::SsiAndEventLabel(SsiType::Ssi, 0xabcdef, 0x3ff))
    };
    assert_eq!(header.compute_header_len(), Ok(92));
    for start in 0..20 {
        let mut s = [0xa5; 14];
        let c = Cursor { start, pos: start, end: 112 };
        assert_eq!(header.to_bitbuf(&mut s, c), Ok(c.at(start + 92)));
        assert_eq!(MacResource::from_bitbuf(&s, c), Ok((header, c.at(start + 92))));
    }
}

fn allocation(mon_pattern: u8, frame18_mon_pattern: Option<u8>) -> ChanAllocElement {
    ChanAllocElement {
        alloc_type: ChanAllocType::Replace,
        ts_assigned: [true, false, false, false],
        ul_dl_assigned: UlDlAssignment::Both,
        clch_permission: false,
        cell_change_flag: false,
        carrier_num: 1,
        mon_pattern,
        frame18_mon_pattern,
    }
}

#[test]
fn channel_allocation() {
    let bytes = [0x23, 0x00, 0x04, 0x80];
    written(&bytes, 25, |s, c| allocation(1, None).to_bitbuf(s, c));
    assert_eq!(ChanAllocElement::from_bitbuf(&bytes, Cursor::new(25)), Ok((allocation(1, None), Cursor::new(25).at(25))));
}

#[test]
fn slot_grant() {
    let grant = BasicSlotgrant {
        capacity_allocation: BasicSlotgrantCapAlloc::SecondSubslotGranted,
        granting_delay: BasicSlotgrantGrantingDelay::AllocStartsAtOpportunityInFr18,
    };
    written(&[0xfe], 8, |s, c| grant.to_bitbuf(s, c));
    assert_eq!(BasicSlotgrant::from_bitbuf(&[0xfe], Cursor::new(8)), Ok((grant, Cursor::new(8).at(8))));
}

#[test]
fn access_assign() {
    written(&[0x06, 0x18], 14, |s, c| AccessAssign::default().to_bitbuf(s, c));
    let used = AccessAssign::DownlinkDefinedUplinkDefined {
        downlink_usage_marker: AccessAssignDlUsage::Traffic(4),
        uplink_usage_marker: AccessAssignUlUsage::Unallocated,
    };
    written(&[0xc4, 0x00], 14, |s, c| used.to_bitbuf(s, c));
    assert_eq!(AccessAssign::from_bitbuf(&[0xc4, 0x00], Cursor::new(14)), Ok((used, Cursor::new(14).at(14))));
    assert_eq!(AccessAssign::from_bitbuf(&[0xc4, 0x08], Cursor::new(14)), Err(Refusal { number: Refusal::USAGE_MARKER, offset: 8 }));
}

#[test]
fn mac_access() {
    let header =
        MacAccess { fill_bits: false, encrypted: false, addr: UplinkAddress::Ssi(SsiType::Issi, 1), option: MacAccessOption::Without };
    let bytes = [0x00, 0x00, 0x00, 0x08];
    written(&bytes, 30, |s, c| header.to_bitbuf(s, c));
    assert_eq!(MacAccess::from_bitbuf(&bytes, Cursor::new(30)), Ok((header, Cursor::new(30).at(30))));
}

#[test]
fn mac_data() {
    let header = MacData { fill_bits: false, encrypted: false, addr: UplinkAddress::EventLabel(1), option: MacDataOption::LengthInd(5) };
    let bytes = [0x04, 0x01, 0x0a];
    written(&bytes, 23, |s, c| header.to_bitbuf(s, c));
    assert_eq!(MacData::from_bitbuf(&bytes, Cursor::new(23)), Ok((header, Cursor::new(23).at(23))));
}

#[test]
fn bits() {
    let mut s = [0x12, 0x34, 0x56, 0x78, 0x9a, 0xbc, 0xde, 0xf0, 0x12];
    let c = Cursor { start: 4, pos: 4, end: 72 };
    assert_eq!(read_bits(&s, c, 64), Ok((0x2345_6789_abcd_ef01, c.at(68))));
    assert_eq!(peek_bits_posoffset(&s, c.at(12), -8, 8), Ok(0x23));
    assert_eq!(write_bits(&mut s, c.at(12), 0xfff, 12), Ok(c.at(24)));
    assert_eq!(s, [0x12, 0x3f, 0xff, 0x78, 0x9a, 0xbc, 0xde, 0xf0, 0x12]);
}
