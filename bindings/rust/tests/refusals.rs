//! Refused calls: their numbers, and that they leave every byte.
use tetra_mac::*;

fn refused<T>(number: u8, offset: usize) -> Result<T, Refusal> {
    Err(Refusal { number, offset })
}

/// A write that a number refuses, at several places of bytes that all stay.
fn write_refused(number: u8, write: impl Fn(&mut [u8], Cursor) -> Result<Cursor, Refusal>) {
    for filled in [0x00, 0xff, 0xa5] {
        for start in [0, 3, 8] {
            let mut s = [filled; 16];
            assert_eq!(write(&mut s, Cursor { start, pos: start, end: 128 }), refused(number, 0));
            assert_eq!(s, [filled; 16]);
        }
    }
}

fn grant(count: u8) -> BasicSlotgrant {
    BasicSlotgrant {
        capacity_allocation: BasicSlotgrantCapAlloc::Grant1Slot,
        granting_delay: BasicSlotgrantGrantingDelay::DelayNOpportunities(count),
    }
}

fn allocation() -> ChanAllocElement {
    ChanAllocElement {
        alloc_type: ChanAllocType::QuitAndGo,
        ts_assigned: [true; 4],
        ul_dl_assigned: UlDlAssignment::Dl,
        clch_permission: false,
        cell_change_flag: true,
        carrier_num: 77,
        mon_pattern: 0,
        frame18_mon_pattern: Some(2),
    }
}

#[test]
fn windows() {
    let s = [0u8; 2];
    for (start, pos, end) in [(0, 0, 17), (1, 0, 16), (0, 9, 8), (usize::MAX, 0, 0), (0, usize::MAX, 0), (0, 0, usize::MAX)] {
        let c = Cursor { start, pos, end };
        assert_eq!(read_bits(&s, c, 0), refused(Refusal::BAD_WINDOW, 0));
        assert_eq!(AccessAssign::from_bitbuf(&s, c), refused(Refusal::BAD_WINDOW, 0));
        assert_eq!(AccessAssign::default().to_bitbuf(&mut [0; 2], c), refused(Refusal::BAD_WINDOW, 0));
    }
    let long = vec![0u8; 8193];
    assert_eq!(read_bits(&long, Cursor::from_bytes(&long), 1), refused(Refusal::BAD_WINDOW, 0));
    assert_eq!(read_bits(&long, Cursor::new(65536), 1), Ok((0, Cursor::new(65536).at(1))));
}

#[test]
fn nothing_lent() {
    assert_eq!(read_bits(&[], Cursor::new(0), 0), Ok((0, Cursor::new(0))));
    assert_eq!(read_bits(&[], Cursor::new(0), 1), refused(Refusal::READ_PAST_END, 0));
    assert_eq!(write_bits(&mut [], Cursor::new(0), 0, 1), refused(Refusal::WRITE_PAST_END, 0));
    assert_eq!(MacData::from_bitbuf(&[], Cursor::new(0)), refused(Refusal::READ_PAST_END, 0));
}

#[test]
fn bits() {
    let s = [0xff; 9];
    let c = Cursor { start: 8, pos: 8, end: 72 };
    assert_eq!(read_bits(&s, c, 65), refused(Refusal::READ_PAST_END, 0));
    assert_eq!(read_bits(&s, c.at(9), 64), refused(Refusal::READ_PAST_END, 0));
    assert_eq!(peek_bits_posoffset(&s, c, -1, 1), refused(Refusal::READ_PAST_END, 0));
    assert_eq!(peek_bits_posoffset(&s, c, isize::MIN, 1), refused(Refusal::READ_PAST_END, 0));
    assert_eq!(peek_bits_posoffset(&s, c, isize::MAX, 1), refused(Refusal::READ_PAST_END, 0));
    write_refused(Refusal::WRITE_PAST_END, |s, c| write_bits(s, c, u64::MAX, 65));
    write_refused(Refusal::WRITE_PAST_END, |s, c| write_bits(s, c.at(125), 1, 4));
    write_refused(Refusal::VALUE_TOO_WIDE, |s, c| write_bits(s, c, 8, 3));
}

#[test]
fn reads() {
    assert_eq!(MacResource::from_bitbuf(&[0x40, 0], Cursor::new(16)), refused(Refusal::WRONG_PDU_TYPE, 0));
    assert_eq!(MacResource::from_bitbuf(&[0x00, 0x31, 0, 0], Cursor::new(30)), refused(Refusal::READ_PAST_END, 16));
    assert_eq!(MacAccess::from_bitbuf(&[0x80], Cursor::new(1)), refused(Refusal::WRONG_PDU_TYPE, 0));
    assert_eq!(MacData::from_bitbuf(&[0x04, 0x00, 0x80], Cursor::new(22)), refused(Refusal::READ_PAST_END, 22));
    assert_eq!(ChanAllocElement::from_bitbuf(&[0x23, 0x00, 0x06, 0x80], Cursor::new(25)), refused(Refusal::EXTENDED_CARRIER, 22));
    assert_eq!(ChanAllocElement::from_bitbuf(&[0x20, 0x00, 0x04, 0x80], Cursor::new(25)), refused(Refusal::AUGMENTED, 6));
}

#[test]
fn writes() {
    for count in [0, 14, 15, 255] {
        write_refused(Refusal::DELAY_COUNT, |s, c| grant(count).to_bitbuf(s, c));
    }
    write_refused(Refusal::VALUE_TOO_WIDE, |s, c| ChanAllocElement { carrier_num: 4096, ..allocation() }.to_bitbuf(s, c));
    write_refused(Refusal::NO_FRAME_18_PATTERN, |s, c| ChanAllocElement { frame18_mon_pattern: None, ..allocation() }.to_bitbuf(s, c));
    let augmented = ChanAllocElement { ul_dl_assigned: UlDlAssignment::Augmented, ..allocation() };
    write_refused(Refusal::AUGMENTED, |s, c| augmented.to_bitbuf(s, c));
    for marker in 0..4 {
        let used = AccessAssign::DownlinkDefinedUplinkDefined {
            downlink_usage_marker: AccessAssignDlUsage::Traffic(marker),
            uplink_usage_marker: AccessAssignUlUsage::Unallocated,
        };
        write_refused(Refusal::USAGE_MARKER, |s, c| used.to_bitbuf(s, c));
    }
    let access = |encrypted, addr| MacAccess { fill_bits: false, encrypted, addr, option: MacAccessOption::LengthInd(0) };
    write_refused(Refusal::ENCRYPTED_ADDRESS, |s, c| access(true, UplinkAddress::Smi(1)).to_bitbuf(s, c));
    write_refused(Refusal::VALUE_TOO_WIDE, |s, c| access(true, UplinkAddress::EventLabel(1024)).to_bitbuf(s, c));
    write_refused(Refusal::WRITE_PAST_END, |s, c| access(false, UplinkAddress::Smi(1)).to_bitbuf(s, c.at(100)));
    let data = MacData { fill_bits: true, encrypted: false, addr: UplinkAddress::Ussi(1 << 24), option: MacDataOption::LengthInd(64) };
    write_refused(Refusal::VALUE_TOO_WIDE, |s, c| data.to_bitbuf(s, c));
}

#[test]
fn resources() {
    let header = MacResource { length_ind: 6, ..MacResource::to(DownlinkAddress::Ssi(SsiType::Ssi, 1)) };
    write_refused(Refusal::LENGTH, |s, c| MacResource { length_ind: 0, ..header }.to_bitbuf(s, c));
    write_refused(Refusal::VALUE_TOO_WIDE, |s, c| MacResource { length_ind: 64, ..header }.to_bitbuf(s, c));
    write_refused(Refusal::NULL_PDU, |s, c| MacResource { fill_bits: true, ..MacResource::null_pdu() }.to_bitbuf(s, c));
    write_refused(Refusal::ENCRYPTED_ADDRESS, |s, c| MacResource { encryption_mode: 1, ..header }.to_bitbuf(s, c));
    write_refused(Refusal::DELAY_COUNT, |s, c| MacResource { slot_granting_element: Some(grant(14)), ..header }.to_bitbuf(s, c));
    write_refused(Refusal::WRITE_PAST_END, |s, c| header.to_bitbuf(s, c.at(86)));
}
