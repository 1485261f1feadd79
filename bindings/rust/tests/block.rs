//! Blocks: worked cases, round trips and refusals.
use tetra_mac::block::{self, BlockEntry, LengthIndication, RefusedPdu, ResourcePdu};
use tetra_mac::*;

fn refused<T>(number: u8) -> Result<T, Refusal> {
    Err(Refusal { number, offset: 0 })
}

fn ssi(number: u32) -> MacResource {
    MacResource::to(DownlinkAddress::Ssi(SsiType::Ssi, number))
}

/// The entries of a block, and the bit where the rest begins.
fn walked(bytes: &[u8], bits: usize) -> (Vec<BlockEntry>, usize) {
    let mut walk = block::walk(bytes, bits).expect("a block");
    let entries = walk.by_ref().collect();
    assert_eq!(walk.next(), None);
    (entries, walk.bit())
}

/// SSI 1 without content in 124 bits, and the null PDU.
const ONE: [u8; 16] = [0x20, 0x31, 0x00, 0x00, 0x01, 0x10, 0x00, 0x10, 0x80, 0, 0, 0, 0, 0, 0, 0];

#[test]
fn one_pdu_read() {
    let header = MacResource { fill_bits: true, length_ind: 6, ..ssi(1) };
    let pdu = ResourcePdu { bit: 0, end: 48, header, content_start: 43, content_end: 43 };
    assert_eq!(walked(&ONE, 124), (vec![BlockEntry::Resource(pdu), BlockEntry::Null(48)], 64));
    assert_eq!(block::step(&ONE, 124, 124), Ok(None));
    assert_eq!(block::step(&ONE, 124, 109), Ok(None));
}

#[test]
fn one_pdu_written() {
    let mut bytes = [0xff; 17];
    assert_eq!(block::add(&mut bytes, 124, 0, &ssi(1), LengthIndication::Counted, &[], 0), Ok(48));
    assert_eq!(bytes[6..], [0xff; 11]);
    assert_eq!(block::finish(&mut bytes, 124, 48), Ok(124));
    assert_eq!(bytes[..15], ONE[..15]);
    assert_eq!(bytes[15..], [0x0f, 0xff]);
    assert_eq!(block::finish(&mut bytes, 124, 124), Ok(124));
    assert_eq!(block::add(&mut bytes, 124, 124, &ssi(1), LengthIndication::Counted, &[], 0), refused(Refusal::WRITE_PAST_END));
}

/// Adds, read back: what was put in, with the length and the fill that the writer set.
#[test]
fn round_trip() {
    let content: Vec<u8> = (0..61u8).map(|i| i.wrapping_mul(37) + 1).collect();
    let header = MacResource { power_control_element: Some(3), random_access_flag: true, ..ssi(77) };
    for mark in [LengthIndication::Counted, LengthIndication::SecondSlotStolen, LengthIndication::FragStart] {
        for n in 0..100 {
            let mut bytes = [0xa5; 34];
            let first = block::add(&mut bytes, 268, 0, &header, LengthIndication::Counted, &content, n).expect("room");
            assert_eq!(first, (47 + n).div_ceil(8) * 8);
            let second = block::add(&mut bytes, 268, first, &ssi(2), mark, &content[1..], 7).expect("room");
            assert_eq!(block::finish(&mut bytes, 268, second), Ok(268));
            let (entries, _) = walked(&bytes, 268);
            let [BlockEntry::Resource(one), BlockEntry::Resource(two), ..] = entries[..] else { panic!("{entries:?}") };
            assert_eq!(entries.len(), 2 + usize::from(second + 16 <= 268));
            assert_eq!((one.content_start, one.content_end, one.end), (47, 47 + n, first));
            assert_eq!((two.content_start, two.content_end, two.end), (first + 43, first + 50, second));
            let length_ind = if mark == LengthIndication::Counted { 7 } else { two.header.length_ind };
            assert_eq!(two.header, MacResource { length_ind, fill_bits: second > first + 50, ..ssi(2) });
            assert_eq!(mark == LengthIndication::FragStart, two.header.length_ind == MAC_RESOURCE_LENGTH_FRAG_START);
            assert_eq!(mark == LengthIndication::SecondSlotStolen, two.header.length_ind == MAC_RESOURCE_LENGTH_2ND_SLOT_STOLEN);
            let bit = |s: &[u8], i: usize| s[i / 8] >> (7 - i % 8) & 1;
            (0..n).for_each(|i| assert_eq!(bit(&bytes, 47 + i), bit(&content, i)));
            (0..7).for_each(|i| assert_eq!(bit(&bytes, first + 43 + i), bit(&content, 8 + i)));
        }
    }
}

/// 268 bits of one PDU in 268: no fill, although the octets end later; one bit fewer: one bit of fill.
#[test]
fn to_the_last_bit() {
    let mut bytes = [0; 34];
    for (content_bits, fill_bits) in [(225, false), (224, true)] {
        assert_eq!(block::add(&mut bytes, 268, 0, &ssi(1), LengthIndication::Counted, &[0; 29], content_bits), Ok(268));
        let header = MacResource { fill_bits, length_ind: 34, ..ssi(1) };
        let pdu = ResourcePdu { bit: 0, end: 268, header, content_start: 43, content_end: 43 + content_bits };
        assert_eq!(walked(&bytes, 268), (vec![BlockEntry::Resource(pdu)], 268));
    }
    bytes[1] = 35 << 3 | 1;
    bytes[0] = 0x21;
    let over = RefusedPdu { bit: 0, end: None, refusal: Refusal { number: Refusal::LENGTH, offset: 7 } };
    assert_eq!(walked(&bytes, 268), (vec![BlockEntry::Refused(over)], 0));
}

#[test]
fn refused_adds() {
    let add = |bits: usize, bit: usize, header: MacResource, content_bits: usize| {
        let mut bytes = [0xa5; 61];
        let answer = block::add(&mut bytes, bits, bit, &header, LengthIndication::Counted, &[0; 61], content_bits);
        assert!(answer.is_ok() || bytes == [0xa5; 61]);
        answer
    };
    assert_eq!(add(268, 0, ssi(1), 226), refused(Refusal::WRITE_PAST_END));
    assert_eq!(add(488, 0, ssi(1), 445), Ok(488));
    assert_eq!(add(488, 0, ssi(1), 446), refused(Refusal::LENGTH));
    assert_eq!(add(488, 0, MacResource::null_pdu(), 0), refused(Refusal::NULL_PDU));
    assert_eq!(add(488, 0, MacResource { encryption_mode: 1, ..ssi(1) }, 0), refused(Refusal::ENCRYPTED_ADDRESS));
    assert_eq!(add(488, 0, ssi(1 << 24), 0), refused(Refusal::VALUE_TOO_WIDE));
    for (bits, bit, content_bits) in [(489, 0, 0), (124, 4, 0), (124, 125, 0), (124, 128, 0), (usize::MAX, 0, 0), (124, 0, 489)] {
        assert_eq!(add(bits, bit, ssi(1), content_bits), refused(Refusal::BAD_WINDOW), "{bits} {bit} {content_bits}");
    }
    assert_eq!(block::add(&mut [0; 15], 124, 0, &ssi(1), LengthIndication::FragStart, &[], 0), refused(Refusal::BAD_WINDOW));
}

#[test]
fn refused_steps_and_finishes() {
    for (bits, bit) in [(124, 125), (129, 0), (489, 0), (usize::MAX, usize::MAX)] {
        assert_eq!(block::step(&ONE, bits, bit), refused(Refusal::BAD_WINDOW));
        assert_eq!(block::finish(&mut ONE.clone(), bits, bit), refused(Refusal::BAD_WINDOW));
    }
    assert_eq!(block::walk(&ONE, 129).map(|w| w.bit()), refused(Refusal::BAD_WINDOW));
    assert_eq!(block::finish(&mut ONE.clone(), 124, 4), refused(Refusal::BAD_WINDOW));
}

/// A PDU whose fill is nowhere, or whose slot grant runs past its end, is walked past.
#[test]
fn refused_pdus() {
    let mut bytes = [0; 16];
    let next = block::add(&mut bytes, 124, 0, &ssi(1), LengthIndication::Counted, &[], 0).expect("room");
    block::add(&mut bytes, 124, next, &ssi(2), LengthIndication::Counted, &[0xff], 8).expect("room");
    let second = block::step(&bytes, 124, next).expect("a block").expect("a PDU");
    let entry = |number, offset| BlockEntry::Refused(RefusedPdu { bit: 0, end: Some(48), refusal: Refusal { number, offset } });
    for (octet, value, number, bit) in [(5, 0x00, Refusal::NO_FILL_BIT, 43), (5, 0x40, Refusal::READ_PAST_END, 46)] {
        let mut damaged = bytes;
        damaged[octet] = value;
        assert_eq!(walked(&damaged, 124).0[..2], [entry(number, bit), second]);
    }
    bytes[6] |= 0x40;
    let wrong_type = RefusedPdu { bit: 48, end: None, refusal: Refusal { number: Refusal::WRONG_PDU_TYPE, offset: 0 } };
    assert_eq!((walked(&bytes, 124).0[1], walked(&bytes, 124).1), (BlockEntry::Refused(wrong_type), 48));
}
