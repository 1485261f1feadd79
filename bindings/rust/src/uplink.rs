//! The record that MAC-ACCESS and MAC-DATA share.
use crate::UplinkAddress;

/// Fill bits, encrypted, address, and the words of the option.
pub(crate) type Head = (bool, bool, UplinkAddress, [u64; 3]);

pub(crate) fn to_words((fill_bits, encrypted, addr, [option, first, reservation]): Head) -> [u64; 8] {
    let [addr_type, kind, number] = addr.to_words();
    [u64::from(fill_bits), u64::from(encrypted), addr_type, kind, number, option, first, reservation]
}

pub(crate) fn from_words(&[fill, encrypted, addr_type, kind, number, option, first, reservation]: &[u64; 8]) -> Option<Head> {
    let addr = UplinkAddress::from_words([addr_type, kind, number])?;
    Some((fill != 0, encrypted != 0, addr, [option, first, reservation]))
}
