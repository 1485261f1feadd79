//! Clause 21.4.3.1, MAC-RESOURCE: 16 bits for a null PDU, else 29 to 92.
use crate::record::{self, Record, number8};
use crate::sys;
use crate::{BasicSlotgrant, ChanAllocElement, Cursor, DownlinkAddress, Refusal};

/// Mark in the place of a length: the start of fragments.
pub const MAC_RESOURCE_LENGTH_FRAG_START: u8 = 63;

/// Mark in the place of a length: the second slot is stolen too.
pub const MAC_RESOURCE_LENGTH_2ND_SLOT_STOLEN: u8 = 62;

/// A MAC-RESOURCE header. A null PDU is written without elements, and with none of the first four fields set (9).
#[derive(Clone, Copy, Debug, PartialEq, Eq, Hash)]
pub struct MacResource {
    /// 1 bit, whether fill bits follow the content.
    pub fill_bits: bool,
    /// 1 bit, whether a slot grant is on the allocated channel.
    pub pos_of_grant: u8,
    /// 2 bits, not 0 only with an event label alone (10).
    pub encryption_mode: u8,
    /// 1 bit, whether a random access is acknowledged.
    pub random_access_flag: bool,
    /// 6 bits, octets or a mark; not written as 0 (8).
    pub length_ind: u8,
    /// 3 bits, and the address.
    pub addr: DownlinkAddress,
    /// 1 bit, and 4 where there is one.
    pub power_control_element: Option<u8>,
    /// 1 bit, and 8 where there is one.
    pub slot_granting_element: Option<BasicSlotgrant>,
    /// 1 bit, and 25 or 27 where there is one.
    pub chan_alloc_element: Option<ChanAllocElement>,
}

impl MacResource {
    /// A header to an address, with nothing else in it and its length still 0.
    pub fn to(addr: DownlinkAddress) -> Self {
        MacResource {
            fill_bits: false,
            pos_of_grant: 0,
            encryption_mode: 0,
            random_access_flag: false,
            length_ind: 0,
            addr,
            power_control_element: None,
            slot_granting_element: None,
            chan_alloc_element: None,
        }
    }

    /// The null PDU that ends a block.
    pub fn null_pdu() -> Self {
        MacResource { length_ind: 2, ..MacResource::to(DownlinkAddress::NullPdu) }
    }

    pub fn is_null_pdu(&self) -> bool {
        self.addr == DownlinkAddress::NullPdu
    }

    /// Reads one: 1, 4, 5, 6 or 13 refuse it.
    pub fn from_bitbuf(s: &[u8], c: Cursor) -> Result<(Self, Cursor), Refusal> {
        record::read(sys::tetra_mac_resource_read, s, c)
    }

    /// Writes it: 2, 3, 6, 8 to 11, 13 or 14 refuse it.
    pub fn to_bitbuf(&self, s: &mut [u8], c: Cursor) -> Result<Cursor, Refusal> {
        record::write(sys::tetra_mac_resource_write, self, s, c)
    }

    /// The bits that it is written as: 6 refuses it.
    pub fn compute_header_len(&self) -> Result<usize, Refusal> {
        record::length(sys::tetra_mac_resource_compute_header_len, self)
    }

    /// Sets length and fill flag for `sdu_len` bits of content and gives the fill bits, a 1 and zeros, that are to follow: 6 or 8 refuse it,
    /// and then nothing is set.
    pub fn update_len_and_fill_ind(&mut self, sdu_len: usize) -> Result<usize, Refusal> {
        let mut out = [0u64; 3];
        let words = self.to_words();
        // Slices go as pointer and count; the call keeps neither and writes only into out.
        let status = unsafe { sys::tetra_mac_resource_len_and_fill(words.as_ptr(), words.len(), sdu_len, out.as_mut_ptr(), out.len()) };
        Refusal::of_status(status)?;
        let [length_ind, fill_bits, fill] = out;
        self.length_ind = number8(length_ind).ok_or(Refusal::malformed())?;
        self.fill_bits = fill_bits != 0;
        Ok(fill as usize)
    }
}

impl Record<25> for MacResource {
    fn to_words(&self) -> [u64; 25] {
        let mut words = [0; 25];
        words[0] = u64::from(self.fill_bits);
        words[1] = u64::from(self.pos_of_grant);
        words[2] = u64::from(self.encryption_mode);
        words[3] = u64::from(self.random_access_flag);
        words[4] = u64::from(self.length_ind);
        [words[5], words[6], words[7], words[8]] = self.addr.to_words();
        if let Some(power) = self.power_control_element {
            [words[9], words[10]] = [1, u64::from(power)];
        }
        if let Some(grant) = &self.slot_granting_element {
            words[11] = 1;
            [words[12], words[13], words[14]] = grant.to_words();
        }
        if let Some(channel) = &self.chan_alloc_element {
            words[15] = 1;
            for (word, of_channel) in words.iter_mut().skip(16).zip(channel.to_words()) {
                *word = of_channel;
            }
        }
        words
    }

    fn from_words(w: &[u64; 25]) -> Option<Self> {
        let power_control_element = if w[9] == 0 { None } else { Some(number8(w[10])?) };
        let slot_granting_element = if w[11] == 0 { None } else { Some(BasicSlotgrant::from_words(&[w[12], w[13], w[14]])?) };
        let chan_alloc_element = if w[15] == 0 { None } else { Some(ChanAllocElement::from_words(w.last_chunk()?)?) };
        Some(MacResource {
            fill_bits: w[0] != 0,
            pos_of_grant: number8(w[1])?,
            encryption_mode: number8(w[2])?,
            random_access_flag: w[3] != 0,
            length_ind: number8(w[4])?,
            addr: DownlinkAddress::from_words([w[5], w[6], w[7], w[8]])?,
            power_control_element,
            slot_granting_element,
            chan_alloc_element,
        })
    }
}
