//! The downlink MAC block: MAC-RESOURCE PDUs one after the other, in the first bits, at most 488, of lent bytes. The first stands at bit 0.
//!
//! ```
//! use tetra_mac::block::{self, BlockEntry, LengthIndication};
//! use tetra_mac::{MacResource, SsiType, DownlinkAddress};
//!
//! let mut bytes = [0; 16];
//! let header = MacResource::to(DownlinkAddress::Ssi(SsiType::Ssi, 1));
//! let bit = block::add(&mut bytes, 124, 0, &header, LengthIndication::Counted, &[0xa5], 8)?;
//! block::finish(&mut bytes, 124, bit)?;
//!
//! let entries: Vec<BlockEntry> = block::walk(&bytes, 124)?.collect();
//! assert_eq!(entries.iter().map(|e| e.bit()).collect::<Vec<_>>(), [0, 56]);
//! assert_eq!(entries[1], BlockEntry::Null(56));
//! # Ok::<(), tetra_mac::Refusal>(())
//! ```
use crate::record::Record;
use crate::sys::{self, StepOut};
use crate::{MAC_RESOURCE_LENGTH_2ND_SLOT_STOLEN, MAC_RESOURCE_LENGTH_FRAG_START, MacResource, Refusal};

/// A MAC-RESOURCE that was read: its first bit and the bit after it, and the same of its content. Fill bits lie between the two ends.
#[derive(Clone, Copy, Debug, PartialEq, Eq, Hash)]
pub struct ResourcePdu {
    pub bit: usize,
    pub end: usize,
    pub header: MacResource,
    pub content_start: usize,
    pub content_end: usize,
}

/// A PDU that is refused: its first bit, the bit after it where it has an end, and why. The refusal's bit is counted from the PDU's first.
#[derive(Clone, Copy, Debug, PartialEq, Eq, Hash)]
pub struct RefusedPdu {
    pub bit: usize,
    pub end: Option<usize>,
    pub refusal: Refusal,
}

/// What stands at a bit of a block.
#[derive(Clone, Copy, Debug, PartialEq, Eq, Hash)]
pub enum BlockEntry {
    Resource(ResourcePdu),
    /// A null PDU's first bit. It is the last PDU of its block.
    Null(usize),
    Refused(RefusedPdu),
}

/// The length that a PDU is written with.
#[derive(Clone, Copy, Debug, PartialEq, Eq, Hash)]
pub enum LengthIndication {
    /// Its octets.
    Counted,
    /// A mark; the PDU takes the rest of the block.
    SecondSlotStolen,
    /// A mark; the PDU takes the rest of the block.
    FragStart,
}

impl LengthIndication {
    /// Its code in the C interface: a mark is its own.
    fn into_raw(self) -> u64 {
        match self {
            LengthIndication::Counted => 0,
            LengthIndication::SecondSlotStolen => MAC_RESOURCE_LENGTH_2ND_SLOT_STOLEN.into(),
            LengthIndication::FragStart => MAC_RESOURCE_LENGTH_FRAG_START.into(),
        }
    }
}

impl BlockEntry {
    /// Its first bit.
    pub fn bit(&self) -> usize {
        match self {
            BlockEntry::Resource(pdu) => pdu.bit,
            BlockEntry::Null(bit) => *bit,
            BlockEntry::Refused(pdu) => pdu.bit,
        }
    }

    /// The bit after it, at which a walk goes on; a null PDU and some refused ones end it.
    pub fn end(&self) -> Option<usize> {
        match self {
            BlockEntry::Resource(pdu) => Some(pdu.end),
            BlockEntry::Null(_) => None,
            BlockEntry::Refused(pdu) => pdu.end,
        }
    }

    /// The entry of a step's words, None for the end of the block; `bindings/c/tetra_mac.h` says what they are.
    fn from_words(w: &StepOut) -> Result<Option<Self>, Refusal> {
        let [kind, bit, has_end, end, content_start, content_end, number, refused_bit] =
            *w.first_chunk::<8>().ok_or(Refusal::malformed())?;
        let (bit, end) = (bit as usize, end as usize);
        Ok(Some(match kind {
            0 => return Ok(None),
            1 => {
                let header = w.last_chunk().and_then(MacResource::from_words).ok_or(Refusal::malformed())?;
                let (content_start, content_end) = (content_start as usize, content_end as usize);
                BlockEntry::Resource(ResourcePdu { bit, end, header, content_start, content_end })
            }
            2 => BlockEntry::Null(bit),
            3 => {
                let refusal = Refusal { number: number as u8, offset: refused_bit as usize };
                BlockEntry::Refused(RefusedPdu { bit, end: (has_end != 0).then_some(end), refusal })
            }
            _ => return Err(Refusal::malformed()),
        }))
    }
}

/// What stands at a bit of a block of so many bits, None at its end: 13 refuses a bit count over 488 or over the bytes, and a bit past it.
pub fn step(block: &[u8], bits: usize, bit: usize) -> Result<Option<BlockEntry>, Refusal> {
    let mut out: StepOut = [0; 33];
    // Slices go as pointer and count; the call keeps neither and writes only into out.
    let status = unsafe { sys::tetra_block_step(block.as_ptr(), block.len(), bits, bit, out.as_mut_ptr(), out.len()) };
    Refusal::of_status(status)?;
    BlockEntry::from_words(&out)
}

/// Writes a PDU at a bit of a block and gives the bit after it: header, the first bits of `content`, and fill. The header's fill flag and
/// length do not matter; the call sets them. 2, 3, 6, 8 to 11, 13 or 14 refuse it.
pub fn add(
    block: &mut [u8],
    bits: usize,
    bit: usize,
    header: &MacResource,
    length: LengthIndication,
    content: &[u8],
    content_bits: usize,
) -> Result<usize, Refusal> {
    let mut out = [0u64; 1];
    let (len, record, length) = (block.len(), header.to_words(), length.into_raw());
    let (from, from_len) = (content.as_ptr(), content.len());
    // Slices go as pointer and count; the call keeps none and writes only into block and out.
    let status = unsafe {
        let (block, out, record, count) = (block.as_mut_ptr(), out.as_mut_ptr(), record.as_ptr(), record.len());
        sys::tetra_block_add(block, len, bits, bit, record, count, length, from, from_len, content_bits, out, 1)
    };
    Refusal::of_status(status)?;
    Ok(out[0] as usize)
}

/// Closes a block at a bit and gives its end: a null PDU if 16 bits are left, and fill. 13 refuses it.
pub fn finish(block: &mut [u8], bits: usize, bit: usize) -> Result<usize, Refusal> {
    let mut out = [0u64; 1];
    // Slices go as pointer and count; the call keeps neither and writes only into block and out.
    let status = unsafe { sys::tetra_block_finish(block.as_mut_ptr(), block.len(), bits, bit, out.as_mut_ptr(), out.len()) };
    Refusal::of_status(status)?;
    Ok(out[0] as usize)
}

/// The entries of a block, from bit 0 to the end.
#[derive(Clone, Debug)]
pub struct Walk<'a> {
    block: &'a [u8],
    bits: usize,
    bit: usize,
    ended: bool,
}

/// The walk of a block: 13 refuses a bit count over 488 or over the bytes.
pub fn walk(block: &[u8], bits: usize) -> Result<Walk<'_>, Refusal> {
    step(block, bits, 0)?;
    Ok(Walk { block, bits, bit: 0, ended: false })
}

impl Walk<'_> {
    /// The bit that the walk has reached. When it is through, the rest of the block begins there: behind a null PDU, or where it ended.
    pub fn bit(&self) -> usize {
        self.bit
    }
}

impl Iterator for Walk<'_> {
    type Item = BlockEntry;

    fn next(&mut self) -> Option<BlockEntry> {
        if self.ended {
            return None;
        }
        let entry = step(self.block, self.bits, self.bit).ok().flatten();
        self.bit = match entry {
            Some(BlockEntry::Null(bit)) => bit + 16,
            Some(entry) => entry.end().unwrap_or(self.bit),
            None => self.bit,
        };
        self.ended = entry.and_then(|e| e.end()).is_none();
        entry
    }
}
