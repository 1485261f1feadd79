//! "A writer's run is a list of adds (content from other bytes) and finishes on one block of N bits, from bit 0 and any bytes": what it
//! must leave.
use crate::altered::walked;
use crate::{block_cases, blocks};
use crate::cases::{self, Rng};
use crate::model;
use crate::ours::Refusal;
use tetra_mac::block::{self, BlockEntry, LengthIndication, ResourcePdu};
use tetra_mac::{MAC_RESOURCE_LENGTH_2ND_SLOT_STOLEN, MAC_RESOURCE_LENGTH_FRAG_START, MacResource, Record, SsiType, DownlinkAddress};

#[derive(Clone, Debug)]
pub struct Add {
    header: MacResource,
    length: LengthIndication,
    content_bits: usize,
    content: Vec<u8>,
}

#[derive(Clone, Debug)]
pub enum Call {
    Add(Add),
    Finish,
}

#[derive(Clone)]
pub struct Run {
    pub bytes: Vec<u8>,
    pub bits: usize,
    pub calls: Vec<Call>,
}

/// The bytes that a run left, and how many adds it accepted and refused.
pub struct Done {
    pub bytes: Vec<u8>,
    pub accepted: u64,
    pub refused: u64,
}

/// "SSI kind becomes Ssi .., a frame-18 pattern without pattern 0 vanishes, length and fill are those set by the writer."
fn normal(header: &MacResource, length_ind: u8, fill_bits: bool) -> MacResource {
    let ssi = SsiType::Ssi;
    let addr = match header.addr {
        DownlinkAddress::Ssi(_, n) => DownlinkAddress::Ssi(ssi, n),
        DownlinkAddress::SsiAndEventLabel(_, n, label) => DownlinkAddress::SsiAndEventLabel(ssi, n, label),
        DownlinkAddress::SsiAndUsageMarker(_, n, marker) => DownlinkAddress::SsiAndUsageMarker(ssi, n, marker),
        other => other,
    };
    let mut chan_alloc_element = header.chan_alloc_element;
    if let Some(channel) = chan_alloc_element.as_mut().filter(|c| c.mon_pattern != 0) {
        channel.frame18_mon_pattern = None;
    }
    MacResource { length_ind, fill_bits, addr, chan_alloc_element, ..*header }
}

impl Add {
    fn random(g: &mut Rng, left: usize) -> Self {
        let record = block_cases::header(g);
        let (length, content_bits, content) = block_cases::added(g, &record, left);
        Add { header: blocks::value(&record), length: blocks::length_of(length), content_bits, content }
    }

    /// The entry that it must be read as, where it was accepted at bit p of n.
    fn expected(&self, p: usize, n: usize) -> BlockEntry {
        let header_bits = model::header_bits(&self.header.to_words());
        let total = header_bits + self.content_bits;
        let end = model::added_end(self.length != LengthIndication::Counted, p, n, total);
        let length_ind = match self.length {
            LengthIndication::Counted => total.div_ceil(8) as u8,
            LengthIndication::SecondSlotStolen => MAC_RESOURCE_LENGTH_2ND_SLOT_STOLEN,
            LengthIndication::FragStart => MAC_RESOURCE_LENGTH_FRAG_START,
        };
        let header = normal(&self.header, length_ind, p + total < end);
        let (content_start, content_end) = (p + header_bits, p + total);
        BlockEntry::Resource(ResourcePdu { bit: p, end, header, content_start, content_end })
    }
}

impl Call {
    fn on(&self, s: &mut [u8], n: usize, p: usize) -> Result<usize, Refusal> {
        match self {
            Call::Add(a) => block::add(s, n, p, &a.header, a.length, &a.content, a.content_bits),
            Call::Finish => block::finish(s, n, p),
        }
    }
}

/// The bits of `is` that differ from those of `was` lie from one bit to before another.
fn changed_within(was: &[u8], is: &[u8], from: usize, to: usize) -> bool {
    let (was, is) = (model::bits(was, 8 * was.len()), model::bits(is, 8 * is.len()));
    (0..was.len()).all(|i| was[i] == is[i] || (from..to).contains(&i))
}

impl Run {
    /// Adds, of which some are refused, with a finish at the end or anywhere, and now and then another.
    pub fn random(g: &mut Rng) -> Self {
        let bits = block_cases::size(g);
        let spare = g.below(4) as usize;
        let bytes = cases::bytes(g, bits.div_ceil(8) + spare);
        let adds = if g.once_in(4) { g.below(20) } else { g.below(6) };
        let mut left = bits;
        let mut calls: Vec<Call> = (0..adds)
            .map(|_| {
                let add = Add::random(g, left);
                let total = model::header_bits(&add.header.to_words()) + add.content_bits;
                left = left.checked_sub(total.div_ceil(8) * 8).unwrap_or(left);
                Call::Add(add)
            })
            .collect();
        let finishes = if g.once_in(6) { 2 } else { 1 };
        for _ in 0..finishes {
            let at = if g.once_in(6) { g.below(calls.len() as u64 + 1) as usize } else { calls.len() };
            calls.insert(at, Call::Finish);
        }
        Run { bytes, bits, calls }
    }

    /// Does the calls and holds what they leave to demand 3.
    pub fn check(&self) -> Result<Done, String> {
        let n = self.bits;
        let mut done = Done { bytes: self.bytes.clone(), accepted: 0, refused: 0 };
        let (mut p, mut finished_at, mut put_in) = (0, None, vec![]);
        for (i, call) in self.calls.iter().enumerate() {
            let was = done.bytes.clone();
            let answer = call.on(&mut done.bytes, n, p);
            let next = answer.unwrap_or(p);
            if !changed_within(&was, &done.bytes, p, next) {
                return Err(format!("call {i} ({answer:?}) changed bits outside of {p} to {next}"));
            }
            match (call, answer) {
                (Call::Finish, Ok(_)) => finished_at = finished_at.or(Some(p)),
                (Call::Finish, Err(r)) => return Err(format!("call {i}, a finish, is {r}")),
                (Call::Add(a), Ok(_)) => put_in.push((a, p)),
                (Call::Add(_), Err(_)) => done.refused += 1,
            }
            p = next;
        }
        done.accepted = put_in.len() as u64;
        let Some(finished_at) = finished_at else { return Ok(done) };
        self.read_back(&done.bytes, &put_in, finished_at)?;
        Ok(done)
    }

    /// "the walk gives exactly the accepted adds in their order, .. then the null PDU if one was written"
    fn read_back(&self, bytes: &[u8], put_in: &[(&Add, usize)], finished_at: usize) -> Result<(), String> {
        let n = self.bits;
        let mut expected: Vec<BlockEntry> = put_in.iter().map(|(a, p)| a.expected(*p, n)).collect();
        let null = n - finished_at >= 16;
        if null {
            expected.push(BlockEntry::Null(finished_at));
        }
        let rest = if null { finished_at + 16 } else { finished_at };
        let walk = walked(bytes, n)?;
        if walk != (expected.clone(), rest) {
            return Err(format!("the walk gives {walk:?}, not {expected:?} and rest at {rest}"));
        }
        let bits = model::bits(bytes, n);
        for ((a, _), entry) in put_in.iter().zip(&expected) {
            let BlockEntry::Resource(e) = entry else { continue };
            if bits[e.content_start..e.content_end] != model::bits(&a.content, a.content_bits) {
                return Err(format!("the content at bit {} is not what was put in", e.content_start));
            }
        }
        Ok(())
    }

    /// How large it is: calls, bits, content, ones.
    pub fn size(&self) -> (usize, usize, usize, u32) {
        let content = |c: &Call| if let Call::Add(a) = c { a.content_bits + a.content.len() } else { 0 };
        let ones = self.bytes.iter().map(|b| b.count_ones()).sum();
        (self.calls.len(), self.bits + self.bytes.len(), self.calls.iter().map(content).sum(), ones)
    }

    /// A smaller one that is wrong too, as small as single steps make it.
    pub fn shrunk(mut self) -> Self {
        while let Some(smaller) = self.steps().into_iter().find(|v| v.size() < self.size() && v.check().is_err()) {
            self = smaller;
        }
        self
    }

    fn steps(&self) -> Vec<Self> {
        let zeros = Run { bytes: vec![0; self.bytes.len()], ..self.clone() };
        let mut all = vec![zeros];
        for bits in [self.bits / 2, self.bits.saturating_sub(8), self.bits.saturating_sub(1), self.bits] {
            all.push(Run { bytes: self.bytes[..bits.div_ceil(8)].to_vec(), bits, ..self.clone() });
        }
        for (i, call) in self.calls.iter().enumerate() {
            let mut without = self.clone();
            without.calls.remove(i);
            all.push(without);
            let Call::Add(a) = call else { continue };
            for content_bits in [0, a.content_bits / 2, a.content_bits.saturating_sub(1)] {
                let mut less = self.clone();
                let content = a.content[..content_bits.div_ceil(8).min(a.content.len())].to_vec();
                less.calls[i] = Call::Add(Add { content_bits, content, ..a.clone() });
                all.push(less);
            }
        }
        all
    }

    pub fn show(&self) -> String {
        format!("{} bits in {:02x?}, calls {:?}", self.bits, self.bytes, self.calls)
    }
}
