//! "Whatever bits anybody puts into one PDU of a downlink block, sparing that PDU's type, length and address type", or into several: the
//! block before and after, and what the walk of this port must give then. Where PDUs begin and end is asked of the rules (`model`).
use crate::cases::Rng;
use crate::model;
use crate::ours::Refusal;
use tetra_mac::block::{self, BlockEntry, RefusedPdu, ResourcePdu};

/// A block of so many bits, and the same with bits altered.
#[derive(Clone)]
pub struct Altered {
    pub before: Vec<u8>,
    pub after: Vec<u8>,
    pub bits: usize,
}

/// The entries of the walk of this port, and where the rest begins.
pub fn walked(bytes: &[u8], n: usize) -> Result<(Vec<BlockEntry>, usize), String> {
    let mut walk = block::walk(bytes, n).map_err(|r| format!("the walk is {r}"))?;
    // More entries than any block has, so that a walk that stands still ends too.
    let entries: Vec<BlockEntry> = walk.by_ref().take(model::MOST_BITS).collect();
    Ok((entries, walk.bit()))
}

/// "Type, length and address type lie as in MAC-RESOURCE, also under refusal 4."
fn spared(i: usize) -> bool {
    i < 2 || (7..16).contains(&i)
}

/// An entry whose PDU begins at another bit: "ranges counted from the PDU's first bit".
fn moved(entry: BlockEntry, to: usize) -> BlockEntry {
    let at = |bit: usize| bit - entry.bit() + to;
    match entry {
        BlockEntry::Null(_) => BlockEntry::Null(to),
        BlockEntry::Refused(e) => BlockEntry::Refused(RefusedPdu { bit: to, end: e.end.map(at), ..e }),
        BlockEntry::Resource(e) => BlockEntry::Resource(ResourcePdu {
            bit: to,
            end: at(e.end),
            content_start: at(e.content_start),
            content_end: at(e.content_end),
            ..e
        }),
    }
}

/// What the bits of a PDU read as where they are all of a block from some bit on, with other bits around them.
fn alone(own: &[bool]) -> Result<Option<BlockEntry>, Refusal> {
    let ones = own.iter().filter(|b| **b).count();
    let at = (31 * own.len() + 7 * ones) % (model::MOST_BITS + 1 - own.len());
    let n = at + own.len();
    let mut bytes = vec![[0x00, 0xff, 0xa5, 0x3c][ones % 4]; n.div_ceil(8) + ones % 3];
    model::put(&mut bytes, at, own);
    Ok(block::step(&bytes, n, at)?.map(|e| moved(e, 0)))
}

/// "Place is the number in the walk, the bit, and the end where there is one": by the rules.
fn place(block: &[bool], p: usize) -> (usize, Option<usize>) {
    match model::bounds(block, p) {
        model::Bounds::Sized(end) => (p, Some(end)),
        _ => (p, None),
    }
}

/// Whether a walk has the places of the rules and every PDU reads as its own bits alone do.
fn as_ruled(bytes: &[u8], n: usize) -> Result<Vec<BlockEntry>, String> {
    let bits = model::bits(bytes, n);
    let (entries, rest) = walked(bytes, n)?;
    let (pdus, ruled_rest) = model::walk(&bits);
    if entries.len() != pdus.len() || rest != ruled_rest {
        return Err(format!("{} entries and rest at {rest}, not {} and {ruled_rest}", entries.len(), pdus.len()));
    }
    for (k, (entry, p)) in entries.iter().zip(pdus).enumerate() {
        if (entry.bit(), entry.end()) != place(&bits, p) {
            return Err(format!("PDU {k} is not in its place: {entry:?}"));
        }
        let own = alone(&bits[p..model::extent(&bits, p)]);
        if own != Ok(Some(moved(*entry, 0))) {
            return Err(format!("PDU {k} is not read from its own bits alone: {entry:?}, alone {own:?}"));
        }
    }
    Ok(entries)
}

impl Altered {
    /// Any bits in some PDUs, one more often than several; in these now and then also in bits of no PDU, and behind the block.
    pub fn random(g: &mut Rng, before: Vec<u8>, n: usize) -> Self {
        let bits = model::bits(&before, n);
        let (pdus, rest) = model::walk(&bits);
        let mut after = before.clone();
        let one = g.below(pdus.len().max(1) as u64) as usize;
        let several = g.once_in(3);
        for (k, p) in pdus.iter().enumerate() {
            if k == one || (several && g.once_in(2)) {
                let own = &bits[*p..model::extent(&bits, *p)];
                model::put(&mut after, *p, &any_bits(g, own));
            }
        }
        let in_no_pdu = pdus.last().map_or(0, |p| model::extent(&bits, *p)).max(rest);
        if several {
            let any: Vec<bool> = (in_no_pdu..8 * after.len()).map(|_| g.flag() == 1).collect();
            model::put(&mut after, in_no_pdu, &any);
        }
        Altered { before, after, bits: n }
    }

    /// The PDUs whose bits differ, or None where bits differ that are spared.
    fn pdus(&self) -> Option<Vec<usize>> {
        let (was, is) = (model::bits(&self.before, self.bits), model::bits(&self.after, self.bits));
        let mut differ = vec![];
        for (k, p) in model::walk(&was).0.into_iter().enumerate() {
            let end = model::extent(&was, p);
            if (p..end).any(|i| was[i] != is[i]) {
                differ.push(k);
            }
            if (p..end).any(|i| was[i] != is[i] && spared(i - p)) {
                return None;
            }
        }
        Some(differ)
    }

    /// How many PDUs were altered, and of those that were read, how many are refused now; or what is wrong.
    pub fn check(&self) -> Result<(u64, u64), String> {
        let Some(altered) = self.pdus() else { return Ok((0, 0)) };
        let was = as_ruled(&self.before, self.bits).map_err(|e| format!("before: {e}"))?;
        let is = as_ruled(&self.after, self.bits).map_err(|e| format!("after: {e}"))?;
        if was.len() != is.len() {
            return Err(format!("{} entries became {}", was.len(), is.len()));
        }
        let mut refused = 0;
        for (k, (x, y)) in was.iter().zip(&is).enumerate() {
            if (x.bit(), x.end()) != (y.bit(), y.end()) {
                return Err(format!("PDU {k} left its place: {x:?} became {y:?}"));
            }
            if !altered.contains(&k) && x != y {
                return Err(format!("PDU {k} was not altered: {x:?} became {y:?}"));
            }
            refused += u64::from(matches!((x, y), (BlockEntry::Resource(_), BlockEntry::Refused(_))));
        }
        let rest = |v: &[u8]| walked(v, self.bits).map(|(_, rest)| rest);
        if rest(&self.before) != rest(&self.after) {
            return Err("the rest begins elsewhere".to_string());
        }
        Ok((altered.len() as u64, refused))
    }

    /// How large it is: bits, altered bits, ones.
    pub fn size(&self) -> (usize, u32, u32) {
        let ones = |v: &[u8]| v.iter().map(|b| b.count_ones()).sum::<u32>();
        let differ = self.before.iter().zip(&self.after).map(|(a, b)| (a ^ b).count_ones()).sum();
        (self.bits + self.before.len(), differ, ones(&self.before))
    }

    /// A smaller one that is wrong too, as small as single steps make it.
    pub fn shrunk(mut self) -> Self {
        while let Some(smaller) = self.steps().into_iter().find(|v| v.size() < self.size() && v.check().is_err()) {
            self = smaller;
        }
        self
    }

    fn steps(&self) -> Vec<Self> {
        let mut all = vec![];
        for bits in [self.bits / 2, self.bits.saturating_sub(8), self.bits.saturating_sub(1), self.bits] {
            let cut = |v: &[u8]| v[..bits.div_ceil(8)].to_vec();
            all.push(Altered { before: cut(&self.before), after: cut(&self.after), bits });
        }
        for i in 0..8 * self.before.len() {
            let (octet, mask) = (i / 8, 0x80 >> (i % 8));
            let mut restored = self.clone();
            restored.after[octet] = self.after[octet] & !mask | self.before[octet] & mask;
            let mut cleared = self.clone();
            (cleared.before[octet], cleared.after[octet]) = (self.before[octet] & !mask, self.after[octet] & !mask);
            all.extend([restored, cleared]);
        }
        all
    }

    pub fn show(&self) -> String {
        let hex = |v: &[u8]| v.iter().map(|b| format!("{b:02x}")).collect::<Vec<_>>().join(" ");
        let altered = self.pdus().unwrap_or_default();
        format!("{} bits: {}; PDUs {altered:?} altered: {}", self.bits, hex(&self.before), hex(&self.after))
    }
}

/// Any bits but for the spared ones: random, a few turned, all 0 or all 1.
fn any_bits(g: &mut Rng, own: &[bool]) -> Vec<bool> {
    let how = g.below(6);
    let bit = |(i, was): (usize, &bool)| match how {
        _ if spared(i) => *was,
        0 => false,
        1 => true,
        2 => *was != g.once_in(16),
        _ => g.flag() == 1,
    };
    own.iter().enumerate().map(bit).collect()
}
