//! Document 01's rules of a block, plainly: over bits one by one, and with nothing of this port. The original has no blocks; what a header
//! says is asked of the original elsewhere. Each rule stands above what it became.

/// "0 to 488 bits".
pub const MOST_BITS: usize = 488;

/// What begins at a bit.
#[derive(Clone, Copy, Debug, PartialEq, Eq)]
pub enum Bounds {
    End,
    Null,
    /// A PDU, and the bit after it.
    Sized(usize),
    /// A refusal that gives no end: its number, and the field's bit, counted from the PDU's first bit.
    Unsized(u8, usize),
}

/// The first n bits of bytes: "most significant bit of byte 0 first".
pub fn bits(bytes: &[u8], n: usize) -> Vec<bool> {
    (0..n).map(|i| bytes[i / 8] & (0x80 >> (i % 8)) != 0).collect()
}

pub fn put(bytes: &mut [u8], at: usize, bits: &[bool]) {
    for (i, bit) in (at..).zip(bits) {
        let mask = 0x80 >> (i % 8);
        bytes[i / 8] = if *bit { bytes[i / 8] | mask } else { bytes[i / 8] & !mask };
    }
}

fn number(bits: &[bool]) -> usize {
    bits.iter().fold(0, |v, b| 2 * v + usize::from(*b))
}

/// "Type 2 (0), fill 1, position of grant 1, encryption 2, random access 1, length 6, address type 3: 16 bits."
pub fn bounds(block: &[bool], p: usize) -> Bounds {
    let n = block.len();
    let own = &block[p..];
    // "fewer than 16 bits left: end"
    if own.len() < 16 {
        return Bounds::End;
    }
    let (pdu_type, length, address_type) = (number(&own[..2]), number(&own[7..13]), number(&own[13..16]));
    // "type not 0: refused 4, end"; "the block's 4 .. give 0"
    if pdu_type != 0 {
        return Bounds::Unsized(4, 0);
    }
    // "null address: null entry, end, its length unused"
    if address_type == 0 {
        return Bounds::Null;
    }
    let end = p + 8 * length;
    match length {
        // "length 62 or 63: the PDU runs to N"
        62 | 63 => Bounds::Sized(n),
        // "length 0 or 1: refused 8, end"; "the block's .. 8 .. give .. 7"
        0 | 1 => Bounds::Unsized(8, 7),
        // "otherwise the end is p + 8 × length; if that passes N by under 8 bits it is N; by 8 or more, refused 8, end"
        _ if end <= n => Bounds::Sized(end),
        _ if end < n + 8 => Bounds::Sized(n),
        _ => Bounds::Unsized(8, 7),
    }
}

/// The bits from p to the PDU's end: "16 for null, to N where a refusal gives no end".
pub fn extent(block: &[bool], p: usize) -> usize {
    match bounds(block, p) {
        Bounds::End => p,
        Bounds::Null => p + 16,
        Bounds::Sized(end) => end,
        Bounds::Unsized(..) => block.len(),
    }
}

/// The first bits of all PDUs of the walk, and where the rest begins: "after a null PDU, or from p where the walk ended otherwise".
pub fn walk(block: &[bool]) -> (Vec<usize>, usize) {
    let (mut all, mut p) = (vec![], 0);
    loop {
        match bounds(block, p) {
            Bounds::End => return (all, p),
            Bounds::Null => {
                all.push(p);
                return (all, p + 16);
            }
            Bounds::Unsized(..) => {
                all.push(p);
                return (all, p);
            }
            Bounds::Sized(end) => {
                all.push(p);
                p = end;
            }
        }
    }
}

/// "With fill set, the PDU's last 1 after the header, and the zeros after it, are fill": the content's end, None where there is no 1.
pub fn content_end(block: &[bool], header_end: usize, end: usize, fill: bool) -> Option<usize> {
    if fill { (header_end..end).rev().find(|i| block[*i]) } else { Some(end) }
}

/// The bits of a header by its record: 16, the address, three flags and their elements. One in the augmented direction "counts 25 or 27".
pub fn header_bits(r: &[u64]) -> usize {
    let address = match r[5] {
        0 => return 16,
        2 => 10,
        5 | 7 => 34,
        6 => 30,
        _ => 24,
    };
    let element = |flag: u64, bits: usize| 1 + if flag != 0 { bits } else { 0 };
    16 + address + element(r[9], 4) + element(r[11], 8) + element(r[15], if r[22] == 0 { 27 } else { 25 })
}

/// The end of a PDU of so many bits of header and content that is added at bit p: whole octets where it is counted, and not past N; "a
/// marked PDU takes the rest of the block".
pub fn added_end(marked: bool, p: usize, n: usize, total: usize) -> usize {
    if marked { n } else { n.min(p + total.div_ceil(8) * 8) }
}

/// "A writer's bit past N, or neither N nor on an octet, is refused 13", and so is a block over 488 bits or over its bytes.
pub fn writable(bytes: usize, n: usize, p: usize) -> bool {
    n <= MOST_BITS && n <= 8 * bytes && p <= n && (p == n || p % 8 == 0)
}
