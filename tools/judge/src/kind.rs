//! The six types that are compared, and the differences of docs/DIFFERENCES.md in which the original completes and this port refuses.

#[derive(Clone, Copy, Debug, PartialEq, Eq)]
pub enum Kind {
    Slotgrant,
    Channel,
    Resource,
    Assign,
    Access,
    Data,
}

pub const KINDS: [Kind; 6] = [Kind::Slotgrant, Kind::Channel, Kind::Resource, Kind::Assign, Kind::Access, Kind::Data];

/// The number of a listed difference, and the number of the refusal that this port gives.
pub type Difference = Option<(u8, u8)>;

/// 6: the original takes a MAC-DATA that ends before its reserved bit.
pub fn listed_read(k: Kind, bits: usize, record: &[u64]) -> Difference {
    let whole = 6 + if record.get(2) == Some(&1) { 10 } else { 24 } + 7;
    (k == Kind::Data && record[5] == 2 && bits < whole).then_some((6, 1))
}

/// 7: the original writes traffic markers 0 to 3; 8: delay counts 0, 14 and 15.
pub fn listed_write(k: Kind, r: &[u64]) -> Difference {
    let marker = |kind: u64, n: u64| kind == 4 && n < 4;
    let count = |g: &[u64]| g[1] == 1 && matches!(g[2], 0 | 14 | 15);
    match k {
        Kind::Assign if (r[0] > 0 && marker(r[1], r[2])) || (r[0] == 3 && marker(r[3], r[4])) => Some((7, 7)),
        Kind::Slotgrant if count(r) => Some((8, 14)),
        Kind::Resource if r[5] > 0 && r[11] != 0 && count(&r[12..15]) => Some((8, 14)),
        _ => None,
    }
}
