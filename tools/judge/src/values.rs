//! Records that together have every address type, every combination of optional elements, every value of each field of up to 6 bits, and the
//! limits of each wide one, those that no field holds included.
use crate::kind::Kind;

const SSI: [u64; 6] = [0, 1, 1 << 23, (1 << 24) - 1, 1 << 24, u32::MAX as u64];
const LABEL: [u64; 5] = [0, 1, 1023, 1024, 65535];
const CARRIER: [u64; 6] = [0, 1, 1 << 11, (1 << 12) - 1, 1 << 12, 65535];

/// Every value of a field of so many bits, the first that is too large, and the largest of its type.
fn small(bits: u32) -> Vec<u64> {
    (0..=1 << bits).chain([255]).collect()
}

/// A record with each of the values at a place.
fn vary(base: &[u64], at: usize, values: &[u64]) -> Vec<Vec<u64>> {
    values.iter().map(|v| with(base, &[(at, *v)])).collect()
}

fn with(base: &[u64], changes: &[(usize, u64)]) -> Vec<u64> {
    let mut r = base.to_vec();
    changes.iter().for_each(|(at, v)| r[*at] = *v);
    r
}

fn set(base: &[u64], at: usize, part: &[u64]) -> Vec<u64> {
    let mut r = base.to_vec();
    r[at..at + part.len()].copy_from_slice(part);
    r
}

fn delays() -> Vec<[u64; 2]> {
    [[0, 0], [2, 0], [3, 0]].into_iter().chain((0..18).chain([255]).map(|n| [1, n])).collect()
}

fn grants() -> Vec<Vec<u64>> {
    let by_delay = delays().into_iter().enumerate().map(|(i, [kind, count])| vec![i as u64 % 16, kind, count]);
    (0..16).map(|c| vec![c, 1, 7]).chain(by_delay).collect()
}

const CHANNEL: [u64; 9] = [2, 9, 3, 0, 1, 1234, 1, 0, 0];

fn channels() -> Vec<Vec<u64>> {
    let mut all = [vary(&CHANNEL, 0, &[0, 1, 2, 3]), vary(&CHANNEL, 1, &(0..16).collect::<Vec<_>>())].concat();
    all.extend([(0, 0), (0, 1), (1, 0), (1, 1)].map(|(p, c)| with(&CHANNEL, &[(3, p), (4, c)])));
    all.extend(vary(&CHANNEL, 5, &CARRIER));
    for direction in 0..4 {
        for pattern in small(2) {
            let patterns = [(0, 0)].into_iter().chain(small(2).into_iter().map(|v| (1, v)));
            all.extend(patterns.map(|(present, v)| with(&CHANNEL, &[(2, direction), (6, pattern), (7, present), (8, v)])));
        }
    }
    all
}

/// A MAC-RESOURCE of an address type, with the elements whose bits are set in `elements` (1 power, 2 slot grant, 4 channel allocation).
fn resource(address: u64, elements: u64, pattern: u64) -> Vec<u64> {
    let mut r = vec![0; 25];
    r[4] = 34;
    r[5] = address;
    r[6] = if matches!(address, 1 | 5 | 6) { elements % 3 } else { 0 };
    r[7] = [0, 0x123456, 0x2a5, 0xedcba9, 1, 0x800001, 0xffffff, 0x5a5a5a][address as usize];
    r[8] = [0, 0, 0, 0, 0, 0x155, 0x2a, 0x3ff][address as usize];
    if elements & 1 != 0 {
        r = set(&r, 9, &[1, 5]);
    }
    if elements & 2 != 0 {
        r = set(&r, 11, &[1, 6, 1, 13]);
    }
    if elements & 4 != 0 {
        r = set(&r, 15, &[1, 1, 6, 2, 1, 0, 0xabc, pattern, (pattern == 0) as u64, 2 * (pattern == 0) as u64]);
    }
    r
}

fn resource_forms() -> Vec<Vec<u64>> {
    let mut all = vec![resource(0, 0, 0)];
    for address in 1..8 {
        for elements in 0..8 {
            all.push(resource(address, elements, 0));
            if elements & 4 != 0 {
                all.push(resource(address, elements, 3));
            }
        }
    }
    all
}

/// The fields that every MAC-RESOURCE has.
fn resource_fixed(address: u64) -> Vec<Vec<u64>> {
    let base = resource(address, 0, 0);
    let mut all = [vary(&base, 0, &[0, 1]), vary(&base, 1, &small(1)), vary(&base, 2, &small(2)), vary(&base, 3, &[0, 1])].concat();
    all.extend((0..8).map(|v| with(&base, &[(0, v & 1), (1, v >> 1 & 1), (3, v >> 2)])));
    all
}

fn resource_addresses() -> Vec<Vec<u64>> {
    let mut all = vec![];
    for address in 1..8 {
        let base = resource(address, 0, 0);
        all.extend(vary(&base, 7, if address == 2 { &LABEL } else { &SSI }));
        match address {
            5 | 7 => all.extend(vary(&base, 8, &LABEL)),
            6 => all.extend(vary(&base, 8, &small(6))),
            _ => {}
        }
        if matches!(address, 1 | 5 | 6) {
            all.extend(vary(&base, 6, &[0, 1, 2]));
        }
    }
    all
}

fn resources() -> Vec<Vec<u64>> {
    let one = resource(1, 7, 0);
    let mut all: Vec<Vec<u64>> = (0..8).flat_map(resource_fixed).collect();
    all.extend(resource_addresses());
    all.extend([0, 1].into_iter().flat_map(|address| vary(&resource(address, 0, 0), 4, &small(6))));
    all.extend(vary(&one, 10, &small(4)));
    all.extend(grants().iter().map(|g| set(&resource(1, 2, 0), 12, g)));
    all.extend(channels().iter().step_by(5).map(|c| set(&resource(2, 4, 0), 16, c)));
    all
}

/// Usages by kind and traffic number.
fn usages() -> Vec<[u64; 2]> {
    (0..4).map(|kind| [kind, 0]).chain(small(6).into_iter().map(|n| [4, n])).collect()
}

fn fields() -> Vec<[u64; 2]> {
    (0..64).map(|v| [v >> 4, v & 15]).collect()
}

fn assigns() -> Vec<Vec<u64>> {
    let mut all = vec![];
    for h in 0..4 {
        let one = if h == 0 { fields() } else { usages() };
        let two = if h == 3 { usages() } else { fields() };
        let beside = |i: usize| if h == 3 { 3 } else { i as u64 % 4 };
        all.extend(one.iter().enumerate().map(|(i, v)| vec![h, v[0], v[1], beside(i), 0]));
        all.extend(two.iter().enumerate().map(|(i, v)| vec![h, i as u64 % 4, 0, v[0], v[1]]));
    }
    all
}

/// A MAC-ACCESS or MAC-DATA of an address type with an option (0 none, 1 length, 2 capacity request).
fn uplink(address: u64, option: u64) -> Vec<u64> {
    let number = [0x123456, 0x2a5, 0xedcba9, 0x800001][address as usize];
    let (x, y) = [(0, 0), (21, 0), (1, 10)][option as usize];
    vec![1, 0, address, 0, number, option, x, y]
}

fn uplink_forms(least: u64) -> Vec<Vec<u64>> {
    (0..4).flat_map(|address| (least..3).map(move |option| uplink(address, option))).collect()
}

fn uplinks(least: u64, bits: u32) -> Vec<Vec<u64>> {
    let mut all = vec![];
    for address in 0..4 {
        for option in least..3 {
            let base = uplink(address, option);
            all.extend((0..4).map(|v| with(&base, &[(0, v & 1), (1, v >> 1)])));
        }
        all.extend(vary(&uplink(address, 1), 4, if address == 1 { &LABEL } else { &SSI }));
    }
    all.extend(vary(&uplink(0, 2), 3, &[0, 1, 2]));
    all.extend(vary(&uplink(1, 1), 6, &small(bits)));
    all.extend((0..32).map(|v| with(&uplink(2, 2), &[(6, v >> 4), (7, v & 15)])));
    all
}

/// One record of each layout that a type has.
pub fn forms(k: Kind) -> Vec<Vec<u64>> {
    match k {
        Kind::Slotgrant => [[0, 0], [1, 7], [2, 0], [3, 0]].map(|d| vec![5, d[0], d[1]]).to_vec(),
        Kind::Channel => vec![CHANNEL.to_vec(), with(&CHANNEL, &[(2, 1), (6, 0), (7, 1), (8, 2)])],
        Kind::Resource => resource_forms(),
        Kind::Assign => vec![vec![0, 1, 2, 3, 4], vec![1, 4, 63, 2, 9], vec![2, 2, 0, 0, 15], vec![3, 4, 4, 4, 36]],
        Kind::Access => uplink_forms(0),
        Kind::Data => uplink_forms(1),
    }
}

pub fn values(k: Kind) -> Vec<Vec<u64>> {
    match k {
        Kind::Slotgrant => grants(),
        Kind::Channel => channels(),
        Kind::Resource => resources(),
        Kind::Assign => assigns(),
        Kind::Access => uplinks(0, 5),
        Kind::Data => uplinks(1, 6),
    }
}
