//! Cases in turn: every value of the short types, every first half of a MAC-RESOURCE, every cut, the limits of every field, every window of two
//! bytes.
use crate::case::{Call, Case};
use crate::original::{self, caught};
use crate::ours::{KINDS, Kind, Window};

type Visit<'a> = &'a mut dyn FnMut(Case);

/// Bits from the most significant on, one field after the other.
#[derive(Clone, Default)]
struct Bits {
    bytes: Vec<u8>,
    count: usize,
}

impl Bits {
    fn put(mut self, value: u64, width: usize) -> Self {
        for i in (0..width).rev() {
            if self.count % 8 == 0 {
                self.bytes.push(0);
            }
            self.bytes[self.count / 8] |= ((value >> i & 1) as u8) << (7 - self.count % 8);
            self.count += 1;
        }
        self
    }
}

/// A window of so many bits, `start` bits into the bytes.
fn window(start: usize, bits: usize) -> Window {
    Window { start, pos: start, end: start + bits }
}

/// A read of some bits, `start` bits into bytes that have one byte more.
fn read(k: Kind, start: usize, bits: &Bits, cut: usize) -> Case {
    let front = Bits::default().put(0x5a5a >> (16 - start.min(16)), start);
    let all = (0..bits.count).fold(front, |all, i| all.put((bits.bytes[i / 8] >> (7 - i % 8) & 1) as u64, 1));
    let mut bytes = all.bytes;
    bytes.push(0xff);
    let cut = cut.min(8 * bytes.len() - start);
    Case { call: Call::Read(k), bytes, window: window(start, cut), numbers: vec![] }
}

/// A write of a record into so many bits, `start` bits into the bytes.
fn write(k: Kind, start: usize, bits: usize, record: Vec<u64>) -> Case {
    let filled = if record.iter().sum::<u64>() % 2 == 0 { 0x00 } else { 0xff };
    Case { call: Call::Write(k), bytes: vec![filled; (start + bits).div_ceil(8)], window: window(start, bits), numbers: record }
}

fn slotgrants(visit: Visit) {
    for v in 0..256 {
        for start in 0..9 {
            for cut in 0..=9 {
                visit(read(Kind::Slotgrant, start, &Bits::default().put(v, 8), cut));
            }
        }
    }
    for capacity in 0..16 {
        let counted = (0..256).map(|n| [capacity, 1, n]);
        for record in counted.chain([0, 2, 3].map(|kind| [capacity, kind, 0])) {
            for (start, bits) in [(0, 8), (3, 8), (0, 7), (5, 0)] {
                visit(write(Kind::Slotgrant, start, bits, record.to_vec()));
            }
        }
    }
}

fn assigns(visit: Visit) {
    for v in 0..1 << 14 {
        for cut in 0..=14 {
            visit(read(Kind::Assign, v as usize % 8, &Bits::default().put(v, 14), cut));
        }
    }
    let field = |v: u64| [v / 16, v % 16];
    let usage = |v: u64| if v < 4 { [v, 0] } else { [4, v - 4] };
    let mut put = |h: u64, one: [u64; 2], two: [u64; 2]| {
        let record = vec![h, one[0], one[1], two[0], two[1]];
        visit(write(Kind::Assign, (one[1] + two[1]) as usize % 8, 14, record.clone()));
        visit(write(Kind::Assign, 0, (one[1] + 3 * two[1]) as usize % 14, record));
    };
    for a in 0..64 {
        (0..64).for_each(|b| put(0, field(a), field(b)));
        for u in 0..260 {
            put(1, usage(u), field(a));
            put(2, usage(u), field(a));
        }
    }
    for u in 0..260 {
        (0..260).for_each(|v| put(3, usage(u), usage(v)));
    }
}

fn channels(visit: Visit) {
    for v in 0..1u64 << 15 {
        for carrier in [0, 1, 0x555, 0xaaa, 0xfff] {
            let bits = Bits::default().put(v >> 5, 10).put(carrier, 12).put(v, 5);
            visit(read(Kind::Channel, v as usize % 8, &bits, 27));
            visit(read(Kind::Channel, v as usize % 8, &bits, v as usize % 28));
        }
    }
    for v in 0..1u64 << 10 {
        for carrier in [0, 1, 4095, 4096, 65535] {
            for pattern in [0, 1, 2, 3, 4, 255] {
                for frame18 in [None, Some(0), Some(3), Some(4), Some(255)] {
                    let record =
                        vec![v >> 8, v >> 4 & 15, v >> 2 & 3, v >> 1 & 1, v & 1, carrier, pattern, frame18.is_some() as u64, frame18.unwrap_or(0)];
                    visit(Case { call: Call::ChannelLen, bytes: vec![], window: window(0, 0), numbers: record.clone() });
                    visit(write(Kind::Channel, v as usize % 9, 20 + v as usize % 8, record));
                }
            }
        }
    }
}

/// MAC-ACCESS has a type of 1 bit, MAC-DATA of 2.
fn uplinks(visit: Visit, k: Kind, type_bits: usize) {
    for head in 0..1u64 << (type_bits + 4) {
        let label = head % 4 == 1;
        for number in [0, 0xffffff, 0x5a5a5a, 0x000001] {
            for tail in 0..128 {
                let bits = Bits::default().put(head, type_bits + 4).put(number, if label { 10 } else { 24 }).put(tail, 7);
                let start = (head as usize + tail as usize) % 8;
                let cuts = if head >> 4 == 0 { 0..=bits.count + 1 } else { bits.count - 1..=bits.count };
                cuts.for_each(|cut| visit(read(k, start, &bits, cut)));
            }
        }
    }
    for v in 0..1u64 << 4 {
        for kind in if v % 4 == 0 { 0..3 } else { 0..1 } {
            for number in [0, 1, 1023, 1024, 65535, 0xffffff, 0x1000000, u32::MAX as u64] {
                let most = if v % 4 == 1 { 65535 } else { u32::MAX as u64 };
                let mut put = |option: u64, first: u64, reservation: u64| {
                    let record = vec![v >> 3, v >> 2 & 1, v % 4, kind, number.min(most), option, first, reservation];
                    let bits = 37 - (first + reservation) as usize % 3 * 7;
                    visit(write(k, first as usize % 8, bits, record));
                };
                if k == Kind::Access {
                    put(0, 0, 0);
                }
                (0..256).for_each(|length| put(1, length, 0));
                (0..32).for_each(|v| put(2, v / 16, v % 16));
            }
        }
    }
}

fn resource_heads(visit: Visit) {
    for head in 0..1u64 << 16 {
        let tails = [0, u64::MAX, 0xa5a5_a5a5_a5a5_a5a5, 0x0123_4567_89ab_cdef ^ head << 20];
        for (i, tail) in tails.into_iter().enumerate() {
            let bits = Bits::default().put(head, 16).put(tail, 64).put(tail, 16);
            let start = head as usize % 8;
            visit(read(Kind::Resource, start, &bits, 96));
            if head >> 14 == 0 {
                visit(read(Kind::Resource, start, &bits, 14 + i));
                visit(read(Kind::Resource, start, &bits, 17 + (head as usize + 7 * i) % 79));
            } else if i == 0 {
                break;
            }
        }
    }
}

/// The words of a MAC-RESOURCE of an address type, with the elements of three flags.
fn form(addr_type: u64, flags: u64, one: u64, two: u64, pattern: u64) -> Vec<u64> {
    let mut r = vec![0; 25];
    (r[4], r[5], r[7], r[8]) = (20, addr_type, one, two);
    if flags & 1 != 0 {
        (r[9], r[10]) = (1, one % 16);
    }
    if flags & 2 != 0 {
        r[11..15].copy_from_slice(&[1, two % 16, 1, 1 + one % 13]);
    }
    if flags & 4 != 0 {
        r[15..25].copy_from_slice(&[1, one % 4, two % 16, 1 + one % 3, 0, 1, one % 4096, pattern, (pattern == 0) as u64, (pattern == 0) as u64 * 2]);
    }
    r
}

/// Every form of a MAC-RESOURCE, cut at every bit, and with each of its bits damaged.
fn resource_forms(visit: Visit) {
    for v in 0..8 * 8 * 2 * 4u64 {
        let (addr_type, flags, pattern, values) = (v % 8, v / 8 % 8, v / 64 % 2, v / 128);
        let (one, two) = [(0, 0), (0xffffff, 63), (0x5a5a5a, 42), (1, 1)][values as usize];
        let record = form(addr_type, flags, if addr_type == 2 { one % 1024 } else { one }, two, pattern);
        for start in [0, 5, 11] {
            let s = vec![0xa5; 15];
            let Some(mut b) = original::buffer(&s, window(start, 8 * 15 - start)) else { continue };
            let Some(end) = caught(|| original::write(Kind::Resource, &mut b, &record)) else { continue };
            let s = b.into_bytes();
            for cut in start..=end + 1 {
                visit(Case { call: Call::Read(Kind::Resource), bytes: s.clone(), window: window(start, cut - start), numbers: vec![] });
                visit(write(Kind::Resource, start, cut - start, record.clone()));
                let mut damaged = s.clone();
                damaged[cut / 8] ^= 0x80 >> (cut % 8);
                visit(Case { call: Call::Read(Kind::Resource), bytes: damaged, window: window(start, 120 - start), numbers: vec![] });
            }
        }
    }
}

fn resource_writes(visit: Visit) {
    let numbers = [(0, 0), (1023, 63), (1024, 64), (0xffffff, 1023), (0x1000000, 255), (u32::MAX as u64, 1)];
    for v in 0..2 * 4 * 6 * 2 * 8 * 8u64 {
        let fill = v % 2;
        let pos = [0, 1, 2, 255][v as usize / 2 % 4];
        let encryption = [0, 1, 2, 3, 4, 255][v as usize / 8 % 6];
        let random = v / 48 % 2;
        let length = [0, 1, 2, 61, 62, 63, 64, 255][v as usize / 96 % 8];
        let addr_type = v / 768;
        for (i, (one, two)) in numbers.into_iter().enumerate() {
            let (one, two) = match addr_type {
                0 => (0, 0),
                2 => (one.min(65535), 0),
                5 | 7 => (one, two),
                6 => (one, two.min(255)),
                _ => (one, 0),
            };
            let mut record = form(addr_type, (v + i as u64) % 8, one, two, i as u64 % 2);
            record[..5].copy_from_slice(&[fill, pos, encryption, random, length]);
            if matches!(addr_type, 1 | 5 | 6) {
                record[6] = i as u64 % 3;
            }
            visit(write(Kind::Resource, v as usize % 8, 92, record));
        }
    }
}

/// The lengths of every form, with every content up to 700 bits and some far over.
fn lengths(visit: Visit) {
    for v in 0..8 * 8 * 3u64 {
        let mut record = form(v % 8, v / 8 % 8, 1, 1, v / 64 % 2);
        if v / 64 == 2 && v / 32 % 2 == 1 {
            record[18] = 0;
        }
        visit(Case { call: Call::HeaderLen, bytes: vec![], window: window(0, 0), numbers: record.clone() });
        for content in (0..700).chain([2032, 2048, 4096, 65535, 65536, u32::MAX as u64, u64::MAX - 100, u64::MAX]) {
            visit(Case { call: Call::UpdateLen, bytes: vec![], window: window(0, 0), numbers: [record.clone(), vec![content]].concat() });
        }
    }
}

fn bits(visit: Visit) {
    let ramp: Vec<u8> = (0..12u8).map(|i| i.wrapping_mul(37) ^ 0x81).collect();
    for start in 0..17 {
        for width in 0..67usize {
            for spare in 0..3 {
                let end = (start + width + spare).saturating_sub(1).clamp(start, 96);
                let w = Window { start, pos: start, end };
                for bytes in [ramp.clone(), vec![0xff; 12]] {
                    visit(Case { call: Call::ReadBits, bytes: bytes.clone(), window: w, numbers: vec![width as u64] });
                    let top = if width < 64 { (1u64 << width) - 1 } else { u64::MAX };
                    for value in [0, 1, top, top.wrapping_add(1), 0x5555_5555_5555_5555 & top, u64::MAX] {
                        visit(Case { call: Call::WriteBits, bytes: bytes.clone(), window: w, numbers: vec![value, width as u64] });
                    }
                }
            }
        }
        for offset in (-20i64..90).chain([i64::MIN, i64::MIN + 1, i64::MAX, -65536, 65536]) {
            for width in [0, 1, 8, 63, 64, 65] {
                let w = Window { start: start / 2, pos: start, end: 88 };
                visit(Case { call: Call::PeekBits, bytes: ramp.clone(), window: w, numbers: vec![offset as u64, width] });
            }
        }
    }
}

/// A good record of each type.
fn good(k: Kind) -> Vec<u64> {
    match k {
        Kind::Slotgrant => vec![4, 1, 5],
        Kind::Channel => vec![0, 8, 3, 0, 1, 77, 0, 1, 2],
        Kind::Resource => form(1, 7, 1, 1, 0),
        Kind::Assign => vec![3, 4, 5, 4, 6],
        Kind::Access => vec![0, 0, 0, 1, 1, 2, 1, 4],
        Kind::Data => vec![0, 0, 0, 1, 1, 2, 1, 4],
    }
}

/// Every call that has a window, on some bytes and a window.
fn on_window(visit: Visit, bytes: Vec<u8>, window: Window) {
    let mut put = |call: Call, numbers: Vec<u64>| visit(Case { call, bytes: bytes.clone(), window, numbers });
    put(Call::ReadBits, vec![3]);
    put(Call::PeekBits, vec![1, 3]);
    put(Call::WriteBits, vec![5, 3]);
    for k in KINDS {
        put(Call::Read(k), vec![]);
        put(Call::Write(k), good(k));
    }
}

/// Every window of two bytes and one bit past them, good or not, and windows with far numbers.
fn windows(visit: Visit) {
    let far = [usize::MAX, 1 << 63, 1 << 32, 65537, 65536];
    let numbers: Vec<usize> = (0..18).chain(far).collect();
    for &start in &numbers {
        for &pos in &numbers {
            for &end in &numbers {
                on_window(visit, vec![0x00, 0x31], Window { start, pos, end });
            }
        }
    }
}

/// Windows around bit 65,536.
fn long_windows(visit: Visit) {
    for bytes in [8191, 8192, 8193, 8200] {
        for end in [65530, 65535, 65536, 65537, 65544, 65600] {
            for before in [0, 1, 8, 100, 130, 60000] {
                on_window(visit, vec![0; bytes], Window { start: 7, pos: end - before, end });
            }
        }
    }
}

pub fn all(visit: Visit) {
    slotgrants(visit);
    assigns(visit);
    channels(visit);
    uplinks(visit, Kind::Access, 1);
    uplinks(visit, Kind::Data, 2);
    resource_heads(visit);
    resource_forms(visit);
    resource_writes(visit);
    lengths(visit);
    bits(visit);
    windows(visit);
    long_windows(visit);
}
