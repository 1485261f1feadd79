//! One case: a call and its inputs, what both sides answer, and the class of the two answers.
use crate::block;
use crate::bound;
use crate::kind::{listed_read, listed_write};
use crate::original::{self, caught};
use crate::ours::{self, Kind, Out, Refusal, Window};
use crate::their_block::{self, Add, OnBlock, Theirs};
use tetra_core::BitBuffer;
use tetra_core::pdu_parse_error::PduParseErr;

#[derive(Clone, Copy, Debug, PartialEq, Eq)]
pub enum Call {
    /// Numbers: the width.
    ReadBits,
    /// Numbers: the offset, as its two's complement, and the width.
    PeekBits,
    /// Numbers: the value and the width.
    WriteBits,
    Read(Kind),
    /// Numbers: the record; likewise below.
    Write(Kind),
    ChannelLen,
    HeaderLen,
    /// Numbers: the record, then the bits of content.
    UpdateLen,
    /// Of a block: the window's pos is the call's bit, and its end the block's bits.
    Step,
    /// Numbers: those of `their_block::Add`.
    Add,
    Finish,
}

#[derive(Clone, Debug)]
pub struct Case {
    pub call: Call,
    pub bytes: Vec<u8>,
    pub window: Window,
    pub numbers: Vec<u64>,
}

#[derive(Clone, Copy, PartialEq, Eq, PartialOrd, Ord, Debug)]
pub enum Class {
    Equal,
    /// Both refuse, and the original returns and leaves cursor and bytes as it got them.
    Refused,
    /// Both refuse: the original moved its cursor or changed bytes (difference 3), it panics (5), or both.
    Refused3,
    Refused5,
    Refused35,
    /// Document 01's rules of a block refuse it, and so does this port: 8, 9, 12 and 13. The original has no blocks.
    Rule,
    /// The original completes, this port refuses: the number of the entry in docs/DIFFERENCES.md.
    Listed(u8),
    Wrong,
}

impl Call {
    pub fn writes(self) -> bool {
        matches!(self, Call::WriteBits | Call::Write(_) | Call::Add | Call::Finish)
    }
}

fn theirs_on(c: &Case, b: &mut BitBuffer) -> Theirs {
    let n = &c.numbers;
    let value = |v: Option<u64>| v.map_or(Theirs::Ended, |v| Theirs::Done(vec![v]));
    let counted = |v: usize| Theirs::Done(vec![v as u64]);
    match c.call {
        Call::ReadBits => value(b.read_bits(n[0] as usize)),
        Call::PeekBits => value(b.peek_bits_posoffset(n[0] as isize, n[1] as usize)),
        Call::WriteBits => {
            b.write_bits(n[0], n[1] as usize);
            Theirs::Done(vec![])
        }
        Call::Read(k) => match original::record(k, b) {
            Ok(r) => Theirs::Done(r),
            Err(PduParseErr::BufferEnded { .. }) => Theirs::Ended,
            Err(_) => Theirs::Invalid,
        },
        Call::Write(k) => {
            original::write(k, b, n);
            Theirs::Done(vec![])
        }
        Call::ChannelLen => counted(original::channel(n).compute_len()),
        Call::HeaderLen => counted(original::resource(n).compute_header_len()),
        Call::UpdateLen => {
            let mut h = original::resource(n);
            let fill = h.update_len_and_fill_ind(n[25] as usize);
            Theirs::Done(vec![h.length_ind as u64, h.fill_bits as u64, fill as u64])
        }
        Call::Step => their_block::theirs_step(c.on_block(), b),
        Call::Add => their_block::theirs_add(c.on_block(), b),
        Call::Finish => their_block::theirs_finish(c.on_block(), b),
    }
}

fn theirs_or_panic(c: &Case, b: &mut BitBuffer) -> Theirs {
    original::told(|| Some(theirs_on(c, b))).unwrap_or_else(Theirs::Panics)
}

/// The cursor after the call, and the words of its answer.
pub type Ours = Result<(usize, Vec<u64>), Refusal>;

fn ours_on(c: &Case, s: &mut [u8]) -> Option<Ours> {
    let (n, w) = (&c.numbers, c.window);
    let counted = |v: Result<Vec<u64>, Refusal>| v.map(|v| (w.pos, v));
    Some(match c.call {
        Call::ReadBits => tetra_mac::read_bits(s, w, n[0] as usize).map(|(v, c)| (c.pos, vec![v])),
        Call::PeekBits => tetra_mac::peek_bits_posoffset(s, w, n[0] as isize, n[1] as usize).map(|v| (w.pos, vec![v])),
        Call::WriteBits => tetra_mac::write_bits(s, w, n[0], n[1] as usize).map(|c| (c.pos, vec![])),
        Call::Read(k) => bound::read(k, s, w),
        Call::Write(k) => bound::write(k, s, w, n)?.map(|pos| (pos, vec![])),
        Call::ChannelLen => counted(bound::channel_len(n)?),
        Call::HeaderLen => counted(bound::header_len(n)?),
        Call::UpdateLen => counted(bound::update_len(n, n[25] as usize)?),
        Call::Step => block::ours_step(c)?,
        Call::Add => block::ours_add(c, s)?,
        Call::Finish => block::ours_finish(c, s)?,
    })
}

/// Whether the C call refuses just so and gives back the cursor that it was given; the bindings' cursor is a value and cannot show it. Calls on
/// a block have been held to that already.
fn cursor_kept(c: &Case, r: Refusal) -> bool {
    let mut out: Out = [0; 26];
    let again = match c.call {
        Call::Read(k) => ours::read(k, &c.bytes, c.window, &mut out),
        Call::Write(k) => ours::write(k, &mut c.bytes.clone(), c.window, &c.numbers, &mut out),
        _ => return true,
    };
    again == Err(r) && out[0] == c.window.pos as u64
}

/// Whether a refusal's number, and of a read its bit, fits what the original says where it refuses too, and the bit where its cursor stopped.
fn same_reason(c: &Case, theirs: &Theirs, cursor: usize, r: Refusal) -> bool {
    let at = c.window.pos.saturating_add(r.offset);
    if let Theirs::Rule(number, bit) = *theirs {
        return r == Refusal { number, offset: bit };
    }
    if r.number == Refusal::BAD_WINDOW {
        return r.offset == 0 && (matches!(theirs, Theirs::NoWindow) || c.window.end > 65536);
    }
    match (theirs, c.call) {
        (Theirs::Ended, Call::Read(_) | Call::Step) => r.number == Refusal::READ_PAST_END && at == cursor,
        (Theirs::Ended, _) => r == Refusal { number: Refusal::READ_PAST_END, offset: 0 },
        (Theirs::Invalid, _) => r == Refusal { number: Refusal::USAGE_MARKER, offset: 8 },
        (Theirs::Panics(_), Call::PeekBits) => r == Refusal { number: Refusal::READ_PAST_END, offset: 0 },
        (Theirs::Panics(why), Call::Read(_) | Call::Step) => match r.number {
            Refusal::WRONG_PDU_TYPE => r.offset == 0 && cursor == at + if c.call == Call::Read(Kind::Access) { 1 } else { 2 },
            Refusal::EXTENDED_CARRIER => why.contains("Extended") && cursor == at + 1,
            Refusal::AUGMENTED => why.contains("Augmented") && (cursor == at + 19 || cursor == at + 21),
            _ => false,
        },
        (Theirs::Panics(why), Call::ChannelLen | Call::HeaderLen | Call::UpdateLen) => {
            r == Refusal { number: Refusal::AUGMENTED, offset: 0 } && why.contains("Augmented")
        }
        (Theirs::Panics(why), Call::Add) if block::added_reason(why, r.number) => r.offset == 0,
        (Theirs::Panics(why), _) => r.offset == 0 && written_reason(why, r.number),
        _ => false,
    }
}

/// The same of a write. The original writes field by field: it may meet the end of the window before what this port refuses, and it does not
/// mind the markers and counts of 7 and 8 in docs/DIFFERENCES.md, so that anything later may stop it.
fn written_reason(why: &str, number: u8) -> bool {
    let room = why.contains("would exceed buffer end") || why.contains("up to 64 bits");
    let wide = why.contains("value exceeds num_bits");
    match number {
        Refusal::WRITE_PAST_END => room,
        Refusal::VALUE_TOO_WIDE => room || wide,
        Refusal::AUGMENTED => room || why.contains("Augmented"),
        Refusal::LENGTH => why.contains("length_ind must be set"),
        Refusal::NULL_PDU => room || wide || why.contains("no meaning for Null PDU"),
        Refusal::ENCRYPTED_ADDRESS => room || wide || why.contains("Esi"),
        Refusal::NO_FRAME_18_PATTERN => room || why.contains("`None`"),
        Refusal::USAGE_MARKER | Refusal::DELAY_COUNT => true,
        _ => false,
    }
}

/// The difference that lets this port refuse what the original completes.
fn listed(c: &Case, answer: &[u64], cursor: usize, r: Refusal) -> Option<u8> {
    let w = c.window;
    let told = |d: Option<(u8, u8)>| d.filter(|(_, number)| r.number == *number).map(|(n, _)| n);
    match c.call {
        _ if r.number == Refusal::BAD_WINDOW => (w.end > 65536).then_some(1),
        Call::PeekBits => (r.number == Refusal::READ_PAST_END && w.pos as i128 + (c.numbers[0] as i64 as i128) < w.start as i128).then_some(2),
        Call::Read(k) => told(listed_read(k, cursor - w.pos, answer)).filter(|_| cursor == w.pos + r.offset && cursor == w.end),
        Call::Write(k) => told(listed_write(k, &c.numbers)),
        Call::Add => told(listed_write(Kind::Resource, &c.numbers)),
        Call::UpdateLen => {
            let total = (original::resource(&c.numbers).compute_header_len() as u64).saturating_add(c.numbers[25]);
            (r.number == Refusal::LENGTH && total > 488).then_some(9)
        }
        _ => None,
    }
}

impl Case {
    fn on_block(&self) -> OnBlock<'_> {
        OnBlock { bytes: &self.bytes, window: self.window, numbers: &self.numbers }
    }

    /// The row that it is counted in.
    pub fn name(&self) -> &'static str {
        match self.call {
            Call::ReadBits => "read_bits",
            Call::PeekBits => "peek_bits_posoffset",
            Call::WriteBits => "write_bits",
            Call::Read(Kind::Slotgrant) => "slot grant, read",
            Call::Write(Kind::Slotgrant) => "slot grant, written",
            Call::Read(Kind::Channel) => "channel allocation, read",
            Call::Write(Kind::Channel) => "channel allocation, written",
            Call::Read(Kind::Resource) => "MAC-RESOURCE, read",
            Call::Write(Kind::Resource) => "MAC-RESOURCE, written",
            Call::Read(Kind::Assign) => "ACCESS-ASSIGN, read",
            Call::Write(Kind::Assign) => "ACCESS-ASSIGN, written",
            Call::Read(Kind::Access) => "MAC-ACCESS, read",
            Call::Write(Kind::Access) => "MAC-ACCESS, written",
            Call::Read(Kind::Data) => "MAC-DATA, read",
            Call::Write(Kind::Data) => "MAC-DATA, written",
            Call::ChannelLen => "compute_len",
            Call::HeaderLen => "compute_header_len",
            Call::UpdateLen => "update_len_and_fill_ind",
            Call::Step => "block, step",
            Call::Add if Add::of(&self.numbers).whole_octets(self.window.pos, self.window.end) => "block, add of whole octets",
            Call::Add => "block, other adds",
            Call::Finish => "block, finish",
        }
    }

    pub fn class(&self) -> Class {
        let (theirs, cursor, left) = match original::buffer(&self.bytes, self.window) {
            None => (Theirs::NoWindow, self.window.pos, None),
            Some(mut b) => {
                let answer = theirs_or_panic(self, &mut b);
                (answer, b.get_raw_pos(), Some(b.into_bytes()))
            }
        };
        let mut s = self.bytes.clone();
        let Some(ours) = ours_on(self, &mut s) else { return Class::Wrong };
        let left = left.as_ref().unwrap_or(&self.bytes);
        match (theirs, ours) {
            (Theirs::Done(a), Ok((pos, b))) => {
                if a == b && cursor == pos && *left == s && (self.call.writes() || s == self.bytes) {
                    Class::Equal
                } else {
                    Class::Wrong
                }
            }
            (_, Ok(_)) => Class::Wrong,
            (_, Err(r)) if s != self.bytes || !cursor_kept(self, r) => Class::Wrong,
            (Theirs::Done(a), Err(r)) => listed(self, &a, cursor, r).map_or(Class::Wrong, Class::Listed),
            (theirs, Err(r)) => {
                let moved = cursor != self.window.pos || *left != self.bytes;
                match (same_reason(self, &theirs, cursor, r), moved, matches!(theirs, Theirs::Panics(_) | Theirs::NoWindow)) {
                    (false, _, _) => Class::Wrong,
                    (true, _, _) if matches!(theirs, Theirs::Rule(..)) => Class::Rule,
                    (true, false, false) => Class::Refused,
                    (true, true, false) => Class::Refused3,
                    (true, false, true) => Class::Refused5,
                    (true, true, true) => Class::Refused35,
                }
            }
        }
    }

    /// How large it is, for the smallest of several: bytes, then the widths of its numbers, then these and its ones.
    pub fn size(&self) -> (usize, u32, u64) {
        let w = self.window;
        let numbers = [w.start as u64, w.pos as u64, w.end as u64].into_iter().chain(self.numbers.iter().copied());
        let near = numbers.map(|v| if self.call == Call::PeekBits { v.min(!v) } else { v });
        let ones: u32 = self.bytes.iter().map(|b| b.count_ones()).sum();
        (self.bytes.len(), near.clone().map(|v| 64 - v.leading_zeros()).sum(), near.fold(ones as u64, u64::saturating_add))
    }

    /// A smaller case of the same class, as small as single steps make it.
    pub fn shrunk(mut self) -> Case {
        let class = self.class();
        while let Some(smaller) = self.steps().into_iter().find(|c| c.size() < self.size() && caught(|| Some(c.class())) == Some(class)) {
            self = smaller;
        }
        self
    }

    fn steps(&self) -> Vec<Case> {
        let mut all = Vec::new();
        let w = self.window;
        let n = self.bytes.len();
        for (from, to) in [(0, n / 2), (n / 2, n), (0, n.saturating_sub(1)), (1, n)] {
            if from < to || to == 0 {
                let shift = |v: usize| v.saturating_sub(8 * from).min(8 * (to - from.min(to)));
                let window = Window { start: shift(w.start), pos: shift(w.pos), end: shift(w.end) };
                let bytes = self.bytes.get(from..to).unwrap_or(&[]).to_vec();
                all.push(Case { bytes, window, ..self.clone() });
            }
        }
        if 0 < w.pos && w.pos <= w.end && w.end <= 8 * n {
            // the bits from the cursor on, from bit 0
            let bit = |i: usize| self.bytes[i / 8] >> (7 - i % 8) & 1;
            let mut bytes = vec![0u8; (w.end - w.pos).div_ceil(8)];
            (w.pos..w.end).for_each(|i| bytes[(i - w.pos) / 8] |= bit(i) << (7 - (i - w.pos) % 8));
            all.push(Case { bytes, window: Window { start: 0, pos: 0, end: w.end - w.pos }, ..self.clone() });
        }
        let less = |v: usize| v.saturating_sub(1);
        for (start, pos, end) in [
            (0, w.pos, w.end),
            (w.start, w.start, w.end),
            (w.start, w.pos, w.pos),
            (w.start, w.pos, less(w.end)),
            (w.start, less(w.pos), w.end),
            (less(w.start), less(w.pos), less(w.end)),
        ] {
            all.push(Case { window: Window { start, pos, end }, ..self.clone() });
        }
        for i in 0..8 * n {
            if self.bytes[i / 8] & (0x80 >> (i % 8)) != 0 {
                let mut c = self.clone();
                c.bytes[i / 8] ^= 0x80 >> (i % 8);
                all.push(c);
            }
        }
        for i in 0..self.numbers.len() {
            let v = self.numbers[i];
            for v in [0, 1, v / 2, v.saturating_sub(1), (v as i64 / 2) as u64, v.wrapping_add(1)] {
                let mut c = self.clone();
                c.numbers[i] = v;
                all.push(c);
            }
        }
        all
    }

    pub fn show(&self) -> String {
        let w = self.window;
        let numbers = self.numbers.iter().map(|v| if self.call == Call::PeekBits { (*v as i64).to_string() } else { v.to_string() });
        let numbers: Vec<String> = numbers.collect();
        format!("{}: {}, window {} {} {}, numbers {}", self.name(), hex(&self.bytes), w.start, w.pos, w.end, numbers.join(" "))
    }

    /// What both sides answer.
    pub fn answers(&self) -> String {
        let theirs = original::buffer(&self.bytes, self.window).map(|mut b| {
            let said = match theirs_or_panic(self, &mut b) {
                Theirs::Done(v) => format!("gives {v:?}"),
                Theirs::Panics(why) => format!("panics ({why})"),
                _ => "gives an error".to_string(),
            };
            format!("{said}, cursor {}, {}", b.get_raw_pos(), hex(&b.into_bytes()))
        });
        let mut s = self.bytes.clone();
        let ours = match ours_on(self, &mut s) {
            Some(Ok((cursor, v))) => format!("gives {v:?}, cursor {cursor}"),
            Some(Err(r)) => r.to_string(),
            None => "has no such value".to_string(),
        };
        format!("the original {}; this port {ours}, {}", theirs.unwrap_or("does not take the window".to_string()), hex(&s))
    }
}

fn hex(s: &[u8]) -> String {
    if s.len() > 40 {
        return format!("{} bytes", s.len());
    }
    format!("bytes {s:02x?}")
}
