// The twin: the end point as a good Rust program would have it, without proofs. It has the same seven arrays, the same duties and the same
// answers as the proved one, and none of its structure: one struct, early returns, slices, the standard library.

use crate::ffi::{Arrays, ConditionFlags, ConditionsTold, FrameTold, LineTold, LossLine, LossSession, LossTold, NewBox, RUN, Readings, SettingArrays, SettingsRead};
use crate::ffi::{Stamp, Written};
#[cfg(tlv)]
use crate::ffi::TlvTold;

// Where the words of `run` lie.
pub const MISMERGE: usize = 0;
pub const LEVEL: usize = 1;
pub const MEP: usize = 2;
pub const PERIOD: usize = 3;
pub const AIS: usize = 4;
pub const LCK: usize = 5;
pub const NEXT: usize = 6;
pub const SENT: usize = 7;
pub const RECEIVED: usize = 8;
pub const KEPT: usize = 9;
pub const READING: usize = 10; // TxFCf, RxFCf, TxFCb, our received count
pub const INTERVALS: usize = 14;

pub const TICKS: [u32; 8] = [0, 2, 6, 60, 600, 6_000, 36_000, 360_000];
pub const HOLDS: [u32; 8] = [0, 7, 21, 210, 2_100, 21_000, 126_000, 1_260_000];
const ALARM_MOST: u32 = 126_000;
const INTERVALS_MOST: u32 = 1_000_000_000;
const NANOS_MOST: u32 = 999_999_999;

fn refused(refusal: u32) -> FrameTold {
    FrameTold { refusal, ..Default::default() }
}

fn dropped(drop: u32) -> FrameTold {
    FrameTold { drop, ..Default::default() }
}

fn done(done: u32) -> FrameTold {
    FrameTold { done, ..Default::default() }
}

impl Stamp {
    fn good(self) -> bool {
        self.nanoseconds <= NANOS_MOST
    }

    fn given(self) -> bool {
        self.seconds != 0 || self.nanoseconds != 0
    }

    fn nanos(self) -> i64 {
        self.seconds as i64 * 1_000_000_000 + self.nanoseconds as i64
    }

    fn read(f: &[u8], at: usize) -> Stamp {
        Stamp { seconds: be32(f, at), nanoseconds: be32(f, at + 4) }
    }

    fn write(self, out: &mut [u8], at: usize) {
        out[at..at + 4].copy_from_slice(&self.seconds.to_be_bytes());
        out[at + 4..at + 8].copy_from_slice(&self.nanoseconds.to_be_bytes());
    }
}

fn be32(f: &[u8], at: usize) -> u32 {
    u32::from_be_bytes(f[at..at + 4].try_into().unwrap())
}

impl Arrays {
    fn own(&self) -> &[u8] {
        &self.names[..6]
    }

    fn loss_peer(&self) -> &[u8] {
        &self.names[6..12]
    }

    fn meg(&self) -> &[u8] {
        &self.names[12..]
    }

    fn hold(&self) -> u32 {
        HOLDS[self.set[2] as usize & 7]
    }

    fn settings_valid(&self) -> bool {
        let [level, mep, period, count] = self.set;
        if level > 7 || mep < 1 || mep > 8191 || period < 1 || period > 7 || count < 1 || count > 8 {
            return false;
        }
        if self.names[0] & 1 != 0 || self.names[6] & 1 != 0 || self.own() == self.loss_peer() {
            return false;
        }
        let (used, rest) = self.ids.split_at(count as usize);
        for (i, &id) in used.iter().enumerate() {
            if id < 1 || id > 8191 || id == mep || used[i + 1..].contains(&id) {
                return false;
            }
        }
        rest.iter().all(|&id| id == 0)
    }

    fn session_good(&self) -> bool {
        let (kept, intervals) = (self.run[KEPT], self.run[INTERVALS]);
        if kept > 1 || !line_good(self.totals[0], self.totals[1], intervals) {
            return false;
        }
        kept == 1 || (intervals == 0 && self.run[READING..READING + 4] == [0; 4])
    }

    fn well_formed(&self) -> bool {
        if !self.settings_valid() {
            return false;
        }
        let hold = self.hold();
        let count = self.set[3] as usize;
        if self.timers.iter().any(|&t| t > hold) || self.rdi.iter().any(|&r| r > 1) {
            return false;
        }
        if self.timers[count..].iter().any(|&t| t != 0) || self.rdi[count..].iter().any(|&r| r != 0) {
            return false;
        }
        if self.run[..AIS].iter().any(|&t| t > hold) || self.run[AIS] > ALARM_MOST || self.run[LCK] > ALARM_MOST {
            return false;
        }
        let next = self.run[NEXT];
        if next < 1 || next > TICKS[self.set[2] as usize & 7] {
            return false;
        }
        self.session_good()
    }

    // D4 to D7 of a frame at its level, D7 of a delay reply's stamps left to its handler.
    fn fault(&self, f: &[u8], level: u8, rule: Rule) -> Option<u32> {
        if f[17] < rule.least {
            return Some(4);
        }
        if !ends(f, 18 + f[17] as usize) {
            return Some(5);
        }
        let to = &f[..6];
        if to != self.own() && !(rule.multicast && to[..5] == [0x01, 0x80, 0xc2, 0, 0] && to[5] == 0x30 + level) {
            return Some(6);
        }
        if rule.request && f[6] & 1 != 0 {
            return Some(6);
        }
        if f[15] == 42 && f[6..12] != *self.loss_peer() {
            return Some(6);
        }
        let code = f[16] & 7;
        match f[15] {
            1 if code == 0 => Some(7),
            33 | 35 if code != 4 && code != 6 => Some(7),
            _ => None,
        }
    }

    fn ccm(&mut self, f: &[u8]) -> FrameTold {
        let hold = self.hold();
        let id = u16::from_be_bytes([f[22], f[23]]) as u32 & 8191;
        if f[24..72] != *self.meg() {
            self.run[MISMERGE] = hold;
        } else if let Some(k) = self.ids[..self.set[3] as usize].iter().position(|&p| p == id) {
            self.timers[k] = hold;
            self.rdi[k] = (f[16] >> 7) as u32;
            if (f[16] & 7) as u32 != self.set[2] {
                self.run[PERIOD] = hold;
            }
        } else {
            self.run[MEP] = hold;
        }
        done(2)
    }

    fn loss_reply(&mut self, f: &[u8]) -> FrameTold {
        let now = [be32(f, 18), be32(f, 22), be32(f, 26), self.run[RECEIVED]];
        let mut told = done(4);
        if self.run[KEPT] == 0 {
            self.run[KEPT] = 1;
        } else {
            if self.run[INTERVALS] == INTERVALS_MOST {
                return refused(5);
            }
            let grown = |i: usize| now[i].wrapping_sub(self.run[READING + i]) as i64;
            told.done = 5;
            told.far = grown(0) - grown(1);
            told.near = grown(2) - grown(3);
            self.totals[0] += told.near;
            self.totals[1] += told.far;
            self.run[INTERVALS] += 1;
        }
        self.run[READING..READING + 4].copy_from_slice(&now);
        told
    }

    fn delay_reply(&self, f: &[u8], here: Stamp) -> FrameTold {
        let (txf, rxf, txb) = (Stamp::read(f, 18), Stamp::read(f, 26), Stamp::read(f, 34));
        if !txf.good() || !here.given() {
            return dropped(7);
        }
        let all = here.nanos() - txf.nanos();
        if !rxf.given() || !txb.given() {
            return FrameTold { done: 6, two_way: all, ..Default::default() };
        }
        if !rxf.good() || !txb.good() {
            return dropped(7);
        }
        FrameTold {
            done: 7,
            two_way: all - (txb.nanos() - rxf.nanos()),
            one_way_far: rxf.nanos() - txf.nanos(),
            one_way_near: here.nanos() - txb.nanos(),
            ..Default::default()
        }
    }

    fn reply(&self, f: &[u8], receive: Stamp, transmit: Stamp, out: &mut [u8]) -> FrameTold {
        let n = f.len();
        if out.len() < n {
            return refused(3);
        }
        let out = &mut out[..n];
        out.copy_from_slice(f);
        out[..6].copy_from_slice(&f[6..12]);
        out[6..12].copy_from_slice(self.own());
        out[15] = f[15] - 1;
        if f[15] == 43 {
            out[22..26].copy_from_slice(&self.run[RECEIVED].to_be_bytes());
            out[26..30].copy_from_slice(&self.run[SENT].to_be_bytes());
        } else if f[15] == 47 {
            receive.write(out, 26);
            transmit.write(out, 34);
        }
        FrameTold { done: 3, length: n, ..Default::default() }
    }

    pub fn on_frame(&mut self, active: bool, f: &[u8], receive: Stamp, transmit: Stamp, out: &mut [u8]) -> FrameTold {
        if !self.well_formed() {
            return refused(2);
        }
        if f.len() < 14 || f.len() > 1514 {
            return refused(1);
        }
        if !receive.good() || !transmit.good() {
            return refused(6);
        }
        if f[12..14] != [0x89, 0x02] {
            let count = &mut self.run[if active { RECEIVED } else { SENT }];
            *count = count.wrapping_add(1);
            return done(1);
        }
        if f.len() < 18 {
            return dropped(1);
        }
        let level = f[14] >> 5;
        let own = self.set[0] as u8;
        if level > own {
            return done(1);
        }
        if !active {
            return dropped(2);
        }
        let Some(rule) = Rule::of(f[15]) else {
            return dropped(if level < own { 2 } else { 3 });
        };
        if level < own {
            if f[15] == 1 && self.fault(f, level, rule).is_none() {
                self.run[LEVEL] = self.hold();
            }
            return dropped(2);
        }
        if let Some(drop) = self.fault(f, level, rule) {
            return dropped(drop);
        }
        match f[15] {
            1 => self.ccm(f),
            33 => {
                self.run[AIS] = HOLDS[(f[16] & 7) as usize];
                done(2)
            }
            35 => {
                self.run[LCK] = HOLDS[(f[16] & 7) as usize];
                done(2)
            }
            42 => self.loss_reply(f),
            46 => self.delay_reply(f, receive),
            _ => self.reply(f, receive, transmit, out),
        }
    }

    pub fn tick(&mut self, out: &mut [u8]) -> Written {
        if !self.well_formed() {
            return Written { refusal: 2, length: 0 };
        }
        let last = self.run[NEXT] == 1;
        if last && out.len() < 89 {
            return Written { refusal: 3, length: 0 };
        }
        for t in &mut self.timers {
            *t = t.saturating_sub(1);
        }
        for t in &mut self.run[..NEXT] {
            *t = t.saturating_sub(1);
        }
        if !last {
            self.run[NEXT] -= 1;
            return Written { refusal: 0, length: 0 };
        }
        self.run[NEXT] = TICKS[self.set[2] as usize & 7];
        let lost = self.timers[..self.set[3] as usize].contains(&0);
        let rdi = lost || self.run[..NEXT].iter().any(|&t| t > 0);
        let out = &mut out[..89];
        out[..5].copy_from_slice(&[0x01, 0x80, 0xc2, 0, 0]);
        out[5] = 0x30 + self.set[0] as u8;
        out[6..12].copy_from_slice(self.own());
        out[12..14].copy_from_slice(&[0x89, 0x02]);
        out[14] = (self.set[0] as u8) << 5;
        out[15] = 1;
        out[16] = self.set[2] as u8 | (rdi as u8) << 7;
        out[17] = 70;
        out[18..22].fill(0);
        out[22..24].copy_from_slice(&(self.set[1] as u16).to_be_bytes());
        out[24..72].copy_from_slice(self.meg());
        out[72..].fill(0);
        Written { refusal: 0, length: 89 }
    }
    // A message of version 1 to the loss peer, its fixed part and flags zero, and the End TLV.
    fn request<'a>(&self, out: &'a mut [u8], opcode: u8, offset: u8) -> &'a mut [u8] {
        let out = &mut out[..19 + offset as usize];
        out[..6].copy_from_slice(self.loss_peer());
        out[6..12].copy_from_slice(self.own());
        out[12..18].copy_from_slice(&[0x89, 0x02, (self.set[0] as u8) << 5 | 1, opcode, 0, offset]);
        out[18..].fill(0);
        out
    }

    pub fn send_lmm(&self, out: &mut [u8]) -> Written {
        if !self.well_formed() {
            return Written { refusal: 2, length: 0 };
        }
        if out.len() < 31 {
            return Written { refusal: 3, length: 0 };
        }
        self.request(out, 43, 12)[18..22].copy_from_slice(&self.run[SENT].to_be_bytes());
        Written { refusal: 0, length: 31 }
    }

    pub fn send_dmm(&self, stamp: Stamp, out: &mut [u8]) -> Written {
        if !self.well_formed() {
            return Written { refusal: 2, length: 0 };
        }
        if !stamp.good() {
            return Written { refusal: 6, length: 0 };
        }
        if out.len() < 51 {
            return Written { refusal: 3, length: 0 };
        }
        stamp.write(self.request(out, 47, 32), 18);
        Written { refusal: 0, length: 51 }
    }

    // Settings as they lie at the front; the rest is not looked at.
    pub fn new_setting(&self) -> NewBox {
        if !self.settings_valid() {
            return NewBox { refusal: 4, arrays: NOTHING };
        }
        let mut arrays = Arrays { set: self.set, names: self.names, ids: self.ids, ..NOTHING };
        arrays.timers[..self.set[3] as usize].fill(self.hold());
        arrays.run[NEXT] = TICKS[self.set[2] as usize & 7];
        NewBox { refusal: 0, arrays }
    }

    pub fn clear(&mut self) -> u32 {
        if !self.well_formed() {
            return 2;
        }
        self.run[KEPT..].fill(0);
        self.totals = [0; 2];
        0
    }

    pub fn conditions(&self) -> ConditionsTold {
        if !self.well_formed() {
            return ConditionsTold { refusal: 2, ..Default::default() };
        }
        let stands = |at: usize| (self.run[at] > 0) as u32;
        let mut flags = ConditionFlags {
            mismerge: stands(MISMERGE),
            unexpected_mep: stands(MEP),
            unexpected_period: stands(PERIOD),
            unexpected_level: stands(LEVEL),
            ais: stands(AIS),
            lck: stands(LCK),
            ..Default::default()
        };
        for k in 0..self.set[3] as usize {
            flags.lost[k] = (self.timers[k] == 0) as u32;
            flags.rdi[k] = self.rdi[k];
        }
        ConditionsTold { refusal: 0, conditions: flags }
    }

    pub fn write_settings(&self, into: &mut [u8]) -> Written {
        if !self.settings_valid() {
            return Written { refusal: 4, length: 0 };
        }
        let Some(into) = into.get_mut(..85) else { return Written { refusal: 3, length: 0 } };
        into[..4].copy_from_slice(&[83, 0, 1, 0]);
        into[4] = self.set[0] as u8;
        into[5..7].copy_from_slice(&(self.set[1] as u16).to_le_bytes());
        into[7..13].copy_from_slice(self.own());
        into[13] = self.set[2] as u8;
        into[14..62].copy_from_slice(self.meg());
        into[62..68].copy_from_slice(self.loss_peer());
        into[68] = self.set[3] as u8;
        for (to, id) in into[69..].chunks_exact_mut(2).zip(self.ids) {
            to.copy_from_slice(&(id as u16).to_le_bytes());
        }
        Written { refusal: 0, length: 85 }
    }
}

// A box that was never set.
pub const NOTHING: Arrays = Arrays { set: [0; 4], names: [0; 60], ids: [0; 8], timers: [0; 8], rdi: [0; 8], run: [0; RUN], totals: [0; 2] };

// The rules on totals and intervals, of a session and of a stored line.
fn line_good(near: i64, far: i64, intervals: u32) -> bool {
    let most = intervals as u64 * 4_294_967_295;
    intervals <= INTERVALS_MOST && near.unsigned_abs() <= most && far.unsigned_abs() <= most
}

pub fn read_settings(from: &[u8]) -> SettingsRead {
    let refused = SettingsRead { refusal: 7, settings: SettingArrays { set: [0; 4], names: [0; 60], ids: [0; 8] } };
    let Some(from) = from.get(..85) else { return refused };
    if from[..4] != [83, 0, 1, 0] {
        return refused;
    }
    let mut read = Arrays { set: [from[4] as u32, le16(from, 5), from[13] as u32, from[68] as u32], ..NOTHING };
    read.names[..6].copy_from_slice(&from[7..13]);
    read.names[6..12].copy_from_slice(&from[62..68]);
    read.names[12..].copy_from_slice(&from[14..62]);
    read.ids = std::array::from_fn(|i| le16(from, 69 + 2 * i));
    if !read.settings_valid() {
        return refused;
    }
    SettingsRead { refusal: 0, settings: SettingArrays { set: read.set, names: read.names, ids: read.ids } }
}

fn le16(f: &[u8], at: usize) -> u32 {
    u16::from_le_bytes([f[at], f[at + 1]]) as u32
}

pub fn read_line(from: &[u8]) -> LineTold {
    let refused = LineTold { refusal: 7, ..Default::default() };
    let Some(from) = from.get(..24) else { return refused };
    let near = i64::from_le_bytes(from[4..12].try_into().unwrap());
    let far = i64::from_le_bytes(from[12..20].try_into().unwrap());
    let intervals = u32::from_le_bytes(from[20..].try_into().unwrap());
    if from[..4] != [22, 0, 2, 0] || !line_good(near, far, intervals) {
        return refused;
    }
    LineTold { refusal: 0, intervals, near, far }
}

pub fn write_line(into: &mut [u8], line: LossLine) -> Written {
    if !line_good(line.near, line.far, line.intervals) {
        return Written { refusal: 4, length: 0 };
    }
    let Some(into) = into.get_mut(..24) else { return Written { refusal: 3, length: 0 } };
    into[..4].copy_from_slice(&[22, 0, 2, 0]);
    into[4..12].copy_from_slice(&line.near.to_le_bytes());
    into[12..20].copy_from_slice(&line.far.to_le_bytes());
    into[20..].copy_from_slice(&line.intervals.to_le_bytes());
    Written { refusal: 0, length: 24 }
}

impl LossSession {
    fn good(&self) -> bool {
        self.kept <= 1
            && line_good(self.near, self.far, self.intervals)
            && (self.kept == 1 || (self.intervals == 0 && self.last == Readings::default()))
    }

    pub fn measured(&mut self, now: Readings) -> LossTold {
        if !self.good() {
            return LossTold { refusal: 2, ..Default::default() };
        }
        let mut told = LossTold::default();
        if self.kept == 1 {
            if self.intervals == INTERVALS_MOST {
                return LossTold { refusal: 5, ..Default::default() };
            }
            let grown = |now: u32, last: u32| now.wrapping_sub(last) as i64;
            told.far = grown(now.txf, self.last.txf) - grown(now.rxf, self.last.rxf);
            told.near = grown(now.txb, self.last.txb) - grown(now.ours, self.last.ours);
            self.near += told.near;
            self.far += told.far;
            self.intervals += 1;
        }
        self.kept = 1;
        self.last = now;
        told
    }
}

// What is asked of a message that is handled.
#[derive(Clone, Copy)]
struct Rule {
    least: u8,
    multicast: bool,
    request: bool,
}

impl Rule {
    fn of(opcode: u8) -> Option<Rule> {
        let (least, multicast, request) = match opcode {
            1 => (70, true, false),
            3 => (4, true, true),
            33 | 35 => (0, true, false),
            42 => (12, false, false),
            43 => (12, true, true),
            46 => (32, false, false),
            47 => (32, true, true),
            _ => return None,
        };
        Some(Rule { least, multicast, request })
    }
}

// Whether the TLVs from a place on are whole, up to the End TLV.
fn ends(f: &[u8], from: usize) -> bool {
    let mut at = from;
    loop {
        match f.get(at) {
            None => return false,
            Some(0) => return true,
            Some(_) => {
                let Some(length) = f.get(at + 1..at + 3) else { return false };
                at += 3 + u16::from_be_bytes([length[0], length[1]]) as usize;
                if at > f.len() {
                    return false;
                }
            }
        }
    }
}

// The first TLV of a type, and what the reader tests before it.
#[cfg(tlv)]
pub fn find_tlv(f: &[u8], kind: u8) -> TlvTold {
    let dropped = |drop: u32| TlvTold { drop, ..Default::default() };
    if f.len() < 14 || f.len() > 1514 {
        return TlvTold { refusal: 1, ..Default::default() };
    }
    if f[12..14] != [0x89, 0x02] {
        return dropped(3);
    }
    if f.len() < 18 {
        return dropped(1);
    }
    let least = match f[15] {
        2 => 4,
        opcode => match Rule::of(opcode) {
            Some(rule) => rule.least,
            None => return dropped(3),
        },
    };
    if f[17] < least {
        return dropped(4);
    }
    let (mut at, mut found) = (18 + f[17] as usize, TlvTold::default());
    loop {
        match f.get(at) {
            None => return dropped(5),
            Some(0) => return found,
            Some(&k) => {
                let Some(length) = f.get(at + 1..at + 3) else { return dropped(5) };
                let length = u16::from_be_bytes([length[0], length[1]]) as usize;
                if at + 3 + length > f.len() {
                    return dropped(5);
                }
                if k == kind && found.value == 0 {
                    found = TlvTold { value: 1, start: at + 3, length, ..Default::default() };
                }
                at += 3 + length;
            }
        }
    }
}
