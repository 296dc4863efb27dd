//! A builder of frames of every opcode, good ones first.

use crate::random::Random;
use crate::states::{unicast, Setting};

pub const CCM: u8 = 1;
pub const LBR: u8 = 2;
pub const LBM: u8 = 3;
pub const AIS: u8 = 33;
pub const LCK: u8 = 35;
pub const LMR: u8 = 42;
pub const LMM: u8 = 43;
pub const DMR: u8 = 46;
pub const DMM: u8 = 47;
pub const TABLE: [u8; 9] = [CCM, LBR, LBM, AIS, LCK, LMR, LMM, DMR, DMM];
pub const HANDLED: [u8; 8] = [CCM, LBM, AIS, LCK, LMR, LMM, DMR, DMM];
pub const FOREIGN: [u8; 14] = [0, 4, 5, 32, 34, 36, 37, 39, 41, 44, 45, 48, 55, 255];

/// The TLV offset of an opcode.
pub fn least(opcode: u8) -> usize {
    match opcode {
        CCM => 70,
        LBR | LBM => 4,
        LMR | LMM => 12,
        DMR | DMM => 32,
        _ => 0,
    }
}

#[derive(Clone)]
pub struct Message {
    pub to: [u8; 6],
    pub from: [u8; 6],
    pub ether_type: [u8; 2],
    pub level: u8,
    pub version: u8,
    pub opcode: u8,
    pub flags: u8,
    pub offset: u8,
    pub fixed: Vec<u8>,
    pub tail: Vec<u8>,
}

impl Message {
    /// The frame.
    pub fn octets(&self) -> Vec<u8> {
        let mut out = self.to.to_vec();
        out.extend(self.from);
        out.extend(self.ether_type);
        out.extend([self.level.wrapping_mul(32) | (self.version % 32), self.opcode, self.flags, self.offset]);
        out.extend(&self.fixed);
        out.extend(&self.tail);
        out
    }

    /// The frame cut or filled up to a length.
    pub fn octets_of_length(&self, random: &mut Random, length: usize) -> Vec<u8> {
        let mut out = self.octets();
        let more = length.saturating_sub(out.len());
        out.extend(random.octets(more));
        out.truncate(length);
        out
    }

    /// Sets the TLV offset and makes the fixed part that long.
    pub fn with_offset(mut self, random: &mut Random, offset: usize) -> Message {
        let more = offset.saturating_sub(self.fixed.len());
        self.fixed.extend(random.octets(more));
        self.fixed.truncate(offset);
        self.offset = u8::try_from(offset).unwrap_or(u8::MAX);
        self
    }

    /// Nothing but the End TLV behind the fixed part.
    pub fn bare(mut self) -> Message {
        self.tail = vec![0];
        self
    }

    /// Other TLVs and all that follows them.
    pub fn with_tail(mut self, tail: Vec<u8>) -> Message {
        self.tail = tail;
        self
    }

    /// Lays octets over the fixed part.
    pub fn with_fixed(mut self, from: usize, octets: &[u8]) -> Message {
        for (target, octet) in self.fixed.iter_mut().skip(from).zip(octets) {
            *target = *octet;
        }
        self
    }
}

/// The multicast address of a level.
pub fn multicast(level: u8) -> [u8; 6] {
    [0x01, 0x80, 0xC2, 0, 0, 0x30 + level]
}

/// One TLV.
pub fn tlv(tlv_type: u8, value: &[u8]) -> Vec<u8> {
    let mut out = vec![tlv_type];
    out.extend(u16::try_from(value.len()).unwrap_or(0).to_be_bytes());
    out.extend(value);
    out
}

/// A row of few TLVs, the End TLV, and now and then padding that looks like TLVs.
pub fn tail(random: &mut Random) -> Vec<u8> {
    let mut out = Vec::new();
    for _ in 0..random.below(3) {
        let length = random.below(6);
        let value = random.octets(length);
        let tlv_type = random.of(&[1, 3, 3, 31, 32, 36, 255]);
        out.extend(tlv(tlv_type, &value));
    }
    out.push(0);
    if random.one_in(3) {
        let length = random.below(9);
        out.extend(random.octets(length));
    }
    out
}

/// May an opcode come by multicast?
fn multicast_allowed(opcode: u8) -> bool {
    matches!(opcode, CCM | LBM | AIS | LCK | LMM | DMM)
}

/// A message of an opcode that a box of this setting takes, at its own level.
pub fn good(random: &mut Random, setting: &Setting, opcode: u8) -> Message {
    let by_multicast = multicast_allowed(opcode) && random.one_in(2);
    let message = Message {
        to: if by_multicast { multicast(setting.level) } else { setting.own },
        from: if opcode == LMR { setting.loss_peer } else { unicast(random) },
        ether_type: [0x89, 0x02],
        level: setting.level,
        version: random.of(&[0, 0, 1, 2, 31]),
        opcode,
        flags: flags(random, setting, opcode),
        offset: u8::try_from(least(opcode)).unwrap_or(0),
        fixed: fixed(random, setting, opcode),
        tail: tail(random),
    };
    if random.one_in(4) {
        let more = random.below(5);
        return message.with_offset(random, least(opcode) + more);
    }
    message
}

/// Good flags: the own period in a CCM, 4 or 6 in AIS and LCK, any in the others; reserved bits as they fall.
fn flags(random: &mut Random, setting: &Setting, opcode: u8) -> u8 {
    let reserved = random.of(&[0, 0, 0x08, 0x78]);
    let rdi = random.of(&[0, 0x80]);
    match opcode {
        CCM => rdi | reserved | setting.code,
        AIS | LCK => rdi | reserved | random.of(&[4, 6]),
        _ => random.of(&[0, 0, 1, 255]),
    }
}

/// A good fixed part.
fn fixed(random: &mut Random, setting: &Setting, opcode: u8) -> Vec<u8> {
    match opcode {
        CCM => ccm_fixed(random, setting),
        DMM | DMR => dmr_fixed(random),
        _ => random.octets(least(opcode)),
    }
}

/// Sequence, a peer's MEP ID, our MEG ID, counts, reserved.
fn ccm_fixed(random: &mut Random, setting: &Setting) -> Vec<u8> {
    let mut out = random.octets(4);
    let slot = random.below(setting.used());
    let reserved_bits = random.of(&[0, 0, 0x2000, 0x8000, 0xE000_u16]);
    out.extend((setting.peers[slot] | reserved_bits).to_be_bytes());
    out.extend(setting.meg);
    out.extend(random.octets(16));
    out
}

/// A stamp on the wire.
pub fn stamp_octets((seconds, nanoseconds): (u32, u32)) -> Vec<u8> {
    [seconds.to_be_bytes(), nanoseconds.to_be_bytes()].concat()
}

/// A good stamp of random content.
pub fn good_stamp(random: &mut Random) -> (u32, u32) {
    let nanoseconds = u32::try_from(random.below(1_000_000_000)).unwrap_or(0);
    let nanoseconds = random.of(&[0, 1, 999_999_999, nanoseconds, nanoseconds]);
    let seconds = random.count();
    (random.of(&[seconds, seconds, 10, u32::MAX]), nanoseconds)
}

/// Three good stamps and reserved octets.
fn dmr_fixed(random: &mut Random) -> Vec<u8> {
    let mut out = Vec::new();
    for _ in 0..3 {
        out.extend(stamp_octets(good_stamp(random)));
    }
    out.extend(random.octets(8));
    out
}

/// A service frame.
pub fn service(random: &mut Random) -> Vec<u8> {
    let mut out = random.octets(12);
    let near_oam = [[0x08, 0x00], [0x81, 0x00], [0x88, 0xA8], [0x89, 0x01], [0x89, 0x03], [0x02, 0x89], [0x00, 0x2E]];
    out.extend(near_oam[random.below(near_oam.len())]);
    let length = random.below(9);
    out.extend(random.octets(length));
    out
}
