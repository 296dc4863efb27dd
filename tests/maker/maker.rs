//! The run that is being made: one function for each call of the table in REPLAY.md.

use crate::random::Random;
use crate::states::{Lent, Setting, State};

pub const ACTIVE: u8 = 0;
pub const PASSIVE: u8 = 1;
pub type Stamp = (u32, u32);

pub struct Maker {
    pub random: Random,
    calls: Vec<Vec<u8>>,
}

impl Maker {
    /// An empty run.
    pub fn new(seed: u64) -> Maker {
        Maker { random: Random::new(seed), calls: Vec::new() }
    }

    /// How many calls it has.
    pub fn count(&self) -> usize {
        self.calls.len()
    }

    /// The octets of the first calls.
    pub fn octets(&self, count: usize) -> Vec<u8> {
        self.calls.iter().take(count).flatten().copied().collect()
    }

    /// "a two-octet length L of all that follows it, a two-octet call number, the body".
    fn call(&mut self, number: u16, body: &[u8]) {
        let length = u16::try_from(body.len() + 2).unwrap_or(2);
        let mut framed = length.to_le_bytes().to_vec();
        framed.extend(number.to_le_bytes());
        framed.extend(body);
        self.calls.push(framed);
    }

    /// A call with a buffer in front of its body.
    fn call_with_buffer(&mut self, number: u16, buffer: usize, rest: &[u8]) {
        let mut body = u16::try_from(buffer).unwrap_or(0).to_le_bytes().to_vec();
        body.extend(rest);
        self.call(number, &body);
    }

    /// 257: a new setting.
    pub fn new_setting(&mut self, setting: &Setting) {
        self.call(257, &setting.octets());
    }

    /// 258: a frame on a side, with the receive and the send stamp.
    pub fn frame(&mut self, side: u8, buffer: usize, stamps: [Stamp; 2], frame: &[u8]) {
        let mut body = vec![side];
        body.extend(u16::try_from(buffer).unwrap_or(0).to_le_bytes());
        for (seconds, nanoseconds) in stamps {
            body.extend(seconds.to_le_bytes());
            body.extend(nanoseconds.to_le_bytes());
        }
        body.extend(frame);
        self.call(258, &body);
    }

    /// 259: a tick.
    pub fn tick(&mut self, buffer: usize) {
        self.call_with_buffer(259, buffer, &[]);
    }

    /// 260: a clear of the session in the state.
    pub fn clear(&mut self) {
        self.call(260, &[]);
    }

    /// 261: ask for an LMM.
    pub fn send_lmm(&mut self, buffer: usize) {
        self.call_with_buffer(261, buffer, &[]);
    }

    /// 262: ask for a DMM.
    pub fn send_dmm(&mut self, buffer: usize, stamp: Stamp) {
        let body = [stamp.0.to_le_bytes(), stamp.1.to_le_bytes()].concat();
        self.call_with_buffer(262, buffer, &body);
    }

    /// 263: put a state, good or bad.
    pub fn put_state(&mut self, state: &State) {
        self.call(263, &state.octets());
    }

    /// 264: show the state.
    pub fn show_state(&mut self) {
        self.call(264, &[]);
    }

    /// 265: ask the reader for a TLV.
    pub fn ask_tlv(&mut self, tlv_type: u8, frame: &[u8]) {
        let mut body = vec![tlv_type];
        body.extend(frame);
        self.call(265, &body);
    }

    /// 266: put the lent session, good or bad.
    pub fn put_session(&mut self, session: &Lent) {
        self.call(266, &session.octets());
    }

    /// 267: four readings for the lent session.
    pub fn measure(&mut self, readings: [u32; 4]) {
        self.call(267, &readings.iter().flat_map(|count| count.to_le_bytes()).collect::<Vec<u8>>());
    }

    /// 268: read a settings record.
    pub fn read_settings(&mut self, octets: &[u8]) {
        self.call(268, octets);
    }

    /// 269: write a settings record.
    pub fn write_settings(&mut self, buffer: usize, setting: &Setting) {
        self.call_with_buffer(269, buffer, &setting.octets());
    }

    /// 270: read a loss line.
    pub fn read_loss_line(&mut self, octets: &[u8]) {
        self.call(270, octets);
    }

    /// 271: write a loss line.
    pub fn write_loss_line(&mut self, buffer: usize, session: &Lent) {
        self.call_with_buffer(271, buffer, &loss_line_body(session));
    }

    /// 272: ask for the conditions.
    pub fn conditions(&mut self) {
        self.call(272, &[]);
    }
}

/// "near 8 and far 8 (signed), intervals 4".
pub fn loss_line_body(session: &Lent) -> Vec<u8> {
    [&session.near.to_le_bytes()[..], &session.far.to_le_bytes(), &session.intervals.to_le_bytes()].concat()
}

/// A stored record.
pub fn record(kind: u16, length: u16, body: &[u8]) -> Vec<u8> {
    [&length.to_le_bytes()[..], &kind.to_le_bytes(), body].concat()
}
