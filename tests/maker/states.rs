//! Settings, sessions and states as the octets of a run, and good ones of random content.

use crate::random::Random;

pub const SLOTS: usize = 8;
pub const MOST_INTERVALS: u32 = 1_000_000_000;
pub const ALARM_HOLD: u32 = 126_000;

/// The ticks of a period code; 1 for a code that is none.
pub fn period(code: u8) -> u32 {
    match code {
        1 => 2,
        2 => 6,
        3 => 60,
        4 => 600,
        5 => 6_000,
        6 => 36_000,
        7 => 360_000,
        _ => 1,
    }
}

/// Three and a half periods; 0 for a code that is none.
pub fn hold(code: u8) -> u32 {
    if (1..=7).contains(&code) {
        period(code) / 2 * 7
    } else {
        0
    }
}

/// The largest size of a total.
pub fn bound(intervals: u32) -> i64 {
    i64::from(intervals) * 4_294_967_295
}

#[derive(Clone)]
pub struct Setting {
    pub level: u8,
    pub mep_id: u16,
    pub own: [u8; 6],
    pub code: u8,
    pub meg: [u8; 48],
    pub loss_peer: [u8; 6],
    pub count: u8,
    pub peers: [u16; SLOTS],
}

impl Setting {
    /// A kind 1 record's body.
    pub fn octets(&self) -> Vec<u8> {
        let mut out = vec![self.level];
        out.extend(self.mep_id.to_le_bytes());
        out.extend(self.own);
        out.push(self.code);
        out.extend(self.meg);
        out.extend(self.loss_peer);
        out.push(self.count);
        out.extend(self.peers.iter().flat_map(|id| id.to_le_bytes()));
        out
    }

    /// How many slots are used; never more than there are.
    pub fn used(&self) -> usize {
        usize::from(self.count).min(SLOTS)
    }

    /// The same with another number of peers, unused slots 0.
    pub fn with_count(&self, random: &mut Random, count: usize) -> Setting {
        let mut other = self.clone();
        other.count = u8::try_from(count).unwrap_or(u8::MAX);
        let ids = distinct_ids(random, self.mep_id);
        for (slot, peer) in other.peers.iter_mut().enumerate() {
            *peer = if slot < count { ids[slot] } else { 0 };
        }
        other
    }
}

/// Eight IDs from 2 to 8,190, all different and none the own one.
fn distinct_ids(random: &mut Random, own: u16) -> [u16; SLOTS] {
    let mut ids = [0; SLOTS];
    let mut next = 2 + u16::try_from(random.below(900)).unwrap_or(0);
    for id in &mut ids {
        if next == own {
            next += 1;
        }
        *id = next;
        next += 1 + u16::try_from(random.below(900)).unwrap_or(0);
    }
    if random.one_in(2) {
        ids.reverse();
    }
    ids
}

/// An address without the group bit.
pub fn unicast(random: &mut Random) -> [u8; 6] {
    let mut address = [0; 6];
    for octet in &mut address {
        *octet = random.octet();
    }
    address[0] &= 0xFE;
    address
}

/// A good setting of a level and a period code.
pub fn good_setting(random: &mut Random, level: u8, code: u8, count: usize) -> Setting {
    let own = unicast(random);
    let mut loss_peer = unicast(random);
    loss_peer[5] = own[5] ^ (1 << random.below(8));
    let mut meg = [0; 48];
    for octet in meg.iter_mut().take(1 + random.below(48)) {
        *octet = random.octet();
    }
    let mep_id = 2 + u16::try_from(random.below(8_189)).unwrap_or(0);
    let empty = Setting { level, mep_id, own, code, meg, loss_peer, count: 0, peers: [0; SLOTS] };
    empty.with_count(random, count)
}

#[derive(Clone)]
pub struct Lent {
    pub kept: u8,
    pub reading: [u32; 4],
    pub near: i64,
    pub far: i64,
    pub intervals: u32,
}

impl Lent {
    /// 37 octets.
    pub fn octets(&self) -> Vec<u8> {
        let mut out = vec![self.kept];
        out.extend(self.reading.iter().flat_map(|count| count.to_le_bytes()));
        out.extend(self.near.to_le_bytes());
        out.extend(self.far.to_le_bytes());
        out.extend(self.intervals.to_le_bytes());
        out
    }
}

/// A session that was cleared.
pub fn cleared() -> Lent {
    Lent { kept: 0, reading: [0; 4], near: 0, far: 0, intervals: 0 }
}

/// A good session in which a reading is kept.
pub fn kept_session(random: &mut Random, intervals: u32) -> Lent {
    let reading = [random.count(), random.count(), random.count(), random.count()];
    let within = |value: u64| i64::try_from(value % (bound(intervals).unsigned_abs() + 1)).unwrap_or(0);
    let near = within(random.next());
    let far = within(random.next());
    let near = if random.one_in(2) { -near } else { near };
    let far = if random.one_in(2) { -far } else { far };
    Lent { kept: 1, reading, near, far, intervals }
}

#[derive(Clone)]
pub struct State {
    pub setting: Setting,
    pub sent: u32,
    pub received: u32,
    pub timers: [u32; SLOTS],
    pub rdi: [u8; SLOTS],
    /// Mismerge, unexpected MEP, unexpected period, unexpected level.
    pub own_hold: [u32; 4],
    /// AIS, LCK.
    pub alarms: [u32; 2],
    pub ticks: u32,
    pub session: Lent,
}

impl State {
    /// 194 octets.
    pub fn octets(&self) -> Vec<u8> {
        let mut out = self.setting.octets();
        out.extend(self.sent.to_le_bytes());
        out.extend(self.received.to_le_bytes());
        out.extend(self.timers.iter().flat_map(|timer| timer.to_le_bytes()));
        out.extend(self.rdi);
        out.extend(self.own_hold.iter().flat_map(|timer| timer.to_le_bytes()));
        out.extend(self.alarms.iter().flat_map(|timer| timer.to_le_bytes()));
        out.extend(self.ticks.to_le_bytes());
        out.extend(self.session.octets());
        out
    }

    /// The same state around another setting: timers cut to its hold time, unused slots bare, ticks within its period.
    pub fn with_setting(&self, setting: &Setting) -> State {
        let mut other = self.clone();
        other.setting = setting.clone();
        let most = hold(setting.code);
        for slot in 0..SLOTS {
            let used = slot < setting.used();
            other.timers[slot] = if used { self.timers[slot].min(most) } else { 0 };
            other.rdi[slot] = if used { self.rdi[slot] } else { 0 };
        }
        other.own_hold = self.own_hold.map(|timer| timer.min(most));
        other.ticks = self.ticks.clamp(1, period(setting.code));
        other
    }
}

/// A timer of 0, 1, the most or something between.
pub fn timer(random: &mut Random, most: u32) -> u32 {
    let between = u32::try_from(random.below(most as usize + 1)).unwrap_or(0);
    random.of(&[0, 0, 1, most, between])
}

/// A good state of random content around a good setting.
pub fn good_state(random: &mut Random, setting: &Setting) -> State {
    let most = hold(setting.code);
    let intervals = u32::try_from(random.below(1_000)).unwrap_or(0);
    let session = if random.one_in(3) { cleared() } else { kept_session(random, intervals) };
    let full = State {
        setting: setting.clone(),
        sent: random.count(),
        received: random.count(),
        timers: std::array::from_fn(|_| timer(random, most)),
        rdi: std::array::from_fn(|_| random.octet() % 2),
        own_hold: std::array::from_fn(|_| timer(random, most)),
        alarms: std::array::from_fn(|_| timer(random, ALARM_HOLD)),
        ticks: 1 + u32::try_from(random.below(period(setting.code) as usize)).unwrap_or(0),
        session,
    };
    full.with_setting(setting)
}

/// A good state with nothing wrong: every peer seen, no other condition, a period to run.
pub fn quiet_state(random: &mut Random, setting: &Setting) -> State {
    let mut state = good_state(random, setting);
    state.timers = [hold(setting.code); SLOTS];
    state.rdi = [0; SLOTS];
    state.own_hold = [0; 4];
    state.alarms = [0; 2];
    state.ticks = period(setting.code);
    state.with_setting(setting)
}
