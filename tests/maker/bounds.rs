//! Settings, sessions and states at each bound of well-formed and one past it, one field at a time.

use crate::random::Random;
use crate::states::{
    bound, cleared, hold, kept_session, period, Lent, Setting, State, ALARM_HOLD, MOST_INTERVALS, SLOTS,
};

/// A copy of a good thing with one change.
fn changed<T: Clone>(good: &T, change: impl FnOnce(&mut T)) -> T {
    let mut other = good.clone();
    change(&mut other);
    other
}

/// Every bound of a setting. The setting given has at least two and at most seven peers.
pub fn settings(random: &mut Random, good: &Setting) -> Vec<Setting> {
    let mut all = Vec::new();
    for level in [0, 7, 8, 255] {
        all.push(changed(good, |s| s.level = level));
    }
    for id in [0, 1, 8_191, 8_192] {
        all.push(changed(good, |s| s.mep_id = id));
    }
    for code in [0, 1, 7, 8] {
        all.push(changed(good, |s| s.code = code));
    }
    for count in [0, 1, 8] {
        all.push(good.with_count(random, count));
    }
    all.push(changed(&good.with_count(random, SLOTS), |s| s.count = 9));
    all.push(changed(&good.with_count(random, SLOTS), |s| s.count = 255));
    all.extend(peers(random, good));
    all.extend(addresses(random, good));
    all
}

/// Peers: each bound of an ID, twins, the own ID, a zero in a used slot, an ID in an unused one.
fn peers(random: &mut Random, good: &Setting) -> Vec<Setting> {
    let used = good.used();
    let slot = random.below(used);
    let twin = (slot + 1 + random.below(used - 1)) % used;
    let unused = used + random.below(SLOTS - used);
    let mut all = Vec::new();
    for id in [0, 1, 8_191, 8_192] {
        all.push(changed(good, |s| s.peers[slot] = id));
    }
    all.push(changed(good, |s| s.peers[slot] = s.mep_id));
    all.push(changed(good, |s| s.peers[slot] = s.peers[twin]));
    all.push(changed(good, |s| s.peers[used] = 8_190));
    all.push(changed(good, |s| s.peers[unused] = 1));
    let full = good.with_count(random, SLOTS);
    all.push(changed(&full, |s| s.peers[7] = s.peers[0]));
    all.push(changed(&full, |s| s.peers[7] = s.mep_id));
    all
}

/// Addresses: a group bit, two that are equal, two that differ in one octet, all zero.
fn addresses(random: &mut Random, good: &Setting) -> Vec<Setting> {
    let place = random.below(6);
    vec![
        changed(good, |s| s.own[0] |= 1),
        changed(good, |s| s.loss_peer[0] |= 1),
        changed(good, |s| s.loss_peer = s.own),
        changed(good, |s| {
            s.loss_peer = s.own;
            s.loss_peer[place] ^= 2;
        }),
        changed(good, |s| s.own = [0; 6]),
        changed(good, |s| s.loss_peer = [0; 6]),
        changed(good, |s| s.own[5] |= 1),
    ]
}

/// Every bound of a session; the totals' bounds for one interval number, which the round chooses.
pub fn sessions(random: &mut Random, round: usize) -> Vec<Lent> {
    let numbers = [0, 1, MOST_INTERVALS - 1, MOST_INTERVALS];
    let mut all = not_kept();
    all.extend(numbers.map(|intervals| kept_session(random, intervals)));
    all.extend(totals(random, numbers[1 + round % 3]));
    all.push(changed(&kept_session(random, 0), |s| s.near = [1, -1][round % 2]));
    all.push(changed(&kept_session(random, 0), |s| s.far = [-1, 1][round % 2]));
    let zero_totals = changed(&kept_session(random, 0), |s| s.intervals = MOST_INTERVALS + 1);
    all.push(zero_totals);
    let most = changed(&kept_session(random, 0), |s| s.intervals = u32::MAX);
    all.push(most);
    all.push(changed(&kept_session(random, 5), |s| s.kept = 2));
    all.push(changed(&kept_session(random, 5), |s| s.reading = [0; 4]));
    all
}

/// While no reading is kept: four zeros, each reading not zero, an interval, totals, and a bad octet for kept.
fn not_kept() -> Vec<Lent> {
    let mut all = vec![cleared(), changed(&cleared(), |s| s.intervals = 1)];
    for place in 0..4 {
        all.push(changed(&cleared(), |s| s.reading[place] = 1));
    }
    all.push(changed(&cleared(), |s| s.near = 1));
    all.push(changed(&cleared(), |s| s.far = -1));
    all.push(changed(&cleared(), |s| s.kept = 2));
    all.push(changed(&cleared(), |s| s.kept = 255));
    all
}

/// Both totals at both bounds, one past each, and at the ends of 64 bits.
fn totals(random: &mut Random, intervals: u32) -> Vec<Lent> {
    let most = bound(intervals);
    let mut all = Vec::new();
    for total in [most, -most, most + 1, -most - 1, i64::MIN] {
        all.push(changed(&kept_session(random, intervals), |s| s.near = total));
        all.push(changed(&kept_session(random, intervals), |s| s.far = total));
    }
    let ends = [i64::MAX, 1 << 62, -1 - (1 << 62)];
    let end = ends[random.below(ends.len())];
    all.push(changed(&kept_session(random, 1), |s| s.near = end));
    all
}

/// Every bound of the rest of a state, around a good setting and with a good session.
pub fn states(random: &mut Random, good: &State) -> Vec<State> {
    let most = hold(good.setting.code);
    let mut all = Vec::new();
    for place in 0..4 {
        all.push(changed(good, |s| s.own_hold[place] = most + 1));
    }
    for place in 0..2 {
        all.push(changed(good, |s| s.alarms[place] = ALARM_HOLD + 1));
    }
    for ticks in [0, 1, period(good.setting.code), period(good.setting.code) + 1] {
        all.push(changed(good, |s| s.ticks = ticks));
    }
    all.extend(peer_slots(random, good));
    all
}

/// All timers and RDI at their bounds at once, then one past it in every slot; and unused slots with a timer or RDI.
fn peer_slots(random: &mut Random, good: &State) -> Vec<State> {
    let most = hold(good.setting.code);
    let full = good.with_setting(&good.setting.with_count(random, SLOTS));
    let used = good.setting.used();
    let mut all = Vec::new();
    all.push(changed(&full, |s| {
        s.timers = [most; SLOTS];
        s.rdi = [1; SLOTS];
        s.own_hold = [most; 4];
        s.alarms = [ALARM_HOLD; 2];
    }));
    for slot in 0..SLOTS {
        all.push(changed(&full, |s| s.timers[slot] = most + 1));
        all.push(changed(&full, |s| s.rdi[slot] = 2));
    }
    let one = good.with_setting(&good.setting.with_count(random, 1));
    let slot = 1 + random.below(SLOTS - 1);
    all.push(changed(&one, |s| s.timers[slot] = 1));
    all.push(changed(&one, |s| s.rdi[slot] = 1));
    all.push(changed(good, |s| s.timers[used] = 1));
    all.push(changed(good, |s| s.rdi[used] = 1));
    all
}
