//! At which bounds of well-formed a setting, a session or a state stands, and which rules it breaks. Written apart from
//! the reference's own tests, so that the two check each other.

use reference::numbers::Whole;
use reference::settings::Settings;
use reference::state::{Session, State};

const LARGEST: Whole = 4_294_967_295;
const MOST: Whole = 1_000_000_000;
const PERIODS: [Whole; 8] = [0, 2, 6, 60, 600, 6_000, 36_000, 360_000];

/// What is at a bound, and what breaks a rule; a break that is one past a bound has a name of its own.
#[derive(Default)]
pub struct Found {
    pub at: Vec<String>,
    pub broken: Vec<String>,
}

impl Found {
    /// Notes a value that stands at a bound.
    fn at(&mut self, stands: bool, name: impl Into<String>) {
        if stands {
            self.at.push(name.into());
        }
    }

    /// Notes a broken rule.
    fn broken(&mut self, breaks: bool, name: impl Into<String>) {
        if breaks {
            self.broken.push(name.into());
        }
    }

    /// A value with a least and a most: at either, one past either, or farther out.
    fn range(&mut self, name: &str, value: Whole, least: Whole, most: Whole) {
        self.at(value == least, format!("{name} least"));
        self.at(value == most, format!("{name} most"));
        self.broken(value < least, format!("{name} one below"));
        self.broken(value == most + 1, format!("{name} one above"));
        self.broken(value > most + 1, format!("{name} far above"));
    }
}

/// The period of a code; none for a bad code.
pub fn period(code: Whole) -> Option<Whole> {
    usize::try_from(code).ok().and_then(|place| PERIODS.get(place).copied()).filter(|ticks| *ticks > 0)
}

/// The hold time of a code; none for a bad code.
pub fn hold(code: Whole) -> Option<Whole> {
    period(code).map(|ticks| ticks * 7 / 2)
}

/// A setting's bounds.
pub fn of_settings(settings: &Settings) -> Found {
    let mut found = Found::default();
    found.range("level", settings.level, 0, 7);
    found.range("MEP ID", settings.mep_id, 1, 8_191);
    found.range("period code", settings.period_code, 1, 7);
    found.range("peer count", settings.peer_count, 1, 8);
    peer_ids(&mut found, settings);
    let group = |address: &[u8; 6]| address[0] & 1 == 1;
    found.broken(group(&settings.own_address), "own address group bit");
    found.broken(group(&settings.loss_peer), "loss peer group bit");
    let differing = settings.own_address.iter().zip(&settings.loss_peer).filter(|(a, b)| a != b).count();
    found.broken(differing == 0, "addresses equal");
    found.at(differing == 1, "addresses differ in one octet");
    found
}

/// The IDs in used slots, and the zeros in unused ones.
fn peer_ids(found: &mut Found, settings: &Settings) {
    let used = usize::try_from(settings.peer_count).unwrap_or(8).min(8);
    let (ids, unused) = settings.peers.split_at(used);
    for (slot, id) in ids.iter().enumerate() {
        found.range("peer ID", *id, 1, 8_191);
        found.broken(*id == settings.mep_id && *id != 0, "peer is the own ID");
        found.broken(ids[..slot].contains(id), "peer twice");
    }
    for id in unused {
        found.broken(*id != 0, "ID in an unused slot");
    }
}

/// A session's bounds.
pub fn of_session(session: &Session) -> Found {
    let mut found = Found::default();
    found.range("kept", session.kept, 0, 1);
    if session.kept == 0 {
        found.broken(session.intervals != 0, "interval while none is kept");
        let reading = session.reading;
        for (name, count) in
            [("TxFCf", reading.tx_fcf), ("RxFCf", reading.rx_fcf), ("TxFCb", reading.tx_fcb), ("ours", reading.ours)]
        {
            found.broken(count != 0, format!("{name} while none is kept"));
        }
    }
    let totals = of_totals(session.near_total, session.far_total, session.intervals);
    found.at.extend(totals.at);
    found.broken.extend(totals.broken);
    found
}

/// Intervals and totals, also those of a loss line.
pub fn of_totals(near: Whole, far: Whole, intervals: Whole) -> Found {
    let mut found = Found::default();
    for (value, name) in [(0, "0"), (1, "1"), (MOST - 1, "10^9 - 1"), (MOST, "10^9")] {
        found.at(intervals == value, format!("intervals {name}"));
    }
    found.broken(intervals == MOST + 1, "intervals 10^9 + 1");
    found.broken(intervals > MOST + 1, "intervals far above");
    let bound = intervals * LARGEST;
    for (name, total) in [("near total", near), ("far total", far)] {
        found.at(bound > 0 && total == bound, format!("{name} + bound"));
        found.at(bound > 0 && total == -bound, format!("{name} - bound"));
        found.broken(total == bound + 1, format!("{name} + bound + 1"));
        found.broken(total == -bound - 1, format!("{name} - bound - 1"));
        found.broken(total == -(1 << 63), format!("{name} -2^63"));
        found.broken(total > bound + 1 || (total < -bound - 1 && total != -(1 << 63)), format!("{name} far out"));
    }
    found
}

/// The timers of a state by name, each with its most. Empty where the period code is bad.
pub fn timers(state: &State) -> Vec<(String, Whole, Whole)> {
    let Some(most) = hold(state.settings.period_code) else {
        return vec![];
    };
    let peer = |(slot, timer): (usize, &Whole)| (format!("timer of slot {slot}"), *timer, most);
    let mut all: Vec<(String, Whole, Whole)> = state.peer_timers.iter().enumerate().map(peer).collect();
    all.push(("mismerge timer".into(), state.mismerge, most));
    all.push(("unexpected-MEP timer".into(), state.unexpected_mep, most));
    all.push(("unexpected-period timer".into(), state.unexpected_period, most));
    all.push(("unexpected-level timer".into(), state.unexpected_level, most));
    all.push(("AIS timer".into(), state.ais, 126_000));
    all.push(("LCK timer".into(), state.lck, 126_000));
    all
}

/// A state's bounds: its setting, timers, RDI, ticks and session.
pub fn of_state(state: &State) -> Found {
    let mut found = of_settings(&state.settings);
    for (name, value, most) in timers(state) {
        found.range(&name, value, 0, most);
    }
    if let Some(ticks) = period(state.settings.period_code) {
        found.range("ticks to the next CCM", state.ticks_to_ccm, 1, ticks);
    }
    let used = usize::try_from(state.settings.peer_count).unwrap_or(8).min(8);
    for (slot, rdi) in state.peer_rdi.iter().enumerate() {
        found.range(&format!("RDI of slot {slot}"), *rdi, 0, 1);
        if slot >= used {
            found.broken(*rdi == 1, "RDI in an unused slot");
            found.broken(state.peer_timers[slot] > 0, "timer in an unused slot");
        }
    }
    let session = of_session(&state.session);
    found.at.extend(session.at);
    found.broken.extend(session.broken);
    found
}
