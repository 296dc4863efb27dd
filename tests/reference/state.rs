//! The state of the end point and the loss session in it, and when they are well formed.

use crate::answers::Refusal;
use crate::numbers::{
    hold_time, period_in_ticks, size, times, Whole, LARGEST_COUNT, LONGEST_ALARM_HOLD, MOST_INTERVALS,
};
use crate::octets::{little_endian, Stored};
use crate::settings::{settings_are_valid, Settings};

/// "readings are its three counts and our received count".
#[derive(Clone, Copy, PartialEq, Debug)]
pub struct Readings {
    pub tx_fcf: Whole,
    pub rx_fcf: Whole,
    pub tx_fcb: Whole,
    pub ours: Whole,
}

/// "a reading of four zeros".
pub const FOUR_ZEROS: Readings = Readings { tx_fcf: 0, rx_fcf: 0, tx_fcb: 0, ours: 0 };

/// A loss session. Kept is an octet: 1 while a reading is kept, 0 while none is.
#[derive(Clone, PartialEq, Debug)]
pub struct Session {
    pub kept: Whole,
    pub reading: Readings,
    pub near_total: Whole,
    pub far_total: Whole,
    pub intervals: Whole,
}

/// All that the end point remembers.
#[derive(Clone, PartialEq, Debug)]
pub struct State {
    pub settings: Settings,
    pub sent: Whole,
    pub received: Whole,
    pub peer_timers: [Whole; 8],
    pub peer_rdi: [Whole; 8],
    pub mismerge: Whole,
    pub unexpected_mep: Whole,
    pub unexpected_period: Whole,
    pub unexpected_level: Whole,
    pub ais: Whole,
    pub lck: Whole,
    pub ticks_to_ccm: Whole,
    pub session: Session,
}

impl Readings {
    /// Four little-endian counts.
    pub fn from_stored(stored: &mut Stored) -> Readings {
        Readings {
            tx_fcf: stored.number(4),
            rx_fcf: stored.number(4),
            tx_fcb: stored.number(4),
            ours: stored.number(4),
        }
    }
}

impl Session {
    /// "kept 1, four readings of 4, near 8, far 8, intervals 4".
    pub fn from_stored(stored: &mut Stored) -> Session {
        Session {
            kept: stored.number(1),
            reading: Readings::from_stored(stored),
            near_total: stored.signed_64(),
            far_total: stored.signed_64(),
            intervals: stored.number(4),
        }
    }

    /// The same 37 octets again.
    pub fn to_octets(&self) -> Vec<u8> {
        let mut octets = little_endian(self.kept, 1);
        octets.extend(little_endian(self.reading.tx_fcf, 4));
        octets.extend(little_endian(self.reading.rx_fcf, 4));
        octets.extend(little_endian(self.reading.tx_fcb, 4));
        octets.extend(little_endian(self.reading.ours, 4));
        octets.extend(little_endian(self.near_total, 8));
        octets.extend(little_endian(self.far_total, 8));
        octets.extend(little_endian(self.intervals, 4));
        octets
    }
}

impl State {
    /// The 194 octets in which a run puts and shows a state.
    pub fn from_stored(stored: &mut Stored) -> State {
        State {
            settings: Settings::from_stored(stored),
            sent: stored.number(4),
            received: stored.number(4),
            peer_timers: std::array::from_fn(|_| stored.number(4)),
            peer_rdi: std::array::from_fn(|_| stored.number(1)),
            mismerge: stored.number(4),
            unexpected_mep: stored.number(4),
            unexpected_period: stored.number(4),
            unexpected_level: stored.number(4),
            ais: stored.number(4),
            lck: stored.number(4),
            ticks_to_ccm: stored.number(4),
            session: Session::from_stored(stored),
        }
    }

    /// The same 194 octets again.
    pub fn to_octets(&self) -> Vec<u8> {
        let mut octets = self.settings.to_octets();
        octets.extend(little_endian(self.sent, 4));
        octets.extend(little_endian(self.received, 4));
        octets.extend(self.peer_timers.iter().flat_map(|timer| little_endian(*timer, 4)));
        octets.extend(self.peer_rdi.iter().flat_map(|rdi| little_endian(*rdi, 1)));
        octets.extend(little_endian(self.mismerge, 4));
        octets.extend(little_endian(self.unexpected_mep, 4));
        octets.extend(little_endian(self.unexpected_period, 4));
        octets.extend(little_endian(self.unexpected_level, 4));
        octets.extend(little_endian(self.ais, 4));
        octets.extend(little_endian(self.lck, 4));
        octets.extend(little_endian(self.ticks_to_ccm, 4));
        octets.extend(self.session.to_octets());
        octets
    }

    /// "an all-zero state, which is itself not well formed".
    pub fn all_zero() -> State {
        State::from_stored(&mut Stored::new(&[]))
    }

    /// The own hold time, by which all but the AIS and LCK timers are set and bounded.
    pub fn own_hold_time(&self) -> Whole {
        hold_time(self.settings.period_code)
    }
}

/// "A clear forgets the kept reading (four zeros) and sets both totals and the intervals to 0".
pub fn cleared_session() -> Session {
    Session { kept: 0, reading: FOUR_ZEROS, near_total: 0, far_total: 0, intervals: 0 }
}

/// "A new setting takes no old state; it starts with both service counts 0, a cleared session, RDI off and a full
/// period to run"; "Peer timers start at the hold time, the others at 0".
pub fn new_setting(settings: Settings) -> Result<State, Refusal> {
    if !settings_are_valid(&settings) {
        return Err(Refusal::BadSetting);
    }
    let hold = hold_time(settings.period_code);
    let mut peer_timers = [0; 8];
    for (slot, _) in settings.used_peers() {
        peer_timers[slot] = hold;
    }
    Ok(State {
        sent: 0,
        received: 0,
        peer_timers,
        peer_rdi: [0; 8],
        mismerge: 0,
        unexpected_mep: 0,
        unexpected_period: 0,
        unexpected_level: 0,
        ais: 0,
        lck: 0,
        ticks_to_ccm: period_in_ticks(settings.period_code),
        session: cleared_session(),
        settings,
    })
}

/// "Well formed means: ..."; the conditions one after another.
pub fn state_is_well_formed(state: &State) -> bool {
    settings_are_valid(&state.settings)
        && timers_are_within_hold_time(state)
        && ticks_to_ccm_are_good(state)
        && rdi_are_octets_0_or_1(state)
        && unused_slots_are_bare(state)
        && session_is_well_formed(&state.session)
}

/// "no timer above its hold time (AIS and LCK 126,000)".
fn timers_are_within_hold_time(state: &State) -> bool {
    let hold = state.own_hold_time();
    state.peer_timers.iter().all(|timer| *timer <= hold)
        && state.mismerge <= hold
        && state.unexpected_mep <= hold
        && state.unexpected_period <= hold
        && state.unexpected_level <= hold
        && state.ais <= LONGEST_ALARM_HOLD
        && state.lck <= LONGEST_ALARM_HOLD
}

/// "ticks to the next CCM from 1 to the period".
fn ticks_to_ccm_are_good(state: &State) -> bool {
    1 <= state.ticks_to_ccm && state.ticks_to_ccm <= period_in_ticks(state.settings.period_code)
}

/// "Kept and RDI are octets, 0 or 1 in a well-formed state or session".
fn rdi_are_octets_0_or_1(state: &State) -> bool {
    state.peer_rdi.iter().all(|rdi| *rdi <= 1)
}

/// "unused peer slots without timer or RDI".
fn unused_slots_are_bare(state: &State) -> bool {
    let bare = |slot: usize| state.peer_timers[slot] == 0 && state.peer_rdi[slot] == 0;
    state.settings.unused_peers().all(|(slot, _)| bare(slot))
}

/// "by the well-formed rules on intervals, reading and totals": these of the state's session, and all of a lent one.
pub fn session_is_well_formed(session: &Session) -> bool {
    session.kept <= 1
        && session.intervals <= MOST_INTERVALS
        && nothing_counted_while_none_is_kept(session)
        && totals_are_within_bounds(session.near_total, session.far_total, session.intervals)
}

/// "0 intervals and a reading of four zeros while none is kept".
fn nothing_counted_while_none_is_kept(session: &Session) -> bool {
    session.kept != 0 || (session.intervals == 0 && session.reading == FOUR_ZEROS)
}

/// "each total at most intervals x 4,294,967,295 in size".
pub fn totals_are_within_bounds(near: Whole, far: Whole, intervals: Whole) -> bool {
    let bound = times(intervals, LARGEST_COUNT);
    size(near) <= bound && size(far) <= bound
}
