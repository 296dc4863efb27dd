//! Rule 5, which sets the timers, and the conditions that stand by them.

use crate::answers::{Fate, Refusal};
use crate::numbers::{hold_time, Whole};
use crate::octets::{part, wire_number};
use crate::pdu::{flags, opcode, period_code, AIS};
use crate::state::{state_is_well_formed, State};

/// A CCM's "MEP ID 2 (low 13 bits)".
fn mep_id_of(frame: &[u8]) -> Whole {
    wire_number(frame, 22, 24) % 8_192
}

/// Rule 5: "MEG ID not ours sets the mismerge timer; else MEP ID not a peer (our own included) sets the unexpected-MEP
/// timer; else the peer's timer is set"; "All are set to the own hold time."
pub fn take_ccm(state: &mut State, frame: &[u8]) -> Fate {
    let hold = state.own_hold_time();
    if part(frame, 24, 72) != state.settings.meg_id {
        state.mismerge = hold;
        return Fate::Taken;
    }
    match state.settings.slot_of_peer(mep_id_of(frame)) {
        None => state.unexpected_mep = hold,
        Some(slot) => take_ccm_of_peer(state, frame, slot),
    }
    Fate::Taken
}

/// "the peer's timer is set, its RDI becomes flag bit 8, and a period code unlike ours also sets the unexpected-period
/// timer."
fn take_ccm_of_peer(state: &mut State, frame: &[u8], slot: usize) {
    let hold = state.own_hold_time();
    state.peer_timers[slot] = hold;
    state.peer_rdi[slot] = flags(frame) / 128;
    if period_code(frame) != state.settings.period_code {
        state.unexpected_period = hold;
    }
}

/// "AIS and LCK set their timer to 3.5 of the period in the frame."
pub fn take_alarm(state: &mut State, frame: &[u8]) -> Fate {
    let hold = hold_time(period_code(frame));
    if opcode(frame) == AIS {
        state.ais = hold;
    } else {
        state.lck = hold;
    }
    Fate::Taken
}

/// The conditions at a time. For each used peer its ID, loss of continuity and RDI.
pub struct Conditions {
    pub peers: Vec<(Whole, bool, bool)>,
    pub mismerge: bool,
    pub unexpected_mep: bool,
    pub unexpected_period: bool,
    pub unexpected_level: bool,
    pub ais: bool,
    pub lck: bool,
}

/// "loss of continuity stands exactly while a peer's timer is 0, every other condition while its timer is above 0"; a
/// peer's RDI has no timer and stands while it is on.
pub fn standing(state: &State) -> Conditions {
    let of_peer = |(slot, id): (usize, Whole)| (id, state.peer_timers[slot] == 0, state.peer_rdi[slot] == 1);
    Conditions {
        peers: state.settings.used_peers().map(of_peer).collect(),
        mismerge: state.mismerge > 0,
        unexpected_mep: state.unexpected_mep > 0,
        unexpected_period: state.unexpected_period > 0,
        unexpected_level: state.unexpected_level > 0,
        ais: state.ais > 0,
        lck: state.lck > 0,
    }
}

/// "any condition stands other than a peer's RDI".
pub fn any_stands_other_than_rdi(state: &State) -> bool {
    let now = standing(state);
    now.peers.iter().any(|(_, lost, _)| *lost)
        || now.mismerge
        || now.unexpected_mep
        || now.unexpected_period
        || now.unexpected_level
        || now.ais
        || now.lck
}

/// The conditions as a call: refusal 2 for a state that is not well formed; nothing is changed by asking.
pub fn ask_conditions(state: &State) -> Result<Conditions, Refusal> {
    if !state_is_well_formed(state) {
        return Err(Refusal::StateNotWellFormed);
    }
    Ok(standing(state))
}
