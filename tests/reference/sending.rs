//! The paragraph after rule 8: ticks, and the messages that the end point sends of itself.

use crate::answers::Refusal;
use crate::conditions::any_stands_other_than_rdi;
use crate::frames::multicast_address;
use crate::numbers::{minus, period_in_ticks, plus, stamp_is_good, times, Stamp, Whole};
use crate::octets::{big_endian, stamp_octets};
use crate::pdu::{CCM, DMM, LMM};
use crate::replies::write_to_buffer;
use crate::state::{state_is_well_formed, State};

/// "A tick lowers every timer above 0 by one"; "Every period's last tick sends a CCM". A tick refused for its buffer
/// has not passed. Gives the length sent, or none where no CCM was due.
pub fn tick(state: &mut State, buffer: &mut [u8]) -> Result<Option<Whole>, Refusal> {
    if !state_is_well_formed(state) {
        return Err(Refusal::StateNotWellFormed);
    }
    let mut after = state.clone();
    lower_timers(&mut after);
    after.ticks_to_ccm = minus(after.ticks_to_ccm, 1);
    let mut sent = None;
    if after.ticks_to_ccm == 0 {
        after.ticks_to_ccm = period_in_ticks(after.settings.period_code);
        sent = Some(write_to_buffer(buffer, &ccm(&after))?);
    }
    *state = after;
    Ok(sent)
}

/// "lowers every timer above 0 by one".
fn lowered(timer: Whole) -> Whole {
    if timer > 0 { minus(timer, 1) } else { 0 }
}

/// Every timer of the state.
fn lower_timers(state: &mut State) {
    state.peer_timers = state.peer_timers.map(lowered);
    state.mismerge = lowered(state.mismerge);
    state.unexpected_mep = lowered(state.unexpected_mep);
    state.unexpected_period = lowered(state.unexpected_period);
    state.unexpected_level = lowered(state.unexpected_level);
    state.ais = lowered(state.ais);
    state.lck = lowered(state.lck);
}

/// The 18 octets before a fixed part: addresses, EtherType, level and version, opcode, flags, TLV offset.
fn heading(state: &State, to: &[u8], version: Whole, opcode_flags_offset: [Whole; 3]) -> Vec<u8> {
    let mut message = to.to_vec();
    message.extend(state.settings.own_address);
    message.extend([0x89, 0x02]);
    message.extend(big_endian(plus(times(state.settings.level, 32), version), 1));
    message.extend(opcode_flags_offset.iter().flat_map(|value| big_endian(*value, 1)));
    message
}

/// "a CCM (89 octets, to our level's multicast address, sequence, counts and reserved zero). Its RDI is set when, after
/// this tick's lowering, any condition stands other than a peer's RDI." Sent with version 0.
fn ccm(state: &State) -> Vec<u8> {
    let rdi = if any_stands_other_than_rdi(state) { 128 } else { 0 };
    let flags = plus(rdi, state.settings.period_code);
    let mut message = heading(state, &multicast_address(state.settings.level), 0, [CCM, flags, 70]);
    message.extend([0; 4]);
    message.extend(big_endian(state.settings.mep_id, 2));
    message.extend(state.settings.meg_id);
    message.extend([0; 12]);
    message.extend([0; 4]);
    message.push(0);
    message
}

/// "LMM (31 octets, TxFCf our sent count)", version 1 as figure 9.12-1 gives; "other fixed octets and flags zero".
fn lmm(state: &State) -> Vec<u8> {
    let mut message = heading(state, &state.settings.loss_peer, 1, [LMM, 0, 12]);
    message.extend(big_endian(state.sent, 4));
    message.extend([0; 8]);
    message.push(0);
    message
}

/// "DMM (51, first stamp the caller's)", version 1 (9.15).
fn dmm(state: &State, stamp: Stamp) -> Vec<u8> {
    let mut message = heading(state, &state.settings.loss_peer, 1, [DMM, 0, 32]);
    message.extend(stamp_octets(stamp));
    message.extend([0; 24]);
    message.push(0);
    message
}

/// "LMM ... go to the loss peer when asked". Refusals 2, then 3.
pub fn send_lmm(state: &State, buffer: &mut [u8]) -> Result<Whole, Refusal> {
    if !state_is_well_formed(state) {
        return Err(Refusal::StateNotWellFormed);
    }
    write_to_buffer(buffer, &lmm(state))
}

/// "DMM ... go to the loss peer when asked". Refusals 2, then 6, then 3.
pub fn send_dmm(state: &State, stamp: Stamp, buffer: &mut [u8]) -> Result<Whole, Refusal> {
    if !state_is_well_formed(state) {
        return Err(Refusal::StateNotWellFormed);
    }
    if !stamp_is_good(stamp) {
        return Err(Refusal::BadStamp);
    }
    write_to_buffer(buffer, &dmm(state, stamp))
}
