//! The paper's section "Frames, rule by rule": rules 1 to 4, which decide what becomes of a frame.

use crate::answers::{Dropped, Fate, Refusal};
use crate::conditions::{take_alarm, take_ccm};
use crate::delay::{delay_of_reply, delay_stamps_are_good};
use crate::loss::loss_of_reply;
use crate::numbers::{frame_length_is_good, modulo, plus, stamp_is_given, stamp_is_good, Stamp, Whole, COUNT_MODULUS};
use crate::pdu::{
    destination, is_oam, is_shorter_than_18, least_offset, level, offset_and_parts, opcode, period_code, source, AIS,
    CCM, DMM, DMR, LBM, LBR, LCK, LMM, LMR,
};
use crate::replies::reply;
use crate::settings::{has_group_bit, Settings};
use crate::state::{state_is_well_formed, State};

/// The side of the end point that a frame came in on.
#[derive(Clone, Copy, PartialEq, Debug)]
pub enum Side {
    Active,
    Passive,
}

/// A frame and what the caller says beside it.
pub struct Arrival<'a> {
    pub side: Side,
    pub frame: &'a [u8],
    pub receive_stamp: Stamp,
    pub send_stamp: Stamp,
}

/// "Order: 2, 1, 6, the frame rules below, then 3 or 5."
pub fn receive(state: &mut State, arrival: &Arrival, buffer: &mut [u8]) -> Result<Fate, Refusal> {
    if !state_is_well_formed(state) {
        return Err(Refusal::StateNotWellFormed);
    }
    if !frame_length_is_good(arrival.frame) {
        return Err(Refusal::FrameLength);
    }
    if !stamp_is_good(arrival.receive_stamp) || !stamp_is_good(arrival.send_stamp) {
        return Err(Refusal::BadStamp);
    }
    if !is_oam(arrival.frame) {
        return Ok(service_frame(state, arrival.side));
    }
    oam_frame(state, arrival, buffer)
}

/// Rule 1: "A service frame passes and adds one to its side's count, wrapping to 0 after 4,294,967,295". Sent counts
/// from the passive side to the active, received from the active to the passive.
fn service_frame(state: &mut State, side: Side) -> Fate {
    match side {
        Side::Passive => state.sent = one_more(state.sent),
        Side::Active => state.received = one_more(state.received),
    }
    Fate::Passed
}

/// "wrapping to 0 after 4,294,967,295".
fn one_more(count: Whole) -> Whole {
    modulo(plus(count, 1), COUNT_MODULUS)
}

/// Rule 2: "An OAM frame shorter than 18 is D1. A level above ours passes. From the passive side, any other level is
/// D2."
fn oam_frame(state: &mut State, arrival: &Arrival, buffer: &mut [u8]) -> Result<Fate, Refusal> {
    if is_shorter_than_18(arrival.frame) {
        return Ok(Fate::Dropped(Dropped::ShorterThan18));
    }
    if level(arrival.frame) > state.settings.level {
        return Ok(Fate::Passed);
    }
    if arrival.side == Side::Passive {
        return Ok(Fate::Dropped(Dropped::Level));
    }
    if level(arrival.frame) < state.settings.level {
        return Ok(lower_level(state, arrival));
    }
    own_level(state, arrival, buffer)
}

/// Rule 3: "Active side, lower level: D2; if it is a CCM that passes D4 to D7, the unexpected-level timer is also set
/// to the own hold time."
fn lower_level(state: &mut State, arrival: &Arrival) -> Fate {
    if opcode(arrival.frame) == CCM && tests_d4_to_d7(&state.settings, arrival, 70).is_ok() {
        state.unexpected_level = state.own_hold_time();
    }
    Fate::Dropped(Dropped::Level)
}

/// Rule 4: "handled opcodes are 1, 3, 33, 35, 42, 43, 46, 47, else D3. Then D4, D5, D6, D7 in that order."
fn own_level(state: &mut State, arrival: &Arrival, buffer: &mut [u8]) -> Result<Fate, Refusal> {
    let Some(least) = least_offset_of_handled(opcode(arrival.frame)) else {
        return Ok(Fate::Dropped(Dropped::OpcodeNotHandled));
    };
    if let Err(reason) = tests_d4_to_d7(&state.settings, arrival, least) {
        return Ok(Fate::Dropped(reason));
    }
    handle(state, arrival, buffer)
}

/// All opcodes of the table but LBR are handled.
fn least_offset_of_handled(opcode: Whole) -> Option<Whole> {
    if opcode == LBR { None } else { least_offset(opcode) }
}

/// "Then D4, D5, D6, D7 in that order."
fn tests_d4_to_d7(settings: &Settings, arrival: &Arrival, least: Whole) -> Result<(), Dropped> {
    offset_and_parts(arrival.frame, least)?;
    if !addresses_are_good(settings, arrival.frame) {
        return Err(Dropped::DestinationNotOurs);
    }
    if !values_are_good(arrival) {
        return Err(Dropped::FieldValue);
    }
    Ok(())
}

/// D6: "Good destinations ...; D6 also holds a request (3, 43, 47) whose source has the group bit, and an LMR not from
/// the loss peer."
fn addresses_are_good(settings: &Settings, frame: &[u8]) -> bool {
    let source_is_good = match opcode(frame) {
        LBM | LMM | DMM => !has_group_bit(source(frame)),
        LMR => source(frame) == settings.loss_peer,
        _ => true,
    };
    destination_is_good(settings, frame) && source_is_good
}

/// "Good destinations: the own address; for 1, 3, 33, 35, 43 and 47 also 01-80-C2-00-00-3x, x being the frame's level."
fn destination_is_good(settings: &Settings, frame: &[u8]) -> bool {
    let may_be_multicast = matches!(opcode(frame), CCM | LBM | AIS | LCK | LMM | DMM);
    destination(frame) == settings.own_address
        || (may_be_multicast && destination(frame) == multicast_address(level(frame)))
}

/// "01-80-C2-00-00-3x" for a level.
pub fn multicast_address(level: Whole) -> [u8; 6] {
    let last = u8::try_from(plus(0x30, level)).unwrap_or(0);
    [0x01, 0x80, 0xC2, 0x00, 0x00, last]
}

/// D7: "CCM period code 0 (low 3 flag bits); AIS or LCK code other than 4 (1 s) or 6 (1 min); a DMR with too many
/// nanoseconds in a stamp it uses, or with the caller's receive stamp all zero."
fn values_are_good(arrival: &Arrival) -> bool {
    match opcode(arrival.frame) {
        CCM => period_code(arrival.frame) != 0,
        AIS | LCK => matches!(period_code(arrival.frame), 4 | 6),
        DMR => delay_stamps_are_good(arrival.frame) && stamp_is_given(arrival.receive_stamp),
        _ => true,
    }
}

/// What rules 5 to 8 do with a frame that passed every test.
fn handle(state: &mut State, arrival: &Arrival, buffer: &mut [u8]) -> Result<Fate, Refusal> {
    match opcode(arrival.frame) {
        CCM => Ok(take_ccm(state, arrival.frame)),
        AIS | LCK => Ok(take_alarm(state, arrival.frame)),
        LMR => loss_of_reply(state, arrival.frame),
        DMR => Ok(delay_of_reply(arrival.frame, arrival.receive_stamp)),
        _ => reply(state, arrival, buffer),
    }
}
