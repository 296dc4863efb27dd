//! The structured first part of every run: rounds that each go once through every item that coverage asks for.

use crate::bounds;
use crate::faults;
use crate::maker::{loss_line_body, record, Maker, Stamp, ACTIVE, PASSIVE};
use crate::messages::{
    good, good_stamp, least, service, tlv, Message, CCM, DMM, DMR, FOREIGN, HANDLED, LBM, LMM, LMR, TABLE,
};
use crate::scenes;
use crate::states::{
    cleared, good_setting, good_state, hold, kept_session, period, quiet_state, Setting, State, SLOTS,
};

pub const ROUNDS: usize = 20;
const NONE: Stamp = (0, 0);

/// One round of the sweep.
pub fn round(maker: &mut Maker, round: usize) {
    let setting = setting_of_round(maker, round);
    levels_and_sides(maker, &setting, round);
    faults::own_level(maker, &setting, round);
    faults::lower_level_ccms(maker, &setting, round);
    offsets(maker, &setting);
    lengths(maker, &setting, round);
    buffers(maker, &setting);
    refusals_of_frames(maker, &setting);
    state_bounds(maker, &setting, round);
    setting_bounds(maker, &setting, round);
    session_bounds(maker, &setting, round);
    single_conditions(maker, &setting);
    scenes::ccms(maker, &setting, round);
    scenes::alarms(maker, &setting);
    scenes::loss_extremes(maker, &setting, round);
    scenes::delays(maker, &setting);
    scenes::tlv_questions(maker, &setting, round);
    scenes::records(maker, &setting);
    scenes::counts(maker, &setting, round);
    scenes::edges(maker, &setting, round);
    scenes::until_lost(maker, &setting, round);
}

/// A setting whose level has levels below and above it, and which has used and unused slots; all codes in turn.
fn setting_of_round(maker: &mut Maker, round: usize) -> Setting {
    let level = u8::try_from(1 + round % 6).unwrap_or(1);
    let code = u8::try_from(1 + round % 7).unwrap_or(1);
    good_setting(&mut maker.random, level, code, 2 + round % 6)
}

/// A good state around a setting, put.
pub fn put_good(maker: &mut Maker, setting: &Setting) -> State {
    let state = good_state(&mut maker.random, setting);
    maker.put_state(&state);
    state
}

/// A level below, the own one, and one above.
fn three_levels(maker: &mut Maker, own: u8) -> [u8; 3] {
    let below = maker.random.below(usize::from(own));
    let above = usize::from(own) + 1 + maker.random.below(7 - usize::from(own));
    [u8::try_from(below).unwrap_or(0), own, u8::try_from(above).unwrap_or(7)]
}

/// Every opcode on both sides at three levels: whole, and shorter than 18.
fn levels_and_sides(maker: &mut Maker, setting: &Setting, round: usize) {
    put_good(maker, setting);
    for side in [ACTIVE, PASSIVE] {
        for level in three_levels(maker, setting.level) {
            let foreign = FOREIGN[(round + usize::from(level)) % FOREIGN.len()];
            for opcode in TABLE.into_iter().chain([foreign]) {
                let mut message = good(&mut maker.random, setting, opcode);
                message.level = level;
                let short = message.octets_of_length(&mut maker.random, 16 + round % 2);
                maker.frame(side, round % 3, [NONE, NONE], &short);
                let stamp = good_stamp(&mut maker.random);
                maker.frame(side, message.octets().len(), [stamp, (round as u32, 5)], &message.octets());
            }
            if level == setting.level {
                maker.show_state();
            }
        }
    }
    maker.show_state();
}

/// TLV offsets least, one more and 255, read on both ways.
fn offsets(maker: &mut Maker, setting: &Setting) {
    let state = quiet_state(&mut maker.random, setting);
    maker.put_state(&state);
    for opcode in TABLE {
        for offset in [least(opcode), least(opcode) + 1, 255] {
            let plain = good(&mut maker.random, setting, opcode).with_offset(&mut maker.random, least(opcode));
            let value = maker.random.octets(2);
            let tail = [tlv(3, &value), vec![0]].concat();
            let message = plain.with_tail(tail).with_offset(&mut maker.random, offset);
            maker.frame(ACTIVE, message.octets().len() % 256, [(7, 7), (7, 9)], &message.octets());
            maker.ask_tlv(3, &message.octets());
        }
    }
    maker.show_state();
}

/// Frame lengths around each bound, on both ways.
fn lengths(maker: &mut Maker, setting: &Setting, round: usize) {
    put_good(maker, setting);
    for length in [13, 14, 15, 17, 18, [0, 1, 12, 16][round % 4]] {
        let opcode = maker.random.of(&TABLE);
        let frame = good(&mut maker.random, setting, opcode).octets_of_length(&mut maker.random, length);
        maker.frame(ACTIVE, 3, [NONE, NONE], &frame);
        maker.ask_tlv(3, &frame);
        let mut other = service(&mut maker.random);
        other.resize(length, 0);
        if length % 2 == round % 2 {
            maker.frame(PASSIVE, 1, [NONE, NONE], &other);
        } else {
            maker.ask_tlv(0, &other);
        }
    }
    for opcode in TABLE {
        for shorter in [1, 0] {
            let plain = good(&mut maker.random, setting, opcode).with_offset(&mut maker.random, least(opcode)).bare();
            let frame = plain.octets_of_length(&mut maker.random, 19 + least(opcode) - shorter);
            maker.frame(ACTIVE, frame.len(), [(3, 3), NONE], &frame);
            maker.ask_tlv(3, &frame);
        }
    }
    maker.show_state();
    long_frames(maker, setting);
}

/// The longest frame and one octet more: a request, another opcode, a service frame.
fn long_frames(maker: &mut Maker, setting: &Setting) {
    for length in [1_514, 1_515] {
        let opcode = maker.random.of(&[LBM, LMM, DMM]);
        let frame = good(&mut maker.random, setting, opcode).octets_of_length(&mut maker.random, length);
        let buffer = maker.random.of(&[0, 1, 1_513, 1_514]);
        maker.frame(ACTIVE, buffer, [NONE, NONE], &frame);
        let one_tlv = tlv(3, &vec![7; length - 26]);
        let filled = good(&mut maker.random, setting, LBM)
            .with_offset(&mut maker.random, 4)
            .with_tail([one_tlv, vec![0]].concat());
        maker.ask_tlv(4, &filled.octets());
    }
    let mut long_service = service(&mut maker.random);
    long_service.resize(1_515, 9);
    maker.frame(PASSIVE, 0, [NONE, NONE], &long_service);
}

/// Buffers one short, equal and one more, for each call that has one.
fn buffers(maker: &mut Maker, setting: &Setting) {
    let mut state = quiet_state(&mut maker.random, setting);
    maker.put_state(&state);
    for opcode in [LBM, LMM, DMM] {
        let frame = good(&mut maker.random, setting, opcode).octets();
        for buffer in [frame.len() - 1, frame.len(), frame.len() + 1] {
            maker.frame(ACTIVE, buffer, [(1, 2), (3, 4)], &frame);
        }
    }
    maker.show_state();
    for buffer in [30, 31, 32] {
        maker.send_lmm(buffer);
        maker.send_dmm(buffer + 20, (u32::MAX, 999_999_999));
    }
    state.ticks = 1;
    for buffer in [88, 89, 90] {
        maker.put_state(&state);
        maker.tick(buffer);
        if buffer < 90 {
            maker.show_state();
        }
    }
    state.ticks = 2;
    maker.put_state(&state);
    maker.tick(0);
    let session = kept_session(&mut maker.random, 77);
    for more in [0, 1, 2] {
        maker.write_settings(84 + more, setting);
        maker.write_loss_line(23 + more, &session);
    }
}

/// The order 2, 1, 6, the frame rules, then 3 or 5; each pair of faults in one call.
fn refusals_of_frames(maker: &mut Maker, setting: &Setting) {
    let bad_stamp = maker.random.of(&[(0, 1_000_000_000), (5, u32::MAX), (u32::MAX, 1_000_000_000)]);
    let last_stamp = (0, 999_999_999);
    let mut state = put_good(maker, setting);
    let request = good(&mut maker.random, setting, LMM).octets();
    let other = service(&mut maker.random);
    let higher = Message { level: 7, ..good(&mut maker.random, setting, CCM) }.octets();
    for stamps in [[bad_stamp, NONE], [NONE, bad_stamp], [bad_stamp, bad_stamp], [last_stamp, last_stamp]] {
        for frame in [&request, &other, &higher, &request[..17].to_vec(), &request[..13].to_vec()] {
            maker.frame(ACTIVE, 7, stamps, frame);
        }
    }
    maker.send_dmm(60, bad_stamp);
    maker.send_dmm(7, bad_stamp);
    maker.send_dmm(51, last_stamp);
    maker.send_dmm(51, NONE);
    maker.show_state();
    state.ticks = 0;
    maker.put_state(&state);
    maker.frame(ACTIVE, 7, [bad_stamp, NONE], &request);
    maker.frame(ACTIVE, 7, [NONE, NONE], &request[..13]);
    maker.frame(PASSIVE, 7, [NONE, NONE], &other);
    maker.tick(0);
    maker.clear();
    maker.send_lmm(0);
    maker.send_dmm(0, bad_stamp);
    maker.conditions();
    maker.show_state();
}

/// One of the calls that test the state.
fn judge(maker: &mut Maker, state: &State, which: usize) {
    match which % 7 {
        0 => maker.conditions(),
        1 => maker.tick([3, 89, 90][which % 3]),
        2 => maker.clear(),
        3 => maker.send_lmm([2, 31][which % 2]),
        4 => maker.send_dmm([2, 51][which % 2], (9, 9)),
        5 => {
            let frame = good(&mut maker.random, &state.setting, LMR).octets();
            maker.frame(ACTIVE, 1, [NONE, NONE], &frame);
        }
        _ => {
            let frame = service(&mut maker.random);
            maker.frame(PASSIVE, 1, [NONE, NONE], &frame);
        }
    }
}

/// Every bound of a state and one past it, each judged by one call.
fn state_bounds(maker: &mut Maker, setting: &Setting, round: usize) {
    let base = good_state(&mut maker.random, setting);
    let mut all = bounds::states(&mut maker.random, &base);
    for other in bounds::settings(&mut maker.random, setting) {
        all.push(base.with_setting(&other));
    }
    for session in bounds::sessions(&mut maker.random, round) {
        let mut state = base.clone();
        state.session = session;
        all.push(state);
    }
    for (place, state) in all.iter().enumerate() {
        maker.put_state(state);
        judge(maker, state, place + round);
        if (place + round) % 9 == 0 {
            maker.show_state();
        }
    }
}

/// Every bound of a setting: set, read and written.
fn setting_bounds(maker: &mut Maker, setting: &Setting, round: usize) {
    for (place, other) in bounds::settings(&mut maker.random, setting).iter().enumerate() {
        maker.new_setting(other);
        match maker.random.below(12) {
            0 => maker.show_state(),
            1 => maker.conditions(),
            _ => {}
        }
        if (place + round) % 2 == 0 {
            maker.read_settings(&record(1, 83, &other.octets()));
        } else {
            let buffer = maker.random.of(&[3, 85]);
            maker.write_settings(buffer, other);
        }
    }
}

/// Every bound of a lent session and of a loss line.
fn session_bounds(maker: &mut Maker, setting: &Setting, round: usize) {
    let mut state = quiet_state(&mut maker.random, setting);
    for (place, session) in bounds::sessions(&mut maker.random, round).into_iter().enumerate() {
        let readings = [maker.random.count(), maker.random.count(), maker.random.count(), maker.random.count()];
        maker.put_session(&session);
        maker.measure(readings);
        if (place + round / 4) % 2 == 0 {
            maker.read_loss_line(&record(2, 22, &loss_line_body(&session)));
        } else {
            maker.write_loss_line([24, 5][round % 2], &session);
        }
        if place % 8 == round % 8 {
            maker.measure(readings);
            state.session = session;
            maker.put_state(&state);
            let frame = good(&mut maker.random, setting, LMR).octets();
            maker.frame(ACTIVE, 1, [NONE, NONE], &frame);
            maker.show_state();
        }
    }
    maker.put_session(&cleared());
    maker.measure([1, 2, 3, 4]);
    maker.measure([11, 11, 13, 15]);
}

/// A CCM is due while exactly one condition stands, or has just ended; then a tick and what it sends.
fn single_conditions(maker: &mut Maker, setting: &Setting) {
    let full = setting.with_count(&mut maker.random, SLOTS);
    let mut quiet = quiet_state(&mut maker.random, &full);
    quiet.ticks = 1;
    let mut all = vec![quiet.clone()];
    for value in [1, 2] {
        for place in 0..4 {
            let mut state = quiet.clone();
            state.own_hold[place] = value;
            all.push(state);
        }
        for place in 0..2 {
            let mut state = quiet.clone();
            state.alarms[place] = value;
            all.push(state);
        }
        let slot = maker.random.below(SLOTS);
        let mut state = quiet.clone();
        state.timers[slot] = value;
        all.push(state);
    }
    let mut with_rdi = quiet.clone();
    with_rdi.rdi = [1; SLOTS];
    all.push(with_rdi);
    for state in &all {
        maker.put_state(state);
        maker.tick(89);
    }
    timers_in_a_row(maker, &quiet);
}

/// All timers at 0, at 1 and at the hold time, through a tick.
fn timers_in_a_row(maker: &mut Maker, quiet: &State) {
    let most = hold(quiet.setting.code);
    for value in [0, 1, most] {
        let mut state = quiet.clone();
        state.timers = [value; SLOTS];
        state.own_hold = [value; 4];
        state.alarms = [value.min(126_000); 2];
        state.ticks = period(quiet.setting.code);
        maker.put_state(&state);
        maker.conditions();
        maker.tick(0);
        maker.show_state();
        maker.conditions();
        maker.conditions();
    }
}

/// Handled opcodes in an order that a seed chooses, for the scenes.
pub fn any_handled(maker: &mut Maker) -> u8 {
    maker.random.of(&HANDLED)
}

/// A delay reply of a setting; the stamps stand at the front of its fixed part.
pub fn delay_reply(maker: &mut Maker, setting: &Setting, stamps: [Stamp; 3]) -> Message {
    let octets: Vec<u8> = stamps.into_iter().flat_map(crate::messages::stamp_octets).collect();
    good(&mut maker.random, setting, DMR).bare().with_fixed(0, &octets).with_offset(&mut maker.random, 32)
}
