//! The random rest of a run: scenes with growing counts, damaged messages, damaged states, random octets.

use crate::bounds;
use crate::maker::{loss_line_body, record, Maker, ACTIVE, PASSIVE};
use crate::messages::{good, good_stamp, service, Message, CCM, LMR};
use crate::states::{cleared, good_setting, good_state, kept_session, Setting, State, MOST_INTERVALS};
use crate::sweep::any_handled;

/// One scene of about ten calls.
pub fn scene(maker: &mut Maker) {
    let setting = any_setting(maker);
    match maker.random.below(10) {
        0 => set_and_tick(maker, &setting),
        1 => loss_session(maker, &setting),
        2 => lent_session(maker),
        3 => damaged_state(maker, &setting),
        4 => damaged_records(maker, &setting),
        5 => random_frames(maker, &setting),
        6 => questions(maker, &setting),
        _ => damaged_messages(maker, &setting),
    }
}

/// Any good setting.
fn any_setting(maker: &mut Maker) -> Setting {
    let level = u8::try_from(maker.random.below(8)).unwrap_or(0);
    let code = u8::try_from(1 + maker.random.below(7)).unwrap_or(1);
    let count = 1 + maker.random.below(8);
    good_setting(&mut maker.random, level, code, count)
}

/// A good state, put.
fn put_any(maker: &mut Maker, setting: &Setting) -> State {
    let state = good_state(&mut maker.random, setting);
    maker.put_state(&state);
    state
}

/// A new setting, ticks, and CCMs and alarms from the outside.
fn set_and_tick(maker: &mut Maker, setting: &Setting) {
    let mut setting = setting.clone();
    setting.code = 1 + setting.code % 2;
    maker.new_setting(&setting);
    for _ in 0..8 {
        let buffer = maker.random.of(&[89, 89, 89, 90, 88]);
        maker.tick(buffer);
        let opcode = maker.random.of(&[CCM, CCM, CCM, 33, 35]);
        let mut message = good(&mut maker.random, &setting, opcode);
        if maker.random.one_in(4) {
            message.flags = maker.random.octet();
        }
        if maker.random.one_in(5) {
            message.level = u8::try_from(maker.random.below(8)).unwrap_or(0);
        }
        maker.frame(ACTIVE, 0, [(0, 0), (0, 0)], &message.octets());
        if maker.random.one_in(3) {
            maker.conditions();
        }
    }
    maker.show_state();
}

/// Counts that grow and wrap, with service frames, clears and sent requests between the replies.
fn loss_session(maker: &mut Maker, setting: &Setting) {
    let mut state = good_state(&mut maker.random, setting);
    if maker.random.one_in(2) {
        state.session = kept_session(&mut maker.random, MOST_INTERVALS - 3);
    }
    maker.put_state(&state);
    let mut counts: [u32; 3] = std::array::from_fn(|_| maker.random.count());
    for _ in 0..6 {
        for count in &mut counts {
            let growth = maker.random.count();
            *count = count.wrapping_add(growth);
        }
        let octets: Vec<u8> = counts.iter().flat_map(|count| count.to_be_bytes()).collect();
        let reply = good(&mut maker.random, setting, LMR).with_fixed(0, &octets);
        maker.frame(ACTIVE, 0, [(0, 0), (0, 0)], &reply.octets());
        let other = service(&mut maker.random);
        let side = maker.random.of(&[ACTIVE, PASSIVE]);
        maker.frame(side, 0, [(0, 0), (0, 0)], &other);
        match maker.random.below(6) {
            0 => maker.send_lmm(31),
            1 => maker.clear(),
            _ => {}
        }
    }
    maker.show_state();
}

/// The lent session alone.
fn lent_session(maker: &mut Maker) {
    let intervals = maker.random.of(&[0, 1, 50, MOST_INTERVALS - 2, MOST_INTERVALS]);
    let session = if maker.random.one_in(3) { cleared() } else { kept_session(&mut maker.random, intervals) };
    maker.put_session(&session);
    for _ in 0..5 {
        let readings = std::array::from_fn(|_| maker.random.count());
        maker.measure(readings);
    }
}

/// A good state with one octet changed, through every call.
fn damaged_state(maker: &mut Maker, setting: &Setting) {
    let good = good_state_of_few(maker, setting);
    let mut all = bounds::states(&mut maker.random, &good);
    let place = maker.random.below(all.len());
    let state = all.swap_remove(place);
    maker.put_state(&state);
    let frame = service(&mut maker.random);
    maker.frame(ACTIVE, 0, [(0, 0), (0, 0)], &frame);
    maker.tick(89);
    maker.conditions();
    maker.send_lmm(31);
    let stamp = good_stamp(&mut maker.random);
    maker.send_dmm(51, stamp);
    maker.clear();
    maker.show_state();
}

/// A good state with at most seven peers, so that a slot is unused.
fn good_state_of_few(maker: &mut Maker, setting: &Setting) -> State {
    let count = 2 + maker.random.below(6);
    let few = setting.with_count(&mut maker.random, count);
    good_state(&mut maker.random, &few)
}

/// Records with one octet changed or cut.
fn damaged_records(maker: &mut Maker, setting: &Setting) {
    for _ in 0..3 {
        let mut octets = record(1, 83, &setting.octets());
        damage(maker, &mut octets);
        maker.read_settings(&octets);
        let session = kept_session(&mut maker.random, 9);
        let mut octets = record(2, 22, &loss_line_body(&session));
        damage(maker, &mut octets);
        maker.read_loss_line(&octets);
        maker.write_loss_line(24, &session);
    }
    maker.write_settings(86, setting);
}

/// Changes one octet, cuts the end off, or adds to it.
fn damage(maker: &mut Maker, octets: &mut Vec<u8>) {
    let place = maker.random.below(octets.len().max(1));
    match maker.random.below(5) {
        0 => octets.truncate(place),
        1 => {
            let more = maker.random.below(5);
            octets.extend(maker.random.octets(more));
        }
        2 => {}
        _ => {
            let value = maker.random.octet();
            if let Some(octet) = octets.get_mut(place) {
                *octet = value;
            }
        }
    }
}

/// Octets of any content behind the EtherType, and behind the level.
fn random_frames(maker: &mut Maker, setting: &Setting) {
    put_any(maker, setting);
    for _ in 0..8 {
        let length = maker.random.below(60);
        let mut frame = maker.random.octets(length);
        let heading =
            [&setting.own[..], &setting.loss_peer, &[0x89, 0x02, setting.level << 5, any_handled(maker), 4]].concat();
        let known = [14, 15, 16, 17][maker.random.below(4)];
        for (target, octet) in frame.iter_mut().zip(&heading).take(known) {
            *target = *octet;
        }
        let side = maker.random.of(&[ACTIVE, ACTIVE, PASSIVE]);
        maker.frame(side, length, [(1, 1), (1, 2)], &frame);
        maker.ask_tlv(3, &frame);
    }
    maker.show_state();
}

/// Damaged frames before the reader.
fn questions(maker: &mut Maker, setting: &Setting) {
    for _ in 0..8 {
        let opcode = any_handled(maker);
        let mut frame = good(&mut maker.random, setting, opcode).octets();
        damage(maker, &mut frame);
        let wanted = maker.random.of(&[0, 1, 3, 3, 31, 32, 36, 255]);
        maker.ask_tlv(wanted, &frame);
    }
}

/// Real messages with one octet changed, cut, or as they were.
fn damaged_messages(maker: &mut Maker, setting: &Setting) {
    put_any(maker, setting);
    for _ in 0..8 {
        let opcode = any_handled(maker);
        let message: Message = good(&mut maker.random, setting, opcode);
        let mut frame = message.octets();
        damage(maker, &mut frame);
        let receive = good_stamp(&mut maker.random);
        let send = good_stamp(&mut maker.random);
        let buffer = maker.random.of(&[0, frame.len(), frame.len() + 1, frame.len().saturating_sub(1)]);
        maker.frame(ACTIVE, buffer, [receive, send], &frame);
    }
    maker.show_state();
}
