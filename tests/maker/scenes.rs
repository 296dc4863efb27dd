//! Calls that make sense together: CCMs, alarms, loss, delay, questions for TLVs, records, counts, the paper's edges.

use crate::maker::{loss_line_body, record, Maker, Stamp, ACTIVE, PASSIVE};
use crate::messages::{good, good_stamp, multicast, service, tlv, Message, AIS, CCM, LBM, LCK, LMM, LMR};
use crate::states::{cleared, good_setting, kept_session, quiet_state, Lent, Setting, State, MOST_INTERVALS};
use crate::sweep::{delay_reply, put_good};

const NONE: [Stamp; 2] = [(0, 0), (0, 0)];

/// A quiet state around a setting, put.
fn put_quiet(maker: &mut Maker, setting: &Setting) -> State {
    let state = quiet_state(&mut maker.random, setting);
    maker.put_state(&state);
    state
}

/// A CCM of a MEP ID with the own MEG ID and period.
fn ccm_of(maker: &mut Maker, setting: &Setting, id: u16) -> Message {
    let plain = good(&mut maker.random, setting, CCM).with_fixed(4, &id.to_be_bytes());
    plain.with_offset(&mut maker.random, 70).bare()
}

/// Rule 5: foreign MEG IDs, unknown and own MEP IDs, every peer, RDI on and off, every period.
pub fn ccms(maker: &mut Maker, setting: &Setting, round: usize) {
    for step in 0..3 {
        let place = (round * 3 + step) % 48;
        put_quiet(maker, setting);
        let message = ccm_of(maker, setting, [setting.peers[0], setting.mep_id, 1][step]);
        let other = message.clone().with_fixed(6 + place, &[!setting.meg[place]]);
        maker.frame(ACTIVE, 0, NONE, &other.octets());
        maker.show_state();
    }
    for id in [setting.mep_id, 0, 8_191, setting.peers[0] ^ 0x1000, setting.mep_id | 0x8000] {
        put_quiet(maker, setting);
        let message = ccm_of(maker, setting, id);
        maker.frame(ACTIVE, 0, NONE, &message.octets());
        maker.conditions();
    }
    for step in 0..3 {
        let slot = (round + step) % setting.used();
        let mut state = quiet_state(&mut maker.random, setting);
        state.timers = [0; 8];
        state.rdi = std::array::from_fn(|place| u8::from(place < setting.used() && place % 2 == round % 2));
        maker.put_state(&state);
        let message = ccm_of(maker, setting, setting.peers[slot] | 0xE000);
        maker.frame(ACTIVE, 0, NONE, &message.octets());
        maker.show_state();
    }
    periods(maker, setting);
}

/// Every period code in a peer's CCM.
fn periods(maker: &mut Maker, setting: &Setting) {
    for code in 1..=7 {
        let mut state = quiet_state(&mut maker.random, setting);
        state.timers[0] = 1;
        maker.put_state(&state);
        let message = Message { flags: code | 0x80, ..ccm_of(maker, setting, setting.peers[0]) };
        maker.frame(ACTIVE, 0, NONE, &message.octets());
        maker.conditions();
    }
    maker.show_state();
}

/// AIS and LCK of both good periods over timers that already run, then a tick.
pub fn alarms(maker: &mut Maker, setting: &Setting) {
    put_quiet(maker, setting);
    for (opcode, code) in [(AIS, 6), (AIS, 4), (LCK, 6), (LCK, 4), (LCK, 6), (AIS, 6)] {
        let message = Message { flags: 0xF8 | code, ..good(&mut maker.random, setting, opcode) };
        maker.frame(ACTIVE, 0, NONE, &message.octets());
        maker.show_state();
    }
    maker.tick(0);
    maker.conditions();
}

/// A loss reply with three counts.
fn loss_reply(maker: &mut Maker, setting: &Setting, counts: [u32; 3]) -> Vec<u8> {
    let octets: Vec<u8> = counts.iter().flat_map(|count| count.to_be_bytes()).collect();
    good(&mut maker.random, setting, LMR).with_fixed(0, &octets).bare().octets()
}

/// Loss at its ends: growth 0 and 4,294,967,295 in each of the four readings, at each interval number of interest.
pub fn loss_extremes(maker: &mut Maker, setting: &Setting, round: usize) {
    for (place, intervals) in [0, 1, MOST_INTERVALS - 1, MOST_INTERVALS].into_iter().enumerate() {
        for fast in [round % 4, (round + 1 + place) % 4] {
            let mut state = quiet_state(&mut maker.random, setting);
            state.session = kept_session(&mut maker.random, intervals);
            let mut grown = state.session.reading;
            grown[fast] = grown[fast].wrapping_sub(1);
            state.received = grown[3];
            maker.put_state(&state);
            let frame = loss_reply(maker, setting, [grown[0], grown[1], grown[2]]);
            maker.frame(ACTIVE, 0, NONE, &frame);
            if place == round / 4 % 4 && fast == round % 4 {
                maker.show_state();
                maker.clear();
                maker.show_state();
                maker.frame(ACTIVE, 0, NONE, &frame);
                maker.frame(ACTIVE, 0, NONE, &frame);
                maker.show_state();
            }
        }
    }
}

/// The caller's receive stamps and the replies' stamps in every mixture of given, not given, good and bad.
pub fn delays(maker: &mut Maker, setting: &Setting) {
    put_quiet(maker, setting);
    let none = (0, 0);
    let last = (u32::MAX, 999_999_999);
    let bad = (0, 1_000_000_000);
    let any = [good_stamp(&mut maker.random), good_stamp(&mut maker.random), good_stamp(&mut maker.random)];
    let here = good_stamp(&mut maker.random);
    let cases = [
        (here, any),
        ((1, 0), [none, none, none]),
        ((0, 1), [(0, 5), (0, 3), (0, 4)]),
        ((5, 5), [(4, 0), none, (4, 9)]),
        ((5, 5), [(4, 0), (4, 9), none]),
        ((5, 5), [(4, 0), (0, 9), (4, 9)]),
        ((5, 5), [(4, 0), (4, 9), (0, 9)]),
        ((5, 5), [(4, 0), (4, 0), (5, 0)]),
        (none, [(4, 0), (4, 9), (4, 9)]),
        (none, any),
        ((5, 5), [bad, none, none]),
        ((5, 5), [(4, 0), bad, (4, 9)]),
        ((5, 5), [(4, 0), (4, 9), bad]),
        ((5, 5), [(4, 0), bad, none]),
        ((5, 5), [(4, 0), none, bad]),
        ((5, 5), [(4, 999_999_999), (0, 999_999_999), (9, 999_999_999)]),
        (last, [none, last, (0, 1)]),
        ((0, 1), [last, (0, 1), last]),
        (last, [(0, 0), none, none]),
        ((0, 1), [last, none, none]),
    ];
    for (here, stamps) in cases {
        let frame = delay_reply(maker, setting, stamps).octets();
        maker.frame(ACTIVE, 0, [here, (0, 0)], &frame);
    }
    maker.show_state();
}

/// Questions for TLVs: the first of two, an empty one, one behind the End TLV, one before a cut, type 0.
pub fn tlv_questions(maker: &mut Maker, setting: &Setting, round: usize) {
    let wanted = maker.random.of(&[1, 3, 32, 36, 255]);
    let value = maker.random.octets(5);
    let first = tlv(wanted, &value);
    let other = tlv(wanted ^ 2, &[wanted, 0, 1, 9]);
    let end = vec![0];
    let tails = [
        [other.clone(), first.clone(), tlv(wanted, &[8]), end.clone()].concat(),
        [tlv(wanted, &[]), first.clone(), end.clone()].concat(),
        [other.clone(), tlv(wanted, &[]), end.clone()].concat(),
        [other.clone(), end.clone(), first.clone(), end.clone()].concat(),
        [first.clone(), other.clone()].concat(),
        [first.clone(), vec![9, 0, 1]].concat(),
        [first.clone(), vec![9, 0]].concat(),
        [other.clone(), other.clone(), other.clone(), other.clone(), first.clone(), end.clone()].concat(),
        end.clone(),
        vec![],
    ];
    for (place, tail) in tails.into_iter().enumerate() {
        let opcode = maker.random.of(&crate::messages::TABLE);
        let frame = good(&mut maker.random, setting, opcode).with_tail(tail).octets();
        maker.ask_tlv(wanted, &frame);
        if place % 4 == round % 4 {
            maker.ask_tlv(0, &frame);
        }
    }
    let strange = maker.random.of(&crate::messages::FOREIGN);
    let frame = good(&mut maker.random, setting, strange).octets();
    maker.ask_tlv(wanted, &frame);
    let low = good(&mut maker.random, setting, crate::messages::LBR);
    maker.ask_tlv(wanted, &Message { offset: 3, ..low }.octets());
    every_offset_below(maker, setting, round);
    let mut frame = service(&mut maker.random);
    frame.extend([0; 4]);
    maker.ask_tlv(wanted, &frame);
}

/// The reader's D4 and D5 for every opcode of the table.
fn every_offset_below(maker: &mut Maker, setting: &Setting, round: usize) {
    let short = good(&mut maker.random, setting, 5).octets_of_length(&mut maker.random, 17 - round % 2);
    maker.ask_tlv(3, &short);
    for opcode in crate::messages::TABLE {
        let plain = good(&mut maker.random, setting, opcode);
        if crate::messages::least(opcode) > 0 {
            let least = u8::try_from(crate::messages::least(opcode)).unwrap_or(1);
            maker.ask_tlv(3, &Message { offset: least - 1, ..plain.clone() }.octets());
        }
        maker.ask_tlv(3, &plain.clone().with_tail(vec![3, 0, 2, 1]).octets());
        let short = plain.octets_of_length(&mut maker.random, 16 + round % 2);
        maker.ask_tlv(3, &short);
    }
}

/// Records with a wrong length, a wrong kind, cut short, and followed by more octets.
pub fn records(maker: &mut Maker, setting: &Setting) {
    let body = setting.octets();
    let cut = maker.random.below(85);
    let good_record = record(1, 83, &body);
    let settings = [
        good_record.clone(),
        [good_record.clone(), vec![1, 2, 3]].concat(),
        good_record[..cut].to_vec(),
        good_record[..84].to_vec(),
        record(1, 84, &[body.clone(), vec![0]].concat()),
        record(1, 82, &body),
        record(2, 83, &body),
        record(257, 83, &body),
        record(1, 83 + 256, &body),
        vec![],
    ];
    for octets in settings {
        maker.read_settings(&octets);
    }
    loss_lines(maker);
}

/// The same for loss lines, and the two of the paper's example.
fn loss_lines(maker: &mut Maker) {
    let session = kept_session(&mut maker.random, 900);
    let body = loss_line_body(&session);
    let good_record = record(2, 22, &body);
    let cut = maker.random.below(24);
    let first = Lent { near: -1, far: 0, intervals: 1, ..cleared() };
    let second = Lent { near: 5, far: 4_294_967_295, intervals: 3, ..cleared() };
    let lines = [
        good_record.clone(),
        [record(2, 22, &loss_line_body(&first)), record(2, 22, &loss_line_body(&second))].concat(),
        record(2, 22, &loss_line_body(&second)),
        good_record[..cut].to_vec(),
        good_record[..23].to_vec(),
        record(2, 23, &[body.clone(), vec![0]].concat()),
        record(2, 21, &body),
        record(1, 22, &body),
        record(514, 22, &body),
        record(2, 22 + 256, &body),
        vec![22, 0, 2],
    ];
    for octets in lines {
        maker.read_loss_line(&octets);
    }
}

/// Rule 1: both counts at their ends, and what is sent and answered from them.
pub fn counts(maker: &mut Maker, setting: &Setting, round: usize) {
    for (sent, received) in [(u32::MAX, [5, 0][round % 2]), (7, u32::MAX)] {
        let mut state = quiet_state(&mut maker.random, setting);
        state.sent = sent;
        state.received = received;
        maker.put_state(&state);
        for side in [ACTIVE, PASSIVE, PASSIVE] {
            let frame = service(&mut maker.random);
            maker.frame(side, 0, NONE, &frame);
        }
        let higher = Message { level: 7, to: setting.own, ..good(&mut maker.random, setting, LBM) };
        maker.frame(PASSIVE, 0, NONE, &higher.octets());
        maker.send_lmm(31);
        let request = good(&mut maker.random, setting, LMM).octets();
        maker.frame(ACTIVE, request.len(), NONE, &request);
        maker.show_state();
    }
}

/// The paper's edges as calls.
pub fn edges(maker: &mut Maker, setting: &Setting, round: usize) {
    let mut state = quiet_state(&mut maker.random, setting);
    state.session = cleared();
    for (counts, ours) in [([100, 100, 50], 50), ([200, 198, 60], 61), ([200, 198, 60], 60)] {
        state.received = ours;
        maker.put_session(&Lent { kept: 1, reading: [100, 100, 50, 50], ..cleared() });
        maker.measure([counts[0], counts[1], counts[2], ours]);
    }
    maker.put_session(&Lent { kept: 1, reading: [4_294_967_290, 5, 9, 0], ..cleared() });
    maker.measure([10, 5, 9, u32::MAX]);
    maker.put_state(&state);
    let received = (10, 1_200);
    for middle in [[(10, 400), (10, 900)], [(0, 0), (0, 0)]] {
        let frame = delay_reply(maker, setting, [(10, 0), middle[0], middle[1]]).octets();
        maker.frame(ACTIVE, 0, [received, (0, 0)], &frame);
    }
    let frame = delay_reply(maker, setting, [(10, 0), (0, 0), (0, 0)]).octets();
    maker.frame(ACTIVE, 0, [(9, 999_999_999), (0, 0)], &frame);
    let gap = [0, 4, 0, 1];
    let mut version_1 =
        ccm_of(maker, setting, setting.peers[0]).with_offset(&mut maker.random, 74).with_fixed(70, &gap);
    version_1.version = 1;
    maker.frame(ACTIVE, 0, NONE, &version_1.octets());
    maker.ask_tlv(if round % 2 == 0 { 4 } else { 0 }, &version_1.octets());
    maker.frame(ACTIVE, 0, NONE, &Message { offset: 69, ..version_1 }.octets());
}

/// A new setting of a short period, ticks with service frames between them until continuity is lost, then a CCM.
pub fn until_lost(maker: &mut Maker, setting: &Setting, round: usize) {
    let short = good_setting(&mut maker.random, setting.level, 1, 1 + round % 3);
    maker.new_setting(&short);
    for tick in 0..8 {
        maker.tick(89);
        if tick > 4 {
            maker.conditions();
        }
        if tick % 2 == 0 {
            let frame = service(&mut maker.random);
            maker.frame(ACTIVE, 0, NONE, &frame);
        }
    }
    let from_peer = Message { to: multicast(short.level), ..ccm_of(maker, &short, short.peers[0]) };
    maker.frame(ACTIVE, 0, NONE, &from_peer.octets());
    maker.conditions();
    maker.tick(89);
    maker.clear();
    maker.show_state();
    put_good(maker, &short);
}
