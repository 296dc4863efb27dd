//! Real messages with one fault, and with two, so that the order of two tests shows.

use crate::maker::{Maker, Stamp, ACTIVE};
use crate::messages::{
    good, least, multicast, tlv, Message, AIS, CCM, DMM, DMR, FOREIGN, HANDLED, LBM, LBR, LCK, LMM, LMR,
};
use crate::random::Random;
use crate::states::{quiet_state, unicast, Setting};
use crate::sweep::put_good;

const RECEIVED: [Stamp; 2] = [(20, 30), (20, 31)];

/// Every fault of every handled opcode, at the own level on the active side.
pub fn own_level(maker: &mut Maker, setting: &Setting, round: usize) {
    put_good(maker, setting);
    for opcode in HANDLED {
        let plain = good(&mut maker.random, setting, opcode).with_offset(&mut maker.random, least(opcode)).bare();
        let mut all = offset_faults(&plain);
        all.extend(in_turn(part_faults(&plain, round), round, 4));
        all.extend(in_turn(address_faults(&mut maker.random, setting, &plain, round), round, 5));
        all.extend(in_turn(value_faults(&plain), round, 3));
        all.extend(with_bad_value(&plain));
        all.extend(in_turn(double_faults(setting, &plain), round, 3));
        for message in all {
            maker.frame(ACTIVE, 0, RECEIVED, &message.octets());
        }
    }
    for opcode in in_turn(FOREIGN.to_vec(), round, 3).into_iter().chain([LBR]) {
        let message = good(&mut maker.random, setting, opcode);
        maker.frame(ACTIVE, 0, RECEIVED, &message.octets());
    }
    maker.show_state();
}

/// Some of a list, others in each round, so that a few rounds go through all of it.
fn in_turn<T: Clone>(all: Vec<T>, round: usize, count: usize) -> Vec<T> {
    let most = count.min(all.len());
    all.iter().cycle().skip(round * count).take(most).cloned().collect()
}

/// D4: offsets below the least.
fn offset_faults(plain: &Message) -> Vec<Message> {
    let below = |offset: u8| Message { offset, ..plain.clone() };
    if plain.offset == 0 {
        vec![]
    } else {
        vec![below(plain.offset - 1), below(0)]
    }
}

/// D5: each way in which the End TLV, a TLV or the fixed part can be missing; and rows that just fit.
fn part_faults(plain: &Message, round: usize) -> Vec<Message> {
    let no_end = tlv(3, &[1, 2, 3]);
    let fits = [tlv(3, &[1, 0, 3]), tlv(255, &[]), vec![0]].concat();
    let short_value = [tlv(3, &[1, 2, 3]), vec![9, 0, 3, 1, 1]].concat();
    let tails = vec![
        vec![],
        vec![3],
        vec![3, 0],
        vec![3, 0, 0],
        no_end,
        short_value,
        vec![3, 1, 0, 0, 0],
        vec![0, 0, 9, 1],
        fits,
    ];
    let mut all: Vec<Message> = tails.into_iter().map(|tail| plain.clone().with_tail(tail)).collect();
    all.push(Message { offset: 255, ..plain.clone() });
    let mut cut = plain.clone().with_tail(vec![]);
    cut.fixed.truncate(round % (plain.fixed.len() + 1));
    all.push(cut);
    all
}

/// The destinations that are good for nobody, and the multicast addresses that are near the good one.
fn bad_destinations(random: &mut Random, setting: &Setting, round: usize) -> Vec<[u8; 6]> {
    let mut near_own = setting.own;
    near_own[round % 6] ^= 2;
    let mut near_multicast = multicast(setting.level);
    near_multicast[round % 5] ^= 0x10;
    let mut class_two = multicast(setting.level);
    class_two[5] += 8;
    vec![
        near_own,
        near_multicast,
        class_two,
        multicast(setting.level - 1),
        multicast(setting.level + 1),
        [255; 6],
        unicast(random),
        setting.loss_peer,
    ]
}

/// D6: destinations, the group bit in a source, a reply from another box.
fn address_faults(random: &mut Random, setting: &Setting, plain: &Message, round: usize) -> Vec<Message> {
    let to = |to: [u8; 6]| Message { to, ..plain.clone() };
    let mut all: Vec<Message> = bad_destinations(random, setting, round).into_iter().map(to).collect();
    all.push(to(multicast(setting.level)));
    all.push(to(setting.own));
    let mut group_source = plain.clone();
    group_source.from[0] |= 1;
    all.push(group_source);
    let mut near_peer = Message { to: setting.own, from: setting.loss_peer, ..plain.clone() };
    near_peer.from[round % 6] ^= 4;
    all.push(near_peer);
    all.push(Message { from: setting.own, ..to(setting.own) });
    all
}

/// D7: period codes 0 to 7, and stamps with too many nanoseconds.
fn value_faults(plain: &Message) -> Vec<Message> {
    match plain.opcode {
        CCM | AIS | LCK => (0..8).map(|code| Message { flags: (plain.flags & 0xF8) | code, ..plain.clone() }).collect(),
        DMR => [4, 12, 20].into_iter().map(|place| plain.clone().with_fixed(place, &[0xFF; 4])).collect(),
        _ => vec![],
    }
}

/// One value that D7 drops, for opcodes that have such a value.
fn with_bad_value(plain: &Message) -> Option<Message> {
    match plain.opcode {
        CCM | AIS | LCK => Some(Message { flags: 0, ..plain.clone() }),
        DMR => Some(plain.clone().with_fixed(4, &[0xFF; 4])),
        _ => None,
    }
}

/// Two faults in one frame: the first in the paper's order must be told.
fn double_faults(setting: &Setting, plain: &Message) -> Vec<Message> {
    let elsewhere = Message { to: [255; 6], ..plain.clone() };
    let mut all = vec![elsewhere.clone().with_tail(vec![])];
    let mut heads = vec![elsewhere, plain.clone().with_tail(vec![3])];
    if let Some(bad) = with_bad_value(plain) {
        all.push(Message { to: [255; 6], ..bad.clone() });
        all.push(bad.clone().with_tail(vec![]));
        heads.push(bad);
    }
    if plain.offset > 0 {
        all.extend(heads.iter().map(|head| Message { offset: plain.offset - 1, ..head.clone() }));
    }
    all.extend(heads.into_iter().map(|head| Message { opcode: LBR, offset: 0, ..head }));
    if matches!(plain.opcode, LBM | LMM | DMM | LMR) {
        let mut group_source = Message { to: setting.own, ..plain.clone() }.with_tail(vec![]);
        group_source.from[0] |= 1;
        all.push(group_source);
    }
    all
}

/// Rule 3: CCMs of a lower level, good and with each fault; the unexpected-level timer tells them apart.
pub fn lower_level_ccms(maker: &mut Maker, setting: &Setting, round: usize) {
    let lower = u8::try_from(maker.random.below(usize::from(setting.level))).unwrap_or(0);
    let plain = Message { level: lower, ..good(&mut maker.random, setting, CCM) };
    let plain = plain.with_offset(&mut maker.random, 70).bare();
    let mut group_source = Message { to: setting.own, ..plain.clone() };
    group_source.from[0] |= 1;
    let foreign = Message { to: setting.own, ..plain.clone() }.with_fixed(4, &[0; 54]);
    let cases = [
        Message { to: setting.own, ..plain.clone() },
        Message { to: multicast(lower), ..plain.clone() },
        Message { to: multicast(setting.level), ..plain.clone() },
        Message { to: setting.loss_peer, ..plain.clone() },
        Message { to: setting.own, offset: 69, ..plain.clone() },
        Message { to: setting.own, ..plain.clone() }.with_tail(vec![]),
        Message { to: setting.own, flags: 0x80, ..plain.clone() },
    ];
    let others = vec![
        Message { to: setting.own, ..plain.clone() }.with_tail(vec![3, 0, 1]),
        Message { to: setting.own, opcode: LBM, ..plain.clone() },
        Message { to: setting.own, opcode: AIS, flags: 4, offset: 0, fixed: vec![], ..plain.clone() },
        group_source,
        foreign,
    ];
    for message in cases.into_iter().chain(in_turn(others, round, 1)) {
        show_one_of_lower_level(maker, setting, &message);
    }
}

/// One such frame on a state without conditions, then the conditions and the timers.
fn show_one_of_lower_level(maker: &mut Maker, setting: &Setting, message: &Message) {
    let state = quiet_state(&mut maker.random, setting);
    maker.put_state(&state);
    maker.frame(ACTIVE, 0, RECEIVED, &message.octets());
    if maker.random.one_in(2) {
        maker.conditions();
    } else {
        maker.show_state();
    }
}
