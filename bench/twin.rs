// The faster twin: the end point as fast as Rust has it, without proofs and without `unsafe`. It has the same seven arrays, the same duties
// and the same answers as the proved one: the whole state is tested on every call. `plain.rs` is the same end point written the usual way.
//
// Slots are tested many at a time: IDs as lanes of a word, timers and RDIs in fixed loops that become vectors. README.md says what else is
// done for speed.

use crate::ffi::{Arrays, ConditionFlags, ConditionsTold, FrameTold, LineTold, LossLine, LossSession, LossTold, NAMES, Names, NewBox, PEERS};
use crate::ffi::{RUN, Readings, Run, Set, SettingArrays, SettingsRead, Slots, Stamp, Totals, Written};
#[cfg(tlv)]
use crate::ffi::TlvTold;

// Where the words of `run` lie.
const MISMERGE: usize = 0;
const LEVEL: usize = 1;
const MEP: usize = 2;
const PERIOD: usize = 3;
const AIS: usize = 4;
const LCK: usize = 5;
const NEXT: usize = 6;
const SENT: usize = 7;
const RECEIVED: usize = 8;
const KEPT: usize = 9;
const READING: usize = 10; // TxFCf, RxFCf, TxFCb, our received count
const INTERVALS: usize = 14;

const TICKS: [u32; 8] = [0, 2, 6, 60, 600, 6_000, 36_000, 360_000];
const HOLDS: [u32; 8] = [0, 7, 21, 210, 2_100, 21_000, 126_000, 1_260_000];
const ALARM_MOST: u32 = 126_000;
const INTERVALS_MOST: u32 = 1_000_000_000;
const NANOS_MOST: u32 = 999_999_999;
const LOSS_MOST: i64 = 4_294_967_295;
const ADDRESS: u64 = (1 << 48) - 1;

fn refused(refusal: u32) -> FrameTold {
    FrameTold { refusal, ..Default::default() }
}

fn dropped(drop: u32) -> FrameTold {
    FrameTold { drop, ..Default::default() }
}

fn done(done: u32) -> FrameTold {
    FrameTold { done, ..Default::default() }
}

// Numbers as octets have them; the place is within what is given, which the caller has tested.
#[inline(always)]
fn le64(f: &[u8], at: usize) -> u64 {
    u64::from_le_bytes(f[at..at + 8].try_into().unwrap())
}

#[inline(always)]
fn be32(f: &[u8], at: usize) -> u32 {
    u32::from_be_bytes(f[at..at + 4].try_into().unwrap())
}

// An address as one number, and what lies behind it left out.
#[inline(always)]
fn own(names: &Names) -> u64 {
    le64(names, 0) & ADDRESS
}

#[inline(always)]
fn loss_peer(names: &Names) -> u64 {
    le64(names, 6) & ADDRESS
}

#[inline(always)]
fn hold(set: &Set) -> u32 {
    HOLDS[set[2] as usize & 7]
}

// Peers' IDs, four in a word: slots 0, 2, 1, 3 by its lanes of 16 bits. TOP is the highest bit of each lane. Of so many peers, USED has
// that bit for each lane that is used, and SLOTS has all bits of each slot that is used.
const LANES: u64 = 0x0001_0001_0001_0001;
const TOP: u64 = LANES << 15;
// The bits of two words that an ID does not have.
const WIDE: u64 = !(8191 << 32 | 8191);
static USED: [[u64; 2]; 16] = used([15, 47, 31, 63]);
static SLOTS: [Slots; 16] = slots();

const fn used(lane: [u32; 4]) -> [[u64; 2]; 16] {
    let (mut all, mut k) = ([[0; 2]; 16], 0);
    while k < 16 * PEERS {
        let (count, slot) = (k / PEERS, k % PEERS);
        if slot < count {
            all[count][slot / 4] |= 1 << lane[slot % 4];
        }
        k += 1;
    }
    all
}

const fn slots() -> [Slots; 16] {
    let (mut all, mut k) = ([[0; PEERS]; 16], 0);
    while k < 16 * PEERS {
        if k % PEERS < k / PEERS {
            all[k / PEERS][k % PEERS] = u32::MAX;
        }
        k += 1;
    }
    all
}

// The highest bit of each lane is set where the lane is not 0; each lane has 15 bits at most.
#[inline(always)]
fn full(x: u64) -> u64 {
    x.wrapping_add(TOP - LANES)
}

#[inline(always)]
fn pair(words: &[u32], k: usize) -> u64 {
    words[k] as u64 | (words[k + 1] as u64) << 32
}

// The highest bit of each lane in which a word is unlike another, turned by so many lanes, is set.
#[inline(always)]
fn unlike(x: u64, y: u64, turned: u32) -> u64 {
    full(x ^ y.rotate_left(16 * turned))
}

// The first four peers' IDs: all used ones are there, no two are alike, and none is our own.
#[inline(always)]
fn low_good(low: u64, meps: u64, used: u64) -> bool {
    let apart = unlike(low, low, 1) & unlike(low, low, 2) & unlike(low, meps, 0);
    full(low) & TOP == used && !apart & used == 0
}

// The other four, which are also unlike the first.
#[inline(always)]
fn high_good(low: u64, high: u64, meps: u64, used: &[u64; 2]) -> bool {
    let apart = unlike(low, high, 0) & unlike(low, high, 1) & unlike(low, high, 2) & unlike(low, high, 3);
    let more = unlike(high, high, 1) & unlike(high, high, 2) & unlike(high, meps, 0);
    full(high) & TOP == used[1] && !apart & used[0] | !more & used[1] == 0
}

// The peers' IDs are 1 to 8191 in used slots and 0 in others, no two used ones are alike, and none is our own.
#[inline(always)]
fn ids_good(mep: u32, count: u32, ids: &Slots) -> bool {
    let (a, b, rest) = (pair(ids, 0), pair(ids, 2), pair(ids, 4) | pair(ids, 6));
    let (low, meps, used) = (a | b << 16, (mep as u64).wrapping_mul(LANES), &USED[count as usize & 15]);
    if (a | b) & WIDE != 0 || !low_good(low, meps, used[0]) {
        return false;
    }
    if rest == 0 { used[1] == 0 } else { rest & WIDE == 0 && high_good(low, pair(ids, 4) | pair(ids, 6) << 16, meps, used) }
}

// Level, MEP ID, period code and peer count: 0 to 7, 1 to 8191, 1 to 7, 1 to 8. Of 0 less 1 all bits are set.
#[inline(always)]
fn numbers_good(set: &Set) -> bool {
    let [level, mep, period, count] = *set;
    (level | period | period.wrapping_sub(1) | count.wrapping_sub(1)) & !7 | (mep | mep.wrapping_sub(1)) & !8191 == 0
}

// Addresses in the low 48 bits: neither is a group's, and they are not the same.
#[inline(always)]
fn names_good(own: u64, peer: u64) -> bool {
    (own | peer) & 1 == 0 && (own ^ peer) << 16 != 0
}

#[inline(always)]
fn settings_valid(set: &Set, names: &Names, ids: &Slots) -> bool {
    numbers_good(set) && names_good(le64(names, 0), le64(names, 6)) && ids_good(set[1], set[3], ids)
}

// The rules on totals and intervals, of a session and of a stored line.
#[inline(always)]
fn line_good(near: i64, far: i64, intervals: u32) -> bool {
    let most = (intervals as i64).wrapping_mul(LOSS_MOST);
    intervals <= INTERVALS_MOST && near <= most && far <= most && near >= most.wrapping_neg() && far >= most.wrapping_neg()
}

// All bits where two words are alike.
#[inline(always)]
fn alike(a: u32, b: u32) -> u32 {
    if a == b { u32::MAX } else { 0 }
}

// Whether a word is more than a bound below 2^31: the highest bit.
#[inline(always)]
fn over(word: u32, most: u32) -> u32 {
    word | most.wrapping_sub(word)
}

// Timers and RDIs of all slots, those of unused ones 0, and the four timers of conditions.
#[inline(always)]
fn slots_good(count: u32, hold: u32, timers: &Slots, rdi: &Slots, run: &Run) -> bool {
    let used = &SLOTS[count as usize & 15];
    let mut wrong = 0;
    for k in 0..PEERS {
        wrong |= over(timers[k], hold & used[k]);
    }
    for k in 0..PEERS {
        wrong |= over(rdi[k], used[k] >> 31);
    }
    for k in 0..4 {
        wrong |= over(run[k], hold);
    }
    wrong >> 31 == 0
}

// Where nothing is kept, nothing else is either.
#[inline(always)]
fn session_good(run: &Run, totals: &Totals) -> bool {
    if run[KEPT] == 1 {
        return line_good(totals[0], totals[1], run[INTERVALS]);
    }
    totals[0] | totals[1] == 0 && run[KEPT..] == [0; RUN - KEPT]
}

#[inline(never)]
fn well_formed(s: &Arrays) -> bool {
    numbers_good(&s.set)
        && names_good(le64(&s.names, 0), le64(&s.names, 6))
        && slots_good(s.set[3], hold(&s.set), &s.timers, &s.rdi, &s.run)
        && s.run[AIS] <= ALARM_MOST
        && s.run[LCK] <= ALARM_MOST
        && s.run[NEXT].wrapping_sub(1) < TICKS[s.set[2] as usize & 7]
        && session_good(&s.run, &s.totals)
        && ids_good(s.set[1], s.set[3], &s.ids)
}

fn good(stamp: Stamp) -> bool {
    stamp.nanoseconds <= NANOS_MOST
}

fn given(stamp: Stamp) -> bool {
    stamp.seconds | stamp.nanoseconds != 0
}

fn nanos(stamp: Stamp) -> i64 {
    stamp.seconds as i64 * 1_000_000_000 + stamp.nanoseconds as i64
}

fn read_stamp(f: &[u8], at: usize) -> Stamp {
    Stamp { seconds: be32(f, at), nanoseconds: be32(f, at + 4) }
}

fn stamp_octets(stamp: Stamp) -> [u8; 8] {
    ((stamp.seconds as u64) << 32 | stamp.nanoseconds as u64).to_be_bytes()
}

// What is asked of a message, by its opcode: the least offset, and which tests it has. `least` of 256 is an opcode that is not handled.
#[derive(Clone, Copy)]
struct Rule {
    least: u16,
    // 1 where the multicast address of the level will do
    multicast: u8,
    // 1 where the source must not be a group's
    request: u8,
}

const NONE: Rule = Rule { least: 256, multicast: 0, request: 0 };
const RULES: [Rule; 256] = rules();

const fn rules() -> [Rule; 256] {
    let mut all = [NONE; 256];
    all[1] = Rule { least: 70, multicast: 1, request: 0 };
    all[3] = Rule { least: 4, multicast: 1, request: 1 };
    all[33] = Rule { least: 0, multicast: 1, request: 0 };
    all[35] = Rule { least: 0, multicast: 1, request: 0 };
    all[42] = Rule { least: 12, multicast: 0, request: 0 };
    all[43] = Rule { least: 12, multicast: 1, request: 1 };
    all[46] = Rule { least: 32, multicast: 0, request: 0 };
    all[47] = Rule { least: 32, multicast: 1, request: 1 };
    all
}

// Whether the TLVs from a place on are whole, up to the End TLV.
#[inline(always)]
fn ends(f: &[u8], from: usize) -> bool {
    let mut at = from;
    while let Some(&kind) = f.get(at) {
        if kind == 0 {
            return true;
        }
        let Some(&[high, low]) = f.get(at + 1..at + 3).and_then(|l| l.first_chunk()) else { return false };
        at += 3 + u16::from_be_bytes([high, low]) as usize;
    }
    false
}

// The multicast address of level 0, as a number; the level is added to its last octet.
const MULTICAST: u64 = u64::from_le_bytes([0x01, 0x80, 0xc2, 0, 0, 0x30, 0, 0]);

// D4 to D7 of a frame at its level, or 0, D7 of a delay reply's stamps left to its handler.
#[inline(always)]
fn fault(s: &Arrays, f: &[u8], head: &[u8; 18], level: u8, rule: Rule) -> u32 {
    let offset = head[17];
    if (offset as u16) < rule.least {
        return 4;
    }
    if !ends(f, 18 + offset as usize) {
        return 5;
    }
    let (to, from, opcode) = (le64(head, 0) & ADDRESS, le64(head, 6) & ADDRESS, head[15]);
    if to != own(&s.names) && (rule.multicast == 0 || to != MULTICAST + ((level as u64) << 40)) {
        return 6;
    }
    if rule.request as u64 & from != 0 || (opcode == 42 && from != loss_peer(&s.names)) {
        return 6;
    }
    let code = head[16] & 7;
    if (opcode == 1 && code == 0) || ((opcode == 33 || opcode == 35) && code != 4 && code != 6) {
        return 7;
    }
    0
}

#[inline(always)]
fn same(a: &[u8; 48], b: &[u8; 48]) -> bool {
    let mut other = 0;
    for k in 0..6 {
        other |= le64(a, 8 * k) ^ le64(b, 8 * k);
    }
    other == 0
}

// All slots are written again in one go, as the state test of the next call reads them.
#[inline(always)]
fn ccm(s: &mut Arrays, f: &[u8]) -> FrameTold {
    let Some(f) = f.first_chunk::<72>() else { return dropped(5) };
    let hold = hold(&s.set);
    let id = u16::from_be_bytes([f[22], f[23]]) as u32 & 8191;
    let rdi = (f[16] >> 7) as u32;
    if !same(f[24..].try_into().unwrap(), s.names[12..].try_into().unwrap()) {
        s.run[MISMERGE] = hold;
        return done(2);
    }
    let (mut it, mut found) = ([0; PEERS], 0);
    for k in 0..PEERS {
        it[k] = alike(s.ids[k], id);
        found |= it[k];
    }
    if id == 0 || found == 0 {
        s.run[MEP] = hold;
        return done(2);
    }
    for k in 0..PEERS {
        s.timers[k] = s.timers[k] & !it[k] | hold & it[k];
    }
    for k in 0..PEERS {
        s.rdi[k] = s.rdi[k] & !it[k] | rdi & it[k];
    }
    if (f[16] & 7) as u32 != s.set[2] {
        s.run[PERIOD] = hold;
    }
    done(2)
}

#[inline(always)]
fn loss_reply(s: &mut Arrays, f: &[u8]) -> FrameTold {
    let Some(f) = f.first_chunk::<30>() else { return dropped(5) };
    let now = [be32(f, 18), be32(f, 22), be32(f, 26), s.run[RECEIVED]];
    if s.run[KEPT] == 0 {
        s.run[KEPT] = 1;
        s.run[READING..INTERVALS].copy_from_slice(&now);
        return done(4);
    }
    if s.run[INTERVALS] == INTERVALS_MOST {
        return refused(5);
    }
    let grown = |i: usize| now[i].wrapping_sub(s.run[READING + i]) as i64;
    let (far, near) = (grown(0) - grown(1), grown(2) - grown(3));
    s.totals[0] += near;
    s.totals[1] += far;
    s.run[INTERVALS] += 1;
    s.run[READING..INTERVALS].copy_from_slice(&now);
    FrameTold { done: 5, near, far, ..Default::default() }
}

#[inline(always)]
fn delay_reply(f: &[u8], here: Stamp) -> FrameTold {
    let Some(f) = f.first_chunk::<42>() else { return dropped(5) };
    let (txf, rxf, txb) = (read_stamp(f, 18), read_stamp(f, 26), read_stamp(f, 34));
    if !good(txf) || !given(here) {
        return dropped(7);
    }
    let all = nanos(here) - nanos(txf);
    if !given(rxf) || !given(txb) {
        return FrameTold { done: 6, two_way: all, ..Default::default() };
    }
    if !good(rxf) || !good(txb) {
        return dropped(7);
    }
    FrameTold {
        done: 7,
        two_way: all - (nanos(txb) - nanos(rxf)),
        one_way_far: nanos(rxf) - nanos(txf),
        one_way_near: nanos(here) - nanos(txb),
        ..Default::default()
    }
}

// Octets of the same number, in blocks; the last block is laid over the one before it. A frame that is answered has 19 octets or more.
#[inline(always)]
fn copy(out: &mut [u8], f: &[u8]) {
    fn ends<const N: usize>(out: &mut [u8], f: &[u8]) {
        let (Some(a), Some(b)) = (f.first_chunk::<N>().copied(), f.last_chunk::<N>().copied()) else { return };
        if let Some(to) = out.first_chunk_mut() {
            *to = a;
        }
        if let Some(to) = out.last_chunk_mut() {
            *to = b;
        }
    }
    match f.len() {
        16..=32 => ends::<16>(out, f),
        33..=64 => ends::<32>(out, f),
        65..=128 => ends::<64>(out, f),
        _ => out.copy_from_slice(f),
    }
}

#[inline(always)]
fn reply(s: &Arrays, f: &[u8], receive: Stamp, transmit: Stamp, out: &mut [u8]) -> FrameTold {
    let n = f.len();
    let Some(out) = out.get_mut(..n) else { return refused(3) };
    copy(out, f);
    let own = own(&s.names);
    let head: &mut [u8; 16] = out.first_chunk_mut().unwrap();
    head[..8].copy_from_slice(&(le64(f, 6) & ADDRESS | own << 48).to_le_bytes());
    head[8..12].copy_from_slice(&((own >> 16) as u32).to_le_bytes());
    head[15] = f[15] - 1;
    if f[15] == 43 {
        out[22..30].copy_from_slice(&((s.run[RECEIVED] as u64) << 32 | s.run[SENT] as u64).to_be_bytes());
    } else if f[15] == 47 {
        out[26..34].copy_from_slice(&stamp_octets(receive));
        out[34..42].copy_from_slice(&stamp_octets(transmit));
    }
    FrameTold { done: 3, length: n, ..Default::default() }
}

pub fn on_frame(s: &mut Arrays, active: bool, f: &[u8], receive: Stamp, transmit: Stamp, out: &mut [u8]) -> FrameTold {
    if !well_formed(s) {
        return refused(2);
    }
    if f.len() < 14 || f.len() > 1514 {
        return refused(1);
    }
    if !good(receive) || !good(transmit) {
        return refused(6);
    }
    if [f[12], f[13]] != [0x89, 0x02] {
        let count = &mut s.run[if active { RECEIVED } else { SENT }];
        *count = count.wrapping_add(1);
        return done(1);
    }
    let Some(head) = f.first_chunk::<18>() else { return dropped(1) };
    let (level, own) = (head[14] >> 5, s.set[0] as u8);
    if level > own {
        return done(1);
    }
    if !active {
        return dropped(2);
    }
    let rule = RULES[head[15] as usize];
    if level < own {
        if head[15] == 1 && fault(s, f, head, level, rule) == 0 {
            s.run[LEVEL] = hold(&s.set);
        }
        return dropped(2);
    }
    if rule.least == 256 {
        return dropped(3);
    }
    let drop = fault(s, f, head, level, rule);
    if drop != 0 {
        return dropped(drop);
    }
    match head[15] {
        1 => ccm(s, f),
        33 | 35 => {
            s.run[if head[15] == 33 { AIS } else { LCK }] = HOLDS[(head[16] & 7) as usize];
            done(2)
        }
        42 => loss_reply(s, f),
        46 => delay_reply(f, receive),
        _ => reply(s, f, receive, transmit, out),
    }
}

#[inline(always)]
fn less(t: u32) -> u32 {
    t - (t != 0) as u32
}

pub fn tick(s: &mut Arrays, out: &mut [u8]) -> Written {
    if !well_formed(s) {
        return Written { refusal: 2, length: 0 };
    }
    let last = s.run[NEXT] == 1;
    if last && out.len() < 89 {
        return Written { refusal: 3, length: 0 };
    }
    for t in &mut s.timers {
        *t = less(*t);
    }
    for t in &mut s.run[..NEXT] {
        *t = less(*t);
    }
    if !last {
        s.run[NEXT] -= 1;
        return Written { refusal: 0, length: 0 };
    }
    s.run[NEXT] = TICKS[s.set[2] as usize & 7];
    let [level, mep, period, count] = s.set;
    let used = &SLOTS[count as usize & 15];
    let mut stands = 0;
    for k in 0..PEERS {
        stands |= alike(s.timers[k], 0) & used[k];
    }
    for t in &s.run[..NEXT] {
        stands |= *t;
    }
    let rdi = (stands != 0) as u8;
    let out: &mut [u8; 89] = out.first_chunk_mut().unwrap();
    let own = own(&s.names);
    out[..8].copy_from_slice(&(MULTICAST + ((level as u64) << 40) | own << 48).to_le_bytes());
    out[8..12].copy_from_slice(&((own >> 16) as u32).to_le_bytes());
    out[12..18].copy_from_slice(&[0x89, 0x02, (level as u8) << 5, 1, period as u8 | rdi << 7, 70]);
    out[18..22].fill(0);
    out[22..24].copy_from_slice(&(mep as u16).to_be_bytes());
    out[24..72].copy_from_slice(&s.names[12..]);
    out[72..].fill(0);
    Written { refusal: 0, length: 89 }
}

// The head of a message of version 1 to the loss peer.
#[inline(always)]
fn request(s: &Arrays, opcode: u8, offset: u8) -> [u8; 18] {
    let (own, peer) = (own(&s.names), loss_peer(&s.names));
    let mut head = [0; 18];
    head[..8].copy_from_slice(&(peer | own << 48).to_le_bytes());
    head[8..12].copy_from_slice(&((own >> 16) as u32).to_le_bytes());
    head[12..].copy_from_slice(&[0x89, 0x02, (s.set[0] as u8) << 5 | 1, opcode, 0, offset]);
    head
}

pub fn send_lmm(s: &Arrays, out: &mut [u8]) -> Written {
    if !well_formed(s) {
        return Written { refusal: 2, length: 0 };
    }
    let Some(out) = out.first_chunk_mut::<31>() else { return Written { refusal: 3, length: 0 } };
    out[..18].copy_from_slice(&request(s, 43, 12));
    out[18..22].copy_from_slice(&s.run[SENT].to_be_bytes());
    out[22..].fill(0);
    Written { refusal: 0, length: 31 }
}

pub fn send_dmm(s: &Arrays, stamp: Stamp, out: &mut [u8]) -> Written {
    if !well_formed(s) {
        return Written { refusal: 2, length: 0 };
    }
    if !good(stamp) {
        return Written { refusal: 6, length: 0 };
    }
    let Some(out) = out.first_chunk_mut::<51>() else { return Written { refusal: 3, length: 0 } };
    out[..18].copy_from_slice(&request(s, 47, 32));
    out[18..26].copy_from_slice(&stamp_octets(stamp));
    out[26..].fill(0);
    Written { refusal: 0, length: 51 }
}

// A box that was never set.
const NOTHING: Arrays =
    Arrays { set: [0; 4], names: [0; NAMES], ids: [0; PEERS], timers: [0; PEERS], rdi: [0; PEERS], run: [0; RUN], totals: [0; 2] };

// Settings as they lie at the front; the rest is not looked at.
pub fn new_setting(s: &Arrays) -> NewBox {
    if !settings_valid(&s.set, &s.names, &s.ids) {
        return NewBox { refusal: 4, arrays: NOTHING };
    }
    let mut arrays = Arrays { set: s.set, names: s.names, ids: s.ids, ..NOTHING };
    let (hold, used) = (hold(&s.set), &SLOTS[s.set[3] as usize & 15]);
    for k in 0..PEERS {
        arrays.timers[k] = hold & used[k];
    }
    arrays.run[NEXT] = TICKS[s.set[2] as usize & 7];
    NewBox { refusal: 0, arrays }
}

pub fn clear(s: &mut Arrays) -> u32 {
    if !well_formed(s) {
        return 2;
    }
    // where nothing is kept, all of it is 0
    if s.run[KEPT] != 0 {
        s.run[KEPT..].fill(0);
        s.totals = Totals::default();
    }
    0
}

pub fn conditions(s: &Arrays) -> ConditionsTold {
    if !well_formed(s) {
        return ConditionsTold { refusal: 2, ..Default::default() };
    }
    let stands = |at: usize| (s.run[at] != 0) as u32;
    let mut flags = ConditionFlags {
        // 0 in unused slots
        rdi: s.rdi,
        mismerge: stands(MISMERGE),
        unexpected_mep: stands(MEP),
        unexpected_period: stands(PERIOD),
        unexpected_level: stands(LEVEL),
        ais: stands(AIS),
        lck: stands(LCK),
        ..Default::default()
    };
    let used = &SLOTS[s.set[3] as usize & 15];
    for k in 0..PEERS {
        flags.lost[k] = (alike(s.timers[k], 0) & used[k]) >> 31;
    }
    ConditionsTold { refusal: 0, conditions: flags }
}

pub fn write_settings(s: &Arrays, into: &mut [u8]) -> Written {
    if !settings_valid(&s.set, &s.names, &s.ids) {
        return Written { refusal: 4, length: 0 };
    }
    let Some(into) = into.first_chunk_mut::<85>() else { return Written { refusal: 3, length: 0 } };
    into[..4].copy_from_slice(&[83, 0, 1, 0]);
    into[4] = s.set[0] as u8;
    into[5..7].copy_from_slice(&(s.set[1] as u16).to_le_bytes());
    into[7..13].copy_from_slice(&s.names[..6]);
    into[13] = s.set[2] as u8;
    into[14..62].copy_from_slice(&s.names[12..]);
    into[62..68].copy_from_slice(&s.names[6..12]);
    into[68] = s.set[3] as u8;
    for k in 0..PEERS {
        into[69 + 2 * k..71 + 2 * k].copy_from_slice(&(s.ids[k] as u16).to_le_bytes());
    }
    Written { refusal: 0, length: 85 }
}

// The peers' IDs lie in a record as lanes of two words, in their order; USED_IN_ORDER has the highest bit of each used lane.
static USED_IN_ORDER: [[u64; 2]; 16] = used([15, 31, 47, 63]);

pub fn read_settings(from: &[u8]) -> SettingsRead {
    let refused = SettingsRead { refusal: 7, settings: SettingArrays { set: [0; 4], names: [0; NAMES], ids: [0; PEERS] } };
    let Some(from) = from.first_chunk::<85>() else { return refused };
    let le16 = |at: usize| u16::from_le_bytes([from[at], from[at + 1]]) as u32;
    let set = [from[4] as u32, le16(5), from[13] as u32, from[68] as u32];
    let (own, peer) = (le64(from, 7) & ADDRESS, le64(from, 62) & ADDRESS);
    let (low, high, meps, used) = (le64(from, 69), le64(from, 77), set[1] as u64 * LANES, &USED_IN_ORDER[set[3] as usize & 15]);
    let good = from[..4] == [83, 0, 1, 0] && numbers_good(&set) && names_good(own, peer) && (low | high) & !(8191 * LANES) == 0;
    if !good || !low_good(low, meps, used[0]) || !(high | used[1] == 0 || high_good(low, high, meps, used)) {
        return refused;
    }
    let mut names = [0; NAMES];
    names[..8].copy_from_slice(&(own | peer << 48).to_le_bytes());
    names[8..12].copy_from_slice(&((peer >> 16) as u32).to_le_bytes());
    names[12..].copy_from_slice(&from[14..62]);
    SettingsRead { refusal: 0, settings: SettingArrays { set, names, ids: std::array::from_fn(|k| le16(69 + 2 * k)) } }
}

pub fn read_line(from: &[u8]) -> LineTold {
    let refused = LineTold { refusal: 7, ..Default::default() };
    let Some(from) = from.first_chunk::<24>() else { return refused };
    let (near, far) = (le64(from, 4) as i64, le64(from, 12) as i64);
    let intervals = u32::from_le_bytes(from[20..].try_into().unwrap());
    if from[..4] != [22, 0, 2, 0] || !line_good(near, far, intervals) {
        return refused;
    }
    LineTold { refusal: 0, intervals, near, far }
}

pub fn write_line(into: &mut [u8], line: LossLine) -> Written {
    if !line_good(line.near, line.far, line.intervals) {
        return Written { refusal: 4, length: 0 };
    }
    let Some(into) = into.first_chunk_mut::<24>() else { return Written { refusal: 3, length: 0 } };
    into[..4].copy_from_slice(&[22, 0, 2, 0]);
    into[4..12].copy_from_slice(&line.near.to_le_bytes());
    into[12..20].copy_from_slice(&line.far.to_le_bytes());
    into[20..].copy_from_slice(&line.intervals.to_le_bytes());
    Written { refusal: 0, length: 24 }
}

pub fn measured(session: &mut LossSession, now: Readings) -> LossTold {
    let refused = |refusal: u32| LossTold { refusal, ..Default::default() };
    if session.kept == 1 {
        if !line_good(session.near, session.far, session.intervals) {
            return refused(2);
        }
        if session.intervals == INTERVALS_MOST {
            return refused(5);
        }
        let (grown, last) = (|now: u32, last: u32| now.wrapping_sub(last) as i64, session.last);
        let far = grown(now.txf, last.txf) - grown(now.rxf, last.rxf);
        let near = grown(now.txb, last.txb) - grown(now.ours, last.ours);
        session.near += near;
        session.far += far;
        session.intervals += 1;
        session.last = now;
        return LossTold { refusal: 0, near, far };
    }
    // where nothing is kept, all of it is 0
    if *session != LossSession::default() {
        return refused(2);
    }
    session.kept = 1;
    session.last = now;
    LossTold::default()
}

// The first TLV of a type, and what the reader tests before it.
#[cfg(tlv)]
pub fn find_tlv(f: &[u8], kind: u8) -> TlvTold {
    let dropped = |drop: u32| TlvTold { drop, ..Default::default() };
    if f.len() < 14 || f.len() > 1514 {
        return TlvTold { refusal: 1, ..Default::default() };
    }
    if [f[12], f[13]] != [0x89, 0x02] {
        return dropped(3);
    }
    let Some(head) = f.first_chunk::<18>() else { return dropped(1) };
    let least = if head[15] == 2 { 4 } else { RULES[head[15] as usize].least };
    if (head[17] as u16) < least {
        return dropped(if least == 256 { 3 } else { 4 });
    }
    let mut at = 18 + head[17] as usize;
    while let Some(&k) = f.get(at) {
        if k == 0 {
            return TlvTold::default();
        }
        let Some(&[high, low]) = f.get(at + 1..at + 3).and_then(|l| l.first_chunk()) else { return dropped(5) };
        let (start, length) = (at + 3, u16::from_be_bytes([high, low]) as usize);
        at = start + length;
        if k == kind {
            return if ends(f, at) { TlvTold { value: 1, start, length, ..Default::default() } } else { dropped(5) };
        }
    }
    dropped(5)
}
