// Times the box's calls beside their twins, in one run, turn about. `run` builds it; README.md says what it measures.
#[allow(dead_code)]
#[path = "../linkbox/ffi.rs"]
mod ffi;
mod plain;
mod twin;

#[cfg(tlv)]
use ffi::TlvTold;
use ffi::{Arrays as State, ConditionsTold, FrameTold, LineTold, LossLine, LossSession, LossTold, Names, NewBox, Readings, Run, SettingArrays, SettingsRead};
use ffi::{Set, Slots, Stamp, Totals, Written};
use plain::{HOLDS, NEXT, NOTHING, RECEIVED, TICKS};
use std::hint::black_box;
use std::time::Instant;

// One program that is timed: every call of the box.
trait Shape {
    const NAME: &'static str;

    fn new_setting(s: &State) -> NewBox;
    fn frame(s: &mut State, side: u32, f: &[u8], receive: Stamp, transmit: Stamp, out: &mut [u8]) -> FrameTold;
    fn tick(s: &mut State, out: &mut [u8]) -> Written;
    fn clear(s: &mut State) -> u32;
    fn send_lmm(s: &State, out: &mut [u8]) -> Written;
    fn send_dmm(s: &State, stamp: Stamp, out: &mut [u8]) -> Written;
    fn conditions(s: &State) -> ConditionsTold;
    fn measure(session: &mut LossSession, now: Readings) -> LossTold;
    fn read_settings(from: &[u8]) -> SettingsRead;
    fn write_settings(s: &State, into: &mut [u8]) -> Written;
    fn read_line(from: &[u8]) -> LineTold;
    fn write_line(line: LossLine, into: &mut [u8]) -> Written;
    #[cfg(tlv)]
    fn tlv(f: &[u8], kind: u8) -> TlvTold;
}

// A program in Rust: each call by an expression, and not inlined into the measuring.
macro_rules! in_rust {
    ($shape:ident, $name:literal, $($(#[$when:meta])? $call:ident($($arg:ident: $kind:ty),*) -> $told:ty = $body:expr;)*) => {
        struct $shape;

        impl Shape for $shape {
            const NAME: &'static str = $name;

            $(
                $(#[$when])?
                #[inline(never)]
                fn $call($($arg: $kind),*) -> $told {
                    $body
                }
            )*
        }
    };
}

in_rust! { Twin, "twin",
    new_setting(s: &State) -> NewBox = twin::new_setting(s);
    frame(s: &mut State, side: u32, f: &[u8], receive: Stamp, transmit: Stamp, out: &mut [u8]) -> FrameTold =
        twin::on_frame(s, side == 0, f, receive, transmit, out);
    tick(s: &mut State, out: &mut [u8]) -> Written = twin::tick(s, out);
    clear(s: &mut State) -> u32 = twin::clear(s);
    send_lmm(s: &State, out: &mut [u8]) -> Written = twin::send_lmm(s, out);
    send_dmm(s: &State, stamp: Stamp, out: &mut [u8]) -> Written = twin::send_dmm(s, stamp, out);
    conditions(s: &State) -> ConditionsTold = twin::conditions(s);
    measure(session: &mut LossSession, now: Readings) -> LossTold = twin::measured(session, now);
    read_settings(from: &[u8]) -> SettingsRead = twin::read_settings(from);
    write_settings(s: &State, into: &mut [u8]) -> Written = twin::write_settings(s, into);
    read_line(from: &[u8]) -> LineTold = twin::read_line(from);
    write_line(line: LossLine, into: &mut [u8]) -> Written = twin::write_line(into, line);
    #[cfg(tlv)]
    tlv(f: &[u8], kind: u8) -> TlvTold = twin::find_tlv(f, kind);
}

in_rust! { Plain, "plain",
    new_setting(s: &State) -> NewBox = s.new_setting();
    frame(s: &mut State, side: u32, f: &[u8], receive: Stamp, transmit: Stamp, out: &mut [u8]) -> FrameTold =
        s.on_frame(side == 0, f, receive, transmit, out);
    tick(s: &mut State, out: &mut [u8]) -> Written = s.tick(out);
    clear(s: &mut State) -> u32 = s.clear();
    send_lmm(s: &State, out: &mut [u8]) -> Written = s.send_lmm(out);
    send_dmm(s: &State, stamp: Stamp, out: &mut [u8]) -> Written = s.send_dmm(stamp, out);
    conditions(s: &State) -> ConditionsTold = s.conditions();
    measure(session: &mut LossSession, now: Readings) -> LossTold = session.measured(now);
    read_settings(from: &[u8]) -> SettingsRead = plain::read_settings(from);
    write_settings(s: &State, into: &mut [u8]) -> Written = s.write_settings(into);
    read_line(from: &[u8]) -> LineTold = plain::read_line(from);
    write_line(line: LossLine, into: &mut [u8]) -> Written = plain::write_line(into, line);
    #[cfg(tlv)]
    tlv(f: &[u8], kind: u8) -> TlvTold = plain::find_tlv(f, kind);
}

// Calls that do nothing: what the measuring itself takes.
in_rust! { Nothing, "nothing",
    new_setting(s: &State) -> NewBox = { black_box(s); NewBox { refusal: 0, arrays: NOTHING } };
    frame(s: &mut State, side: u32, f: &[u8], receive: Stamp, transmit: Stamp, out: &mut [u8]) -> FrameTold = {
        black_box((s, side, f, receive, transmit, out));
        FrameTold::default()
    };
    tick(s: &mut State, out: &mut [u8]) -> Written = { black_box((s, out)); Written::default() };
    clear(s: &mut State) -> u32 = { black_box(s); 0 };
    send_lmm(s: &State, out: &mut [u8]) -> Written = { black_box((s, out)); Written::default() };
    send_dmm(s: &State, stamp: Stamp, out: &mut [u8]) -> Written = { black_box((s, stamp, out)); Written::default() };
    conditions(s: &State) -> ConditionsTold = { black_box(s); ConditionsTold::default() };
    measure(session: &mut LossSession, now: Readings) -> LossTold = { black_box((session, now)); LossTold::default() };
    read_settings(from: &[u8]) -> SettingsRead = {
        black_box(from);
        SettingsRead { refusal: 0, settings: SettingArrays { set: [0; 4], names: [0; 60], ids: [0; 8] } }
    };
    write_settings(s: &State, into: &mut [u8]) -> Written = { black_box((s, into)); Written::default() };
    read_line(from: &[u8]) -> LineTold = { black_box(from); LineTold::default() };
    write_line(line: LossLine, into: &mut [u8]) -> Written = { black_box((line, into)); Written::default() };
    #[cfg(tlv)]
    tlv(f: &[u8], kind: u8) -> TlvTold = { black_box((f, kind)); TlvTold::default() };
}

// The archive that ships: its functions as ffi.rs declares them, but under the names that native.sh gives them.
macro_rules! compiled {
    ($shape:ident, $name:literal, $new_setting:ident, $frame:ident, $tick:ident, $clear:ident, $send_lmm:ident, $send_dmm:ident, $conditions:ident,
     $measure:ident, $read_settings:ident, $write_settings:ident, $read_line:ident, $write_line:ident, $tlv:ident) => {
        struct $shape;

        unsafe extern "C" {
            fn $new_setting(set: *const Set, names: *const Names, ids: *const Slots) -> NewBox;
            fn $frame(
                set: *const Set, names: *const Names, ids: *const Slots, timers: *mut Slots, rdi: *mut Slots,
                run: *mut Run, totals: *mut Totals, side: u32, frame: *const u8, length: usize, receive: Stamp, transmit: Stamp, out: *mut u8,
                room: usize,
            ) -> FrameTold;
            fn $tick(
                set: *const Set, names: *const Names, ids: *const Slots, timers: *mut Slots, rdi: *const Slots,
                run: *mut Run, totals: *const Totals, out: *mut u8, room: usize,
            ) -> Written;
            fn $clear(
                set: *const Set, names: *const Names, ids: *const Slots, timers: *const Slots, rdi: *const Slots,
                run: *mut Run, totals: *mut Totals,
            ) -> u32;
            fn $send_lmm(
                set: *const Set, names: *const Names, ids: *const Slots, timers: *const Slots, rdi: *const Slots,
                run: *const Run, totals: *const Totals, out: *mut u8, room: usize,
            ) -> Written;
            fn $send_dmm(
                set: *const Set, names: *const Names, ids: *const Slots, timers: *const Slots, rdi: *const Slots,
                run: *const Run, totals: *const Totals, stamp: Stamp, out: *mut u8, room: usize,
            ) -> Written;
            fn $conditions(
                set: *const Set, names: *const Names, ids: *const Slots, timers: *const Slots, rdi: *const Slots,
                run: *const Run, totals: *const Totals,
            ) -> ConditionsTold;
            fn $measure(session: *mut LossSession, txf: u32, rxf: u32, txb: u32, ours: u32) -> LossTold;
            fn $read_settings(from: *const u8, length: usize) -> SettingsRead;
            fn $write_settings(into: *mut u8, room: usize, set: *const Set, names: *const Names, ids: *const Slots) -> Written;
            fn $read_line(from: *const u8, length: usize) -> LineTold;
            fn $write_line(into: *mut u8, room: usize, line: LossLine) -> Written;
            #[cfg(tlv)]
            fn $tlv(frame: *const u8, length: usize, kind: u8) -> TlvTold;
        }

        impl Shape for $shape {
            const NAME: &'static str = $name;

            #[inline(always)]
            fn new_setting(s: &State) -> NewBox {
                unsafe { $new_setting(&s.set, &s.names, &s.ids) }
            }

            #[inline(always)]
            fn frame(s: &mut State, side: u32, f: &[u8], receive: Stamp, transmit: Stamp, out: &mut [u8]) -> FrameTold {
                unsafe {
                    $frame(
                        &s.set, &s.names, &s.ids, &mut s.timers, &mut s.rdi, &mut s.run, &mut s.totals, side, f.as_ptr(), f.len(), receive, transmit,
                        out.as_mut_ptr(), out.len(),
                    )
                }
            }

            #[inline(always)]
            fn tick(s: &mut State, out: &mut [u8]) -> Written {
                unsafe { $tick(&s.set, &s.names, &s.ids, &mut s.timers, &s.rdi, &mut s.run, &s.totals, out.as_mut_ptr(), out.len()) }
            }

            #[inline(always)]
            fn clear(s: &mut State) -> u32 {
                unsafe { $clear(&s.set, &s.names, &s.ids, &s.timers, &s.rdi, &mut s.run, &mut s.totals) }
            }

            #[inline(always)]
            fn send_lmm(s: &State, out: &mut [u8]) -> Written {
                unsafe { $send_lmm(&s.set, &s.names, &s.ids, &s.timers, &s.rdi, &s.run, &s.totals, out.as_mut_ptr(), out.len()) }
            }

            #[inline(always)]
            fn send_dmm(s: &State, stamp: Stamp, out: &mut [u8]) -> Written {
                unsafe { $send_dmm(&s.set, &s.names, &s.ids, &s.timers, &s.rdi, &s.run, &s.totals, stamp, out.as_mut_ptr(), out.len()) }
            }

            #[inline(always)]
            fn conditions(s: &State) -> ConditionsTold {
                unsafe { $conditions(&s.set, &s.names, &s.ids, &s.timers, &s.rdi, &s.run, &s.totals) }
            }

            #[inline(always)]
            fn measure(session: &mut LossSession, now: Readings) -> LossTold {
                unsafe { $measure(session, now.txf, now.rxf, now.txb, now.ours) }
            }

            #[inline(always)]
            fn read_settings(from: &[u8]) -> SettingsRead {
                unsafe { $read_settings(from.as_ptr(), from.len()) }
            }

            #[inline(always)]
            fn write_settings(s: &State, into: &mut [u8]) -> Written {
                unsafe { $write_settings(into.as_mut_ptr(), into.len(), &s.set, &s.names, &s.ids) }
            }

            #[inline(always)]
            fn read_line(from: &[u8]) -> LineTold {
                unsafe { $read_line(from.as_ptr(), from.len()) }
            }

            #[inline(always)]
            fn write_line(line: LossLine, into: &mut [u8]) -> Written {
                unsafe { $write_line(into.as_mut_ptr(), into.len(), line) }
            }

            #[cfg(tlv)]
            #[inline(always)]
            fn tlv(f: &[u8], kind: u8) -> TlvTold {
                unsafe { $tlv(f.as_ptr(), f.len(), kind) }
            }
        }
    };
}

// `shapes.rs` is written by `run`: the compiled programs, and `all!(f)`, which calls f once for each of them.
include!("../target/bench/shapes.rs");

const REPEATS: usize = 41;
const CALLS: usize = 20_000;
const OTHERS: u64 = 400_000;
const HERE: Stamp = Stamp { seconds: 10, nanoseconds: 1_200 };
const ACTIVE: u32 = 0;
const DATA: u8 = 3;

// Which call it is.
#[derive(Clone, Copy, PartialEq, Debug)]
enum Kind {
    NewSetting,
    Frame,
    Tick,
    Clear,
    SendLmm,
    SendDmm,
    Conditions,
    Measure,
    ReadSettings,
    WriteSettings,
    ReadLine,
    WriteLine,
    #[cfg(tlv)]
    Tlv,
}

// One call to be made again and again: what it starts from, and the octets that it reads.
struct Call {
    name: &'static str,
    kind: Kind,
    state: State,
    octets: Vec<u8>,
    // set before every call, so that each one sends a CCM
    next: Option<u32>,
}

impl Call {
    fn of(name: &'static str, kind: Kind, state: State) -> Call {
        Call { name, kind, state, octets: vec![], next: None }
    }

    fn frame(name: &'static str, state: State, octets: Vec<u8>) -> Call {
        Call { name, kind: Kind::Frame, state, octets, next: None }
    }
}

fn start(peers: usize, code: u32) -> State {
    let mut s = State { set: [4, 9, code, peers as u32], ..NOTHING };
    s.names[..12].copy_from_slice(&[2, 1, 2, 3, 4, 5, 2, 9, 9, 9, 9, 9]);
    for i in 0..48 {
        s.names[12 + i] = i as u8 * 3 + 1;
    }
    for i in 0..peers {
        s.ids[i] = 100 + 7 * i as u32;
        s.timers[i] = HOLDS[code as usize];
    }
    s.run[NEXT] = TICKS[code as usize];
    s
}

// A good OAM frame: to the multicast address of its level, or to us from the loss peer.
fn oam(s: &State, level: u8, opcode: u8, flags: u8, offset: u8, multicast: bool) -> Vec<u8> {
    let mut f = vec![0; 19 + offset as usize];
    f[..12].copy_from_slice(&s.names[..12]);
    if multicast {
        f[..6].copy_from_slice(&[0x01, 0x80, 0xc2, 0, 0, 0x30 + level]);
    }
    f[12..18].copy_from_slice(&[0x89, 0x02, level << 5, opcode, flags, offset]);
    if opcode == 1 {
        let slot = 2.min(s.set[3] as usize - 1);
        f[22..24].copy_from_slice(&(s.ids[slot] as u16).to_be_bytes());
        f[24..72].copy_from_slice(&s.names[12..]);
    }
    f
}

// A loss reply with counts, and a delay reply with all three stamps.
fn replies(s: &State) -> (Vec<u8>, Vec<u8>) {
    let (mut loss, mut delay) = (oam(s, 4, 42, 0, 12, false), oam(s, 4, 46, 0, 32, false));
    for i in 18..30 {
        loss[i] = i as u8;
    }
    for (k, nanoseconds) in [0u32, 400, 900].iter().enumerate() {
        delay[18 + 8 * k..22 + 8 * k].copy_from_slice(&10u32.to_be_bytes());
        delay[22 + 8 * k..26 + 8 * k].copy_from_slice(&nanoseconds.to_be_bytes());
    }
    (loss, delay)
}

// A message with zeros behind it up to 64 octets.
fn padded(mut f: Vec<u8>) -> Vec<u8> {
    f.resize(64, 0);
    f
}

// A message with a data TLV of 32 octets between its fixed part and the End TLV.
#[cfg(tlv)]
fn with_data(mut f: Vec<u8>) -> Vec<u8> {
    f.pop();
    f.extend([DATA, 0, 32]);
    f.extend([7; 32]);
    f.push(0);
    f
}

// A record of settings, and one of a loss line.
fn records(s: &State) -> (Vec<u8>, Vec<u8>) {
    let (mut settings, mut line) = (vec![0; 85], vec![0; 24]);
    assert!(s.write_settings(&mut settings).refusal == 0 && plain::write_line(&mut line, LINE).refusal == 0);
    (settings, line)
}

const LINE: LossLine = LossLine { near: -7, far: 4_294_967_295, intervals: 3 };

// What is timed: frames as they are, the other calls, then frames of 64 octets.
fn calls(peers: usize) -> Vec<Call> {
    let s = start(peers, 4);
    let mut service = vec![0; 64];
    service[..14].copy_from_slice(&[2, 9, 9, 9, 9, 9, 2, 1, 2, 3, 4, 5, 8, 0]);
    let mut measured = s;
    measured.run[9] = 1;
    let (loss, delay) = replies(&s);
    let (settings, line) = records(&s);
    let slow = start(peers, 7);
    let mut all = vec![
        Call::of("new setting", Kind::NewSetting, s),
        Call::frame("service frame of 64 octets", s, service),
        Call::frame("OAM frame of a higher level", s, oam(&s, 6, 1, 4, 70, true)),
        Call::frame("peer's CCM", s, oam(&s, 4, 1, 4, 70, true)),
        Call::frame("LBM, answered", s, oam(&s, 4, 3, 0, 4, false)),
        Call::frame("LMM, answered", s, oam(&s, 4, 43, 0, 12, false)),
        Call::frame("DMM, answered", s, oam(&s, 4, 47, 0, 32, false)),
        Call::frame("LMR, measured", measured, loss.clone()),
        Call::frame("DMR, measured", s, delay.clone()),
        Call::of("tick", Kind::Tick, slow),
        Call { next: Some(1), ..Call::of("tick with CCM", Kind::Tick, slow) },
        Call::of("clear", Kind::Clear, measured),
        Call::of("send LMM", Kind::SendLmm, s),
        Call::of("send DMM", Kind::SendDmm, s),
        Call::of("conditions", Kind::Conditions, s),
        Call::of("reading of the lent session", Kind::Measure, s),
        Call { octets: settings, ..Call::of("read a settings record", Kind::ReadSettings, s) },
        Call::of("write a settings record", Kind::WriteSettings, s),
        Call { octets: line, ..Call::of("read a loss line", Kind::ReadLine, s) },
        Call::of("write a loss line", Kind::WriteLine, s),
    ];
    #[cfg(tlv)]
    all.push(Call { octets: with_data(oam(&s, 4, 3, 0, 4, false)), ..Call::of("read a TLV of an LBM", Kind::Tlv, s) });
    all.extend([
        Call::frame("LBM of 64 octets", s, padded(oam(&s, 4, 3, 0, 4, false))),
        Call::frame("LMM of 64 octets", s, padded(oam(&s, 4, 43, 0, 12, false))),
        Call::frame("DMM of 64 octets", s, padded(oam(&s, 4, 47, 0, 32, false))),
        Call::frame("LMR of 64 octets", measured, padded(loss)),
        Call::frame("DMR of 64 octets", s, padded(delay)),
    ]);
    all
}

// Nanoseconds of one call, over many.
fn repeat(mut call: impl FnMut()) -> f64 {
    let begin = Instant::now();
    for _ in 0..CALLS {
        call();
    }
    begin.elapsed().as_nanos() as f64 / CALLS as f64
}

// Nanoseconds of one call, over many on one state.
fn time<S: Shape>(call: &Call) -> f64 {
    let (mut s, mut out, mut session) = (call.state, [0u8; 1514], LossSession::default());
    match call.kind {
        Kind::NewSetting => repeat(|| {
            black_box(&S::new_setting(black_box(&s)));
        }),
        Kind::Frame => repeat(|| {
            black_box(&S::frame(black_box(&mut s), ACTIVE, black_box(&call.octets), HERE, HERE, black_box(&mut out)));
        }),
        Kind::Tick => repeat(|| {
            if let Some(next) = call.next {
                s.run[NEXT] = next;
            }
            black_box(&S::tick(black_box(&mut s), black_box(&mut out)));
        }),
        Kind::Clear => repeat(|| {
            black_box(&S::clear(black_box(&mut s)));
        }),
        Kind::SendLmm => repeat(|| {
            black_box(&S::send_lmm(black_box(&s), black_box(&mut out)));
        }),
        Kind::SendDmm => repeat(|| {
            black_box(&S::send_dmm(black_box(&s), HERE, black_box(&mut out)));
        }),
        Kind::Conditions => repeat(|| {
            black_box(&S::conditions(black_box(&s)));
        }),
        Kind::Measure => repeat(|| {
            black_box(&S::measure(black_box(&mut session), black_box(Readings { txf: 9, rxf: 8, txb: 7, ours: 6 })));
        }),
        Kind::ReadSettings => repeat(|| {
            black_box(&S::read_settings(black_box(&call.octets)));
        }),
        Kind::WriteSettings => repeat(|| {
            black_box(&S::write_settings(black_box(&s), black_box(&mut out)));
        }),
        Kind::ReadLine => repeat(|| {
            black_box(&S::read_line(black_box(&call.octets)));
        }),
        Kind::WriteLine => repeat(|| {
            black_box(&S::write_line(black_box(LINE), black_box(&mut out)));
        }),
        #[cfg(tlv)]
        Kind::Tlv => repeat(|| {
            black_box(&S::tlv(black_box(&call.octets), DATA));
        }),
    }
}

// What one call is made on, beside the state.
struct Given<'a> {
    side: u32,
    octets: &'a [u8],
    receive: Stamp,
    transmit: Stamp,
    line: LossLine,
    now: Readings,
}

// What a call tells, of whatever kind, and its refusal and drop.
#[derive(PartialEq, Debug)]
enum Told {
    Number(u32),
    New(NewBox),
    Frame(FrameTold),
    Written(Written),
    Conditions(ConditionsTold),
    Loss(LossTold),
    Settings(SettingsRead),
    Line(LineTold),
    #[cfg(tlv)]
    Tlv(TlvTold),
}

impl Told {
    fn numbers(&self) -> (u32, u32) {
        match self {
            Told::Number(refusal) => (*refusal, 0),
            Told::New(made) => (made.refusal, 0),
            Told::Frame(told) => (told.refusal, told.drop),
            Told::Written(told) => (told.refusal, 0),
            Told::Conditions(told) => (told.refusal, 0),
            Told::Loss(told) => (told.refusal, 0),
            Told::Settings(told) => (told.refusal, 0),
            Told::Line(told) => (told.refusal, 0),
            #[cfg(tlv)]
            Told::Tlv(told) => (told.refusal, told.drop),
        }
    }
}

// A new setting, from the settings of a state: what it hands out takes the state's place, and a refusal leaves it.
fn set<S: Shape>(s: &mut State) -> NewBox {
    let made = S::new_setting(s);
    if made.refusal == 0 {
        *s = made.arrays;
    }
    made
}

// One call of any kind.
fn make<S: Shape>(kind: Kind, s: &mut State, session: &mut LossSession, given: &Given, out: &mut [u8]) -> Told {
    match kind {
        Kind::NewSetting => Told::New(set::<S>(s)),
        Kind::Frame => Told::Frame(S::frame(s, given.side, given.octets, given.receive, given.transmit, out)),
        Kind::Tick => Told::Written(S::tick(s, out)),
        Kind::Clear => Told::Number(S::clear(s)),
        Kind::SendLmm => Told::Written(S::send_lmm(s, out)),
        Kind::SendDmm => Told::Written(S::send_dmm(s, given.receive, out)),
        Kind::Conditions => Told::Conditions(S::conditions(s)),
        Kind::Measure => Told::Loss(S::measure(session, given.now)),
        Kind::ReadSettings => Told::Settings(S::read_settings(given.octets)),
        Kind::WriteSettings => Told::Written(S::write_settings(s, out)),
        Kind::ReadLine => Told::Line(S::read_line(given.octets)),
        Kind::WriteLine => Told::Written(S::write_line(given.line, out)),
        #[cfg(tlv)]
        Kind::Tlv => Told::Tlv(S::tlv(given.octets, DATA)),
    }
}

// What one call of a program leaves: what it tells, and the state, session and buffer after it.
type After = (Told, State, LossSession, [u8; 1514]);

fn after<S: Shape>(kind: Kind, s: &State, session: &LossSession, given: &Given, room: usize) -> After {
    let (mut state, mut lent, mut out) = (*s, *session, [7u8; 1514]);
    let told = make::<S>(kind, &mut state, &mut lent, given, &mut out[..room]);
    (told, state, lent, out)
}

// The same answer and memory after a call, or the end.
fn same(names: (&str, &str), kind: Kind, a: &After, b: &After, s: &State, session: &LossSession, given: &Given, room: usize) {
    if a == b {
        return;
    }
    let (state, lent, buffer) = (a.1 == b.1, a.2 == b.2, a.3 == b.3);
    eprintln!("{} and the {} differ in {kind:?}: state the same: {state}, session: {lent}, buffer: {buffer}", names.0, names.1);
    eprintln!("{:?}\n{:?}\nside {}, room {room}, {:?} {:?}", a.0, b.0, given.side, given.receive, given.transmit);
    eprintln!("from {s:?}\n{session:?}\noctets {:02x?}", given.octets);
    eprintln!("to {:?}\nand {:?}", a.1, b.1);
    std::process::exit(1);
}

// One call of a shape and of both twins on the same state, session, octets and buffer.
fn agree<S: Shape>(kind: Kind, s: &mut State, session: &mut LossSession, given: &Given, room: usize) -> (u32, u32) {
    let ours = after::<S>(kind, s, session, given, room);
    let twin = after::<Twin>(kind, s, session, given, room);
    let plain = after::<Plain>(kind, s, session, given, room);
    same((S::NAME, "twin"), kind, &ours, &twin, s, session, given, room);
    same((S::NAME, "plain twin"), kind, &ours, &plain, s, session, given, room);
    (*s, *session) = (plain.1, plain.2);
    plain.0.numbers()
}

fn random(x: &mut u64) -> u64 {
    *x ^= *x << 13;
    *x ^= *x >> 7;
    *x ^= *x << 17;
    *x
}

// A state with one thing wrong.
fn spoil(s: &mut State, x: &mut u64) {
    let k = (random(x) % 8) as usize;
    match random(x) % 20 {
        0 => s.ids[k] = 100,
        1 => s.ids[k] = 8192,
        2 => s.ids[k] = s.set[1],
        3 => s.ids[0] = 0,
        4 => s.timers[k] = HOLDS[s.set[2] as usize] + 1,
        5 => s.timers[7] = 5,
        6 => s.rdi[k] = 2,
        7 => s.rdi[7] = 1,
        8 => s.set[3] = [0, 9, u32::MAX][k % 3],
        9 => s.set[0] = 8,
        10 => s.set[1] = [0, 8192][k % 2],
        11 => s.set[2] = [0, 8, 256][k % 3],
        12 => s.names[(k % 2) * 6] |= 1,
        13 => s.names.copy_within(6..12, 0),
        14 => s.run[k % 6] = [HOLDS[s.set[2] as usize] + 1, 126_001][(k % 6) / 4],
        15 => s.run[NEXT] = [0, TICKS[s.set[2] as usize] + 1][k % 2],
        16 => s.run[9] = 2,
        17 => s.run[9..14].copy_from_slice(&[0, 0, 0, 1, 0]),
        18 => s.run[14] = [1_000_000_000, 1_000_000_001][k % 2],
        _ => s.totals[k % 2] = [i64::MIN, i64::MAX, -(1 << 50)][k % 3],
    }
}

// A frame, good, cut or changed.
fn any_frame(s: &State, x: &mut u64) -> Vec<u8> {
    let kinds = [(1, 70), (1, 70), (1, 71), (3, 4), (33, 0), (35, 0), (42, 12), (42, 13), (43, 12), (46, 32), (47, 36), (2, 4), (9, 0)];
    let (opcode, offset) = kinds[(random(x) % 13) as usize];
    let level = if random(x) % 4 == 0 { (random(x) % 8) as u8 } else { 4 };
    let mut f = oam(s, level, opcode, random(x) as u8, offset, random(x) % 3 == 0 && opcode != 42 && opcode != 46);
    if random(x) % 2 == 0 {
        f.pop();
        let n = (random(x) % 5) as u8;
        f.extend([DATA, 0, n]);
        f.resize(f.len() + n as usize, 9);
        f.extend([0, 0, 0]);
    }
    let at = (random(x) % f.len() as u64) as usize;
    match random(x) % 12 {
        0 => f[at] = random(x) as u8,
        1 => f.truncate(at),
        2 => f[12] = 8,
        3 => f.resize(1510 + at % 8, 0),
        4 | 5 => (18..f.len().min(42)).for_each(|i| f[i] = random(x) as u8 >> 3),
        6 => f[6] |= 1,
        7 if f.len() > 17 => f[17] = (at % 80) as u8,
        8 => f.resize(f.len() + at, 0),
        _ => {}
    }
    f
}

// A stored record of either kind, good, cut or changed.
fn any_record(s: &State, x: &mut u64) -> Vec<u8> {
    let (settings, line) = records(s);
    let mut record = if random(x) % 2 == 0 { settings } else { line };
    let at = (random(x) % record.len() as u64) as usize;
    match random(x) % 4 {
        0 => record.truncate(at),
        1 => record[at] = random(x) as u8,
        2 => record.push(random(x) as u8),
        _ => {}
    }
    record
}

// A loss line, within its bounds or not.
fn any_line(x: &mut u64) -> LossLine {
    let total = |x: &mut u64| [0, -1, 4_294_967_295, -4_294_967_296, i64::MIN, i64::MAX][(random(x) % 6) as usize];
    LossLine { near: total(x), far: total(x), intervals: [0, 1, 2, 1_000_000_000, 1_000_000_001][(random(x) % 5) as usize] }
}

// A lent session, well formed or not.
fn any_session(x: &mut u64) -> LossSession {
    let line = any_line(x);
    let last = if random(x) % 3 == 0 { Readings { txf: 0, rxf: 0, txb: 0, ours: 5 } } else { Readings::default() };
    LossSession { kept: (random(x) % 3) as u32, intervals: line.intervals, last, near: line.near, far: line.far }
}

// Any call that is not a frame or a tick, by turns.
fn other_kind(i: u64) -> Kind {
    let kinds = [
        Kind::NewSetting,
        Kind::Clear,
        Kind::SendLmm,
        Kind::SendDmm,
        Kind::Conditions,
        Kind::Measure,
        Kind::ReadSettings,
        Kind::WriteSettings,
        Kind::ReadLine,
        Kind::WriteLine,
        #[cfg(tlv)]
        Kind::Tlv,
    ];
    kinds[(i % kinds.len() as u64) as usize]
}

// Ours and both twins on each measured call, 1,000 times: none is refused or dropped.
fn compare_measured<S: Shape>(calls: &[Call]) {
    for call in calls {
        let (mut s, mut session) = (call.state, LossSession::default());
        let now = Readings { txf: 9, rxf: 8, txb: 7, ours: 6 };
        let given = Given { side: ACTIVE, octets: &call.octets, receive: HERE, transmit: HERE, line: LINE, now };
        for _ in 0..1_000 {
            if let Some(next) = call.next {
                s.run[NEXT] = next;
            }
            let numbers = agree::<S>(call.kind, &mut s, &mut session, &given, 1514);
            assert!(numbers == (0, 0), "{} is refused or dropped", call.name);
        }
    }
}

// Ours and both twins on calls of every kind: states good and spoilt, frames and records good, cut and changed, short buffers, bad stamps.
fn compare<S: Shape>(calls: &[Call]) {
    compare_measured::<S>(calls);
    if S::NAME.starts_with("no_") {
        return;
    }
    let mut x = 88172645463325252;
    let mut seen = [[0u64; 9]; 2];
    let (mut s, mut session) = (start(4, 4), LossSession::default());
    for i in 0..OTHERS {
        if i % 200 == 0 {
            s = start((random(&mut x) % 8 + 1) as usize, (random(&mut x) % 7 + 1) as u32);
            s.run[NEXT] = 1;
            s.run[RECEIVED] = random(&mut x) as u32;
            session = any_session(&mut x);
        }
        let good = s;
        if i % 10 == 9 {
            spoil(&mut s, &mut x);
        }
        let kind = [Kind::Tick, Kind::Frame, other_kind(i / 3)][(i % 3) as usize];
        let stored = matches!(kind, Kind::ReadSettings | Kind::ReadLine);
        let octets = if stored { any_record(&good, &mut x) } else { any_frame(&good, &mut x) };
        let mut stamp = || Stamp { seconds: (random(&mut x) % 3) as u32, nanoseconds: [0, 5, 999_999_999, 5, 7, 1_000_000_000][(random(&mut x) % 6) as usize] };
        let (receive, transmit) = (stamp(), stamp());
        let side = (random(&mut x) % 4 == 0) as u32;
        let mut word = || random(&mut x) as u32;
        let now = Readings { txf: word(), rxf: word(), txb: word(), ours: word() };
        let given = Given { side, octets: &octets, receive, transmit, line: any_line(&mut x), now };
        let room = [1514, 1514, 1514, 30, 88, 89, 23, 24, 84, 85, 50, 51][(random(&mut x) % 12) as usize];
        let (refusal, drop) = agree::<S>(kind, &mut s, &mut session, &given, room);
        seen[0][refusal as usize] += 1;
        seen[1][drop as usize] += 1;
        if i % 10 == 9 {
            s = good;
        }
    }
    let (refusals, drops) = (&seen[0][1..8], &seen[1][1..8]);
    println!("{} and both twins agree on {OTHERS} other calls too; refusals 1 to 7: {refusals:?}, D1 to D7: {drops:?}", S::NAME);
}

fn middle(times: &mut [f64]) -> f64 {
    times.sort_by(|a, b| a.total_cmp(b));
    times[times.len() / 2]
}

// One row: the middle times of nothing, the twins and each shape, turn about. Answers the ratios: ours to the twin and to the plain one,
// then each copy to the twin.
fn print_row(call: &Call, shapes: usize) -> Vec<f64> {
    let mut times = vec![vec![]; shapes + 3];
    for _ in 0..REPEATS {
        times[0].push(time::<Nothing>(call));
        times[1].push(time::<Plain>(call));
        times[2].push(time::<Twin>(call));
        let mut k = 3;
        macro_rules! one {
            ($shape:ident) => {
                times[k].push(time::<$shape>(call));
                k += 1;
            };
        }
        each!(one);
        assert!(k == shapes + 3);
    }
    let times: Vec<f64> = times.iter_mut().map(|t| middle(t)).collect();
    let [nothing, plain, twin, ours] = times[..4] else { unreachable!() };
    let mut ratios = vec![ours / twin, ours / plain];
    // where half of the twin's time and more is the measuring's, taking that off leaves too little to divide
    let net = if 2.0 * nothing < twin { format!("{:.2}", (ours - nothing) / (twin - nothing)) } else { "-".to_string() };
    print!("{:28}{ours:>8.1}{twin:>8.1}{:>7.2}{plain:>8.1}{:>7.2}", call.name, ratios[0], ratios[1]);
    print!("{nothing:>9.1}{net:>6}{:>8.1}", 1e3 / ours);
    for t in &times[4..] {
        ratios.push(t / twin);
        print!("{t:>10.1}{:>7.2}", t / twin);
    }
    println!();
    ratios
}

// The geometric mean of each column of ratios.
fn print_means(rows: &[Vec<f64>]) {
    let mean = |k: usize| (rows.iter().map(|r| r[k].ln()).sum::<f64>() / rows.len() as f64).exp();
    print!("{:28}{:>8}{:>8}{:>7.2}{:>8}{:>7.2}{:>9}{:>6}{:>8}", "geometric mean of the ratios", "", "", mean(0), "", mean(1), "", "", "");
    for k in 2..rows[0].len() {
        print!("{:>10}{:>7.2}", "", mean(k));
    }
    println!();
}

fn main() {
    let peers: usize = std::env::args().nth(1).map_or(4, |a| a.parse().expect("how many peers, 1 to 8"));
    let calls = calls(peers);
    all!(compare, &calls);
    let mut names = vec![];
    macro_rules! name {
        ($shape:ident) => {
            names.push($shape::NAME)
        };
    }
    each!(name);
    println!("\n{peers} peers; nanoseconds a call, the middle of {REPEATS} times {CALLS} calls, turn about; buffers are not cleared between calls");
    println!("ratio: ours over the twin, then ours over the plain twin; nothing: a call that does nothing, measured the same way;");
    println!("net: the first ratio with that taken off both; M/s: million calls a second on one core, ours, so for a frame of 64 octets");
    println!("million frames a second; a copy's ratio is to the twin\n");
    print!("{:28}{:>8}{:>8}{:>7}{:>8}{:>7}{:>9}{:>6}{:>8}", "call", names[0], "twin", "ratio", "plain", "ratio", "nothing", "net", "M/s");
    for name in &names[1..] {
        print!("{name:>10}{:>7}", "ratio");
    }
    println!();
    let rows: Vec<Vec<f64>> = calls.iter().map(|call| print_row(call, names.len())).collect();
    print_means(&rows);
}
