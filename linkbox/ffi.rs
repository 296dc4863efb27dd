//! The static library's own functions, as linkbox.h and linkbox_raw.h declare them, one by one. `lib.rs` is what a program calls.
//!
//! The caller sees to it that every pointer is to memory of the size that is named and that what a call writes overlaps nothing else that
//! is passed in. A slice is a pointer, never null, and a length. Any content of the memory is a value.

/// How many peers a box has room for.
pub const PEERS: usize = 8;
/// How many words the settings are, octets the names, running words a box has, totals of loss.
pub const SET: usize = 4;
pub const NAMES: usize = 60;
pub const RUN: usize = 15;
pub const TOTALS: usize = 2;
pub type Set = [u32; SET];
pub type Names = [u8; NAMES];
/// A word for each slot of a peer.
pub type Slots = [u32; PEERS];
pub type Run = [u32; RUN];
pub type Totals = [i64; TOTALS];

/// What a box is set to, as it lies at a box's front.
#[repr(C)]
#[derive(Clone, Copy, PartialEq, Eq, Debug)]
pub struct SettingArrays {
    /// Level, MEP ID, period code, peer count.
    pub set: Set,
    /// Own address 6, loss peer's address 6, MEG ID 48, in wire order.
    pub names: Names,
    /// The peers' MEP IDs, 0 in unused slots.
    pub ids: Slots,
}

/// What a box knows, as linkbox.h lays it out: 248 octets, no padding.
#[repr(C)]
#[derive(Clone, Copy, PartialEq, Eq, Debug)]
pub struct Arrays {
    /// What it is set to, these three: see [`SettingArrays`].
    pub set: Set,
    pub names: Names,
    pub ids: Slots,
    /// Of each peer: ticks until its continuity is lost.
    pub timers: Slots,
    /// Of each peer: 1 while its last CCM had RDI.
    pub rdi: Slots,
    /// Timers of mismerge, unexpected level, MEP and period, AIS and LCK; ticks to the next CCM; sent and received service frames; whether
    /// a reading is kept; TxFCf, RxFCf, TxFCb and our own count of it; intervals.
    pub run: Run,
    /// Near and far loss.
    pub totals: Totals,
}

/// What a new setting is answered: the refusal, or 0, and the box that the settings start, all zero beside refusal 4.
#[repr(C)]
#[derive(Clone, Copy, PartialEq, Eq, Debug)]
pub struct NewBox {
    pub refusal: u32,
    pub arrays: Arrays,
}

/// A time as the wire has it. All zero means "not given".
#[repr(C)]
#[derive(Clone, Copy, PartialEq, Eq, Debug, Default)]
pub struct Stamp {
    pub seconds: u32,
    /// At most 999,999,999; what is more is refused.
    pub nanoseconds: u32,
}

/// What a frame is answered.
#[repr(C)]
#[derive(Clone, Copy, PartialEq, Eq, Debug, Default)]
pub struct FrameTold {
    pub refusal: u32,
    pub drop: u32,
    pub done: u32,
    pub length: usize,
    pub near: i64,
    pub far: i64,
    pub two_way: i64,
    pub one_way_far: i64,
    pub one_way_near: i64,
}

/// What a call that writes a message or record is answered: the refusal, or 0, and how many octets were written.
#[repr(C)]
#[derive(Clone, Copy, PartialEq, Eq, Debug, Default)]
pub struct Written {
    pub refusal: u32,
    pub length: usize,
}

/// Each condition, 1 while it is active and else 0; of each peer slot loss of continuity and the RDI that it last sent.
#[repr(C)]
#[derive(Clone, Copy, PartialEq, Eq, Debug, Default)]
pub struct ConditionFlags {
    pub lost: Slots,
    pub rdi: Slots,
    pub mismerge: u32,
    pub unexpected_mep: u32,
    pub unexpected_period: u32,
    pub unexpected_level: u32,
    pub ais: u32,
    pub lck: u32,
}

/// What the question for the conditions is answered.
#[repr(C)]
#[derive(Clone, Copy, PartialEq, Eq, Debug, Default)]
pub struct ConditionsTold {
    pub refusal: u32,
    pub conditions: ConditionFlags,
}

/// What a read of a settings record is answered.
#[repr(C)]
#[derive(Clone, Copy, PartialEq, Eq, Debug)]
pub struct SettingsRead {
    pub refusal: u32,
    pub settings: SettingArrays,
}

/// A loss line: near and far totals, and the intervals that they count.
#[repr(C)]
#[derive(Clone, Copy, PartialEq, Eq, Debug, Default)]
pub struct LossLine {
    pub near: i64,
    pub far: i64,
    pub intervals: u32,
}

/// What a read of a loss line is answered.
#[repr(C)]
#[derive(Clone, Copy, PartialEq, Eq, Debug, Default)]
pub struct LineTold {
    pub refusal: u32,
    pub intervals: u32,
    pub near: i64,
    pub far: i64,
}

/// The four readings of a loss reply: TxFCf, RxFCf, TxFCb and our own received count.
#[repr(C)]
#[derive(Clone, Copy, PartialEq, Eq, Debug, Default)]
pub struct Readings {
    pub txf: u32,
    pub rxf: u32,
    pub txb: u32,
    pub ours: u32,
}

/// A loss session apart from a box: whether a reading is kept (0 or 1), the intervals, the reading, both totals.
#[repr(C)]
#[derive(Clone, Copy, PartialEq, Eq, Debug, Default)]
pub struct LossSession {
    pub kept: u32,
    pub intervals: u32,
    pub last: Readings,
    pub near: i64,
    pub far: i64,
}

/// What a reading is answered.
#[repr(C)]
#[derive(Clone, Copy, PartialEq, Eq, Debug, Default)]
pub struct LossTold {
    pub refusal: u32,
    pub near: i64,
    pub far: i64,
}

/// What a frame asked for a TLV is answered.
#[repr(C)]
#[derive(Clone, Copy, PartialEq, Eq, Debug, Default)]
pub struct TlvTold {
    pub refusal: u32,
    pub drop: u32,
    pub value: u32,
    pub start: usize,
    pub length: usize,
}

// The sizes that linkbox_raw.h asserts too.
const WORD: usize = size_of::<usize>();
const _: () = assert!(WORD == 8 || WORD == 4, "lengths have 64 bits or 32");
const _: () = assert!(size_of::<Arrays>() == 248 && size_of::<SettingArrays>() == 108, "a box and its settings have no padding");
const _: () = assert!(size_of::<NewBox>() == 256 && core::mem::offset_of!(NewBox, arrays) == 8);
const _: () = assert!(size_of::<Stamp>() == 8 && size_of::<Written>() == 2 * WORD && size_of::<FrameTold>() == 48 + 2 * WORD);
const _: () = assert!(size_of::<ConditionFlags>() == 88 && size_of::<ConditionsTold>() == 92 && size_of::<SettingsRead>() == 112);
const _: () = assert!(size_of::<LossLine>() == 24 && size_of::<LineTold>() == 24);
const _: () = assert!(size_of::<LossSession>() == 40 && size_of::<LossTold>() == 24);
const _: () = assert!(size_of::<TlvTold>() == 8 + 3 * WORD);

unsafe extern "C" {
    /// A new setting: the box that these settings start, or refusal 4 and zeros. Writes nothing.
    pub fn linkbox_raw_new_setting(set: *const Set, names: *const Names, ids: *const Slots) -> NewBox;

    /// A frame from a side (0 the active one, any other number the passive one). Writes timers, rdi, run, totals and out.
    pub fn linkbox_raw_frame(
        set: *const Set, names: *const Names, ids: *const Slots, timers: *mut Slots, rdi: *mut Slots, run: *mut Run,
        totals: *mut Totals, side: u32, frame: *const u8, length: usize, receive: Stamp, transmit: Stamp, out: *mut u8, room: usize,
    ) -> FrameTold;

    /// A tick. Writes timers, run and out.
    pub fn linkbox_raw_tick(
        set: *const Set, names: *const Names, ids: *const Slots, timers: *mut Slots, rdi: *const Slots, run: *mut Run,
        totals: *const Totals, out: *mut u8, room: usize,
    ) -> Written;

    /// A clear of the loss session; returns 0, or refusal 2. Writes run and totals.
    pub fn linkbox_raw_clear(
        set: *const Set, names: *const Names, ids: *const Slots, timers: *const Slots, rdi: *const Slots, run: *mut Run,
        totals: *mut Totals,
    ) -> u32;

    /// Writes an LMM into out.
    pub fn linkbox_raw_send_lmm(
        set: *const Set, names: *const Names, ids: *const Slots, timers: *const Slots, rdi: *const Slots,
        run: *const Run, totals: *const Totals, out: *mut u8, room: usize,
    ) -> Written;

    /// How many ticks are left to the next CCM, or 0 where the state is not well formed. Writes nothing.
    pub fn linkbox_raw_ticks_to_next(
        set: *const Set, names: *const Names, ids: *const Slots, timers: *const Slots, rdi: *const Slots,
        run: *const Run, totals: *const Totals,
    ) -> u32;

    /// Writes a DMM with the caller's stamp into out.
    pub fn linkbox_raw_send_dmm(
        set: *const Set, names: *const Names, ids: *const Slots, timers: *const Slots, rdi: *const Slots,
        run: *const Run, totals: *const Totals, stamp: Stamp, out: *mut u8, room: usize,
    ) -> Written;

    /// Which conditions are active. Writes nothing.
    pub fn linkbox_raw_conditions(
        set: *const Set, names: *const Names, ids: *const Slots, timers: *const Slots, rdi: *const Slots,
        run: *const Run, totals: *const Totals,
    ) -> ConditionsTold;

    /// Writes the session's loss line as a record into `into`.
    pub fn linkbox_raw_loss_line(
        set: *const Set, names: *const Names, ids: *const Slots, timers: *const Slots, rdi: *const Slots,
        run: *const Run, totals: *const Totals, into: *mut u8, room: usize,
    ) -> Written;

    /// How many octets a box has in the archive.
    pub fn linkbox_abi() -> usize;

    /// One more reading of a lent session. Writes the session.
    pub fn linkbox_measure(session: *mut LossSession, txf: u32, rxf: u32, txb: u32, ours: u32) -> LossTold;

    /// The settings of a stored record, or refusal 7 and zeros. Writes nothing.
    pub fn linkbox_read_settings(from: *const u8, length: usize) -> SettingsRead;

    /// Writes settings as a record into `into`.
    pub fn linkbox_raw_write_settings(
        into: *mut u8, room: usize, set: *const Set, names: *const Names, ids: *const Slots,
    ) -> Written;

    /// The loss line of a stored record, or refusal 7 and zeros. Writes nothing.
    pub fn linkbox_read_line(from: *const u8, length: usize) -> LineTold;

    /// Writes a loss line as a record into `into`.
    pub fn linkbox_write_line(into: *mut u8, room: usize, line: LossLine) -> Written;

    /// The first TLV of a type in a frame. Writes nothing.
    pub fn linkbox_tlv(frame: *const u8, length: usize, kind: u8) -> TlvTold;
}
