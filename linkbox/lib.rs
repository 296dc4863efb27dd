//! A link box for Rust programs and firmware, over the static library that `linkbox/build` makes. No part of std is needed, nothing is
//! allocated, and no call panics.
//!
//! [`LinkBox`] owns the arrays that hold a box's state; each method is one call. What a call writes is borrowed mutably and what it reads
//! is borrowed beside it, so the compiler rules out the overlap that a C caller has to see to.
//!
//! ```no_run
//! use linkbox::{FrameAnswer, LinkBox, Settings, Side, Stamp};
//!
//! # fn main() -> Result<(), linkbox::Refusal> {
//! # let (record, frame) = ([0u8; 85], [0u8; 64]);
//! let mut link_box = LinkBox::new(&Settings::read(&record)?)?;
//! let mut out = [0u8; 1514];
//! match link_box.frame(Side::Active, &frame, Stamp::default(), Stamp::default(), &mut out)? {
//!     FrameAnswer::Passed => (),              // hand the frame on
//!     FrameAnswer::Replied(_reply) => (),     // send the reply back
//!     _ => (),
//! }
//! if let Some(_ccm) = link_box.tick(&mut out)? {
//!     // send the CCM
//! }
//! # Ok(()) }
//! ```
#![no_std]

pub mod ffi;

use core::fmt;
use ffi::SettingArrays;
pub use ffi::{Arrays, LossLine, LossSession, PEERS, RUN, Readings, Stamp};

/// Why a call was refused; state and buffers are as they were. Requests will add numbers, so a match needs an arm for the rest.
#[derive(Clone, Copy, PartialEq, Eq, Debug)]
#[non_exhaustive]
pub enum Refusal {
    /// 1: frame length outside 14..1,514.
    BadLength,
    /// 2: the state or session passed in is not well formed.
    NotWellFormed,
    /// 3: a message or record must be written and the buffer is shorter than it.
    NoRoom,
    /// 4: a setting, or a value to be written, breaks a rule.
    BadSetting,
    /// 5: a good loss reply would start interval 1,000,000,001.
    Full,
    /// 6: a stamp given by the caller has too many nanoseconds.
    BadStamp,
    /// 7: a stored record has a wrong length or kind, is cut short, or breaks a rule on its values.
    BadRecord,
    /// The archive that is linked has another box than this library ([`fits`]).
    Archive,
    /// A number that this library does not know, from a newer archive.
    Other(u32),
}

impl Refusal {
    /// Nothing for 0, which means no refusal.
    fn of(number: u32) -> Result<(), Refusal> {
        Err(match number {
            0 => return Ok(()),
            1 => Refusal::BadLength,
            2 => Refusal::NotWellFormed,
            3 => Refusal::NoRoom,
            4 => Refusal::BadSetting,
            5 => Refusal::Full,
            6 => Refusal::BadStamp,
            7 => Refusal::BadRecord,
            other => Refusal::Other(other),
        })
    }
}

impl fmt::Display for Refusal {
    fn fmt(&self, f: &mut fmt::Formatter<'_>) -> fmt::Result {
        f.write_str(match self {
            Refusal::BadLength => "frame length outside 14..1514",
            Refusal::NotWellFormed => "box or session not well formed",
            Refusal::NoRoom => "buffer too short",
            Refusal::BadSetting => "bad setting or value",
            Refusal::Full => "no loss interval left",
            Refusal::BadStamp => "bad stamp",
            Refusal::BadRecord => "bad stored record",
            Refusal::Archive => "the archive has another box than this library",
            Refusal::Other(number) => return write!(f, "refusal {number}, which this library does not know"),
        })
    }
}

impl core::error::Error for Refusal {}

/// Why a frame was dropped: D1 to D8. Requests will add numbers, so a match needs an arm for the rest.
#[derive(Clone, Copy, PartialEq, Eq, Debug)]
#[non_exhaustive]
pub enum Dropped {
    /// D1: an OAM frame shorter than 18.
    Short,
    /// D2: its level.
    Level,
    /// D3: an opcode that is not handled.
    Opcode,
    /// D4: a TLV offset below the opcode's.
    Offset,
    /// D5: the fixed part, a TLV or the End TLV missing.
    CutOff,
    /// D6: the frame is not for us.
    Destination,
    /// D7: a field's value.
    Value,
    /// D8: a delay that a signed 64-bit number cannot hold. Never given.
    TooLarge,
    /// A number that this library does not know, from a newer archive.
    Other(u32),
}

impl Dropped {
    /// Nothing for 0, which means no drop.
    fn of(number: u32) -> Option<Dropped> {
        Some(match number {
            0 => return None,
            1 => Dropped::Short,
            2 => Dropped::Level,
            3 => Dropped::Opcode,
            4 => Dropped::Offset,
            5 => Dropped::CutOff,
            6 => Dropped::Destination,
            7 => Dropped::Value,
            8 => Dropped::TooLarge,
            other => Dropped::Other(other),
        })
    }
}

impl fmt::Display for Dropped {
    fn fmt(&self, f: &mut fmt::Formatter<'_>) -> fmt::Result {
        f.write_str(match self {
            Dropped::Short => "OAM frame too short",
            Dropped::Level => "level",
            Dropped::Opcode => "opcode not handled",
            Dropped::Offset => "TLV offset too small",
            Dropped::CutOff => "fixed part or TLVs cut off",
            Dropped::Destination => "not for us",
            Dropped::Value => "bad value of a field",
            Dropped::TooLarge => "delay too large",
            Dropped::Other(number) => return write!(f, "drop {number}, which this library does not know"),
        })
    }
}

impl core::error::Error for Dropped {}

/// Where a frame came in.
#[derive(Clone, Copy, PartialEq, Eq, Debug)]
pub enum Side {
    Active = 0,
    Passive = 1,
}

/// Near and far loss of an interval, in frames, with their sign.
#[derive(Clone, Copy, PartialEq, Eq, Debug)]
pub struct Losses {
    pub near: i64,
    pub far: i64,
}

/// One-way delays in nanoseconds, with their sign.
#[derive(Clone, Copy, PartialEq, Eq, Debug)]
pub struct OneWay {
    pub far: i64,
    pub near: i64,
}

/// What a frame is answered.
#[derive(Clone, Copy, PartialEq, Eq, Debug)]
#[non_exhaustive]
pub enum FrameAnswer<'a> {
    /// It is dropped.
    Dropped(Dropped),
    /// It passes to the other side.
    Passed,
    /// A CCM, AIS or LCK, taken in.
    Taken,
    /// A request; its reply stands here, in the caller's buffer.
    Replied(&'a [u8]),
    /// A loss reply that is the first after a clear: it is only kept.
    First,
    /// A loss reply: the losses of the interval that it ends.
    Loss(Losses),
    /// A delay reply: two-way delay in nanoseconds, and the one-way delays where both middle stamps are given.
    Delay { two_way: i64, one_way: Option<OneWay> },
    /// Something was done that this library does not know, by a newer archive.
    Other(u32),
}

impl<'a> FrameAnswer<'a> {
    /// The answer that the library's numbers tell.
    fn of(told: ffi::FrameTold, out: &'a [u8]) -> FrameAnswer<'a> {
        if let Some(why) = Dropped::of(told.drop) {
            return FrameAnswer::Dropped(why);
        }
        match told.done {
            1 => FrameAnswer::Passed,
            2 => FrameAnswer::Taken,
            3 => FrameAnswer::Replied(front(out, told.length)),
            4 => FrameAnswer::First,
            5 => FrameAnswer::Loss(Losses { near: told.near, far: told.far }),
            6 => FrameAnswer::Delay { two_way: told.two_way, one_way: None },
            7 => FrameAnswer::Delay { two_way: told.two_way, one_way: Some(OneWay { far: told.one_way_far, near: told.one_way_near }) },
            other => FrameAnswer::Other(other),
        }
    }
}

/// What a box is set to. Any content is a value; a new setting or a write refuses what breaks a rule.
#[derive(Clone, Copy, PartialEq, Eq, Debug)]
pub struct Settings {
    /// 0 to 7.
    pub level: u32,
    /// 1 to 8,191.
    pub mep_id: u32,
    /// 1 to 7: 3.33 ms, 10 ms, 100 ms, 1 s, 10 s, 1 min, 10 min.
    pub period: u32,
    /// How many of `peer_ids` are used, 1 to 8.
    pub peers: u32,
    pub own_address: [u8; 6],
    /// Where LMM and DMM are sent to.
    pub loss_peer: [u8; 6],
    /// All 48 octets are compared.
    pub meg_id: [u8; 48],
    /// The peers' MEP IDs, used ones first, 0 in unused slots.
    pub peer_ids: [u32; PEERS],
}

impl Settings {
    /// As they lie at a box's front.
    fn lying(&self) -> SettingArrays {
        let mut names = [0; 60];
        names[..6].copy_from_slice(&self.own_address);
        names[6..12].copy_from_slice(&self.loss_peer);
        names[12..].copy_from_slice(&self.meg_id);
        SettingArrays { set: [self.level, self.mep_id, self.period, self.peers], names, ids: self.peer_ids }
    }

    /// From how they lie at a box's front.
    fn of(SettingArrays { set: [level, mep_id, period, peers], names, ids: peer_ids }: SettingArrays) -> Settings {
        let mut settings = Settings { level, mep_id, period, peers, own_address: [0; 6], loss_peer: [0; 6], meg_id: [0; 48], peer_ids };
        settings.own_address.copy_from_slice(&names[..6]);
        settings.loss_peer.copy_from_slice(&names[6..12]);
        settings.meg_id.copy_from_slice(&names[12..]);
        settings
    }

    /// Of a stored record (kind 1, 85 octets) at the front of `from`; the rest isn't looked at. Refusal 7.
    pub fn read(from: &[u8]) -> Result<Settings, Refusal> {
        if !fits() {
            return Err(Refusal::Archive);
        }
        let read = unsafe { ffi::linkbox_read_settings(from.as_ptr(), from.len()) };
        Refusal::of(read.refusal)?;
        Ok(Settings::of(read.settings))
    }

    /// Writes them as a record into the front of a buffer, and gives the record. Refusals 4 and 3.
    pub fn write<'a>(&self, into: &'a mut [u8]) -> Result<&'a [u8], Refusal> {
        if !fits() {
            return Err(Refusal::Archive);
        }
        let lying = self.lying();
        let told = unsafe { ffi::linkbox_raw_write_settings(into.as_mut_ptr(), into.len(), &lying.set, &lying.names, &lying.ids) };
        written(told, into)
    }
}

/// Which conditions of one peer are active.
#[derive(Clone, Copy, PartialEq, Eq, Debug)]
pub struct PeerConditions {
    pub id: u32,
    /// Loss of continuity.
    pub lost: bool,
    /// The RDI that it last sent.
    pub rdi: bool,
}

/// Which conditions of a box are active.
#[derive(Clone, Copy, PartialEq, Eq, Debug)]
pub struct Conditions {
    peers: [PeerConditions; PEERS],
    used: usize,
    pub mismerge: bool,
    pub unexpected_mep: bool,
    pub unexpected_period: bool,
    pub unexpected_level: bool,
    pub ais: bool,
    pub lck: bool,
}

impl Conditions {
    /// Of each used peer slot.
    pub fn peers(&self) -> &[PeerConditions] {
        front(&self.peers, self.used)
    }
}

/// Whether the archive's box has as many octets as this library's. Where it has not, no box is made and no settings are read or written.
pub fn fits() -> bool {
    unsafe { ffi::linkbox_abi() == size_of::<Arrays>() }
}

/// A box: what it is set to and what it knows.
#[derive(Clone, PartialEq, Eq, Debug)]
pub struct LinkBox {
    arrays: Arrays,
}

impl LinkBox {
    /// A box after a new setting: service counts 0, a cleared session, RDI off, a full period to run. Refusal 4.
    pub fn new(settings: &Settings) -> Result<LinkBox, Refusal> {
        if !fits() {
            return Err(Refusal::Archive);
        }
        let lying = settings.lying();
        let made = unsafe { ffi::linkbox_raw_new_setting(&lying.set, &lying.names, &lying.ids) };
        Refusal::of(made.refusal)?;
        Ok(LinkBox { arrays: made.arrays })
    }

    /// A new setting of this box: it starts as a new one does. Where that is refused, by 4, the box runs on as it was.
    pub fn set(&mut self, settings: &Settings) -> Result<(), Refusal> {
        *self = LinkBox::new(settings)?;
        Ok(())
    }

    /// A box with a state that was kept elsewhere. Any content is a value: what is not well formed the box's calls refuse.
    pub fn from_arrays(arrays: Arrays) -> Result<LinkBox, Refusal> {
        if !fits() {
            return Err(Refusal::Archive);
        }
        Ok(LinkBox { arrays })
    }

    /// The state, to be kept elsewhere.
    pub fn arrays(&self) -> &Arrays {
        &self.arrays
    }

    /// What the box is set to.
    pub fn settings(&self) -> Settings {
        let a = &self.arrays;
        Settings::of(SettingArrays { set: a.set, names: a.names, ids: a.ids })
    }

    /// A frame from a side, with its padding and without its check sequence: `receive` is when it came, `transmit` when a reply will
    /// leave. A reply is written into the front of `out`. Refusals 2, 1, 6, then 3 or 5.
    pub fn frame<'a>(
        &mut self, side: Side, frame: &[u8], receive: Stamp, transmit: Stamp, out: &'a mut [u8],
    ) -> Result<FrameAnswer<'a>, Refusal> {
        let a = &mut self.arrays;
        let told = unsafe {
            ffi::linkbox_raw_frame(
                &a.set, &a.names, &a.ids, &mut a.timers, &mut a.rdi, &mut a.run, &mut a.totals, side as u32, frame.as_ptr(), frame.len(),
                receive, transmit, out.as_mut_ptr(), out.len(),
            )
        };
        Refusal::of(told.refusal)?;
        Ok(FrameAnswer::of(told, out))
    }

    /// A tick of 1/600 s; gives the CCM where one is due. Refusals 2 and 3.
    pub fn tick<'a>(&mut self, out: &'a mut [u8]) -> Result<Option<&'a [u8]>, Refusal> {
        let a = &mut self.arrays;
        let told = unsafe {
            ffi::linkbox_raw_tick(&a.set, &a.names, &a.ids, &mut a.timers, &a.rdi, &mut a.run, &a.totals, out.as_mut_ptr(), out.len())
        };
        let ccm = written(told, out)?;
        Ok((!ccm.is_empty()).then_some(ccm))
    }

    /// How many ticks are left to the next CCM, the one that gives it counted: 1 or more; 0 where the box is not well formed.
    pub fn ticks_to_next(&self) -> u32 {
        let a = &self.arrays;
        unsafe { ffi::linkbox_raw_ticks_to_next(&a.set, &a.names, &a.ids, &a.timers, &a.rdi, &a.run, &a.totals) }
    }

    /// A clear of the loss session. Refusal 2.
    pub fn clear(&mut self) -> Result<(), Refusal> {
        let a = &mut self.arrays;
        Refusal::of(unsafe { ffi::linkbox_raw_clear(&a.set, &a.names, &a.ids, &a.timers, &a.rdi, &mut a.run, &mut a.totals) })
    }

    /// An LMM, to be sent to the loss peer. Refusals 2 and 3.
    pub fn send_lmm<'a>(&self, out: &'a mut [u8]) -> Result<&'a [u8], Refusal> {
        let a = &self.arrays;
        let told = unsafe {
            ffi::linkbox_raw_send_lmm(&a.set, &a.names, &a.ids, &a.timers, &a.rdi, &a.run, &a.totals, out.as_mut_ptr(), out.len())
        };
        written(told, out)
    }

    /// A DMM with the caller's stamp, to be sent to the loss peer. Refusals 2, 6 and 3.
    pub fn send_dmm<'a>(&self, stamp: Stamp, out: &'a mut [u8]) -> Result<&'a [u8], Refusal> {
        let a = &self.arrays;
        let told = unsafe {
            ffi::linkbox_raw_send_dmm(&a.set, &a.names, &a.ids, &a.timers, &a.rdi, &a.run, &a.totals, stamp, out.as_mut_ptr(), out.len())
        };
        written(told, out)
    }

    /// The loss line of the box's session as a record (kind 2, 24 octets), to be stored. Refusals 2 and 3.
    pub fn loss_line<'a>(&self, into: &'a mut [u8]) -> Result<&'a [u8], Refusal> {
        let a = &self.arrays;
        let told = unsafe {
            ffi::linkbox_raw_loss_line(&a.set, &a.names, &a.ids, &a.timers, &a.rdi, &a.run, &a.totals, into.as_mut_ptr(), into.len())
        };
        written(told, into)
    }

    /// Which conditions are active. It tests the whole box, as the reads below do not. Refusal 2.
    pub fn conditions(&self) -> Result<Conditions, Refusal> {
        let a = &self.arrays;
        let told = unsafe { ffi::linkbox_raw_conditions(&a.set, &a.names, &a.ids, &a.timers, &a.rdi, &a.run, &a.totals) };
        Refusal::of(told.refusal)?;
        let flags = told.conditions;
        Ok(Conditions {
            peers: core::array::from_fn(|i| PeerConditions { id: a.ids[i], lost: flags.lost[i] != 0, rdi: flags.rdi[i] != 0 }),
            used: a.set[3] as usize,
            mismerge: flags.mismerge != 0,
            unexpected_mep: flags.unexpected_mep != 0,
            unexpected_period: flags.unexpected_period != 0,
            unexpected_level: flags.unexpected_level != 0,
            ais: flags.ais != 0,
            lck: flags.lck != 0,
        })
    }
}

/// Reads: each is one word of a box as it lies, and judges nothing. In a box that is not well formed the words mean nothing;
/// [`LinkBox::conditions`] is the call that tests.
impl LinkBox {
    /// Service frames sent, modulo 2^32.
    pub fn sent(&self) -> u32 {
        self.arrays.run[7]
    }

    /// Service frames received, modulo 2^32.
    pub fn received(&self) -> u32 {
        self.arrays.run[8]
    }

    /// The loss session's near total, in frames.
    pub fn near_total(&self) -> i64 {
        self.arrays.totals[0]
    }

    /// The loss session's far total, in frames.
    pub fn far_total(&self) -> i64 {
        self.arrays.totals[1]
    }

    /// The intervals that the totals cover.
    pub fn intervals(&self) -> u32 {
        self.arrays.run[14]
    }

    /// The ticks for which mismerge stays active if nothing renews it, 0 while it is not; and so of the five after it.
    pub fn mismerge(&self) -> u32 {
        self.arrays.run[0]
    }

    pub fn unexpected_level(&self) -> u32 {
        self.arrays.run[1]
    }

    pub fn unexpected_mep(&self) -> u32 {
        self.arrays.run[2]
    }

    pub fn unexpected_period(&self) -> u32 {
        self.arrays.run[3]
    }

    pub fn ais(&self) -> u32 {
        self.arrays.run[4]
    }

    pub fn lck(&self) -> u32 {
        self.arrays.run[5]
    }

    /// The ticks until the continuity of the peer in a slot is lost, 0 while it is or the slot is unused. Nothing from slot 8 on.
    pub fn peer_timer(&self, slot: usize) -> Option<u32> {
        self.arrays.timers.get(slot).copied()
    }

    /// 1 while the last CCM of the peer in a slot had RDI. Nothing from slot 8 on.
    pub fn peer_rdi(&self, slot: usize) -> Option<u32> {
        self.arrays.rdi.get(slot).copied()
    }
}

impl LossSession {
    /// One more reading: the losses of the interval that it ends, both 0 for the first after a clear. Refusals 2 and 5.
    pub fn measure(&mut self, now: Readings) -> Result<Losses, Refusal> {
        let told = unsafe { ffi::linkbox_measure(self, now.txf, now.rxf, now.txb, now.ours) };
        Refusal::of(told.refusal)?;
        Ok(Losses { near: told.near, far: told.far })
    }
}

impl LossLine {
    /// Of a stored record (kind 2, 24 octets) at the front of `from`; the rest isn't looked at. Refusal 7.
    pub fn read(from: &[u8]) -> Result<LossLine, Refusal> {
        let told = unsafe { ffi::linkbox_read_line(from.as_ptr(), from.len()) };
        Refusal::of(told.refusal)?;
        Ok(LossLine { near: told.near, far: told.far, intervals: told.intervals })
    }

    /// Writes it as a record into the front of a buffer, and gives the record. Refusals 4 and 3.
    pub fn write(self, into: &mut [u8]) -> Result<&[u8], Refusal> {
        let told = unsafe { ffi::linkbox_write_line(into.as_mut_ptr(), into.len(), self) };
        written(told, into)
    }
}

/// What a frame that was asked for a TLV says.
#[derive(Clone, Copy, PartialEq, Eq, Debug)]
pub enum TlvAnswer<'a> {
    /// The frame is bad: the reader's D number.
    Dropped(Dropped),
    /// There is none of that type.
    Absent,
    /// The value of the first one, a part of the frame itself.
    Value(&'a [u8]),
}

/// The value of the first TLV of a type in a frame. Refusal 1.
pub fn find_tlv(frame: &[u8], kind: u8) -> Result<TlvAnswer<'_>, Refusal> {
    let told = unsafe { ffi::linkbox_tlv(frame.as_ptr(), frame.len(), kind) };
    Refusal::of(told.refusal)?;
    Ok(match Dropped::of(told.drop) {
        Some(why) => TlvAnswer::Dropped(why),
        None if told.value == 0 => TlvAnswer::Absent,
        None => TlvAnswer::Value(front(frame.get(told.start..).unwrap_or_default(), told.length)),
    })
}

/// What a call has written into the front of a buffer.
fn written(told: ffi::Written, into: &[u8]) -> Result<&[u8], Refusal> {
    Refusal::of(told.refusal)?;
    Ok(front(into, told.length))
}

/// The first so many, or all where there are fewer, which no archive answers.
fn front<T>(all: &[T], count: usize) -> &[T] {
    all.get(..count).unwrap_or(all)
}
