//! Rule 8: delay from a delay reply, in signed nanoseconds.

use crate::answers::{Delay, Dropped, Fate};
use crate::numbers::{minus, plus, stamp_is_given, stamp_is_good, times, Stamp, Whole};
use crate::octets::wire_stamp;

/// TxTimeStampf of a reply.
fn tx_time_stamp_f(frame: &[u8]) -> Stamp {
    wire_stamp(frame, 18)
}

/// RxTimeStampf of a reply.
fn rx_time_stamp_f(frame: &[u8]) -> Stamp {
    wire_stamp(frame, 26)
}

/// TxTimeStampb of a reply.
fn tx_time_stamp_b(frame: &[u8]) -> Stamp {
    wire_stamp(frame, 34)
}

/// "if RxTimeStampf and TxTimeStampb are both given".
fn middle_stamps_are_used(frame: &[u8]) -> bool {
    stamp_is_given(rx_time_stamp_f(frame)) && stamp_is_given(tx_time_stamp_b(frame))
}

/// D7: "a DMR with too many nanoseconds in a stamp it uses"; "TxTimeStampf is used even if all zero".
pub fn delay_stamps_are_good(frame: &[u8]) -> bool {
    let middle = stamp_is_good(rx_time_stamp_f(frame)) && stamp_is_good(tx_time_stamp_b(frame));
    stamp_is_good(tx_time_stamp_f(frame)) && (!middle_stamps_are_used(frame) || middle)
}

/// A stamp in nanoseconds.
fn nanoseconds(stamp: Stamp) -> Whole {
    plus(times(stamp.seconds, 1_000_000_000), stamp.nanoseconds)
}

/// The time from one stamp to another, sign kept.
fn time_from(earlier: Stamp, later: Stamp) -> Whole {
    minus(nanoseconds(later), nanoseconds(earlier))
}

/// "two-way = receive stamp - TxTimeStampf; if RxTimeStampf and TxTimeStampb are both given, less (TxTimeStampb -
/// RxTimeStampf), and one-way far = RxTimeStampf - TxTimeStampf, near = receive stamp - TxTimeStampb."
fn delay_between(frame: &[u8], receive_stamp: Stamp) -> Delay {
    let round_trip = time_from(tx_time_stamp_f(frame), receive_stamp);
    if !middle_stamps_are_used(frame) {
        return Delay::TwoWayOnly(round_trip);
    }
    let time_in_the_peer = time_from(rx_time_stamp_f(frame), tx_time_stamp_b(frame));
    Delay::All {
        two_way: minus(round_trip, time_in_the_peer),
        far: time_from(tx_time_stamp_f(frame), rx_time_stamp_f(frame)),
        near: time_from(tx_time_stamp_b(frame), receive_stamp),
    }
}

/// D8 "a delay that a signed 64-bit number can't hold". Good stamps lie below 2^32 s, so no delay is that large.
fn fits_signed_64(delay: Delay) -> bool {
    let fits = |value: Whole| i64::try_from(value).is_ok();
    match delay {
        Delay::TwoWayOnly(two_way) => fits(two_way),
        Delay::All { two_way, far, near } => fits(two_way) && fits(far) && fits(near),
    }
}

/// Rule 8 for a reply that passed every test.
pub fn delay_of_reply(frame: &[u8], receive_stamp: Stamp) -> Fate {
    let delay = delay_between(frame, receive_stamp);
    if fits_signed_64(delay) { Fate::Delay(delay) } else { Fate::Dropped(Dropped::DelayTooLarge) }
}
