//! Octets and numbers: "Wire numbers are big-endian", stored ones little-endian.

use crate::numbers::{minus, modulo, plus, times, Stamp, Whole};

/// The length of a row of octets.
pub fn length(octets: &[u8]) -> Whole {
    octets.len() as Whole
}

/// A place in memory; a place that no memory has becomes one past every end.
fn place_in_memory(place: Whole) -> usize {
    usize::try_from(place).unwrap_or(usize::MAX)
}

/// The octet at a place counted from 0. The rules test the length first, so no octet past the end is asked for.
pub fn octet(octets: &[u8], place: Whole) -> Whole {
    octets.get(place_in_memory(place)).map_or(0, |value| Whole::from(*value))
}

/// The part from one place up to, not with, another; empty where there is none.
pub fn part(octets: &[u8], from: Whole, to: Whole) -> &[u8] {
    octets.get(place_in_memory(from)..place_in_memory(to)).unwrap_or(&[])
}

/// A big-endian number of the wire.
pub fn wire_number(octets: &[u8], from: Whole, to: Whole) -> Whole {
    let add = |sum, value: &u8| plus(times(sum, 256), Whole::from(*value));
    part(octets, from, to).iter().fold(0, add)
}

/// Eight octets of the wire as a stamp: seconds, then nanoseconds.
pub fn wire_stamp(octets: &[u8], from: Whole) -> Stamp {
    let middle = plus(from, 4);
    Stamp {
        seconds: wire_number(octets, from, middle),
        nanoseconds: wire_number(octets, middle, plus(middle, 4)),
    }
}

/// The lowest octet of a number.
fn lowest_octet(value: Whole) -> u8 {
    u8::try_from(modulo(value, 256)).unwrap_or(0)
}

/// A number as little-endian octets; a negative one in two's complement.
pub fn little_endian(value: Whole, width: usize) -> Vec<u8> {
    let mut octets = Vec::new();
    let mut rest = value;
    for _ in 0..width {
        octets.push(lowest_octet(rest));
        rest = rest.div_euclid(256);
    }
    octets
}

/// A number as big-endian octets.
pub fn big_endian(value: Whole, width: usize) -> Vec<u8> {
    let mut octets = little_endian(value, width);
    octets.reverse();
    octets
}

/// A stamp as its eight octets on the wire.
pub fn stamp_octets(stamp: Stamp) -> Vec<u8> {
    [big_endian(stamp.seconds, 4), big_endian(stamp.nanoseconds, 4)].concat()
}

/// Lays octets over a message from a place on; what has no room in it is left out.
pub fn lay_over(message: &mut [u8], from: Whole, octets: &[u8]) {
    let first = place_in_memory(from);
    for (target, value) in message.iter_mut().skip(first).zip(octets) {
        *target = *value;
    }
}

/// Reads stored numbers and octets one after another from the front.
pub struct Stored<'a> {
    rest: &'a [u8],
}

impl<'a> Stored<'a> {
    /// Starts at the front of the octets given.
    pub fn new(octets: &'a [u8]) -> Stored<'a> {
        Stored { rest: octets }
    }

    /// The next octets as they stand; fewer only where the input has no more.
    pub fn octets(&mut self, count: usize) -> &'a [u8] {
        let (taken, rest) = self.rest.split_at(count.min(self.rest.len()));
        self.rest = rest;
        taken
    }

    /// A fixed number of octets, such as an address.
    pub fn array<const N: usize>(&mut self) -> [u8; N] {
        let mut array = [0; N];
        lay_over(&mut array, 0, self.octets(N));
        array
    }

    /// The next little-endian number of a width, without sign.
    pub fn number(&mut self, width: usize) -> Whole {
        let add = |sum, value: &u8| plus(times(sum, 256), Whole::from(*value));
        self.octets(width).iter().rev().fold(0, add)
    }

    /// The next eight octets as a signed number in two's complement.
    pub fn signed_64(&mut self) -> Whole {
        let value = self.number(8);
        if value < 1 << 63 { value } else { minus(value, 1 << 64) }
    }

    /// A stamp: seconds 4, nanoseconds 4.
    pub fn stamp(&mut self) -> Stamp {
        Stamp { seconds: self.number(4), nanoseconds: self.number(4) }
    }

    /// All octets not yet read.
    pub fn remaining(&mut self) -> &'a [u8] {
        self.octets(self.rest.len())
    }
}
