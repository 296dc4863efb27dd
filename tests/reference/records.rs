//! The paper's section "Stored records".

use crate::answers::Refusal;
use crate::numbers::{Whole, MOST_INTERVALS};
use crate::octets::{little_endian, Stored};
use crate::replies::write_to_buffer;
use crate::settings::{settings_are_valid, Settings};
use crate::state::totals_are_within_bounds;

const SETTINGS_KIND: Whole = 1;
const SETTINGS_LENGTH: Whole = 83;
const LOSS_LINE_KIND: Whole = 2;
const LOSS_LINE_LENGTH: Whole = 22;

/// The values of a kind 2 record.
#[derive(Clone, Copy, PartialEq, Debug)]
pub struct LossLine {
    pub near: Whole,
    pub far: Whole,
    pub intervals: Whole,
}

impl LossLine {
    /// "near 8 and far 8 (signed), intervals 4".
    pub fn from_stored(stored: &mut Stored) -> LossLine {
        LossLine { near: stored.signed_64(), far: stored.signed_64(), intervals: stored.number(4) }
    }

    /// The same 20 octets again.
    fn to_octets(self) -> Vec<u8> {
        [little_endian(self.near, 8), little_endian(self.far, 8), little_endian(self.intervals, 4)].concat()
    }
}

/// "two-octet length of all that follows it, two-octet kind, body". Refusal 7: "a wrong length or kind, is cut short".
/// "A record is read from the front of the octets given; the rest isn't looked at."
fn body_of_record(octets: &[u8], kind: Whole, length: Whole) -> Result<&[u8], Refusal> {
    let mut stored = Stored::new(octets);
    let body_length = usize::try_from(length).unwrap_or(0).saturating_sub(2);
    let good_length = stored.number(2) == length;
    let good_kind = stored.number(2) == kind;
    let body = stored.octets(body_length);
    if good_length && good_kind && body.len() == body_length { Ok(body) } else { Err(Refusal::BadRecord) }
}

/// A record of a kind around its body.
fn record(kind: Whole, length: Whole, body: Vec<u8>) -> Vec<u8> {
    [little_endian(length, 2), little_endian(kind, 2), body].concat()
}

/// "Reading a record gives 7".
pub fn read_settings(octets: &[u8]) -> Result<Settings, Refusal> {
    let body = body_of_record(octets, SETTINGS_KIND, SETTINGS_LENGTH)?;
    let settings = Settings::from_stored(&mut Stored::new(body));
    if settings_are_valid(&settings) { Ok(settings) } else { Err(Refusal::BadRecord) }
}

/// "writing one with bad values gives 4; on writing, 4 comes before 3".
pub fn write_settings(settings: &Settings, buffer: &mut [u8]) -> Result<Whole, Refusal> {
    if !settings_are_valid(settings) {
        return Err(Refusal::BadSetting);
    }
    write_to_buffer(buffer, &record(SETTINGS_KIND, SETTINGS_LENGTH, settings.to_octets()))
}

/// "Kind 2 values keep the well-formed rules on intervals and totals."
fn loss_line_is_valid(line: LossLine) -> bool {
    line.intervals <= MOST_INTERVALS && totals_are_within_bounds(line.near, line.far, line.intervals)
}

/// A loss line from the front of the octets.
pub fn read_loss_line(octets: &[u8]) -> Result<LossLine, Refusal> {
    let body = body_of_record(octets, LOSS_LINE_KIND, LOSS_LINE_LENGTH)?;
    let line = LossLine::from_stored(&mut Stored::new(body));
    if loss_line_is_valid(line) { Ok(line) } else { Err(Refusal::BadRecord) }
}

/// A loss line into a buffer: 4 before 3.
pub fn write_loss_line(line: LossLine, buffer: &mut [u8]) -> Result<Whole, Refusal> {
    if !loss_line_is_valid(line) {
        return Err(Refusal::BadSetting);
    }
    write_to_buffer(buffer, &record(LOSS_LINE_KIND, LOSS_LINE_LENGTH, line.to_octets()))
}
