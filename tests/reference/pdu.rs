//! The paper's section "What is in a PDU". Places count from 0 at the destination address, so PDU octet n is place
//! n + 13.

use crate::answers::{Dropped, Refusal};
use crate::numbers::{frame_length_is_good, plus, Whole};
use crate::octets::{length, octet, part, wire_number};

pub const CCM: Whole = 1;
pub const LBR: Whole = 2;
pub const LBM: Whole = 3;
pub const AIS: Whole = 33;
pub const LCK: Whole = 35;
pub const LMR: Whole = 42;
pub const LMM: Whole = 43;
pub const DMR: Whole = 46;
pub const DMM: Whole = 47;

/// "EtherType 2 (89-02 is OAM, all else is a service frame)".
pub fn is_oam(frame: &[u8]) -> bool {
    wire_number(frame, 12, 14) == 0x8902
}

/// "destination 6".
pub fn destination(frame: &[u8]) -> &[u8] {
    part(frame, 0, 6)
}

/// "source 6".
pub fn source(frame: &[u8]) -> &[u8] {
    part(frame, 6, 12)
}

/// "Octet 1: level in the top 3 bits, version in the low 5". Any version is read, so only the level is asked for.
pub fn level(frame: &[u8]) -> Whole {
    octet(frame, 14) / 32
}

/// "Octet 2 opcode".
pub fn opcode(frame: &[u8]) -> Whole {
    octet(frame, 15)
}

/// "[octet] 3 flags".
pub fn flags(frame: &[u8]) -> Whole {
    octet(frame, 16)
}

/// "4 TLV offset".
pub fn tlv_offset(frame: &[u8]) -> Whole {
    octet(frame, 17)
}

/// The period code: "low 3 flag bits".
pub fn period_code(frame: &[u8]) -> Whole {
    flags(frame) % 8
}

/// The table's column "Offset"; none for an opcode that is not in the table.
pub fn least_offset(opcode: Whole) -> Option<Whole> {
    match opcode {
        CCM => Some(70),
        LBM | LBR => Some(4),
        AIS | LCK => Some(0),
        LMM | LMR => Some(12),
        DMM | DMR => Some(32),
        _ => None,
    }
}

/// D1 "OAM frame shorter than 18".
pub fn is_shorter_than_18(frame: &[u8]) -> bool {
    length(frame) < 18
}

/// D4 "TLV offset below the opcode's", then D5 "fixed part, a TLV or the End TLV missing". The offset is not below the
/// opcode's after D4, so a frame whose TLVs begin inside it has its fixed part.
pub fn offset_and_parts(frame: &[u8], least: Whole) -> Result<(), Dropped> {
    if tlv_offset(frame) < least {
        return Err(Dropped::TlvOffset);
    }
    match walk_tlvs(frame, 0) {
        Walk::Cut => Err(Dropped::PartMissing),
        _ => Ok(()),
    }
}

/// Where a walk over the TLVs ends.
enum Walk<'a> {
    EndTlv,
    Wanted(&'a [u8]),
    Cut,
}

/// "then TLVs from 4 + offset on. The TLV of type 0 ends them and has no length; any other has a two-octet length and a
/// value." Type 0 is never the wanted one.
fn walk_tlvs(frame: &[u8], wanted: Whole) -> Walk<'_> {
    let end_of_frame = length(frame);
    let mut place = plus(18, tlv_offset(frame));
    loop {
        if place >= end_of_frame {
            return Walk::Cut;
        }
        let tlv_type = octet(frame, place);
        if tlv_type == 0 {
            return Walk::EndTlv;
        }
        let value = plus(place, 3);
        if value > end_of_frame {
            return Walk::Cut;
        }
        let next = plus(value, wire_number(frame, plus(place, 1), value));
        if next > end_of_frame {
            return Walk::Cut;
        }
        if tlv_type == wanted {
            return Walk::Wanted(part(frame, value, next));
        }
        place = next;
    }
}

/// What the reader hands back.
pub enum Read<'a> {
    Value(&'a [u8]),
    NoSuchTlv,
    Bad(Dropped),
}

/// "Asked for a TLV type, the reader hands back the value of the first such TLV"; "no such TLV" always for type 0.
pub fn ask_tlv(frame: &[u8], wanted: Whole) -> Result<Read<'_>, Refusal> {
    if !frame_length_is_good(frame) {
        return Err(Refusal::FrameLength);
    }
    if let Err(reason) = readable(frame) {
        return Ok(Read::Bad(reason));
    }
    Ok(match walk_tlvs(frame, wanted) {
        Walk::Wanted(value) => Read::Value(value),
        _ => Read::NoSuchTlv,
    })
}

/// "tests only 1, D1, D3 (service frame, or opcode not in this table), D4 and D5"; D5 for the whole row of TLVs, also
/// behind the wanted one.
fn readable(frame: &[u8]) -> Result<(), Dropped> {
    if !is_oam(frame) {
        return Err(Dropped::OpcodeNotHandled);
    }
    if is_shorter_than_18(frame) {
        return Err(Dropped::ShorterThan18);
    }
    let least = least_offset(opcode(frame)).ok_or(Dropped::OpcodeNotHandled)?;
    offset_and_parts(frame, least)
}
