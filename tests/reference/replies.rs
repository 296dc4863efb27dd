//! Rule 6: the replies to LBM, LMM and DMM.

use crate::answers::{Fate, Refusal};
use crate::frames::Arrival;
use crate::numbers::Whole;
use crate::octets::{big_endian, lay_over, length, stamp_octets};
use crate::pdu::{opcode, source, DMM, DMR, LBM, LBR, LMM, LMR};
use crate::state::State;

/// Refusal 3: "a message or record must be written and the buffer is shorter than it"; "Octets of the buffer after any
/// written message or record stay."
pub fn write_to_buffer(buffer: &mut [u8], message: &[u8]) -> Result<Whole, Refusal> {
    if length(buffer) < length(message) {
        return Err(Refusal::BufferTooShort);
    }
    lay_over(buffer, 0, message);
    Ok(length(message))
}

/// Rule 6: "the reply is the request with the source as destination, our address as source, and opcode 2, 42 or 46; all
/// other octets and the length are kept."
pub fn reply(state: &State, arrival: &Arrival, buffer: &mut [u8]) -> Result<Fate, Refusal> {
    let mut message = arrival.frame.to_vec();
    lay_over(&mut message, 0, source(arrival.frame));
    lay_over(&mut message, 6, &state.settings.own_address);
    match opcode(arrival.frame) {
        LBM => lay_over(&mut message, 15, &big_endian(LBR, 1)),
        LMM => make_loss_reply(&mut message, state),
        DMM => make_delay_reply(&mut message, arrival),
        _ => {}
    }
    write_to_buffer(buffer, &message).map(Fate::Replied)
}

/// "LMR also gets our received and sent counts in RxFCf and TxFCb".
fn make_loss_reply(message: &mut [u8], state: &State) {
    lay_over(message, 15, &big_endian(LMR, 1));
    lay_over(message, 22, &big_endian(state.received, 4));
    lay_over(message, 26, &big_endian(state.sent, 4));
}

/// "DMR gets the caller's two stamps": the receive stamp in RxTimeStampf, the send stamp in TxTimeStampb.
fn make_delay_reply(message: &mut [u8], arrival: &Arrival) {
    lay_over(message, 15, &big_endian(DMR, 1));
    lay_over(message, 26, &stamp_octets(arrival.receive_stamp));
    lay_over(message, 34, &stamp_octets(arrival.send_stamp));
}
