//! Rule 7: loss from the readings of loss replies.

use crate::answers::{Fate, Loss, Refusal};
use crate::numbers::{minus, modulo, plus, Whole, COUNT_MODULUS, MOST_INTERVALS};
use crate::octets::wire_number;
use crate::state::{cleared_session, session_is_well_formed, state_is_well_formed, Readings, Session, State};

/// "readings are its three counts and our received count".
pub fn loss_of_reply(state: &mut State, frame: &[u8]) -> Result<Fate, Refusal> {
    let readings = Readings {
        tx_fcf: wire_number(frame, 18, 22),
        rx_fcf: wire_number(frame, 22, 26),
        tx_fcb: wire_number(frame, 26, 30),
        ours: state.received,
    };
    measure(&mut state.session, readings).map(Fate::Loss)
}

/// "growth is later minus earlier modulo 2^32".
fn growth(earlier: Whole, later: Whole) -> Whole {
    modulo(minus(later, earlier), COUNT_MODULUS)
}

/// "far loss = growth of TxFCf less growth of RxFCf; near loss = growth of TxFCb less growth of our received count".
fn loss_between(earlier: Readings, later: Readings) -> Loss {
    let far = minus(growth(earlier.tx_fcf, later.tx_fcf), growth(earlier.rx_fcf, later.rx_fcf));
    let near = minus(growth(earlier.tx_fcb, later.tx_fcb), growth(earlier.ours, later.ours));
    Loss { near, far }
}

/// "The first after a clear is only kept, and its two results are 0. Later ... Each is added to its signed 64-bit
/// total." Refusal 5: "a good loss reply would start interval 1,000,000,001".
fn measure(session: &mut Session, readings: Readings) -> Result<Loss, Refusal> {
    if session.kept == 0 {
        session.kept = 1;
        session.reading = readings;
        return Ok(Loss { near: 0, far: 0 });
    }
    if session.intervals >= MOST_INTERVALS {
        return Err(Refusal::TooManyIntervals);
    }
    let loss = loss_between(session.reading, readings);
    session.near_total = plus(session.near_total, loss.near);
    session.far_total = plus(session.far_total, loss.far);
    session.intervals = plus(session.intervals, 1);
    session.reading = readings;
    Ok(loss)
}

/// "this session is lent and updated there by the same rule, from four readings, with refusals 2 and 5".
pub fn measure_lent(session: &mut Session, readings: Readings) -> Result<Loss, Refusal> {
    if !session_is_well_formed(session) {
        return Err(Refusal::StateNotWellFormed);
    }
    measure(session, readings)
}

/// "A clear forgets the kept reading ...; nothing else changes."
pub fn clear(state: &mut State) -> Result<(), Refusal> {
    if !state_is_well_formed(state) {
        return Err(Refusal::StateNotWellFormed);
    }
    state.session = cleared_session();
    Ok(())
}
