//! The input of a run, call by call, as REPLAY.md frames it.

use crate::frames::{Arrival, Side};
use crate::numbers::{Stamp, Whole};
use crate::octets::Stored;
use crate::records::LossLine;
use crate::settings::Settings;
use crate::state::{Readings, Session, State};

/// One call of a run. A buffer is given by its length.
pub enum Call<'a> {
    NewSetting(Settings),
    Frame(Arrival<'a>, usize),
    Tick(usize),
    Clear,
    SendLmm(usize),
    SendDmm(Stamp, usize),
    PutState(Box<State>),
    ShowState,
    AskTlv(Whole, &'a [u8]),
    PutSession(Session),
    Measure(Readings),
    ReadSettings(&'a [u8]),
    WriteSettings(Settings, usize),
    ReadLossLine(&'a [u8]),
    WriteLossLine(LossLine, usize),
    Conditions,
}

/// "the line `bad call`, and the program stops".
pub struct BadCall;

/// The calls of a run, one after another.
pub struct Calls<'a> {
    rest: &'a [u8],
}

impl<'a> Calls<'a> {
    /// Starts at the front of the input.
    pub fn new(input: &'a [u8]) -> Calls<'a> {
        Calls { rest: input }
    }

    /// "a two-octet length L of all that follows it, 2 <= L <= 2,000": the next call's octets behind its length.
    fn next_framed(&mut self) -> Result<&'a [u8], BadCall> {
        let mut stored = Stored::new(self.rest);
        if stored.octets(2).len() < 2 {
            return Err(BadCall);
        }
        let length = Stored::new(self.rest).number(2);
        let count = usize::try_from(length).unwrap_or(0);
        let framed = stored.octets(count);
        if !(2..=2_000).contains(&count) || framed.len() < count {
            return Err(BadCall);
        }
        self.rest = stored.remaining();
        Ok(framed)
    }
}

impl<'a> Iterator for Calls<'a> {
    type Item = Result<(Whole, Call<'a>), BadCall>;

    /// "Input may end only between two calls."
    fn next(&mut self) -> Option<Self::Item> {
        if self.rest.is_empty() {
            return None;
        }
        Some(self.next_framed().and_then(call_in))
    }
}

/// The call number and the call in a framed row of octets.
fn call_in(framed: &[u8]) -> Result<(Whole, Call<'_>), BadCall> {
    let mut stored = Stored::new(framed);
    let number = stored.number(2);
    let body = stored.remaining();
    if !body_length_is_good(number, body.len()) {
        return Err(BadCall);
    }
    let call = call_of(number, &mut Stored::new(body))?;
    Ok((number, call))
}

/// "an unknown number, a body of a wrong length": the lengths of the table's bodies.
fn body_length_is_good(number: Whole, length: usize) -> bool {
    match number {
        257 => length == 81,
        258 => 19 <= length,
        259 | 261 => length == 2,
        260 | 264 | 272 => length == 0,
        262 => length == 10,
        263 => length == 194,
        265 => 1 <= length,
        266 => length == 37,
        267 => length == 16,
        268 | 270 => true,
        269 => length == 83,
        271 => length == 22,
        _ => false,
    }
}

/// The table of calls.
fn call_of<'a>(number: Whole, body: &mut Stored<'a>) -> Result<Call<'a>, BadCall> {
    Ok(match number {
        257 => Call::NewSetting(Settings::from_stored(body)),
        258 => frame_call(body)?,
        259 => Call::Tick(buffer_length(body)?),
        260 => Call::Clear,
        261 => Call::SendLmm(buffer_length(body)?),
        262 => {
            let buffer = buffer_length(body)?;
            Call::SendDmm(body.stamp(), buffer)
        }
        263 => Call::PutState(Box::new(State::from_stored(body))),
        264 => Call::ShowState,
        265 => Call::AskTlv(body.number(1), body.remaining()),
        266 => Call::PutSession(Session::from_stored(body)),
        267 => Call::Measure(Readings::from_stored(body)),
        268 => Call::ReadSettings(body.remaining()),
        269 => {
            let buffer = buffer_length(body)?;
            Call::WriteSettings(Settings::from_stored(body), buffer)
        }
        270 => Call::ReadLossLine(body.remaining()),
        271 => {
            let buffer = buffer_length(body)?;
            Call::WriteLossLine(LossLine::from_stored(body), buffer)
        }
        272 => Call::Conditions,
        _ => return Err(BadCall),
    })
}

/// "buffer 2": "from its front, 0 to 1,600".
fn buffer_length(body: &mut Stored) -> Result<usize, BadCall> {
    usize::try_from(body.number(2)).ok().filter(|length| *length <= 1_600).ok_or(BadCall)
}

/// "side 1 (0 active, 1 passive), buffer 2, receive stamp, send stamp, then the frame".
fn frame_call<'a>(body: &mut Stored<'a>) -> Result<Call<'a>, BadCall> {
    let side = match body.number(1) {
        0 => Side::Active,
        1 => Side::Passive,
        _ => return Err(BadCall),
    };
    let buffer = buffer_length(body)?;
    let receive_stamp = body.stamp();
    let send_stamp = body.stamp();
    let frame = body.remaining();
    Ok(Call::Frame(Arrival { side, frame, receive_stamp, send_stamp }, buffer))
}
