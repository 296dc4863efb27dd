//! The output of a run: one line for each call, as REPLAY.md words it.

use crate::answers::{Delay, Fate, Loss, Refusal};
use crate::calls::Call;
use crate::conditions::{ask_conditions, Conditions};
use crate::frames::receive;
use crate::loss::{clear, measure_lent};
use crate::numbers::Whole;
use crate::pdu::{ask_tlv, Read};
use crate::records::{read_loss_line, read_settings, write_loss_line, write_settings, LossLine};
use crate::sending::{send_dmm, send_lmm, tick};
use crate::settings::Settings;
use crate::state::{cleared_session, new_setting, Session, State};

/// "The program holds one state, all zero at the start, one lent loss session, all zero at the start, and one buffer."
pub struct Held {
    pub state: State,
    pub lent: Session,
}

/// "Before each call the buffer's octet i is set to (165 + i) mod 256."
fn fresh_buffer(length: usize) -> Vec<u8> {
    (165_u8..=255).chain(0..165).cycle().take(length).collect()
}

/// "octets in lower-case hex with nothing between them, `-` for no octets".
fn hex(octets: &[u8]) -> String {
    if octets.is_empty() {
        return "-".to_string();
    }
    let digit = |value: u8| char::from_digit(u32::from(value), 16).unwrap_or('?');
    octets.iter().flat_map(|octet| [digit(octet / 16), digit(octet % 16)]).collect()
}

/// "any refusal".
fn refused(refusal: Refusal) -> String {
    format!("refused {}", refusal.number())
}

/// The line of a call that may be refused.
fn line_of<T>(answer: Result<T, Refusal>, words: impl Fn(T) -> String) -> String {
    answer.map_or_else(refused, words)
}

/// "their lines end in ` | ` and the whole buffer part after the call".
fn with_buffer(length: usize, call: impl FnOnce(&mut [u8]) -> String) -> String {
    let mut buffer = fresh_buffer(length);
    let words = call(&mut buffer);
    format!("{words} | {}", hex(&buffer))
}

/// "sent L".
fn sent(length: Whole) -> String {
    format!("sent {length}")
}

/// The row of the table for 258.
fn fate_words(fate: Fate) -> String {
    match fate {
        Fate::Passed => "passed".to_string(),
        Fate::Dropped(reason) => format!("dropped {}", reason.number()),
        Fate::Taken => "taken".to_string(),
        Fate::Replied(length) => format!("replied {length}"),
        Fate::Loss(loss) => loss_words(loss),
        Fate::Delay(Delay::TwoWayOnly(two_way)) => format!("delay {two_way}"),
        Fate::Delay(Delay::All { two_way, far, near }) => format!("delay {two_way} {far} {near}"),
    }
}

/// "loss NEAR FAR".
fn loss_words(loss: Loss) -> String {
    format!("loss {} {}", loss.near, loss.far)
}

/// "ticked" or "sent 89".
fn tick_words(ccm: Option<Whole>) -> String {
    ccm.map_or("ticked".to_string(), sent)
}

/// "a value / none of that type", or the reader's D number.
fn read_words(read: Read) -> String {
    match read {
        Read::Value(value) => format!("value {}", hex(value)),
        Read::NoSuchTlv => "none".to_string(),
        Read::Bad(reason) => format!("dropped {}", reason.number()),
    }
}

/// "line INTERVALS NEAR FAR".
fn loss_line_words(line: LossLine) -> String {
    format!("line {} {} {}", line.intervals, line.near, line.far)
}

/// "`ID:` and right behind it the letters `L` and `R` that stand, or `-`".
fn peer_words((id, lost, rdi): &(Whole, bool, bool)) -> String {
    let letters = match (lost, rdi) {
        (true, true) => "LR",
        (true, false) => "L",
        (false, true) => "R",
        (false, false) => "-",
    };
    format!(" {id}:{letters}")
}

/// "`conditions`, then for each used peer slot ...; then of the others those that stand, in this order".
fn condition_words(conditions: Conditions) -> String {
    let others = [
        (conditions.mismerge, " mismerge"),
        (conditions.unexpected_mep, " mep"),
        (conditions.unexpected_period, " period"),
        (conditions.unexpected_level, " level"),
        (conditions.ais, " ais"),
        (conditions.lck, " lck"),
    ];
    let peers: String = conditions.peers.iter().map(peer_words).collect();
    let standing: String = others.iter().filter(|(stands, _)| *stands).map(|(_, word)| *word).collect();
    format!("conditions{peers}{standing}")
}

impl Default for Held {
    /// The same as `new`.
    fn default() -> Held {
        Held::new()
    }
}

impl Held {
    /// All zero at the start.
    pub fn new() -> Held {
        Held { state: State::all_zero(), lent: cleared_session() }
    }

    /// One call, and its line without the line feed.
    pub fn line(&mut self, call: Call) -> String {
        let state = &mut self.state;
        match call {
            Call::NewSetting(settings) => self.set_new(settings),
            Call::Frame(arrival, length) => {
                with_buffer(length, |buffer| line_of(receive(state, &arrival, buffer), fate_words))
            }
            Call::Tick(length) => with_buffer(length, |buffer| line_of(tick(state, buffer), tick_words)),
            Call::Clear => line_of(clear(state), |()| "cleared".to_string()),
            Call::SendLmm(length) => with_buffer(length, |buffer| line_of(send_lmm(state, buffer), sent)),
            Call::SendDmm(stamp, length) => {
                with_buffer(length, |buffer| line_of(send_dmm(state, stamp, buffer), sent))
            }
            Call::PutState(put) => self.put_state(*put),
            Call::ShowState => format!("state {}", hex(&state.to_octets())),
            Call::AskTlv(wanted, frame) => line_of(ask_tlv(frame, wanted), read_words),
            Call::PutSession(session) => self.put_session(session),
            Call::Measure(readings) => self.measure_on_lent(readings),
            Call::ReadSettings(octets) => line_of(read_settings(octets), settings_words),
            Call::WriteSettings(settings, length) => {
                with_buffer(length, |buffer| line_of(write_settings(&settings, buffer), sent))
            }
            Call::ReadLossLine(octets) => line_of(read_loss_line(octets), loss_line_words),
            Call::WriteLossLine(line, length) => {
                with_buffer(length, |buffer| line_of(write_loss_line(line, buffer), sent))
            }
            Call::Conditions => line_of(ask_conditions(state), condition_words),
        }
    }

    /// "The state that 257 returns becomes the held state, also where it is refused".
    fn set_new(&mut self, settings: Settings) -> String {
        let answer = new_setting(settings);
        self.state = answer.clone().unwrap_or_else(|_| State::all_zero());
        line_of(answer, |_| "set".to_string())
    }

    /// 263: "taken as they stand, with no test".
    fn put_state(&mut self, state: State) -> String {
        self.state = state;
        "set".to_string()
    }

    /// 266: "with no test".
    fn put_session(&mut self, session: Session) -> String {
        self.lent = session;
        "set".to_string()
    }

    /// 267: "`loss NEAR FAR session` and the lent session's 37 octets after it".
    fn measure_on_lent(&mut self, readings: crate::state::Readings) -> String {
        let answer = measure_lent(&mut self.lent, readings);
        line_of(answer, |loss| format!("{} session {}", loss_words(loss), hex(&self.lent.to_octets())))
    }
}

/// 268: "`settings` and the 81 octets".
fn settings_words(settings: Settings) -> String {
    format!("settings {}", hex(&settings.to_octets()))
}
