//! What one call covers: seen from the call, the state before it, the line it gave and the state after it.

use crate::bounds::{self, Found};
use reference::calls::Call;
use reference::frames::{Arrival, Side};
use reference::numbers::Whole;
use reference::pdu::{is_oam, least_offset, level, opcode, tlv_offset};
use reference::replay::Held;

/// One call with all that was seen of it.
pub struct Seen<'a> {
    pub number: Whole,
    pub call: &'a Call<'a>,
    pub before: &'a Held,
    pub after: &'a Held,
    pub line: &'a str,
    /// Is this the first call that tests a state since it was put?
    pub fresh_state: bool,
    /// The same for the lent session.
    pub fresh_session: bool,
}

/// All items that a call covers.
pub fn covered(seen: &Seen) -> Vec<String> {
    let mut items = Vec::new();
    if let Some(number) = word_after(seen.line, "refused ") {
        items.push(format!("refusal {} {number}", seen.number));
    }
    match seen.call {
        Call::Frame(arrival, buffer) => items.extend(of_frame(seen, arrival, *buffer)),
        Call::AskTlv(wanted, frame) => items.extend(of_question(seen.line, *wanted, frame)),
        Call::Tick(buffer) => items.extend(of_tick(seen, *buffer)),
        Call::Measure(_) => items.extend(of_measure(seen)),
        Call::Conditions => items.extend(of_conditions(seen.line)),
        _ => items.extend(of_plain_answer(seen)),
    }
    items.extend(of_plain_buffer(seen.call));
    items.extend(of_bounds(seen));
    items
}

/// The word behind a beginning of the line.
fn word_after<'a>(line: &'a str, beginning: &str) -> Option<&'a str> {
    line.strip_prefix(beginning).and_then(|rest| rest.split(' ').next())
}

/// The opcode as the list names it.
fn opcode_name(frame: &[u8]) -> String {
    let number = opcode(frame);
    if least_offset(number).is_some() {
        number.to_string()
    } else {
        "other".to_string()
    }
}

/// One short, equal or one more.
fn buffer_name(buffer: usize, needed: usize) -> Option<&'static str> {
    match (buffer + 1).checked_sub(needed) {
        Some(0) => Some("one short"),
        Some(1) => Some("equal"),
        Some(2) => Some("one more"),
        _ => None,
    }
}

/// Offset and length of a frame; by 258 or 265.
fn of_layout(call: &str, frame: &[u8]) -> Vec<String> {
    let mut items = vec![];
    let length = frame.len() as Whole;
    if matches!(length, 13 | 14 | 17 | 18 | 1514 | 1515) {
        items.push(format!("length {call} {length}"));
    }
    if length < 18 || !is_oam(frame) {
        return items;
    }
    let Some(least) = least_offset(opcode(frame)) else {
        return items;
    };
    let name = opcode(frame);
    for (offset, words) in [(least, "least"), (least + 1, "least + 1"), (255, "255")] {
        if tlv_offset(frame) == offset && length > 18 + offset {
            items.push(format!("offset {call} opcode {name} {words}"));
        }
    }
    for (wanted, words) in [(least + 18, "least - 1"), (least + 19, "least")] {
        if length == wanted && tlv_offset(frame) == least {
            items.push(format!("length {call} opcode {name} {words}"));
        }
    }
    items
}

/// Call 258.
fn of_frame(seen: &Seen, arrival: &Arrival, buffer: usize) -> Vec<String> {
    let mut items = Vec::new();
    if word_after(seen.line, "refused ") != Some("2") {
        items.extend(of_layout("258", arrival.frame));
    }
    items.extend(of_drop(seen, arrival));
    items.extend(of_fate(seen, arrival));
    let name = opcode_name(arrival.frame);
    let written = word_after(seen.line, "replied ").is_some() || word_after(seen.line, "refused ") == Some("3");
    if let (true, Some(words)) = (written, buffer_name(buffer, arrival.frame.len())) {
        items.push(format!("buffer 258 opcode {name} {words}"));
    }
    items
}

/// A dropped frame: its number, opcode, side and level.
fn of_drop(seen: &Seen, arrival: &Arrival) -> Vec<String> {
    let Some(number) = word_after(seen.line, "dropped ") else {
        return vec![];
    };
    if arrival.frame.len() < 16 {
        return vec![format!("D{number} length {}", arrival.frame.len())];
    }
    let side = if arrival.side == Side::Active { "active" } else { "passive" };
    let relation = match level(arrival.frame).cmp(&seen.before.state.settings.level) {
        std::cmp::Ordering::Less => "below",
        std::cmp::Ordering::Equal => "own",
        std::cmp::Ordering::Greater => "above",
    };
    let mut items = vec![format!("D{number} opcode {} {side} {relation}", opcode_name(arrival.frame))];
    if seen.before.state.unexpected_level != seen.after.state.unexpected_level {
        items.push(format!("D{number} with the unexpected-level timer set"));
    } else if number == "2" && side == "active" && opcode(arrival.frame) == 1 {
        items.push("D2 of a CCM without the unexpected-level timer".into());
    }
    items
}

/// Passed, taken, replied, loss or delay.
fn of_fate(seen: &Seen, arrival: &Arrival) -> Vec<String> {
    let side = if arrival.side == Side::Active { "active" } else { "passive" };
    let kind = if is_oam(arrival.frame) { "OAM" } else { "service" };
    let name = opcode_name(arrival.frame);
    match seen.line.split(' ').next() {
        Some("passed") => vec![format!("answer 258 passed {kind} {side}")],
        Some("taken") => of_taken(seen, &name),
        Some("replied") => vec![format!("answer 258 replied opcode {name}")],
        Some("loss") => vec![
            loss_name("258", seen.before.state.session.kept),
            interval_name("258", seen.before.state.session.intervals),
        ],
        Some("delay") => of_delay(seen.line),
        Some("refused") if seen.line.starts_with("refused 5") => {
            vec![interval_name("258", seen.before.state.session.intervals)]
        }
        _ => vec![],
    }
}

/// Which timers a taken frame changed.
fn of_taken(seen: &Seen, opcode: &str) -> Vec<String> {
    let (before, after) = (&seen.before.state, &seen.after.state);
    let mut items = vec![format!("answer 258 taken opcode {opcode}")];
    let changed = [
        (before.mismerge != after.mismerge, "mismerge".to_string()),
        (before.unexpected_mep != after.unexpected_mep, "mep".to_string()),
        (before.peer_timers != after.peer_timers, "peer".to_string()),
        (before.unexpected_period != after.unexpected_period, "period".to_string()),
        (opcode == "33", format!("ais {}", after.ais)),
        (opcode == "35", format!("lck {}", after.lck)),
    ];
    items.extend(changed.iter().filter(|(is, _)| *is).map(|(_, name)| format!("answer 258 sets {name}")));
    items
}

/// The first reading or a later one.
fn loss_name(call: &str, kept: Whole) -> String {
    format!("answer {call} loss {}", if kept == 0 { "first" } else { "later" })
}

/// The interval number that a measurement met.
fn interval_name(call: &str, intervals: Whole) -> String {
    let words = match intervals {
        999_999_999 => "10^9 - 1".to_string(),
        1_000_000_000 => "10^9".to_string(),
        other => other.to_string(),
    };
    format!("measured by {call} at intervals {words}")
}

/// Two-way alone or all three, and negative ones.
fn of_delay(line: &str) -> Vec<String> {
    let words = line.split(" | ").next().unwrap_or("");
    let kind = if words.split(' ').count() == 2 { "two-way" } else { "all" };
    let mut items = vec![format!("answer 258 delay {kind}")];
    if words.contains('-') {
        items.push("answer 258 delay negative".into());
    }
    items
}

/// Call 265.
fn of_question(line: &str, wanted: Whole, frame: &[u8]) -> Vec<String> {
    let mut items = of_layout("265", frame);
    let name = opcode_name(frame);
    match (line.split(' ').next(), word_after(line, "dropped ")) {
        (Some("value"), _) if line == "value -" => items.push("answer 265 empty value".into()),
        (Some("value"), _) => items.push("answer 265 value".into()),
        (Some("none"), _) if wanted == 0 => items.push("answer 265 none for type 0".into()),
        (Some("none"), _) => items.push("answer 265 none".into()),
        (_, Some(number)) if !is_oam(frame) => {
            let short = if frame.len() < 18 { " shorter than 18" } else { "" };
            items.push(format!("reader D{number} service frame{short}"));
        }
        (_, Some(number)) if frame.len() >= 16 => items.push(format!("reader D{number} opcode {name}")),
        _ => {}
    }
    items
}

/// Call 259: the timers that it lowers, what it sends, its buffer where a CCM is due.
fn of_tick(seen: &Seen, buffer: usize) -> Vec<String> {
    let mut items = Vec::new();
    let due = seen.line.starts_with("sent") || seen.line.starts_with("refused 3");
    if let (true, Some(words)) = (due, buffer_name(buffer, 89)) {
        items.push(format!("buffer 259 {words}"));
    }
    if seen.line.starts_with("refused") {
        return items;
    }
    for (name, value, most) in bounds::timers(&seen.before.state) {
        for (wanted, words) in [(0, "0"), (1, "1"), (most, "hold")] {
            if value == wanted {
                items.push(format!("tick with {name} {words}"));
            }
        }
    }
    match seen.line.split(" | ").nth(1).filter(|_| due).and_then(|hex| hex.get(32..34)) {
        Some(flags) if flags.starts_with('8') => items.push("answer 259 sent 89 with RDI".into()),
        Some(_) => items.push("answer 259 sent 89".into()),
        None => items.push("answer 259 ticked".into()),
    }
    items
}

/// Call 267.
fn of_measure(seen: &Seen) -> Vec<String> {
    let lent = &seen.before.lent;
    match seen.line.split(' ').next() {
        Some("loss") => vec![loss_name("267", lent.kept), interval_name("267", lent.intervals)],
        _ if seen.line == "refused 5" => vec![interval_name("267", lent.intervals)],
        _ => vec![],
    }
}

/// Call 272: letters of peers and words of the others.
fn of_conditions(line: &str) -> Vec<String> {
    let Some(rest) = line.strip_prefix("conditions") else {
        return vec![];
    };
    let words = rest.split(' ').filter(|word| !word.is_empty());
    let name = |word: &str| match word.split_once(':') {
        Some((_, letters)) => format!("answer 272 peer {letters}"),
        None => format!("answer 272 {word}"),
    };
    let mut items: Vec<String> = words.map(name).collect();
    if items.iter().all(|item| item.contains(" peer ")) {
        items.push("answer 272 no other".into());
    }
    items
}

/// The answers of the other calls: their first word, with the length where something was sent.
fn of_plain_answer(seen: &Seen) -> Vec<String> {
    let words: Vec<&str> = seen.line.split(' ').collect();
    match words[..] {
        ["refused", ..] => vec![],
        ["sent", length, ..] => vec![format!("answer {} sent {length}", seen.number)],
        [first, ..] => vec![format!("answer {} {first}", seen.number)],
        [] => vec![],
    }
}

/// Buffers of 261, 262, 269 and 271, whose messages have one length.
fn of_plain_buffer(call: &Call) -> Option<String> {
    let (number, buffer, needed) = match call {
        Call::SendLmm(buffer) => (261, *buffer, 31),
        Call::SendDmm(_, buffer) => (262, *buffer, 51),
        Call::WriteSettings(_, buffer) => (269, *buffer, 85),
        Call::WriteLossLine(_, buffer) => (271, *buffer, 24),
        _ => return None,
    };
    buffer_name(buffer, needed).map(|words| format!("buffer {number} {words}"))
}

/// Does a call test the state that is held?
pub fn tests_state(call: &Call) -> bool {
    use Call::{Clear, Conditions, Frame, SendDmm, SendLmm, Tick};
    matches!(call, Frame(..) | Tick(_) | Clear | SendLmm(_) | SendDmm(..) | Conditions)
}

/// What is found in the values that a call tests, under the name of the call.
fn tested(seen: &Seen) -> Option<(&'static str, Found, &'static str)> {
    match seen.call {
        Call::NewSetting(settings) => Some(("257", bounds::of_settings(settings), "refused 4")),
        Call::WriteSettings(settings, _) => Some(("268 and 269", bounds::of_settings(settings), "refused 4")),
        Call::ReadSettings(octets) if octets.len() == 85 && octets[..4] == [83, 0, 1, 0] => {
            let settings =
                reference::settings::Settings::from_stored(&mut reference::octets::Stored::new(&octets[4..]));
            Some(("268 and 269", bounds::of_settings(&settings), "refused 7"))
        }
        Call::WriteLossLine(line, _) => {
            Some(("270 and 271", bounds::of_totals(line.near, line.far, line.intervals), "refused 4"))
        }
        Call::ReadLossLine(octets) if octets.len() == 24 && octets[..4] == [22, 0, 2, 0] => {
            let mut stored = reference::octets::Stored::new(&octets[4..]);
            let line = reference::records::LossLine::from_stored(&mut stored);
            Some(("270 and 271", bounds::of_totals(line.near, line.far, line.intervals), "refused 7"))
        }
        Call::Measure(_) if seen.fresh_session => Some(("267", bounds::of_session(&seen.before.lent), "refused 2")),
        call if tests_state(call) && seen.fresh_state => {
            Some(("state", bounds::of_state(&seen.before.state), "refused 2"))
        }
        _ => None,
    }
}

/// A bound counts where all is good, a value past one where nothing else is wrong. Where the rules counted here and the
/// reference's answer disagree, that is an item that the list does not know.
fn of_bounds(seen: &Seen) -> Vec<String> {
    let Some((name, found, refusal)) = tested(seen) else {
        return vec![];
    };
    let words = seen.line.split(" | ").next().unwrap_or("");
    if found.broken.is_empty() == (words == refusal) {
        return vec![format!("DISAGREEMENT on {name}: {words}, {:?}", found.broken)];
    }
    let items = match found.broken.len() {
        0 => found.at,
        1 => found.broken,
        _ => vec![],
    };
    let mut items: Vec<String> = items.into_iter().map(|item| format!("bound {name} {item}")).collect();
    items.sort();
    items.dedup();
    items
}
