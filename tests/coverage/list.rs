//! Every item that must be covered. What the paper makes impossible is left out, with the reason beside it.

const OPCODES: [&str; 10] = ["1", "2", "3", "33", "35", "42", "43", "46", "47", "other"];
const HANDLED: [&str; 8] = ["1", "3", "33", "35", "42", "43", "46", "47"];
const TABLE: [&str; 9] = ["1", "2", "3", "33", "35", "42", "43", "46", "47"];
const OTHER_TIMERS: [&str; 6] = [
    "mismerge timer",
    "unexpected-MEP timer",
    "unexpected-period timer",
    "unexpected-level timer",
    "AIS timer",
    "LCK timer",
];

/// Each first word with each second word.
fn pairs(first: &[&str], second: &[&str]) -> Vec<String> {
    first.iter().flat_map(|one| second.iter().map(move |other| format!("{one} {other}"))).collect()
}

/// All items in the order in which they are printed.
pub fn all() -> Vec<String> {
    let mut items = refusals();
    items.extend(drops());
    items.extend(reader_drops());
    items.extend(answers());
    items.extend(offsets_and_lengths());
    items.extend(buffers());
    items.extend(settings_bounds("257"));
    items.extend(settings_bounds("268 and 269"));
    items.extend(settings_bounds("state"));
    items.extend(state_bounds());
    items.extend(session_bounds("state"));
    items.extend(session_bounds("267"));
    items.extend(totals_bounds("270 and 271"));
    items.extend(ticks_and_intervals());
    items
}

/// Every refusal with every call that can give it. Only 258 and 265 have a frame, so no other gives 1; only 258 and 262
/// take stamps; 263, 264 and 266 test nothing; 267 writes no message, so no 3.
fn refusals() -> Vec<String> {
    let mut items = pairs(&["refusal 258"], &["1", "2", "3", "5", "6"]);
    items.extend(pairs(&["refusal 257"], &["4"]));
    items.extend(pairs(&["refusal 259", "refusal 261"], &["2", "3"]));
    items.extend(pairs(&["refusal 260", "refusal 272"], &["2"]));
    items.extend(pairs(&["refusal 262"], &["2", "3", "6"]));
    items.extend(pairs(&["refusal 265"], &["1"]));
    items.extend(pairs(&["refusal 267"], &["2", "5"]));
    items.extend(pairs(&["refusal 268", "refusal 270"], &["7"]));
    items.extend(pairs(&["refusal 269", "refusal 271"], &["3", "4"]));
    items
}

/// Drop x opcode x side x level. Impossible:
/// D2 above the own level, since such a frame passes; D2 at the own level on the active side, since rule 4 goes on;
/// D3 to D7 below, above and on the passive side, since rules 2 and 3 end there with a pass or D2;
/// D3 for a handled opcode; D4 for 33 and 35, whose least offset is 0, so nothing is below it;
/// D7 for 3, 42, 43 and 47, which have no field that D7 tests; D4 to D7 for opcodes that are not handled;
/// D8 at all: stamps lie below 2^32 s, and two differences of them stay below 2^63 ns.
fn drops() -> Vec<String> {
    let opcode: Vec<String> = OPCODES.iter().map(|opcode| format!("opcode {opcode}")).collect();
    let opcode: Vec<&str> = opcode.iter().map(String::as_str).collect();
    let everywhere = pairs(&["active", "passive"], &["below", "own", "above"]);
    let everywhere: Vec<&str> = everywhere.iter().map(String::as_str).collect();
    let mut items = pairs(&pairs(&["D1"], &opcode).iter().map(String::as_str).collect::<Vec<_>>(), &everywhere);
    items.push("D1 length 14".into());
    items.push("D1 length 15".into());
    for one in &opcode {
        items.extend(pairs(&[&format!("D2 {one}")], &["active below", "passive below", "passive own"]));
    }
    items.extend(pairs(&["D3"], &["opcode 2 active own", "opcode other active own"]));
    for (number, with) in [
        ("D4", &["1", "3", "42", "43", "46", "47"][..]),
        ("D5", &HANDLED[..]),
        ("D6", &HANDLED[..]),
        ("D7", &["1", "33", "35", "46"][..]),
    ] {
        items.extend(with.iter().map(|opcode| format!("{number} opcode {opcode} active own")));
    }
    items.push("D2 with the unexpected-level timer set".into());
    items.push("D2 of a CCM without the unexpected-level timer".into());
    items
}

/// The reader's drops: it has no side and reads no level. D4 not for 33 and 35, as above.
fn reader_drops() -> Vec<String> {
    let mut items: Vec<String> = OPCODES.iter().map(|opcode| format!("reader D1 opcode {opcode}")).collect();
    items.push("reader D3 service frame shorter than 18".into());
    items.push("reader D3 service frame".into());
    items.push("reader D3 opcode other".into());
    items.extend(["1", "2", "3", "42", "43", "46", "47"].iter().map(|opcode| format!("reader D4 opcode {opcode}")));
    items.extend(TABLE.iter().map(|opcode| format!("reader D5 opcode {opcode}")));
    items
}

/// Each kind of line of each call. `bad call` ends a run, so no run can hold it twenty times.
fn answers() -> Vec<String> {
    let mut items = pairs(&["answer 257", "answer 263", "answer 266"], &["set"]);
    items.extend(pairs(&["answer 258 passed"], &["service active", "service passive", "OAM active", "OAM passive"]));
    items.extend(pairs(&["answer 258 taken opcode"], &["1", "33", "35"]));
    items.extend(pairs(&["answer 258 sets"], &["mismerge", "mep", "peer", "period", "ais 2100", "ais 126000"]));
    items.extend(pairs(&["answer 258 sets"], &["lck 2100", "lck 126000"]));
    items.extend(pairs(&["answer 258 replied opcode"], &["3", "43", "47"]));
    items.extend(pairs(&["answer 258 loss"], &["first", "later"]));
    items.extend(pairs(&["answer 258 delay"], &["two-way", "all", "negative"]));
    items.extend(pairs(&["answer 259"], &["ticked", "sent 89", "sent 89 with RDI"]));
    items.extend(["260 cleared", "261 sent 31", "262 sent 51", "264 state"].map(|words| format!("answer {words}")));
    items.extend(pairs(&["answer 265"], &["value", "empty value", "none", "none for type 0"]));
    items.extend(pairs(&["answer 267 loss"], &["first", "later"]));
    items.extend(["268 settings", "269 sent 85", "270 line", "271 sent 24"].map(|words| format!("answer {words}")));
    items.extend(pairs(&["answer 272 peer"], &["-", "L", "R", "LR"]));
    items.extend(pairs(&["answer 272"], &["mismerge", "mep", "period", "level", "ais", "lck", "no other"]));
    items
}

/// TLV offsets for each opcode, and frame lengths, by 258 and by 265.
fn offsets_and_lengths() -> Vec<String> {
    let mut items = Vec::new();
    for call in ["258", "265"] {
        for opcode in TABLE {
            items.extend(pairs(&[&format!("offset {call} opcode {opcode}")], &["least", "least + 1", "255"]));
            items.extend(pairs(&[&format!("length {call} opcode {opcode}")], &["least - 1", "least"]));
        }
        items.extend(pairs(&[&format!("length {call}")], &["13", "14", "17", "18", "1514", "1515"]));
    }
    items
}

/// Buffers of each call that has one. 259 only where a CCM is due.
fn buffers() -> Vec<String> {
    let calls = ["258 opcode 3", "258 opcode 43", "258 opcode 47", "259", "261", "262", "269", "271"];
    let calls: Vec<String> = calls.iter().map(|call| format!("buffer {call}")).collect();
    pairs(&calls.iter().map(String::as_str).collect::<Vec<_>>(), &["one short", "equal", "one more"])
}

/// A setting's bounds. Nothing is one below level 0.
fn settings_bounds(call: &str) -> Vec<String> {
    let mut items = pairs(&[&format!("bound {call} level")], &["least", "most", "one above"]);
    for field in ["MEP ID", "period code", "peer count", "peer ID"] {
        items.extend(pairs(&[&format!("bound {call} {field}")], &["least", "most", "one below", "one above"]));
    }
    let others = [
        "peer is the own ID",
        "peer twice",
        "ID in an unused slot",
        "own address group bit",
        "loss peer group bit",
        "addresses equal",
        "addresses differ in one octet",
    ];
    items.extend(others.iter().map(|other| format!("bound {call} {other}")));
    items
}

/// The state's own bounds. Nothing is one below a timer or an RDI of 0.
fn state_bounds() -> Vec<String> {
    let slots: Vec<String> = (0..8).map(|slot| format!("timer of slot {slot}")).collect();
    let rdi: Vec<String> = (0..8).map(|slot| format!("RDI of slot {slot}")).collect();
    let mut items = Vec::new();
    for field in slots.iter().chain(&rdi).map(String::as_str).chain(OTHER_TIMERS) {
        items.extend(pairs(&[&format!("bound state {field}")], &["least", "most", "one above"]));
    }
    let ticks = "bound state ticks to the next CCM";
    items.extend(pairs(&[ticks], &["least", "most", "one below", "one above"]));
    items.push("bound state RDI in an unused slot".into());
    items.push("bound state timer in an unused slot".into());
    items
}

/// A session's bounds: of the state and of the lent one.
fn session_bounds(call: &str) -> Vec<String> {
    let mut items = pairs(&[&format!("bound {call} kept")], &["least", "most", "one above"]);
    items.push(format!("bound {call} interval while none is kept"));
    for name in ["TxFCf", "RxFCf", "TxFCb", "ours"] {
        items.push(format!("bound {call} {name} while none is kept"));
    }
    items.extend(totals_bounds(call));
    items
}

/// Intervals and totals.
fn totals_bounds(call: &str) -> Vec<String> {
    let mut items = pairs(&[&format!("bound {call} intervals")], &["0", "1", "10^9 - 1", "10^9", "10^9 + 1"]);
    for total in ["near total", "far total"] {
        let name = format!("bound {call} {total}");
        items.extend(pairs(&[&name], &["+ bound", "- bound", "+ bound + 1", "- bound - 1", "-2^63"]));
    }
    items
}

/// Timers through a tick, and intervals at a measurement.
fn ticks_and_intervals() -> Vec<String> {
    let slots: Vec<String> = (0..8).map(|slot| format!("timer of slot {slot}")).collect();
    let mut items = Vec::new();
    for timer in slots.iter().map(String::as_str).chain(OTHER_TIMERS) {
        items.extend(pairs(&[&format!("tick with {timer}")], &["0", "1", "hold"]));
    }
    items.extend(pairs(&["measured by 258 at intervals"], &["0", "1", "10^9 - 1", "10^9"]));
    items.extend(pairs(&["measured by 267 at intervals"], &["0", "1", "10^9 - 1", "10^9"]));
    items
}
