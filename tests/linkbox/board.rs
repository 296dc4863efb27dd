//! The board of linkbox/examples/firmware.rs, played from standard input, line by line as board.c does. The example is target/dist's.
#[path = "../../target/dist/share/linkbox/examples/firmware.rs"]
mod firmware;

use firmware::{Arrival, Board};
use linkbox::{Refusal, Side, Stamp};
use std::io::{Lines, StdinLock};

/// The clock, the lines that are left, the next line as its tick, word and rest, and whether its frame has come.
struct Played {
    clock: u32,
    lines: Lines<StdinLock<'static>>,
    next: Option<(u32, String, String)>,
    has_come: bool,
}

impl Played {
    /// The next line that is no remark; the end of the input switches the board off.
    fn read(&mut self) -> (u32, String, String) {
        let line = self.lines.by_ref().map_while(Result::ok).find(|line| !line.starts_with('#')).unwrap_or_default();
        let mut words = line.splitn(3, ' ').map(str::to_string);
        let at = words.next().and_then(|word| word.parse().ok()).unwrap_or(self.clock);
        (at, words.next().unwrap_or("off".to_string()), words.next().unwrap_or_default())
    }
}

impl Board for Played {
    fn wait(&mut self, ticks: u32) -> bool {
        let next = self.next.take().unwrap_or_else(|| self.read());
        if next.0 > self.clock && next.0 - self.clock > ticks {
            self.clock += ticks;
            self.next = Some(next);
            return true;
        }
        self.clock = next.0.max(self.clock);
        if next.1 == "busy" {
            self.clock = next.2.parse().unwrap_or(self.clock);
            return true;
        }
        self.has_come = next.1 != "off";
        self.next = Some(next);
        self.has_come
    }

    fn ticks(&self) -> u32 {
        self.clock
    }

    fn stamp(&self) -> Stamp {
        Stamp { seconds: 1000 + self.clock / 600, nanoseconds: self.clock % 600 * 1_666_666 }
    }

    fn frame(&mut self) -> Option<Arrival> {
        if !std::mem::take(&mut self.has_come) {
            return None;
        }
        let (_, word, rest) = self.next.take()?;
        let digits: Vec<u8> = rest.chars().filter_map(|c| c.to_digit(16)).map(|d| d as u8).collect();
        let side = if word == "active" { Side::Active } else { Side::Passive };
        Some(Arrival { side, when: self.stamp(), octets: digits.chunks(2).map(|pair| 16 * pair[0] + pair[1]).collect() })
    }

    fn send(&mut self, side: Side, frame: &[u8]) {
        let to = if side == Side::Active { "the link" } else { "our end" };
        if frame.len() > 16 && frame[12..14] == [0x89, 0x02] {
            println!("{} to {to}: {} octets, opcode {} flags {:02x}", self.clock, frame.len(), frame[15], frame[16]);
        } else {
            println!("{} to {to}: {} octets, service", self.clock, frame.len());
        }
    }

    fn store(&mut self, record: &[u8]) {
        println!("{} stored: {}", self.clock, record.iter().map(|octet| format!("{octet:02x}")).collect::<String>());
    }

    fn say(&mut self, what: &str) {
        println!("{} {what}", self.clock);
    }
}

fn main() -> Result<(), Refusal> {
    firmware::run(&mut Played { clock: 0, lines: std::io::stdin().lines(), next: None, has_come: false })
}
