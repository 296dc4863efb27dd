// Writes stored loss lines, the same at each run: `records N` so many good ones, `records N K` so many and behind them the bad one number K, or for 0
// one that is cut short. `sheet` beside it feeds them to the programs that it times.
use std::io::{self, BufWriter, Write};

const SEED: u64 = 8013;
const INTERVALS_MOST: u64 = 1_000_000_000;
const LOSS_MOST: u64 = 4_294_967_295;

struct Random(u64);

impl Random {
    // splitmix64
    fn next(&mut self) -> u64 {
        self.0 = self.0.wrapping_add(0x9e37_79b9_7f4a_7c15);
        let mut z = self.0;
        z = (z ^ (z >> 30)).wrapping_mul(0xbf58_476d_1ce4_e5b9);
        z = (z ^ (z >> 27)).wrapping_mul(0x94d0_49bb_1331_11eb);
        z ^ (z >> 31)
    }

    // A number of 1 to `digits` digits, each count of digits as often as the others, but no more than `most`; one in 64 is 0.
    fn size(&mut self, digits: u64, most: u64) -> u64 {
        let first = 10u64.pow((self.next() % digits) as u32);
        let size = first + self.next() % (9 * first);
        if self.next() % 64 == 0 { 0 } else { size.min(most) }
    }

    fn total(&mut self) -> i64 {
        let size = self.size(19, INTERVALS_MOST * LOSS_MOST) as i64;
        if self.next() % 2 == 0 { size } else { -size }
    }

    // A record that keeps the rules: as many intervals as its totals need, or more.
    fn record(&mut self) -> [u8; 24] {
        let (near, far) = (self.total(), self.total());
        let least = near.unsigned_abs().max(far.unsigned_abs()).div_ceil(LOSS_MOST);
        record_of(22, 2, near, far, self.size(10, INTERVALS_MOST).max(least) as u32)
    }
}

fn record_of(length: u16, kind: u16, near: i64, far: i64, intervals: u32) -> [u8; 24] {
    let mut r = [0; 24];
    r[..2].copy_from_slice(&length.to_le_bytes());
    r[2..4].copy_from_slice(&kind.to_le_bytes());
    r[4..12].copy_from_slice(&near.to_le_bytes());
    r[12..20].copy_from_slice(&far.to_le_bytes());
    r[20..].copy_from_slice(&intervals.to_le_bytes());
    r
}

// A record that breaks one rule, by its number.
fn bad(k: u64) -> [u8; 24] {
    let most = LOSS_MOST as i64;
    match k {
        1 => record_of(23, 2, 0, 0, 0),
        2 => record_of(22 + 256, 2, 0, 0, 0),
        3 => record_of(22, 1, 0, 0, 0),
        4 => record_of(22, 2 + 256, 0, 0, 0),
        5 => record_of(22, 2, 0, 0, INTERVALS_MOST as u32 + 1),
        6 => record_of(22, 2, most + 1, 0, 1),
        7 => record_of(22, 2, 0, -most - 1, 1),
        8 => record_of(22, 2, i64::MIN, 0, INTERVALS_MOST as u32),
        9 => record_of(22, 2, 0, i64::MAX, u32::MAX),
        _ => panic!("no bad record {k}"),
    }
}

fn main() -> io::Result<()> {
    let words: Vec<u64> = std::env::args().skip(1).map(|w| w.parse().expect("records N [K]")).collect();
    let mut random = Random(SEED);
    let mut out = BufWriter::with_capacity(1 << 20, io::stdout().lock());
    for _ in 0..words[0] {
        out.write_all(&random.record())?;
    }
    match words.get(1) {
        None => {}
        Some(0) => out.write_all(&random.record()[..23])?,
        Some(&k) => {
            out.write_all(&bad(k))?;
            out.write_all(&random.record())?;
        }
    }
    out.flush()
}
