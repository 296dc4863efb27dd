// The program `sheet` as fast as Rust has it, with the standard library alone and without proofs: the same duties, the same octets on
// standard output. `plain_sheet.rs` is the same program written the usual way; `sheet` beside them builds both and times them.
//
// The lines of a chunk are made from the last one to the first, and each from its end to its front: so a number is written with all digits
// that it may have, and what lies before it is written over the zeros in front. No branch depends on how long a number is, which no
// processor can foresee.
use std::io::{self, Read, Write};

const LINE: usize = 24;
const LINES: usize = 4096;
const CHUNK: usize = LINES * LINE;
const INTERVALS_MOST: u32 = 1_000_000_000;
const LOSS_MOST: i64 = 4_294_967_295;
const HEAD: &[u8] = b"intervals near far\n";
const REFUSED: &[u8] = b"refused 7\n";

// Room for each line, 10 digits and twice 19 with a sign, each with one octet behind it, and for what is written once and zeros in front.
const TEXT: usize = LINES * 53 + 64;
type Text = [u8; TEXT];

const POWERS: [u64; 20] = powers();

const fn powers() -> [u64; 20] {
    let (mut all, mut k) = ([1; 20], 1);
    while k < 20 {
        all[k] = 10 * all[k - 1];
        k += 1;
    }
    all
}

// How many digits a number has: 1233 / 4096 is near the logarithm of 2. No power of ten but 1 is odd, so the lowest bit changes nothing but
// for 0, which has one digit.
#[inline(always)]
fn count(value: u64) -> usize {
    let odd = value | 1;
    let least = (64 - odd.leading_zeros() as usize) * 1233 >> 12;
    least + (odd >= POWERS[least]) as usize
}

// The four digits of each number below 10,000.
static FOURS: [[u8; 4]; 10_000] = fours();

const fn fours() -> [[u8; 4]; 10_000] {
    let (mut all, mut k) = ([[0; 4]; 10_000], 0);
    while k < 10_000 {
        all[k] = [b'0' + (k / 1000) as u8, b'0' + (k / 100 % 10) as u8, b'0' + (k / 10 % 10) as u8, b'0' + (k % 10) as u8];
        k += 1;
    }
    all
}

#[inline(always)]
fn four(value: u64) -> [u8; 4] {
    FOURS[value as usize]
}

// Writes a total and one octet behind it so that they end before a place, and answers where they begin. The sign is also written where it
// does not count: what comes next is written over it.
#[inline(always)]
fn put_total(text: &mut Text, end: usize, total: i64, mark: u8) -> usize {
    let size = total.unsigned_abs();
    let (top, rest) = (size / POWERS[16], size % POWERS[16]);
    let (mid, low) = (rest / POWERS[8], rest % POWERS[8]);
    let place: &mut [u8; 21] = text[end - 21..end].first_chunk_mut().unwrap();
    place[..4].copy_from_slice(&four(top));
    place[4..8].copy_from_slice(&four(mid / 10_000));
    place[8..12].copy_from_slice(&four(mid % 10_000));
    place[12..16].copy_from_slice(&four(low / 10_000));
    place[16..20].copy_from_slice(&four(low % 10_000));
    place[20] = mark;
    let at = end - 1 - count(size);
    text[at - 1] = b'-';
    at - (total < 0) as usize
}

// The same of intervals, which are at most 1,000,000,000.
#[inline(always)]
fn put_intervals(text: &mut Text, end: usize, intervals: u32, mark: u8) -> usize {
    let (top, rest) = (intervals as u64 / POWERS[8], intervals as u64 % POWERS[8]);
    let place: &mut [u8; 13] = text[end - 13..end].first_chunk_mut().unwrap();
    place[..4].copy_from_slice(&four(top));
    place[4..8].copy_from_slice(&four(rest / 10_000));
    place[8..12].copy_from_slice(&four(rest % 10_000));
    place[12] = mark;
    end - 1 - count(intervals as u64)
}

// Puts the line of a record before a place and answers where it begins; none where the record is of another kind or breaks a rule.
#[inline(always)]
fn put(text: &mut Text, end: usize, record: &[u8; LINE]) -> Option<usize> {
    let near = i64::from_le_bytes(record[4..12].try_into().unwrap());
    let far = i64::from_le_bytes(record[12..20].try_into().unwrap());
    let intervals = u32::from_le_bytes(record[20..24].try_into().unwrap());
    let most = (intervals as i64).wrapping_mul(LOSS_MOST);
    if record[..4] != [22, 0, 2, 0] || intervals > INTERVALS_MOST || near > most || far > most || near < -most || far < -most {
        return None;
    }
    let at = put_total(text, end, far, b'\n');
    let at = put_total(text, at, near, b' ');
    Some(put_intervals(text, at, intervals, b' '))
}

fn put_text(text: &mut Text, end: usize, what: &[u8]) -> usize {
    text[end - what.len()..end].copy_from_slice(what);
    end - what.len()
}

// Reads until the chunk is full or the input ends.
fn fill(input: &mut impl Read, chunk: &mut [u8]) -> io::Result<usize> {
    let mut n = 0;
    while n < chunk.len() {
        match input.read(&mut chunk[n..])? {
            0 => break,
            more => n += more,
        }
    }
    Ok(n)
}

fn main() -> io::Result<()> {
    let mut input = io::stdin().lock();
    let mut output = io::stdout().lock();
    let mut chunk = vec![0; CHUNK];
    let mut text: Box<Text> = vec![0; TEXT].try_into().unwrap();
    let mut head = HEAD;
    loop {
        let n = fill(&mut input, &mut chunk)?;
        let (records, rest) = chunk[..n].as_chunks();
        let (mut at, mut last) = (TEXT, n < CHUNK);
        if !rest.is_empty() {
            at = put_text(&mut text, at, REFUSED);
        }
        for record in records.iter().rev() {
            at = put(&mut text, at, record).unwrap_or_else(|| {
                // the lines behind it are not printed
                last = true;
                put_text(&mut text, TEXT, REFUSED)
            });
        }
        at = put_text(&mut text, at, head);
        head = b"";
        output.write_all(&text[at..])?;
        if last {
            return output.flush();
        }
    }
}
