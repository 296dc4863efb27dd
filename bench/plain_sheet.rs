// The program `sheet` as a good Rust program would have it, with the standard library alone and without proofs: the same duties, the same octets
// on standard output. `sheet` beside it builds it and times it.
use std::io::{self, Read, Write};

const LINE: usize = 24;
const CHUNK: usize = 4096 * LINE;
const INTERVALS_MOST: u32 = 1_000_000_000;

struct Line {
    near: i64,
    far: i64,
    intervals: u32,
}

impl Line {
    // The line in a record; none where it is cut short, of another length or kind, or breaks a rule.
    fn read(record: &[u8]) -> Option<Line> {
        if record.len() < LINE || record[..4] != [22, 0, 2, 0] {
            return None;
        }
        let near = i64::from_le_bytes(record[4..12].try_into().unwrap());
        let far = i64::from_le_bytes(record[12..20].try_into().unwrap());
        let intervals = u32::from_le_bytes(record[20..24].try_into().unwrap());
        let most = intervals as u64 * u32::MAX as u64;
        if intervals > INTERVALS_MOST || near.unsigned_abs() > most || far.unsigned_abs() > most {
            return None;
        }
        Some(Line { near, far, intervals })
    }

    // Built with `--cfg std_format`: by the standard library's formatting.
    #[cfg(std_format)]
    fn put(&self, text: &mut Vec<u8>) {
        writeln!(text, "{} {} {}", self.intervals, self.near, self.far).unwrap();
    }

    // By the formatter below: the line is made from its end to its front, then copied whole.
    #[cfg(not(std_format))]
    fn put(&self, text: &mut Vec<u8>) {
        let mut line = [0; LONGEST];
        let at = put_before(&mut line, LONGEST, self.far, b'\n');
        let at = put_before(&mut line, at, self.near, b' ');
        let at = put_before(&mut line, at, self.intervals as i64, b' ');
        text.extend_from_slice(&line[at..]);
    }
}

// Three numbers of at most 20 octets, each with one octet behind it.
#[cfg(not(std_format))]
const LONGEST: usize = 63;

#[cfg(not(std_format))]
const PAIRS: &[u8; 200] = b"00010203040506070809101112131415161718192021222324252627282930313233343536373839404142434445464748495051525354555657585960616263646566676869707172737475767778798081828384858687888990919293949596979899";

// Writes a number and one octet behind it so that they end before a place, two digits for each division, and answers where they begin.
#[cfg(not(std_format))]
fn put_before(line: &mut [u8; LONGEST], end: usize, value: i64, mark: u8) -> usize {
    let mut at = end - 1;
    line[at] = mark;
    let mut rest = value.unsigned_abs();
    while rest >= 100 {
        let pair = (rest % 100) as usize * 2;
        rest /= 100;
        at -= 2;
        line[at..at + 2].copy_from_slice(&PAIRS[pair..pair + 2]);
    }
    if rest >= 10 {
        let pair = rest as usize * 2;
        at -= 2;
        line[at..at + 2].copy_from_slice(&PAIRS[pair..pair + 2]);
    } else {
        at -= 1;
        line[at] = b'0' + rest as u8;
    }
    if value < 0 {
        at -= 1;
        line[at] = b'-';
    }
    at
}

// Reads until the chunk is full or the input ends.
fn fill(input: &mut impl Read, chunk: &mut [u8]) -> io::Result<usize> {
    let mut n = 0;
    while n < chunk.len() {
        match input.read(&mut chunk[n..])? {
            0 => break,
            more => n += more,
        }
    }
    Ok(n)
}

fn main() -> io::Result<()> {
    let mut input = io::stdin().lock();
    let mut output = io::stdout().lock();
    let mut chunk = vec![0; CHUNK];
    let mut text = b"intervals near far\n".to_vec();
    loop {
        let n = fill(&mut input, &mut chunk)?;
        for record in chunk[..n].chunks(LINE) {
            let Some(line) = Line::read(record) else {
                text.extend_from_slice(b"refused 7\n");
                output.write_all(&text)?;
                return output.flush();
            };
            line.put(&mut text);
        }
        output.write_all(&text)?;
        text.clear();
        if n < CHUNK {
            return output.flush();
        }
    }
}
