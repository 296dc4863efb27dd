//! The paper's section "Numbers": its bounds, and arithmetic that cannot wrap in silence.

/// Every number of a run. 128 bits hold each value that a run can form: the widest numbers read are 64-bit totals, the
/// largest product is a 32-bit interval number times 4,294,967,295 (below 2^64), a stamp in nanoseconds is below
/// 2^32 x 10^9 + 2^32 (below 2^63), and no sum has more than four such terms, so all stay below 2^67.
pub type Whole = i128;

pub const LEAST_FRAME: Whole = 14;
pub const LONGEST_FRAME: Whole = 1_514;
pub const LARGEST_LEVEL: Whole = 7;
pub const LARGEST_MEP_ID: Whole = 8_191;
pub const PEER_SLOTS: Whole = 8;
pub const LARGEST_COUNT: Whole = 4_294_967_295;
pub const COUNT_MODULUS: Whole = 4_294_967_296;
pub const MOST_INTERVALS: Whole = 1_000_000_000;
pub const LARGEST_NANOSECONDS: Whole = 999_999_999;
pub const LONGEST_ALARM_HOLD: Whole = 126_000;

/// Ends the program aloud where a sum would not fit; by the argument above no run gets here.
fn beyond_128_bits() -> ! {
    eprintln!("reference: a number does not fit 128 bits");
    std::process::exit(70)
}

/// Addition of whole numbers.
pub fn plus(a: Whole, b: Whole) -> Whole {
    a.checked_add(b).unwrap_or_else(|| beyond_128_bits())
}

/// Subtraction of whole numbers, sign kept.
pub fn minus(a: Whole, b: Whole) -> Whole {
    a.checked_sub(b).unwrap_or_else(|| beyond_128_bits())
}

/// Multiplication of whole numbers.
pub fn times(a: Whole, b: Whole) -> Whole {
    a.checked_mul(b).unwrap_or_else(|| beyond_128_bits())
}

/// The size of a number, without its sign; -2^63 has the size 2^63 here.
pub fn size(a: Whole) -> Whole {
    if a < 0 { minus(0, a) } else { a }
}

/// The remainder from 0 to modulus - 1, also of a negative number.
pub fn modulo(a: Whole, modulus: Whole) -> Whole {
    a.checked_rem_euclid(modulus).unwrap_or_else(|| beyond_128_bits())
}

/// "Frame without check sequence: 14 to 1,514 octets".
pub fn frame_length_is_good(frame: &[u8]) -> bool {
    let length = frame.len() as Whole;
    LEAST_FRAME <= length && length <= LONGEST_FRAME
}

/// "Period codes 1 to 7 are 2, 6, 60, 600, 6,000, 36,000 and 360,000 ticks; 0 is invalid" (0 ticks stand for invalid).
pub fn period_in_ticks(code: Whole) -> Whole {
    match code {
        1 => 2,
        2 => 6,
        3 => 60,
        4 => 600,
        5 => 6_000,
        6 => 36_000,
        7 => 360_000,
        _ => 0,
    }
}

/// "The hold time is 3.5 periods: 7, 21, 210, 2,100, 21,000, 126,000, 1,260,000 ticks".
pub fn hold_time(code: Whole) -> Whole {
    match code {
        1 => 7,
        2 => 21,
        3 => 210,
        4 => 2_100,
        5 => 21_000,
        6 => 126_000,
        7 => 1_260_000,
        _ => 0,
    }
}

/// "A stamp is 32-bit seconds and 32-bit nanoseconds".
#[derive(Clone, Copy, PartialEq, Debug)]
pub struct Stamp {
    pub seconds: Whole,
    pub nanoseconds: Whole,
}

/// "nanoseconds, at most 999,999,999".
pub fn stamp_is_good(stamp: Stamp) -> bool {
    stamp.nanoseconds <= LARGEST_NANOSECONDS
}

/// "All zero means 'not given'": both the seconds and the nanoseconds.
pub fn stamp_is_given(stamp: Stamp) -> bool {
    stamp.seconds != 0 || stamp.nanoseconds != 0
}
