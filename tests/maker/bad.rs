//! Endings that are no call: each way that REPLAY.md names.

use crate::random::Random;

/// A framed call with a length of our choosing.
fn framed(length: u16, number: u16, body: &[u8]) -> Vec<u8> {
    [&length.to_le_bytes()[..], &number.to_le_bytes(), body].concat()
}

/// A call that is well framed.
fn whole(number: u16, body: &[u8]) -> Vec<u8> {
    framed(u16::try_from(body.len() + 2).unwrap_or(2), number, body)
}

/// The body lengths of the table; for 258 and 265 the least.
const LENGTHS: [(u16, usize); 14] = [
    (257, 81),
    (258, 19),
    (259, 2),
    (260, 0),
    (261, 2),
    (262, 10),
    (263, 194),
    (264, 0),
    (265, 1),
    (266, 37),
    (267, 16),
    (269, 83),
    (271, 22),
    (272, 0),
];

/// One ending; the seed chooses which, so that seeds in a row go through all of them.
pub fn ending(random: &mut Random, seed: u64) -> Vec<u8> {
    let (number, length) = LENGTHS[random.below(LENGTHS.len())];
    let too_much = vec![0; length + 1];
    let too_little = vec![0; length.saturating_sub(1)];
    match seed % 12 {
        0 => vec![2],
        1 => vec![2, 0, 4],
        2 => framed(0, 260, &[]),
        3 => framed(1, 260, &[]),
        4 => framed(2_001, 268, &[0; 1_999]),
        5 => framed(6, 268, &[1]),
        6 => whole([0, 256, 273, 1, 65_535][random.below(5)], &[]),
        7 if !matches!(number, 258 | 265) => whole(number, &too_much),
        8 if length > 0 => whole(number, &too_little),
        9 => whole(258, &[&[2][..], &[0; 40]].concat()),
        10 => whole([259, 261][random.below(2)], &1_601_u16.to_le_bytes()),
        _ => whole(258, &[&[0][..], &1_601_u16.to_le_bytes(), &[0; 40]].concat()),
    }
}
