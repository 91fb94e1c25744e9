//! Answers that are spoiled: faults, other kinds, bad bits, cuts.

use crate::rng::Rng;

/// Spoils the words of one answer; true if nothing may follow them.
pub fn spoil(rng: &mut Rng, words: &mut Vec<u32>) -> bool {
    match rng.weighted(&[10, 3, 3, 3, 1]) {
        0 => {
            *words = vec![0x7000_0000 | rng.below(10) as u32];
            false
        }
        1 => {
            *words = other_kind(rng);
            false
        }
        2 => {
            bad_bit(rng, words);
            false
        }
        3 => {
            words.truncate(rng.below(words.len() as u64) as usize);
            true
        }
        _ => {
            let place = match rng.percent(50) {
                true => rng.range(10, 15) as u32,
                false => rng.below(10) as u32 | 1 << rng.range(4, 27),
            };
            *words = vec![0x7000_0000 | place];
            false
        }
    }
}

fn other_kind(rng: &mut Rng) -> Vec<u32> {
    match rng.below(16) as u32 {
        1 => vec![0x1000_0020],
        2 => vec![0x2000_0000, 0x20],
        3 => {
            let n: u32 = rng.pick(&[0, 1, 4, 5, 28]);
            let mut words = vec![0x3000_0000 | n];
            words.resize(2 + n.div_ceil(4) as usize, 0);
            words
        }
        kind @ (4 | 5) => vec![kind << 28, rng.word(), rng.word()],
        kind => vec![kind << 28],
    }
}

/// A bit of the head is turned: an unused one, or one of a packet's count.
fn bad_bit(rng: &mut Rng, words: &mut [u32]) {
    let bit = match words[0] >> 28 {
        1 => rng.range(16, 27),
        3 => rng.pick(&[0, 1, 2, 3, 8, 16, 20, 24, 27]),
        _ => rng.below(28),
    };
    words[0] ^= 1 << bit;
}
