//! From a block's levels to its 64 samples.

use crate::scan::Levels;

/// Natural place (8 x row + column) of each zigzag place, T.81 figure A.6.
pub const NATURAL: [usize; 64] = [
    0, 1, 8, 16, 9, 2, 3, 10, //
    17, 24, 32, 25, 18, 11, 4, 5, //
    12, 19, 26, 33, 40, 48, 41, 34, //
    27, 20, 13, 6, 7, 14, 21, 28, //
    35, 42, 49, 56, 57, 50, 43, 36, //
    29, 22, 15, 23, 30, 37, 44, 51, //
    58, 59, 52, 45, 38, 31, 39, 46, //
    53, 60, 61, 54, 47, 55, 62, 63,
];

/// 16384 cos(k pi / 16) to the nearest whole number, for k = 0..8; the entry for
/// frequency 0 is 16384 / sqrt 2, which is also the one for k = 4.
const COSINES: [i64; 9] = [16384, 16069, 15137, 13623, 11585, 9102, 6270, 3196, 0];

const HALF: i64 = 137_975_824_384;
const FULL: i64 = 273_804_165_120;
const SCALE: i64 = 1_073_741_824;

/// The basis at a place 0..7 for a frequency 0..7.
fn basis(place: usize, frequency: usize) -> i64 {
    if frequency == 0 {
        return COSINES[4];
    }
    // The angle in sixteenths of pi, folded into 0..8.
    match (2 * place + 1) * frequency % 32 {
        k @ 0..=8 => COSINES[k],
        k @ 9..=16 => -COSINES[16 - k],
        k @ 17..=24 => -COSINES[k - 16],
        k => COSINES[32 - k],
    }
}

/// All 64 entries, by place and frequency.
pub fn basis_table() -> [[i64; 8]; 8] {
    std::array::from_fn(|place| std::array::from_fn(|frequency| basis(place, frequency)))
}

/// "Coefficient = value x quantizer at that zigzag place, stored in natural order."
pub fn coefficients(levels: &Levels, quantizer: &[u8]) -> [i64; 64] {
    let mut natural = [0; 64];
    for place in 0..64 {
        natural[NATURAL[place]] = i64::from(levels[place]) * i64::from(quantizer[place]);
    }
    natural
}

/// The double sum, rows first: whole numbers, so the order of summing changes nothing.
pub fn samples(table: &[[i64; 8]; 8], coefficients: &[i64; 64]) -> [u8; 64] {
    // across[row frequency][x]
    let mut across = [[0i64; 8]; 8];
    for (place, &value) in coefficients.iter().enumerate().filter(|(_, &value)| value != 0) {
        for x in 0..8 {
            across[place / 8][x] += value * table[x][place % 8];
        }
    }
    let mut block = [0; 64];
    for y in 0..8 {
        for x in 0..8 {
            let sum: i64 = (0..8).map(|frequency| across[frequency][x] * table[y][frequency]).sum();
            block[8 * y + x] = sample(sum + HALF);
        }
    }
    block
}

/// "0 if v <= 0, 255 if v >= 273804165120, else v divided by 1073741824, rounded down."
fn sample(v: i64) -> u8 {
    if v <= 0 {
        0
    } else if v >= FULL {
        255
    } else {
        (v / SCALE) as u8
    }
}

#[cfg(test)]
mod tests {
    use super::*;
    use crate::random::Random;

    fn only_first(value: i64) -> u8 {
        let mut block = [0; 64];
        block[0] = value;
        let all = samples(&basis_table(), &block);
        assert!(all.iter().all(|&sample| sample == all[0]));
        all[0]
    }

    #[test]
    fn p6_to_p10_first_value_alone() {
        assert_eq!(only_first(0), 128);
        assert_eq!(only_first(4), 128);
        assert_eq!(only_first(5), 129);
        assert_eq!(only_first(-5), 127);
        assert_eq!(only_first(1012), 254);
        assert_eq!(only_first(1013), 255);
        assert_eq!(only_first(-1020), 1);
        assert_eq!(only_first(-1021), 0);
    }

    #[test]
    fn basis_is_the_nearest_to_the_cosine() {
        for place in 0..8 {
            for frequency in 0..8 {
                let angle = (2 * place + 1) as f64 * frequency as f64 * std::f64::consts::PI / 16.0;
                let scale = if frequency == 0 { 0.5f64.sqrt() } else { 1.0 };
                let exact = 16384.0 * scale * angle.cos();
                assert_eq!(basis(place, frequency), exact.round() as i64);
            }
        }
    }

    #[test]
    fn rows_first_equals_the_double_sum() {
        let (table, mut random) = (basis_table(), Random::new(5));
        for bound in [3, 40, 524_288] {
            let block: [i64; 64] =
                std::array::from_fn(|_| random.between(0, 2 * bound) as i64 - bound as i64);
            let quick = samples(&table, &block);
            for (place, &seen) in quick.iter().enumerate() {
                let (x, y) = (place % 8, place / 8);
                let term = |at: usize| block[at] * table[x][at % 8] * table[y][at / 8];
                let sum: i64 = (0..64).map(term).sum();
                assert_eq!(seen, sample(sum + HALF));
            }
        }
    }

    #[test]
    fn zigzag_visits_every_place_along_diagonals() {
        let mut seen = NATURAL;
        seen.sort();
        assert_eq!(seen, std::array::from_fn(|place| place));
        let diagonal = |place: usize| NATURAL[place] / 8 + NATURAL[place] % 8;
        assert!((1..64).all(|place| diagonal(place) - diagonal(place - 1) <= 1));
    }
}
