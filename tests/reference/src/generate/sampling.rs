//! The factors of a frame's channels: all that may stand there, those that cameras and printers
//! write more often, and those with a block too many.

use crate::random::Random;
use std::sync::OnceLock;

/// Across and down, by channel.
pub type Factors = Vec<(u64, u64)>;

/// So many blocks may stand in an MCU of several channels.
const MOST_BLOCKS: u64 = 10;

/// Those that real files have: 4:4:4, 4:2:2, 4:4:0, 4:2:0 and 4:1:1, chroma of 1 x 2 and 2 x 1
/// beside luma of 2 x 2, four channels at 1 x 1 and with a finer first and last one.
const COMMON: [&[(u64, u64)]; 19] = [
    &[(1, 1), (1, 1)],
    &[(2, 1), (1, 1)],
    &[(1, 2), (1, 1)],
    &[(2, 2), (1, 1)],
    &[(1, 1), (1, 1), (1, 1)],
    &[(2, 1), (1, 1), (1, 1)],
    &[(1, 2), (1, 1), (1, 1)],
    &[(2, 2), (1, 1), (1, 1)],
    &[(2, 2), (1, 1), (1, 1)],
    &[(4, 1), (1, 1), (1, 1)],
    &[(1, 4), (1, 1), (1, 1)],
    &[(2, 2), (1, 2), (1, 2)],
    &[(2, 2), (1, 2), (1, 2)],
    &[(2, 2), (2, 1), (2, 1)],
    &[(2, 2), (2, 1), (2, 1)],
    &[(1, 1), (1, 1), (1, 1), (1, 1)],
    &[(1, 1), (1, 1), (1, 1), (1, 1)],
    &[(2, 2), (1, 1), (1, 1), (2, 2)],
    &[(2, 1), (1, 1), (1, 1), (2, 1)],
];

/// Factors that do not divide each other, an MCU of ten blocks, the largest factor in another
/// channel than the first, the two largest in two channels, all alike.
const ODD: [&[(u64, u64)]; 24] = [
    &[(3, 1), (2, 1)],
    &[(2, 3), (1, 4)],
    &[(4, 2), (1, 2)],
    &[(3, 3), (1, 1)],
    &[(1, 1), (2, 2)],
    &[(1, 1), (3, 3)],
    &[(4, 1), (1, 4)],
    &[(2, 2), (2, 2)],
    &[(3, 1), (2, 1), (1, 1)],
    &[(1, 3), (1, 2), (1, 2)],
    &[(3, 2), (2, 1), (1, 2)],
    &[(4, 1), (3, 1), (3, 1)],
    &[(4, 2), (1, 1), (1, 1)],
    &[(2, 4), (1, 1), (1, 1)],
    &[(2, 2), (1, 2), (2, 1)],
    &[(1, 1), (2, 2), (1, 1)],
    &[(1, 1), (2, 1), (2, 1)],
    &[(1, 1), (1, 2), (4, 1)],
    &[(2, 1), (1, 2), (1, 1)],
    &[(3, 1), (3, 1), (3, 1)],
    &[(1, 1), (2, 1), (1, 1), (3, 2)],
    &[(3, 1), (2, 1), (1, 2), (1, 1)],
    &[(1, 2), (1, 1), (4, 1), (1, 3)],
    &[(2, 1), (2, 1), (2, 1), (2, 1)],
];

/// Every list of factors that so many channels may have, a single one 1 x 1 alone.
pub fn all(channels: usize) -> &'static [Factors] {
    static LISTS: OnceLock<[Vec<Factors>; 5]> = OnceLock::new();
    let lists = LISTS.get_or_init(|| {
        let mut lists: [Vec<Factors>; 5] = std::array::from_fn(|_| Vec::new());
        lists[0] = vec![vec![]];
        for channels in 1..=4 {
            lists[channels] = lists[channels - 1].iter().flat_map(|start| longer(start)).collect();
        }
        lists[1] = vec![vec![(1, 1)]];
        lists
    });
    &lists[channels]
}

/// One channel more, with any factors for which there is room.
fn longer(start: &[(u64, u64)]) -> Vec<Factors> {
    let any = (0..16).map(|both| (1 + both / 4, 1 + both % 4));
    let all = any.map(|more| [start, &[more]].concat());
    all.filter(|factors| blocks(factors) <= MOST_BLOCKS).collect()
}

pub fn blocks(factors: &[(u64, u64)]) -> u64 {
    factors.iter().map(|(across, down)| across * down).sum()
}

/// Factors of so many channels: half of them common or odd, half any.
pub fn factors(random: &mut Random, channels: usize) -> Factors {
    let kind = random.below(6);
    let mut one_of = |list: &[&[(u64, u64)]]| {
        let fitting: Vec<_> = list.iter().filter(|factors| factors.len() == channels).collect();
        random.pick(&fitting).to_vec()
    };
    let any = all(channels);
    match kind {
        _ if channels == 1 => vec![(1, 1)],
        0 | 1 => one_of(&COMMON),
        2 => one_of(&ODD),
        _ => any[random.below(any.len())].clone(),
    }
}

/// How many shapes there are.
pub const SHAPES: u64 = 1 + 110 + 515 + 1339;

/// The shapes one after the other, each once in `SHAPES` turns; neighbours are unlike.
pub fn dealt(turn: u64) -> &'static Factors {
    // 652 and 1965 have no common divisor.
    let mut place = (turn % SHAPES * 652 % SHAPES) as usize;
    let mut channels = 1;
    while place >= all(channels).len() {
        place -= all(channels).len();
        channels += 1;
    }
    &all(channels)[place]
}

/// Factors of two channels or more that are each in order, with more blocks than may stand in
/// an MCU: one more, two more, or any number.
pub fn beyond(random: &mut Random, channels: usize) -> Factors {
    let most = random.pick(&[MOST_BLOCKS + 1, MOST_BLOCKS + 2, 64]);
    loop {
        let factors: Factors =
            (0..channels).map(|_| (random.between(1, 4), random.between(1, 4))).collect();
        if (MOST_BLOCKS + 1..=most).contains(&blocks(&factors)) {
            return factors;
        }
    }
}

/// A sampling byte.
pub fn byte((across, down): (u64, u64)) -> u8 {
    (16 * across + down) as u8
}

#[cfg(test)]
mod tests {
    use super::*;

    #[test]
    fn how_many_there_are() {
        assert_eq!([1, 2, 3, 4].map(|channels| all(channels).len()), [1, 110, 515, 1339]);
        for channels in 1..=4 {
            let mut list = all(channels).to_vec();
            list.sort();
            list.dedup();
            assert_eq!(list.len(), all(channels).len());
        }
        let mut all_dealt: Vec<_> = (0..SHAPES).map(dealt).collect();
        all_dealt.sort();
        all_dealt.dedup();
        assert_eq!(all_dealt.len() as u64, SHAPES);
        for factors in COMMON.iter().chain(&ODD) {
            assert!(all(factors.len()).contains(&factors.to_vec()), "{factors:?}");
        }
    }

    #[test]
    fn one_block_too_many_and_more() {
        let mut random = Random::new(7);
        for channels in 2..=4 {
            let seen: Vec<u64> =
                (0..2000).map(|_| blocks(&beyond(&mut random, channels))).collect();
            assert!(seen.contains(&11) && seen.contains(&12) && seen.iter().all(|&sum| sum > 10));
            assert!(seen.iter().any(|&sum| sum > 20));
        }
    }
}
