//! Lengths and prices, and where each sample of the picture comes from.

use crate::record::{Record, MOST_CHANNELS};

/// The blocks of one MCU: of each channel as many as its factors multiplied. Behind the last
/// channel both are 0.
pub fn blocks_per_mcu(record: &Record) -> u64 {
    (0..MOST_CHANNELS).map(|channel| blocks_of(record, channel)).sum()
}

fn blocks_of(record: &Record, channel: usize) -> u64 {
    record.across[channel] * record.down[channel]
}

/// An MCU has 8 x 8 pixels for each 1 x 1 of the largest factors.
fn largest(factors: &[u64; MOST_CHANNELS]) -> u64 {
    factors.iter().copied().max().unwrap_or(0)
}

/// "MCUs are counted by the largest factors."
fn mcus_across(record: &Record) -> u64 {
    record.width.div_ceil(8 * largest(&record.across))
}

fn mcus_down(record: &Record) -> u64 {
    record.height.div_ceil(8 * largest(&record.down))
}

/// The channel of block k within its MCU: channel after channel.
pub fn channel_of(record: &Record, block_in_mcu: u64) -> usize {
    let (mut channel, mut before) = (0, blocks_of(record, 0));
    while before <= block_in_mcu {
        channel += 1;
        before += blocks_of(record, channel);
    }
    channel
}

/// "Before MCU m > 0 with m a multiple of the interval": the restart's code, where one is due.
pub fn restart_before(record: &Record, mcu: u64) -> Option<u8> {
    // Without an interval there is no remainder.
    if mcu == 0 || mcu.checked_rem(record.interval) != Some(0) {
        return None;
    }
    Some(208 + ((mcu / record.interval - 1) % 8) as u8)
}

/// Fills in blocks, both lengths and the work. The largest work is 858,992,934,916.
pub fn measure(record: &mut Record) {
    record.blocks = mcus_across(record) * mcus_down(record) * blocks_per_mcu(record);
    record.scratch = 64 * record.blocks;
    record.output = record.width * record.height * record.channels;
    record.work = 3136 * record.blocks + record.output;
}

/// A channel at its own size: the blocks of all MCUs side by side, also what is outside the
/// picture.
struct Plane {
    across: u64,
    down: u64,
    /// How many samples a row has.
    width: u64,
    samples: Vec<u8>,
}

impl Plane {
    fn new(record: &Record, channel: usize) -> Plane {
        let (across, down) = (record.across[channel], record.down[channel]);
        let width = 8 * across * mcus_across(record);
        let height = 8 * down * mcus_down(record);
        Plane { across, down, width, samples: vec![0; (width * height) as usize] }
    }

    /// Puts a block in its place, both counted in blocks.
    fn put(&mut self, column: u64, row: u64, block: &[u8]) {
        for (line, eight) in block.chunks(8).enumerate() {
            let at = ((8 * row + line as u64) * self.width + 8 * column) as usize;
            self.samples[at..at + 8].copy_from_slice(eight);
        }
    }
}

/// Every channel's plane, from the blocks in the order of the scan: MCU after MCU, in each
/// channel after channel, in that row by row.
fn planes(record: &Record, samples: &[u8]) -> Vec<Plane> {
    let mut planes: Vec<Plane> =
        (0..record.channels as usize).map(|channel| Plane::new(record, channel)).collect();
    let mut blocks = samples.chunks(64);
    for mcu_row in 0..mcus_down(record) {
        for mcu_column in 0..mcus_across(record) {
            for plane in &mut planes {
                for row in mcu_row * plane.down..(mcu_row + 1) * plane.down {
                    for column in mcu_column * plane.across..(mcu_column + 1) * plane.across {
                        plane.put(column, row, blocks.next().expect("every block has samples"));
                    }
                }
            }
        }
    }
    assert!(blocks.next().is_none());
    planes
}

/// "Output is row by row, channels interleaved." A pixel's place times the channel's factor by
/// the largest one, rounded down, is the place in the plane: an MCU has 8 x the largest factor
/// pixels and 8 x its own factor samples, so that whole MCUs before it change nothing.
pub fn picture(record: &Record, samples: &[u8]) -> Vec<u8> {
    let planes = planes(record, samples);
    let (largest_across, largest_down) = (largest(&record.across), largest(&record.down));
    let mut output = Vec::with_capacity(record.output as usize);
    for y in 0..record.height {
        for x in 0..record.width {
            let pixel = output.len();
            for plane in &planes {
                let column = x * plane.across / largest_across;
                let row = y * plane.down / largest_down;
                output.push(plane.samples[(row * plane.width + column) as usize]);
            }
            // "Two and four channels come out unconverted", and a single one has no colour.
            if let (&[luma, cb, cr], 1) = (&output[pixel..], record.colour) {
                output[pixel..].copy_from_slice(&colour(luma, cb, cr));
            }
        }
    }
    output
}

/// Red, green and blue, "with floor division and clamping to 0..255".
pub fn colour(luma: u8, cb: u8, cr: u8) -> [u8; 3] {
    let luma = 65536 * i64::from(luma);
    let (cb, cr) = (i64::from(cb) - 128, i64::from(cr) - 128);
    let rounded = |sum: i64| (sum + 32768).div_euclid(65536).clamp(0, 255) as u8;
    [
        rounded(luma + 91881 * cr),
        rounded(luma - 22554 * cb - 46802 * cr),
        rounded(luma + 116130 * cb),
    ]
}

#[cfg(test)]
mod tests {
    use super::*;
    use crate::generate::sampling::{self, Factors};
    use crate::random::Random;

    #[test]
    fn p12_one_colour() {
        assert_eq!(colour(100, 128, 127), [99, 101, 100]);
        assert_eq!(colour(255, 255, 255), [255, 121, 255]);
        assert_eq!(colour(0, 0, 0), [0, 135, 0]);
    }

    /// A record of this size and these factors.
    fn shaped(width: u64, height: u64, factors: &[(u64, u64)]) -> Record {
        let mut record =
            Record { width, height, channels: factors.len() as u64, ..Record::default() };
        for (channel, &(across, down)) in factors.iter().enumerate() {
            (record.across[channel], record.down[channel]) = (across, down);
        }
        measure(&mut record);
        record
    }

    #[test]
    fn largest_pictures() {
        let largest = |channels: usize| shaped(65535, 65535, &[(1, 1); 4][..channels]);
        let four = largest(4);
        assert_eq!((four.blocks, four.work), (268_435_456, 858_992_934_916));
        assert_eq!((four.scratch, four.output), (17_179_869_184, 17_179_344_900));
        let three = largest(3);
        assert_eq!((three.blocks, three.work), (201_326_592, 644_244_701_187));
        // No factors give more than four channels at 1 x 1.
        for factors in shapes() {
            let other = shaped(65535, 65535, &factors);
            assert!(other.blocks <= four.blocks && other.work <= four.work, "{factors:?}");
        }
    }

    #[test]
    fn a_tall_chroma_at_both_ends_of_an_mcu() {
        // Luma 2 x 2 has the blocks 0 to 3, a chroma of 1 x 2 the blocks 4 and 5, the other one
        // 6 and 7; eight more are those of the second MCU.
        let record = shaped(32, 16, &[(2, 2), (1, 2), (1, 2)]);
        assert_eq!((record.blocks, blocks_per_mcu(&record)), (16, 8));
        let channels: Vec<usize> = (0..8).map(|block| channel_of(&record, block)).collect();
        assert_eq!(channels, [0, 0, 0, 0, 1, 1, 2, 2]);
        // The only samples that are not 0, and the pixels that show them.
        let shown = |place: usize| -> Vec<(usize, usize, usize)> {
            let mut samples = vec![0; 1024];
            samples[place] = 1;
            let lit = picture(&record, &samples);
            let lit = lit.iter().enumerate().filter(|(_, &sample)| sample == 1);
            lit.map(|(at, _)| (at % 3, at / 3 % 32, at / 96)).collect()
        };
        // The first sample of a chroma's first block, the last of its second one.
        assert_eq!(shown(64 * 4), [(1, 0, 0), (1, 1, 0)]);
        assert_eq!(shown(64 * 5 + 63), [(1, 14, 15), (1, 15, 15)]);
        assert_eq!(shown(64 * 6), [(2, 0, 0), (2, 1, 0)]);
        assert_eq!(shown(64 * 7 + 63), [(2, 14, 15), (2, 15, 15)]);
        // Its first block ends and its second begins in the MCU's middle.
        assert_eq!(shown(64 * 4 + 63), [(1, 14, 7), (1, 15, 7)]);
        assert_eq!(shown(64 * 5), [(1, 0, 8), (1, 1, 8)]);
        // The second MCU; luma shows each sample once.
        assert_eq!(shown(64 * 12), [(1, 16, 0), (1, 17, 0)]);
        assert_eq!(shown(64 * 13 + 63), [(1, 30, 15), (1, 31, 15)]);
        assert_eq!(shown(0), [(0, 0, 0)]);
        assert_eq!(shown(64 * 3 + 63), [(0, 15, 15)]);
    }

    #[test]
    fn factors_that_do_not_divide() {
        // Of 24 pixels a channel of 2 beside one of 3 has 16 samples: two for three pixels, and
        // the first of the two is shown twice.
        let record = shaped(24, 8, &[(3, 1), (2, 1)]);
        let samples: Vec<u8> =
            (0..5).flat_map(|block| (0..64).map(move |at| (8 * block + at % 8) as u8)).collect();
        let row = |channel: usize| -> Vec<u8> {
            picture(&record, &samples).into_iter().skip(channel).step_by(2).take(24).collect()
        };
        assert_eq!(row(0), (0..24).collect::<Vec<u8>>());
        let second: Vec<u8> = (0..8).flat_map(|pair| [2 * pair, 2 * pair, 2 * pair + 1]).collect();
        assert_eq!(row(1), second.iter().map(|at| 24 + at).collect::<Vec<u8>>());
    }

    /// All factors that one to four channels may have; a single one has 1 x 1.
    fn shapes() -> Vec<Factors> {
        (1..=4).flat_map(|channels| sampling::all(channels).to_vec()).collect()
    }

    /// The place in the scratch of a pixel's sample by the rule's own words: "a channel's sample
    /// is at floor(place in MCU x its factor / largest factor)".
    fn sample_place(record: &Record, channel: usize, x: u64, y: u64) -> usize {
        let (largest_across, largest_down) = (largest(&record.across), largest(&record.down));
        let mcu = y / (8 * largest_down) * mcus_across(record) + x / (8 * largest_across);
        let u = x % (8 * largest_across) * record.across[channel] / largest_across;
        let v = y % (8 * largest_down) * record.down[channel] / largest_down;
        let before: u64 = (0..channel).map(|earlier| blocks_of(record, earlier)).sum();
        let block = mcu * blocks_per_mcu(record) + before + v / 8 * record.across[channel] + u / 8;
        (64 * block + v % 8 * 8 + u % 8) as usize
    }

    #[test]
    fn planes_follow_the_rule() {
        let (mut random, shapes) = (Random::new(6), shapes());
        for factors in &shapes {
            let (width, height) = (random.between(1, 70), random.between(1, 70));
            let record = shaped(width, height, factors);
            let samples: Vec<u8> = (0..record.scratch).map(|_| random.byte()).collect();
            let mut seen = picture(&record, &samples).into_iter();
            for y in 0..height {
                for x in 0..width {
                    for channel in 0..factors.len() {
                        let place = sample_place(&record, channel, x, y);
                        assert_eq!(seen.next(), Some(samples[place]), "{factors:?} {x} {y}");
                    }
                }
            }
            assert_eq!(seen.next(), None);
        }
    }

    #[test]
    fn colour_in_three_channels_alone() {
        for channels in 1..=4 {
            let mut record = shaped(8, 8, &[(1, 1); 4][..channels]);
            let samples: Vec<u8> = (0..64 * channels).map(|at| 90 + at as u8 / 64).collect();
            let plain = picture(&record, &samples);
            assert_eq!(plain, [90, 91, 92, 93][..channels].repeat(64));
            record.colour = 1;
            let coloured = picture(&record, &samples);
            match channels {
                3 => assert_eq!(coloured, colour(90, 91, 92).repeat(64)),
                _ => assert_eq!(coloured, plain),
            }
        }
    }

    #[test]
    fn every_sample_inside_is_shown() {
        // As often as its channel has fewer samples than the picture has pixels.
        for (across, down) in [(1, 1), (1, 2), (1, 3), (1, 4), (2, 1), (2, 2), (3, 1), (4, 1)] {
            let record = shaped(37, 41, &[(across, down), (1, 1), (1, 1)]);
            let mut seen = vec![0u64; record.scratch as usize];
            for y in 0..41 {
                for x in 0..37 {
                    (0..3).for_each(|channel| seen[sample_place(&record, channel, x, y)] += 1);
                }
            }
            assert_eq!(seen.iter().max(), Some(&(across * down)));
        }
    }

    #[test]
    fn restarts_count_to_eight() {
        let record = Record { interval: 2, ..Record::default() };
        assert_eq!(restart_before(&record, 0), None);
        assert_eq!(restart_before(&record, 1), None);
        assert_eq!(restart_before(&record, 2), Some(208));
        assert_eq!(restart_before(&record, 16), Some(215));
        assert_eq!(restart_before(&record, 18), Some(208));
    }
}
