//! The scan: MCUs, restarts, blocks and the end. A fault where symbols and fields are read says
//! why; every other one is number 4.

use crate::bits::{meaning, Bits};
use crate::huffman::Codes;
use crate::layout;
use crate::record::{Record, MOST_CHANNELS};

/// The values of one block in zigzag order, not yet multiplied by the quantizer.
pub type Levels = [i32; 64];

const MALFORMED: u8 = 4;
/// Sixteen bits match no code.
const NO_CODE: u8 = 11;

/// Why and where a scan broke.
#[derive(Clone, Copy, Debug, PartialEq, Eq)]
pub struct Broken {
    pub number: u8,
    /// Counted from 0; at the final marker the block count.
    pub block: u64,
    /// The first byte not yet taken when the block's reading began, before any restart, or
    /// before the padding at the end. It counts from the file's start.
    pub place: u64,
}

/// The tables of each channel.
struct Tables {
    dc: Vec<Codes>,
    ac: Vec<Codes>,
}

/// Reads the whole scan, giving each block's number, channel and levels to `each`, also where
/// a later one is at fault.
pub fn read(
    file: &[u8],
    record: &Record,
    each: &mut dyn FnMut(u64, usize, &Levels),
) -> Result<(), Broken> {
    let tables = Tables::of(file, record);
    let mut bits = Bits::new(file, record.first_coded as usize);
    let mut predictors = [0; MOST_CHANNELS];
    let per_mcu = layout::blocks_per_mcu(record);
    for block in 0..record.blocks {
        let place = bits.place();
        let broken = |number| Broken { number, block, place };
        if block % per_mcu == 0 {
            if let Some(code) = layout::restart_before(record, block / per_mcu) {
                bits.marker(code).ok_or(MALFORMED).map_err(broken)?;
                predictors = [0; MOST_CHANNELS];
            }
        }
        let channel = layout::channel_of(record, block % per_mcu);
        let levels =
            read_block(&mut bits, &tables, channel, predictors[channel]).map_err(broken)?;
        predictors[channel] = levels[0];
        each(block, channel, &levels);
    }
    let broken = Broken { number: MALFORMED, block: record.blocks, place: bits.place() };
    // "217, where it stands, still ends the file."
    bits.marker(217).filter(|()| bits.at_end()).ok_or(broken)
}

impl Tables {
    fn of(file: &[u8], record: &Record) -> Tables {
        let channels = 0..record.channels as usize;
        let dc = |channel: usize| record.dc_tables[record.dc_ids[channel] as usize];
        let ac = |channel: usize| record.ac_tables[record.ac_ids[channel] as usize];
        Tables {
            dc: channels.clone().map(|channel| Codes::at(file, dc(channel))).collect(),
            ac: channels.map(|channel| Codes::at(file, ac(channel))).collect(),
        }
    }
}

/// "Codes are tried after each bit, shortest first." That there is none is known when sixteen
/// bits have been read, however short the longest code.
fn read_symbol(bits: &mut Bits, codes: &Codes) -> Result<u8, u8> {
    let mut code = 0;
    for length in 1..=16 {
        code = 2 * code + bits.bit()?;
        if let Some(symbol) = codes.symbol(length, code) {
            return Ok(symbol);
        }
    }
    Err(NO_CODE)
}

fn read_value(bits: &mut Bits, size: u32) -> Result<i32, u8> {
    Ok(meaning(size, bits.field(size)?))
}

/// One block: "the walk stops at the first of: end code, place 64, refusal". What a symbol alone
/// tells comes before its field.
fn read_block(
    bits: &mut Bits,
    tables: &Tables,
    channel: usize,
    predictor: i32,
) -> Result<Levels, u8> {
    let mut levels = [0; 64];
    levels[0] = read_first(bits, &tables.dc[channel], predictor)?;
    let mut place = 1;
    while place < 64 {
        let symbol = read_symbol(bits, &tables.ac[channel])?;
        let (run, size) = ((symbol / 16) as usize, u32::from(symbol % 16));
        match symbol {
            0 => break,
            // "240 moves 16 places and needs place at most 48."
            240 if place <= 48 => place += 16,
            _ if (1..=10).contains(&size) && place + run < 64 => {
                levels[place + run] = read_value(bits, size)?;
                place += run + 1;
            }
            _ => return Err(MALFORMED),
        }
    }
    Ok(levels)
}

/// "Category 0..11; prediction plus difference lies in -2048..2047."
fn read_first(bits: &mut Bits, codes: &Codes, predictor: i32) -> Result<i32, u8> {
    let category = read_symbol(bits, codes)?;
    if category > 11 {
        return Err(MALFORMED);
    }
    let value = predictor + read_value(bits, u32::from(category))?;
    (-2048..=2047).contains(&value).then_some(value).ok_or(MALFORMED)
}
