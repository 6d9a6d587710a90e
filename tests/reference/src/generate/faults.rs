//! The faults that the writer of scans knows, and the blocks where they are worth trying.

use super::plan::Shape;
use crate::random::Random;

/// A fault in the scan. Each is written so that a careless reader would go on.
#[derive(Clone, Copy, Debug, PartialEq, Eq)]
pub enum Fault {
    /// Prediction plus difference is 2048 or -2049.
    Beyond,
    /// Place plus run is 64 or more.
    RunPast,
    /// 240 at place 49 or later.
    SkipPast,
    /// Sixteen bits that are no code where a symbol is wanted.
    NoCode,
    /// Bits that are no code, and before the sixteenth or just behind it the end of the file or
    /// a bare 255.
    NoCodeThenEnd,
    RestartNumber,
    RestartMissing,
    RestartNotDue,
    RestartAfterLast,
    /// A 0 among the padding.
    Padding,
    /// A whole byte of padding.
    PaddingByte,
    /// A 255 in the data without its 0.
    Bare,
    /// A 255 in the data with another byte than 0.
    Stuffing,
    /// Two 255s or more where a bit of a block is wanted.
    FillInBlock,
    /// The file ends in fill.
    FillCut,
    /// A byte of data or a 0 between fill and the marker.
    FillThenByte,
    /// The code of another marker behind fill.
    FillThenCode,
    /// Fill in place of a restart.
    FillThenBlock,
    /// Fill behind 217.
    FillAfterEnd,
    /// A 0 among the padding, then fill.
    FillPadding,
    /// Fill behind a padded 255 without its 0.
    FillUnstuffed,
    AfterEnd,
    NoEnd,
    EarlyEnd,
    ExtraBlock,
    /// A predictor carried over a restart; often valid, with other values.
    Carried,
}

pub const FAULTS: [Fault; 26] = [
    Fault::Beyond,
    Fault::RunPast,
    Fault::SkipPast,
    Fault::NoCode,
    Fault::NoCodeThenEnd,
    Fault::RestartNumber,
    Fault::RestartMissing,
    Fault::RestartNotDue,
    Fault::RestartAfterLast,
    Fault::Padding,
    Fault::PaddingByte,
    Fault::Bare,
    Fault::Stuffing,
    Fault::FillInBlock,
    Fault::FillCut,
    Fault::FillThenByte,
    Fault::FillThenCode,
    Fault::FillThenBlock,
    Fault::FillAfterEnd,
    Fault::FillPadding,
    Fault::FillUnstuffed,
    Fault::AfterEnd,
    Fault::NoEnd,
    Fault::EarlyEnd,
    Fault::ExtraBlock,
    Fault::Carried,
];

/// A block where a fault is worth trying: the first of the file or the last, one right behind a
/// restart, the first, a middle or the last one of an MCU.
pub fn target(shape: &Shape, random: &mut Random) -> u64 {
    let (mcus, per_mcu) = (shape.mcus(), shape.mcu().len() as u64);
    let any = random.between(0, mcus - 1);
    let middle = random.between(0, per_mcu - 1);
    let restarted = match shape.restarts() {
        0 => any,
        restarts => shape.interval * random.between(1, restarts),
    };
    let (mcu, block) = random.pick(&[
        (0, 0),
        (restarted, 0),
        (restarted, 0),
        (restarted, 0),
        (restarted, middle),
        (any, 0),
        (any, middle),
        (any, per_mcu - 1),
        (mcus - 1, per_mcu - 1),
    ]);
    per_mcu * mcu + block
}
