//! What goes into the calls beside bytes: the record of a file, limits, the choice of colour.

/// What [`inspect`](crate::inspect) finds in a file. Every number may come back into
/// [`decode`](crate::decode), which refuses a record that is not the file's.
#[repr(C)]
#[derive(Clone, Copy, Debug, Default, PartialEq, Eq, Hash)]
pub struct Record {
    /// Samples across.
    pub width: u64,
    /// Samples down.
    pub height: u64,
    /// 1 to 4.
    pub channels: u64,
    /// For each channel its blocks across in an MCU; 0 behind the last channel, here and in the
    /// next five.
    pub across: [u64; 4],
    /// For each channel its blocks down in an MCU. A single channel has 1 across and 1 down.
    pub down: [u64; 4],
    /// For each channel its id.
    pub ids: [u64; 4],
    /// For each channel the id of its quantizer.
    pub qids: [u64; 4],
    /// For each channel the id of its DC table.
    pub dcids: [u64; 4],
    /// For each channel the id of its AC table.
    pub acids: [u64; 4],
    /// By id, the place of each quantizer in the file; 0 where there is none, here and in the
    /// next two.
    pub quants: [u64; 4],
    /// By id, the place of each DC table.
    pub dcs: [u64; 4],
    /// By id, the place of each AC table.
    pub acs: [u64; 4],
    /// MCUs between restarts, or 0.
    pub interval: u64,
    /// The place of the first coded byte.
    pub start: u64,
    /// The blocks of the picture.
    pub blocks: u64,
    /// The bytes that decode needs for the samples of all blocks.
    pub scratch: u64,
    /// The bytes of the picture.
    pub output: u64,
    /// The price of the scan.
    pub work: u64,
    /// 1 or 0, as it was asked for. With 1 a picture of three channels is red, green, blue; every
    /// other has its channels as they are coded.
    pub colour: u64,
}

impl Record {
    /// The sampling of the channels, in order, each as its blocks across and down in an MCU:
    /// `2x2,1x2,1x2`, as the option `-sample` of libjpeg's `cjpeg` has it. A channel with less than
    /// the most, across or down, has fewer samples than there are pixels, and pixels share them.
    ///
    /// ```
    /// use tillsparrow::{inspect, Colour, Limits};
    /// let file = std::fs::read("../../docs/tray.jpg")?;
    /// let seen = inspect(&file, Colour::AsCoded, Limits::NONE, u64::MAX)?;
    /// assert_eq!(seen.record.sampling(), "2x2,1x1,1x1");
    /// # Ok::<(), Box<dyn std::error::Error>>(())
    /// ```
    pub fn sampling(&self) -> String {
        // Any record may come in, also one of more channels than there are.
        let channels = self.channels.min(4) as usize;
        let factors = self.across.iter().zip(&self.down).take(channels);
        factors.map(|(across, down)| format!("{across}x{down}")).collect::<Vec<_>>().join(",")
    }
}

/// What the samples of a picture with three channels are. A picture with one, two or four channels
/// has them as they are coded with either: one is grey.
#[derive(Clone, Copy, Debug, PartialEq, Eq, Hash)]
pub enum Colour {
    /// The channels as they are coded.
    AsCoded,
    /// Red, green and blue.
    RedGreenBlue,
}

/// What a file may hold before it is refused. A value equal to its limit passes.
#[derive(Clone, Copy, Debug, PartialEq, Eq, Hash)]
pub struct Limits {
    /// The bytes of the file; above it the file is refused 1.
    pub input: usize,
    /// The width and the height; above it the file is refused 6.
    pub side: usize,
    /// The bytes of the picture, and those of the scratch; above it the file is refused 6.
    pub output: usize,
}

impl Limits {
    /// No limits.
    pub const NONE: Limits = Limits { input: usize::MAX, side: usize::MAX, output: usize::MAX };
}

/// No limits.
impl Default for Limits {
    fn default() -> Limits {
        Limits::NONE
    }
}

#[cfg(test)]
mod tests {
    use super::Record;

    #[test]
    fn sampling_has_each_channel_and_no_more() {
        let of = |channels, across, down| {
            Record { channels, across, down, ..Record::default() }.sampling()
        };
        assert_eq!(of(1, [1, 0, 0, 0], [1, 0, 0, 0]), "1x1");
        assert_eq!(of(2, [3, 1, 0, 0], [1, 4, 0, 0]), "3x1,1x4");
        assert_eq!(of(3, [2, 1, 1, 0], [2, 2, 2, 0]), "2x2,1x2,1x2");
        assert_eq!(of(4, [2, 1, 1, 2], [2, 1, 1, 2]), "2x2,1x1,1x1,2x2");
        assert_eq!(of(0, [0; 4], [0; 4]), "");
        assert_eq!(of(u64::MAX, [1; 4], [1; 4]), "1x1,1x1,1x1,1x1");
    }
}
