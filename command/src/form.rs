//! The forms in which a picture is written. Each holds exactly the samples. No form has two or four
//! channels that are no colours: of such a picture each channel is written in grey, side by side.

use crate::errors;
use std::io::{Result, Write};
use std::path::Path;
use tillsparrow::Picture;

#[derive(Clone, Copy, Debug, PartialEq, Eq)]
pub enum Form {
    Png,
    /// Three channels.
    Ppm,
    /// One channel, or two or four side by side.
    Pgm,
    /// PPM or PGM, by the picture.
    Pnm,
}

impl Form {
    pub const ALL: [Form; 4] = [Form::Png, Form::Ppm, Form::Pgm, Form::Pnm];

    /// Its name, and the ending of its files.
    pub fn name(self) -> &'static str {
        match self {
            Form::Png => "png",
            Form::Ppm => "ppm",
            Form::Pgm => "pgm",
            Form::Pnm => "pnm",
        }
    }

    pub fn of_name(name: &str) -> Option<Form> {
        Form::ALL.into_iter().find(|form| form.name().eq_ignore_ascii_case(name))
    }

    pub fn of_ending(path: &Path) -> Option<Form> {
        Form::of_name(path.extension()?.to_str()?)
    }

    /// The one form that is both, where there is one: pnm leaves open what ppm and pgm say.
    pub fn and(self, other: Form) -> Option<Form> {
        match (self, other) {
            (one, two) if one == two => Some(one),
            (Form::Pnm, Form::Ppm | Form::Pgm) => Some(other),
            (Form::Ppm | Form::Pgm, Form::Pnm) => Some(self),
            _ => None,
        }
    }

    /// The form for a picture of so many channels, or why it cannot be had.
    pub fn for_channels(self, channels: u64) -> std::result::Result<Form, &'static str> {
        match (self, channels) {
            (Form::Png, _) => Ok(Form::Png),
            (Form::Ppm | Form::Pnm, 3) => Ok(Form::Ppm),
            (Form::Pgm, 3) => {
                Err("its picture is in colour, and pgm is for grey: take ppm, pnm or png")
            }
            (Form::Pgm | Form::Pnm, _) => Ok(Form::Pgm),
            (Form::Ppm, 1) => {
                Err("its picture is grey, and ppm is for colour: take pgm, pnm or png")
            }
            (Form::Ppm, _) => Err(
                "its channels are written in grey, side by side, and ppm is for colour: take pgm, pnm or png",
            ),
        }
    }

    /// The ending of a file in this form, where that is known before the picture is.
    pub fn ending(self) -> Option<&'static str> {
        (self != Form::Pnm).then(|| self.name())
    }

    /// Writes the picture, whose channels this form is for.
    pub fn write(self, picture: &Picture, output: &mut impl Write) -> Result<()> {
        match self {
            Form::Png => write_png(picture, output),
            _ => write_pnm(picture, output),
        }
    }
}

/// Whether the channels of a picture that has so many are written side by side.
pub fn is_beside(channels: usize) -> bool {
    !matches!(channels, 1 | 3)
}

/// The pixels across of what is written.
fn width(picture: &Picture) -> usize {
    match is_beside(picture.channels) {
        true => picture.width * picture.channels,
        false => picture.width,
    }
}

/// Row by row; where channels stand side by side, each row has all of the first, then of the next.
fn write_samples(picture: &Picture, output: &mut impl Write) -> Result<()> {
    let channels = picture.channels;
    if !is_beside(channels) {
        return output.write_all(&picture.samples);
    }
    for row in picture.samples.chunks_exact(width(picture)) {
        let of = |c| row.iter().skip(c).step_by(channels).copied();
        output.write_all(&(0..channels).flat_map(of).collect::<Vec<u8>>())?;
    }
    Ok(())
}

fn write_pnm(picture: &Picture, output: &mut impl Write) -> Result<()> {
    let kind = if picture.channels == 3 { 6 } else { 5 };
    write!(output, "P{kind}\n{} {}\n255\n", width(picture), picture.height)?;
    write_samples(picture, output)
}

/// Eight bits a sample and no word about colour or gamma, so that the samples are the picture.
///
/// The filter is Sub and none that looks at the row above: the stream writer of the crate png 0.17.7
/// hands that row to its filters as it was filtered and not as it was, and the picture would be wrong.
/// With the fastest level of compression a photograph is written in about half the time that reading it
/// takes: 0.7 s beside 1.2 s for 6000 x 4000 in colour, on one core of a server.
fn write_png(picture: &Picture, output: &mut impl Write) -> Result<()> {
    let side = |length: usize| u32::try_from(length).map_err(errors::told);
    let mut encoder = png::Encoder::new(output, side(width(picture))?, side(picture.height)?);
    encoder.set_depth(png::BitDepth::Eight);
    encoder.set_color(if picture.channels == 3 {
        png::ColorType::Rgb
    } else {
        png::ColorType::Grayscale
    });
    encoder.set_compression(png::Compression::Fast);
    encoder.set_filter(png::FilterType::Sub);
    encoder.set_adaptive_filter(png::AdaptiveFilterType::NonAdaptive);
    let mut file = encoder.write_header()?;
    let mut rows = file.stream_writer_with_size(1 << 18)?;
    write_samples(picture, &mut rows)?;
    rows.finish()?;
    file.finish()?;
    Ok(())
}

#[cfg(test)]
mod tests {
    use super::*;

    /// A picture in which no row and no column is like its neighbour.
    fn picture(width: usize, height: usize, channels: usize) -> Picture {
        let mut state = (width * 31 + height) as u64;
        let samples = (0..width * height * channels)
            .map(|at| {
                state = state.wrapping_mul(6_364_136_223_846_793_005).wrapping_add(at as u64);
                (at / 5) as u8 ^ (state >> 61) as u8
            })
            .collect();
        Picture { width, height, channels, samples }
    }

    /// What a PNG file holds: sides, colour type, bits, samples, and the names of its chunks.
    fn read_png(bytes: &[u8]) -> (usize, usize, png::ColorType, png::BitDepth, Vec<u8>) {
        let mut decoder = png::Decoder::new(bytes);
        decoder.set_transformations(png::Transformations::IDENTITY);
        let mut reader = decoder.read_info().unwrap();
        let info = reader.info();
        assert!(info.source_gamma.is_none() && info.srgb.is_none() && info.icc_profile.is_none());
        let mut samples = vec![0; reader.output_buffer_size()];
        let seen = reader.next_frame(&mut samples).unwrap();
        (seen.width as usize, seen.height as usize, seen.color_type, seen.bit_depth, samples)
    }

    #[test]
    fn a_png_file_holds_exactly_the_samples() {
        for (width, height, channels) in
            [(1, 1, 1), (1, 1, 3), (144, 7, 3), (7, 144, 1), (1000, 900, 3), (65_535, 3, 1)]
        {
            let picture = picture(width, height, channels);
            let mut bytes = Vec::new();
            Form::Png.write(&picture, &mut bytes).unwrap();
            let colour =
                if channels == 1 { png::ColorType::Grayscale } else { png::ColorType::Rgb };
            let (across, down, kind, depth, samples) = read_png(&bytes);
            assert_eq!((across, down, kind, depth), (width, height, colour, png::BitDepth::Eight));
            assert!(samples == picture.samples, "{width} x {height}");
            assert!(bytes.ends_with(b"IEND\xae\x42\x60\x82"));
        }
    }

    #[test]
    fn pnm_is_a_head_and_the_samples() {
        let mut bytes = Vec::new();
        Form::Ppm.write(&picture(2, 1, 3), &mut bytes).unwrap();
        assert_eq!(bytes, [b"P6\n2 1\n255\n", &picture(2, 1, 3).samples[..]].concat());
        bytes.clear();
        Form::Pgm.write(&picture(3, 2, 1), &mut bytes).unwrap();
        assert_eq!(bytes, [b"P5\n3 2\n255\n", &picture(3, 2, 1).samples[..]].concat());
    }

    #[test]
    fn two_and_four_channels_stand_side_by_side() {
        let samples = vec![1, 11, 2, 12, 3, 13, 4, 14, 5, 15, 6, 16];
        let mut bytes = Vec::new();
        let two = Picture { width: 3, height: 2, channels: 2, samples: samples.clone() };
        Form::Pgm.write(&two, &mut bytes).unwrap();
        let rows = [[1, 2, 3, 11, 12, 13], [4, 5, 6, 14, 15, 16]];
        assert_eq!(bytes, [b"P5\n6 2\n255\n", &rows.concat()[..]].concat());
        bytes.clear();
        Form::Png.write(&two, &mut bytes).unwrap();
        let (across, down, kind, _, seen) = read_png(&bytes);
        assert_eq!((across, down, kind, seen), (6, 2, png::ColorType::Grayscale, rows.concat()));
        bytes.clear();
        let four = Picture { width: 1, height: 3, channels: 4, samples };
        Form::Pgm.write(&four, &mut bytes).unwrap();
        assert_eq!(bytes, [b"P5\n4 3\n255\n", &four.samples[..]].concat());
        for channels in [2, 4] {
            let picture = picture(300, 70, channels);
            bytes.clear();
            Form::Png.write(&picture, &mut bytes).unwrap();
            let (across, down, _, _, seen) = read_png(&bytes);
            assert_eq!((across, down), (300 * channels, 70));
            let is_there = |(at, &sample): (usize, &u8)| {
                let (pixel, c) = (at / channels, at % channels);
                seen[pixel / 300 * across + 300 * c + pixel % 300] == sample
            };
            assert!(picture.samples.iter().enumerate().all(is_there), "{channels} channels");
        }
    }

    #[test]
    fn a_form_is_never_changed_silently() {
        for channels in [1, 2, 4] {
            assert_eq!(Form::Pnm.for_channels(channels), Ok(Form::Pgm));
            assert_eq!(Form::Pgm.for_channels(channels), Ok(Form::Pgm));
            let refused = Form::Ppm.for_channels(channels).unwrap_err();
            assert!(refused.contains("take pgm, pnm or png"), "{refused}");
        }
        assert_eq!(Form::Pnm.for_channels(3), Ok(Form::Ppm));
        assert_eq!(Form::Ppm.for_channels(3), Ok(Form::Ppm));
        assert!(Form::Pgm.for_channels(3).is_err());
        assert!([1, 2, 3, 4].iter().all(|&each| Form::Png.for_channels(each) == Ok(Form::Png)));
        assert_eq!(Form::of_ending(Path::new("x.PnG")), Some(Form::Png));
        assert_eq!(Form::of_ending(Path::new("x.jpg")), None);
        assert_eq!(Form::Pnm.and(Form::Ppm), Some(Form::Ppm));
        assert_eq!((Form::Png.and(Form::Pnm), Form::Ppm.and(Form::Pgm)), (None, None));
    }
}
