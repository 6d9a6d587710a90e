//! Files for the tests: pictures painted here, written and read by the distribution's
//! libjpeg-turbo tools. A file of tests uses what it wants of them.
#![allow(dead_code)]

use std::io::Write;
use std::process::{Command, Stdio};
use std::thread;

/// What a program writes when it is given these bytes. The bytes go in from a thread of their
/// own, so that neither side waits for the other.
pub fn run(words: &[&str], input: &[u8]) -> Vec<u8> {
    let mut child = Command::new(words[0])
        .args(&words[1..])
        .stdin(Stdio::piped())
        .stdout(Stdio::piped())
        .spawn()
        .unwrap_or_else(|error| panic!("{} (package libjpeg-turbo-progs): {error}", words[0]));
    let mut pipe = child.stdin.take().unwrap();
    let done = thread::scope(|scope| {
        scope.spawn(move || pipe.write_all(input).unwrap());
        child.wait_with_output().unwrap()
    });
    assert!(done.status.success(), "{words:?} ended with {}", done.status);
    done.stdout
}

pub type Paint = fn(usize, usize) -> [u8; 3];

pub fn gradient(x: usize, y: usize) -> [u8; 3] {
    [(2 * x) as u8, (3 * y) as u8, (x + y) as u8]
}

/// Nothing like its neighbours, and the same in every run.
pub fn noise(x: usize, y: usize) -> [u8; 3] {
    let mut state = (x as u32 * 7919) ^ (y as u32 * 104_729) ^ 12345;
    [0; 3].map(|_: u8| {
        state = state.wrapping_mul(1_664_525).wrapping_add(1_013_904_223);
        (state >> 24) as u8
    })
}

/// Discs in rows, as seeds lie in a tray.
pub fn tray(x: usize, y: usize) -> [u8; 3] {
    let (across, down) = (x as i32 % 16 - 8, y as i32 % 16 - 8);
    if across * across + down * down < 36 {
        return [200, 170, 90];
    }
    [60, 90 + x as u8 % 7, 50 + y as u8 % 5]
}

pub fn pixmap(paint: Paint, width: usize, height: usize) -> Vec<u8> {
    let mut bytes = format!("P6\n{width} {height}\n255\n").into_bytes();
    for y in 0..height {
        bytes.extend((0..width).flat_map(|x| paint(x, y)));
    }
    bytes
}

/// A file of the encoder.
pub fn encoded(options: &[&str], paint: Paint, width: usize, height: usize) -> Vec<u8> {
    run(&[&["cjpeg"], options].concat(), &pixmap(paint, width, height))
}

/// The picture as the other decoder reads it: its kind, its sides and its samples.
pub fn by_djpeg(file: &[u8]) -> (String, String, Vec<u8>) {
    let read = run(&["djpeg", "-dct", "int", "-nosmooth", "-pnm"], file);
    let mut fields = read.splitn(4, |&byte| byte == b'\n');
    let mut word = || String::from_utf8(fields.next().unwrap().to_vec()).unwrap();
    let (kind, sides, most) = (word(), word(), word());
    assert_eq!(most, "255");
    (kind, sides, fields.next().unwrap().to_vec())
}

/// The tray of the repository.
pub fn docs_tray() -> Vec<u8> {
    std::fs::read("../../docs/tray.jpg").unwrap()
}

/// The file with a comment segment as its first one.
pub fn with_comment(file: &[u8], text: &[u8]) -> Vec<u8> {
    let length = text.len() + 2;
    let head = [0xff, 0xd8, 0xff, 0xfe, (length >> 8) as u8, length as u8];
    [&head, text, &file[2..]].concat()
}

/// The file with three fill bytes before each marker behind its first coded byte, which is at
/// `start`: before the restarts and before the end.
pub fn with_fill(file: &[u8], start: usize) -> Vec<u8> {
    let mut bytes = file[..start].to_vec();
    for part in file[start..].windows(2) {
        if part[0] == 255 && matches!(part[1], 208..=215 | 217) {
            bytes.extend([255; 3]);
        }
        bytes.push(part[0]);
    }
    bytes.extend(file.last());
    bytes
}

/// Real files of every form that is read, each with a name.
pub fn accepted() -> Vec<(String, Vec<u8>)> {
    let mut files = vec![("docs/tray.jpg".to_string(), docs_tray())];
    let forms: [&[&str]; 11] = [
        &["-grayscale"],
        &["-sample", "1x1"],
        &["-sample", "2x1"],
        &["-sample", "1x2"],
        &["-sample", "2x2"],
        &["-sample", "3x1"],
        &["-sample", "4x1"],
        &["-sample", "2x2,1x2,1x2"],
        &["-sample", "2x2,2x1,2x1"],
        &["-sample", "1x1,2x1,2x1"],
        &["-grayscale", "-optimize"],
    ];
    let paints: [(&str, Paint, usize, usize); 3] =
        [("gradient", gradient, 97, 61), ("noise", noise, 64, 48), ("tray", tray, 120, 90)];
    for (name, paint, width, height) in paints {
        for form in forms {
            for extra in [&["-quality", "75"][..], &["-quality", "92", "-restart", "3B"]] {
                let options = [form, extra].concat();
                let file = encoded(&options, paint, width, height);
                files.push((format!("{name} {}", options.join(" ")), file));
            }
        }
    }
    for (width, height) in [(1, 1), (8, 8), (9, 17), (255, 1), (1, 255)] {
        let file = encoded(&["-sample", "2x2"], gradient, width, height);
        files.push((format!("gradient {width} x {height}"), file));
    }
    files
}
