//! The walk that finds all comments in one reading is not proved. Here it is held to the proved
//! calls, which find one comment each: the same parts of the file, or the same refusal.

mod files;

use files::*;
use tillsparrow::*;

/// All comments by the proved calls alone.
fn one_by_one(bytes: &[u8]) -> Result<Vec<&[u8]>, Refused> {
    let mut texts = Vec::new();
    while has_comment(bytes, texts.len(), Limits::NONE, u64::MAX)?.0 {
        texts.push(comment(bytes, texts.len()));
    }
    Ok(texts)
}

/// Where the texts stand in the file, which two equal texts do not tell.
fn places(texts: Result<Vec<&[u8]>, Refused>) -> Result<Vec<(*const u8, usize)>, Refused> {
    texts.map(|texts| texts.into_iter().map(|text| (text.as_ptr(), text.len())).collect())
}

/// How many comments both ways find; none where both refuse.
fn agreed(name: &str, bytes: &[u8]) -> Option<usize> {
    let found = places(comments(bytes));
    assert_eq!(found, places(one_by_one(bytes)), "{name}");
    found.ok().map(|found| found.len())
}

/// The places in the header where a segment begins, the scan's among them. Found with the calls
/// alone: a comment that is put there is found, and the file is still accepted.
fn joints(file: &[u8]) -> Vec<usize> {
    let start = inspect(file, Colour::AsCoded, Limits::NONE, u64::MAX).unwrap().record.start;
    let before = one_by_one(file).unwrap().len();
    let is_joint = |&at: &usize| {
        let longer = spliced(file, at, &segment(254, b"joint"));
        let is_found =
            |texts: Vec<&[u8]>| texts.len() == before + 1 && texts.contains(&&b"joint"[..]);
        one_by_one(&longer).map_or(false, is_found)
    };
    (2..start as usize).filter(|&at| file[at] == 255).filter(is_joint).collect()
}

fn segment(code: u8, body: &[u8]) -> Vec<u8> {
    let length = (body.len() + 2) as u16;
    [&[255, code], &length.to_be_bytes()[..], body].concat()
}

fn spliced(file: &[u8], at: usize, more: &[u8]) -> Vec<u8> {
    [&file[..at], more, &file[at..]].concat()
}

/// The file with `count` comments, one behind the other, spread over all joints; and with fill
/// bytes before every marker, as many as `fill`.
fn noted(file: &[u8], count: usize, fill: usize) -> Vec<u8> {
    let joints = joints(file);
    let mut bytes = file.to_vec();
    for (i, &at) in joints.iter().enumerate().rev() {
        let mut more = Vec::new();
        for k in (0..count).filter(|k| k * joints.len() / count == i) {
            // Every third is empty; the others hold what looks like markers.
            let text: &[u8] =
                if k % 3 == 1 { b"" } else { b"\xff\xfe\x00\x04 \xff\xda\xff\xff\xff" };
            more.extend(vec![255; fill]);
            more.extend(segment(254, text));
        }
        more.extend(vec![255; fill]);
        bytes = spliced(&bytes, at, &more);
    }
    bytes
}

#[test]
fn comments_are_those_of_the_proved_calls() {
    let mut seen = 0;
    for (name, file) in accepted() {
        assert_eq!(agreed(&name, &file), Some(0), "{name}");
        if !(name.starts_with("docs") || name.starts_with("gradient 9") || name.contains("gray")) {
            continue;
        }
        for count in [0, 1, 5, 19] {
            for fill in [0, 1, 4] {
                assert_eq!(agreed(&name, &noted(&file, count, fill)), Some(count), "{name}");
                seen += 1;
            }
        }
    }
    println!("held: {seen} files with 0 to 19 comments, in one reading as one by one");
}

#[test]
fn a_comment_may_stand_at_every_joint_and_be_of_any_length() {
    let file = docs_tray();
    let joints = joints(&file);
    assert!(joints.len() >= 5, "{joints:?}");
    for at in joints {
        for length in [0, 1, 2, 253, 254, 255, 65_533] {
            let text = vec![255; length];
            let longer = spliced(&file, at, &segment(254, &text));
            assert_eq!(comments(&longer).unwrap(), [&text[..]], "at {at}, length {length}");
            agreed("a comment of 255s", &longer);
            // What another segment holds is no comment, whatever it looks like.
            let other =
                spliced(&file, at, &segment(225, &segment(254, &text[..length.min(65_529)])));
            assert_eq!(agreed("a comment inside a segment", &other), Some(0));
        }
    }
}

/// Files with comments, changed and cut in their headers: most are refused, and a good part is not.
#[test]
fn changed_files_are_answered_alike() {
    let small = encoded(&["-grayscale"], tray, 8, 8);
    let file = noted(&with_comment(&small, b"tray 36, row B"), 5, 1);
    let start = inspect(&file, Colour::AsCoded, Limits::NONE, u64::MAX).unwrap().record.start;
    let mut state = 7_u64;
    let mut next = |below: usize| {
        state =
            state.wrapping_mul(6_364_136_223_846_793_005).wrapping_add(1_442_695_040_888_963_407);
        (state >> 33) as usize % below
    };
    let (mut accepted, mut counts) = (0, [0; 8]);
    for turn in 0..6000 {
        let mut changed = file.clone();
        for _ in 0..1 + next(3) {
            let value = [next(256), 255, 254, 0, 225, 2][next(6)] as u8;
            changed[2 + next(start as usize - 2)] = value;
        }
        if turn % 10 == 0 {
            changed.truncate(next(file.len()));
        }
        if let Some(count) = agreed("a changed file", &changed) {
            accepted += 1;
            counts[count.min(7)] += 1;
        }
    }
    assert!(accepted > 500 && counts[5] > 0 && counts[6] > 0, "{accepted} accepted, {counts:?}");
    println!("held: 6000 changed headers answered alike, {accepted} of them accepted");
}
