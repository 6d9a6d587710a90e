//! The channels of a case's file and their factors, told by its header; and what is wrong with a
//! frame that is refused for them.

use crate::cases::Case;
use crate::header;
use std::collections::{BTreeMap, BTreeSet};

/// Across and down, by channel.
pub type Shape = Vec<(u64, u64)>;

/// The shape that the header gives; `None` where it is refused.
pub fn of(file: &[u8]) -> Option<Shape> {
    let record = header::read(file, 0).ok()?;
    let channels = 0..record.channels as usize;
    Some(channels.map(|channel| (record.across[channel], record.down[channel])).collect())
}

/// The shapes of accepted cases, and how many cases each has.
#[derive(Default)]
pub struct Accepted {
    shapes: BTreeMap<Shape, u64>,
}

impl Accepted {
    pub fn count(&mut self, case: &Case, line: &str) {
        if line.split(' ').nth(1) == Some("0") {
            if let Some(shape) = of(&case.file) {
                *self.shapes.entry(shape).or_default() += 1;
            }
        }
    }

    /// Each as `shape channels factors cases`.
    pub fn lines(&self) -> Vec<String> {
        let factors = |shape: &Shape| -> String {
            shape
                .iter()
                .map(|(across, down)| format!("{across}x{down}"))
                .collect::<Vec<_>>()
                .join(",")
        };
        let line = |(shape, cases): (&Shape, &u64)| {
            format!("shape {} {} {cases}", shape.len(), factors(shape))
        };
        self.shapes.iter().map(line).collect()
    }
}

/// A rule about channels and factors.
#[derive(Clone, Copy, Debug, PartialEq, Eq)]
pub enum Rule {
    /// No channel.
    None,
    /// More than four.
    TooMany,
    /// A factor that is not 1 to 4, in any channel.
    Factor,
    /// More than ten blocks in an MCU of several channels.
    Blocks,
    /// An id that two channels have.
    Ids,
}

pub const RULES: [Rule; 5] = [Rule::None, Rule::TooMany, Rule::Factor, Rule::Blocks, Rule::Ids];

/// The rules that a frame breaks, where it is the frame for which the file is refused 5.
pub fn broken(file: &[u8]) -> Vec<Rule> {
    let number = |bytes: &[u8]| header::read(bytes, 0).err();
    let Some((start, end)) = frame(file).filter(|_| number(file) == Some(5)) else {
        return Vec::new();
    };
    // Up to the frame nothing is wrong but that the file ends there, which is 4.
    if number(&file[..start]) != Some(4) || number(&file[..end]) != Some(5) {
        return Vec::new();
    }
    let body = &file[start + 4..end];
    RULES.into_iter().filter(|rule| breaks(body, *rule)).collect()
}

/// Where the first frame begins, at its 255, and where it ends.
pub fn frame(file: &[u8]) -> Option<(usize, usize)> {
    let mut at = 2;
    loop {
        while file.get(at..at + 2)? == [255, 255] {
            at += 1;
        }
        let &[255, code, high, low] = file.get(at..at + 4)? else {
            return None;
        };
        let end = at + 2 + 256 * usize::from(high) + usize::from(low);
        if end > file.len() || end < at + 4 {
            return None;
        }
        if code == 192 || code == 193 {
            return Some((at, end));
        }
        at = end;
    }
}

/// Whether the body of a frame breaks a rule. What is asked of the channels is only asked where
/// the body is as long as it should be, and blocks are only counted where all factors are in
/// order.
fn breaks(body: &[u8], rule: Rule) -> bool {
    let &[8, _, _, _, _, count, ref components @ ..] = body else {
        return false;
    };
    let counted = (1..=4).contains(&count) && components.len() == 3 * usize::from(count);
    let sampling = components.chunks(3).filter_map(|component| component.get(1));
    let factors: Vec<(u8, u8)> = sampling.map(|byte| (byte / 16, byte % 16)).collect();
    let allowed = |factor: u8| (1..=4).contains(&factor);
    let in_order = factors.iter().all(|&(across, down)| allowed(across) && allowed(down));
    match rule {
        Rule::None => count == 0,
        Rule::TooMany => count > 4,
        Rule::Factor => counted && !in_order,
        Rule::Blocks => {
            let blocks = |(across, down): &(u8, u8)| u64::from(across * down);
            let many = || factors.iter().map(blocks).sum::<u64>() > 10;
            counted && in_order && count > 1 && many()
        }
        Rule::Ids => {
            let ids: BTreeSet<u8> = components.chunks(3).map(|component| component[0]).collect();
            counted && ids.len() < count.into()
        }
    }
}
