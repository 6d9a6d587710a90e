//! A file on its way: opening, segments, scan.

use super::plan::{Length, Plan, Segment};

#[derive(Clone)]
pub struct Draft {
    pub opening: Vec<u8>,
    pub segments: Vec<Segment>,
    pub scan: Vec<u8>,
}

impl Draft {
    pub fn new(plan: &Plan, scan: Vec<u8>) -> Draft {
        Draft { opening: vec![255, 216], segments: plan.segments.clone(), scan }
    }

    pub fn bytes(&self) -> Vec<u8> {
        let mut bytes = self.opening.clone();
        let mut to_end = Vec::new();
        for segment in &self.segments {
            bytes.extend(&segment.before);
            bytes.extend([255, segment.code]);
            let at = bytes.len();
            let length = match segment.length {
                Length::True => segment.body.len() as u16 + 2,
                Length::Given(length) => length,
                Length::ToEnd(past) => {
                    to_end.push((at, past));
                    0
                }
            };
            bytes.extend(length.to_be_bytes());
            bytes.extend(&segment.body);
        }
        bytes.extend(&self.scan);
        for (at, past) in to_end {
            let length = (bytes.len() - at) as i64 + past;
            let length = length.clamp(0, 65535) as u16;
            bytes[at..at + 2].copy_from_slice(&length.to_be_bytes());
        }
        bytes
    }
}
