//! Damage: to fields of the head one at a time, and to bytes anywhere.

use super::careless;
use super::draft::Draft;
use super::plan::{Length, Segment};
use super::sampling;
use super::tables;
use crate::huffman;
use crate::random::Random;

type Damage = fn(&mut Draft, &mut Random);

/// Each changes one thing around a boundary of the rules.
const HEAD_DAMAGE: [Damage; 38] = [
    frame_field,
    frame_field,
    frame_sampling,
    frame_sampling,
    frame_factors,
    frame_blocks,
    frame_channels,
    frame_component,
    frame_equal_ids,
    frame_size,
    frame_body,
    frame_twice,
    frame_gone,
    scan_field,
    scan_field,
    scan_component,
    scan_two_components,
    scan_body,
    scan_inserted,
    table_gone,
    front_huffman,
    front_huffman,
    front_full,
    front_empty,
    quantizer_field,
    quantizer_body,
    huffman_field,
    huffman_counts,
    huffman_body,
    huffman_symbol,
    huffman_symbol,
    interval_body,
    marker_code,
    length_field,
    order,
    before_marker,
    opening,
    cut_after_marker,
];

/// One to three kinds of damage to the head.
pub fn head(draft: &mut Draft, random: &mut Random) {
    for _ in 0..random.pick(&[1, 1, 1, 1, 1, 2, 2, 3]) {
        random.pick(&HEAD_DAMAGE)(draft, random);
        if draft.segments.is_empty() {
            return;
        }
    }
}

/// A segment with one of these codes, if there is one.
fn find<'a>(draft: &'a mut Draft, random: &mut Random, codes: &[u8]) -> Option<&'a mut Segment> {
    let at = find_place(draft, random, codes)?;
    Some(&mut draft.segments[at])
}

fn find_place(draft: &Draft, random: &mut Random, codes: &[u8]) -> Option<usize> {
    let found = |&at: &usize| codes.contains(&draft.segments[at].code);
    let places: Vec<usize> = (0..draft.segments.len()).filter(found).collect();
    (!places.is_empty()).then(|| random.pick(&places))
}

const FRAME: [u8; 2] = [192, 193];

/// Sets a byte of a segment's body, if it has that place.
fn set(segment: Option<&mut Segment>, at: usize, value: u8) {
    if let Some(byte) = segment.and_then(|segment| segment.body.get_mut(at)) {
        *byte = value;
    }
}

fn frame_field(draft: &mut Draft, random: &mut Random) {
    let value = if random.chance(1, 2) {
        (0, random.pick(&[0, 7, 9, 12, 16, 255]))
    } else {
        (5, random.pick(&[0, 1, 2, 3, 4, 5, 255]))
    };
    set(find(draft, random, &FRAME), value.0, value.1);
}

/// How many channels a frame or a scan has room for, with a body of so many bytes besides
/// `step` for each; one at least.
fn channels_in(segment: Option<&Segment>, besides: usize, step: usize) -> usize {
    let length = segment.map_or(0, |segment| segment.body.len());
    (length.saturating_sub(besides) / step).clamp(1, 255)
}

fn frame_channels_in(draft: &Draft, random: &mut Random) -> usize {
    let at = find_place(draft, random, &FRAME);
    channels_in(at.map(|at| &draft.segments[at]), 6, 3)
}

/// Sampling bytes around the edges of a nibble, in any channel; some are allowed.
fn frame_sampling(draft: &mut Draft, random: &mut Random) {
    let channels = frame_channels_in(draft, random);
    let channel = random.below(channels);
    let any = random.byte();
    let good = random.between(1, 4) as u8;
    let bad = random.pick(&[0, 0, 0, 5, 5, 5, 6, 8, 9, 15]);
    let value = random.pick(&[
        16 * bad + good,
        16 * bad + good,
        16 * good + bad,
        16 * good + bad,
        0x00,
        0x55,
        0x44,
        0x24,
        any,
    ]);
    set(find(draft, random, &FRAME), 7 + 3 * channel, value);
}

/// Gives the frame these factors.
fn set_factors(draft: &mut Draft, random: &mut Random, factors: &[(u64, u64)]) {
    let Some(frame) = find(draft, random, &FRAME) else {
        return;
    };
    for (channel, &both) in factors.iter().enumerate() {
        set(Some(&mut *frame), 7 + 3 * channel, sampling::byte(both));
    }
}

/// Other factors that may stand there: the scan is read by another layout.
fn frame_factors(draft: &mut Draft, random: &mut Random) {
    let channels = frame_channels_in(draft, random).min(4);
    let factors = sampling::factors(random, channels);
    set_factors(draft, random, &factors);
}

/// More blocks in an MCU than ten; a single channel may have them.
fn frame_blocks(draft: &mut Draft, random: &mut Random) {
    let channels = frame_channels_in(draft, random);
    let factors = match channels {
        1 => vec![random.pick(&[(3, 4), (4, 3), (4, 4)])],
        _ => sampling::beyond(random, channels.min(4)),
    };
    set_factors(draft, random, &factors);
}

/// Another number of channels, none or too many among them. The bodies of the frame and, most
/// times, of the scan are whole.
fn frame_channels(draft: &mut Draft, random: &mut Random) {
    let count = random.pick(&[0, 0, 0, 5, 5, 5, 6, 85, 255, 1, 2, 3, 4]);
    let at = find_place(draft, random, &FRAME);
    if let Some(body) = at.map(|at| &mut draft.segments[at].body).filter(|body| body.len() > 8) {
        while body.len() < 6 + 3 * count {
            let id = body[body.len() - 3].wrapping_add(1);
            body.extend([id, 17, body[8]]);
        }
        body.truncate(6 + 3 * count);
        body[5] = count as u8;
    }
    if random.chance(1, 8) {
        return;
    }
    let at = find_place(draft, random, &[218]);
    if let Some(body) = at.map(|at| &mut draft.segments[at].body).filter(|body| body.len() > 5) {
        let last = body.split_off(body.len() - 3);
        while body.len() < 1 + 2 * count {
            let id = body[body.len() - 2].wrapping_add(1);
            body.extend([id, body[2]]);
        }
        body.truncate(1 + 2 * count);
        body[0] = count as u8;
        body.extend(last);
    }
}

/// Quantizer ids above 3 or absent, equal or other component ids.
fn frame_component(draft: &mut Draft, random: &mut Random) {
    let channels = frame_channels_in(draft, random);
    let channel = random.below(channels);
    let Some(frame) = find(draft, random, &FRAME) else {
        return;
    };
    if random.chance(1, 2) {
        let id = random.pick(&[0, 1, 2, 3, 4, 5, 16, 255]);
        set(Some(frame), 8 + 3 * channel, id);
    } else {
        let any = random.byte();
        let id = frame.body.get(6 + 3 * random.below(channels)).copied().unwrap_or(any);
        set(Some(frame), 6 + 3 * channel, id);
    }
}

/// Two equal component ids, or all equal, in the frame and in the scan alike.
fn frame_equal_ids(draft: &mut Draft, random: &mut Random) {
    let channels = frame_channels_in(draft, random);
    if channels == 1 {
        return;
    }
    let a = random.below(channels);
    let b = (a + random.between(1, channels as u64 - 1) as usize) % channels;
    let equal = if random.chance(1, 6) { (0..channels).collect() } else { vec![b] };
    for (codes, first, step) in [(&FRAME[..], 6, 3), (&[218], 1, 2)] {
        let Some(segment) = find(draft, random, codes) else {
            continue;
        };
        if let Some(&id) = segment.body.get(first + step * a) {
            for channel in &equal {
                set(Some(&mut *segment), first + step * channel, id);
            }
        }
    }
}

/// Other sides, also the largest, for the same scan.
fn frame_size(draft: &mut Draft, random: &mut Random) {
    let Some(frame) = find(draft, random, &FRAME) else {
        return;
    };
    let at = random.pick(&[1, 3]);
    if frame.body.len() < 5 {
        return;
    }
    let old = 256 * u16::from(frame.body[at]) + u16::from(frame.body[at + 1]);
    let any = random.between(1, 65535) as u16;
    let side = random.pick(&[
        0,
        65535,
        any,
        old.wrapping_add(1),
        old.wrapping_sub(1),
        old.wrapping_add(8),
    ]);
    frame.body[at..at + 2].copy_from_slice(&side.to_be_bytes());
    if random.chance(1, 4) {
        frame.body[1..5].copy_from_slice(&[255; 4]);
    }
}

/// A body of another length.
fn resize(random: &mut Random, body: &mut Vec<u8>, lengths: &[usize]) {
    let length = body.len();
    let fixed = random.pick(lengths);
    let near =
        random.pick(&[length.saturating_sub(1), length + 1, length + 3, length.saturating_sub(3)]);
    let wanted = random.pick(&[fixed, near]);
    while body.len() < wanted {
        let value = random.pick(&[0, 1, 17, 255]);
        body.push(value);
    }
    body.truncate(wanted);
}

fn frame_body(draft: &mut Draft, random: &mut Random) {
    if let Some(frame) = find(draft, random, &FRAME) {
        resize(random, &mut frame.body, &[0, 5, 6, 8, 9, 10, 12, 15, 18, 21]);
    }
}

/// A second frame, sometimes with a fault of its own.
fn frame_twice(draft: &mut Draft, random: &mut Random) {
    let Some(at) = find_place(draft, random, &FRAME) else {
        return;
    };
    let mut second = draft.segments[at].clone();
    match random.below(4) {
        0 => second.body.truncate(random.below(6)),
        1 => set(Some(&mut second), 0, 12),
        2 => second.code ^= 1,
        _ => {}
    }
    let to = random.below(draft.segments.len() + 1);
    draft.segments.insert(to, second);
}

fn frame_gone(draft: &mut Draft, random: &mut Random) {
    let Some(at) = find_place(draft, random, &FRAME) else {
        return;
    };
    let frame = draft.segments.remove(at);
    if random.chance(1, 3) {
        draft.segments.push(frame);
    } else if random.chance(1, 2) {
        scan_body(draft, random);
    }
}

fn scan_field(draft: &mut Draft, random: &mut Random) {
    let Some(scan) = find(draft, random, &[218]) else {
        return;
    };
    let length = scan.body.len();
    let (back, value) = random.pick(&[
        (length, 0),
        (length, 1),
        (length, 2),
        (length, 3),
        (length, 4),
        (length, 5),
        (3, 1),
        (3, 63),
        (2, 62),
        (2, 64),
        (2, 0),
        (1, 1),
        (1, 16),
    ]);
    if back <= length {
        set(Some(scan), length - back, value);
    }
}

/// Component ids out of order, table ids above 3 or of other tables.
fn scan_component(draft: &mut Draft, random: &mut Random) {
    let Some(scan) = find(draft, random, &[218]) else {
        return;
    };
    let channels = channels_in(Some(scan), 4, 2);
    let channel = random.below(channels);
    match random.below(4) {
        0 => set(Some(scan), 1 + 2 * channel, random.byte()),
        1 if channels > 1 => scan.body.swap(1, 3 + 2 * random.below(channels - 1)),
        1 => set(Some(scan), 1, random.byte()),
        _ => {
            let (dc, ac) = (random.between(0, 3) as u8, random.between(0, 3) as u8);
            let ids = [0x40, 0x04, 0xf0, 0x0f, 0x80, 16 * dc + ac, 16 * dc + 4, 64 + ac];
            set(Some(scan), 2 + 2 * channel, random.pick(&ids));
        }
    }
}

/// Two faults in two channels: which test comes first decides the number.
fn scan_two_components(draft: &mut Draft, random: &mut Random) {
    let Some(scan) = find(draft, random, &[218]) else {
        return;
    };
    let channels = channels_in(Some(scan), 4, 2);
    let (a, b) = (random.below(channels), random.below(channels));
    let ids = |random: &mut Random| random.pick(&[0x40, 0x04, 0x44]);
    match random.below(3) {
        0 => set(Some(&mut *scan), 1 + 2 * a, random.byte()),
        _ => set(Some(&mut *scan), 2 + 2 * a, ids(random)),
    }
    match random.below(3) {
        0 => set(Some(scan), 1 + 2 * b, random.byte()),
        1 => set(Some(scan), 2 + 2 * b, random.pick(&[0x33, 0x30, 0x03, 0x22, 0x11])),
        _ => set(Some(scan), 2 + 2 * b, ids(random)),
    }
}

/// Bytes too many before the last three.
fn scan_inserted(draft: &mut Draft, random: &mut Random) {
    let Some(scan) = find(draft, random, &[218]) else {
        return;
    };
    let at = scan.body.len().saturating_sub(3);
    let some = vec![random.byte(); random.between(1, 3) as usize];
    scan.body.splice(at..at, some);
}

fn scan_body(draft: &mut Draft, random: &mut Random) {
    if let Some(scan) = find(draft, random, &[218]) {
        resize(random, &mut scan.body, &[0, 1, 2, 6, 8, 10, 12, 14]);
    }
}

/// A segment of tables left out, or moved behind the scan's.
fn table_gone(draft: &mut Draft, random: &mut Random) {
    let Some(at) = find_place(draft, random, &[196, 219]) else {
        return;
    };
    let segment = draft.segments.remove(at);
    if random.chance(1, 4) {
        draft.segments.push(segment);
    }
}

fn quantizer_field(draft: &mut Draft, random: &mut Random) {
    let Some(segment) = find(draft, random, &[219]) else {
        return;
    };
    let table = 65 * random.below((segment.body.len() / 65).max(1));
    if random.chance(1, 2) {
        set(Some(segment), table, random.pick(&[0, 1, 2, 3, 4, 5, 16, 17, 255]));
    } else {
        set(Some(segment), table + random.pick(&[1, 2, 33, 63, 64]), 0);
    }
}

fn quantizer_body(draft: &mut Draft, random: &mut Random) {
    if let Some(segment) = find(draft, random, &[219]) {
        resize(random, &mut segment.body, &[0, 1, 64, 65, 66, 129, 130]);
    }
}

fn huffman_field(draft: &mut Draft, random: &mut Random) {
    let value =
        random.pick(&[0x00, 0x01, 0x03, 0x04, 0x13, 0x14, 0x20, 0x23, 0x10, 0xf0, 0xff, 0x0f]);
    set(find(draft, random, &[196]), 0, value);
}

/// One more code than fits, exactly as many as fit, none at all, or too many symbols.
fn huffman_counts(draft: &mut Draft, random: &mut Random) {
    let Some(segment) = find(draft, random, &[196]) else {
        return;
    };
    if segment.body.len() < 17 {
        return;
    }
    let old = huffman::total(&segment.body[1..]);
    match random.below(4) {
        0 => segment.body[1..17].fill(0),
        1 => {
            let at = random.between(1, 16) as usize;
            segment.body[at] = random.pick(&[255, segment.body[at].wrapping_add(1)]);
        }
        2 => fill_length(random, &mut segment.body),
        _ => {
            segment.body[1..17].fill(0);
            let last = random.pick(&[0, 1, 2]);
            (segment.body[15], segment.body[16]) = (random.pick(&[255, 254]), last);
        }
    }
    let new = huffman::total(&segment.body[1..]);
    let kept = random.chance(1, 4);
    for total in old..if kept { old } else { new } {
        add_symbol(random, &mut segment.body, total);
    }
}

/// One symbol more in the first table, which has so many; one that it may list, if there is
/// any left.
fn add_symbol(random: &mut Random, body: &mut Vec<u8>, total: usize) {
    let end = (17 + total).min(body.len());
    let symbol = careless::spare(body[0] / 16, &body[17..end], random).unwrap_or(0);
    body.insert(17, symbol);
}

/// Gives one length just as many codes as fit there, or one more.
fn fill_length(random: &mut Random, body: &mut [u8]) {
    let length = random.between(1, 8) as usize;
    let next = (1..length).fold(0u64, |next, at| 2 * (next + u64::from(body[at])));
    let most = ((1u64 << length) - 1).saturating_sub(next);
    body[length] = (most + random.between(0, 1)).min(255) as u8;
    if random.chance(1, 2) {
        body[length + 1..17].fill(0);
    }
}

/// A table at the very front, where it is unused or replaced: right at the edge of what
/// fits, or one past it, or with no symbol, 256 or 257.
fn front_huffman(draft: &mut Draft, random: &mut Random) {
    let mut counts = [0u8; 16];
    let any = random.between(1, 16) as usize;
    let length = random.pick(&[any, any, 16]);
    let over = random.between(0, 1) as u8;
    match random.below(5) {
        0 => {}
        1 => {
            counts[..length].fill(1);
            counts[length - 1] += over;
        }
        2 => {
            let length = length.clamp(1, 8);
            counts[length - 1] = ((1u16 << length) - 2 + u16::from(over)).min(255) as u8;
            counts[length] = random.between(1, 2) as u8;
        }
        3 => {
            let length = length.max(9);
            counts[length - 1] = 255;
            counts[length - 2] = 1 + over;
        }
        _ => counts[length - 1] = 1 + over,
    }
    let class = if huffman::total(&counts) > 12 { 1 } else { random.pick(&[0, 1]) };
    front_table(draft, random, class, &counts);
}

/// A table at the very front with all symbols of its class, or with one more, which is then
/// listed twice.
fn front_full(draft: &mut Draft, random: &mut Random) {
    let class = random.pick(&[0, 1]);
    let more = random.below(2);
    let counts = tables::counts(random, tables::usable(class).len() + more);
    front_table(draft, random, class, &counts);
}

/// Lists usable symbols as far as there are any, then one of them again or unusable ones.
fn front_table(draft: &mut Draft, random: &mut Random, class: u8, counts: &[u8; 16]) {
    let mut symbols = tables::usable(class);
    let all = symbols.len();
    random.shuffle(&mut symbols);
    let total = huffman::total(counts);
    if total == all + 1 {
        symbols.push(random.pick(&symbols));
    }
    symbols.extend((0..=255).filter(|&symbol| !tables::usable(class).contains(&symbol)));
    symbols.push(0);
    symbols.truncate(total);
    let id = random.between(0, 3) as u8;
    let body = [&[16 * class + id][..], counts, &symbols].concat();
    draft.segments.insert(0, Segment::new(196, body));
}

/// An empty segment at the very front.
fn front_empty(draft: &mut Draft, random: &mut Random) {
    let code = random.pick(&[196, 196, 219, 219, 221, 224, 254, 192, 218]);
    draft.segments.insert(0, Segment::new(code, Vec::new()));
}

fn huffman_body(draft: &mut Draft, random: &mut Random) {
    if let Some(segment) = find(draft, random, &[196]) {
        resize(random, &mut segment.body, &[0, 1, 16, 17, 18, 19]);
    }
}

/// A symbol that makes a table careless, or nearly does.
fn huffman_symbol(draft: &mut Draft, random: &mut Random) {
    let Some(place) = careless::one(&mut draft.segments, random) else {
        return;
    };
    // A length past the file's end comes before what the segment holds.
    if random.chance(1, 6) {
        draft.segments[place.segment].length = Length::ToEnd(random.pick(&[0, 1, 1, 2]));
    }
}

/// An interval segment of another length, or one that was not there.
fn interval_body(draft: &mut Draft, random: &mut Random) {
    if find_place(draft, random, &[221]).is_none() {
        let at = random.below(draft.segments.len() + 1);
        draft.segments.insert(at, Segment::new(221, vec![0, random.between(0, 3) as u8]));
    }
    if let Some(segment) = find(draft, random, &[221]) {
        resize(random, &mut segment.body, &[0, 1, 2, 3, 4]);
    }
}

/// Another code, sometimes with a length that is cut too.
fn marker_code(draft: &mut Draft, random: &mut Random) {
    let at = random.below(draft.segments.len());
    let any = random.byte();
    let code = random.pick(&[
        0, 1, 2, 191, 192, 194, 195, 196, 197, 199, 200, 204, 207, 208, 215, 216, 217, 217, 218,
        219, 220, 221, 222, 223, 224, 239, 240, 247, 253, 254, any, any,
    ]);
    draft.segments[at].code = code;
    if random.chance(1, 4) {
        draft.segments[at].length = Length::Given(random.pick(&[0, 1, 65535]));
    }
}

fn length_field(draft: &mut Draft, random: &mut Random) {
    let at = random.below(draft.segments.len());
    let length = draft.segments[at].body.len() as u16 + 2;
    draft.segments[at].length = match random.below(3) {
        0 => Length::ToEnd(random.pick(&[-3, -2, -1, 0, 1, 2])),
        _ => Length::Given(random.pick(&[0, 1, 2, 3, length - 1, length + 1, length + 2, 65535])),
    };
}

/// Two segments swapped, one twice, or one left out.
fn order(draft: &mut Draft, random: &mut Random) {
    let (a, b) = (random.below(draft.segments.len()), random.below(draft.segments.len()));
    match random.below(3) {
        0 => draft.segments.swap(a, b),
        1 => draft.segments.insert(a, draft.segments[b].clone()),
        _ if draft.segments.len() > 1 => {
            draft.segments.remove(a);
        }
        _ => {}
    }
}

fn before_marker(draft: &mut Draft, random: &mut Random) {
    let at = random.below(draft.segments.len());
    let bytes =
        random.pick(&[&[0][..], &[255, 0], &[0, 255], &[217], &[255, 217], &[255, 255, 1], &[254]]);
    draft.segments[at].before = bytes.to_vec();
}

/// The file ends within the four bytes of a marker and its length, or just after them.
fn cut_after_marker(draft: &mut Draft, random: &mut Random) {
    draft.segments.truncate(random.below(draft.segments.len() + 1));
    let any = random.byte();
    let code =
        random.pick(&[0, 1, 194, 208, 216, 217, 220, 253, 255, 192, 196, 218, 224, 254, any]);
    let length = random.pick(&[0, 1, 2, 3]);
    let tail = [255, code, 0, length];
    draft.scan = tail[..random.between(1, 4) as usize].to_vec();
}

fn opening(draft: &mut Draft, random: &mut Random) {
    let openings =
        [&[255, 217][..], &[255], &[216], &[254, 216], &[255, 255, 216], &[255, 215], &[]];
    draft.opening = random.pick(&openings).to_vec();
}

/// One to three kinds of damage to bytes anywhere.
pub fn bytes(file: &mut Vec<u8>, head: usize, random: &mut Random) {
    for _ in 0..random.pick(&[1, 1, 1, 1, 2, 2, 3]) {
        let (from, to) = if random.chance(1, 2) { (0, head) } else { (head, file.len()) };
        let (from, to) = (from.min(file.len()), to.min(file.len()));
        let at = random.between(from as u64, to.max(from) as u64) as usize;
        one_place(file, at, random);
    }
}

fn one_place(file: &mut Vec<u8>, at: usize, random: &mut Random) {
    let some = random.between(1, 4) as usize;
    let end = (at + some).min(file.len());
    match random.below(8) {
        0 | 1 => {
            if let Some(byte) = file.get_mut(at) {
                *byte ^= 1 << random.below(8);
            }
        }
        2 => {
            if let Some(byte) = file.get_mut(at) {
                *byte = random.pick(&[0, 255, 217, 208, 254, 1]);
            }
        }
        3 => file.truncate(at),
        4 => {
            let value = random.pick(&[0, 255, 217, 7]);
            file.splice(at..at, vec![value; some]);
        }
        5 => {
            file.drain(at..end);
        }
        6 => {
            let twice = file[at..end].to_vec();
            file.splice(at..at, twice);
        }
        _ => {
            let kept = file.len().saturating_sub(some);
            file.truncate(kept);
        }
    }
}
