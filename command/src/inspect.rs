//! `inspect`: what a file holds, in words or as JSON.

use crate::answer::{Answer, Status, Trouble};
use crate::progress::{Phase, Phases};
use crate::source::Source;
use crate::{run, words};
use serde_json::{json, Value};
use tillsparrow::{Colour, Limits, Record, Refused};

pub fn run(sources: &[Source], json: bool) -> Status {
    run::each(sources, run::processors(), |i, source, phases| {
        inspect(source, phases, json, i > 0).unwrap_or_else(|trouble| Answer::from(Err(trouble)))
    })
}

/// The answer for one file; an error is one that came before the library saw it.
fn inspect(
    source: &Source,
    phases: &Phases,
    json: bool,
    is_later: bool,
) -> Result<Answer, Trouble> {
    phases.enter(Phase::Reading);
    let bytes = source.read()?;
    phases.enter(Phase::Checking);
    let seen = tillsparrow::inspect(&bytes, Colour::RedGreenBlue, Limits::NONE, u64::MAX);
    let name = source.shown();
    let text = match &seen {
        _ if json => {
            object(&json_name(source), bytes.len(), seen.as_ref().map(|seen| &seen.record))
        }
        Ok(seen) => {
            let notes = tillsparrow::comments_of(&bytes, &seen.record).len();
            let gap = if is_later { "\n" } else { "" };
            format!("{gap}{}", lines(&name, bytes.len(), &seen.record, notes))
        }
        Err(_) => String::new(),
    };
    let trouble = seen.err().map(|refused| words::refusal(&refused, &bytes));
    Ok(Answer { text: text.into_bytes(), trouble, ..Answer::default() })
}

fn lines(name: &str, bytes: usize, record: &Record, notes: usize) -> String {
    let channels = match record.channels {
        1 => "grey, one channel",
        2 => "two channels, which decode writes in grey, side by side",
        3 => "colour, three channels",
        _ => "four channels, which decode writes in grey, side by side",
    };
    let interval = match record.interval {
        0 => "none".to_string(),
        interval => format!("{interval} MCUs"),
    };
    let memory = bytes as u64 + record.output + record.scratch;
    let rows = [
        ("file", name.to_string()),
        ("bytes", bytes.to_string()),
        ("size", format!("{} x {}", record.width, record.height)),
        ("channels", channels.to_string()),
        ("sampling", sampling(record)),
        ("restart interval", interval),
        ("blocks", record.blocks.to_string()),
        ("notes", notes.to_string()),
        ("memory needed", format!("{memory} bytes")),
    ];
    rows.iter().map(|(label, value)| format!("{:18}{value}\n", format!("{label}:"))).collect()
}

/// Each channel's blocks across and down in an MCU, and what that means for its samples.
fn sampling(record: &Record) -> String {
    let channels = record.channels as usize;
    let is_even = |factors: &[u64; 4]| factors[..channels].iter().all(|each| *each == factors[0]);
    let meaning = match is_even(&record.across) && is_even(&record.down) {
        true if channels == 1 => "every pixel has its sample",
        true => "every pixel has its own sample of each channel",
        false => "channel by channel, across x down; where one has less than the most, pixels share its samples",
    };
    format!("{}: {meaning}", record.sampling())
}

/// A name that is UTF-8 as it is, since JSON has its own escapes.
fn json_name(source: &Source) -> String {
    match source {
        Source::File(path) => path.to_str().map_or_else(|| source.shown(), str::to_string),
        Source::Standard => source.shown(),
    }
}

/// The number, the block and the place are there in every object, and 0 where there is none to name.
fn object(name: &str, bytes: usize, seen: Result<&Record, &Refused>) -> String {
    let (number, block, place) =
        seen.map_or_else(|refused| (refused.number, refused.block, refused.place), |_| (0, 0, 0));
    let mut object =
        json!({"file": name, "bytes": bytes, "number": number, "block": block, "place": place});
    match seen {
        Ok(record) => object["record"] = fields(record),
        Err(refused) => object["meaning"] = json!(refused.meaning()),
    }
    format!("{object}\n")
}

/// A record by the names that its fields have for C.
fn fields(record: &Record) -> Value {
    json!({
        "width": record.width, "height": record.height, "channels": record.channels,
        "across": record.across, "down": record.down,
        "ids": record.ids, "qids": record.qids, "dcids": record.dcids, "acids": record.acids,
        "quants": record.quants, "dcs": record.dcs, "acs": record.acs,
        "interval": record.interval, "start": record.start, "blocks": record.blocks, "scratch": record.scratch,
        "output": record.output, "work": record.work, "colour": record.colour,
    })
}

#[cfg(test)]
mod tests {
    use super::*;

    fn tray() -> (Vec<u8>, Record) {
        let bytes = std::fs::read("../docs/tray.jpg").unwrap();
        let record = tillsparrow::inspect(&bytes, Colour::RedGreenBlue, Limits::NONE, u64::MAX)
            .unwrap()
            .record;
        (bytes, record)
    }

    /// The names are those of the header for C, all of them and no other.
    #[test]
    fn a_record_has_the_fields_of_the_header() {
        let header = std::fs::read_to_string("../include/tillsparrow.h").unwrap();
        let body = header
            .split("typedef struct tillsparrow_record {")
            .nth(1)
            .unwrap()
            .split('}')
            .next()
            .unwrap();
        let mut names: Vec<&str> = body
            .lines()
            .filter_map(|line| line.trim().strip_prefix("uint64_t "))
            .map(|line| line.split([';', '[']).next().unwrap())
            .collect();
        names.sort();
        let fields = fields(&tray().1);
        let ours: Vec<&String> = fields.as_object().unwrap().keys().collect();
        assert_eq!(ours, names);
    }

    #[test]
    fn the_objects_are_json_on_one_line() {
        let (bytes, record) = tray();
        let line = object("a\"b\n.jpg", bytes.len(), Ok(&record));
        assert_eq!(line.lines().count(), 1);
        let object: Value = serde_json::from_str(&line).unwrap();
        assert_eq!((&object["file"], &object["number"]), (&json!("a\"b\n.jpg"), &json!(0)));
        assert_eq!((&object["block"], &object["place"]), (&json!(0), &json!(0)));
        assert_eq!(
            (&object["record"]["width"], &object["record"]["ids"]),
            (&json!(144), &json!(record.ids))
        );
    }

    #[test]
    fn the_object_of_a_broken_scan_has_its_block_and_its_place() {
        let refused = Refused { number: 10, left: 0, block: 1207, place: 31_337, needed: None };
        let line = object("a.jpg", 31_352, Err(&refused));
        let object: Value = serde_json::from_str(&line).unwrap();
        let wanted = json!({
            "file": "a.jpg", "bytes": 31_352, "number": 10, "block": 1207, "place": 31_337,
            "meaning": "a 255 is followed by neither 0 nor the end",
        });
        assert_eq!(object, wanted);
    }

    #[test]
    fn the_lines_are_labelled() {
        let (bytes, record) = tray();
        let lines = lines("tray.jpg", bytes.len(), &record, 2);
        assert!(
            lines.contains("size:             144 x 144\n")
                && lines.contains("notes:            2\n"),
            "{lines}"
        );
        assert!(lines.lines().all(|line| line.contains(": ")) && lines.lines().count() == 9);
    }

    #[test]
    fn the_sampling_of_each_channel_is_told() {
        let of = |channels, across, down| Record { channels, across, down, ..Record::default() };
        let told = |record: &Record| sampling(record).split_once(": ").unwrap().1.to_string();
        let shared = told(&of(3, [2, 1, 1, 0], [2, 2, 2, 0]));
        assert!(shared.contains("pixels share its samples"), "{shared}");
        for record in [
            of(2, [1, 2, 0, 0], [1, 1, 0, 0]),
            of(3, [2, 1, 1, 0], [1, 1, 1, 0]),
            of(3, [1, 1, 1, 0], [2, 1, 1, 0]),
            of(4, [2, 1, 1, 2], [2, 1, 1, 2]),
        ] {
            assert_eq!(told(&record), shared);
        }
        let own = "every pixel has its own sample of each channel";
        assert_eq!(sampling(&of(3, [1, 1, 1, 0], [1, 1, 1, 0])), format!("1x1,1x1,1x1: {own}"));
        assert_eq!(told(&of(2, [2, 2, 0, 0], [2, 2, 0, 0])), own);
        assert_eq!(told(&of(4, [1; 4], [2; 4])), own);
        let grey = sampling(&of(1, [1, 0, 0, 0], [1, 0, 0, 0]));
        assert_eq!(grey, "1x1: every pixel has its sample");
        for (channels, wanted) in [(1, "grey, one"), (2, "two"), (3, "colour, three"), (4, "four")]
        {
            let lines = lines("a.jpg", 9, &of(channels, [1; 4], [1; 4]), 0);
            assert!(lines.contains(&format!("channels:         {wanted} channel")), "{lines}");
        }
    }
}
