//! Files as cameras and tools write them: read as djpeg reads them, at the exact price, and
//! refused by the right number with nothing written.

mod files;

use files::*;
use tillsparrow::*;

const BEST: Colour = Colour::RedGreenBlue;

fn record_of(file: &[u8]) -> Record {
    inspect(file, BEST, Limits::NONE, u64::MAX).unwrap().record
}

/// How many samples there are and how many differ from djpeg's, none of them by much.
fn against_djpeg(name: &str, file: &[u8]) -> (usize, usize) {
    let ours = read(file).unwrap_or_else(|refused| panic!("{name}: {refused}"));
    let (kind, sides, theirs) = by_djpeg(file);
    let (channels, most) = if kind == "P5" { (1, 1) } else { (3, 3) };
    assert_eq!(ours.channels, channels, "{name}");
    assert_eq!(format!("{} {}", ours.width, ours.height), sides, "{name}");
    assert_eq!(ours.samples.len(), theirs.len(), "{name}");
    let gaps = || ours.samples.iter().zip(&theirs).map(|(&a, &b)| a.abs_diff(b));
    assert!(gaps().all(|gap| gap <= most), "{name}: a sample is off by {}", gaps().max().unwrap());
    (theirs.len(), gaps().filter(|&gap| gap > 0).count())
}

#[test]
fn samples_are_those_of_djpeg() {
    let (mut samples, mut different) = (0, 0);
    let files = accepted();
    for (name, file) in &files {
        let (all, off) = against_djpeg(name, file);
        samples += all;
        different += off;
    }
    assert!(5 * different < samples, "{different} of {samples} samples differ");
    println!(
        "held: {} files, {samples} samples, {:.2} % of them off djpeg's by at most 3",
        files.len(),
        100.0 * different as f64 / samples as f64
    );
}

#[test]
fn forms_are_what_they_were_made_to_be() {
    let seen = |options: &[&str]| {
        let record = record_of(&encoded(options, tray, 120, 90));
        (record.channels, record.sampling(), record.interval > 0)
    };
    assert_eq!(seen(&["-grayscale"]), (1, "1x1".to_string(), false));
    // The frame says 2 x 2, and a single channel counts as 1 x 1.
    assert_eq!(seen(&["-grayscale", "-sample", "2x2"]), (1, "1x1".to_string(), false));
    assert_eq!(seen(&["-sample", "1x1"]), (3, "1x1,1x1,1x1".to_string(), false));
    assert_eq!(seen(&["-sample", "2x1"]), (3, "2x1,1x1,1x1".to_string(), false));
    assert_eq!(seen(&["-sample", "2x2", "-restart", "3B"]), (3, "2x2,1x1,1x1".to_string(), true));
    for sampling in ["1x2,1x1,1x1", "2x2,1x2,1x2", "2x2,2x1,2x1", "1x1,2x1,2x1", "3x2,1x1,1x2"] {
        assert_eq!(seen(&["-sample", sampling]), (3, sampling.to_string(), false));
    }
}

/// Each call takes exactly its price; with one less it is refused 2 and takes what the rules say.
#[test]
fn prices_are_exact() {
    for (name, file) in accepted() {
        let record = record_of(&file);
        let head = 2 * file.len() as u64 + 1;
        let price = head + record.work;
        let (mut output, mut scratch) =
            (vec![0; record.output as usize], vec![0; record.scratch as usize]);
        let mut room = vec![0; 2 * file.len()];
        let mut left = |budget| {
            let short = |refused: Refused| (refused.number, refused.left);
            [
                inspect(&file, BEST, Limits::NONE, budget).map(|seen| seen.left),
                settle(&file, Limits::NONE, budget, &mut room).map(|made| made.left),
                has_comment(&file, 0, Limits::NONE, budget).map(|found| found.1),
                decode(&file, &record, &mut output, &mut scratch, budget),
            ]
            .map(|answer| answer.map_err(short))
        };
        assert_eq!(left(price), [Ok(0); 4], "{name}");
        assert_eq!(left(price + 7), [Ok(7); 4], "{name}");
        let after_head = Err((2, record.work - 1));
        let untouched = Err((2, price - 1));
        assert_eq!(left(price - 1), [after_head, after_head, after_head, untouched], "{name}");
        assert_eq!(left(head - 1), [Err((2, head - 1)); 4], "{name}");
    }
}

/// Fill bytes in the scan cost 2 each and change nothing else; settling leaves them out.
#[test]
fn fill_changes_the_price_alone() {
    for (name, file) in accepted() {
        let record = record_of(&file);
        let filled = with_fill(&file, record.start as usize);
        assert!(filled.len() >= file.len() + 3, "{name}");
        let price = 2 * filled.len() as u64 + 1 + record.work;
        let seen = inspect(&filled, BEST, Limits::NONE, price);
        assert_eq!(seen, Ok(Inspected { record, left: 0 }), "{name}");
        assert_eq!(read(&filled), read(&file), "{name}");
        assert_eq!(settled(&filled), settled(&file), "{name}");
    }
}

/// Every way in refuses the file by this number, and names the same block and place: of the scan
/// where that is what broke, and else 0 and 0.
fn all_refuse(name: &str, file: &[u8], number: u64, scan_broke: bool) {
    let mut room = vec![7; 2 * file.len()];
    let refused = [
        inspect(file, BEST, Limits::NONE, u64::MAX).map(|_| ()),
        inspect(file, Colour::AsCoded, Limits::NONE, u64::MAX).map(|_| ()),
        settle(file, Limits::NONE, u64::MAX, &mut room).map(|_| ()),
        has_comment(file, 0, Limits::NONE, u64::MAX).map(|_| ()),
        read(file).map(|_| ()),
        settled(file).map(|_| ()),
        comments(file).map(|_| ()),
    ]
    .map(|answer| answer.expect_err(name));
    assert_eq!(refused, [refused[0]; 7], "{name}");
    assert_eq!((refused[0].number, refused[0].scan_broke()), (number, scan_broke), "{name}");
    assert!(scan_broke || refused[0].block == 0, "{name}");
    assert!(room.iter().all(|&byte| byte == 7), "{name}: settle wrote");
    assert!(comment(file, 0).is_empty(), "{name}");
}

#[test]
fn other_files_are_refused_by_number() {
    let plain = encoded(&["-sample", "2x2"], tray, 64, 64);
    let noted = run(&["wrjpgcom", "-comment", "row B"], &plain);
    let longer = [&plain[..], &[0]].concat();
    all_refuse("progressive", &encoded(&["-progressive"], tray, 64, 64), 5, false);
    all_refuse("arithmetic", &encoded(&["-arithmetic"], tray, 64, 64), 5, false);
    all_refuse("cut in the scan", &noted[..noted.len() - 40], 3, true);
    all_refuse("a byte behind the end", &longer, 4, true);
    all_refuse("cut in the head", &noted[..100], 3, false);
    all_refuse("empty", &[], 4, false);
    all_refuse("no JPEG", b"GIF89a and so on", 4, false);
}

/// Cut in its header, the file names nothing. Cut in its scan, it names the block in which the
/// bytes ran out, which is the first one and then never an earlier one as the file grows; cut in
/// the end, it names the block count.
#[test]
fn a_cut_file_names_the_block_in_which_it_ends() {
    let file = docs_tray();
    let record = record_of(&file);
    let (start, mut next) = (record.start as usize, 0);
    for length in 0..file.len() {
        let refused = inspect(&file[..length], BEST, Limits::NONE, u64::MAX).unwrap_err();
        let Refused { number, block, place, .. } = refused;
        if length < start {
            assert!(number == 3 || number == 4, "cut to {length}: {number}");
            assert_eq!((block, place), (0, 0), "cut to {length}");
            continue;
        }
        assert!(length > start || (block, place) == (0, record.start), "{refused:?}");
        assert_eq!(number, if length < file.len() - 2 { 3 } else { 4 }, "cut to {length}");
        assert!(block >= next && block <= record.blocks, "cut to {length}: block {block}");
        assert!(start <= place as usize && place as usize <= length, "cut to {length}: {place}");
        next = block;
    }
    assert_eq!(next, record.blocks);
}

#[test]
fn limits_are_kept() {
    let file = docs_tray();
    let record = record_of(&file);
    let most = record.output.max(record.scratch) as usize;
    let fits = Limits { input: file.len(), side: 144, output: most };
    let short = [
        (Limits { input: file.len() - 1, ..fits }, 1, u64::MAX),
        (Limits { side: 143, ..fits }, 6, u64::MAX - 2 * file.len() as u64 - 1),
        (Limits { output: most - 1, ..fits }, 6, u64::MAX - 2 * file.len() as u64 - 1),
    ];
    let mut room = vec![0; 2 * file.len()];
    inspect(&file, BEST, fits, u64::MAX).unwrap();
    settle(&file, fits, u64::MAX, &mut room).unwrap();
    has_comment(&file, 0, fits, u64::MAX).unwrap();
    read_within(&file, fits).unwrap();
    for (limits, number, left) in short {
        let refused = Refused { number, left, block: 0, place: 0, needed: None };
        assert_eq!(inspect(&file, BEST, limits, u64::MAX), Err(refused));
        assert_eq!(settle(&file, limits, u64::MAX, &mut room), Err(refused));
        assert_eq!(has_comment(&file, 0, limits, u64::MAX), Err(refused));
        assert_eq!(read_within(&file, limits), Err(refused));
    }
}

#[test]
fn a_refused_decode_writes_nothing_and_a_tail_stays() {
    let file = docs_tray();
    let record = record_of(&file);
    let (output, scratch) = (record.output as usize, record.scratch as usize);
    let tried = |record: &Record, rooms: (usize, usize), budget| {
        let (mut output, mut scratch) = (vec![5; rooms.0], vec![6; rooms.1]);
        let refused = decode(&file, record, &mut output, &mut scratch, budget).unwrap_err();
        assert!(output.iter().all(|&byte| byte == 5) && scratch.iter().all(|&byte| byte == 6));
        (refused.number, refused.left)
    };
    assert_eq!(tried(&record, (output - 1, scratch), u64::MAX), (7, u64::MAX));
    assert_eq!(tried(&record, (output, scratch - 1), u64::MAX), (7, u64::MAX));
    assert_eq!(tried(&record, (output, scratch), 100), (2, 100));
    let left = u64::MAX - 2 * file.len() as u64 - 1 - record.work;
    assert_eq!(tried(&Record { width: 143, ..record }, (output, scratch), u64::MAX), (8, left));

    let (mut picture, mut samples) = (vec![5; output + 9], vec![6; scratch + 9]);
    assert_eq!(decode(&file, &record, &mut picture, &mut samples, u64::MAX), Ok(left));
    assert_eq!((&picture[output..], &samples[scratch..]), (&[5; 9][..], &[6; 9][..]));
    assert_eq!(picture[..output], read(&file).unwrap().samples);
}

/// The record with one of its 46 numbers one higher.
fn changed(record: &Record, at: usize) -> Record {
    // SAFETY: a record is 46 numbers of 64 bits and nothing else, whatever they are.
    let mut numbers: [u64; 46] = unsafe { std::mem::transmute(*record) };
    numbers[at] += 1;
    // SAFETY: as above.
    unsafe { std::mem::transmute(numbers) }
}

#[test]
fn a_changed_record_is_not_the_files() {
    let file = docs_tray();
    let record = inspect(&file, Colour::AsCoded, Limits::NONE, u64::MAX).unwrap().record;
    let (mut output, mut scratch) =
        (vec![0; record.output as usize + 1], vec![0; record.scratch as usize + 1]);
    let mut tried = |record: &Record| {
        decode(&file, record, &mut output, &mut scratch, u64::MAX).map_err(|refused| refused.number)
    };
    for at in 0..45 {
        assert_eq!(tried(&changed(&record, at)), Err(8), "number {at}");
    }
    assert_eq!(tried(&Record::default()), Err(8));
    // The last number is the choice of colour: both choices are the file's, and no other number is.
    assert!(tried(&changed(&record, 45)).is_ok());
    assert!(tried(&record).is_ok());
    for colour in [2, 256, 1 << 32, u64::MAX] {
        assert_eq!(tried(&Record { colour, ..record }), Err(8), "colour {colour}");
    }
}

#[test]
fn both_choices_of_colour_are_kept() {
    let file = docs_tray();
    let drawn = |colour| {
        let record = inspect(&file, colour, Limits::NONE, u64::MAX).unwrap().record;
        let (mut output, mut scratch) =
            (vec![0; record.output as usize], vec![0; record.scratch as usize]);
        decode(&file, &record, &mut output, &mut scratch, u64::MAX).unwrap();
        (record.colour, output, scratch)
    };
    let (coded, coloured) = (drawn(Colour::AsCoded), drawn(Colour::RedGreenBlue));
    assert_eq!((coded.0, coloured.0), (0, 1));
    assert_ne!(coded.1, coloured.1);
    assert_eq!(coded.2, coloured.2);
    let luma = run(&["djpeg", "-dct", "int", "-nosmooth", "-grayscale", "-pnm"], &file);
    let luma = &luma[luma.len() - 144 * 144..];
    assert!(coded.1.iter().step_by(3).zip(luma).all(|(&a, &b)| a.abs_diff(b) <= 1));
}

#[test]
fn settling_twice_is_settling_once() {
    for (name, file) in accepted() {
        let once = settled(&file).unwrap();
        assert_eq!(settled(&once).unwrap(), once, "{name}");
        assert_eq!(read(&once).unwrap(), read(&file).unwrap(), "{name}");
        assert_eq!(by_djpeg(&once), by_djpeg(&file), "{name}");

        let mut room = vec![9; once.len() + 5];
        let made = settle(&file, Limits::NONE, u64::MAX, &mut room).unwrap();
        assert_eq!(made.length, once.len(), "{name}");
        assert_eq!((&room[..once.len()], &room[once.len()..]), (&once[..], &[9; 5][..]), "{name}");

        let short = &mut room[..once.len() - 1];
        short.fill(3);
        let refused = settle(&file, Limits::NONE, u64::MAX, short).unwrap_err();
        assert_eq!((refused.number, refused.needed), (7, Some(once.len() as u64)), "{name}");
        assert_eq!(refused.left, made.left, "{name}");
        assert!(short.iter().all(|&byte| byte == 3), "{name}");
    }
}

#[test]
fn comments_are_parts_of_the_file() {
    let plain = encoded(&["-sample", "2x2"], tray, 64, 64);
    let one = run(&["wrjpgcom", "-comment", "tray 7, row B"], &plain);
    let two = run(&["wrjpgcom", "-comment", "counted twice"], &one);
    let empty = with_comment(&two, b"");
    assert_eq!(comments(&plain).unwrap(), Vec::<&[u8]>::new());
    assert_eq!(comments(&one).unwrap(), [b"tray 7, row B"]);
    assert_eq!(comments(&two).unwrap(), [b"tray 7, row B", b"counted twice"]);
    assert_eq!(comments(&empty).unwrap(), [&b""[..], b"tray 7, row B", b"counted twice"]);
    let there = |i| has_comment(&empty, i, Limits::NONE, u64::MAX).unwrap().0;
    assert_eq!([0, 1, 2, 3, usize::MAX].map(there), [true, true, true, false, false]);
    assert_eq!(comment(&empty, 3), b"");
    assert_eq!(comment(&empty, usize::MAX), b"");
    for (i, text) in comments(&empty).unwrap().into_iter().enumerate() {
        let own = empty.as_ptr_range();
        let part = text.as_ptr_range();
        assert!(own.start < part.start && part.end < own.end, "comment {i}");
    }
    assert_eq!(comment(&empty, 0).as_ptr(), empty[6..].as_ptr());
}

/// Files with a few bytes changed: every call answers, and the calls agree.
#[test]
fn damaged_files_are_answered() {
    let file = docs_tray();
    let mut state = 1_u64;
    let mut next = |below: usize| {
        state =
            state.wrapping_mul(6_364_136_223_846_793_005).wrapping_add(1_442_695_040_888_963_407);
        (state >> 33) as usize % below
    };
    let mut seen = [0; 12];
    for _ in 0..400 {
        let mut damaged = file.clone();
        for _ in 0..1 + next(3) {
            // One change in two falls into the head.
            let reach = if next(2) == 0 { 620 } else { file.len() };
            damaged[next(reach)] = next(256) as u8;
        }
        let limits = Limits { output: 1 << 24, ..Limits::NONE };
        let found = inspect(&damaged, BEST, limits, u64::MAX).map(|_| ());
        assert_eq!(read_within(&damaged, limits).map(|_| ()), found);
        assert_eq!(has_comment(&damaged, 0, limits, u64::MAX).map(|_| ()), found);
        let mut room = vec![0; 2 * damaged.len()];
        match settle(&damaged, limits, u64::MAX, &mut room) {
            // Such a file is accepted, and its table has no code to end a block.
            Err(Refused { number: Refused::NO_END_CODE, .. }) => assert_eq!(found, Ok(())),
            made => assert_eq!(made.map(|_| ()), found),
        }
        seen[found.map_or_else(|refused| refused.number, |_| 0) as usize] += 1;
    }
    assert!([0, 3, 4, 5, 11].iter().all(|&number| seen[number] > 0), "{seen:?}");
    println!("held: 400 damaged files answered, {} of them accepted", seen[0]);
}

#[test]
fn threads_read_one_file() {
    let file = docs_tray();
    let picture = read(&file).unwrap();
    std::thread::scope(|scope| {
        let readers: Vec<_> = (0..4).map(|_| scope.spawn(|| read(&file).unwrap())).collect();
        assert!(readers.into_iter().all(|reader| reader.join().unwrap() == picture));
    });
}

#[test]
fn a_pixel_is_where_it_was_painted() {
    let flat =
        |x: usize, y: usize| if x / 8 == 2 && y / 8 == 1 { [250, 0, 0] } else { [0, 0, 250] };
    let picture = read(&encoded(&["-sample", "1x1", "-quality", "100"], flat, 40, 24)).unwrap();
    for (x, y) in [(0, 0), (16, 8), (23, 15), (24, 15), (16, 16), (39, 23)] {
        let pixel = picture.pixel(x, y).unwrap();
        assert!(
            pixel.iter().zip(flat(x, y)).all(|(&a, b)| a.abs_diff(b) <= 4),
            "{x} {y}: {pixel:?}"
        );
    }
    assert_eq!((picture.pixel(40, 0), picture.pixel(0, 24)), (None, None));
    let grey = read(&encoded(&["-grayscale"], flat, 40, 24)).unwrap();
    assert_eq!(grey.pixel(39, 23).unwrap(), &grey.samples[40 * 24 - 1..]);
}
