//! Fill bytes in the scan: where they may stand and where not.

use super::*;

/// So many bytes of fill before the restart and before the end.
fn filled(restart: usize, end: usize) -> Vec<u8> {
    let (before_restart, before_end) = (vec![255; restart], vec![255; end]);
    two(&[&[63][..], &before_restart, &[255, 208, 63], &before_end, &[255, 217]].concat())
}

/// Accepted at the price of its own length, and otherwise the same as `plain`, to which it adds
/// fill.
fn same_but_longer(file: &[u8], plain: &[u8]) {
    let record = inspect(plain, 1, &Limits::NONE, UNLIMITED).1;
    let price = 2 * file.len() as u64 + 1 + record.work;
    let (answer, own) = inspect(file, 1, &Limits::NONE, price + 9);
    assert_eq!((answer.number, answer.left, &own), (0, 9, &record));
    assert_eq!(inspect(file, 1, &Limits::NONE, price - 1).0.number, 2);
    let picture = |file: &[u8]| {
        let (mut output, mut scratch) = ([5; 300], [6; 300]);
        let answer = decode(file, &record, &mut output, &mut scratch, UNLIMITED);
        assert_eq!(answer.number, 0);
        (output, scratch)
    };
    assert!(picture(file) == picture(plain));
    let once = settled(file);
    assert_eq!(once, settled(plain));
    assert_eq!(settled(&once), once);
    assert_ne!(once, file);
}

/// Refused by the scan with this number, block and place. The place counts from the first
/// coded byte.
fn scan_refuses(file: &[u8], plain: &[u8], why: (u8, u64, u64)) {
    let (number, block, place) = why;
    let record = inspect(plain, 1, &Limits::NONE, UNLIMITED).1;
    refuses(file, &record, (number, block, record.first_coded + place));
}

#[test]
fn fill_before_markers() {
    let plain = filled(0, 0);
    assert_eq!(settled(&plain), plain);
    for (restart, end) in [(1, 0), (3, 0), (0, 1), (0, 3), (1, 3), (2, 2), (254, 256)] {
        same_but_longer(&filled(restart, end), &plain);
    }
    for count in 1..=5 {
        let scan = [&[63][..], &vec![255; count], &[255, 217]].concat();
        same_but_longer(&one(&scan), &f());
    }
}

#[test]
fn long_fill() {
    let plain = filled(0, 0);
    same_but_longer(&filled(100_000, 0), &plain);
    same_but_longer(&filled(0, 100_000), &plain);
    same_but_longer(&filled(65_535, 65_536), &plain);
    let program = |file: &[u8]| picture::written(file, &picture::PROGRAM);
    // Beside the fill stand 150 bytes.
    assert_eq!(plain.len(), 150);
    assert_eq!(program(&filled(65_000, 386)), program(&plain));
    assert_eq!(program(&filled(65_000, 387)), b"refused 1\n");
}

#[test]
fn fill_where_a_bit_is_wanted() {
    let plain = filled(0, 0);
    // A value of eleven bits: one block of two bytes.
    let long = |scan: &[u8]| file(&[(1, 11)], ZERO, scan);
    assert_eq!(number(&long(&[0, 7])), 0);
    for count in 1..=4 {
        let fill = vec![255; count];
        let at_front = [&fill[..], &[63, 255, 208, 63, 255, 217]].concat();
        let behind_restart = [&[63, 255, 208][..], &fill, &[63, 255, 217]].concat();
        scan_refuses(&two(&at_front), &plain, (10, 0, 0));
        scan_refuses(&two(&behind_restart), &plain, (10, 1, 1));
        scan_refuses(&long(&[&[0][..], &fill, &[7]].concat()), &long(&[0, 7]), (10, 0, 0));
        // The block is not done where fill and marker come.
        scan_refuses(&long(&[&[0][..], &fill].concat()), &long(&[0, 7]), (10, 0, 0));
        scan_refuses(&one(&[&fill[..], &[255, 217]].concat()), &f(), (10, 0, 0));
    }
}

#[test]
fn fill_without_its_marker() {
    let plain = filled(0, 0);
    let rest = [63, 255, 217];
    let (at_restart, at_end) = ((4, 1, 1), (4, 2, 4));
    for count in 1..=4 {
        let fill = vec![255; count];
        let restart = |tail: &[u8]| two(&[&[63][..], &fill, tail].concat());
        let end = |tail: &[u8]| two(&[&[63, 255, 208, 63][..], &fill, tail].concat());
        // The file ends in fill, or goes on as if fill were the restart.
        scan_refuses(&restart(&[]), &plain, at_restart);
        scan_refuses(&restart(&rest), &plain, at_restart);
        scan_refuses(&end(&[]), &plain, at_end);
        // A byte of data, a 0 or another marker follows, then nothing or what should.
        for tail in [&[63][..], &[0], &[1], &[209], &[215], &[216], &[254]] {
            scan_refuses(&restart(tail), &plain, at_restart);
            scan_refuses(&restart(&[tail, &rest].concat()), &plain, at_restart);
            scan_refuses(&restart(&[tail, &[255, 208], &rest].concat()), &plain, at_restart);
            scan_refuses(&end(tail), &plain, at_end);
            scan_refuses(&end(&[tail, &[255, 217]].concat()), &plain, at_end);
        }
        // The end where a restart is due, a restart where the end is.
        scan_refuses(&restart(&[217]), &plain, at_restart);
        scan_refuses(&restart(&[&[217][..], &rest].concat()), &plain, at_restart);
        scan_refuses(&end(&[208]), &plain, at_end);
        scan_refuses(&end(&[209, 255, 217]), &plain, at_end);
    }
}

#[test]
fn nothing_stands_behind_the_end() {
    for before in [&[][..], &[255], &[255, 255, 255]] {
        for after in [&[0][..], &[7], &[217], &[255], &[255, 255], &[255, 217], &[255, 255, 217]] {
            let scan = [&[63][..], before, &[255, 217], after].concat();
            scan_refuses(&one(&scan), &f(), (4, 1, 1));
        }
    }
}

#[test]
fn fill_behind_padding() {
    // The end code 01 starts in the last bit of the first byte, so the padded byte is a 255.
    let full = |scan: &[u8]| file(&[(1, 6)], &[(2, 1), (2, 0)], scan);
    let plain = full(&[64, 255, 0]);
    // The end code 0 is the last bit of the only byte: no padding at all.
    let none = |scan: &[u8]| file(&[(1, 6)], ZERO, scan);
    for count in 1..=4 {
        let fill = vec![255; count];
        same_but_longer(&full(&[&[64, 255, 0][..], &fill].concat()), &plain);
        same_but_longer(&none(&[&[64][..], &fill].concat()), &none(&[64]));
        // Without its 0 the padded byte is a bare 255, however many follow.
        scan_refuses(&full(&[&[64][..], &fill].concat()), &plain, (10, 0, 0));
        scan_refuses(&full(&[&[64, 255][..], &fill].concat()), &plain, (10, 0, 0));
        // A whole byte of padding, before the fill or behind it.
        scan_refuses(&none(&[&[64, 255, 0][..], &fill].concat()), &none(&[64]), (4, 1, 1));
        scan_refuses(&none(&[&[64][..], &fill, &[255, 0]].concat()), &none(&[64]), (4, 1, 1));
        scan_refuses(&full(&[&[64, 255, 0, 255, 0][..], &fill].concat()), &plain, (4, 1, 3));
    }
}

#[test]
fn padding_is_complete_before_fill() {
    // F's block has two bits; six of padding follow.
    for padded in 0..63 {
        scan_refuses(&one(&[padded, 255, 255, 217]), &f(), (4, 1, 1));
        let restarted = two(&[padded, 255, 255, 208, 63, 255, 217]);
        scan_refuses(&restarted, &filled(0, 0), (4, 1, 1));
    }
    same_but_longer(&one(&[63, 255, 255, 217]), &f());
}
