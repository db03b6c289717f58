//! Case reading: the refusals and their indices.

use reference::generate::cases::padding::padded_files;
use reference::generate::cases::{case_file, ones_file, without_weights, CAPPED, WEIGHED};
use reference::harness::case_file::{answer_read, looks, read_case, write_case, MOST_BYTES};
use reference::harness::case_text::parse_text;
use reference::harness::listing::answer_list;
use reference::harness::refusal::Refusal;
use reference::harness::tables::Case;

/// The first answered case of the generator.
fn good() -> (Case, Vec<u8>) {
    let file = case_file(0).bytes;
    (read_case(&file).expect("the first case is good"), file)
}

fn refused(file: &[u8]) -> (u32, usize) {
    let Refusal { number, index } = read_case(file).expect_err("the file is refused");
    (number, index)
}

/// Some of each range.
fn seeds() -> impl Iterator<Item = u64> {
    let from = [0, CAPPED, WEIGHED];
    from.into_iter().flat_map(|first| first..first + 300)
}

#[test]
fn a_case_and_its_file() {
    for seed in seeds() {
        let file = case_file(seed).bytes;
        if let Ok(case) = read_case(&file) {
            let written = write_case(&case);
            assert_eq!(file[..written.len()], written[..]);
            assert!(file[written.len()..].iter().all(|&byte| byte == 0));
        }
    }
}

#[test]
fn lengths() {
    let (case, mut file) = good();
    assert_eq!(refused(&[]), (14, 0));
    assert_eq!(refused(&file[..14]), (14, 0));
    let records = 1
        + case.ladder.len()
        + case.buses.len()
        + case.generators.len()
        + case.corridors.len()
        + case.sheet.len();
    assert_eq!(refused(&file[..file.len() - 1]), (14, records - 1));
    let end = file.len();
    file.resize(MOST_BYTES, 0);
    assert_eq!(read_case(&file), Ok(case));
    file[end + 3] = 1;
    file[end + 5] = 1;
    assert_eq!(refused(&file), (17, end + 3));
    file.push(0);
    assert_eq!(refused(&file), (13, 0));
}

#[test]
fn within_a_record_the_end_comes_first_then_the_mark() {
    let (_, mut file) = good();
    file[0] = b'X';
    file[2] = 6;
    assert_eq!(refused(&file[..14]), (14, 0));
    assert_eq!(refused(&file), (15, 0));
    file[0] = b'H';
    assert_eq!(refused(&file), (16, 0));
    file[2] = 0;
    file[14] = 0;
    assert_eq!(refused(&file), (2, 0));
}

/// A case of two corridors and no line rows behind the cut: the first as `mark`
/// says, so many bytes of it.
fn cut_corridor(mark: &[u8; 2], bytes: usize) -> Vec<u8> {
    let text = "HD 2 0 2 2 0 0 1  LV 138  BU 0 0  BU 0 0  CP 0 1 1 10 1 3  CO 0 1 1 10 1
        LN 0 1 0 1 0  LN 0 1 0 1 0";
    let mut file = write_case(&parse_text(text).expect("a case"));
    let place = 15 + 10 + 2 * 11;
    assert_eq!(&file[place..place + 2], b"CP");
    file[place..place + 2].copy_from_slice(mark);
    file.truncate(place + bytes);
    file
}

#[test]
fn a_corridor_is_as_long_as_its_mark_says() {
    for (mark, bytes, refusal) in [
        (b"CP", 23, (14, 4)),
        (b"CP", 24, (14, 5)),
        (b"CO", 22, (14, 4)),
        (b"CO", 23, (14, 5)),
        (b"BU", 22, (14, 4)),
        (b"BU", 23, (15, 4)),
        (b"Cp", 23, (15, 4)),
        // The cap byte is taken for the next mark.
        (b"CO", 46, (15, 5)),
    ] {
        let file = cut_corridor(mark, bytes);
        assert_eq!(refused(&file), refusal, "{mark:?}, {bytes} bytes");
    }
}

#[test]
fn a_cap_is_read_as_it_stands() {
    for cap in [0, 1, 6, 7, 255] {
        let mut file = cut_corridor(b"CP", usize::MAX / 2);
        file[15 + 10 + 2 * 11 + 23] = cap;
        let caps: Vec<(u8, bool)> = read_case(&file)
            .expect("the file is good")
            .corridors
            .iter()
            .map(|c| (c.cap, c.marked))
            .collect();
        assert_eq!(caps, [(cap, true), (0, false)]);
        let text = answer_read(&file);
        assert!(text.contains(&format!("3FF0000000000000 {cap}\nCO 0 1 1 ")));
        assert_eq!(answer_list(&file).starts_with("RF 6 0"), cap > 6);
    }
}

/// A case of three buses with the marks `marks`, so many bytes of it from the
/// second bus on.
fn cut_bus(marks: [&[u8; 2]; 3], bytes: usize) -> Vec<u8> {
    let mut file = b"HD\x02\0\0\0\0\x03\0\0\0\0\0\0\x01LV".to_vec();
    file.extend(138f64.to_le_bytes());
    let mut second = 0;
    for (place, mark) in marks.into_iter().enumerate() {
        if place == 1 {
            second = file.len();
        }
        file.extend(mark);
        file.push(0);
        file.extend(50f64.to_le_bytes());
        if mark == b"BV" {
            file.extend(2f64.to_le_bytes());
        }
    }
    file.truncate(second + bytes);
    file
}

#[test]
fn a_bus_is_as_long_as_its_mark_says() {
    for (marks, bytes, refusal) in [
        // The second bus is record 3.
        ([b"BV", b"BV", b"BV"], 10, (14, 3)),
        ([b"BV", b"BV", b"BV"], 18, (14, 3)),
        ([b"BV", b"BV", b"BV"], 19, (14, 4)),
        ([b"BU", b"BV", b"BU"], 18, (14, 3)),
        ([b"BU", b"BV", b"BU"], 19, (15, 3)),
        ([b"BV", b"BU", b"BV"], 10, (14, 3)),
        ([b"BV", b"BU", b"BV"], 11, (15, 3)),
        ([b"BV", b"BW", b"BV"], 10, (14, 3)),
        ([b"BV", b"BW", b"BV"], 11, (15, 3)),
        ([b"BV", b"CP", b"BV"], 11, (15, 3)),
        ([b"BU", b"BU", b"BV"], 11 + 18, (14, 4)),
        ([b"BU", b"BU", b"BV"], 11 + 19, (15, 4)),
        ([b"BV", b"BV", b"BU"], 19 + 10, (14, 4)),
        ([b"BV", b"BV", b"BU"], 19 + 11, (15, 4)),
    ] {
        let file = cut_bus(marks, bytes);
        assert_eq!(refused(&file), refusal, "{marks:?}, {bytes} bytes");
    }
}

#[test]
fn reading_and_weight_are_printed_as_they_stand() {
    let text = answer_read(&cut_bus([b"BV"; 3], 100));
    assert!(text.contains("\nBU 0 4049000000000000 4000000000000000\n"));
    let text = answer_read(&cut_bus([b"BU"; 3], 100));
    assert!(text.contains("\nBU 0 4049000000000000 3FF0000000000000\n"));
}

#[test]
fn with_weight_one_a_file_is_listed_as_with_none() {
    let mut weighed = 0;
    for seed in seeds().filter(|&seed| seed < WEIGHED) {
        let (plain, ones) = (case_file(seed).bytes, ones_file(seed).bytes);
        assert_eq!(answer_list(&plain), answer_list(&ones), "seed {seed}");
        if let Ok(case) = read_case(&plain) {
            assert_eq!(without_weights(&ones), write_case(&case), "seed {seed}");
            weighed += usize::from(!case.buses.is_empty() && plain != ones);
        }
    }
    assert!(weighed > 400);
}

#[test]
fn what_was_read_is_printed_record_by_record() {
    let (case, file) = good();
    let text = answer_read(&file);
    assert!(text.starts_with(&format!("HD {} {} ", case.mode, case.target)));
    let marks: Vec<&str> = text.lines().map(|line| &line[..2]).collect();
    assert_eq!(
        marks.iter().filter(|&&m| m == "BU").count(),
        case.buses.len()
    );
    assert_eq!(
        marks.iter().filter(|&&m| m == "LN").count(),
        case.sheet.len()
    );
    assert_eq!(text.lines().last(), Some("LK 0"));
    assert_eq!(answer_read(b"HD"), "RF 14 0\nLK 0\n");
    assert_eq!(answer_list(b"HD"), "RF 14 0\n");
}

/// The count as READINGS has it, by division: with `t` bytes behind the records
/// of which the first `z` are zero.
fn looks_by_division(t: usize, z: usize) -> usize {
    if z == t {
        t / 8 + t % 8
    } else if z / 8 < t / 8 {
        z / 8 + z % 8 + 2
    } else {
        t / 8 + z % 8 + 1
    }
}

#[test]
fn words_and_bytes_looked_at_behind_the_records() {
    let end = padded_files()[0].len();
    let mut most = 0;
    for file in padded_files() {
        let rest = &file[end..];
        let t = rest.len();
        let z = rest.iter().position(|&byte| byte != 0).unwrap_or(t);
        let n = looks(&file);
        assert_eq!(n, looks_by_division(t, z), "{t} bytes, {z} zeros");
        assert!(z <= 8 * n && 8 * n <= t + 64, "{t} bytes, {z} zeros");
        most = most.max(8 * n - t.min(8 * n));
        match read_case(&file) {
            Ok(_) => assert_eq!(z, t),
            Err(refusal) => assert_eq!((refusal.number, refusal.index), (17, end + z)),
        }
    }
    // The upper bound is met: a byte in the last place of the last whole word.
    assert_eq!(most, 64);
}

#[test]
fn nothing_is_looked_at_where_the_records_are_refused() {
    let (_, mut file) = good();
    file.resize(MOST_BYTES, 0);
    assert_ne!(looks(&file), 0);
    for (place, byte) in [(0, b'X'), (2, 6), (14, 0)] {
        let mut damaged = file.clone();
        damaged[place] = byte;
        assert_eq!(looks(&damaged), 0);
    }
    file.push(0);
    assert_eq!(looks(&file), 0);
    assert_eq!(looks(&file[..20]), 0);
}
