//! The examples of `docs/FORMATS.md`, and random sheets against a second reading of the table of faults.

use model::refusal::Refusal;
use model::sheet::{number, read, Entry, Fault};
use model::sheets::sheet;

const HEAD: &str = "BLS,1|cores,2|unit,10|frames,6|";

/// The bytes of a sheet in which `|` stands for the end of a line.
fn bytes(text: &str) -> Vec<u8> {
    text.replace('|', "\n").into_bytes()
}

fn told(text: &str) -> (u32, usize, usize) {
    read(&bytes(text)).expect_err("a fault").told()
}

#[test]
fn sheet_of_the_example() {
    let text = bytes(&format!("{HEAD}task,A,5,2|task,B7,1,3|"));
    assert_eq!(text.len(), 54);
    let sheet = read(&text).unwrap();
    assert_eq!((sheet.cores, sheet.unit, sheet.frames), (2, 10, 6));
    let first = Entry { name: 36, length: 1, rate: 5, period: 2 };
    let second = Entry { name: 47, length: 2, rate: 1, period: 3 };
    assert_eq!(sheet.tasks, [first, second]);
    assert_eq!(sheet.load().check(), Ok(()));
}

#[test]
fn forms() {
    for wrong in ["", "00", "01", "+1", "65536", "100000"] {
        assert_eq!(number(wrong.as_bytes()), None, "{wrong}");
    }
    assert_eq!(number(b"0"), Some(0));
    assert_eq!(number(b"65535"), Some(65_535));
    let named = |name: &str| read(&bytes(&format!("{HEAD}task,{name},1,1|"))).is_ok();
    assert!(named("A") && named("12") && named("ABCDEFGHIJKL"));
    assert!(!named("") && !named("a") && !named("A-1") && !named("ABCDEFGHIJKLM"));
}

#[test]
fn faults_of_the_table() {
    assert_eq!(told(""), (51, 0, 0));
    assert_eq!(told("BLS,1"), (51, 0, 0));
    assert_eq!(told(&"|".repeat(8_193)), (51, 0, 0));
    assert_eq!(told(&"|".repeat(8_192)), (52, 1, 0));
    assert_eq!(told("BLS,2|"), (52, 1, 0));
    assert_eq!(told("BLS,1|"), (53, 2, 6));
    assert_eq!(told("BLS,1|cores,2||frames,6|"), (53, 3, 14));
    assert_eq!(told("BLS,1|cores,2,2|"), (53, 2, 6));
    assert_eq!(told("BLS,1|cores,x|unit|"), (54, 2, 12));
    assert_eq!(told(HEAD), (56, 5, 31));
    let behind_head = |text: &str| told(&format!("{HEAD}{text}"));
    assert_eq!(behind_head("Task,a,x,0|"), (53, 5, 31));
    assert_eq!(behind_head("task,a,x,0|"), (54, 5, 36));
    assert_eq!(behind_head("task,A,5,0|"), (54, 5, 40));
    assert_eq!(behind_head("task,A,1,1|task,A,1,0|"), (54, 6, 51));
    assert_eq!(behind_head("task,A,1,1|task,A,1,1|x|"), (55, 6, 47));
    let full: String = (0..64).map(|task| format!("task,{task},1,1|")).collect();
    let length = HEAD.len() + full.len();
    for last in ["|", "x|", "task,0,1,1|"] {
        assert_eq!(behind_head(&format!("{full}{last}")), (56, 69, length));
    }
}

#[test]
fn refused_loads_have_lines() {
    let line = |refusal: Refusal| Fault::from(refusal).told();
    assert_eq!(line(Refusal::BadCores), (1, 2, 0));
    assert_eq!(line(Refusal::BadUnit), (2, 3, 0));
    assert_eq!(line(Refusal::BadFrames), (3, 4, 0));
    assert_eq!(line(Refusal::BadTaskCount), (4, 0, 0));
    assert_eq!(line(Refusal::BadRate(1)), (5, 6, 0));
    assert_eq!(line(Refusal::Overload), (6, 0, 0));
}

fn is_number(field: &str, least: u32) -> bool {
    field.parse::<u32>().is_ok_and(|value| (least..=65_535).contains(&value) && value.to_string() == field)
}

fn is_name(field: &str) -> bool {
    !field.is_empty() && field.len() <= 12 && field.chars().all(|c| matches!(c, 'A'..='Z' | '0'..='9'))
}

/// All rows that hold: line, place in the order of one line, number, place.
fn rows(bytes: &[u8]) -> Vec<(usize, usize, u32, usize)> {
    if bytes.is_empty() || bytes.len() > 8_192 || bytes.last() != Some(&b'\n') {
        return vec![(0, 0, 51, 0)];
    }
    // One character for each byte, so that places agree.
    let text: String = bytes[..bytes.len() - 1].iter().map(|&byte| char::from(byte)).collect();
    let lines: Vec<&str> = text.split('\n').collect();
    let mut starts = vec![0];
    for line in &lines {
        starts.push(starts[starts.len() - 1] + line.chars().count() + 1);
    }
    let start = |line: usize| starts[line];
    let mut rows = Vec::new();
    if lines[0] != "BLS,1" {
        rows.push((1, 0, 52, 0));
    }
    let missing = (lines.len() + 1).max(2)..=4;
    rows.extend(missing.map(|line| (line, 1, 53, bytes.len())));
    if lines.len() <= 4 {
        rows.push((5, 0, 56, bytes.len()));
    }
    if lines.len() >= 69 {
        rows.push((69, 0, 56, start(68)));
    }
    for (place, line) in lines.iter().enumerate().skip(1) {
        // From line 69 on nothing counts any more.
        let earlier = &lines[4.min(place)..place.min(68).max(4.min(place))];
        rows.extend(
            line_rows(place, line, earlier)
                .into_iter()
                .map(|(order, number, at)| (place + 1, order, number, start(place) + at)),
        );
    }
    rows
}

/// The rows 53, 54 and 55 that hold of one line.
fn line_rows(place: usize, line: &str, earlier: &[&str]) -> Vec<(usize, u32, usize)> {
    let fields: Vec<&str> = line.split(',').collect();
    let (word, count) = [("cores", 2), ("unit", 2), ("frames", 2)].get(place - 1).copied().unwrap_or(("task", 4));
    if fields[0] != word || fields.len() != count {
        return vec![(1, 53, 0)];
    }
    let at = |field: usize| fields[..field].iter().map(|text| text.chars().count() + 1).sum::<usize>();
    let right = |field: usize| match (count, field) {
        (4, 1) => is_name(fields[1]),
        (4, 3) => is_number(fields[3], 1),
        _ => is_number(fields[field], 0),
    };
    let mut rows: Vec<_> = (1..count).filter(|&field| !right(field)).map(|field| (1 + field, 54, at(field))).collect();
    if count == 4 && earlier.iter().any(|other| other.split(',').nth(1) == Some(fields[1])) {
        rows.push((9, 55, at(1)));
    }
    rows
}

#[test]
fn random_sheets() {
    let mut seen = [0; 57];
    for place in 0..20_000 {
        let bytes = sheet(5, place);
        let expected = rows(&bytes).into_iter().min().map(|(line, _, number, place)| (number, line, place));
        let found = read(&bytes).err().map(|fault| fault.told());
        assert_eq!(found, expected, "{}", bytes.escape_ascii());
        seen[found.map_or(0, |(number, _, _)| number as usize)] += 1;
    }
    assert!(seen[0] > 1_000 && seen[51..].iter().all(|&times| times > 100), "{:?}", &seen[51..]);
}
