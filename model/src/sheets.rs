//! Random sheets, sound and damaged.

use crate::random::Random;

const NAME_BYTES: &[u8] = b"ABCDEFGHIJKLMNOPQRSTUVWXYZ0123456789";
const ODD_FIELDS: [&[u8]; 22] = [
    b"",
    b"0",
    b"00",
    b"01",
    b"+1",
    b"65535",
    b"65536",
    b"99999",
    b"100000",
    b"7",
    b"a",
    b"A-1",
    b"ABCDEFGHIJKLM",
    b"ABCDEFGHIJKL",
    b" 1",
    b"1\r",
    b"\x00",
    b"\xff",
    b"task",
    b"Task",
    b"cores",
    b"unit",
];

/// The fields of the lines of a sheet.
type Fields = Vec<Vec<Vec<u8>>>;

/// A sound sheet, or one with up to three faults.
pub fn sheet(seed: u64, place: u64) -> Vec<u8> {
    let mut random = Random::new(seed, place);
    let mut fields = sound(&mut random);
    let damages = *random.pick(&[0, 1, 1, 1, 2, 3]);
    for _ in 0..damages {
        damage(&mut random, &mut fields);
    }
    let mut bytes = written(&fields);
    if random.once_in(12) {
        damage_bytes(&mut random, &mut bytes);
    }
    bytes
}

fn number(value: u32) -> Vec<u8> {
    value.to_string().into_bytes()
}

fn sound(random: &mut Random) -> Fields {
    let mut lines = vec![vec![b"BLS".to_vec(), b"1".to_vec()]];
    for word in ["cores", "unit", "frames"] {
        let most = *random.pick(&[20, 1_001, 65_535]);
        lines.push(vec![word.as_bytes().to_vec(), number(random.within(0, most))]);
    }
    let tasks = *random.pick(&[1, 2, 3, 5, 10, 63, 64]);
    for task in 0..tasks {
        let name = name(random, task);
        let (rate, period) = (random.within(0, 1_001), random.within(1, 65_535));
        lines.push(vec![b"task".to_vec(), name, number(rate), number(period)]);
    }
    lines
}

/// A name of 3 to 12 bytes that starts with the task's number, so that no two are the same.
fn name(random: &mut Random, task: u32) -> Vec<u8> {
    let mut name = format!("{task:02}").into_bytes();
    for _ in 0..random.within(0, 10) {
        name.push(*random.pick(NAME_BYTES));
    }
    name
}

fn some_place<T>(random: &mut Random, items: &[T]) -> usize {
    random.within(0, items.len() as u32 - 1) as usize
}

fn damage(random: &mut Random, lines: &mut Fields) {
    if lines.is_empty() {
        return;
    }
    let line = some_place(random, lines);
    let field = some_place(random, &lines[line]);
    match random.within(0, 8) {
        0 | 1 | 2 => lines[line][field] = random.pick(&ODD_FIELDS).to_vec(),
        3 => drop(lines.remove(line)),
        4 => lines.truncate(line),
        5 => lines[line].push(random.pick(&ODD_FIELDS).to_vec()),
        6 => lines.insert(line, vec![random.pick(&ODD_FIELDS).to_vec()]),
        7 => {
            // A task line once more, with its name.
            let again = lines[line].clone();
            lines.push(again);
        }
        _ => {
            while lines.len() < 70 {
                let task = lines.len() as u32;
                let name = name(random, task + 100);
                lines.push(vec![b"task".to_vec(), name, number(task), number(1)]);
            }
        }
    }
    for fields in lines.iter_mut().filter(|fields| fields.is_empty()) {
        fields.push(Vec::new());
    }
}

fn written(lines: &Fields) -> Vec<u8> {
    let mut bytes = Vec::new();
    for fields in lines {
        bytes.extend(fields.join(&b","[..]));
        bytes.push(b'\n');
    }
    bytes
}

fn damage_bytes(random: &mut Random, bytes: &mut Vec<u8>) {
    match random.within(0, 3) {
        0 => drop(bytes.pop()),
        1 => {
            let length = *random.pick(&[8_191, 8_192, 8_193, 9_000]);
            bytes.resize(length, b'\n');
        }
        2 => bytes.clear(),
        _ if !bytes.is_empty() => {
            let place = some_place(random, bytes);
            bytes[place] = *random.pick(b"\n,0A \xff");
        }
        _ => {}
    }
}
