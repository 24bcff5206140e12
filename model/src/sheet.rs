//! The load sheet, read line by line.

use crate::load::{Load, MOST_TASKS};
use crate::refusal::Refusal;

const MOST_BYTES: usize = 8_192;
const HEAD: [&[u8]; 3] = [b"cores", b"unit", b"frames"];
/// The line of the first task.
const FIRST_TASK: usize = 5;

#[derive(Clone, Copy, Debug, PartialEq, Eq)]
pub enum Cause {
    Bounds,
    Mark,
    Shape,
    Field,
    Repeated,
    Tasks,
    Load(Refusal),
}

impl Cause {
    pub fn number(self) -> u32 {
        match self {
            Cause::Bounds => 51,
            Cause::Mark => 52,
            Cause::Shape => 53,
            Cause::Field => 54,
            Cause::Repeated => 55,
            Cause::Tasks => 56,
            Cause::Load(refusal) => refusal.number(),
        }
    }
}

/// Why a sheet is refused, and where.
#[derive(Clone, Copy, Debug, PartialEq, Eq)]
pub struct Fault {
    pub cause: Cause,
    pub line: usize,
    pub place: usize,
}

impl Fault {
    /// Number, line and place.
    pub fn told(&self) -> (u32, usize, usize) {
        (self.cause.number(), self.line, self.place)
    }
}

impl From<Refusal> for Fault {
    fn from(refusal: Refusal) -> Fault {
        let line = match refusal {
            Refusal::BadCores => 2,
            Refusal::BadUnit => 3,
            Refusal::BadFrames => 4,
            Refusal::BadRate(task) => task + FIRST_TASK,
            _ => 0,
        };
        Fault { cause: Cause::Load(refusal), line, place: 0 }
    }
}

/// The entry of a task.
#[derive(Clone, Copy, Debug, Default, PartialEq, Eq)]
pub struct Entry {
    /// The place of the first byte of its name.
    pub name: usize,
    pub length: usize,
    pub rate: u16,
    pub period: u16,
}

#[derive(Clone, Debug, Default, PartialEq, Eq)]
pub struct Sheet {
    pub cores: u16,
    pub unit: u16,
    pub frames: u16,
    pub tasks: Vec<Entry>,
}

impl Sheet {
    /// The load of the sheet, which need not be allowed.
    pub fn load(&self) -> Load {
        Load {
            cores: self.cores.into(),
            unit: self.unit.into(),
            frames: self.frames.into(),
            rates: self.tasks.iter().map(|task| task.rate).collect(),
        }
    }
}

/// A part of the sheet, with the place where it starts.
#[derive(Clone, Copy)]
struct Part<'a> {
    start: usize,
    bytes: &'a [u8],
}

/// What stands before, between and after the marks.
fn split(part: Part, mark: u8) -> Vec<Part> {
    let mut start = part.start;
    let pieces = part.bytes.split(|&byte| byte == mark);
    pieces
        .map(|bytes| {
            let piece = Part { start, bytes };
            start += bytes.len() + 1;
            piece
        })
        .collect()
}

/// A number: 1 to 5 digits, at most 65535, no leading zero unless it is 0.
pub fn number(field: &[u8]) -> Option<u16> {
    let digits = (1..=5).contains(&field.len()) && field.iter().all(u8::is_ascii_digit);
    if !digits || (field[0] == b'0' && field.len() > 1) {
        return None;
    }
    let value = field.iter().fold(0, |value: u32, digit| value * 10 + u32::from(digit - b'0'));
    u16::try_from(value).ok()
}

fn period(field: &[u8]) -> Option<u16> {
    number(field).filter(|&period| period >= 1)
}

fn is_name(field: &[u8]) -> bool {
    (1..=12).contains(&field.len()) && field.iter().all(|byte| byte.is_ascii_uppercase() || byte.is_ascii_digit())
}

/// A line with its number.
struct Line<'a> {
    number: usize,
    whole: Part<'a>,
}

impl<'a> Line<'a> {
    fn fault(&self, cause: Cause, at: Part) -> Fault {
        Fault { cause, line: self.number, place: at.start }
    }

    /// The fields after the first word, if that and their number are right.
    fn fields<const N: usize>(&self, word: &[u8]) -> Result<[Part<'a>; N], Fault> {
        let fields = split(self.whole, b',');
        let shape = self.fault(Cause::Shape, self.whole);
        if fields[0].bytes != word {
            return Err(shape);
        }
        fields[1..].try_into().map_err(|_| shape)
    }

    /// What a field holds, if it has its form.
    fn form<T>(&self, field: Part, value: Option<T>) -> Result<T, Fault> {
        value.ok_or(self.fault(Cause::Field, field))
    }

    /// The number of a line of the head.
    fn head(&self, word: &[u8]) -> Result<u16, Fault> {
        let [value] = self.fields(word)?;
        self.form(value, number(value.bytes))
    }

    /// The entry of a task line.
    fn task(&self) -> Result<(Part<'a>, Entry), Fault> {
        let [name, rate, due] = self.fields(b"task")?;
        self.form(name, is_name(name.bytes).then_some(()))?;
        let rate = self.form(rate, number(rate.bytes))?;
        let period = self.form(due, period(due.bytes))?;
        Ok((name, Entry { name: name.start, length: name.bytes.len(), rate, period }))
    }
}

/// Reads a sheet.
pub fn read(bytes: &[u8]) -> Result<Sheet, Fault> {
    let whole = match bytes.strip_suffix(b"\n") {
        Some(text) if bytes.len() <= MOST_BYTES => Part { start: 0, bytes: text },
        _ => return Err(Fault { cause: Cause::Bounds, line: 0, place: 0 }),
    };
    let lines = split(whole, b'\n');
    let end = bytes.len();
    if lines[0].bytes != b"BLS,1" {
        return Err(Fault { cause: Cause::Mark, line: 1, place: 0 });
    }
    let mut numbers = [0; 3];
    for (place, word) in HEAD.iter().enumerate() {
        let number = place + 2;
        let missing = Fault { cause: Cause::Shape, line: number, place: end };
        let whole = *lines.get(number - 1).ok_or(missing)?;
        numbers[place] = Line { number, whole }.head(word)?;
    }
    let tasks = read_tasks(&lines[HEAD.len() + 1..], end)?;
    let [cores, unit, frames] = numbers;
    Ok(Sheet { cores, unit, frames, tasks })
}

/// Reads the task lines.
fn read_tasks(lines: &[Part], end: usize) -> Result<Vec<Entry>, Fault> {
    if lines.is_empty() {
        return Err(Fault { cause: Cause::Tasks, line: FIRST_TASK, place: end });
    }
    let mut names: Vec<&[u8]> = Vec::new();
    let mut tasks = Vec::new();
    for (task, &whole) in lines.iter().enumerate() {
        let line = Line { number: task + FIRST_TASK, whole };
        if task == MOST_TASKS {
            return Err(line.fault(Cause::Tasks, whole));
        }
        let (name, entry) = line.task()?;
        if names.contains(&name.bytes) {
            return Err(line.fault(Cause::Repeated, name));
        }
        names.push(name.bytes);
        tasks.push(entry);
    }
    Ok(tasks)
}
