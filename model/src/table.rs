//! A table of calls: its lines, and what is printed behind each.

use std::fmt;

use crate::choosing::Choosing;
use crate::fitting::Fitting;
use crate::load::Load;
use crate::refusal::Refusal;
use crate::run::Run;

const MOST_ENTRIES: u32 = 20;
const NO_TASK: u8 = 255;

#[derive(Clone, Debug, PartialEq, Eq)]
pub enum Call {
    Open(Fitting, Choosing, Load),
    Announce(u32, u32),
    Tick(usize),
    Ask(Question),
}

#[derive(Clone, Copy, Debug, PartialEq, Eq)]
pub enum Question {
    Tick,
    Reductions,
    Jobs,
    Preemptions,
    Left(u32),
    Deadline(u32),
    Awaited(u32),
}

#[derive(Clone, Debug, PartialEq, Eq)]
pub enum Answer {
    Refused(Refusal),
    Granted,
    Cores(Vec<u8>),
    Number(u32),
    Truth(bool),
}

/// A number: decimal digits, no leading zero unless 0, at most 32 bits.
fn number(field: &str) -> Option<u32> {
    let digits = !field.is_empty() && field.bytes().all(|byte| byte.is_ascii_digit());
    let leads_with_zero = field.starts_with('0') && field != "0";
    if digits && !leads_with_zero {
        field.parse().ok()
    } else {
        None
    }
}

fn rate(field: &&str) -> Option<u16> {
    u16::try_from(number(field)?).ok()
}

fn fitting(field: &str) -> Option<Fitting> {
    match field {
        "first" => Some(Fitting::First),
        "best" => Some(Fitting::Best),
        "worst" => Some(Fitting::Worst),
        _ => None,
    }
}

fn choosing(field: &str) -> Option<Choosing> {
    match field {
        "earliest" => Some(Choosing::Earliest),
        "slack" => Some(Choosing::Slack),
        _ => None,
    }
}

impl Call {
    /// Reads a line without its line feed.
    pub fn read(line: &[u8]) -> Option<Call> {
        let line = std::str::from_utf8(line).ok()?;
        let fields: Vec<&str> = line.split(',').collect();
        match fields.as_slice() {
            ["open", fit, choose, cores, unit, frames, rates @ ..] => {
                let load = Load {
                    cores: number(cores)?,
                    unit: number(unit)?,
                    frames: number(frames)?,
                    rates: rates.iter().map(rate).collect::<Option<_>>()?,
                };
                Some(Call::Open(fitting(fit)?, choosing(choose)?, load))
            }
            ["announce", task, deadline] => Some(Call::Announce(number(task)?, number(deadline)?)),
            ["tick", entries] => {
                let entries = number(entries).filter(|&entries| entries <= MOST_ENTRIES)?;
                Some(Call::Tick(entries as usize))
            }
            ["ask", what] => Question::of_run(what).map(Call::Ask),
            ["ask", what, task] => Question::of_task(what, number(task)?).map(Call::Ask),
            _ => None,
        }
    }
}

impl Question {
    fn of_run(what: &str) -> Option<Question> {
        match what {
            "tick" => Some(Question::Tick),
            "reductions" => Some(Question::Reductions),
            "jobs" => Some(Question::Jobs),
            "preemptions" => Some(Question::Preemptions),
            _ => None,
        }
    }

    fn of_task(what: &str, task: u32) -> Option<Question> {
        match what {
            "left" => Some(Question::Left(task)),
            "deadline" => Some(Question::Deadline(task)),
            "awaited" => Some(Question::Awaited(task)),
            _ => None,
        }
    }
}

impl From<Result<(), Refusal>> for Answer {
    fn from(result: Result<(), Refusal>) -> Answer {
        result.map_or_else(Answer::Refused, |()| Answer::Granted)
    }
}

impl From<Result<u32, Refusal>> for Answer {
    fn from(result: Result<u32, Refusal>) -> Answer {
        result.map_or_else(Answer::Refused, Answer::Number)
    }
}

impl From<Result<bool, Refusal>> for Answer {
    fn from(result: Result<bool, Refusal>) -> Answer {
        result.map_or_else(Answer::Refused, Answer::Truth)
    }
}

impl fmt::Display for Answer {
    fn fmt(&self, out: &mut fmt::Formatter<'_>) -> fmt::Result {
        match self {
            Answer::Refused(refusal) => {
                write!(out, "no,{}", refusal.number())?;
                refusal.task().map_or(Ok(()), |task| write!(out, ",{task}"))
            }
            Answer::Granted => write!(out, "ok"),
            Answer::Cores(list) => {
                let entries: Vec<String> = list.iter().map(u8::to_string).collect();
                write!(out, "{}", entries.join(","))
            }
            Answer::Number(number) => write!(out, "{number}"),
            Answer::Truth(truth) => write!(out, "{truth}"),
        }
    }
}

/// One run for each choosing rule, and the one that calls go to.
#[derive(Clone, Debug, Default)]
pub struct Trials {
    earliest: Run,
    slack: Run,
    present: Choosing,
}

impl Trials {
    /// The run that calls go to.
    pub fn run(&self) -> &Run {
        match self.present {
            Choosing::Earliest => &self.earliest,
            Choosing::Slack => &self.slack,
        }
    }

    fn run_mut(&mut self) -> &mut Run {
        match self.present {
            Choosing::Earliest => &mut self.earliest,
            Choosing::Slack => &mut self.slack,
        }
    }

    pub fn call(&mut self, call: Call) -> Answer {
        match call {
            Call::Open(fitting, choosing, load) => {
                self.present = choosing;
                Run::open(load, fitting, choosing).map(|run| *self.run_mut() = run).into()
            }
            Call::Announce(task, deadline) => self.run_mut().announce(task, deadline).into(),
            Call::Tick(entries) => {
                let mut list = vec![NO_TASK; entries];
                match self.run_mut().tick(&mut list) {
                    Ok(()) => Answer::Cores(list),
                    Err(refusal) => Answer::Refused(refusal),
                }
            }
            Call::Ask(question) => ask(self.run(), question),
        }
    }

    /// What is printed behind a line.
    pub fn line(&mut self, line: &[u8]) -> String {
        match Call::read(line) {
            Some(call) => self.call(call).to_string(),
            None => "?".to_string(),
        }
    }
}

fn ask(run: &Run, question: Question) -> Answer {
    match question {
        Question::Tick => Answer::Number(run.ask_tick()),
        Question::Reductions => Answer::Number(run.ask_reductions()),
        Question::Jobs => Answer::Number(run.ask_jobs()),
        Question::Preemptions => Answer::Number(run.ask_preemptions()),
        Question::Left(task) => run.ask_left(task).into(),
        Question::Deadline(task) => run.ask_deadline(task).into(),
        Question::Awaited(task) => run.ask_awaited(task).into(),
    }
}

/// What is printed for a whole table.
pub fn printed(table: &[u8]) -> Vec<u8> {
    let mut trials = Trials::default();
    let mut out = Vec::new();
    let mut lines: Vec<&[u8]> = table.split(|&byte| byte == b'\n').collect();
    // The last line may lack its line feed; after a line feed there is no other line.
    if lines.last().is_some_and(|rest| rest.is_empty()) {
        lines.pop();
    }
    for line in lines {
        out.extend_from_slice(line);
        out.push(b' ');
        out.extend_from_slice(trials.line(line).as_bytes());
        out.push(b'\n');
    }
    out
}
