//! Random tables of calls, most of them sensible, so that runs get on.

use crate::fitting::Fitting;
use crate::load::{Load, MOST_CORES, MOST_FRAMES, MOST_TASKS, MOST_UNIT};
use crate::plan::Plan;
use crate::random::Random;
use crate::table::Trials;

/// No table has more lines than this, but for the last few calls.
const MOST_LINES: usize = 3_000;
const FITTINGS: [&str; 3] = ["first", "best", "worst"];
const CHOOSINGS: [&str; 2] = ["earliest", "slack"];
const QUESTIONS: [&str; 4] = ["tick", "reductions", "jobs", "preemptions"];
const TASK_QUESTIONS: [&str; 3] = ["left", "deadline", "awaited"];
const FAR: [u32; 7] = [64, 79, 80, 255, 256, 65_536, u32::MAX];
const NO_CALLS: [&[u8]; 32] = [
    b"",
    b",",
    b"?",
    b"open",
    b"tick",
    b"tick,",
    b"tick,21",
    b"tick,01",
    b"tick,-1",
    b"tick,1,1",
    b"tick, 1",
    b"Tick,1",
    b"ask",
    b"ask,left",
    b"ask,tick,0",
    b"ask,left,4294967296",
    b"ask,time",
    b"announce,0",
    b"announce,0,1,2",
    b"announce,0,4294967296",
    b"announce,99999999999999999999,1",
    b"announce,0,00",
    b"announce,,1",
    b"open,first,earliest,2,3",
    b"open,next,earliest,2,3,1,2",
    b"open,first,latest,2,3,1,2",
    b"open,first,slack,2,3,1,65536",
    b"open,best,slack,2,3,1,2,",
    b"open,worst,slack,4294967296,3,1,2",
    b"ask,tick\r",
    b"\x00",
    b"tick,\xff\x80",
];

/// How far the deadlines of a run are announced.
#[derive(Clone, Copy)]
enum Reach {
    Next,
    Near,
    Any,
    End,
    Mixed,
}

struct Writer {
    random: Random,
    trials: Trials,
    out: Vec<u8>,
    lines: usize,
}

/// One table of a seed.
pub fn table(seed: u64, place: u64) -> Vec<u8> {
    let mut writer = Writer { random: Random::new(seed, place), trials: Trials::default(), out: Vec::new(), lines: 0 };
    if writer.random.once_in(4) {
        writer.odd_calls(6);
    }
    for _ in 0..writer.random.within(1, 6) {
        writer.episode();
    }
    writer.out
}

impl Writer {
    /// Writes a line and puts it to the runs.
    fn line(&mut self, line: &[u8]) {
        self.trials.line(line);
        self.out.extend_from_slice(line);
        self.out.push(b'\n');
        self.lines += 1;
    }

    /// An opening and what follows it.
    fn episode(&mut self) {
        let good = load(&mut self.random);
        let load = if self.random.once_in(5) { damaged(&mut self.random, good) } else { good };
        let opening = self.opening(&load);
        self.line(opening.as_bytes());
        let reach = *self.random.pick(&[Reach::Next, Reach::Near, Reach::Any, Reach::End, Reach::Mixed]);
        let budget = *self.random.pick(&[5, 40, 200, 500, 1_200]);
        let end = MOST_LINES.min(self.lines + budget);
        while self.lines < end && !self.trials.run().is_over() {
            self.frame(reach, end);
        }
        self.odd_calls(4);
    }

    fn opening(&mut self, load: &Load) -> String {
        let fitting = self.random.pick(&FITTINGS);
        let choosing = self.random.pick(&CHOOSINGS);
        let mut line = format!("open,{fitting},{choosing},{},{},{}", load.cores, load.unit, load.frames);
        for rate in &load.rates {
            line += &format!(",{rate}");
        }
        line
    }

    /// Announces what is awaited, and ticks to the next frame.
    fn frame(&mut self, reach: Reach, end: usize) {
        for task in self.awaited() {
            if self.random.once_in(8) {
                self.question();
            }
            if self.random.once_in(25) {
                self.odd_call();
            }
            if self.random.once_in(15) {
                let deadline = self.some_deadline();
                self.line(format!("announce,{task},{deadline}").as_bytes());
            }
            let deadline = self.deadline(reach);
            self.line(format!("announce,{task},{deadline}").as_bytes());
        }
        for _ in 0..self.trials.run().load().unit {
            if self.lines >= end || self.trials.run().is_over() {
                return;
            }
            self.tick();
        }
    }

    /// The tasks that are awaited, in some order.
    fn awaited(&mut self) -> Vec<u32> {
        let run = self.trials.run();
        let tasks = 0..run.load().rates.len() as u32;
        let mut awaited: Vec<u32> = tasks.filter(|&task| run.ask_awaited(task) == Ok(true)).collect();
        if self.random.once_in(3) {
            self.random.shuffle(&mut awaited);
        }
        awaited
    }

    fn now(&self) -> u32 {
        let run = self.trials.run();
        run.ask_tick() / run.load().unit.max(1)
    }

    /// A deadline after this frame and within the run.
    fn deadline(&mut self, reach: Reach) -> u32 {
        let next = self.now() + 1;
        // Another call may have turned to a run that is over.
        let last = self.trials.run().load().frames.max(next);
        let reach = match reach {
            Reach::Mixed => *self.random.pick(&[Reach::Next, Reach::Near, Reach::Any, Reach::End]),
            other => other,
        };
        match reach {
            Reach::Next => next,
            Reach::Near => self.random.within(next, last.min(next + 3)),
            Reach::Any => self.random.within(next, last),
            Reach::End | Reach::Mixed => last,
        }
    }

    /// A tick that should be granted, with now and then another call before it.
    fn tick(&mut self) {
        if self.random.once_in(5) {
            self.question();
        }
        if self.random.once_in(25) {
            self.odd_call();
        }
        let cores = self.trials.run().load().cores;
        let entries = if self.random.once_in(4) { self.random.within(cores, 20) } else { cores };
        self.line(format!("tick,{entries}").as_bytes());
    }

    fn question(&mut self) {
        let line = if self.random.once_in(3) {
            format!("ask,{}", self.random.pick(&QUESTIONS))
        } else {
            let task = self.some_task();
            format!("ask,{},{task}", self.random.pick(&TASK_QUESTIONS))
        };
        self.line(line.as_bytes());
    }

    /// Most often a task of the sheet.
    fn some_task(&mut self) -> u32 {
        let tasks = self.trials.run().load().rates.len() as u32;
        match self.random.within(0, 9) {
            0 => *self.random.pick(&FAR),
            1 => tasks,
            _ => self.random.within(0, tasks.max(1) - 1),
        }
    }

    /// A deadline that may be refused.
    fn some_deadline(&mut self) -> u32 {
        let now = self.now();
        let frames = self.trials.run().load().frames;
        match self.random.within(0, 6) {
            0 => 0,
            1 => now,
            2 => frames + 1,
            3 => *self.random.pick(&FAR),
            4 => frames,
            _ => now + self.random.within(0, 3),
        }
    }

    fn odd_calls(&mut self, most: u32) {
        for _ in 0..self.random.within(0, most) {
            self.odd_call();
        }
    }

    /// A call that may well be refused, or be none.
    fn odd_call(&mut self) {
        match self.random.within(0, 9) {
            0 => {
                let line = *self.random.pick(&NO_CALLS);
                self.line(line);
            }
            1 => self.bent_line(),
            2 | 3 => self.question(),
            4 | 5 => {
                let entries = self.random.within(0, 20);
                self.line(format!("tick,{entries}").as_bytes());
            }
            6 if self.random.once_in(3) => {
                // An opening that is refused turns to the run of its choosing rule.
                let good = load(&mut self.random);
                let bad = damaged(&mut self.random, good);
                let opening = self.opening(&bad);
                self.line(opening.as_bytes());
            }
            _ => {
                let (task, deadline) = (self.some_task(), self.some_deadline());
                self.line(format!("announce,{task},{deadline}").as_bytes());
            }
        }
    }

    /// A sensible line with one byte changed, left out or put in.
    fn bent_line(&mut self) {
        let good: [&[u8]; 6] = [
            b"open,first,slack,2,3,4,2,2,1",
            b"announce,1,2",
            b"tick,16",
            b"ask,left,0",
            b"ask,preemptions",
            b"ask,tick",
        ];
        let mut line = self.random.pick(&good).to_vec();
        let place = self.random.within(0, line.len() as u32 - 1) as usize;
        let byte = *self.random.pick(b"0123456789,,,a \x7f\xc3");
        match self.random.within(0, 2) {
            0 => line[place] = byte,
            1 => line.insert(place, byte),
            _ => drop(line.remove(place)),
        }
        self.line(&line);
    }
}

/// A load that is allowed.
pub fn load(random: &mut Random) -> Load {
    match random.within(0, 10) {
        0 | 1 => small(random),
        2 => full(random),
        3 => equal(random),
        4 | 5 => reducing(random),
        6 => many(random),
        7 => unit_one(random),
        8 => long(random),
        9 => deep(random),
        _ => Load { frames: 1, ..full(random) },
    }
}

/// As many random rates as fit, at most so many.
fn rates(random: &mut Random, capacity: u32, unit: u32, most_rate: u32, most_tasks: usize) -> Vec<u16> {
    let mut rates = Vec::new();
    let mut missing = capacity;
    while rates.len() < most_tasks && missing > 0 {
        let rate = random.within(1, most_rate.min(unit).min(missing));
        missing -= rate;
        rates.push(rate as u16);
    }
    rates
}

/// Few cores, a small unit, few frames; often with idle tasks.
pub fn small(random: &mut Random) -> Load {
    let (cores, unit, frames) = (random.within(1, 4), random.within(1, 12), random.within(1, 8));
    let tasks = random.within(1, 10) as usize;
    Load { cores, unit, frames, rates: rates(random, cores * unit, unit, unit, tasks) }
}

/// Rates that sum to the cores, or leave little if the tasks run out.
fn full(random: &mut Random) -> Load {
    let (cores, unit, frames) = (random.within(1, 8), random.within(1, 30), random.within(1, 12));
    let most = random.within(1, unit);
    Load { cores, unit, frames, rates: rates(random, cores * unit, unit, most, MOST_TASKS) }
}

/// Equal rates.
fn equal(random: &mut Random) -> Load {
    let (cores, unit, frames) = (random.within(1, MOST_CORES), random.within(1, 20), random.within(1, 10));
    let rate = random.within(1, unit);
    let tasks = random.within(1, (cores * unit / rate).min(MOST_TASKS as u32));
    Load { cores, unit, frames, rates: vec![rate as u16; tasks as usize] }
}

/// Of some loads the one with the most reductions.
pub fn reducing(random: &mut Random) -> Load {
    let tries = *random.pick(&[1, 4, 16, 64]);
    let mut best = halves(random);
    for _ in 0..tries {
        let load = halves(random);
        if reductions(&load) > reductions(&best) {
            best = load;
        }
    }
    best
}

fn reductions(load: &Load) -> usize {
    let made = |fitting| Plan::make(fitting, load.unit as u16, &load.all_rates()).reductions();
    Fitting::ALL.into_iter().map(made).max().unwrap_or(0)
}

/// Tasks on 12 cores, unit 100, that worst fit reduces four times.
pub const DEEP: [u16; 18] = [54, 88, 54, 64, 54, 91, 54, 69, 54, 88, 54, 64, 54, 91, 54, 71, 54, 88];

/// Loads near that one, with four reductions too.
fn deep(random: &mut Random) -> Load {
    let times = random.within(1, 10);
    let rates = DEEP.iter().map(|&rate| rate * times as u16).collect();
    let mut load = Load { cores: 12, unit: 100 * times, frames: random.within(1, 3), rates };
    for _ in 0..random.within(0, 30) {
        let mut moved = load.clone();
        move_parts(random, &mut moved);
        if moved.check().is_ok() && reductions(&moved) == 4 {
            load = moved;
        }
    }
    load
}

/// Moves some parts from one task to another.
fn move_parts(random: &mut Random, load: &mut Load) {
    let last = load.rates.len() as u32 - 1;
    let (from, to) = (random.within(0, last) as usize, random.within(0, last) as usize);
    let unit = load.unit as u16;
    let most = (load.rates[from] - 1).min(unit - load.rates[to]).min(unit / 8);
    if from != to {
        let moved = random.within(0, most.into()) as u16;
        load.rates[from] -= moved;
        load.rates[to] += moved;
    }
}

/// Rates of somewhat more than half a core, so that many servers are left to reduce.
fn halves(random: &mut Random) -> Load {
    let (cores, unit, frames) = (random.within(2, MOST_CORES), random.within(3, 120), random.within(1, 10));
    let tasks = random.within(cores + 1, 2 * cores - 1);
    let capacity = cores * unit;
    let mut rates = vec![(capacity / tasks) as u16; tasks as usize];
    for rate in &mut rates[..(capacity % tasks) as usize] {
        *rate += 1;
    }
    let mut load = Load { cores, unit, frames, rates };
    for _ in 0..random.within(0, 20) {
        move_parts(random, &mut load);
    }
    random.shuffle(&mut load.rates);
    load
}

/// Up to 64 tasks on up to 16 cores.
fn many(random: &mut Random) -> Load {
    let cores = if random.once_in(2) { MOST_CORES } else { random.within(8, MOST_CORES) };
    let (unit, frames) = (random.within(10, 100), random.within(1, 20));
    let most = (unit * cores / 32).max(1);
    Load { cores, unit, frames, rates: rates(random, cores * unit, unit, most, MOST_TASKS) }
}

/// A unit of 1: every task has a core to itself.
fn unit_one(random: &mut Random) -> Load {
    let (cores, frames) = (random.within(1, MOST_CORES), random.within(1, 60));
    Load { cores, unit: 1, frames, rates: vec![1; random.within(1, cores) as usize] }
}

/// A large unit and very many frames; such a run does not come to its end.
fn long(random: &mut Random) -> Load {
    let cores = random.within(1, MOST_CORES);
    let unit = *random.pick(&[1, 2, 7, 60, 255, 256, 999, MOST_UNIT]);
    let frames = *random.pick(&[255, 256, 257, 1_000, 32_768, MOST_FRAMES]);
    let tasks = random.within(1, MOST_TASKS as u32) as usize;
    Load { cores, unit, frames, rates: rates(random, cores * unit, unit, unit, tasks) }
}

/// The load with one or two faults.
pub fn damaged(random: &mut Random, load: Load) -> Load {
    let mut load = load;
    for _ in 0..random.within(1, 2) {
        damage(random, &mut load);
    }
    load
}

fn damage(random: &mut Random, load: &mut Load) {
    match random.within(0, 7) {
        0 => load.cores = *random.pick(&[0, 17, 255, 256, 65_537, u32::MAX]),
        1 => load.unit = *random.pick(&[0, 1_001, 65_535, 65_536, 65_537, u32::MAX]),
        2 => load.frames = *random.pick(&[0, 65_536, 65_537, u32::MAX]),
        3 => load.rates.clear(),
        4 => load.rates.resize(*random.pick(&[65, 66, 80, 81, 200, 256, 257]), 1),
        5 | 6 if !load.rates.is_empty() => {
            let task = random.within(0, load.rates.len() as u32 - 1) as usize;
            load.rates[task] =
                *random.pick(&[0, (load.unit + u32::from(load.unit < u32::MAX)).min(65_535) as u16, 65_535]);
        }
        _ => overload(load),
    }
}

/// Fills up the cores and asks for one part more.
fn overload(load: &mut Load) {
    if load.check().is_ok() {
        let idle = load.idle();
        load.rates.extend(idle);
        load.rates.truncate(MOST_TASKS - 1);
        load.rates.push(1);
    }
}
