//! The ledger: kept from outside, from the opening, the calls and the tasks named.

use crate::load::Load;
use crate::refusal::{refuse_if, Refusal};
use crate::table::{Answer, Call, Question};

const MOST_REDUCTIONS: u32 = 4;

#[derive(Clone, Debug, PartialEq, Eq)]
pub struct Job {
    pub task: usize,
    pub release: u32,
    pub deadline: u32,
    /// The times at which it was held.
    pub held: Vec<u32>,
}

/// The ledger of one run.
#[derive(Clone, Debug)]
pub struct Ledger {
    load: Load,
    /// The rates of all tasks, idle ones included.
    rates: Vec<u16>,
    /// Whether the choosing rule goes on with the client it named.
    goes_on: bool,
    pub time: u32,
    pub jobs: Vec<Job>,
    unfinished: Vec<usize>,
    pub preemptions: u32,
    reductions: Option<u32>,
}

impl Ledger {
    /// The ledger of an allowed load.
    pub fn new(load: Load, goes_on: bool) -> Ledger {
        let rates = load.all_rates();
        let idle = load.rates.len()..rates.len();
        let jobs = idle.map(|task| Job { task, release: 0, deadline: load.frames, held: Vec::new() }).collect();
        Ledger { load, rates, goes_on, time: 0, jobs, unfinished: Vec::new(), preemptions: 0, reductions: None }
    }

    fn last_job(&self, task: usize) -> Option<&Job> {
        self.jobs.iter().rev().find(|job| job.task == task)
    }

    /// The ticks that a job has to be held.
    pub fn due(&self, job: &Job) -> u32 {
        u32::from(self.rates[job.task]) * (job.deadline - job.release)
    }

    fn left(&self, task: usize) -> u32 {
        self.last_job(task).map_or(0, |job| self.due(job) - job.held.len() as u32)
    }

    fn deadline(&self, task: usize) -> u32 {
        self.last_job(task).map_or(0, |job| job.deadline)
    }

    fn is_over(&self) -> bool {
        self.time >= self.load.unit * self.load.frames
    }

    fn is_awaited(&self, task: usize) -> bool {
        !self.is_over() && self.deadline(task) * self.load.unit == self.time
    }

    fn task(&self, task: u32) -> Result<usize, Refusal> {
        refuse_if(task as usize >= self.load.rates.len(), Refusal::NoSuchTask)?;
        Ok(task as usize)
    }

    fn announce_refusal(&self, task: u32, deadline: u32) -> Result<(), Refusal> {
        refuse_if(self.is_over(), Refusal::Over)?;
        let task = self.task(task)?;
        refuse_if(!self.is_awaited(task), Refusal::NotAwaited)?;
        refuse_if(deadline <= self.deadline(task), Refusal::TooEarly)?;
        refuse_if(deadline > self.load.frames, Refusal::TooLate)
    }

    fn tick_refusal(&self, entries: usize) -> Result<(), Refusal> {
        refuse_if(self.is_over(), Refusal::Over)?;
        refuse_if(entries < self.load.cores as usize, Refusal::ShortList)?;
        let awaited = (0..self.load.rates.len()).find(|&task| self.is_awaited(task));
        awaited.map_or(Ok(()), |task| Err(Refusal::Awaited(task)))
    }

    /// Posts a call with its answer, or says what is wrong with it.
    pub fn post(&mut self, call: &Call, answer: &Answer) -> Result<(), String> {
        let expected = match *call {
            Call::Open(..) => return Err("a second opening".to_string()),
            Call::Announce(task, deadline) => self.post_announcement(task, deadline).into(),
            Call::Tick(entries) => match (self.tick_refusal(entries), answer) {
                (Ok(()), Answer::Cores(list)) => return self.post_tick(entries, list),
                (Ok(()), _) => return Err(format!("expected a core list, got {answer}")),
                (Err(refusal), _) => Answer::Refused(refusal),
            },
            Call::Ask(Question::Reductions) => return self.post_reductions(answer),
            Call::Ask(question) => self.ask(question),
        };
        same(&expected, answer)
    }

    fn post_announcement(&mut self, task: u32, deadline: u32) -> Result<(), Refusal> {
        self.announce_refusal(task, deadline)?;
        let release = self.time / self.load.unit;
        self.jobs.push(Job { task: task as usize, release, deadline, held: Vec::new() });
        Ok(())
    }

    fn post_reductions(&mut self, answer: &Answer) -> Result<(), String> {
        match *answer {
            Answer::Number(number) if number <= MOST_REDUCTIONS => {
                same(&Answer::Number(*self.reductions.get_or_insert(number)), answer)
            }
            _ => Err(format!("reductions {answer}")),
        }
    }

    fn ask(&self, question: Question) -> Answer {
        match question {
            Question::Tick => Answer::Number(self.time),
            Question::Jobs => Answer::Number(self.jobs.len() as u32),
            Question::Preemptions => Answer::Number(self.preemptions),
            Question::Left(task) => self.task(task).map(|task| self.left(task)).into(),
            Question::Deadline(task) => self.task(task).map(|task| self.deadline(task)).into(),
            Question::Awaited(task) => self.task(task).map(|task| self.is_awaited(task)).into(),
            Question::Reductions => unreachable!("answered apart"),
        }
    }

    /// A granted tick: as many different tasks as cores, each with left; entries behind stay 255.
    fn post_tick(&mut self, entries: usize, list: &[u8]) -> Result<(), String> {
        let (held, behind) = list.split_at(self.load.cores as usize);
        if list.len() != entries || behind.iter().any(|&entry| entry != 255) {
            return Err(format!("entries behind the cores: {list:?}"));
        }
        let mut named: Vec<usize> = held.iter().map(|&task| usize::from(task)).collect();
        named.sort_unstable();
        named.dedup();
        if named.len() != held.len() || named.iter().any(|&task| task >= self.rates.len() || self.left(task) == 0) {
            return Err(format!("tick {} names {held:?}", self.time));
        }
        self.preemptions += self.unfinished.iter().filter(|task| !named.contains(task)).count() as u32;
        for &task in &named {
            let time = self.time;
            let last = self.jobs.iter_mut().rev().find(|job| job.task == task);
            last.expect("a task with left has a job").held.push(time);
        }
        self.unfinished = named.into_iter().filter(|&task| self.left(task) > 0).collect();
        self.time += 1;
        self.check_counts()
    }

    fn check_counts(&self) -> Result<(), String> {
        let Some(reductions) = self.reductions.filter(|_| self.goes_on) else {
            return Ok(());
        };
        let most = (2 * reductions + 1) * self.jobs.len() as u32;
        if self.preemptions > most {
            return Err(format!("{} preemptions, at most {most}", self.preemptions));
        }
        Ok(())
    }

    /// Whether each job was held inside its window, and each whose deadline has come as often as it is due.
    pub fn check_jobs(&self) -> Result<(), String> {
        let unit = self.load.unit;
        for job in &self.jobs {
            let rising = job.held.windows(2).all(|pair| pair[0] < pair[1]);
            let inside = job.held.iter().all(|time| (unit * job.release..unit * job.deadline).contains(time));
            let has_come = unit * job.deadline <= self.time;
            if !rising || !inside || (has_come && job.held.len() as u32 != self.due(job)) {
                return Err(format!("at {}: {job:?}", self.time));
            }
        }
        Ok(())
    }
}

fn same(expected: &Answer, answer: &Answer) -> Result<(), String> {
    if expected == answer {
        Ok(())
    } else {
        Err(format!("expected {expected}, got {answer}"))
    }
}
