//! A run: opened once, then announcements, ticks and questions.

use crate::choosing::{balanced, Choosing, Share};
use crate::cores::{self, Cores};
use crate::fitting::Fitting;
use crate::load::Load;
use crate::plan::Plan;
use crate::refusal::{refuse_if, Refusal};

/// A run. The default is one that was never opened: it is over and has no tasks.
#[derive(Clone, Debug, Default, PartialEq, Eq)]
pub struct Run {
    load: Load,
    plan: Plan,
    choosing: Choosing,
    /// The shares of all tasks, idle ones included.
    tasks: Vec<Share>,
    /// The shares of the servers, level by level.
    servers: Vec<Vec<Share>>,
    /// The shares of their duals; a root's has rate 0 and is in no server.
    duals: Vec<Vec<Share>>,
    cores: Cores,
    /// The tasks that the last granted tick named and that had left after it.
    unfinished: Vec<usize>,
    tick: u32,
    jobs: u32,
    preemptions: u32,
}

/// What a tick decides: which servers run, and which items are named, level by level.
#[derive(Clone, Debug, PartialEq, Eq)]
pub struct Decision {
    pub runs: Vec<Vec<bool>>,
    pub named: Vec<Vec<bool>>,
}

impl Run {
    pub fn open(load: Load, fitting: Fitting, choosing: Choosing) -> Result<Run, Refusal> {
        load.check()?;
        let unit = load.unit as u16;
        let rates = load.all_rates();
        let plan = Plan::make(fitting, unit, &rates);
        let blank = |rates: Vec<u16>| -> Vec<Share> {
            rates.into_iter().map(|rate| Share { left: 0, rate, deadline: 0 }).collect()
        };
        let server_rates = plan.levels.iter().map(|level| level.rates());
        let dual_rates = plan.levels.iter().map(|level| level.rates().into_iter().map(|rate| unit - rate).collect());
        let mut run = Run {
            choosing,
            tasks: blank(rates),
            servers: server_rates.map(blank).collect(),
            duals: dual_rates.map(blank).collect(),
            cores: Cores::new(load.cores as usize),
            load,
            plan,
            ..Run::default()
        };
        run.begin_idle();
        Ok(run)
    }

    /// Each idle task begins its only job, up to the end of the run.
    fn begin_idle(&mut self) {
        for task in &mut self.tasks[self.load.rates.len()..] {
            task.renew(0, self.load.frames);
            self.jobs += 1;
        }
    }

    pub fn is_over(&self) -> bool {
        self.tick >= self.load.unit * self.load.frames
    }

    /// The frame that starts at the present tick, if one does.
    fn starting_frame(&self) -> Option<u32> {
        let starts = !self.is_over() && self.tick % self.load.unit == 0;
        starts.then(|| self.tick / self.load.unit)
    }

    fn is_awaited(&self, task: usize) -> bool {
        self.starting_frame() == Some(self.tasks[task].deadline)
    }

    /// The number of a task of the sheet.
    fn task(&self, task: u32) -> Result<usize, Refusal> {
        let task = task as usize;
        refuse_if(task >= self.load.rates.len(), Refusal::NoSuchTask)?;
        Ok(task)
    }

    pub fn announce(&mut self, task: u32, deadline: u32) -> Result<(), Refusal> {
        refuse_if(self.is_over(), Refusal::Over)?;
        let task = self.task(task)?;
        refuse_if(!self.is_awaited(task), Refusal::NotAwaited)?;
        let now = self.tick / self.load.unit;
        refuse_if(deadline <= now, Refusal::TooEarly)?;
        refuse_if(deadline > self.load.frames, Refusal::TooLate)?;
        self.tasks[task].renew(now, deadline);
        self.jobs += 1;
        Ok(())
    }

    /// One tick. The entries of the core list get the tasks that the cores hold.
    pub fn tick(&mut self, list: &mut [u8]) -> Result<(), Refusal> {
        refuse_if(self.is_over(), Refusal::Over)?;
        refuse_if(list.len() < self.load.cores as usize, Refusal::ShortList)?;
        if let Some(task) = (0..self.load.rates.len()).find(|&task| self.is_awaited(task)) {
            return Err(Refusal::Awaited(task));
        }
        if let Some(now) = self.starting_frame() {
            self.renew(now);
        }
        let decision = self.decide();
        self.spend(&decision);
        let named = places(&decision.named[0]);
        cores::write(self.cores.place(&named), list);
        self.preemptions += cores::preemptions(&self.unfinished, &named);
        self.unfinished = named.into_iter().filter(|&task| self.tasks[task].left > 0).collect();
        self.tick += 1;
        Ok(())
    }

    /// The items of a level: the tasks, or the duals of the level below.
    fn items(&self, level: usize) -> &[Share] {
        match level {
            0 => &self.tasks,
            _ => &self.duals[level - 1],
        }
    }

    /// The shares of the clients of a server, in placing order.
    fn clients(&self, level: usize, server: usize) -> Vec<Share> {
        let items = self.items(level);
        self.plan.levels[level].servers[server].clients.iter().map(|&item| items[item]).collect()
    }

    /// The servers due now are renewed, with their duals, the lowest level first.
    fn renew(&mut self, now: u32) {
        for level in 0..self.servers.len() {
            for server in 0..self.servers[level].len() {
                if self.servers[level][server].deadline == now {
                    let clients = self.clients(level, server);
                    let least = clients.iter().map(|client| client.deadline).min().expect("a server has clients");
                    self.servers[level][server].renew(now, least);
                    self.duals[level][server].renew(now, least);
                }
            }
        }
    }

    /// Which servers run and which items are named, from the top level down.
    fn decide(&self) -> Decision {
        let levels = self.servers.len();
        let mut decision = Decision {
            runs: self.servers.iter().map(|servers| vec![false; servers.len()]).collect(),
            named: (0..levels).map(|level| vec![false; self.items(level).len()]).collect(),
        };
        for level in (0..levels).rev() {
            for server in 0..self.servers[level].len() {
                let runs = self.plan.is_root(level, server) || !decision.named[level + 1][server];
                decision.runs[level][server] = runs;
                if let Some(item) = self.chosen(level, server).filter(|_| runs) {
                    decision.named[level][item] = true;
                }
            }
        }
        decision
    }

    /// The item that a server's choosing rule names.
    fn chosen(&self, level: usize, server: usize) -> Option<usize> {
        let place = self.choosing.choose(&self.servers[level][server], &self.clients(level, server))?;
        Some(self.plan.levels[level].servers[server].clients[place])
    }

    /// Whatever runs or is named loses one tick of its left.
    fn spend(&mut self, decision: &Decision) {
        for (level, servers) in self.servers.iter_mut().enumerate() {
            spend_marked(servers, &decision.runs[level]);
        }
        spend_marked(&mut self.tasks, &decision.named[0]);
        for (duals, named) in self.duals.iter_mut().zip(&decision.named[1..]) {
            spend_marked(duals, named);
        }
    }

    pub fn ask_tick(&self) -> u32 {
        self.tick
    }

    pub fn ask_left(&self, task: u32) -> Result<u32, Refusal> {
        Ok(self.tasks[self.task(task)?].left)
    }

    pub fn ask_deadline(&self, task: u32) -> Result<u32, Refusal> {
        Ok(self.tasks[self.task(task)?].deadline)
    }

    pub fn ask_awaited(&self, task: u32) -> Result<bool, Refusal> {
        Ok(self.is_awaited(self.task(task)?))
    }

    pub fn ask_reductions(&self) -> u32 {
        self.plan.reductions() as u32
    }

    pub fn ask_jobs(&self) -> u32 {
        self.jobs
    }

    pub fn ask_preemptions(&self) -> u32 {
        self.preemptions
    }

    /// The load, as opened.
    pub fn load(&self) -> &Load {
        &self.load
    }

    /// The shares of all tasks, idle ones included.
    pub fn tasks(&self) -> &[Share] {
        &self.tasks
    }

    /// The shares of a server and of its dual.
    pub fn server(&self, level: usize, server: usize) -> (Share, Share) {
        (self.servers[level][server], self.duals[level][server])
    }

    /// Whether each server is balanced with its clients, as after every granted tick.
    pub fn is_balanced(&self) -> bool {
        (0..self.servers.len()).all(|level| {
            let mut servers = self.servers[level].iter().enumerate();
            servers.all(|(place, server)| balanced(server, &self.clients(level, place)))
        })
    }
}

/// The places of what is marked.
fn places(marks: &[bool]) -> Vec<usize> {
    (0..marks.len()).filter(|&place| marks[place]).collect()
}

fn spend_marked(shares: &mut [Share], marks: &[bool]) {
    for (share, _) in shares.iter_mut().zip(marks).filter(|(_, &marked)| marked) {
        share.spend();
    }
}
