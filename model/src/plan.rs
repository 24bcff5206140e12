//! The plan: pack, take duals, pack again, until there are only roots.

use crate::fitting::Fitting;

#[derive(Clone, Debug, PartialEq, Eq)]
pub struct Server {
    /// The numbers of its items, in placing order.
    pub clients: Vec<usize>,
    pub rate: u16,
}

/// One level of a plan. Item j of a level above 0 is the dual of server j of the level below.
#[derive(Clone, Debug, PartialEq, Eq)]
pub struct Level {
    /// The server of each item; a root's dual is no item and has none.
    pub homes: Vec<Option<usize>>,
    pub servers: Vec<Server>,
}

#[derive(Clone, Debug, Default, PartialEq, Eq)]
pub struct Plan {
    pub unit: u16,
    pub levels: Vec<Level>,
}

impl Level {
    /// Packs items of these rates, in order. An item of rate 0 is none.
    fn pack(fitting: Fitting, unit: u16, rates: &[u16]) -> Level {
        let mut level = Level { homes: vec![None; rates.len()], servers: Vec::new() };
        for (item, &rate) in rates.iter().enumerate().filter(|(_, &rate)| rate > 0) {
            level.place(fitting, unit, item, rate);
        }
        level
    }

    fn place(&mut self, fitting: Fitting, unit: u16, item: usize, rate: u16) {
        let used = self.rates();
        let home = fitting.fit(&used, unit, rate).unwrap_or(used.len());
        if home == used.len() {
            self.servers.push(Server { clients: Vec::new(), rate: 0 });
        }
        self.servers[home].clients.push(item);
        self.servers[home].rate += rate;
        self.homes[item] = Some(home);
    }

    /// The rates of the servers.
    pub fn rates(&self) -> Vec<u16> {
        self.servers.iter().map(|server| server.rate).collect()
    }
}

impl Plan {
    /// The plan of all tasks, idle ones included.
    pub fn make(fitting: Fitting, unit: u16, rates: &[u16]) -> Plan {
        let mut plan = Plan { unit, levels: Vec::new() };
        let mut items = rates.to_vec();
        loop {
            let level = Level::pack(fitting, unit, &items);
            items = level.rates().iter().map(|rate| unit - rate).collect();
            plan.levels.push(level);
            if items.iter().all(|&dual| dual == 0) {
                return plan;
            }
        }
    }

    pub fn is_root(&self, level: usize, server: usize) -> bool {
        self.levels[level].servers[server].rate == self.unit
    }

    /// The levels less one.
    pub fn reductions(&self) -> usize {
        self.levels.len().saturating_sub(1)
    }

    /// The way up from a task: its server in each level, up to a root.
    pub fn climb(&self, task: usize) -> Vec<usize> {
        let mut way = Vec::new();
        let mut item = task;
        for level in &self.levels {
            match level.homes[item] {
                Some(home) => item = home,
                None => break,
            }
            way.push(item);
        }
        way
    }
}
