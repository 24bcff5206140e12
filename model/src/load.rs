//! Loads: what may be opened, and the idle tasks that fill the cores.

use crate::refusal::{refuse_if, Refusal};

pub const MOST_CORES: u32 = 16;
pub const MOST_UNIT: u32 = 1_000;
pub const MOST_FRAMES: u32 = 65_535;
pub const MOST_TASKS: usize = 64;

/// Cores, unit, frames, and the rates of the tasks of a sheet.
#[derive(Clone, Debug, Default, PartialEq, Eq)]
pub struct Load {
    pub cores: u32,
    pub unit: u32,
    pub frames: u32,
    pub rates: Vec<u16>,
}

impl Load {
    /// The first row of the table that holds, if any does.
    pub fn check(&self) -> Result<(), Refusal> {
        refuse_if(!(1..=MOST_CORES).contains(&self.cores), Refusal::BadCores)?;
        refuse_if(!(1..=MOST_UNIT).contains(&self.unit), Refusal::BadUnit)?;
        refuse_if(!(1..=MOST_FRAMES).contains(&self.frames), Refusal::BadFrames)?;
        refuse_if(!(1..=MOST_TASKS).contains(&self.rates.len()), Refusal::BadTaskCount)?;
        if let Some(task) = self.rates.iter().position(|&rate| rate == 0 || u32::from(rate) > self.unit) {
            return Err(Refusal::BadRate(task));
        }
        refuse_if(self.sum() > self.capacity(), Refusal::Overload)
    }

    fn sum(&self) -> u32 {
        self.rates.iter().map(|&rate| u32::from(rate)).sum()
    }

    fn capacity(&self) -> u32 {
        self.cores * self.unit
    }

    /// The rates of the idle tasks of an allowed load: whole units, then the rest.
    pub fn idle(&self) -> Vec<u16> {
        let missing = self.capacity() - self.sum();
        let whole = missing / self.unit;
        let rest = missing % self.unit;
        let mut idle = vec![self.unit as u16; whole as usize];
        if rest > 0 {
            idle.push(rest as u16);
        }
        idle
    }

    /// The rates of all tasks, idle ones included.
    pub fn all_rates(&self) -> Vec<u16> {
        let mut all = self.rates.clone();
        all.extend(self.idle());
        all
    }
}
