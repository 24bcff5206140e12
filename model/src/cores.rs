//! On which core each named task runs, and the count of preemptions.

pub const ALL_TASKS: usize = 80;
const ALL_CORES: usize = 16;

/// What is remembered of earlier ticks.
#[derive(Clone, Debug, Default, PartialEq, Eq)]
pub struct Cores {
    /// The task on each core in the previous granted tick.
    holds: Vec<Option<usize>>,
    /// The core that each task last ran on.
    last: Vec<Option<usize>>,
}

impl Cores {
    pub fn new(cores: usize) -> Cores {
        Cores { holds: vec![None; cores.min(ALL_CORES)], last: vec![None; ALL_TASKS] }
    }

    /// Places the tasks that a tick names, and tells which task each core holds.
    pub fn place(&mut self, named: &[usize]) -> &[Option<usize>] {
        let mut waiting: Vec<usize> = named.iter().copied().filter(|&task| task < ALL_TASKS).collect();
        waiting.sort_unstable();
        waiting.dedup();
        let mut next = vec![None; self.holds.len()];
        let before = std::mem::take(&mut self.holds);
        give(&mut next, &mut waiting, |_, task| before.iter().position(|&held| held == Some(task)));
        give(&mut next, &mut waiting, |_, task| self.last[task]);
        give(&mut next, &mut waiting, |next, _| next.iter().position(|held| held.is_none()));
        for (core, held) in next.iter().enumerate() {
            if let &Some(task) = held {
                self.last[task] = Some(core);
            }
        }
        self.holds = next;
        &self.holds
    }
}

/// Gives each waiting task the core it wishes, if that is free; the others wait on.
fn give(next: &mut [Option<usize>], waiting: &mut Vec<usize>, wish: impl Fn(&[Option<usize>], usize) -> Option<usize>) {
    waiting.retain(|&task| match wish(next, task) {
        Some(core) if next[core].is_none() => {
            next[core] = Some(task);
            false
        }
        _ => true,
    });
}

/// Writes the tasks held into a core list; what has no task or no entry stays as it is.
pub fn write(holds: &[Option<usize>], list: &mut [u8]) {
    for (entry, held) in list.iter_mut().zip(holds) {
        if let &Some(task) = held {
            *entry = task as u8;
        }
    }
}

/// How many of the tasks that had left after the previous tick named them are not named now.
pub fn preemptions(unfinished: &[usize], named: &[usize]) -> u32 {
    unfinished.iter().filter(|task| !named.contains(task)).count() as u32
}
