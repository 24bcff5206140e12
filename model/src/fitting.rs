//! Fitting rules: in which open server the next item is placed.

#[derive(Clone, Copy, Debug, PartialEq, Eq)]
pub enum Fitting {
    First,
    Best,
    Worst,
}

impl Fitting {
    pub const ALL: [Fitting; 3] = [Fitting::First, Fitting::Best, Fitting::Worst];

    /// The server named for an item of this rate, given the parts used by each server.
    pub fn fit(self, used: &[u16], unit: u16, rate: u16) -> Option<usize> {
        let free = |server: usize| unit - used[server];
        let has_room = |&server: &usize| u32::from(used[server]) + u32::from(rate) <= u32::from(unit);
        let mut with_room = (0..used.len()).filter(has_room);
        let first = with_room.next()?;
        Some(with_room.fold(first, |best, server| {
            let better = match self {
                Fitting::First => false,
                Fitting::Best => free(server) < free(best),
                Fitting::Worst => free(server) > free(best),
            };
            if better {
                server
            } else {
                best
            }
        }))
    }
}
