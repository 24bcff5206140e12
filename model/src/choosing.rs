//! Shares, balance, and choosing rules: which client of a server runs next.

pub const MOST_CLIENTS: usize = 80;

/// What is known of a task, a server or a dual.
#[derive(Clone, Copy, Debug, Default, PartialEq, Eq)]
pub struct Share {
    pub left: u32,
    pub rate: u16,
    pub deadline: u32,
}

impl Share {
    /// Left, and rate for each frame from the deadline up to this frame.
    pub fn up_to(&self, frame: u32) -> i64 {
        i64::from(self.left) + i64::from(self.rate) * (i64::from(frame) - i64::from(self.deadline))
    }

    /// The next job, from one frame to another.
    pub fn renew(&mut self, now: u32, deadline: u32) {
        self.left = u32::from(self.rate) * (deadline - now);
        self.deadline = deadline;
    }

    /// One tick less.
    pub fn spend(&mut self) {
        self.left = self.left.checked_sub(1).expect("what runs has left");
    }
}

/// What the clients need up to a frame, over those whose deadline is not after it.
fn demand(clients: &[Share], frame: u32) -> i64 {
    clients.iter().filter(|client| client.deadline <= frame).map(|client| client.up_to(frame)).sum()
}

/// Whether a server is balanced with its clients.
///
/// Between two deadlines what clients need grows by at most the server's rate for each frame, and so does what
/// the server brings; from the latest on both grow alike. So the deadlines of the clients are the only frames to look at.
pub fn balanced(server: &Share, clients: &[Share]) -> bool {
    let rates: i64 = clients.iter().map(|client| i64::from(client.rate)).sum();
    let mut deadlines: Vec<u32> = clients.iter().map(|client| client.deadline).collect();
    deadlines.sort_unstable();
    let (Some(&least), Some(&latest)) = (deadlines.first(), deadlines.last()) else {
        return false;
    };
    rates == i64::from(server.rate)
        && least == server.deadline
        && deadlines.iter().all(|&frame| demand(clients, frame) <= server.up_to(frame))
        && demand(clients, latest) == server.up_to(latest)
}

#[derive(Clone, Copy, Debug, Default, PartialEq, Eq)]
pub enum Choosing {
    #[default]
    Earliest,
    Slack,
}

/// What the server brings up to the client's deadline, less the client's left.
pub fn slack(server: &Share, client: &Share) -> i64 {
    server.up_to(client.deadline) - i64::from(client.left)
}

impl Choosing {
    pub const ALL: [Choosing; 2] = [Choosing::Earliest, Choosing::Slack];

    /// The client named, by its place.
    pub fn choose(self, server: &Share, clients: &[Share]) -> Option<usize> {
        if clients.len() > MOST_CLIENTS {
            return None;
        }
        let key = |client: &Share| match self {
            Choosing::Earliest => i64::from(client.deadline),
            Choosing::Slack => slack(server, client),
        };
        // Of equals, `min_by_key` gives the first.
        let with_left = clients.iter().enumerate().filter(|(_, client)| client.left > 0);
        with_left.min_by_key(|(_, client)| key(client)).map(|(place, _)| place)
    }
}
