// A box in plain data, in the words of docs/RULES.md: what both sides are read into, set from, and compared by.

/// Compared by round, then priority, then pid.
#[derive(Clone, Copy, Debug, Default, PartialEq, Eq, PartialOrd, Ord)]
pub struct Ballot {
    pub round: u32,
    pub priority: u32,
    pub pid: u64,
}

/// Session, then counter.
pub type Number = (u64, u64);

#[derive(Clone, Debug, Default, PartialEq, Eq)]
pub struct Sync {
    pub start: usize,
    pub entries: Vec<u64>,
}

impl Sync {
    pub fn end(&self) -> usize {
        self.start.saturating_add(self.entries.len())
    }
}

#[derive(Clone, Copy, Debug, Default, PartialEq, Eq)]
pub struct Meta {
    pub n_accepted: Ballot,
    pub accepted: usize,
    pub decided: usize,
    pub pid: u64,
}

#[derive(Clone, Copy, Debug, Default, PartialEq, Eq)]
pub enum Promised {
    #[default]
    No,
    Yes(Meta),
    Higher,
}

#[derive(Clone, Copy, Debug, Default, PartialEq, Eq)]
pub struct Place {
    pub promised: Promised,
    pub number: Number,
    pub accepted: usize,
    pub latest: Option<usize>,
}

#[derive(Clone, Debug, Default, PartialEq, Eq)]
pub struct Promise {
    pub n: Ballot,
    pub n_accepted: Ballot,
    pub decided: usize,
    pub accepted: usize,
    pub sync: Option<Sync>,
}

#[derive(Clone, Debug, PartialEq, Eq)]
pub enum Msg {
    PrepareReq { n: Ballot },
    Prepare { n: Ballot, n_accepted: Ballot, decided: usize, accepted: usize },
    Promise(Promise),
    AcceptSync { n: Ballot, number: Number, decided: usize, sync: Sync },
    AcceptDecide { n: Ballot, number: Number, decided: usize, entries: Vec<u64> },
    Accepted { n: Ballot, accepted: usize },
    NotAccepted { n: Ballot },
    Decide { n: Ballot, number: Number, decided: usize },
    Forward { entries: Vec<u64> },
}

impl Msg {
    pub fn entries(&self) -> &[u64] {
        match self {
            Msg::Promise(Promise { sync: Some(s), .. }) | Msg::AcceptSync { sync: s, .. } => &s.entries,
            Msg::AcceptDecide { entries, .. } | Msg::Forward { entries } => entries,
            _ => &[],
        }
    }
}

#[derive(Clone, Debug, PartialEq, Eq)]
pub struct Sent {
    pub to: u64,
    pub msg: Msg,
}

#[derive(Clone, Copy, Debug, Default, PartialEq, Eq)]
pub enum Phase {
    Prepare,
    Accept,
    Recover,
    #[default]
    None,
}

/// Everything that a box keeps. `length` is the accepted index that the box itself tells.
#[derive(Clone, Debug, Default, PartialEq, Eq)]
pub struct State {
    pub promise: Ballot,
    pub accepted_round: Ballot,
    pub decided: usize,
    pub length: usize,
    pub log: Vec<u64>,
    pub leader: bool,
    pub phase: Phase,
    pub buffered: Vec<u64>,
    pub number: Number,
    pub cached: Option<Promise>,
    pub remembered: Option<(Ballot, usize)>,
    pub n_leader: Ballot,
    pub places: Vec<Place>,
    pub best: Meta,
    pub held: Option<Sync>,
    pub queue: Vec<Sent>,
}

impl State {
    pub fn fresh(depots: u64) -> State {
        State { places: vec![Place::default(); depots as usize], ..State::default() }
    }
    pub fn queued_entries(&self) -> usize {
        self.queue.iter().map(|s| s.msg.entries().len()).sum()
    }
}

#[derive(Clone, Debug, PartialEq, Eq)]
pub enum Event {
    Message { from: u64, msg: Msg },
    Propose { entries: Vec<u64> },
    Leader { n: Ballot },
    Reconnect { pid: u64 },
    Resend,
    Drain,
    Restart,
}

/// How many depots, and the quorums: a majority, or a read and a write size.
#[derive(Clone, Copy, Debug, PartialEq, Eq)]
pub struct Cluster {
    pub depots: u64,
    pub flexible: Option<(u64, u64)>,
}

impl Cluster {
    pub fn read(&self) -> u64 {
        self.flexible.map_or(self.depots / 2 + 1, |q| q.0)
    }
    pub fn write(&self) -> u64 {
        self.flexible.map_or(self.depots / 2 + 1, |q| q.1)
    }
}
