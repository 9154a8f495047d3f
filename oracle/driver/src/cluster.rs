// Whole clusters: boxes, ordered links between them, and whatever may happen to either, chosen at random by a profile.
use crate::made::{entry, mutated};
use crate::pair::Pair;
use crate::port::Words;
use crate::random::Random;
use crate::rules::Table;
use crate::script::{Found, Script};
use omnipaxos::plain::*;
use std::collections::VecDeque;

/// How often each thing happens, how large proposals are, how long a log the boxes start with, how much of it may be undecided,
/// and how many of a leader's drains, in percent, are left out.
pub struct Profile {
    pub name: &'static str,
    deliver: u64,
    lose: u64,
    cut: u64,
    drain: u64,
    propose: u64,
    leader: u64,
    reconnect: u64,
    resend: u64,
    restart: u64,
    hostile: u64,
    proposal: (usize, usize),
    log: (usize, usize),
    undecided: usize,
    idle: u64,
}

#[rustfmt::skip]
pub const PROFILES: &[Profile] = &[
    Profile { name: "calm", deliver: 60, lose: 0, cut: 0, drain: 25, propose: 10, leader: 1, reconnect: 1, resend: 2, restart: 0, hostile: 0, proposal: (1, 3), log: (0, 0), undecided: 3, idle: 0 },
    Profile { name: "losses", deliver: 50, lose: 5, cut: 1, drain: 25, propose: 8, leader: 2, reconnect: 4, resend: 4, restart: 1, hostile: 0, proposal: (1, 4), log: (0, 0), undecided: 3, idle: 0 },
    Profile { name: "many leaders", deliver: 50, lose: 2, cut: 0, drain: 22, propose: 8, leader: 12, reconnect: 3, resend: 3, restart: 1, hostile: 0, proposal: (1, 3), log: (0, 3), undecided: 3, idle: 0 },
    Profile { name: "many sessions", deliver: 55, lose: 2, cut: 1, drain: 25, propose: 5, leader: 1, reconnect: 15, resend: 10, restart: 2, hostile: 0, proposal: (1, 3), log: (0, 8), undecided: 3, idle: 0 },
    Profile { name: "full logs", deliver: 50, lose: 2, cut: 0, drain: 22, propose: 14, leader: 6, reconnect: 2, resend: 3, restart: 1, hostile: 0, proposal: (1, 16), log: (470, 512), undecided: 3, idle: 0 },
    Profile { name: "full queues", deliver: 50, lose: 1, cut: 0, drain: 2, propose: 15, leader: 5, reconnect: 10, resend: 15, restart: 0, hostile: 0, proposal: (1, 2), log: (0, 4), undecided: 3, idle: 0 },
    Profile { name: "full stores", deliver: 50, lose: 0, cut: 0, drain: 14, propose: 1, leader: 2, reconnect: 3, resend: 30, restart: 1, hostile: 0, proposal: (1, 16), log: (380, 500), undecided: 500, idle: 93 },
    Profile { name: "forwards", deliver: 45, lose: 2, cut: 0, drain: 18, propose: 25, leader: 5, reconnect: 2, resend: 3, restart: 2, hostile: 0, proposal: (1, 6), log: (0, 0), undecided: 3, idle: 0 },
    Profile { name: "restarts", deliver: 50, lose: 3, cut: 1, drain: 22, propose: 8, leader: 5, reconnect: 4, resend: 5, restart: 8, hostile: 0, proposal: (1, 4), log: (0, 6), undecided: 3, idle: 0 },
    Profile { name: "strangers", deliver: 45, lose: 2, cut: 0, drain: 20, propose: 8, leader: 4, reconnect: 4, resend: 4, restart: 1, hostile: 18, proposal: (1, 5), log: (0, 20), undecided: 3, idle: 0 },
];

pub fn random_cluster(random: &mut Random) -> Cluster {
    let depots = 2 + random.below(6);
    let flexible = random.one_in(2).then(|| {
        let read = 1 + random.below(depots);
        let least = depots + 1 - read;
        (read, least + random.below(depots - least + 1))
    });
    Cluster { depots, flexible }
}

pub struct Net {
    cluster: Cluster,
    pub pairs: Vec<Pair>,
    links: Vec<VecDeque<Msg>>,
    starts: Vec<Option<State>>,
    history: Vec<Vec<Event>>,
    round: u32,
    /// Every step that was taken, in order: box and event.
    order: Vec<(usize, Event)>,
}

impl Net {
    pub fn fresh(cluster: Cluster) -> Net {
        let d = cluster.depots as usize;
        Net {
            cluster,
            pairs: (1..=cluster.depots).map(|pid| Pair::fresh(cluster, pid)).collect(),
            links: vec![VecDeque::new(); d * d],
            starts: vec![None; d],
            history: vec![vec![]; d],
            round: 0,
            order: vec![],
        }
    }

    /// Boxes that hold parts of one log, accepted in one of two rounds, all with what is decided, and restarted.
    fn start(&mut self, random: &mut Random, profile: &Profile) {
        let n = random.range(profile.log.0, profile.log.1);
        if n == 0 {
            return;
        }
        let entries: Vec<u64> = (0..n).map(|_| entry(random)).collect();
        let decided = n - random.range(0, profile.undecided.min(n));
        self.round = 2;
        for i in 0..self.pairs.len() {
            let length = decided + random.range(0, n - decided);
            let s = State {
                promise: Ballot { round: 2, priority: 0, pid: 1 },
                accepted_round: Ballot { round: 1, priority: 0, pid: 1 + random.below(2) },
                decided: decided - random.range(0, 2.min(decided)),
                length,
                log: entries[..length].to_vec(),
                phase: Phase::Recover,
                ..State::fresh(self.cluster.depots)
            };
            self.pairs[i].load(&s, random);
            self.starts[i] = Some(s);
        }
    }

    /// A step of box `at` (from 0); what a drain hands out goes onto the links. Some difference ends the run, made small.
    pub fn step(&mut self, at: usize, e: Event, table: &mut Table) -> Result<u32, Box<Found>> {
        self.history[at].push(e.clone());
        match self.pairs[at].step(&e, table, None) {
            Ok(outcome) => {
                if outcome.no == 0 {
                    self.order.push((at, e));
                }
                for m in outcome.handed_out {
                    self.links[at * self.pairs.len() + m.to as usize - 1].push_back(m.msg);
                }
                Ok(outcome.no)
            }
            Err(difference) => {
                let steps = self.history[at].clone();
                let script = Script { cluster: self.cluster, pid: at as u64 + 1, start: self.starts[at].clone(), steps };
                Err(Box::new(Found { script, difference }))
            }
        }
    }

    /// A link that holds something, from a random place on.
    fn busy(&self, random: &mut Random) -> Option<usize> {
        let n = self.links.len();
        let from = random.below(n as u64) as usize;
        (0..n).map(|i| (from + i) % n).find(|i| !self.links[*i].is_empty())
    }

    fn deliver(&mut self, link: usize, random: &mut Random, table: &mut Table) -> Result<(), Box<Found>> {
        let d = self.pairs.len();
        let Some(msg) = self.links[link].pop_front() else { return Ok(()) };
        let again = msg.clone();
        let no = self.step(link % d, Event::Message { from: (link / d) as u64 + 1, msg }, table)?;
        // refused for want of room: lost, or offered again before any later one
        if matches!(no, 5 | 6 | 8) && random.one_in(2) {
            self.links[link].push_front(again);
        }
        Ok(())
    }

    fn leader(&mut self, random: &mut Random, table: &mut Table) -> Result<(), Box<Found>> {
        let d = self.cluster.depots;
        let pid = 1 + random.below(d);
        if random.percent(70) || self.round == 0 {
            self.round += 1;
        }
        let n = Ballot { round: self.round, priority: random.below(2) as u32, pid };
        self.step(pid as usize - 1, Event::Leader { n }, table)?;
        for other in 0..d as usize {
            if other as u64 + 1 != pid && random.one_in(3) {
                self.step(other, Event::Leader { n }, table)?;
            }
        }
        Ok(())
    }

    fn act(&mut self, p: &Profile, random: &mut Random, table: &mut Table) -> Result<(), Box<Found>> {
        let at = random.below(self.cluster.depots) as usize;
        let weights = [p.deliver, p.lose, p.cut, p.drain, p.propose, p.leader, p.reconnect, p.resend, p.restart, p.hostile];
        match random.weighed(&weights) {
            0 => match self.busy(random) {
                Some(link) => self.deliver(link, random, table)?,
                None if self.pairs[at].state.leader && random.percent(p.idle) => (),
                None => drop(self.step(at, Event::Drain, table)?),
            },
            1 => drop(self.busy(random).map(|link| self.links[link].pop_front())),
            2 => drop(self.busy(random).map(|link| self.links[link].clear())),
            3 if self.pairs[at].state.leader && random.percent(p.idle) => (),
            3 => drop(self.step(at, Event::Drain, table)?),
            4 => {
                let n = random.range(p.proposal.0, p.proposal.1);
                let entries = (0..n).map(|_| entry(random)).collect();
                self.step(at, Event::Propose { entries }, table)?;
            }
            5 => self.leader(random, table)?,
            6 => drop(self.step(at, Event::Reconnect { pid: 1 + random.below(self.cluster.depots) }, table)?),
            7 => drop(self.step(at, Event::Resend, table)?),
            8 => drop(self.step(at, Event::Restart, table)?),
            _ => {
                let d = self.pairs.len();
                if random.one_in(3) {
                    // an old message once more
                    let old: Vec<&Event> = self.history[at].iter().rev().take(60).filter(|e| matches!(e, Event::Message { .. })).collect();
                    if !old.is_empty() {
                        let e = (*random.pick(&old)).clone();
                        self.step(at, e, table)?;
                    }
                } else if let Some(link) = self.busy(random) {
                    let msg = mutated(random, &self.links[link][0], &self.pairs[link % d].state, self.cluster.depots);
                    let from = if random.percent(95) { (link / d) as u64 + 1 } else { random.below(9) };
                    self.step(link % d, Event::Message { from, msg }, table)?;
                }
            }
        }
        Ok(())
    }

    pub fn waits(&self, from: usize, to: usize) -> bool {
        !self.links[from * self.pairs.len() + to].is_empty()
    }

    pub fn take(&mut self, from: usize, to: usize) -> Option<Msg> {
        let d = self.pairs.len();
        self.links[from * d + to].pop_front()
    }

    /// A ballot of box `at` above every one before.
    pub fn next_ballot(&mut self, at: usize) -> Ballot {
        self.round += 1;
        Ballot { round: self.round, priority: 0, pid: at as u64 + 1 }
    }

    pub fn links(&self) -> (Vec<VecDeque<Msg>>, u32) {
        (self.links.clone(), self.round)
    }

    pub fn put_links(&mut self, links: (Vec<VecDeque<Msg>>, u32)) {
        (self.links, self.round) = links;
    }

    /// Takes a box's last step back.
    pub fn put_back(&mut self, at: usize, words: Words, state: State) {
        self.history[at].pop();
        self.pairs[at].node.load(&state);
        self.pairs[at].words = words;
        self.pairs[at].state = state;
    }

    pub fn steps(&self) -> u64 {
        self.history.iter().map(|h| h.len() as u64).sum()
    }
}

/// One cluster by a profile; how many steps were compared.
pub fn run(profile: &Profile, seed: u64, steps: u64, table: &mut Table) -> Result<u64, Box<Found>> {
    let mut random = Random::seeded(seed);
    let mut net = Net::fresh(random_cluster(&mut random));
    net.start(&mut random, profile);
    while net.steps() < steps {
        net.act(profile, &mut random, table)?;
    }
    Ok(net.steps())
}

/// The steps that three calm depots take, at least so many, compared as they are made.
pub fn calm(seed: u64, steps: usize, table: &mut Table) -> Result<Vec<(usize, Event)>, Box<Found>> {
    let mut random = Random::seeded(seed);
    let mut net = Net::fresh(Cluster { depots: 3, flexible: None });
    while net.order.len() < steps {
        net.act(&PROFILES[0], &mut random, table)?;
    }
    net.order.truncate(steps);
    Ok(net.order)
}
