// Short scripts, all of them: every way to go on from a start, step by step, to a depth.
use crate::cluster::Net;
use crate::rules::Table;
use crate::script::Found;
use omnipaxos::plain::*;

/// One thing that may happen to a cluster. Boxes and links are told from 0.
#[derive(Clone, Copy)]
enum Act {
    Deliver(usize, usize),
    Lose(usize, usize),
    Drain(usize),
    Propose(usize),
    Lead(usize),
    Reconnect(usize, usize),
    Resend(usize),
    Restart(usize),
}

/// A start: how many depots, the quorums, and what happened before.
pub struct Start {
    pub name: &'static str,
    cluster: Cluster,
    before: &'static [Act],
    depth: usize,
}

use Act::*;

const PREPARED: &[Act] = &[Lead(0), Propose(0), Drain(0), Deliver(0, 1), Drain(1), Deliver(1, 0)];
const ACCEPTING: &[Act] = &[Lead(0), Drain(0), Deliver(0, 1), Drain(1), Deliver(1, 0), Drain(0), Deliver(0, 1), Drain(1), Deliver(1, 0), Propose(0)];

#[rustfmt::skip]
pub const STARTS: &[Start] = &[
    Start { name: "two fresh depots", cluster: Cluster { depots: 2, flexible: None }, before: &[], depth: 5 },
    Start { name: "two depots, prepared", cluster: Cluster { depots: 2, flexible: None }, before: PREPARED, depth: 5 },
    Start { name: "two depots, accepting", cluster: Cluster { depots: 2, flexible: None }, before: ACCEPTING, depth: 5 },
    Start { name: "two depots, read 1 write 2", cluster: Cluster { depots: 2, flexible: Some((1, 2)) }, before: &[], depth: 5 },
    Start { name: "three depots, accepting", cluster: Cluster { depots: 3, flexible: None }, before: ACCEPTING, depth: 4 },
    Start { name: "three depots, read 3 write 1", cluster: Cluster { depots: 3, flexible: Some((3, 1)) }, before: &[], depth: 4 },
];

fn acts(net: &Net, boxes: usize) -> Vec<Act> {
    let mut all = vec![];
    for b in 0..boxes {
        all.extend([Drain(b), Propose(b), Lead(b), Resend(b), Restart(b)]);
        for to in (0..boxes).filter(|to| *to != b) {
            all.push(Reconnect(b, to));
            if net.waits(b, to) {
                all.extend([Deliver(b, to), Lose(b, to)]);
            }
        }
    }
    all
}

fn apply(net: &mut Net, act: Act, table: &mut Table) -> Result<(), Box<Found>> {
    let (at, e) = match act {
        Deliver(from, to) => (to, Event::Message { from: from as u64 + 1, msg: net.take(from, to).unwrap() }),
        Lose(from, to) => {
            net.take(from, to);
            return Ok(());
        }
        Drain(b) => (b, Event::Drain),
        Propose(b) => (b, Event::Propose { entries: vec![5127] }),
        Lead(b) => {
            let n = net.next_ballot(b);
            (b, Event::Leader { n })
        }
        Reconnect(b, to) => (b, Event::Reconnect { pid: to as u64 + 1 }),
        Resend(b) => (b, Event::Resend),
        Restart(b) => (b, Event::Restart),
    };
    net.step(at, e, table).map(|_| ())
}

fn stepped(act: Act) -> Option<usize> {
    match act {
        Deliver(_, b) | Drain(b) | Propose(b) | Lead(b) | Reconnect(b, _) | Resend(b) | Restart(b) => Some(b),
        Lose(..) => None,
    }
}

fn go_on(net: &mut Net, boxes: usize, depth: usize, table: &mut Table) -> Result<u64, Box<Found>> {
    if depth == 0 {
        return Ok(0);
    }
    let mut count = 0;
    for act in acts(net, boxes) {
        let links = net.links();
        let found = stepped(act).map(|b| (b, net.pairs[b].words.clone(), net.pairs[b].state.clone()));
        apply(net, act, table)?;
        count += found.is_some() as u64;
        count += go_on(net, boxes, depth - 1, table)?;
        net.put_links(links);
        if let Some((b, words, state)) = found {
            net.put_back(b, words, state);
        }
    }
    Ok(count)
}

/// Every script from a start; how many steps were compared.
pub fn run(start: &Start, table: &mut Table) -> Result<u64, Box<Found>> {
    let mut net = Net::fresh(start.cluster);
    for act in start.before {
        apply(&mut net, *act, table)?;
    }
    go_on(&mut net, start.cluster.depots as usize, start.depth, table)
}
