// Single boxes in hand-made records, reachable or not, given hostile messages; and records that are broken in one way.
use crate::broken;
use crate::cluster::random_cluster;
use crate::expect::{MAX_ENTRY, MAX_LOG};
use crate::pair::Pair;
use crate::random::Random;
use crate::rules::Table;
use crate::script::{Found, Script};
use omnipaxos::plain::*;

pub fn entry(random: &mut Random) -> u64 {
    let day = if random.one_in(8) { random.below(65_536) } else { random.below(12) };
    (day * 2 + random.below(2)) * 256 + random.below(4)
}

/// One of few values, so that logs and syncs are often alike.
fn few(random: &mut Random) -> u64 {
    [5127, 5127, 5127, 7431, 0, MAX_ENTRY][random.weighed(&[6, 6, 6, 1, 1, 1])]
}

fn entries(random: &mut Random, n: usize) -> Vec<u64> {
    let value = few(random);
    (0..n).map(|_| if random.one_in(12) { few(random) } else { value }).collect()
}

fn length(random: &mut Random) -> usize {
    match random.below(20) {
        0..=11 => random.range(0, 6),
        12..=14 => random.range(7, 40),
        15 => MAX_LOG,
        16 => MAX_LOG - 1,
        17 => random.range(MAX_LOG - 20, MAX_LOG),
        _ => random.range(0, MAX_LOG),
    }
}

fn counter(random: &mut Random) -> u64 {
    match random.below(12) {
        0 => u64::MAX,
        1 => u64::MAX - 1,
        _ => random.below(4),
    }
}

fn near(random: &mut Random, n: usize) -> usize {
    match random.below(8) {
        0..=3 => n,
        4 => n.saturating_sub(1),
        5 => n + 1,
        6 => random.range(0, n),
        _ => random.range(0, 8),
    }
}

/// A handful of ballots, so that equal ones are frequent.
pub fn ballots(random: &mut Random, depots: u64) -> Vec<Ballot> {
    let mut all: Vec<Ballot> =
        (0..4).map(|_| Ballot { round: random.below(4) as u32, priority: random.below(2) as u32, pid: 1 + random.below(depots) }).collect();
    all.push(Ballot::default());
    if random.one_in(10) {
        all.push(Ballot { round: u32::MAX, priority: u32::MAX, pid: depots });
    }
    all
}

fn some_ballot(random: &mut Random, pool: &[Ballot]) -> Ballot {
    let nonzero: Vec<Ballot> = pool.iter().copied().filter(|b| *b != Ballot::default()).collect();
    *random.pick(&nonzero)
}

/// A sync that mostly may be put on the log.
fn sync(random: &mut Random, s: &State) -> Sync {
    let start = match random.below(6) {
        0 | 1 => s.decided,
        2 => s.log.len(),
        3 => random.range(0, s.decided),
        _ => near(random, s.log.len()).min(MAX_LOG),
    };
    let n = match random.below(5) {
        0 => 0,
        1 => (s.decided.max(start) - start) + random.range(0, 2),
        2 => MAX_LOG - start,
        _ => random.range(0, 9),
    };
    let alike = random.percent(70);
    let take = |i: usize, random: &mut Random| s.log.get(start + i).copied().filter(|_| alike).unwrap_or_else(|| few(random));
    Sync { start, entries: (0..n.min(MAX_LOG - start)).map(|i| take(i, random)).collect() }
}

fn meta(random: &mut Random, s: &State, pool: &[Ballot], pid: u64) -> Meta {
    let accepted = near(random, s.log.len());
    Meta { n_accepted: *random.pick(pool), accepted, decided: near(random, s.decided).min(accepted), pid }
}

pub fn message(random: &mut Random, s: &State, pool: &[Ballot]) -> Msg {
    let n = match random.below(10) {
        0..=3 if s.promise != Ballot::default() => s.promise,
        4..=6 if s.n_leader != Ballot::default() => s.n_leader,
        _ => some_ballot(random, pool),
    };
    let number = match random.below(8) {
        0..=4 => (s.number.0, s.number.1.wrapping_add(1)),
        5 => s.number,
        _ => (counter(random), counter(random)),
    };
    let accepted = near(random, s.log.len()).min(MAX_LOG);
    let decided = near(random, s.decided).min(MAX_LOG);
    match random.below(16) {
        0 => Msg::PrepareReq { n: *random.pick(pool) },
        1 | 2 => Msg::Prepare { n, n_accepted: *random.pick(pool), decided: decided.min(accepted), accepted },
        3..=5 => {
            let m = meta(random, s, pool, 1);
            let m = Meta { accepted: m.accepted.min(MAX_LOG), decided: m.decided.min(MAX_LOG), ..m };
            Msg::Promise(Promise { n, n_accepted: m.n_accepted, decided: m.decided, accepted: m.accepted, sync: random.percent(60).then(|| sync(random, s)) })
        }
        6..=8 => Msg::AcceptSync { n, number, decided, sync: sync(random, s) },
        9 | 10 => {
            let n_entries = [0, 1, 2, 5, MAX_LOG.saturating_sub(s.log.len()), MAX_LOG + 1 - s.log.len().min(MAX_LOG)][random.weighed(&[1, 6, 3, 2, 2, 1])];
            Msg::AcceptDecide { n, number, decided, entries: entries(random, n_entries) }
        }
        11 | 12 => Msg::Accepted { n, accepted },
        13 => Msg::NotAccepted { n },
        14 => Msg::Decide { n, number, decided: near(random, s.log.len()).min(MAX_LOG) },
        _ => {
            let k = [0, 1, 2, 15, 16, 17][random.weighed(&[1, 6, 3, 2, 3, 1])];
            Msg::Forward { entries: entries(random, k) }
        }
    }
}

/// A queue: short, or near its limit in messages or in entries.
fn queue(random: &mut Random, s: &State, pool: &[Ballot], depots: u64) -> Vec<Sent> {
    let (n, large) = match random.below(20) {
        0..=5 => (0, false),
        6..=14 => (random.range(1, 6), false),
        15 | 16 => (random.range(58, 64), false),
        17 => (64, false),
        _ => (random.range(8, 14), true),
    };
    let mut room = 4096;
    let mut all = vec![];
    for k in 0..n {
        let mut msg = message(random, s, pool);
        if large && k + 1 == n && random.percent(70) {
            let short = random.range(0, 20.min(room));
            msg = Msg::AcceptDecide { n: s.n_leader, number: (1, 1), decided: 0, entries: entries(random, room - short) };
        } else if large {
            let m = random.range(200, 512).min(room);
            msg = Msg::AcceptDecide { n: s.n_leader, number: (1, 1), decided: 0, entries: entries(random, m) };
        } else if random.percent(40) {
            msg = if s.leader {
                Msg::AcceptDecide { n: s.n_leader, number: (1, 1), decided: 0, entries: entries(random, 1) }
            } else {
                Msg::Accepted { n: s.promise, accepted: 0 }
            };
        }
        if msg.entries().len() > room || (!large && msg.entries().len() > 40) {
            msg = Msg::NotAccepted { n: s.promise };
        }
        room -= msg.entries().len();
        all.push(Sent { to: random.below(depots + 2), msg });
    }
    all
}

fn position(random: &mut Random, queue: &[Sent], fits: fn(&Msg) -> bool) -> Option<usize> {
    if queue.is_empty() || random.percent(35) {
        return None;
    }
    let fitting: Vec<usize> = (0..queue.len()).filter(|k| fits(&queue[*k].msg)).collect();
    if fitting.is_empty() || random.one_in(6) {
        return Some(random.below(queue.len() as u64) as usize);
    }
    Some(*random.pick(&fitting))
}

/// A record that is not broken.
pub fn state(random: &mut Random, depots: u64, pid: u64, pool: &[Ballot]) -> State {
    let mut s = State::fresh(depots);
    let n = length(random);
    s.log = entries(random, n);
    s.length = n;
    s.decided = near(random, n / 2).min(n);
    if random.one_in(4) {
        s.decided = n;
    }
    s.leader = random.percent(55);
    s.phase = [Phase::Prepare, Phase::Accept, Phase::Recover, Phase::None][random.weighed(&[8, 8, 2, 1])];
    s.promise = *random.pick(pool);
    s.accepted_round = *random.pick(pool);
    s.n_leader = *random.pick(pool);
    if s.leader {
        s.n_leader = Ballot { pid, ..s.n_leader };
        if random.percent(80) {
            s.promise = s.n_leader;
        }
    }
    s.buffered = {
        let k = [0, 1, 2, 14, 15, 16][random.weighed(&[5, 3, 2, 1, 1, 2])];
        entries(random, k)
    };
    s.number = (counter(random), counter(random));
    s.queue = queue(random, &s, pool, depots);
    s.remembered =
        position(random, &s.queue, |m| matches!(m, Msg::Accepted { .. })).map(|at| (if random.percent(75) { s.promise } else { *random.pick(pool) }, at));
    if random.percent(40) {
        let p = meta(random, &s, pool, pid);
        let n = if s.promise != Ballot::default() && random.percent(60) { s.promise } else { some_ballot(random, pool) };
        let x = random.one_in(2).then(|| sync(random, &s));
        s.cached = Some(Promise { n, n_accepted: p.n_accepted, decided: p.decided, accepted: p.accepted, sync: x });
    }
    let of = 1 + random.below(depots);
    s.best = meta(random, &s, pool, of);
    for at in 1..=depots {
        let m = meta(random, &s, pool, at);
        let promised = match random.below(10) {
            0..=5 => Promised::Yes(m),
            6..=8 => Promised::No,
            _ => Promised::Higher,
        };
        let place = Place {
            promised: if at == pid && s.leader { Promised::Yes(m) } else { promised },
            number: (counter(random), counter(random)),
            accepted: near(random, s.log.len()),
            latest: position(random, &s.queue, |m| matches!(m, Msg::AcceptDecide { .. })),
        };
        s.places[at as usize - 1] = place;
        if let (Promised::Yes(m), true) = (place.promised, random.one_in(3)) {
            s.best = m;
        }
    }
    s.held = random.percent(35).then(|| sync(random, &s));
    s
}

pub fn event(random: &mut Random, s: &State, depots: u64, pid: u64, pool: &[Ballot]) -> Event {
    match random.below(40) {
        0 | 1 => {
            let n = if random.one_in(3) { Ballot { round: 5, priority: 0, pid: 1 + random.below(depots) } } else { some_ballot(random, pool) };
            Event::Leader { n: if random.one_in(2) { Ballot { pid, ..n } } else { n } }
        }
        2 => Event::Reconnect { pid: 1 + random.below(depots) },
        3 | 4 => Event::Resend,
        5 => Event::Drain,
        6 => Event::Restart,
        7..=9 => {
            let k = [0, 1, 2, 15, 16, 17][random.weighed(&[1, 6, 3, 2, 3, 1])];
            Event::Propose { entries: entries(random, k) }
        }
        10 => unnamed(random, depots, pid, s, pool),
        _ => {
            let mut msg = message(random, s, pool);
            if random.percent(18) {
                msg = mutated(random, &msg, s, depots);
            }
            let leading = match &msg {
                Msg::Prepare { n, .. } | Msg::AcceptSync { n, .. } | Msg::AcceptDecide { n, .. } | Msg::Decide { n, .. } => Some(n.pid),
                _ => None,
            };
            let other = || (1..=depots).filter(|p| *p != pid).collect::<Vec<_>>();
            let from = leading.filter(|p| *p != pid).filter(|_| random.percent(95)).unwrap_or(*random.pick(&other()));
            Event::Message { from, msg }
        }
    }
}

/// A record changed so that a message passes the guards of its handler, and that message.
fn aimed(random: &mut Random, s: &mut State, depots: u64, pid: u64, pool: &[Ballot]) -> Event {
    let from = 1 + (pid + random.below(depots - 1)) % depots;
    let theirs = Ballot { pid: from, ..some_ballot(random, pool) };
    let ours = Ballot { pid, ..some_ballot(random, pool) };
    let way = random.below(12);
    match way {
        0..=3 => {
            s.leader = way == 3 && random.one_in(2);
            s.phase = if way == 0 { Phase::Prepare } else { Phase::Accept };
            s.promise = theirs;
            s.n_leader = if s.leader { ours } else { s.n_leader };
            if random.percent(60) {
                s.remembered = s.remembered.map(|r| (theirs, r.1));
            }
            if random.percent(60) {
                s.number = (random.below(3), random.below(3));
            }
        }
        4..=9 => {
            s.leader = true;
            s.phase = if way < 7 { Phase::Prepare } else { Phase::Accept };
            s.n_leader = ours;
            s.promise = ours;
            s.places[pid as usize - 1].promised = Promised::Yes(meta(random, s, pool, pid));
            if random.percent(50) {
                s.places.iter_mut().for_each(|p| p.number = (p.number.0 % 5, p.number.1 % 5));
            }
            if random.percent(50) {
                let longest = s.log.len();
                s.places.iter_mut().for_each(|p| p.accepted = p.accepted.min(longest));
            }
            if random.percent(50) {
                s.buffered = entries(random, (MAX_LOG - s.log.len()).min(16));
            }
        }
        _ => s.phase = if way == 10 { Phase::Recover } else { s.phase },
    }
    let expected = (s.number.0, s.number.1.wrapping_add(1));
    let number = [expected, s.number, (s.number.0, s.number.1.wrapping_add(2)), (counter(random), counter(random))][random.weighed(&[8, 1, 1, 1])];
    let accepted = near(random, s.log.len()).min(MAX_LOG);
    let decided = near(random, s.decided).min(MAX_LOG);
    let msg = match way {
        0 => Msg::AcceptSync { n: s.promise, number: (counter(random), 1), decided, sync: sync(random, s) },
        1 => {
            let room = MAX_LOG - s.log.len();
            let k = [0, 1, 2, room, room + 1][random.weighed(&[1, 4, 2, 1, 1])];
            let decided = if random.one_in(4) { near(random, (s.log.len() + k).min(MAX_LOG)).min(MAX_LOG) } else { decided };
            Msg::AcceptDecide { n: s.promise, number, decided, entries: entries(random, k) }
        }
        2 | 3 => Msg::Decide { n: s.promise, number, decided: near(random, s.log.len()).min(MAX_LOG) },
        4..=7 => {
            let m = meta(random, s, pool, from);
            let n_accepted = *random.pick(&[m.n_accepted, s.best.n_accepted, s.n_leader]);
            let accepted = if random.one_in(3) { s.best.accepted } else { m.accepted }.min(MAX_LOG);
            Msg::Promise(Promise { n: s.n_leader, n_accepted, decided: m.decided.min(accepted), accepted, sync: random.percent(60).then(|| sync(random, s)) })
        }
        8 => Msg::Accepted { n: s.n_leader, accepted },
        9 => {
            let k = random.range(1, 16);
            return Event::Propose { entries: entries(random, k) };
        }
        _ => {
            let n = if way == 10 { Ballot { pid: from, ..s.promise } } else { Ballot { round: s.promise.round.saturating_add(1), ..theirs } };
            s.promise = if way == 10 { n } else { s.promise };
            let n_accepted = *random.pick(&[s.accepted_round, theirs, Ballot::default()]);
            Msg::Prepare { n, n_accepted, decided: decided.min(accepted), accepted }
        }
    };
    Event::Message { from, msg }
}

/// Senders and depots named that are none.
fn unnamed(random: &mut Random, depots: u64, pid: u64, s: &State, pool: &[Ballot]) -> Event {
    let none = *random.pick(&[0, depots + 1, u64::MAX, pid]);
    match random.below(3) {
        0 => Event::Message { from: none, msg: message(random, s, pool) },
        1 => Event::Reconnect { pid: none },
        _ => Event::Leader { n: Ballot { round: random.below(2) as u32, priority: 0, pid: none } },
    }
}

/// The message with one field as a stranger might write it.
pub fn mutated(random: &mut Random, m: &Msg, s: &State, depots: u64) -> Msg {
    let mut m = m.clone();
    let ballot = match random.below(6) {
        0 => Ballot::default(),
        1 => Ballot { round: 1, priority: 0, pid: depots + 1 },
        2 => Ballot { round: 1, priority: 0, pid: 0 },
        3 => s.promise,
        4 => Ballot { round: s.promise.round.saturating_add(1), ..s.promise },
        _ => Ballot { round: s.promise.round.saturating_sub(1), ..s.promise },
    };
    let index = *random.pick(&[0, 1, s.decided, s.decided + 1, s.log.len(), s.log.len() + 1, MAX_LOG, MAX_LOG + 1, usize::MAX]);
    let which = random.below(4);
    let wild = |e: &mut Vec<u64>, random: &mut Random| match random.below(4) {
        0 => e.push(MAX_ENTRY + 1),
        1 => e.push(MAX_ENTRY),
        2 => e.clear(),
        _ => e.resize(e.len() + random.range(1, 20), 5127),
    };
    match (&mut m, which) {
        (Msg::PrepareReq { n } | Msg::NotAccepted { n }, _) => *n = ballot,
        (Msg::Prepare { n, .. }, 0) | (Msg::AcceptSync { n, .. }, 0) | (Msg::AcceptDecide { n, .. }, 0) => *n = ballot,
        (Msg::Accepted { n, .. }, 0) | (Msg::Decide { n, .. }, 0) => *n = ballot,
        (Msg::Promise(p), 0) => p.n = ballot,
        (Msg::Prepare { decided, .. }, 1) | (Msg::AcceptSync { decided, .. }, 1) | (Msg::AcceptDecide { decided, .. }, 1) => *decided = index,
        (Msg::Decide { decided, .. }, 1 | 2) => *decided = index,
        (Msg::Promise(p), 1) => p.decided = index,
        (Msg::Prepare { accepted, .. }, 2) | (Msg::Accepted { accepted, .. }, _) => *accepted = index,
        (Msg::Promise(p), 2) => p.accepted = index,
        (Msg::Prepare { n_accepted, .. }, _) => *n_accepted = ballot,
        (Msg::Promise(Promise { sync: Some(x), .. }), _) | (Msg::AcceptSync { sync: x, .. }, 2) => {
            if random.one_in(2) {
                x.start = index;
            } else {
                wild(&mut x.entries, random);
            }
        }
        (Msg::Promise(p), _) => p.n_accepted = ballot,
        (Msg::AcceptSync { number, .. } | Msg::AcceptDecide { number, .. } | Msg::Decide { number, .. }, 3) => *number = (counter(random), counter(random)),
        (Msg::AcceptDecide { entries, .. } | Msg::Forward { entries }, _) => wild(entries, random),
        _ => (),
    }
    m
}

/// One hand-made record and a few steps from it; how many steps were compared.
pub fn run(seed: u64, table: &mut Table) -> Result<u64, Box<Found>> {
    let mut random = Random::seeded(seed);
    let cluster = random_cluster(&mut random);
    let pid = 1 + random.below(cluster.depots);
    let mut pair = Pair::fresh(cluster, pid);
    let pool = ballots(&mut random, cluster.depots);
    let mut s = state(&mut random, cluster.depots, pid, &pool);
    let mut first = random.one_in(2).then(|| aimed(&mut random, &mut s, cluster.depots, pid, &pool));
    pair.load(&s, &mut random);
    if random.one_in(5) {
        let raw = broken::one(&mut random, &mut pair);
        let e = event(&mut random, &s, cluster.depots, pid, &pool);
        let start = pair.state.clone();
        return match pair.step(&e, table, raw) {
            Ok(_) => Ok(1),
            Err(difference) => Err(Box::new(Found { script: Script { cluster, pid, start: Some(start), steps: vec![e] }, difference })),
        };
    }
    let mut steps = vec![];
    for _ in 0..1 + random.below(3) {
        let e = first.take().unwrap_or_else(|| event(&mut random, &pair.state, cluster.depots, pid, &pool));
        steps.push(e.clone());
        if let Err(difference) = pair.step(&e, table, None) {
            return Err(Box::new(Found { script: Script { cluster, pid, start: Some(s), steps }, difference }));
        }
    }
    Ok(steps.len() as u64)
}
