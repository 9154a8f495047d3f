// Limits: each capacity at zero, one short, exact and one past, sessions and counters at 2^64 - 1, and calls that mean nothing.
use crate::cluster::random_cluster;
use crate::expect::{MAX_BUFFERED, MAX_ENTRY, MAX_LOG, MAX_MESSAGES, MAX_STORE};
use crate::made;
use crate::pair::{Difference, Pair};
use crate::port::{event_words, Answer, Words};
use crate::random::Random;
use crate::rules::Table;
use crate::script::{Found, Script};
use crate::tape::{self, Taped};
use omnipaxos::plain::*;

struct Case {
    random: Random,
    pair: Pair,
    pool: Vec<Ballot>,
}

impl Case {
    fn around(&mut self, n: usize) -> usize {
        let off = [0, 0, 1, 2][self.random.below(4) as usize];
        if self.random.one_in(2) {
            n.saturating_sub(off)
        } else {
            n + off
        }
    }
    fn entries(&mut self, n: usize) -> Vec<u64> {
        (0..n).map(|_| made::entry(&mut self.random)).collect()
    }
    fn any_event(&mut self) -> Event {
        made::event(&mut self.random, &self.pair.state, self.pair.cluster.depots, self.pair.pid, &self.pool)
    }
    fn other(&mut self) -> u64 {
        1 + (self.pair.pid + self.random.below(self.pair.cluster.depots - 1)) % self.pair.cluster.depots
    }
    /// A leader of its own ballot with nothing queued and numbers that can rise.
    fn leads(&mut self, s: &mut State, phase: Phase) {
        let pid = self.pair.pid;
        s.leader = true;
        s.phase = phase;
        s.n_leader = Ballot { round: 3, priority: 0, pid };
        s.promise = s.n_leader;
        s.places.iter_mut().for_each(|p| p.number = (p.number.0 % 7, p.number.1 % 7));
    }
    fn follows(&mut self, s: &mut State, phase: Phase) -> u64 {
        let from = self.other();
        s.leader = false;
        s.phase = phase;
        s.promise = Ballot { round: 3, priority: 0, pid: from };
        from
    }
    fn top(&mut self) -> u64 {
        *self.random.pick(&[u64::MAX, u64::MAX - 1])
    }
    /// A proposal, or a forwarded one.
    fn proposal(&mut self, entries: Vec<u64>) -> Event {
        if self.random.one_in(2) {
            return Event::Propose { entries };
        }
        Event::Message { from: self.other(), msg: Msg::Forward { entries } }
    }
    /// Messages that carry so much that so many entries more just fit, or just do not.
    fn nearly_fill(&mut self, s: &mut State, more: usize) {
        let to = self.other();
        let mut left = self.around(MAX_STORE - more).min(MAX_STORE) - s.queued_entries();
        while left > 0 {
            let n = left.min(512);
            left -= n;
            let msg = Msg::AcceptDecide { n: s.n_leader, number: (1, 1), decided: 0, entries: self.entries(n) };
            s.queue.push(Sent { to, msg });
        }
    }
    fn log(&mut self, s: &mut State, n: usize) {
        s.log = self.entries(n);
        s.length = n;
        s.decided = s.decided.min(n);
    }
}

fn no_queue(s: &mut State) {
    s.queue.clear();
    s.remembered = None;
    s.places.iter_mut().for_each(|p| p.latest = None);
}

/// A state brought to a limit, and the step that meets it.
type Way = fn(&mut Case, &mut State) -> Event;

const WAYS: &[Way] = &[
    full_log,
    full_buffer,
    full_queue,
    full_store,
    joined_store,
    resent_store,
    long_sync,
    far_index,
    top_session,
    top_counter,
    top_at_decide,
    top_own_counter,
    named,
    proposals,
    dropped,
    cut_index,
    never_ran,
    older_promise,
    asks_too_much,
    to_recover,
    decided_places,
];

/// A proposal to a leader whose log is nearly full.
fn full_log(c: &mut Case, s: &mut State) -> Event {
    let k = c.random.range(1, 16);
    let n = c.around(MAX_LOG - k).min(MAX_LOG);
    c.log(s, n);
    c.leads(s, Phase::Accept);
    no_queue(s);
    Event::Propose { entries: c.entries(k) }
}

/// A proposal to be buffered: by a leader in Prepare, with no leader known, or with one's own ballot promised.
fn full_buffer(c: &mut Case, s: &mut State) -> Event {
    let k = c.random.range(1, 16);
    let n = c.around(MAX_BUFFERED - k).min(MAX_BUFFERED);
    s.buffered = c.entries(n);
    s.leader = false;
    match c.random.below(3) {
        0 => c.leads(s, Phase::Prepare),
        1 => s.promise = Ballot::default(),
        _ => s.promise = Ballot { round: 1, priority: 0, pid: c.pair.pid },
    }
    let entries = c.entries(k);
    c.proposal(entries)
}

/// Any step on a queue nearly full of messages.
fn full_queue(c: &mut Case, s: &mut State) -> Event {
    let n = c.random.range(MAX_MESSAGES - 6, MAX_MESSAGES);
    no_queue(s);
    let to = c.other();
    s.queue = vec![Sent { to, msg: Msg::NotAccepted { n: s.promise } }; n];
    c.pair.state = s.clone();
    c.any_event()
}

/// A proposal whose entries, once for each promised depot or in one forward, exactly fit the store, or do not.
fn full_store(c: &mut Case, s: &mut State) -> Event {
    no_queue(s);
    let k = c.random.range(1, 16);
    let mut of_step = k;
    if c.random.one_in(2) {
        let n = c.random.range(0, 40);
        c.log(s, n);
        c.leads(s, Phase::Accept);
        let own = c.pair.pid;
        of_step *= s.places.iter().filter(|p| matches!(p.promised, Promised::Yes(m) if m.pid != own)).count();
    } else {
        c.follows(s, Phase::Accept);
    }
    c.nearly_fill(s, of_step);
    Event::Propose { entries: c.entries(k) }
}

/// Entries that join a remembered AcceptDecide, and exactly fit the store, or do not.
fn joined_store(c: &mut Case, s: &mut State) -> Event {
    no_queue(s);
    let k = c.random.range(1, 16);
    let to = c.other();
    let n = c.random.range(0, 40);
    c.log(s, n);
    c.leads(s, Phase::Accept);
    s.queue.push(Sent { to, msg: Msg::AcceptDecide { n: s.n_leader, number: (1, 1), decided: 0, entries: c.entries(3) } });
    s.places.iter_mut().for_each(|p| p.promised = Promised::No);
    s.places[to as usize - 1] = Place { promised: Promised::Yes(Meta { pid: to, ..Meta::default() }), latest: Some(0), ..Place::default() };
    c.nearly_fill(s, k);
    Event::Propose { entries: c.entries(k) }
}

/// A resent promise whose entries exactly fit the store, or do not.
fn resent_store(c: &mut Case, s: &mut State) -> Event {
    no_queue(s);
    let k = c.random.range(1, 16);
    c.follows(s, Phase::Prepare);
    let sync = Sync { start: 0, entries: c.entries(k) };
    s.cached = Some(Promise { n: s.promise, sync: Some(sync), accepted: k, ..Promise::default() });
    c.nearly_fill(s, k);
    Event::Resend
}

/// A sync brought that ends about 512.
fn long_sync(c: &mut Case, s: &mut State) -> Event {
    let n = *c.random.pick(&[0, 1, MAX_LOG - 1, MAX_LOG]);
    c.log(s, n);
    s.decided = 0;
    let start = if c.random.one_in(2) { n } else { c.around(n).min(MAX_LOG) };
    let end = c.around(MAX_LOG);
    let sync = Sync { start, entries: c.entries(end.saturating_sub(start)) };
    no_queue(s);
    if c.random.one_in(2) {
        let from = c.follows(s, Phase::Prepare);
        return Event::Message { from, msg: Msg::AcceptSync { n: s.promise, number: (1, 1), decided: 0, sync } };
    }
    let phase = *c.random.pick(&[Phase::Prepare, Phase::Accept]);
    c.leads(s, phase);
    let p = Promise { n: s.n_leader, n_accepted: s.n_leader, decided: 0, accepted: n, sync: Some(sync) };
    Event::Message { from: c.other(), msg: Msg::Promise(p) }
}

/// An index about 512, or about the log.
fn far_index(c: &mut Case, s: &mut State) -> Event {
    let index = *c.random.pick(&[0, MAX_LOG - 1, MAX_LOG, MAX_LOG + 1, usize::MAX, s.log.len(), s.log.len() + 1]);
    let n = if c.random.one_in(2) { s.promise } else { s.n_leader };
    let n = if n == Ballot::default() { Ballot { round: 1, priority: 0, pid: c.other() } } else { n };
    let from = if n.pid == c.pair.pid { c.other() } else { n.pid };
    let number = (s.number.0, s.number.1.wrapping_add(1));
    let msg = match c.random.below(5) {
        0 => Msg::Prepare { n, n_accepted: Ballot::default(), decided: index.min(MAX_LOG), accepted: index },
        1 => Msg::Promise(Promise { n, decided: 0, accepted: index, ..Promise::default() }),
        2 => Msg::Accepted { n, accepted: index },
        3 => Msg::Decide { n, number, decided: index },
        _ => Msg::AcceptDecide { n, number, decided: index, entries: vec![5127] },
    };
    Event::Message { from, msg }
}

/// A session at its top, or just below, that an AcceptSync raises.
fn top_session(c: &mut Case, s: &mut State) -> Event {
    let top = c.top();
    let n = c.random.range(0, 9);
    c.log(s, n);
    no_queue(s);
    let phase = *c.random.pick(&[Phase::Prepare, Phase::Accept]);
    c.leads(s, phase);
    s.held = None;
    s.places.iter_mut().for_each(|p| p.number = (top, top));
    let p = Promise { n: s.n_leader, n_accepted: s.n_leader, accepted: n, ..Promise::default() };
    Event::Message { from: c.other(), msg: Msg::Promise(p) }
}

/// A counter at its top, or just below, that an AcceptDecide raises.
fn top_counter(c: &mut Case, s: &mut State) -> Event {
    let top = c.top();
    let n = *c.random.pick(&[0, 3, MAX_LOG - 1, MAX_LOG]);
    c.log(s, n);
    no_queue(s);
    c.leads(s, Phase::Accept);
    s.places.iter_mut().for_each(|p| p.number = (1, top));
    Event::Propose { entries: c.entries(2) }
}

/// A counter at its top, or just below, that a Decide raises.
fn top_at_decide(c: &mut Case, s: &mut State) -> Event {
    let top = c.top();
    c.log(s, 3);
    s.decided = 0;
    no_queue(s);
    c.leads(s, Phase::Accept);
    for p in s.places.iter_mut() {
        p.number = (1, top);
        p.accepted = 3;
    }
    Event::Message { from: c.other(), msg: Msg::Accepted { n: s.n_leader, accepted: 3 } }
}

/// The own counter at its top, or just below, and a message to be compared with it.
fn top_own_counter(c: &mut Case, s: &mut State) -> Event {
    let top = c.top();
    no_queue(s);
    let from = c.follows(s, Phase::Accept);
    let session = *c.random.pick(&[1, u64::MAX]);
    s.number = (session, top);
    let number = *c.random.pick(&[(session, top), (session, 0), (session, u64::MAX), (session.wrapping_add(1), 0), (0, u64::MAX)]);
    let n = s.promise;
    let msg = if c.random.one_in(2) { Msg::Decide { n, number, decided: 0 } } else { Msg::AcceptDecide { n, number, decided: 0, entries: vec![1] } };
    Event::Message { from, msg }
}

/// Who is named: 0, the first, the last, one past, oneself.
fn named(c: &mut Case, s: &mut State) -> Event {
    let depots = c.pair.cluster.depots;
    let named = *c.random.pick(&[0, 1, depots, depots + 1, u64::MAX, c.pair.pid]);
    match c.random.below(3) {
        0 => Event::Reconnect { pid: named },
        1 => Event::Leader { n: Ballot { round: c.random.below(2) as u32 * u32::MAX, priority: 0, pid: named } },
        _ => Event::Message { from: named, msg: Msg::PrepareReq { n: s.promise } },
    }
}

/// Proposals by their size and by their entries.
fn proposals(c: &mut Case, _: &mut State) -> Event {
    let k = *c.random.pick(&[0, 1, 15, 16, 17, 18]);
    let mut entries = c.entries(k);
    if let Some(e) = entries.last_mut() {
        *e = *c.random.pick(&[0, MAX_ENTRY - 1, MAX_ENTRY, MAX_ENTRY + 1, u64::MAX, 1]);
    }
    c.proposal(entries)
}

/// A read quorum with buffered proposals about the log's end.
fn dropped(c: &mut Case, s: &mut State) -> Event {
    let n = c.random.range(MAX_LOG - 17, MAX_LOG);
    c.log(s, n);
    s.decided = 0;
    c.leads(s, Phase::Prepare);
    no_queue(s);
    let k = c.around(MAX_LOG - n).min(MAX_BUFFERED);
    s.buffered = c.entries(k);
    s.held = None;
    s.best = Meta { n_accepted: s.n_leader, accepted: n, decided: 0, pid: c.pair.pid };
    let best = s.best;
    s.places.iter_mut().enumerate().for_each(|(i, p)| p.promised = Promised::Yes(Meta { pid: i as u64 + 1, ..best }));
    let p = Promise { n: s.n_leader, n_accepted: s.n_leader, decided: 0, accepted: n, sync: None };
    Event::Message { from: c.other(), msg: Msg::Promise(p) }
}

/// A decided index that is cut to the log, or just not.
fn cut_index(c: &mut Case, s: &mut State) -> Event {
    let from = c.follows(s, Phase::Accept);
    let length = c.random.range(0, 6);
    c.log(s, length);
    s.number = (1, 1);
    no_queue(s);
    let k = c.random.range(1, 3);
    let decided = c.around(length + k);
    let (n, number) = (s.promise, (1, 2));
    let msg = if c.random.one_in(2) { Msg::Decide { n, number, decided } } else { Msg::AcceptDecide { n, number, decided, entries: c.entries(k) } };
    Event::Message { from, msg }
}

/// A restart of a box that never ran.
fn never_ran(c: &mut Case, s: &mut State) -> Event {
    *s = State::fresh(c.pair.cluster.depots);
    Event::Restart
}

/// A resend of a promise that is older than the one kept.
fn older_promise(c: &mut Case, s: &mut State) -> Event {
    c.follows(s, Phase::Prepare);
    s.promise.round = 9;
    no_queue(s);
    s.cached = Some(Promise { n: Ballot { round: 1, priority: 0, pid: c.other() }, ..Promise::default() });
    Event::Resend
}

/// A Prepare that asks for more than the log has, or just not.
fn asks_too_much(c: &mut Case, s: &mut State) -> Event {
    let from = c.follows(s, Phase::Recover);
    let n = c.random.range(0, 9);
    c.log(s, n);
    no_queue(s);
    s.accepted_round = Ballot { round: 2, priority: 0, pid: from };
    let decided = c.around(n);
    Event::Message { from, msg: Msg::Prepare { n: s.promise, n_accepted: Ballot::default(), decided, accepted: decided } }
}

/// A reconnect to the promise's depot.
fn to_recover(c: &mut Case, s: &mut State) -> Event {
    let pid = c.follows(s, Phase::Accept);
    Event::Reconnect { pid }
}

/// Syncs that change a decided place, end below one, or start past the log, or just not.
fn decided_places(c: &mut Case, s: &mut State) -> Event {
    let from = c.follows(s, Phase::Prepare);
    no_queue(s);
    let n = c.random.range(1, 8);
    c.log(s, n);
    s.decided = c.random.range(0, n);
    let start = c.random.range(0, n + 1);
    let end = c.around(s.decided).max(start);
    let mut entries: Vec<u64> = (start..end).map(|i| s.log.get(i).copied().unwrap_or(7)).collect();
    if let (Some(e), true) = (entries.last_mut(), c.random.one_in(3)) {
        *e ^= 1;
    }
    let decided = c.around(end);
    Event::Message { from, msg: Msg::AcceptSync { n: s.promise, number: (1, 1), decided, sync: Sync { start, entries } } }
}

/// Words that the library must refuse with a number, and leave as found.
fn must_refuse(id: u64, words: &mut Words, event: &[u64], entries: &[u64], no: u32) -> Result<(), Difference> {
    let found = words.clone();
    let answer = words.step_words(event, entries);
    if answer != (Answer { no, dropped: 0, handed_out: 0 }) {
        return Err(Difference(format!("the port answers {answer} to words that are to be refused with {no}")));
    }
    if *words != found {
        return Err(Difference(format!("words refused with {no}, yet something was altered")));
    }
    if tape::runs() && no != 1 {
        let taped = Taped { event: event.to_vec(), entries: entries.to_vec(), answer: [no as u64, 0, 0], checksum: tape::checksum(words) };
        tape::put(id, words, taped);
    }
    Ok(())
}

/// A call that is wrong, or words that mean nothing.
fn wrong(c: &mut Case, table: &mut Table) -> Result<(), Difference> {
    let depots = c.pair.cluster.depots;
    let e = c.any_event();
    let (event, entries) = event_words(&e);
    let id = c.pair.id();
    match c.random.below(4) {
        0 => {
            let w = &mut c.pair.words.configuration;
            let place = c.random.below(5) as usize;
            w[place] = *c.random.pick(&[0, 1, 2, depots - 1, depots, depots + 1, 7, 8, u64::MAX]);
            if c.random.one_in(3) {
                let read = c.random.below(depots + 2);
                w[2..5].copy_from_slice(&[1, read, (depots - read.min(depots)) + c.random.below(2)]);
            }
            if crate::expect::wrong_call(&c.pair.words).is_some() {
                c.pair.step(&e, table, None)?;
            }
        }
        1 => {
            let w = &mut c.pair.words;
            let slices = [&mut w.log, &mut w.cached, &mut w.best, &mut w.store, &mut w.book];
            let slice = slices.into_iter().nth(c.random.below(5) as usize).unwrap();
            let n = *c.random.pick(&[0, slice.len() - 1, slice.len() + 1]);
            slice.resize(n, 0);
            c.pair.step(&e, table, None)?;
        }
        2 => {
            let words = &mut c.pair.words;
            let cut = |n: usize, random: &mut Random| *random.pick(&[0, 1, n - 1, n + 1]);
            let mut event = event;
            match c.random.below(4) {
                0 => words.configuration.resize(cut(16, &mut c.random), 1),
                1 => words.record.resize(cut(192, &mut c.random), 0),
                2 => words.row.resize(cut(1024, &mut c.random), 0),
                _ => event.resize(cut(16, &mut c.random), 0),
            }
            must_refuse(id, words, &event, &entries, 1)?;
            table.hit("1: words of the wrong length");
        }
        _ => {
            let mut event = event;
            let (place, value) = *c.random.pick(&[(14, 7), (14, u64::MAX), (1, 9), (12, 2), (2, 1 << 32), (3, 1 << 32), (5, 1 << 32), (6, u64::MAX)]);
            event[place] = value;
            event[0] = *c.random.pick(&[0, 1, 2, depots, depots + 1, c.pair.pid]);
            let stranger = event[0] == 0 || event[0] > depots || event[0] == c.pair.pid;
            must_refuse(id, &mut c.pair.words, &event, &entries, if stranger { 3 } else { 4 })?;
            table.hit(if stranger { "3: event words that mean nothing, of no other depot" } else { "4: event words that mean nothing" });
        }
    }
    Ok(())
}

/// Limit number i; how many steps were compared.
pub fn run(i: u64, seed: u64, table: &mut Table) -> Result<u64, Box<Found>> {
    let mut random = Random::seeded(seed);
    let cluster = random_cluster(&mut random);
    let pid = 1 + random.below(cluster.depots);
    let pool = made::ballots(&mut random, cluster.depots);
    let mut pair = Pair::fresh(cluster, pid);
    let s = made::state(&mut random, cluster.depots, pid, &pool);
    pair.load(&s, &mut random);
    let mut c = Case { random, pair, pool };
    if i % 3 == 0 {
        let script = Script { cluster, pid, start: Some(s), steps: vec![] };
        return wrong(&mut c, table).map(|()| 1).map_err(|difference| Box::new(Found { script, difference }));
    }
    let mut s = s;
    let e = WAYS[(i / 3) as usize % WAYS.len()](&mut c, &mut s);
    c.pair.load(&s, &mut c.random);
    match c.pair.step(&e, table, None) {
        Ok(_) => Ok(1),
        Err(difference) => Err(Box::new(Found { script: Script { cluster, pid, start: Some(s), steps: vec![e] }, difference })),
    }
}
