// What the table of refusals (docs/RULES.md, R2) asks of a step: a second reading, apart from the port's definitions. Each refusal comes with the rule that gave it.
use crate::port::{Words, BOOK, LOG, STORE};
use omnipaxos::plain::*;

pub const MAX_LOG: usize = 512;
pub const MAX_BUFFERED: usize = 16;
pub const MAX_PROPOSAL: usize = 16;
pub const MAX_MESSAGES: usize = 64;
pub const MAX_STORE: usize = 4096;
pub const MAX_ENTRY: u64 = 33_554_431;
pub const MAX_DAY: u64 = 65_535;

pub type Rule = &'static str;

fn found(test: bool, rule: Rule) -> Option<Rule> {
    test.then_some(rule)
}

/// Refusal 1.
pub fn wrong_call(w: &Words) -> Option<Rule> {
    let c = &w.configuration;
    let depots = c[0];
    let (read, write) = if c[2] == 1 { (c[3], c[4]) } else { (c[3], c[3]) };
    let out = |size: u64| size < 1 || depots < size;
    found(depots < 2, "1: fewer than 2 depots")
        .or(found(depots > 7, "1: more than 7 depots"))
        .or(found(out(c[1]), "1: own pid out of range"))
        .or(found(out(read), "1: read or majority size out of range"))
        .or(found(out(write), "1: write size out of range"))
        .or(found(read.saturating_add(write) <= depots, "1: read + write not above depots"))
        .or(found(w.log.len() != LOG, "1: log of the wrong length"))
        .or(found(w.cached.len() != LOG, "1: cached buffer of the wrong length"))
        .or(found(w.best.len() != LOG, "1: best buffer of the wrong length"))
        .or(found(w.store.len() != STORE, "1: store of the wrong length"))
        .or(found(w.book.len() != BOOK, "1: book of the wrong length"))
}

fn above(entries: &[u64]) -> bool {
    entries.iter().any(|e| *e > MAX_ENTRY)
}

/// A nonzero ballot whose pid is no depot.
fn foreign(depots: u64, b: Ballot) -> bool {
    b != Ballot::default() && (b.pid < 1 || depots < b.pid)
}

fn ballots(m: &Msg) -> Vec<Ballot> {
    match m {
        Msg::PrepareReq { n } | Msg::AcceptSync { n, .. } | Msg::AcceptDecide { n, .. } => vec![*n],
        Msg::Accepted { n, .. } | Msg::NotAccepted { n } | Msg::Decide { n, .. } => vec![*n],
        Msg::Prepare { n, n_accepted, .. } => vec![*n, *n_accepted],
        Msg::Promise(p) => vec![p.n, p.n_accepted],
        Msg::Forward { .. } => vec![],
    }
}

fn book_broken(book: &[u64]) -> Option<Rule> {
    book.chunks(3).find_map(|p| {
        let (back, open, charged) = (p[0], p[1], p[2]);
        found(back > MAX_DAY || open > MAX_DAY + 1, "2: book, a day above 65,535")
            .or(found(charged > back, "2: book, charged days pass the last counted back"))
            .or(found(open > 0 && open - 1 < back, "2: book, an open out before the last counted back"))
    })
}

/// Refusal 2, as far as a state can show it.
pub fn broken(depots: u64, pid: u64, s: &State, book: &[u64]) -> Option<Rule> {
    let queued = s.queue.len();
    let past = |at: Option<usize>| at.is_some_and(|at| at >= queued);
    let sync_of_cached = s.cached.as_ref().and_then(|p| p.sync.as_ref());
    let ends_past = |x: Option<&Sync>| x.is_some_and(|x| x.end() > MAX_LOG);
    let sync_above = |x: Option<&Sync>| x.is_some_and(|x| above(&x.entries));
    let away = |b: Ballot| foreign(depots, b);
    let metas = || s.places.iter().enumerate().filter_map(|(i, p)| if let Promised::Yes(m) = p.promised { Some((i as u64 + 1, m)) } else { None });
    found(s.decided > s.length, "2: decided index above the log length")
        .or(found(s.length > MAX_LOG, "2: log length above 512"))
        .or(found(queued > MAX_MESSAGES, "2: queue over its limit"))
        .or(found(s.buffered.len() > MAX_BUFFERED, "2: buffer over its limit"))
        .or(found(above(&s.log), "2: log entry above its limit"))
        .or(found(above(&s.buffered), "2: buffered entry above its limit"))
        .or(found(sync_above(sync_of_cached), "2: entry of the cached promise above its limit"))
        .or(found(sync_above(s.held.as_ref()), "2: entry of the held sync above its limit"))
        .or(found(s.queue.iter().any(|m| above(m.msg.entries())), "2: queued entry above its limit"))
        .or(found(s.places.iter().any(|p| past(p.latest)), "2: remembered AcceptDecide past the queue"))
        .or(found(past(s.remembered.map(|r| r.1)), "2: remembered Accepted past the queue"))
        .or(found(metas().any(|(at, m)| m.pid != at), "2: kept promise at another's place"))
        .or(found(ends_past(s.held.as_ref()), "2: held sync of the best promise ends past 512"))
        .or(found(ends_past(sync_of_cached), "2: held sync of the cached promise ends past 512"))
        .or(found(s.leader && s.n_leader.pid != pid, "2: Leader whose ballot's pid is not its own"))
        .or(found(away(s.promise), "2: foreign ballot, promise"))
        .or(found(away(s.accepted_round), "2: foreign ballot, accepted round"))
        .or(found(away(s.n_leader), "2: foreign ballot, leader record"))
        .or(found(away(s.best.n_accepted), "2: foreign ballot, best promise"))
        .or(found(metas().any(|(_, m)| away(m.n_accepted)), "2: foreign ballot, kept promise"))
        .or(found(s.cached.as_ref().is_some_and(|p| away(p.n) || away(p.n_accepted)), "2: foreign ballot, cached promise"))
        .or(found(s.remembered.is_some_and(|r| away(r.0)), "2: foreign ballot, remembered Accepted"))
        .or(found(s.queue.iter().any(|m| ballots(&m.msg).into_iter().any(away)), "2: foreign ballot, queued message"))
        .or(found(s.cached.as_ref().is_some_and(|p| p.n == Ballot::default()), "2: cached promise of the default ballot"))
        .or(book_broken(book))
}

/// Refusal 3.
pub fn stranger(depots: u64, pid: u64, e: &Event) -> Option<Rule> {
    match e {
        Event::Message { from, .. } => {
            found(*from == 0, "3: sender 0").or(found(*from > depots, "3: sender above depots")).or(found(*from == pid, "3: sender oneself"))
        }
        Event::Reconnect { pid } => found(*pid == 0, "3: reconnect names 0").or(found(*pid > depots, "3: reconnect names a pid above depots")),
        Event::Leader { n } => found(n.pid == 0, "3: leader event names 0").or(found(n.pid > depots, "3: leader event names a pid above depots")),
        _ => None,
    }
}

/// The part of refusal 4 that applies in every state.
pub fn unfit(depots: u64, e: &Event) -> Option<Rule> {
    let (from, m) = match e {
        Event::Message { from, msg } => (*from, msg),
        Event::Propose { entries } => return unfit_proposal(entries),
        _ => return None,
    };
    let indexes: Vec<usize> = match m {
        Msg::Prepare { decided, accepted, .. } => vec![*decided, *accepted],
        Msg::Promise(p) => vec![p.decided, p.accepted, p.sync.as_ref().map_or(0, |s| s.start)],
        Msg::AcceptSync { decided, sync, .. } => vec![*decided, sync.start],
        Msg::AcceptDecide { decided, .. } | Msg::Decide { decided, .. } => vec![*decided],
        Msg::Accepted { accepted, .. } => vec![*accepted],
        _ => vec![],
    };
    let leading = match m {
        Msg::Prepare { n, .. } | Msg::AcceptSync { n, .. } | Msg::AcceptDecide { n, .. } | Msg::Decide { n, .. } => Some(*n),
        _ => None,
    };
    let own = match m {
        Msg::PrepareReq { .. } | Msg::Forward { .. } => None,
        _ => Some(ballots(m)[0]),
    };
    let above_accepted = match m {
        Msg::Prepare { decided, accepted, .. } => decided > accepted,
        Msg::Promise(p) => p.decided > p.accepted,
        _ => false,
    };
    if let Msg::Forward { entries } = m {
        return unfit_proposal(entries);
    }
    found(above(m.entries()), "4: entry of a message above its limit")
        .or(found(indexes.iter().any(|i| *i > MAX_LOG), "4: index above 512"))
        .or(found(ballots(m).into_iter().any(|b| foreign(depots, b)), "4: nonzero ballot whose pid is no depot"))
        .or(found(own == Some(Ballot::default()), "4: default ballot"))
        .or(found(leading.is_some_and(|n| n.pid != from), "4: sender is not the ballot's pid"))
        .or(found(above_accepted, "4: decided above accepted"))
}

fn unfit_proposal(entries: &[u64]) -> Option<Rule> {
    found(entries.is_empty(), "4: proposal of 0 entries")
        .or(found(entries.len() > MAX_PROPOSAL, "4: proposal of more than 16 entries"))
        .or(found(above(entries), "4: entry of a proposal above its limit"))
}

/// Same session and counter one higher. No counter is one higher than the top.
pub fn expected(own: Number, given: Number) -> bool {
    given.0 == own.0 && own.1.checked_add(1) == Some(given.1)
}

pub fn beats(m: Meta, best: Meta) -> bool {
    m.n_accepted > best.n_accepted || (m.n_accepted == best.n_accepted && m.accepted > best.accepted)
}

/// Where the sync to a depot starts.
pub fn sync_start(n: Ballot, best: Meta, m: Meta) -> usize {
    if m.n_accepted == n {
        m.accepted
    } else if m.n_accepted == best.n_accepted {
        m.accepted.min(best.accepted)
    } else {
        m.decided
    }
}

/// A sync that may not be put on this log.
fn bad_sync(s: &State, x: &Sync, brings: usize) -> Option<Rule> {
    let changed = || (x.start..x.end().min(s.decided)).any(|i| x.entries[i - x.start] != s.log[i]);
    found(x.start > s.log.len(), "4: sync starts past the log")
        .or(found(changed(), "4: sync changes a decided place"))
        .or(found(x.end() < s.decided, "4: sync ends below the own decided index"))
        .or(found(x.end() < brings, "4: sync ends below the decided index it brings"))
}

/// The leader's promises once this one is kept: how many stand, the best of them with its sync, the highest decided index, and all of them.
pub struct Kept {
    pub count: u64,
    pub best: Meta,
    pub held: Option<Sync>,
    pub highest: usize,
    pub metas: Vec<Meta>,
}

pub fn kept(s: &State, from: u64, p: &Promise) -> Kept {
    let m = Meta { n_accepted: p.n_accepted, accepted: p.accepted, decided: p.decided, pid: from };
    let beaten = beats(m, s.best);
    let mut metas: Vec<Meta> =
        s.places.iter().filter_map(|q| if let Promised::Yes(m) = q.promised { Some(m) } else { None }).filter(|q| q.pid != from).collect();
    metas.push(m);
    Kept {
        count: metas.len() as u64,
        best: if beaten { m } else { s.best },
        held: if beaten { p.sync.clone() } else { s.held.clone() },
        highest: metas.iter().map(|m| m.decided).max().unwrap_or(0),
        metas,
    }
}

/// The part of refusal 4 that applies only where the message would be taken.
pub fn late_unfit(c: Cluster, s: &State, e: &Event) -> Option<Rule> {
    let Event::Message { from, msg } = e else { return None };
    let past = |x: &Sync| found(x.end() > MAX_LOG, "4: sync brought ends past 512");
    match msg {
        Msg::Prepare { n, n_accepted, decided, .. } => {
            let taken = *n > s.promise || (*n == s.promise && s.phase == Phase::Recover);
            found(taken && s.accepted_round > *n_accepted && *decided > s.log.len(), "4: sync to be built from past the log (Prepare)")
        }
        Msg::Promise(p) if s.leader && p.n == s.n_leader && s.phase == Phase::Prepare => {
            let k = kept(s, *from, p);
            let here = p.sync.as_ref().and_then(past);
            if here.is_some() || k.count < c.read() {
                return here;
            }
            let put = k.held.as_ref().and_then(|x| bad_sync(s, x, k.best.decided));
            let length = k.held.as_ref().map_or(s.log.len(), |x| x.end());
            let full = (length + s.buffered.len()).min(MAX_LOG);
            put.or(found(k.highest > length, "4: highest decided index passes the log the promises leave")).or(found(
                k.metas.iter().any(|m| m.pid != s.n_leader.pid && sync_start(s.n_leader, k.best, *m) > full),
                "4: sync to be built from past the log (read quorum)",
            ))
        }
        Msg::Promise(p) if s.leader && p.n == s.n_leader && s.phase == Phase::Accept => {
            let m = Meta { n_accepted: p.n_accepted, accepted: p.accepted, decided: p.decided, pid: *from };
            p.sync.as_ref().and_then(past).or(found(sync_start(s.n_leader, s.best, m) > s.log.len(), "4: sync to be built from past the log (late Promise)"))
        }
        Msg::AcceptSync { n, decided, sync, .. } if *n == s.promise && !s.leader && s.phase == Phase::Prepare => past(sync).or(bad_sync(s, sync, *decided)),
        Msg::AcceptDecide { n, number, entries, .. } if *n == s.promise && !s.leader && s.phase == Phase::Accept && expected(s.number, *number) => {
            found(entries.is_empty(), "4: AcceptDecide of no entries").or(found(s.log.len() + entries.len() > MAX_LOG, "4: AcceptDecide would pass 512"))
        }
        Msg::Accepted { n, accepted } if *n == s.n_leader && s.leader && s.phase == Phase::Accept => {
            found(*accepted > s.log.len(), "4: Accepted index above the leader's log")
        }
        _ => None,
    }
}

/// A proposal, or a forwarded one.
pub fn is_proposal(e: &Event) -> bool {
    matches!(e, Event::Propose { .. } | Event::Message { msg: Msg::Forward { .. }, .. })
}

/// 5, 8 or 6, read off the state in which the text leaves the box.
pub fn over(before: &State, e: &Event, after: &State) -> Option<(u32, Rule)> {
    let proposed = is_proposal(e) && before.leader && before.phase == Phase::Accept;
    found(proposed && after.log.len() > MAX_LOG, "5: a proposal would take the leader's log past 512")
        .map(|r| (5, r))
        .or(found(after.buffered.len() > MAX_BUFFERED, "8: more than 16 buffered proposals").map(|r| (8, r)))
        .or(found(after.queue.len() > MAX_MESSAGES, "6: the queue would pass 64 messages").map(|r| (6, r)))
        .or(found(after.queued_entries() > MAX_STORE, "6: the queue would pass 4,096 entries").map(|r| (6, r)))
}

/// At a read quorum, buffered entries past 512 are dropped from the end: what the text leaves, cut; and how many were dropped.
pub fn cut(pid: u64, before: &State, after: &mut State) -> u64 {
    if !(before.leader && before.phase == Phase::Prepare && after.log.len() > MAX_LOG) {
        return 0;
    }
    let dropped = after.log.len() - MAX_LOG;
    after.log.truncate(MAX_LOG);
    after.length = MAX_LOG;
    after.places[pid as usize - 1].accepted = MAX_LOG;
    let start = before.queue.len();
    for m in after.queue.iter_mut().skip(start) {
        if let Msg::AcceptSync { sync, .. } = &mut m.msg {
            sync.entries.truncate(MAX_LOG.saturating_sub(sync.start));
        }
    }
    dropped as u64
}

/// A restart by R12.1.
pub fn restarted(depots: u64, s: &State) -> State {
    State {
        promise: s.promise,
        accepted_round: s.accepted_round,
        decided: s.decided,
        length: s.length,
        log: s.log.clone(),
        phase: Phase::Recover,
        ..State::fresh(depots)
    }
}

/// What the text makes of a restart beside that: the leader record's ballot is the promise, and a PrepareReq goes to every peer.
pub fn restarted_by_text(depots: u64, pid: u64, s: &State) -> State {
    let queue = (1..=depots).filter(|p| *p != pid).map(|to| Sent { to, msg: Msg::PrepareReq { n: s.promise } }).collect();
    State { n_leader: s.promise, queue, ..restarted(depots, s) }
}

/// The hire book: three words a pump, as docs/LAYOUT.md has them.
pub fn enter(book: &mut [u64], entries: &[u64]) {
    for e in entries {
        let (day, kind, pump) = (e >> 9, (e >> 8) & 1, (e & 255) as usize);
        let p = &mut book[3 * pump..3 * pump + 3];
        if kind == 0 && p[1] == 0 && day >= p[0] {
            p[1] = day + 1;
        } else if kind == 1 && p[1] > 0 && day + 1 >= p[1] {
            p[2] += day + 1 - p[1];
            p[0] = day;
            p[1] = 0;
        }
    }
}
