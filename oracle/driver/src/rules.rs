// Which rule a step reached, and how often each was.
use crate::expect;
pub use crate::expect::Rule;
use omnipaxos::plain::*;
use std::collections::HashMap;

/// Every rule: each handler's branches, then each refusal.
pub const RULES: &[Rule] = &[
    "Leader event: not above the leader record's ballot or the promise",
    "Leader event: own ballot, becomes Leader",
    "Leader event: own ballot, was Leader already",
    "Leader event: another's ballot, a Leader becomes Follower",
    "Leader event: another's ballot, Follower stays",
    "PrepareReq: Leader, promise reset, Prepare sent",
    "PrepareReq: Leader forgets a remembered AcceptDecide",
    "PrepareReq: Leader, of a higher ballot",
    "PrepareReq: Follower",
    "Prepare: lower ballot",
    "Prepare: equal ballot outside Recover",
    "Prepare: equal ballot in Recover",
    "Prepare: higher ballot, Follower",
    "Prepare: higher ballot, a Leader becomes Follower",
    "Prepare: own round is higher, sync from the decided index",
    "Prepare: same round and longer log, sync from the accepted index",
    "Prepare: no sync",
    "Promise: Follower",
    "Promise: Leader in Recover or None",
    "Promise: of another ballot",
    "Promise in Prepare: beats the best by its round",
    "Promise in Prepare: beats the best by its index",
    "Promise in Prepare: ties with the best of another pid",
    "Promise in Prepare: below the best",
    "Promise in Prepare: no read quorum yet",
    "Read quorum: held sync put on",
    "Read quorum: no held sync",
    "Read quorum: decided index rises",
    "Read quorum: buffered proposals appended",
    "Read quorum: buffered proposals dropped from the end",
    "Read quorum: log exactly full with no drop",
    "Promise in Accept: AcceptSync sent",
    "Promise in Accept: remembered AcceptDecide forgotten (the departure)",
    "AcceptSync sent: follower's round is the current ballot",
    "AcceptSync sent: follower's round is the best's, follower's index smaller",
    "AcceptSync sent: follower's round is the best's, best's index smaller",
    "AcceptSync sent: another round, from the decided index",
    "AcceptSync: lower ballot, NotAccepted",
    "AcceptSync: higher ballot, reconnected",
    "AcceptSync: equal ballot, not (Follower, Prepare)",
    "AcceptSync: taken",
    "AcceptSync: taken, rewrites entries",
    "AcceptSync: taken, below the decided index with no change",
    "AcceptSync: taken, decided index rises",
    "AcceptSync: taken, buffered proposals forwarded",
    "AcceptDecide: lower ballot, NotAccepted",
    "AcceptDecide: higher ballot, reconnected",
    "AcceptDecide: equal ballot, not (Follower, Accept)",
    "AcceptDecide: Expected, decided index stays",
    "AcceptDecide: Expected, decided index rises",
    "AcceptDecide: Expected, decided index cut to the log",
    "AcceptDecide: Expected, remembered Accepted edited",
    "AcceptDecide: Expected, new Accepted",
    "AcceptDecide: Outdated",
    "AcceptDecide: DroppedPreceding, reconnected",
    "Decide: lower ballot, NotAccepted",
    "Decide: higher ballot, reconnected",
    "Decide: equal ballot, not in Accept",
    "Decide: Expected, decided index stays",
    "Decide: Expected, decided index rises",
    "Decide: Expected, cut to the log, Accepted sent",
    "Decide: Outdated",
    "Decide: DroppedPreceding, reconnected",
    "Decide: taken by a Leader whose promise is another's",
    "Accepted: not (Leader, Accept)",
    "Accepted: of another ballot",
    "Accepted: not above the decided index",
    "Accepted: not chosen",
    "Accepted: index falls",
    "Accepted: chosen",
    "Accepted: chosen, remembered AcceptDecide edited",
    "Accepted: chosen, Decide sent",
    "NotAccepted: Leader, higher ballot, promise lost",
    "NotAccepted: Leader, ballot not higher",
    "NotAccepted: Follower",
    "Proposal: (Leader, Prepare), buffered",
    "Proposal: (Leader, Accept), appended",
    "Proposal: (Leader, Accept), joins a remembered AcceptDecide",
    "Proposal: (Leader, Accept), new AcceptDecide",
    "Proposal: forwarded to the promise's pid",
    "Proposal: no leader known, buffered",
    "Proposal: promise's pid is oneself, buffered",
    "Forwarded proposal: handled as a proposal",
    "Reconnect: oneself",
    "Reconnect: the promise's pid, to Recover",
    "Reconnect: another",
    "Resend: Leader in Prepare",
    "Resend: Leader in Accept",
    "Resend: Leader passes over a PromisedHigher depot",
    "Resend: Leader in Recover or None",
    "Resend: Follower in Prepare, cached promise",
    "Resend: Follower in Prepare, cached promise of an older ballot",
    "Resend: Follower in Prepare, none cached",
    "Resend: Follower in Recover",
    "Resend: Follower in Accept or None",
    "Drain: empty queue",
    "Drain: messages handed out",
    "Drain: remembered positions forgotten",
    "Restart: of a box that never ran",
    "Restart: of a Leader",
    "Restart: of a Follower",
    "A remembered position that holds another kind",
    "1: fewer than 2 depots",
    "1: more than 7 depots",
    "1: own pid out of range",
    "1: read or majority size out of range",
    "1: write size out of range",
    "1: read + write not above depots",
    "1: log of the wrong length",
    "1: cached buffer of the wrong length",
    "1: best buffer of the wrong length",
    "1: store of the wrong length",
    "1: book of the wrong length",
    "1: words of the wrong length",
    "2: decided index above the log length",
    "2: log length above 512",
    "2: queue over its limit",
    "2: buffer over its limit",
    "2: log entry above its limit",
    "2: buffered entry above its limit",
    "2: entry of the cached promise above its limit",
    "2: entry of the held sync above its limit",
    "2: queued entry above its limit",
    "2: remembered AcceptDecide past the queue",
    "2: remembered Accepted past the queue",
    "2: head's entries outside the store",
    "2: head's entries overlap another's",
    "2: kept promise at another's place",
    "2: held sync of the best promise ends past 512",
    "2: held sync of the cached promise ends past 512",
    "2: Leader whose ballot's pid is not its own",
    "2: foreign ballot, promise",
    "2: foreign ballot, accepted round",
    "2: foreign ballot, leader record",
    "2: foreign ballot, best promise",
    "2: foreign ballot, kept promise",
    "2: foreign ballot, cached promise",
    "2: foreign ballot, remembered Accepted",
    "2: foreign ballot, queued message",
    "2: cached promise of the default ballot",
    "2: book, a day above 65,535",
    "2: book, charged days pass the last counted back",
    "2: book, an open out before the last counted back",
    "2: words that mean no record or no row",
    "3: sender 0",
    "3: sender above depots",
    "3: sender oneself",
    "3: reconnect names 0",
    "3: reconnect names a pid above depots",
    "3: leader event names 0",
    "3: leader event names a pid above depots",
    "3: event words that mean nothing, of no other depot",
    "4: entry of a message above its limit",
    "4: index above 512",
    "4: nonzero ballot whose pid is no depot",
    "4: default ballot",
    "4: sender is not the ballot's pid",
    "4: decided above accepted",
    "4: proposal of 0 entries",
    "4: proposal of more than 16 entries",
    "4: entry of a proposal above its limit",
    "4: event words that mean nothing",
    "4: sync brought ends past 512",
    "4: sync starts past the log",
    "4: sync changes a decided place",
    "4: sync ends below the own decided index",
    "4: sync ends below the decided index it brings",
    "4: sync to be built from past the log (Prepare)",
    "4: sync to be built from past the log (read quorum)",
    "4: sync to be built from past the log (late Promise)",
    "4: AcceptDecide of no entries",
    "4: AcceptDecide would pass 512",
    "4: Accepted index above the leader's log",
    "4: highest decided index passes the log the promises leave",
    "7: a session at its top",
    "7: a counter at its top, AcceptDecide to be sent",
    "7: a counter at its top, Decide to be sent",
    "7: own counter at its top",
    "5: a proposal would take the leader's log past 512",
    "8: more than 16 buffered proposals",
    "6: the queue would pass 64 messages",
    "6: the queue would pass 4,096 entries",
];

pub struct Table {
    counts: HashMap<Rule, u64>,
}

impl Table {
    pub fn empty() -> Table {
        Table { counts: RULES.iter().map(|r| (*r, 0)).collect() }
    }
    pub fn hit(&mut self, rule: Rule) {
        *self.counts.get_mut(rule).unwrap_or_else(|| panic!("no such rule: {rule}")) += 1;
    }
    pub fn hit_all(&mut self, rules: &[Rule]) {
        rules.iter().for_each(|r| self.hit(r));
    }
    pub fn count(&self, rule: Rule) -> u64 {
        self.counts[rule]
    }
    pub fn add(&mut self, other: &Table) {
        for (rule, n) in &other.counts {
            *self.counts.get_mut(rule).unwrap() += n;
        }
    }
    /// Rules reached less often than this.
    pub fn below(&self, n: u64) -> Vec<Rule> {
        RULES.iter().copied().filter(|r| self.counts[r] < n).collect()
    }
}

/// Which 7 it is.
pub fn top(s: &State, e: &Event) -> Rule {
    match e {
        Event::Message { msg: Msg::Promise(_), .. } => "7: a session at its top",
        Event::Message { msg: Msg::Accepted { .. }, .. } => "7: a counter at its top, Decide to be sent",
        Event::Message { msg: Msg::AcceptDecide { .. } | Msg::Decide { .. }, .. } if s.number.1 == u64::MAX => "7: own counter at its top",
        _ => "7: a counter at its top, AcceptDecide to be sent",
    }
}

struct Seen<'a> {
    c: Cluster,
    pid: u64,
    s: &'a State,
    after: &'a State,
    out: Vec<Rule>,
}

/// The rules that a step reached which both sides took.
pub fn taken(c: Cluster, pid: u64, s: &State, e: &Event, after: &State, dropped: u64) -> Vec<Rule> {
    let mut seen = Seen { c, pid, s, after, out: vec![] };
    match e {
        Event::Message { from, msg } => seen.message(*from, msg, dropped),
        Event::Propose { entries } => seen.proposal(entries),
        Event::Leader { n } => seen.leader(*n),
        Event::Reconnect { pid: to } => seen.reconnect(*to),
        Event::Resend => seen.resend(),
        Event::Drain => {
            seen.rule(if s.queue.is_empty() { "Drain: empty queue" } else { "Drain: messages handed out" });
            if s.remembered.is_some() || s.places.iter().any(|p| p.latest.is_some()) {
                seen.rule("Drain: remembered positions forgotten");
            }
        }
        Event::Restart => seen.rule(match (s.leader, s.phase) {
            (true, _) => "Restart: of a Leader",
            (false, Phase::None) => "Restart: of a box that never ran",
            (false, _) => "Restart: of a Follower",
        }),
    }
    seen.out
}

impl Seen<'_> {
    fn rule(&mut self, r: Rule) {
        self.out.push(r);
    }
    fn pushed(&self) -> &[Sent] {
        &self.after.queue[self.s.queue.len()..]
    }
    fn state(&self) -> (bool, Phase) {
        (self.s.leader, self.s.phase)
    }
    fn odd_position(&mut self, used: bool, at: Option<usize>, fits: fn(&Msg) -> bool) {
        if used && at.is_some_and(|at| !fits(&self.s.queue[at].msg)) {
            self.rule("A remembered position that holds another kind");
        }
    }

    fn leader(&mut self, n: Ballot) {
        let s = self.s;
        if n <= s.n_leader || n <= s.promise {
            return self.rule("Leader event: not above the leader record's ballot or the promise");
        }
        match (n.pid == self.pid, s.leader) {
            (true, true) => self.rule("Leader event: own ballot, was Leader already"),
            (true, false) => self.rule("Leader event: own ballot, becomes Leader"),
            (false, true) => self.rule("Leader event: another's ballot, a Leader becomes Follower"),
            (false, false) => self.rule("Leader event: another's ballot, Follower stays"),
        }
    }

    fn reconnect(&mut self, to: u64) {
        self.rule(if to == self.pid {
            "Reconnect: oneself"
        } else if to == self.s.promise.pid {
            "Reconnect: the promise's pid, to Recover"
        } else {
            "Reconnect: another"
        });
    }

    fn resend(&mut self) {
        let s = self.s;
        match (self.state(), &s.cached) {
            ((true, Phase::Prepare), _) => self.rule("Resend: Leader in Prepare"),
            ((true, Phase::Accept), _) => self.rule("Resend: Leader in Accept"),
            ((true, _), _) => self.rule("Resend: Leader in Recover or None"),
            ((false, Phase::Prepare), Some(p)) if p.n != s.promise => self.rule("Resend: Follower in Prepare, cached promise of an older ballot"),
            ((false, Phase::Prepare), Some(_)) => self.rule("Resend: Follower in Prepare, cached promise"),
            ((false, Phase::Prepare), None) => self.rule("Resend: Follower in Prepare, none cached"),
            ((false, Phase::Recover), _) => self.rule("Resend: Follower in Recover"),
            ((false, _), _) => self.rule("Resend: Follower in Accept or None"),
        }
        if s.leader && matches!(s.phase, Phase::Prepare | Phase::Accept) && s.places.iter().any(|p| p.promised == Promised::Higher) {
            self.rule("Resend: Leader passes over a PromisedHigher depot");
        }
    }

    fn proposal(&mut self, entries: &[u64]) {
        let s = self.s;
        match self.state() {
            (true, Phase::Prepare) => self.rule("Proposal: (Leader, Prepare), buffered"),
            (true, Phase::Accept) => {
                self.rule("Proposal: (Leader, Accept), appended");
                if !self.pushed().is_empty() {
                    self.rule("Proposal: (Leader, Accept), new AcceptDecide");
                }
                if (0..s.queue.len()).any(|k| s.queue[k] != self.after.queue[k]) {
                    self.rule("Proposal: (Leader, Accept), joins a remembered AcceptDecide");
                }
                self.odd_latest();
            }
            _ if self.pushed().iter().any(|m| m.msg.entries() == entries) => self.rule("Proposal: forwarded to the promise's pid"),
            _ if s.promise.pid == 0 => self.rule("Proposal: no leader known, buffered"),
            _ => self.rule("Proposal: promise's pid is oneself, buffered"),
        }
    }

    fn odd_latest(&mut self) {
        for p in &self.s.places {
            self.odd_position(matches!(p.promised, Promised::Yes(_)), p.latest, |m| matches!(m, Msg::AcceptDecide { .. }));
        }
    }

    fn message(&mut self, from: u64, msg: &Msg, dropped: u64) {
        let s = self.s;
        match msg {
            Msg::PrepareReq { n } => match s.leader {
                false => self.rule("PrepareReq: Follower"),
                true if *n > s.n_leader => self.rule("PrepareReq: Leader, of a higher ballot"),
                true => {
                    self.rule("PrepareReq: Leader, promise reset, Prepare sent");
                    if s.places[from as usize - 1].latest.is_some() {
                        self.rule("PrepareReq: Leader forgets a remembered AcceptDecide");
                    }
                }
            },
            Msg::Prepare { n, n_accepted, .. } => self.prepare(*n, *n_accepted),
            Msg::Promise(p) => self.promise(from, p, dropped),
            Msg::AcceptSync { n, sync, .. } => self.accept_sync(*n, sync),
            Msg::AcceptDecide { n, number, decided, .. } => self.accept_decide(*n, *number, *decided),
            Msg::Accepted { n, accepted } => self.accepted(from, *n, *accepted),
            Msg::NotAccepted { n } => self.rule(match s.leader {
                false => "NotAccepted: Follower",
                true if *n > s.n_leader => "NotAccepted: Leader, higher ballot, promise lost",
                true => "NotAccepted: Leader, ballot not higher",
            }),
            Msg::Decide { n, number, decided } => self.decide(*n, *number, *decided),
            Msg::Forward { entries } => {
                self.rule("Forwarded proposal: handled as a proposal");
                self.proposal(entries);
            }
        }
    }

    fn prepare(&mut self, n: Ballot, n_accepted: Ballot) {
        let s = self.s;
        if n < s.promise {
            return self.rule("Prepare: lower ballot");
        }
        match (n == s.promise, s.phase == Phase::Recover, s.leader) {
            (true, false, _) => return self.rule("Prepare: equal ballot outside Recover"),
            (true, true, _) => self.rule("Prepare: equal ballot in Recover"),
            (false, _, false) => self.rule("Prepare: higher ballot, Follower"),
            (false, _, true) => self.rule("Prepare: higher ballot, a Leader becomes Follower"),
        }
        let sync = self.after.cached.as_ref().is_some_and(|p| p.sync.is_some());
        self.rule(match (sync, s.accepted_round > n_accepted) {
            (false, _) => "Prepare: no sync",
            (true, true) => "Prepare: own round is higher, sync from the decided index",
            (true, false) => "Prepare: same round and longer log, sync from the accepted index",
        });
    }

    fn promise(&mut self, from: u64, p: &Promise, dropped: u64) {
        let s = self.s;
        match self.state() {
            (false, _) => return self.rule("Promise: Follower"),
            (true, Phase::Recover | Phase::None) => return self.rule("Promise: Leader in Recover or None"),
            _ if p.n != s.n_leader => return self.rule("Promise: of another ballot"),
            (true, Phase::Accept) => {
                self.rule("Promise in Accept: AcceptSync sent");
                if s.places[from as usize - 1].latest.is_some() {
                    self.rule("Promise in Accept: remembered AcceptDecide forgotten (the departure)");
                }
                return self.syncs_sent(s.best);
            }
            _ => (),
        }
        let m = Meta { n_accepted: p.n_accepted, accepted: p.accepted, decided: p.decided, pid: from };
        let tied = m.n_accepted == s.best.n_accepted && m.accepted == s.best.accepted;
        self.rule(if m.n_accepted > s.best.n_accepted {
            "Promise in Prepare: beats the best by its round"
        } else if expect::beats(m, s.best) {
            "Promise in Prepare: beats the best by its index"
        } else if tied && m.pid != s.best.pid {
            "Promise in Prepare: ties with the best of another pid"
        } else {
            "Promise in Prepare: below the best"
        });
        let k = expect::kept(s, from, p);
        if k.count < self.c.read() {
            return self.rule("Promise in Prepare: no read quorum yet");
        }
        self.rule(if k.held.is_some() { "Read quorum: held sync put on" } else { "Read quorum: no held sync" });
        if self.after.decided > s.decided {
            self.rule("Read quorum: decided index rises");
        }
        if !s.buffered.is_empty() {
            self.rule("Read quorum: buffered proposals appended");
        }
        if dropped > 0 {
            self.rule("Read quorum: buffered proposals dropped from the end");
        } else if !s.buffered.is_empty() && self.after.log.len() == expect::MAX_LOG {
            self.rule("Read quorum: log exactly full with no drop");
        }
        self.syncs_sent(k.best);
    }

    fn syncs_sent(&mut self, best: Meta) {
        let receivers: Vec<u64> = self.pushed().iter().filter(|m| matches!(m.msg, Msg::AcceptSync { .. })).map(|m| m.to).collect();
        for to in receivers {
            let Promised::Yes(m) = self.after.places[to as usize - 1].promised else { continue };
            self.rule(if m.n_accepted == self.s.n_leader {
                "AcceptSync sent: follower's round is the current ballot"
            } else if m.n_accepted != best.n_accepted {
                "AcceptSync sent: another round, from the decided index"
            } else if m.accepted <= best.accepted {
                "AcceptSync sent: follower's round is the best's, follower's index smaller"
            } else {
                "AcceptSync sent: follower's round is the best's, best's index smaller"
            });
        }
    }

    fn accept_sync(&mut self, n: Ballot, sync: &Sync) {
        let s = self.s;
        if n < s.promise {
            return self.rule("AcceptSync: lower ballot, NotAccepted");
        }
        if n > s.promise {
            return self.rule("AcceptSync: higher ballot, reconnected");
        }
        if self.state() != (false, Phase::Prepare) {
            return self.rule("AcceptSync: equal ballot, not (Follower, Prepare)");
        }
        self.rule("AcceptSync: taken");
        if sync.start < s.log.len() {
            self.rule("AcceptSync: taken, rewrites entries");
        }
        if sync.start < s.decided {
            self.rule("AcceptSync: taken, below the decided index with no change");
        }
        if self.after.decided > s.decided {
            self.rule("AcceptSync: taken, decided index rises");
        }
        if !s.buffered.is_empty() {
            self.rule("AcceptSync: taken, buffered proposals forwarded");
        }
    }

    fn accept_decide(&mut self, n: Ballot, number: Number, decided: usize) {
        let s = self.s;
        if n < s.promise {
            return self.rule("AcceptDecide: lower ballot, NotAccepted");
        }
        if n > s.promise {
            return self.rule("AcceptDecide: higher ballot, reconnected");
        }
        if self.state() != (false, Phase::Accept) {
            return self.rule("AcceptDecide: equal ballot, not (Follower, Accept)");
        }
        if !expect::expected(s.number, number) {
            return self.rule(if number <= s.number { "AcceptDecide: Outdated" } else { "AcceptDecide: DroppedPreceding, reconnected" });
        }
        self.rule(if decided > self.after.log.len() {
            "AcceptDecide: Expected, decided index cut to the log"
        } else if decided > s.decided {
            "AcceptDecide: Expected, decided index rises"
        } else {
            "AcceptDecide: Expected, decided index stays"
        });
        self.rule(if self.pushed().is_empty() { "AcceptDecide: Expected, remembered Accepted edited" } else { "AcceptDecide: Expected, new Accepted" });
        let at = s.remembered.filter(|r| r.0 == n).map(|r| r.1);
        self.odd_position(true, at, |m| matches!(m, Msg::Accepted { .. }));
    }

    fn decide(&mut self, n: Ballot, number: Number, decided: usize) {
        let s = self.s;
        if n < s.promise {
            return self.rule("Decide: lower ballot, NotAccepted");
        }
        if n > s.promise {
            return self.rule("Decide: higher ballot, reconnected");
        }
        if s.phase != Phase::Accept {
            return self.rule("Decide: equal ballot, not in Accept");
        }
        if !expect::expected(s.number, number) {
            return self.rule(if number <= s.number { "Decide: Outdated" } else { "Decide: DroppedPreceding, reconnected" });
        }
        self.rule(if decided <= s.decided {
            "Decide: Expected, decided index stays"
        } else if decided > s.log.len() {
            "Decide: Expected, cut to the log, Accepted sent"
        } else {
            "Decide: Expected, decided index rises"
        });
        if s.leader {
            self.rule("Decide: taken by a Leader whose promise is another's");
        }
    }

    fn accepted(&mut self, from: u64, n: Ballot, accepted: usize) {
        let s = self.s;
        if self.state() != (true, Phase::Accept) {
            return self.rule("Accepted: not (Leader, Accept)");
        }
        if n != s.n_leader {
            return self.rule("Accepted: of another ballot");
        }
        if accepted < s.places[from as usize - 1].accepted {
            self.rule("Accepted: index falls");
        }
        if accepted <= s.decided {
            return self.rule("Accepted: not above the decided index");
        }
        if self.after.decided == s.decided {
            return self.rule("Accepted: not chosen");
        }
        self.rule("Accepted: chosen");
        if !self.pushed().is_empty() {
            self.rule("Accepted: chosen, Decide sent");
        }
        if (0..s.queue.len()).any(|k| s.queue[k] != self.after.queue[k]) {
            self.rule("Accepted: chosen, remembered AcceptDecide edited");
        }
        self.odd_latest();
    }
}
