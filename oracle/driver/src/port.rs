// The port's side: a box as the words of docs/LAYOUT.md, stepped by the linked library.
use crate::random::Random;
use omnipaxos::plain::*;
use std::sync::OnceLock;

pub const CONFIGURATION: usize = 16;
pub const RECORD: usize = 192;
pub const ROW: usize = 1024;
pub const LOG: usize = 512;
pub const STORE: usize = 4096;
pub const BOOK: usize = 768;
pub const EVENT: usize = 16;

#[rustfmt::skip]
extern "C" {
    fn depots_fresh(record: *mut u64, words: usize) -> u32;
    fn depots_step(
        configuration: *const u64, configuration_words: usize, record: *mut u64, record_words: usize,
        row: *mut u64, row_words: usize, log: *mut u64, log_words: usize,
        cached: *mut u64, cached_words: usize, best: *mut u64, best_words: usize,
        store: *mut u64, store_words: usize, book: *mut u64, book_words: usize,
        event: *const u64, event_words: usize, entries: *const u64, entries_words: usize,
        dropped: *mut u64, handed_out: *mut u64,
    ) -> u32;
    fn depots_step_lent(
        configuration: *const u64, configuration_words: usize, record: *mut u64, record_words: usize,
        row: *mut u64, row_words: usize, log: *mut u64, log_words: usize,
        cached: *mut u64, cached_words: usize, best: *mut u64, best_words: usize,
        store: *mut u64, store_words: usize, book: *mut u64, book_words: usize,
        event: *const u64, event_words: usize, entries: *const u64, entries_words: usize,
        dropped: *mut u64, handed_out: *mut u64,
    ) -> u32;
}

/// The linked step, or the same with its row of heads lent to `depot::step`.
#[derive(Clone, Copy, PartialEq, Eq)]
pub enum By {
    Value,
    Lent,
}

/// By which of them the comparison steps: `oracle/compare --lent` sets LENT.
fn by() -> By {
    static BY: OnceLock<By> = OnceLock::new();
    *BY.get_or_init(|| if std::env::var_os("LENT").is_some() { By::Lent } else { By::Value })
}

#[derive(Clone, Copy, Debug, PartialEq, Eq)]
pub struct Answer {
    pub no: u32,
    pub dropped: u64,
    pub handed_out: u64,
}

impl std::fmt::Display for Answer {
    fn fmt(&self, f: &mut std::fmt::Formatter<'_>) -> std::fmt::Result {
        write!(f, "{}", self.no)?;
        if self.dropped > 0 {
            write!(f, " (dropped {})", self.dropped)?;
        }
        if self.handed_out > 0 {
            write!(f, " (handed out {})", self.handed_out)?;
        }
        Ok(())
    }
}

/// Everything lent to a step. The lists are vectors, so that a wrong length can be lent.
#[derive(Clone, PartialEq, Eq)]
pub struct Words {
    pub configuration: Vec<u64>,
    pub record: Vec<u64>,
    pub row: Vec<u64>,
    pub log: Vec<u64>,
    pub cached: Vec<u64>,
    pub best: Vec<u64>,
    pub store: Vec<u64>,
    pub book: Vec<u64>,
}

pub fn configuration(cluster: Cluster, pid: u64) -> Vec<u64> {
    let mut w = vec![0; CONFIGURATION];
    w[0] = cluster.depots;
    w[1] = pid;
    match cluster.flexible {
        None => w[3] = cluster.depots / 2 + 1,
        Some((read, write)) => {
            w[2] = 1;
            w[3] = read;
            w[4] = write;
        }
    }
    w
}

fn put_ballot(w: &mut [u64], at: usize, b: Ballot) {
    w[at] = b.round as u64;
    w[at + 1] = b.priority as u64;
    w[at + 2] = b.pid;
}

fn ballot(w: &[u64], at: usize) -> Ballot {
    Ballot { round: w[at] as u32, priority: w[at + 1] as u32, pid: w[at + 2] }
}

fn put_message(w: &mut [u64], m: &Msg) {
    let mut put = |kind: u64, n: Ballot, number: Number, decided: usize, accepted: usize| {
        w[1] = kind;
        put_ballot(w, 2, n);
        w[8] = number.0;
        w[9] = number.1;
        w[10] = decided as u64;
        w[11] = accepted as u64;
    };
    match m {
        Msg::PrepareReq { n } => put(0, *n, (0, 0), 0, 0),
        Msg::Prepare { n, decided, accepted, .. } => put(1, *n, (0, 0), *decided, *accepted),
        Msg::Promise(p) => put(2, p.n, (0, 0), p.decided, p.accepted),
        Msg::AcceptSync { n, number, decided, .. } => put(3, *n, *number, *decided, 0),
        Msg::AcceptDecide { n, number, decided, .. } => put(4, *n, *number, *decided, 0),
        Msg::Accepted { n, accepted } => put(5, *n, (0, 0), 0, *accepted),
        Msg::NotAccepted { n } => put(6, *n, (0, 0), 0, 0),
        Msg::Decide { n, number, decided } => put(7, *n, *number, *decided, 0),
        Msg::Forward { .. } => put(8, Ballot::default(), (0, 0), 0, 0),
    }
    match m {
        Msg::Prepare { n_accepted, .. } => put_ballot(w, 5, *n_accepted),
        Msg::Promise(p) => {
            put_ballot(w, 5, p.n_accepted);
            if let Some(s) = &p.sync {
                w[12] = 1;
                w[13] = s.start as u64;
            }
        }
        Msg::AcceptSync { sync, .. } => w[13] = sync.start as u64,
        _ => (),
    }
}

fn message(w: &[u64], entries: Vec<u64>) -> Msg {
    let n = ballot(w, 2);
    let n_accepted = ballot(w, 5);
    let number = (w[8], w[9]);
    let (decided, accepted) = (w[10] as usize, w[11] as usize);
    let sync = Sync { start: w[13] as usize, entries: vec![] };
    match w[1] {
        0 => Msg::PrepareReq { n },
        1 => Msg::Prepare { n, n_accepted, decided, accepted },
        2 if w[12] == 1 => Msg::Promise(Promise { n, n_accepted, decided, accepted, sync: Some(Sync { entries, ..sync }) }),
        2 => Msg::Promise(Promise { n, n_accepted, decided, accepted, sync: None }),
        3 => Msg::AcceptSync { n, number, decided, sync: Sync { entries, ..sync } },
        4 => Msg::AcceptDecide { n, number, decided, entries },
        5 => Msg::Accepted { n, accepted },
        6 => Msg::NotAccepted { n },
        7 => Msg::Decide { n, number, decided },
        _ => Msg::Forward { entries },
    }
}

pub fn event_words(e: &Event) -> (Vec<u64>, Vec<u64>) {
    let mut w = vec![0; EVENT];
    let mut entries = vec![];
    match e {
        Event::Message { from, msg } => {
            put_message(&mut w, msg);
            w[0] = *from;
            entries = msg.entries().to_vec();
        }
        Event::Propose { entries: given } => {
            w[14] = 1;
            entries = given.clone();
        }
        Event::Leader { n } => {
            put_ballot(&mut w, 2, *n);
            w[14] = 2;
        }
        Event::Reconnect { pid } => {
            w[0] = *pid;
            w[14] = 3;
        }
        Event::Resend => w[14] = 4,
        Event::Drain => w[14] = 5,
        Event::Restart => w[14] = 6,
    }
    (w, entries)
}

impl Words {
    pub fn fresh(cluster: Cluster, pid: u64) -> Words {
        let mut w = Words {
            configuration: configuration(cluster, pid),
            record: vec![0; RECORD],
            row: vec![0; ROW],
            log: vec![0; LOG],
            cached: vec![0; LOG],
            best: vec![0; LOG],
            store: vec![0; STORE],
            book: vec![0; BOOK],
        };
        assert_eq!(unsafe { depots_fresh(w.record.as_mut_ptr(), w.record.len()) }, 0);
        w
    }

    /// How much memory a box is lent.
    pub fn bytes(&self) -> usize {
        let lists = [&self.configuration, &self.record, &self.row, &self.log, &self.cached, &self.best, &self.store, &self.book];
        lists.iter().map(|w| 8 * w.len()).sum()
    }

    pub fn step_words(&mut self, event: &[u64], entries: &[u64]) -> Answer {
        self.step_words_by(by(), event, entries)
    }

    pub fn step_words_by(&mut self, by: By, event: &[u64], entries: &[u64]) -> Answer {
        let call = match by {
            By::Value => depots_step,
            By::Lent => depots_step_lent,
        };
        let (mut dropped, mut handed_out) = (u64::MAX, u64::MAX);
        #[rustfmt::skip]
        let no = unsafe {
            call(
                self.configuration.as_ptr(), self.configuration.len(), self.record.as_mut_ptr(), self.record.len(),
                self.row.as_mut_ptr(), self.row.len(), self.log.as_mut_ptr(), self.log.len(),
                self.cached.as_mut_ptr(), self.cached.len(), self.best.as_mut_ptr(), self.best.len(),
                self.store.as_mut_ptr(), self.store.len(), self.book.as_mut_ptr(), self.book.len(),
                event.as_ptr(), event.len(), entries.as_ptr(), entries.len(),
                &mut dropped, &mut handed_out,
            )
        };
        Answer { no, dropped, handed_out }
    }

    pub fn step(&mut self, e: &Event) -> Answer {
        let (event, entries) = event_words(e);
        self.step_words(&event, &entries)
    }

    /// Message k of the row, with its entries.
    pub fn sent(&self, k: usize) -> Sent {
        let w = &self.row[16 * k..16 * k + 16];
        let entries = if w[15] == 0 { vec![] } else { self.store[w[14] as usize..(w[14] + w[15]) as usize].to_vec() };
        Sent { to: w[0], msg: message(w, entries) }
    }

    fn held(record: &[u64], at: usize, buffer: &[u64]) -> Option<Sync> {
        (record[at] == 1).then(|| Sync { start: record[at + 1] as usize, entries: buffer[..record[at + 2] as usize].to_vec() })
    }

    /// The box in plain data. The words must be those of a record that is not broken.
    pub fn state(&self, depots: u64) -> State {
        let r = &self.record;
        let place = |i: usize| {
            let w = &r[80 + 16 * i..96 + 16 * i];
            Place {
                promised: match w[0] {
                    0 => Promised::No,
                    1 => Promised::Yes(Meta { n_accepted: ballot(w, 1), accepted: w[4] as usize, decided: w[5] as usize, pid: w[6] }),
                    _ => Promised::Higher,
                },
                number: (w[7], w[8]),
                accepted: w[9] as usize,
                latest: (w[10] == 1).then_some(w[11] as usize),
            }
        };
        State {
            promise: ballot(r, 0),
            accepted_round: ballot(r, 3),
            decided: r[6] as usize,
            length: r[7] as usize,
            log: self.log[..r[7] as usize].to_vec(),
            leader: r[8] == 1,
            phase: [Phase::Prepare, Phase::Accept, Phase::Recover, Phase::None][r[9] as usize],
            buffered: r[16..16 + r[13] as usize].to_vec(),
            number: (r[11], r[12]),
            cached: (r[64] == 1).then(|| Promise {
                n: ballot(r, 65),
                n_accepted: ballot(r, 68),
                decided: r[71] as usize,
                accepted: r[72] as usize,
                sync: Words::held(r, 73, &self.cached),
            }),
            remembered: (r[35] == 1).then(|| (ballot(r, 36), r[39] as usize)),
            n_leader: ballot(r, 32),
            places: (0..depots as usize).map(place).collect(),
            best: Meta { n_accepted: ballot(r, 48), accepted: r[51] as usize, decided: r[52] as usize, pid: r[53] },
            held: Words::held(r, 54, &self.best),
            queue: (0..r[10] as usize).map(|k| self.sent(k)).collect(),
        }
    }

    /// Writes a state as words. Cells that mean nothing keep what they hold; entries lie in the store with gaps, messages in any order.
    pub fn load(&mut self, s: &State, random: &mut Random) {
        let r = &mut self.record;
        // places past the depots keep what they hold
        r[..80 + 16 * s.places.len()].fill(0);
        put_ballot(r, 0, s.promise);
        put_ballot(r, 3, s.accepted_round);
        r[6] = s.decided as u64;
        r[7] = s.length as u64;
        r[8] = s.leader as u64;
        r[9] = s.phase as u64;
        r[10] = s.queue.len() as u64;
        (r[11], r[12]) = s.number;
        r[13] = s.buffered.len() as u64;
        for (i, e) in s.buffered.iter().take(16).enumerate() {
            r[16 + i] = *e;
        }
        put_ballot(r, 32, s.n_leader);
        if let Some((b, at)) = s.remembered {
            r[35] = 1;
            put_ballot(r, 36, b);
            r[39] = at as u64;
        }
        put_ballot(r, 48, s.best.n_accepted);
        r[51] = s.best.accepted as u64;
        r[52] = s.best.decided as u64;
        r[53] = s.best.pid;
        let hold = |r: &mut [u64], at: usize, sync: &Option<Sync>, buffer: &mut [u64]| {
            if let Some(sync) = sync {
                r[at] = 1;
                r[at + 1] = sync.start as u64;
                r[at + 2] = sync.entries.len() as u64;
                fill(buffer, &sync.entries);
            }
        };
        hold(r, 54, &s.held, &mut self.best);
        if let Some(p) = &s.cached {
            r[64] = 1;
            put_ballot(r, 65, p.n);
            put_ballot(r, 68, p.n_accepted);
            r[71] = p.decided as u64;
            r[72] = p.accepted as u64;
            hold(r, 73, &p.sync, &mut self.cached);
        }
        for (i, p) in s.places.iter().enumerate() {
            put_place(&mut r[80 + 16 * i..96 + 16 * i], p);
        }
        fill(&mut self.log, &s.log);
        self.load_queue(&s.queue, random);
    }

    fn load_queue(&mut self, queue: &[Sent], random: &mut Random) {
        self.row.fill(0);
        let carried: usize = queue.iter().map(|m| m.msg.entries().len()).sum();
        let mut spare = STORE.saturating_sub(carried);
        let mut order: Vec<usize> = (0..queue.len()).collect();
        if random.one_in(2) {
            random.shuffle(&mut order);
        }
        let gaps = random.one_in(2);
        let mut at = 0;
        for k in order {
            let Some(w) = self.row.get_mut(16 * k..16 * k + 16) else { continue };
            put_message(w, &queue[k].msg);
            w[0] = queue[k].to;
            let entries = queue[k].msg.entries();
            if gaps && spare > 0 && !entries.is_empty() {
                let gap = random.below(spare.min(40) as u64 + 1) as usize;
                at += gap;
                spare -= gap;
            }
            w[14] = at as u64;
            w[15] = entries.len() as u64;
            for e in entries {
                if at < STORE {
                    self.store[at] = *e;
                }
                at += 1;
            }
        }
    }
}

/// One depot's place.
pub fn put_place(w: &mut [u64], p: &Place) {
    w.fill(0);
    match p.promised {
        Promised::No => (),
        Promised::Yes(m) => {
            w[0] = 1;
            put_ballot(w, 1, m.n_accepted);
            w[4] = m.accepted as u64;
            w[5] = m.decided as u64;
            w[6] = m.pid;
        }
        Promised::Higher => w[0] = 2,
    }
    (w[7], w[8]) = p.number;
    w[9] = p.accepted as u64;
    if let Some(at) = p.latest {
        w[10] = 1;
        w[11] = at as u64;
    }
}

fn fill(to: &mut [u64], from: &[u64]) {
    let n = from.len().min(to.len());
    to[..n].copy_from_slice(&from[..n]);
}
