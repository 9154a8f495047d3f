// Scripts: a box, perhaps put into a state, and the steps that it is given. As text, run again, and made smaller while they still differ.
use crate::pair::{parts, Difference, Pair};
use crate::random::Random;
use crate::rules::Table;
use omnipaxos::plain::*;
use omnipaxos::Node;
use std::fmt::Write;

#[derive(Clone)]
pub struct Script {
    pub cluster: Cluster,
    pub pid: u64,
    pub start: Option<State>,
    pub steps: Vec<Event>,
}

/// Where a script differs, and at which step.
pub struct Found {
    pub script: Script,
    pub difference: Difference,
}

impl Script {
    /// Runs it; a difference comes with the number of its step.
    pub fn run(&self) -> Result<(), (usize, Difference)> {
        let mut pair = Pair::fresh(self.cluster, self.pid);
        if let Some(s) = &self.start {
            pair.load(s, &mut Random::seeded(1));
        }
        let mut table = Table::empty();
        for (i, e) in self.steps.iter().enumerate() {
            pair.step(e, &mut table, None).map_err(|d| (i, d))?;
        }
        Ok(())
    }

    /// What each side does at each step, and in which parts the Rust as it is ends elsewhere: also where the rules explain it.
    pub fn tell(&self) {
        let mut pair = Pair::fresh(self.cluster, self.pid);
        if let Some(s) = &self.start {
            pair.load(s, &mut Random::seeded(1));
        }
        for e in &self.steps {
            let mut rust = Node::fresh(self.cluster, self.pid);
            rust.load(&pair.state);
            let did = rust.step(e);
            let outcome = pair.step(e, &mut Table::empty(), None);
            println!("{}", show_event(e));
            match outcome {
                Ok(outcome) => println!("    the port: {}", outcome.no),
                Err(d) => {
                    println!("    UNEXPLAINED: {}", d.0);
                    return;
                }
            }
            match did.and_then(|_| rust.state()) {
                Err(text) => println!("    the Rust: panics, {text}"),
                Ok(after) => parts(&pair.state, &after).into_iter().for_each(|p| println!("    {}", p.chars().take(400).collect::<String>())),
            }
        }
    }

    fn differs(&self) -> bool {
        std::panic::catch_unwind(std::panic::AssertUnwindSafe(|| self.run().is_err())).unwrap_or(true)
    }

    /// The smallest script found that still differs: fewer steps first, then less in the state and in the steps.
    pub fn shrunk(mut self) -> Script {
        let mut size = (self.steps.len() / 2).max(1);
        loop {
            let mut at = 0;
            let mut fewer = false;
            while at < self.steps.len() {
                let mut less = self.clone();
                less.steps.drain(at..(at + size).min(less.steps.len()));
                if less.differs() {
                    self = less;
                    fewer = true;
                } else {
                    at += size;
                }
            }
            if size == 1 && !fewer {
                break;
            }
            size = (size / 2).max(1);
        }
        while let Some(less) = self.lesser().into_iter().find(|s| s.differs()) {
            self = less;
        }
        self
    }

    fn lesser(&self) -> Vec<Script> {
        let mut all = vec![];
        if let Some(s) = &self.start {
            all.extend(lesser_states(s).into_iter().filter(|l| l != s).map(|l| Script { start: Some(l), ..self.clone() }));
        }
        for (i, e) in self.steps.iter().enumerate() {
            for less in lesser_events(e) {
                let mut s = self.clone();
                s.steps[i] = less;
                all.push(s);
            }
        }
        all
    }

    pub fn text(&self) -> String {
        let mut t = String::new();
        let quorum = self.cluster.flexible.map_or("majority".to_string(), |(r, w)| format!("read {r} write {w}"));
        writeln!(t, "depots {} {quorum}\nat {}", self.cluster.depots, self.pid).unwrap();
        if let Some(s) = &self.start {
            writeln!(t, "hold {}", show_state(s)).unwrap();
        }
        for e in &self.steps {
            writeln!(t, "{}", show_event(e)).unwrap();
        }
        t
    }

    /// The scripts of a text, each with the comment before it. A line `depots ..` begins one.
    pub fn parse(text: &str) -> Vec<(String, Script)> {
        let mut all: Vec<(String, Script)> = vec![];
        let mut about = String::new();
        for line in text.lines().map(str::trim).filter(|l| !l.is_empty()) {
            let (word, rest) = line.split_once(' ').unwrap_or((line, ""));
            if word.starts_with('#') {
                about += &format!("{line}\n");
                continue;
            }
            if word == "depots" {
                let script = Script { cluster: read_cluster(rest), pid: 1, start: None, steps: vec![] };
                all.push((std::mem::take(&mut about), script));
                continue;
            }
            let Some((_, script)) = all.last_mut() else { continue };
            match word {
                "at" => script.pid = number(rest),
                "hold" => script.start = Some(read_state(rest, script.cluster.depots)),
                _ => script.steps.push(read_event(line)),
            }
        }
        all
    }
}

fn read_cluster(t: &str) -> Cluster {
    let w: Vec<&str> = t.split(' ').collect();
    Cluster { depots: number(w[0]), flexible: (w[1] == "read").then(|| (number(w[2]), number(w[4]))) }
}

fn lesser_states(s: &State) -> Vec<State> {
    let mut all = vec![];
    let mut with = |change: &dyn Fn(&mut State)| {
        let mut less = s.clone();
        change(&mut less);
        all.push(less);
    };
    with(&|s| {
        s.queue.clear();
        s.remembered = None;
        s.places.iter_mut().for_each(|p| p.latest = None);
    });
    with(&|s| {
        s.queue.pop();
    });
    with(&|s| {
        for m in &mut s.queue {
            if let Msg::AcceptDecide { entries, .. } | Msg::Forward { entries } = &mut m.msg {
                entries.iter_mut().for_each(|e| *e = 0);
            }
        }
    });
    with(&|s| s.cached = None);
    with(&|s| s.held = None);
    with(&|s| s.buffered.clear());
    with(&|s| {
        s.buffered.pop();
    });
    with(&|s| s.remembered = None);
    with(&|s| s.best = Meta::default());
    with(&|s| s.number = (0, 0));
    with(&|s| s.n_leader = Ballot::default());
    with(&|s| s.accepted_round = Ballot::default());
    with(&|s| s.promise = Ballot::default());
    with(&|s| s.phase = Phase::None);
    with(&|s| s.leader = false);
    for i in 0..s.places.len() {
        with(&|s| s.places[i] = Place::default());
        with(&|s| s.places[i].latest = None);
        with(&|s| s.places[i].promised = Promised::No);
        with(&|s| s.places[i].number = (0, 0));
        with(&|s| s.places[i].accepted = 0);
    }
    for half in [s.log.len(), s.log.len() / 2, 1] {
        with(&|s| {
            s.log.truncate(s.log.len().saturating_sub(half));
            s.length = s.log.len();
            s.decided = s.decided.min(s.length);
        });
    }
    with(&|s| s.decided = 0);
    with(&|s| s.decided = s.decided.saturating_sub(1));
    with(&|s| s.log.iter_mut().for_each(|e| *e = 0));
    all
}

fn lesser_events(e: &Event) -> Vec<Event> {
    let mut all = vec![];
    let mut entries_less = |e: &[u64], make: &dyn Fn(Vec<u64>) -> Event| {
        if !e.is_empty() {
            all.push(make(e[..e.len() / 2].to_vec()));
            all.push(make(e[..e.len() - 1].to_vec()));
            if e.iter().any(|e| *e > 0) {
                all.push(make(vec![0; e.len()]));
            }
        }
    };
    match e {
        Event::Propose { entries } => entries_less(entries, &|entries| Event::Propose { entries }),
        Event::Message { from, msg } => {
            let entries = msg.entries().to_vec();
            entries_less(&entries, &|less| {
                let mut msg = msg.clone();
                match &mut msg {
                    Msg::Promise(Promise { sync: Some(s), .. }) | Msg::AcceptSync { sync: s, .. } => s.entries = less,
                    Msg::AcceptDecide { entries, .. } | Msg::Forward { entries } => *entries = less,
                    _ => (),
                }
                Event::Message { from: *from, msg }
            });
        }
        _ => (),
    }
    all
}

fn show_ballot(b: Ballot) -> String {
    format!("{}.{}.{}", b.round, b.priority, b.pid)
}

fn show_number(n: Number) -> String {
    format!("{}.{}", n.0, n.1)
}

/// Entries, a run of equal ones as `entry*count`.
fn show_entries(e: &[u64]) -> String {
    let run = |r: &[u64]| if r.len() == 1 { r[0].to_string() } else { format!("{}*{}", r[0], r.len()) };
    format!("[{}]", e.chunk_by(|a, b| a == b).map(run).collect::<Vec<_>>().join(","))
}

fn show_sync(s: &Option<Sync>) -> String {
    s.as_ref().map_or("none".to_string(), |s| format!("{}:{}", s.start, show_entries(&s.entries)))
}

fn show_meta(m: &Meta) -> String {
    format!("{}/{}/{}/{}", show_ballot(m.n_accepted), m.accepted, m.decided, m.pid)
}

fn show_promise(p: &Promise) -> String {
    format!(
        "Promise(n={};n_accepted={};decided={};accepted={};sync={})",
        show_ballot(p.n),
        show_ballot(p.n_accepted),
        p.decided,
        p.accepted,
        show_sync(&p.sync)
    )
}

pub fn show_message(m: &Msg) -> String {
    let number = |n: &Number| show_number(*n);
    match m {
        Msg::PrepareReq { n } => format!("PrepareReq(n={})", show_ballot(*n)),
        Msg::Prepare { n, n_accepted, decided, accepted } => {
            format!("Prepare(n={};n_accepted={};decided={decided};accepted={accepted})", show_ballot(*n), show_ballot(*n_accepted))
        }
        Msg::Promise(p) => show_promise(p),
        Msg::AcceptSync { n, number: q, decided, sync } => {
            format!("AcceptSync(n={};number={};decided={decided};sync={}:{})", show_ballot(*n), number(q), sync.start, show_entries(&sync.entries))
        }
        Msg::AcceptDecide { n, number: q, decided, entries } => {
            format!("AcceptDecide(n={};number={};decided={decided};entries={})", show_ballot(*n), number(q), show_entries(entries))
        }
        Msg::Accepted { n, accepted } => format!("Accepted(n={};accepted={accepted})", show_ballot(*n)),
        Msg::NotAccepted { n } => format!("NotAccepted(n={})", show_ballot(*n)),
        Msg::Decide { n, number: q, decided } => format!("Decide(n={};number={};decided={decided})", show_ballot(*n), number(q)),
        Msg::Forward { entries } => format!("ProposalForward(entries={})", show_entries(entries)),
    }
}

pub fn show_event(e: &Event) -> String {
    match e {
        Event::Message { from, msg } => format!("message from {from} {}", show_message(msg)),
        Event::Propose { entries } => format!("propose {}", show_entries(entries)),
        Event::Leader { n } => format!("leader {}", show_ballot(*n)),
        Event::Reconnect { pid } => format!("reconnect {pid}"),
        Event::Resend => "resend".to_string(),
        Event::Drain => "drain".to_string(),
        Event::Restart => "restart".to_string(),
    }
}

fn show_place(p: &Place) -> String {
    let promised = match &p.promised {
        Promised::No => "no".to_string(),
        Promised::Yes(m) => show_meta(m),
        Promised::Higher => "higher".to_string(),
    };
    let latest = p.latest.map_or("none".to_string(), |at| at.to_string());
    format!("({promised};{};{};{latest})", show_number(p.number), p.accepted)
}

pub fn show_state(s: &State) -> String {
    let remembered = s.remembered.map_or("none".to_string(), |(b, at)| format!("{}@{at}", show_ballot(b)));
    [
        format!("promise={}", show_ballot(s.promise)),
        format!("accepted_round={}", show_ballot(s.accepted_round)),
        format!("decided={}", s.decided),
        format!("log={}", show_entries(&s.log)),
        format!("role={}", if s.leader { "Leader" } else { "Follower" }),
        format!("phase={:?}", s.phase),
        format!("buffered={}", show_entries(&s.buffered)),
        format!("number={}", show_number(s.number)),
        format!("cached={}", s.cached.as_ref().map_or("none".to_string(), show_promise)),
        format!("remembered={remembered}"),
        format!("n_leader={}", show_ballot(s.n_leader)),
        format!("places={}", s.places.iter().map(show_place).collect::<Vec<_>>().join("|")),
        format!("best={}", show_meta(&s.best)),
        format!("held={}", show_sync(&s.held)),
        format!("queue={}", s.queue.iter().map(|m| format!("{}>{}", m.to, show_message(&m.msg))).collect::<Vec<_>>().join("|")),
    ]
    .join(" ")
}

fn number<T: std::str::FromStr>(t: &str) -> T {
    t.parse().unwrap_or_else(|_| panic!("no number: {t}"))
}

fn read_ballot(t: &str) -> Ballot {
    let w: Vec<&str> = t.split('.').collect();
    Ballot { round: number(w[0]), priority: number(w[1]), pid: number(w[2]) }
}

fn read_number(t: &str) -> Number {
    let (session, counter) = t.split_once('.').unwrap();
    (number(session), number(counter))
}

fn read_entries(t: &str) -> Vec<u64> {
    let run = |t: &str| match t.split_once('*') {
        None => vec![number(t)],
        Some((e, n)) => vec![number(e); number(n)],
    };
    t.trim_matches(['[', ']']).split(',').filter(|e| !e.is_empty()).flat_map(run).collect()
}

fn read_sync(t: &str) -> Option<Sync> {
    t.split_once(':').map(|(start, entries)| Sync { start: number(start), entries: read_entries(entries) })
}

fn read_meta(t: &str) -> Meta {
    let w: Vec<&str> = t.split('/').collect();
    Meta { n_accepted: read_ballot(w[0]), accepted: number(w[1]), decided: number(w[2]), pid: number(w[3]) }
}

fn read_message(t: &str) -> Msg {
    let (kind, fields) = t.trim_end_matches(')').split_once('(').unwrap();
    let get = |key: &str| fields.split(';').find_map(|f| f.strip_prefix(key).and_then(|f| f.strip_prefix('='))).unwrap_or("");
    let n = || read_ballot(get("n"));
    let decided = || number(get("decided"));
    let accepted = || number(get("accepted"));
    match kind {
        "PrepareReq" => Msg::PrepareReq { n: n() },
        "Prepare" => Msg::Prepare { n: n(), n_accepted: read_ballot(get("n_accepted")), decided: decided(), accepted: accepted() },
        "Promise" => {
            Msg::Promise(Promise { n: n(), n_accepted: read_ballot(get("n_accepted")), decided: decided(), accepted: accepted(), sync: read_sync(get("sync")) })
        }
        "AcceptSync" => Msg::AcceptSync { n: n(), number: read_number(get("number")), decided: decided(), sync: read_sync(get("sync")).unwrap() },
        "AcceptDecide" => Msg::AcceptDecide { n: n(), number: read_number(get("number")), decided: decided(), entries: read_entries(get("entries")) },
        "Accepted" => Msg::Accepted { n: n(), accepted: accepted() },
        "NotAccepted" => Msg::NotAccepted { n: n() },
        "Decide" => Msg::Decide { n: n(), number: read_number(get("number")), decided: decided() },
        "ProposalForward" => Msg::Forward { entries: read_entries(get("entries")) },
        _ => panic!("no message: {kind}"),
    }
}

fn read_event(t: &str) -> Event {
    let w: Vec<&str> = t.split(' ').collect();
    match w[0] {
        "message" => Event::Message { from: number(w[2]), msg: read_message(w[3]) },
        "propose" => Event::Propose { entries: read_entries(w[1]) },
        "leader" => Event::Leader { n: read_ballot(w[1]) },
        "reconnect" => Event::Reconnect { pid: number(w[1]) },
        "resend" => Event::Resend,
        "drain" => Event::Drain,
        "restart" => Event::Restart,
        _ => panic!("no step: {t}"),
    }
}

fn read_place(t: &str) -> Place {
    let w: Vec<&str> = t.trim_matches(['(', ')']).split(';').collect();
    let promised = match w[0] {
        "no" => Promised::No,
        "higher" => Promised::Higher,
        m => Promised::Yes(read_meta(m)),
    };
    Place { promised, number: read_number(w[1]), accepted: number(w[2]), latest: (w[3] != "none").then(|| number(w[3])) }
}

/// What is not told is as in a fresh box.
fn read_state(t: &str, depots: u64) -> State {
    let mut s = State::fresh(depots);
    for (key, value) in t.split(' ').filter_map(|f| f.split_once('=')) {
        match key {
            "promise" => s.promise = read_ballot(value),
            "accepted_round" => s.accepted_round = read_ballot(value),
            "decided" => s.decided = number(value),
            "log" => s.log = read_entries(value),
            "role" => s.leader = value == "Leader",
            "phase" => s.phase = read_phase(value),
            "buffered" => s.buffered = read_entries(value),
            "number" => s.number = read_number(value),
            "cached" => s.cached = read_cached(value),
            "remembered" => s.remembered = value.split_once('@').map(|(b, at)| (read_ballot(b), number(at))),
            "n_leader" => s.n_leader = read_ballot(value),
            "places" => s.places = value.split('|').map(read_place).collect(),
            "best" => s.best = read_meta(value),
            "held" => s.held = read_sync(value),
            "queue" => s.queue = value.split('|').filter(|m| !m.is_empty()).map(read_sent).collect(),
            _ => panic!("no part of a box: {key}"),
        }
    }
    s.length = s.log.len();
    s
}

fn read_phase(t: &str) -> Phase {
    match t {
        "Prepare" => Phase::Prepare,
        "Accept" => Phase::Accept,
        "Recover" => Phase::Recover,
        _ => Phase::None,
    }
}

fn read_cached(t: &str) -> Option<Promise> {
    match t {
        "none" => None,
        _ => match read_message(t) {
            Msg::Promise(p) => Some(p),
            _ => panic!("no promise: {t}"),
        },
    }
}

fn read_sent(t: &str) -> Sent {
    let (to, msg) = t.split_once('>').unwrap();
    Sent { to: number(to), msg: read_message(msg) }
}
