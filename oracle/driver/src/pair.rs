// One depot's box on both sides. A step is given to both, and everything that they keep is compared after it.
use crate::expect::{self, Rule};
use crate::port::{event_words, put_place, Answer, Words};
use crate::random::Random;
use crate::rules::{self, Table};
use crate::script::show_state;
use crate::tape::{self, Taped};
use omnipaxos::plain::*;
use omnipaxos::Node;
use std::sync::atomic::{AtomicU64, Ordering};

pub struct Pair {
    pub cluster: Cluster,
    pub pid: u64,
    pub words: Words,
    pub node: Node,
    pub state: State,
    found: Words,
    id: u64,
}

/// Boxes are told apart on the tape.
fn next_id() -> u64 {
    static NEXT: AtomicU64 = AtomicU64::new(0);
    NEXT.fetch_add(1, Ordering::Relaxed)
}

/// What a step came to on both sides.
pub struct Outcome {
    pub no: u32,
    pub handed_out: Vec<Sent>,
}

/// Where the two sides, or the port and document 01, part.
#[derive(Debug)]
pub struct Difference(pub String);

fn differ<T>(text: String) -> Result<T, Difference> {
    Err(Difference(text))
}

impl Pair {
    pub fn fresh(cluster: Cluster, pid: u64) -> Pair {
        let words = Words::fresh(cluster, pid);
        Pair { cluster, pid, found: words.clone(), words, node: Node::fresh(cluster, pid), state: State::fresh(cluster.depots), id: next_id() }
    }

    /// Both sides into a state; the text's side only where the record is not broken. Places past the depots get words that mean something.
    pub fn load(&mut self, s: &State, random: &mut Random) {
        self.state = s.clone();
        self.id = next_id();
        for w in self.words.record.chunks_mut(16).skip(5 + s.places.len()) {
            let promised = *random.pick(&[Promised::No, Promised::Higher, Promised::Yes(Meta { accepted: 999, pid: 9, ..Meta::default() })]);
            put_place(w, &Place { promised, number: (random.below(9), 9), accepted: 999, latest: Some(99) });
        }
        self.words.load(s, random);
        self.node.load(s);
    }

    pub fn id(&self) -> u64 {
        self.id
    }

    /// One step on both sides. `raw`: why the words as lent are to be refused with 2 where the state does not show it.
    pub fn step(&mut self, e: &Event, table: &mut Table, raw: Option<Rule>) -> Result<Outcome, Difference> {
        self.found.clone_from(&self.words);
        let answer = self.words.step(e);
        let outcome = self.compare(e, answer, table, raw)?;
        if tape::runs() {
            let (event, entries) = event_words(e);
            let checksum = if outcome.no == 0 { tape::checksum(&self.words_of_rust()) } else { tape::checksum(&self.found) };
            tape::put(self.id, &self.found, Taped { event, entries, answer: [answer.no as u64, answer.dropped, answer.handed_out], checksum });
        }
        Ok(outcome)
    }

    /// The state that the Rust and document 01 came to, as words; the book, which was compared, and the places past the depots as they are.
    fn words_of_rust(&self) -> Words {
        let mut w = Words { record: self.words.record.clone(), book: self.words.book.clone(), ..Words::fresh(self.cluster, self.pid) };
        w.load(&self.state, &mut Random::seeded(0));
        w
    }

    fn compare(&mut self, e: &Event, answer: Answer, table: &mut Table, raw: Option<Rule>) -> Result<Outcome, Difference> {
        let depots = self.cluster.depots;
        let early = expect::wrong_call(&self.found)
            .map(|r| (1, r))
            .or_else(|| raw.or_else(|| expect::broken(depots, self.pid, &self.state, &self.found.book)).map(|r| (2, r)))
            .or_else(|| expect::stranger(depots, self.pid, e).map(|r| (3, r)))
            .or_else(|| expect::unfit(depots, e).map(|r| (4, r)));
        if let Some((no, rule)) = early {
            return self.refused(answer, no, rule, table);
        }
        self.step_both(e, answer, table)
    }

    fn step_both(&mut self, e: &Event, answer: Answer, table: &mut Table) -> Result<Outcome, Difference> {
        let did = self.node.step(e);
        if let Some(rule) = expect::late_unfit(self.cluster, &self.state, e) {
            let acted = did.is_err() || self.node.state().as_ref() != Ok(&self.state) || repeats(&self.state, e);
            self.node.load(&self.state);
            if !acted {
                return differ(format!("{rule}: the Rust did not act on the message"));
            }
            return self.refused(answer, 4, rule, table);
        }
        let handed_out = match did {
            Err(text) if text.contains("overflow") => {
                let rule = rules::top(&self.state, e);
                self.node.load(&self.state);
                return self.refused(answer, 7, rule, table);
            }
            Err(text) => return differ(format!("the Rust panicked: {text}")),
            Ok(handed_out) => handed_out,
        };
        let mut after = self.node.state().map_err(|text| Difference(format!("the Rust's box: {text}")))?;
        let dropped = expect::cut(self.pid, &self.state, &mut after);
        if let Some((no, rule)) = expect::over(&self.state, e, &after) {
            self.node.load(&self.state);
            return self.refused(answer, no, rule, table);
        }
        if *e == Event::Restart {
            self.check_restart(&mut after)?;
        }
        if dropped > 0 || *e == Event::Restart {
            self.node.load(&after);
        }
        self.compare_taken(e, answer, &after, dropped, &handed_out)?;
        table.hit_all(&rules::taken(self.cluster, self.pid, &self.state, e, &after, dropped));
        self.state = after;
        Ok(Outcome { no: 0, handed_out })
    }

    /// What the crate keeps over a restart must be what document 01 keeps; the rest is set as document 01 has it.
    fn check_restart(&self, after: &mut State) -> Result<(), Difference> {
        let depots = self.cluster.depots;
        let expected = expect::restarted_by_text(depots, self.pid, &self.state);
        if *after != expected {
            return differ(format!("a restart, against what is known of the Rust: {}", parts(&expected, after).join("; ")));
        }
        *after = expect::restarted(depots, &self.state);
        Ok(())
    }

    fn compare_taken(&self, e: &Event, answer: Answer, after: &State, dropped: u64, handed_out: &[Sent]) -> Result<(), Difference> {
        let should = Answer { no: 0, dropped, handed_out: handed_out.len() as u64 };
        if answer != should {
            return differ(format!("the port answers {answer}, the Rust and document 01 give {should}"));
        }
        let port = self.words.state(self.cluster.depots);
        if port != *after {
            return differ(parts(&port, after).join("; "));
        }
        for (k, m) in handed_out.iter().enumerate() {
            if self.found.sent(k) != *m || self.words.sent(k) != *m {
                return differ(format!("message {k} handed out"));
            }
        }
        let mut book = if *e == Event::Restart { vec![0; self.found.book.len()] } else { self.found.book.clone() };
        let from = if *e == Event::Restart { 0 } else { self.state.decided };
        if from < after.decided {
            expect::enter(&mut book, &after.log[from..after.decided]);
        }
        if self.words.book != book {
            return differ("the book".to_string());
        }
        self.compare_queue(after)?;
        let past = 80 + 16 * self.cluster.depots as usize;
        if self.words.record[past..] != self.found.record[past..] {
            return differ("a place past the depots".to_string());
        }
        Ok(())
    }

    /// Where the entries lie: a step that writes to the queue leaves them packed, any other leaves row and store as found.
    fn compare_queue(&self, after: &State) -> Result<(), Difference> {
        let alone = self.words.row == self.found.row && self.words.store == self.found.store;
        if alone && (after.queue.is_empty() || after.queue == self.state.queue) {
            return Ok(());
        }
        let mut start = 0;
        for (k, m) in after.queue.iter().enumerate() {
            if self.words.row[16 * k + 14] != start {
                return differ(format!("the entries of message {k} are not packed"));
            }
            start += m.msg.entries().len() as u64;
        }
        if self.words.store[start as usize..] != self.found.store[start as usize..] {
            return differ("the store past the entries".to_string());
        }
        Ok(())
    }

    /// The port must have refused with this number, and left everything as found.
    fn refused(&mut self, answer: Answer, no: u32, rule: Rule, table: &mut Table) -> Result<Outcome, Difference> {
        if answer != (Answer { no, dropped: 0, handed_out: 0 }) {
            return differ(format!("the port answers {answer}, document 01 gives {no} ({rule})"));
        }
        if self.words != self.found {
            return differ(format!("refused with {no}, yet something was altered"));
        }
        table.hit(rule);
        Ok(Outcome { no, handed_out: vec![] })
    }
}

/// A message that the Rust acts on by writing what is there already.
fn repeats(s: &State, e: &Event) -> bool {
    let Event::Message { from, msg } = e else { return false };
    let place = &s.places[*from as usize - 1];
    match msg {
        Msg::Accepted { accepted, .. } => place.accepted == *accepted,
        Msg::Promise(p) => place.promised == Promised::Yes(Meta { n_accepted: p.n_accepted, accepted: p.accepted, decided: p.decided, pid: *from }),
        _ => false,
    }
}

/// The parts in which two states differ, as scripts write them; of places and queue only those that differ.
pub fn parts(port: &State, rust: &State) -> Vec<String> {
    let mut all = vec![];
    if port.length != rust.length {
        all.push(format!("length: the port has {}, the Rust {}", port.length, rust.length));
    }
    let (ours, theirs) = (show_state(port), show_state(rust));
    for (a, b) in ours.split(' ').zip(theirs.split(' ')).filter(|(a, b)| a != b) {
        let (key, a) = a.split_once('=').unwrap_or((a, ""));
        let b = &b[key.len() + 1..];
        let (a, b): (Vec<&str>, Vec<&str>) = (a.split('|').collect(), b.split('|').collect());
        for k in (0..a.len().max(b.len())).filter(|k| a.get(*k) != b.get(*k)) {
            let of = if a.len().max(b.len()) > 1 { format!(" {k}") } else { String::new() };
            let side = |v: &[&str]| v.get(k).filter(|t| !t.is_empty()).unwrap_or(&"nothing").to_string();
            all.push(format!("{key}{of}: the port has {}, the Rust {}", side(&a), side(&b)));
        }
    }
    all
}
