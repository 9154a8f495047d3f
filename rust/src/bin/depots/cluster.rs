//! The depots, the links between them, and the commands that act on them. What a box decides is the library's step.

use crate::script::{Ballot, Command, Count};
use crate::story::{Answered, Effect, Story, What};
use crate::tell::{self, Message, Reason};
use hire_depots::{words, Answer, Depot};
use std::collections::VecDeque;

/// A message on its way, with its place in the story.
pub struct Travelling {
    id: usize,
    pub message: Message,
}

pub struct Cluster {
    pub depots: Vec<Depot>,
    /// `links[from][to]`, places counted from 0; first in, first out.
    pub links: Vec<Vec<VecDeque<Travelling>>>,
    pub story: Story,
    /// Whether it tells of steps that changed nothing, and of entries in words.
    pub tells: bool,
    /// The messages of each depot's queue, by their places in the story.
    queued: Vec<Vec<usize>>,
    old_rule: bool,
}

/// A step's answer, and whether it left everything lent as it was.
struct Step {
    answer: Answer,
    answered: Answered,
    effects: Vec<Effect>,
}

/// Which message of a link a command is for, and what becomes of it.
#[derive(Clone, Copy, PartialEq)]
enum Fate {
    Arrives,
    Lost,
}

impl Cluster {
    pub fn new(depots: u64, sizes: Option<(u64, u64)>, tells: bool) -> Cluster {
        let n = depots as usize;
        Cluster {
            depots: (1..=depots).map(|pid| Depot::fresh(depots, pid, sizes)).collect(),
            links: (0..n).map(|_| (0..n).map(|_| VecDeque::new()).collect()).collect(),
            story: Story::new(n),
            tells,
            queued: vec![Vec::new(); n],
            old_rule: false,
        }
    }

    /// Runs a command that acts on the depots; the lines say what came of it. `Err` tells why it cannot be run, and then nothing was done.
    pub fn run(&mut self, command: &Command) -> Result<Vec<String>, Reason> {
        match command {
            Command::Title(words) => self.story.title = words.clone(),
            Command::Rule { old } => self.set_rule(*old),
            Command::Leader { at, ballot } => return self.leader(self.place(*at)?, *ballot),
            Command::Propose { at, entries } => return self.propose(self.place(*at)?, entries),
            Command::Drain { at } => return self.drain(self.place(*at)?),
            Command::Deliver { from, to, count } => return self.many(*from, *to, *count, Fate::Arrives),
            Command::Lose { from, to, count } => return self.many(*from, *to, *count, Fate::Lost),
            Command::Reconnect { at, pid } => return self.reconnect(self.place(*at)?, *pid),
            Command::Resend { at } => {
                let words = "asks again what was not answered";
                return self.event(self.place(*at)?, words::event(words::RESEND), &[], words.to_string());
            }
            Command::Restart { at } => {
                return self.event(self.place(*at)?, words::event(words::RESTART), &[], "restarts".to_string());
            }
            Command::Cluster { .. } | Command::Show | Command::Chart => (),
        }
        Ok(Vec::new())
    }

    fn place(&self, pid: u64) -> Result<usize, Reason> {
        if pid < 1 || pid > self.depots.len() as u64 {
            return Err(format!("depot {pid}: this cluster has 1 to {}", self.depots.len()));
        }
        Ok(pid as usize - 1)
    }

    fn set_rule(&mut self, old: bool) {
        self.old_rule = old;
        self.story.add(What::Rule { old }, Answered::Taken, Vec::new());
    }

    fn leader(&mut self, at: usize, ballot: Ballot) -> Result<Vec<String>, Reason> {
        let mut event = words::event(words::LEADER);
        event[2..5].copy_from_slice(&ballot);
        let whom = if ballot[2] == at as u64 + 1 { "is to lead".to_string() } else { format!("hears that depot {} leads", ballot[2]) };
        self.event(at, event, &[], format!("{whom} (round {})", ballot[0]))
    }

    fn propose(&mut self, at: usize, entries: &[u64]) -> Result<Vec<String>, Reason> {
        let words = if entries.is_empty() { "nothing".to_string() } else { tell::entries_in_words(entries) };
        self.event(at, words::event(words::PROPOSE), entries, format!("is told: {words}"))
    }

    fn reconnect(&mut self, at: usize, pid: u64) -> Result<Vec<String>, Reason> {
        let mut event = words::event(words::RECONNECT);
        event[0] = pid;
        self.event(at, event, &[], format!("its link to depot {pid} stands again"))
    }

    /// One step that is no message and no drain.
    fn event(&mut self, at: usize, event: [u64; words::BLOCK], entries: &[u64], words: String) -> Result<Vec<String>, Reason> {
        let step = self.step(at, event, entries);
        let said = self.told(&step, "taken, nothing changed");
        self.story.add(What::Event { at, words }, step.answered, step.effects);
        Ok(vec![format!("    {said}")])
    }

    fn drain(&mut self, at: usize) -> Result<Vec<String>, Reason> {
        let waiting = queue_of(&self.depots[at]);
        let ids = self.queued[at].clone();
        let step = self.step(at, words::event(words::DRAIN), &[]);
        let mut lines = vec![format!("    {}", self.told(&step, "taken, nothing to hand out"))];
        if step.answer.no != 0 {
            self.story.add(What::Sends { at, messages: Vec::new() }, step.answered, step.effects);
            return Ok(lines);
        }
        for (id, message) in ids.iter().zip(waiting) {
            lines.push(format!("    to {}: {}", message.to(), message.told()));
            self.story.send(*id);
            if (1..=self.depots.len()).contains(&message.to()) {
                self.links[at][message.to() - 1].push_back(Travelling { id: *id, message });
            }
        }
        self.story.add(What::Sends { at, messages: ids }, step.answered, step.effects);
        Ok(lines)
    }

    /// Several messages of one link, or none: where fewer wait than are asked for, the line is bad and all of them wait on.
    fn many(&mut self, from: u64, to: u64, count: Count, fate: Fate) -> Result<Vec<String>, Reason> {
        let (from, to) = (self.place(from)?, self.place(to)?);
        let waiting = self.links[from][to].len() as u64;
        let count = match count {
            Count::All => waiting,
            Count::Number(n) => n,
        };
        if waiting == 0 && count > 0 {
            return Err(format!("nothing is on its way from {} to {}", from + 1, to + 1));
        }
        if waiting < count {
            return Err(format!("only {waiting} on the way from {} to {}, not {count}", from + 1, to + 1));
        }
        let first = self.links[from][to].drain(..count as usize).collect::<Vec<_>>();
        Ok(first.into_iter().map(|m| if fate == Fate::Lost { self.lose(m) } else { self.deliver(from, to, m) }).collect())
    }

    fn lose(&mut self, travelling: Travelling) -> String {
        self.story.end(travelling.id);
        self.story.add(What::Lost { message: travelling.id }, Answered::Taken, Vec::new());
        format!("    lost: {}", travelling.message.told())
    }

    fn deliver(&mut self, from: usize, to: usize, travelling: Travelling) -> String {
        let Travelling { id, message } = travelling;
        let mut event = message.head;
        event[0] = from as u64 + 1;
        event[14] = words::MESSAGE;
        event[15] = 0;
        let step = self.step(to, event, &message.entries);
        let said = self.told(&step, "ignored, nothing changed");
        self.story.end(id);
        self.story.add(What::Arrives { message: id }, step.answered, step.effects);
        format!("    {}: {said}", message.told())
    }

    fn step(&mut self, at: usize, event: [u64; words::BLOCK], entries: &[u64]) -> Step {
        let before = self.depots[at].clone();
        let differed = self.difference().is_some();
        let answer = self.depots[at].step(&event, entries);
        if self.old_rule && answer.no == 0 {
            keep_remembered(&before.record, &mut self.depots[at].record);
        }
        let answered = match answer.no {
            0 if before == self.depots[at] => Answered::Unchanged,
            0 => Answered::Taken,
            n => Answered::Refused(n),
        };
        let mut effects = changes(&before, &self.depots[at]);
        effects.extend(self.queue_changes(at, &before));
        if !differed {
            effects.extend(self.difference().map(Effect::Differ));
        }
        Step { answer, answered, effects }
    }

    /// What the step did to the queue: a message more, or one that waits changed.
    fn queue_changes(&mut self, at: usize, before: &Depot) -> Vec<Effect> {
        let (old, new) = (queue_of(before), queue_of(&self.depots[at]));
        let mut effects = Vec::new();
        // A drain or a restart empties the queue; nothing else takes a message out of it.
        if new.len() < old.len() {
            self.queued[at].clear();
        }
        for (place, message) in new.into_iter().enumerate() {
            let Some(id) = self.queued[at].get(place).copied() else {
                let id = self.story.queue(at, message);
                self.queued[at].push(id);
                effects.push(Effect::Queued(id));
                continue;
            };
            if self.story.passages[id].message != message {
                effects.push(Effect::Joined(joined(&self.story.passages[id].message, &message)));
                self.story.passages[id].message = message;
            }
        }
        effects
    }

    /// What a step answered; `unchanged` is told of one that was taken and changed nothing.
    fn told(&self, step: &Step, unchanged: &str) -> String {
        let mut s = match step.answered {
            Answered::Unchanged if self.tells => unchanged.to_string(),
            Answered::Taken | Answered::Unchanged => "taken".to_string(),
            Answered::Refused(n) => tell::refusal(n),
        };
        if step.answer.dropped > 0 {
            s += &format!(", {} buffered entries dropped", step.answer.dropped);
        }
        if step.answer.handed_out > 0 {
            s += &format!(", {} handed out", step.answer.handed_out);
        }
        s
    }

    /// The first place in which two depots decided different entries, in words.
    pub fn difference(&self) -> Option<String> {
        for (i, a) in self.depots.iter().enumerate() {
            for (j, b) in self.depots.iter().enumerate().skip(i + 1) {
                let both = a.decided().iter().zip(b.decided());
                if let Some((place, (x, y))) = both.enumerate().find(|(_, (x, y))| x != y) {
                    let (x, y) = (tell::entry_in_words(*x), tell::entry_in_words(*y));
                    return Some(format!("entry {} is {x} at depot {}, and {y} at depot {}", place + 1, i + 1, j + 1));
                }
            }
        }
        None
    }
}

/// By the old rule a depot whose session the step raised keeps its remembered AcceptDecide.
fn keep_remembered(before: &[u64; words::RECORD], after: &mut [u64; words::RECORD]) {
    const SESSION: usize = 7;
    const REMEMBERED: std::ops::Range<usize> = 10..12;
    for place in 0..7 {
        let block = words::PLACES + place * words::BLOCK;
        if before[block + SESSION] < after[block + SESSION] {
            for word in REMEMBERED {
                after[block + word] = before[block + word];
            }
        }
    }
}

fn queue_of(depot: &Depot) -> Vec<Message> {
    // Where its entries lie in the store is no part of a message.
    let plain = |mut head: [u64; words::BLOCK]| {
        head[14] = 0;
        head
    };
    depot.queue().map(|(head, entries)| Message { head: plain(head), entries: entries.to_vec() }).collect()
}

fn joined(old: &Message, new: &Message) -> String {
    if new.entries.len() > old.entries.len() {
        let added = tell::entries_in_words(&new.entries[old.entries.len()..]);
        return format!("adds {added} to the {} that waits in its queue", old.label());
    }
    format!("brings the {} that waits in its queue up to date", old.label())
}

pub fn days(depot: &Depot) -> u64 {
    depot.book.chunks_exact(3).map(|pump| pump[2]).sum()
}

pub fn written(depot: &Depot) -> &[u64] {
    &depot.log[..(depot.record[words::LENGTH] as usize).min(words::LOG)]
}

/// What a step changed in a box, its queue aside.
fn changes(before: &Depot, after: &Depot) -> Vec<Effect> {
    let mut effects = Vec::new();
    effects.extend(role_change(&before.record, &after.record));
    effects.extend(log_change(written(before), written(after)));
    if after.record[13] > before.record[13] {
        effects.push(Effect::Log(format!("keeps {} until a leader is there", tell::entries(after.record[13]))));
    }
    let known = before.decided().len();
    if after.decided().len() > known {
        effects.extend(numbered("decides", known, &after.decided()[known..]).into_iter().map(Effect::Decided));
    }
    if days(before) != days(after) {
        effects.push(Effect::Charged(days(after)));
    }
    effects
}

fn role_change(before: &[u64; words::RECORD], after: &[u64; words::RECORD]) -> Option<Effect> {
    if before[..3] == after[..3] && before[8..10] == after[8..10] {
        return None;
    }
    let leader = after[2];
    Some(Effect::Role(match (after[8], after[9]) {
        (1, 0) => "asks the others for their promises".to_string(),
        (1, _) => "has its promises, and leads".to_string(),
        (_, 0) => format!("promises to follow depot {leader}"),
        (_, 1) => format!("is in step with depot {leader}"),
        (_, 2) => "has to be brought up to date".to_string(),
        _ => "waits".to_string(),
    }))
}

fn log_change(before: &[u64], after: &[u64]) -> Vec<Effect> {
    let same = before.iter().zip(after).take_while(|(x, y)| x == y).count();
    if same == before.len() && same == after.len() {
        return Vec::new();
    }
    if same == after.len() {
        return vec![Effect::Log(format!("its log ends after entry {same}"))];
    }
    let verb = if same < before.len() { "writes anew" } else { "writes down" };
    numbered(verb, same, &after[same..]).into_iter().map(Effect::Log).collect()
}

/// `decides entry 2: pump 7 back on day 14` for each of a few entries that stand from a place on; one line for many.
fn numbered(verb: &str, from: usize, entries: &[u64]) -> Vec<String> {
    const A_FEW: usize = 4;
    if entries.len() > A_FEW {
        return vec![format!("{verb} entries {} to {}: {}", from + 1, from + entries.len(), tell::entries_in_words(entries))];
    }
    let line = |(i, entry): (usize, &u64)| format!("{verb} entry {}: {}", from + i + 1, tell::entry_in_words(*entry));
    entries.iter().enumerate().map(line).collect()
}
