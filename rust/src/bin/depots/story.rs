//! What a run leaves behind for its chart: rows in the order of time, and the way of each message.

use crate::tell::{self, Message};

/// A chart with more rows than this is of no use to anyone.
const MOST_ROWS: usize = 2_000;

/// How a step was answered.
#[derive(Clone, Copy, PartialEq, Debug)]
pub enum Answered {
    Taken,
    /// Answered 0, and everything lent is as it was.
    Unchanged,
    Refused(u32),
}

pub enum What {
    Rule { old: bool },
    Event { at: usize, words: String },
    Sends { at: usize, messages: Vec<usize> },
    Arrives { message: usize },
    Lost { message: usize },
}

/// What a step changed, in words, by what it is about.
pub enum Effect {
    Role(String),
    Log(String),
    Decided(String),
    Charged(u64),
    Queued(usize),
    Joined(String),
    /// Two depots decided different entries in one place.
    Differ(String),
}

pub struct Row {
    pub line: usize,
    /// The comment of the script's line, on the first row that the line gives.
    pub note: String,
    pub what: What,
    pub answered: Answered,
    pub effects: Vec<Effect>,
}

/// A message from its queue to its end; the numbers are rows.
pub struct Passage {
    pub from: usize,
    pub message: Message,
    pub queued: usize,
    pub sent: Option<usize>,
    pub ended: Option<usize>,
}

pub struct Story {
    pub title: String,
    pub depots: usize,
    pub rows: Vec<Row>,
    pub passages: Vec<Passage>,
    pub too_long: bool,
    line: usize,
    note: String,
}

impl Story {
    pub fn new(depots: usize) -> Story {
        Story { title: String::new(), depots, rows: Vec::new(), passages: Vec::new(), too_long: false, line: 0, note: String::new() }
    }

    /// The rows that follow belong to this line of the script.
    pub fn at_line(&mut self, line: usize, note: &str) {
        self.line = line;
        self.note = note.to_string();
    }

    pub fn add(&mut self, what: What, answered: Answered, effects: Vec<Effect>) {
        if self.rows.len() == MOST_ROWS {
            self.too_long = true;
            return;
        }
        let note = std::mem::take(&mut self.note);
        self.rows.push(Row { line: self.line, note, what, answered, effects });
    }

    /// The row that is added next.
    fn next_row(&self) -> usize {
        self.rows.len()
    }

    /// A message is in a queue from the next row on.
    pub fn queue(&mut self, from: usize, message: Message) -> usize {
        self.passages.push(Passage { from, message, queued: self.next_row(), sent: None, ended: None });
        self.passages.len() - 1
    }

    pub fn send(&mut self, message: usize) {
        self.passages[message].sent = Some(self.next_row());
    }

    pub fn end(&mut self, message: usize) {
        self.passages[message].ended = Some(self.next_row());
    }

    /// Whether a message waited in its queue while something else happened.
    pub fn waited(&self, message: usize) -> bool {
        let passage = &self.passages[message];
        passage.sent.unwrap_or(self.rows.len()) > passage.queued + 1
    }

    /// The depot at whose column a row's words stand.
    pub fn owner(&self, row: &Row) -> Option<usize> {
        match &row.what {
            What::Event { at, .. } | What::Sends { at, .. } => Some(*at),
            What::Arrives { message } => Some(self.passages[*message].message.to() - 1),
            What::Rule { .. } | What::Lost { .. } => None,
        }
    }

    /// What a chart says of a row at its depot's column.
    pub fn texts(&self, row: &Row) -> Vec<Text> {
        let mut texts = Vec::new();
        texts.extend(self.headline(row));
        if let Answered::Refused(n) = row.answered {
            texts.push(Text::new(Tone::Alarm, tell::refusal(n)));
        }
        texts.extend(row.effects.iter().filter_map(|effect| self.effect_text(effect)));
        texts
    }

    fn headline(&self, row: &Row) -> Option<Text> {
        match (&row.what, row.answered) {
            (What::Event { words, .. }, Answered::Unchanged) => Some(Text::new(Tone::Head, format!("{words}; nothing changes"))),
            (What::Event { words, .. }, _) => Some(Text::new(Tone::Head, words.clone())),
            (What::Sends { messages, .. }, Answered::Unchanged) if messages.is_empty() => Some(Text::new(Tone::Faint, "has nothing to send".to_string())),
            (What::Arrives { message }, Answered::Unchanged) => Some(Text::new(Tone::Ignored, self.ignored(*message))),
            _ => None,
        }
    }

    fn ignored(&self, message: usize) -> String {
        let message = &self.passages[message].message;
        if message.entries.is_empty() {
            return format!("IGNORES the {}", message.label());
        }
        format!("IGNORES the {}, with {}", message.label(), tell::entries_in_words(&message.entries))
    }

    /// Of a message that waits without entries the chart's bar says enough.
    fn waits_with_entries(&self, id: usize) -> Option<Text> {
        let message = &self.passages[id].message;
        if !self.waited(id) || message.entries.is_empty() {
            return None;
        }
        Some(Text::new(Tone::Faint, format!("its {} to depot {} waits in the queue", message.label(), message.to())))
    }

    fn effect_text(&self, effect: &Effect) -> Option<Text> {
        Some(match effect {
            Effect::Role(words) => Text::new(Tone::Faint, words.clone()),
            Effect::Log(words) => Text::new(Tone::Plain, words.clone()),
            Effect::Joined(words) => Text::new(Tone::Faint, words.clone()),
            Effect::Decided(words) => Text::new(Tone::Decided, words.clone()),
            Effect::Charged(days) => Text::new(Tone::Decided, format!("its book now charges {}", tell::days(*days))),
            Effect::Queued(id) => self.waits_with_entries(*id)?,
            Effect::Differ(words) => Text::new(Tone::Alarm, format!("THE DEPOTS DIFFER: {words}")),
        })
    }
}

/// How a chart sets a text.
#[derive(Clone, Copy, PartialEq)]
pub enum Tone {
    Head,
    Plain,
    Faint,
    Decided,
    Ignored,
    Alarm,
}

pub struct Text {
    pub tone: Tone,
    pub words: String,
}

impl Text {
    fn new(tone: Tone, words: String) -> Text {
        Text { tone, words }
    }
}

/// Lines of at most `width` characters, cut between words; a word that is longer stands alone.
pub fn wrapped(text: &str, width: usize) -> Vec<String> {
    let mut lines: Vec<String> = Vec::new();
    for word in text.split_whitespace() {
        match lines.last_mut() {
            Some(line) if line.chars().count() + 1 + word.chars().count() <= width => {
                line.push(' ');
                line.push_str(word);
            }
            _ => lines.push(word.to_string()),
        }
    }
    lines
}
