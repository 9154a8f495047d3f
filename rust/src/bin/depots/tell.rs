//! Entries, ballots, messages and refusals in words.

use hire_depots::words;

/// Why a line cannot be run.
pub type Reason = String;

const REFUSALS: [&str; 9] = [
    "taken",
    "a size out of range, or read + write not above the depots",
    "the record is broken",
    "no such depot",
    "the message is unfit",
    "the proposal would take the leader's log past 512",
    "the queue would pass 64 messages or 4,096 entries",
    "a session or counter is at its top",
    "more than 16 buffered proposals would result",
];

const KINDS: [&str; 9] =
    ["PrepareReq", "Prepare", "Promise", "AcceptSync", "AcceptDecide", "Accepted", "NotAccepted", "Decide", "ProposalForward"];

/// What each kind of message says, for readers who keep books and not boxes.
const MEANINGS: [&str; 9] = [
    "ask me for my promise again",
    "I want to lead: promise to follow me, and say what you have",
    "I follow you, and this is what I have",
    "a session starts (its number is SESSION.1): put your log in order with this",
    "write these entries down, after those before",
    "I have written them down",
    "I follow another leader",
    "what is written down so far is decided: charge by it",
    "you lead: propose these for me",
];

/// A message: its head's block, and its entries.
#[derive(Clone, PartialEq)]
pub struct Message {
    pub head: [u64; words::BLOCK],
    pub entries: Vec<u64>,
}

pub fn refusal(number: u32) -> String {
    format!("refused {number}: {}", REFUSALS.get(number as usize).copied().unwrap_or("?"))
}

pub fn ballot(w: &[u64]) -> String {
    format!("{}.{}.{}", w[0], w[1], w[2])
}

/// Pump, kind and day of an entry that is within its limit.
fn slip(entry: u64) -> Option<(u64, &'static str, u64)> {
    const MOST: u64 = 33_554_431;
    let kind = if entry / 256 % 2 == 1 { "back" } else { "out" };
    (entry <= MOST).then_some((entry % 256, kind, entry / 512))
}

/// An entry as a script writes it: `out:7:10`.
pub fn entry(entry: u64) -> String {
    slip(entry).map_or(entry.to_string(), |(pump, kind, day)| format!("{kind}:{pump}:{day}"))
}

/// An entry as the yard says it: `pump 7 out on day 10`.
pub fn entry_in_words(entry: u64) -> String {
    slip(entry).map_or(format!("{entry}, which is no entry"), |(pump, kind, day)| format!("pump {pump} {kind} on day {day}"))
}

/// Entries in words, the first few of a long row.
pub fn entries_in_words(entries: &[u64]) -> String {
    const SHOWN: usize = 3;
    let mut all: Vec<String> = entries.iter().take(SHOWN).map(|e| entry_in_words(*e)).collect();
    if entries.len() > SHOWN {
        all.push(format!("{} more", entries.len() - SHOWN));
    }
    all.join(", ")
}

pub fn days(count: u64) -> String {
    if count == 1 { "1 day".to_string() } else { format!("{count} days") }
}

pub fn entries(count: u64) -> String {
    if count == 1 { "1 entry".to_string() } else { format!("{count} entries") }
}

impl Message {
    pub fn to(&self) -> usize {
        self.head[0] as usize
    }

    pub fn kind(&self) -> usize {
        self.head[1] as usize
    }

    pub fn kind_name(&self) -> &'static str {
        KINDS.get(self.kind()).copied().unwrap_or("?")
    }

    pub fn meaning(kind: usize) -> (&'static str, &'static str) {
        (KINDS.get(kind).copied().unwrap_or("?"), MEANINGS.get(kind).copied().unwrap_or("?"))
    }

    fn is_numbered(&self) -> bool {
        matches!(self.kind(), 3 | 4 | 7)
    }

    /// The kind and what tells it from others of its kind: its number, or its ballot.
    pub fn label(&self) -> String {
        let h = &self.head;
        match self.kind() {
            8 => self.kind_name().to_string(),
            _ if self.is_numbered() => format!("{} {}.{}", self.kind_name(), h[8], h[9]),
            _ => format!("{} ({})", self.kind_name(), ballot(&h[2..5])),
        }
    }

    /// The message in one line: its kind, its ballot, and what else it says.
    pub fn told(&self) -> String {
        let h = &self.head;
        let mut s = self.kind_name().to_string();
        if h[1] != 8 {
            s += &format!(" {}", ballot(&h[2..5]));
        }
        if matches!(h[1], 1 | 2) {
            s += &format!(" accepted {} in {} decided {}", h[11], ballot(&h[5..8]), h[10]);
        }
        if self.is_numbered() {
            s += &format!(" number {}.{} decided {}", h[8], h[9], h[10]);
        }
        if h[1] == 3 || (h[1] == 2 && h[12] == 1) {
            s += &format!(" sync from {}", h[13]);
        }
        if h[1] == 5 {
            s += &format!(" accepted {}", h[11]);
        }
        if !self.entries.is_empty() {
            let all: Vec<String> = self.entries.iter().map(|e| entry(*e)).collect();
            s += &format!(" [{}]", all.join(" "));
        }
        s
    }
}
