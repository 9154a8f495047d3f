//! What depots say to each other.

use crate::ballot::{Ballot, Number};
use crate::entry;
use crate::event::Event;
use crate::words::*;
use std::fmt;

/// A message between depots. The entries that an AcceptSync, an AcceptDecide, a ProposalForward or a Promise with a sync carries
/// lie beside it.
///
/// ```
/// use hire_depots::{Ballot, Message};
/// let m = Message::Accepted { n: Ballot::new(1, 0, 2), accepted: 5 };
/// assert_eq!(m.to_string(), "Accepted 1.0.2 accepted 5");
/// assert_eq!(Message::of(&m.words()), Some(m));
/// ```
#[derive(Clone, Copy, Debug, PartialEq, Eq, Hash)]
pub enum Message {
    /// A depot asks a leader to prepare it anew.
    PrepareReq {
        /// The ballot that the asker has promised.
        n: Ballot,
    },
    /// A leader asks for a promise.
    Prepare {
        /// The leader's ballot.
        n: Ballot,
        /// The leader's accepted round.
        n_accepted: Ballot,
        /// The leader's decided index.
        decided: u64,
        /// The leader's log length.
        accepted: u64,
    },
    /// A depot promises to follow no lower ballot.
    Promise {
        /// The ballot that is promised.
        n: Ballot,
        /// The depot's accepted round.
        n_accepted: Ballot,
        /// The depot's decided index.
        decided: u64,
        /// The depot's log length.
        accepted: u64,
        /// Where the entries beside it start in the log, if it brings any part of the log.
        sync: Option<u64>,
    },
    /// A leader gives a depot the end of its log; the entries come beside it.
    AcceptSync {
        /// The leader's ballot.
        n: Ballot,
        /// The message's number: the first of a session.
        number: Number,
        /// The leader's decided index.
        decided: u64,
        /// Where the entries start in the log; what the depot has from there on is replaced.
        sync: u64,
    },
    /// A leader gives a depot the next entries, which come beside it.
    AcceptDecide {
        /// The leader's ballot.
        n: Ballot,
        /// The message's number.
        number: Number,
        /// The leader's decided index.
        decided: u64,
    },
    /// A depot tells how long its log is.
    Accepted {
        /// The ballot that it follows.
        n: Ballot,
        /// Its log length.
        accepted: u64,
    },
    /// A depot tells that it has promised a higher ballot.
    NotAccepted {
        /// The ballot that it has promised.
        n: Ballot,
    },
    /// A leader tells how far the log is decided.
    Decide {
        /// The leader's ballot.
        n: Ballot,
        /// The message's number.
        number: Number,
        /// The decided index.
        decided: u64,
    },
    /// A depot passes a proposal, which comes beside it, to the leader.
    ProposalForward,
}

impl Message {
    /// The kind's number in the words.
    pub const fn kind(&self) -> u64 {
        match self {
            Message::PrepareReq { .. } => PREPARE_REQ,
            Message::Prepare { .. } => PREPARE,
            Message::Promise { .. } => PROMISE_KIND,
            Message::AcceptSync { .. } => ACCEPT_SYNC,
            Message::AcceptDecide { .. } => ACCEPT_DECIDE,
            Message::Accepted { .. } => ACCEPTED,
            Message::NotAccepted { .. } => NOT_ACCEPTED,
            Message::Decide { .. } => DECIDE,
            Message::ProposalForward => PROPOSAL_FORWARD,
        }
    }

    /// The kind's name.
    pub const fn name(&self) -> &'static str {
        match self {
            Message::PrepareReq { .. } => "PrepareReq",
            Message::Prepare { .. } => "Prepare",
            Message::Promise { .. } => "Promise",
            Message::AcceptSync { .. } => "AcceptSync",
            Message::AcceptDecide { .. } => "AcceptDecide",
            Message::Accepted { .. } => "Accepted",
            Message::NotAccepted { .. } => "NotAccepted",
            Message::Decide { .. } => "Decide",
            Message::ProposalForward => "ProposalForward",
        }
    }

    /// The message's ballot; a ProposalForward has none.
    pub const fn ballot(&self) -> Option<Ballot> {
        match *self {
            Message::PrepareReq { n }
            | Message::Prepare { n, .. }
            | Message::Promise { n, .. }
            | Message::AcceptSync { n, .. }
            | Message::AcceptDecide { n, .. }
            | Message::Accepted { n, .. }
            | Message::NotAccepted { n }
            | Message::Decide { n, .. } => Some(n),
            Message::ProposalForward => None,
        }
    }

    /// Whether a message of this kind has entries beside it.
    pub const fn carries(&self) -> bool {
        match self {
            Message::AcceptSync { .. } | Message::AcceptDecide { .. } | Message::ProposalForward => true,
            Message::Promise { sync, .. } => sync.is_some(),
            _ => false,
        }
    }

    /// The message in words 1 to 13 of a block, as in a head and in an event (docs/LAYOUT.md); all others are 0.
    pub fn words(&self) -> [u64; BLOCK] {
        let mut w = [0; BLOCK];
        w[KIND] = self.kind();
        if let Some(n) = self.ballot() {
            n.write(&mut w[N..]);
        }
        match *self {
            Message::Prepare { n_accepted, decided, accepted, .. } => {
                n_accepted.write(&mut w[N_ACCEPTED..]);
                w[TOLD_DECIDED] = decided;
                w[TOLD_ACCEPTED] = accepted;
            }
            Message::Promise { n_accepted, decided, accepted, sync, .. } => {
                n_accepted.write(&mut w[N_ACCEPTED..]);
                w[TOLD_DECIDED] = decided;
                w[TOLD_ACCEPTED] = accepted;
                w[SYNCS] = sync.is_some().into();
                w[SYNC_FROM] = sync.unwrap_or(0);
            }
            Message::AcceptSync { number, decided, sync, .. } => {
                number.write(&mut w[SEQ_NUM..]);
                w[TOLD_DECIDED] = decided;
                w[SYNC_FROM] = sync;
            }
            Message::AcceptDecide { number, decided, .. } | Message::Decide { number, decided, .. } => {
                number.write(&mut w[SEQ_NUM..]);
                w[TOLD_DECIDED] = decided;
            }
            Message::Accepted { accepted, .. } => w[TOLD_ACCEPTED] = accepted,
            Message::PrepareReq { .. } | Message::NotAccepted { .. } | Message::ProposalForward => {}
        }
        w
    }

    /// The message in a block's words; `None` where they mean none. Words that the kind does not use are not looked at.
    pub fn of(w: &[u64; BLOCK]) -> Option<Message> {
        let n = || Ballot::read(&w[N..]);
        let n_accepted = || Ballot::read(&w[N_ACCEPTED..]);
        let number = Number::read(&w[SEQ_NUM..]);
        let (decided, accepted) = (w[TOLD_DECIDED], w[TOLD_ACCEPTED]);
        Some(match w[KIND] {
            PREPARE_REQ => Message::PrepareReq { n: n()? },
            PREPARE => Message::Prepare { n: n()?, n_accepted: n_accepted()?, decided, accepted },
            PROMISE_KIND => Message::Promise { n: n()?, n_accepted: n_accepted()?, decided, accepted, sync: sync_of(w)? },
            ACCEPT_SYNC => Message::AcceptSync { n: n()?, number, decided, sync: w[SYNC_FROM] },
            ACCEPT_DECIDE => Message::AcceptDecide { n: n()?, number, decided },
            ACCEPTED => Message::Accepted { n: n()?, accepted },
            NOT_ACCEPTED => Message::NotAccepted { n: n()? },
            DECIDE => Message::Decide { n: n()?, number, decided },
            PROPOSAL_FORWARD => Message::ProposalForward,
            _ => return None,
        })
    }
}

/// Where a Promise's sync starts, if one comes with it; `None` where the words mean neither.
fn sync_of(w: &[u64; BLOCK]) -> Option<Option<u64>> {
    match w[SYNCS] {
        0 => Some(None),
        1 => Some(Some(w[SYNC_FROM])),
        _ => None,
    }
}

impl fmt::Display for Message {
    fn fmt(&self, f: &mut fmt::Formatter<'_>) -> fmt::Result {
        write!(f, "{}", self.name())?;
        if let Some(n) = self.ballot() {
            write!(f, " {n}")?;
        }
        match self {
            Message::Prepare { n_accepted, decided, accepted, .. } | Message::Promise { n_accepted, decided, accepted, .. } => {
                write!(f, " accepted {accepted} in {n_accepted} decided {decided}")?
            }
            Message::AcceptSync { number, decided, .. } | Message::AcceptDecide { number, decided, .. } | Message::Decide { number, decided, .. } => {
                write!(f, " number {number} decided {decided}")?
            }
            Message::Accepted { accepted, .. } => write!(f, " accepted {accepted}")?,
            Message::PrepareReq { .. } | Message::NotAccepted { .. } | Message::ProposalForward => {}
        }
        match self {
            Message::Promise { sync: Some(sync), .. } | Message::AcceptSync { sync, .. } => write!(f, " sync from {sync}"),
            _ => Ok(()),
        }
    }
}

/// A message that a drain handed out: to whom, what, and the entries beside it.
#[derive(Clone, Debug, PartialEq, Eq, Hash)]
pub struct Outgoing {
    /// The receiver's pid.
    pub to: u64,
    /// The message.
    pub message: Message,
    /// The entries beside it, in order.
    pub entries: Vec<u64>,
}

impl Outgoing {
    /// The event at the receiver when the message arrives over the link from `from`.
    pub fn arrives_from(&self, from: u64) -> Event<'_> {
        Event::Message { from, message: self.message, entries: &self.entries }
    }
}

impl fmt::Display for Outgoing {
    fn fmt(&self, f: &mut fmt::Formatter<'_>) -> fmt::Result {
        write!(f, "to {}: {}", self.to, self.message)?;
        if self.entries.is_empty() {
            return Ok(());
        }
        write!(f, " {}", entry::told(&self.entries))
    }
}
