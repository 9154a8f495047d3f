//! What a box is told.

use crate::ballot::Ballot;
use crate::entry;
use crate::message::Message;
use crate::words::{self, EVENT, N, TO, WHAT};
use std::fmt;

/// What a step is: something that happens to a box.
#[derive(Clone, Copy, Debug, PartialEq, Eq, Hash)]
pub enum Event<'a> {
    /// A message arrives. `from` is the depot at the other end of the link; take it from the link and not from what was sent.
    Message {
        /// The sender's pid.
        from: u64,
        /// The message.
        message: Message,
        /// The entries beside it; not looked at where the message carries none.
        entries: &'a [u64],
    },
    /// Entries are proposed, 1 to 16. A leader takes them up, a follower forwards them, and without a leader they are buffered.
    Propose {
        /// The entries' numbers ([`Entry::number`](crate::Entry::number)).
        entries: &'a [u64],
    },
    /// A leader is elected, this depot or another. A ballot not above the promise changes nothing.
    Leader {
        /// The leader's ballot.
        ballot: Ballot,
    },
    /// The link to a depot was broken, or may have lost something, and stands again.
    Reconnect {
        /// The depot at its other end.
        pid: u64,
    },
    /// The timer for unanswered messages.
    Resend,
    /// The queue is handed out and emptied. [`DepotBox::drain`](crate::DepotBox::drain) is this step and gives the messages; given to
    /// [`DepotBox::step`](crate::DepotBox::step) it loses them.
    Drain,
    /// The box starts again: promise, accepted round, log and decided index stay, the book is made again, all else is as fresh.
    Restart,
}

impl<'a> Event<'a> {
    /// The event's number in the words.
    pub const fn what(&self) -> u64 {
        match self {
            Event::Message { .. } => words::MESSAGE,
            Event::Propose { .. } => words::PROPOSE,
            Event::Leader { .. } => words::LEADER,
            Event::Reconnect { .. } => words::RECONNECT,
            Event::Resend => words::RESEND,
            Event::Drain => words::DRAIN,
            Event::Restart => words::RESTART,
        }
    }

    /// The event in words, and the entries beside it (docs/LAYOUT.md).
    pub fn words(&self) -> ([u64; EVENT], &'a [u64]) {
        let mut w = words::event(self.what());
        match *self {
            Event::Message { from, message, entries } => {
                w = message.words();
                w[TO] = from;
                w[WHAT] = words::MESSAGE;
                return (w, entries);
            }
            Event::Propose { entries } => return (w, entries),
            Event::Leader { ballot } => ballot.write(&mut w[N..]),
            Event::Reconnect { pid } => w[TO] = pid,
            Event::Resend | Event::Drain | Event::Restart => {}
        }
        (w, &[])
    }
}

impl fmt::Display for Event<'_> {
    fn fmt(&self, f: &mut fmt::Formatter<'_>) -> fmt::Result {
        match self {
            Event::Message { from, message, entries: [] } => write!(f, "from {from}: {message}"),
            Event::Message { from, message, entries } => write!(f, "from {from}: {message} {}", entry::told(entries)),
            Event::Propose { entries } => write!(f, "propose {}", entry::told(entries)),
            Event::Leader { ballot } => write!(f, "leader {ballot}"),
            Event::Reconnect { pid } => write!(f, "reconnect {pid}"),
            Event::Resend => write!(f, "resend"),
            Event::Drain => write!(f, "drain"),
            Event::Restart => write!(f, "restart"),
        }
    }
}
