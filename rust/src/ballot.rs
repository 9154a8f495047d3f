//! Ballots and numbers, and their words.

use std::fmt;

/// A ballot: which depot leads, in which round. Compared by round, then priority, then pid; all zero is the default, the lowest.
///
/// ```
/// use hire_depots::Ballot;
/// let first = Ballot::new(1, 0, 2);
/// assert!(first > Ballot::default());
/// assert!(Ballot::new(1, 5, 1) > first);
/// assert_eq!(first.next(3), Some(Ballot::new(2, 0, 3)));
/// assert_eq!(first.to_string(), "1.0.2");
/// ```
#[derive(Clone, Copy, Debug, Default, PartialEq, Eq, PartialOrd, Ord, Hash)]
pub struct Ballot {
    /// The round.
    pub round: u32,
    /// The priority, which decides between ballots of one round.
    pub priority: u32,
    /// The depot that leads by this ballot; 0 in the default.
    pub pid: u64,
}

impl Ballot {
    /// A ballot of these three parts.
    pub const fn new(round: u32, priority: u32, pid: u64) -> Ballot {
        Ballot { round, priority, pid }
    }

    /// The next round's ballot for a depot, with priority 0; `None` after the last round.
    pub fn next(self, pid: u64) -> Option<Ballot> {
        Some(Ballot { round: self.round.checked_add(1)?, priority: 0, pid })
    }

    /// The ballot in three words; `None` where the round or the priority has more than 32 bits.
    pub(crate) fn read(words: &[u64]) -> Option<Ballot> {
        Some(Ballot { round: words[0].try_into().ok()?, priority: words[1].try_into().ok()?, pid: words[2] })
    }

    pub(crate) fn write(self, words: &mut [u64]) {
        words[0] = self.round.into();
        words[1] = self.priority.into();
        words[2] = self.pid;
    }
}

impl fmt::Display for Ballot {
    fn fmt(&self, f: &mut fmt::Formatter<'_>) -> fmt::Result {
        write!(f, "{}.{}.{}", self.round, self.priority, self.pid)
    }
}

/// The number of a message from a leader to a depot, by which the depot sees that one before it was lost.
#[derive(Clone, Copy, Debug, Default, PartialEq, Eq, PartialOrd, Ord, Hash)]
pub struct Number {
    /// The session: one more with each AcceptSync.
    pub session: u64,
    /// The counter within the session.
    pub counter: u64,
}

impl Number {
    pub(crate) fn read(words: &[u64]) -> Number {
        Number { session: words[0], counter: words[1] }
    }

    pub(crate) fn write(self, words: &mut [u64]) {
        words[0] = self.session;
        words[1] = self.counter;
    }
}

impl fmt::Display for Number {
    fn fmt(&self, f: &mut fmt::Formatter<'_>) -> fmt::Result {
        write!(f, "{}.{}", self.session, self.counter)
    }
}
