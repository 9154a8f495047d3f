//! Who the depots are, and how many make a quorum.

use crate::words::{self, DEPOTS, PID, QUORUM, READ, WRITE};
use std::fmt;

/// How many depots must answer.
#[derive(Clone, Copy, Debug, PartialEq, Eq, Hash)]
pub enum Quorum {
    /// depots / 2 rounded down, plus 1, for reading and for writing.
    Majority,
    /// A read and a write size, each 1 to depots, which together exceed the depots.
    Flexible {
        /// How many depots must promise before a leader leads.
        read: u64,
        /// How many depots must hold an entry before it is decided.
        write: u64,
    },
}

/// One depot's configuration. All depots of a cluster have the same, but for the own pid, and for good.
#[derive(Clone, Copy, Debug, PartialEq, Eq, Hash)]
pub struct Configuration {
    /// How many depots there are, 2 to 7.
    pub depots: u64,
    /// The own pid, 1 to depots.
    pub pid: u64,
    /// How many must answer.
    pub quorum: Quorum,
}

impl Configuration {
    /// One of so many depots, with majorities.
    pub const fn majority(depots: u64, pid: u64) -> Configuration {
        Configuration { depots, pid, quorum: Quorum::Majority }
    }

    /// One of so many depots, with a read and a write size.
    pub const fn flexible(depots: u64, pid: u64, read: u64, write: u64) -> Configuration {
        Configuration { depots, pid, quorum: Quorum::Flexible { read, write } }
    }

    /// The other depots' pids.
    pub fn others(&self) -> impl Iterator<Item = u64> {
        let own = self.pid;
        (1..=self.depots).filter(move |&pid| pid != own)
    }

    /// The configuration in words (docs/LAYOUT.md).
    pub fn words(&self) -> [u64; words::CONFIGURATION] {
        let mut w = [0; words::CONFIGURATION];
        w[DEPOTS] = self.depots;
        w[PID] = self.pid;
        match self.quorum {
            Quorum::Majority => w[READ] = self.depots / 2 + 1,
            Quorum::Flexible { read, write } => {
                w[QUORUM] = 1;
                w[READ] = read;
                w[WRITE] = write;
            }
        }
        w
    }
}

impl fmt::Display for Configuration {
    fn fmt(&self, f: &mut fmt::Formatter<'_>) -> fmt::Result {
        write!(f, "depot {} of {}", self.pid, self.depots)?;
        match self.quorum {
            Quorum::Majority => write!(f, ", majorities"),
            Quorum::Flexible { read, write } => write!(f, ", read {read} write {write}"),
        }
    }
}
